#!/bin/sh
# blocks.sh OUT [options of `tdelay worst`]
# Figures of several blocks side by side, by GNU parallel: a report for each in the folder OUT, and a
# log of their statuses, OUT/joblog. Status 0 where each is exact, else the greatest of them.
set -eu
[ $# -ge 1 ] || { sed -n '2,4s/^# //p' "$0" >&2; exit 2; }
here=$(cd "$(dirname "$0")" && pwd)
out=$1
shift
mkdir -p "$out"
parallel --will-cite --joblog "$out/joblog" "$here/../../bridges/figure.sh" "$here/{}.v" {} \
    "$here/../../bridges/tiny.lib" "$out/{}" --json "$@" '>' "$out/{}.figure.json" \
    ::: alu_8 bcd_adder dual_rail || :
awk 'NR > 1 { if ($7 > most) most = $7 } END { exit most }' "$out/joblog"
