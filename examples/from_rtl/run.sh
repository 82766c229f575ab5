#!/bin/sh
# run.sh OUT
# Takes the six designs of this folder from RTL to exact figures, with the cells of
# bridges/tiny.lib, and leaves everything in the folder OUT: netlists, SDF files, proofs,
# certificates, waves and pictures. TDELAY is the program, ./tdelay where it isn't set.
set -eu
[ $# -eq 1 ] || { sed -n '2,5s/^# //p' "$0" >&2; exit 2; }
here=$(cd "$(dirname "$0")" && pwd)
top=$(cd "$here/../.." && pwd)
mkdir -p "$1"
out=$(cd "$1" && pwd)
tdelay=${TDELAY:-$top/tdelay}
liberty=$top/bridges/tiny.lib

# gates DESIGN: from RTL to gates, and the proof that they do the same.
gates() {
    [ ! -f "$here/$1.options" ] || cp "$here/$1.options" "$out"
    "$top/bridges/synth.sh" "$here/$1.v" "$1" "$liberty" "$out/$1"
    "$top/bridges/from_liberty.sh" "$out/$1.mapped.v" "$1" "$liberty" "$out/$1"
    "$top/bridges/equivalent.sh" "$here/$1.v" "$1" "$liberty" "$out/$1"
    sed -n 's/^ *\([0-9.]*\) *data arrival time.*/OpenSTA: data arrival time \1 ns/p;T;q' "$out/$1.sta.log"
}

# worst DESIGN NAME OPTION..: the worst delay, its certificate, its path, its waves and a picture.
worst() {
    design=$1 name=$2
    shift 2
    "$tdelay" worst "$out/$design.v" --strategy "${strategy:-lead}" --cert "$out/$name.cert" --vcd "$out/$name.vcd" \
        --path "$@" > "$out/$name.txt" || [ $? = 6 ]
    echo "$name: $(grep -E '^(exact|between) ' "$out/$name.txt") ps, $("$tdelay" check "$out/$design.v" "$out/$name.cert" | head -n 1)"
    python3 "$top/tools/drawing.py" "$out/$name.vcd" --width 900 --path "$out/$name.txt" > "$out/$name.svg"
    "$top/bridges/view.py" "$out/$name.vcd" "$out/$name.txt" > "$out/$name.gtkw"
}

gates alu_8
worst alu_8 alu_8
worst alu_8 alu_8_adds --first 000................ --second 000................
gates bcd_adder
worst bcd_adder bcd_adder
gates dual_rail
worst dual_rail request_rises --first 0........ --second 1........ --hold .========
worst dual_rail request_falls --first 1........ --second 0........ --hold .========
gates carry_skip
strategy=refute
worst carry_skip carry_skip
gates arbiter
worst arbiter arbiter
# shellcheck disable=SC2046 # options are words
worst arbiter arbiter_code $(sed 's/#.*//' "$out/arbiter.options")
worst arbiter any_stays --keep ok=11 --keep any=11 --output any
gates ones
"$tdelay" worst "$out/ones.v" --hazards --flips 1
worst ones sum_stays --flips 1 --output 'sum[1]' --keep 'sum[1]=11' --required 0
