#!/usr/bin/env bash
# many_machines.sh FILE PARTS OUT [OPTION VALUE]..: cuts the search of FILE into PARTS parts,
# searches them side by side, and joins their certificates into OUT. The options are those of
# `worst` that have a value, but for --cert and --vcd, as `--flips 2` or `--flips=2`, and
# --cert-between, which --required brings with it.
#
# Uses GNU parallel where it is there, else xargs -P, with as many jobs as JOBS says, or as there
# are processors. TDELAY is the program (./tdelay where left out). Prints what `join` prints, which
# checks no part here, and what `check` says of the whole. Its status is that of `check`, and that of
# `join` where the whole is accepted. If a part was cut short and has no certificate it prints
# `between LOW HIGH`, the greatest of the parts, and ends with status 3.
set -euo pipefail

[ $# -ge 3 ] || { sed -n '2,/^[^#]/s/^# \{0,1\}//p' "$0" >&2; exit 2; }
FILE=$1 PARTS=$2 OUT=$3
shift 3
export TDELAY=${TDELAY:-./tdelay}
JOBS=${JOBS:-$(getconf _NPROCESSORS_ONLN)}
WORK=$(mktemp -d)
trap 'rm -rf "$WORK"' EXIT

# What is asked (`parts` gives it to each `worst`, and `join` is asked it), what of it no certificate
# says, so that `check` is told, how `parts` cuts, and how `worst` searches.
ASKED=() READ=() CUT=() HOW=() BETWEEN=()
while [ $# -gt 0 ]; do
    case $1 in --cert-between) BETWEEN=("$1"); shift; continue ;; esac
    case $1 in --*=*) set -- "${1%%=*}" "${1#*=}" "${@:2}" ;; esac
    [ $# -ge 2 ] || { echo "many_machines.sh: $1 has no value" >&2; exit 2; }
    case $1 in
    --first | --second | --pin | --hold | --hold-input | --keep | --flips | --at)
        ASKED+=("$1" "$2") ;;
    --required) ASKED+=("$1" "$2") BETWEEN=(--cert-between) ;;
    --output | --default-rise | --default-fall) ASKED+=("$1" "$2") READ+=("$1" "$2") ;;
    --strategy) CUT+=("$1" "$2") HOW+=("$1" "$2") ;;
    *) HOW+=("$1" "$2") ;;
    esac
    shift 2
done
HOW+=("${BETWEEN[@]}")

"$TDELAY" parts "$FILE" --parts "$PARTS" "${ASKED[@]}" "${CUT[@]}" > "$WORK/parts"

cat > "$WORK/part" <<'PART'
#!/usr/bin/env bash
# part WORK FILE N [options]: the part of a number: status 0 where it is searched, be it cut short,
# or later than is required.
work=$1 file=$2 part=$3
shift 3
# shellcheck disable=SC2046 # words of the command line
"$TDELAY" worst "$file" $(sed -n "${part}p" "$work/parts") "$@" --cert "$work/$part.cert" \
    > "$work/$part.out"
status=$?
[ $status -eq 0 ] || [ $status -eq 3 ] || [ $status -eq 6 ]
PART
chmod +x "$WORK/part"

COUNT=$(wc -l < "$WORK/parts")
if command -v parallel > /dev/null 2>&1; then
    seq "$COUNT" | parallel --will-cite -j "$JOBS" "$WORK/part" "$WORK" "$FILE" {} "${HOW[@]}"
else
    seq "$COUNT" | xargs -I{} -P "$JOBS" "$WORK/part" "$WORK" "$FILE" {} "${HOW[@]}"
fi

CERTS=() LACKING=""
for part in $(seq "$COUNT"); do
    CERTS+=("$WORK/$part.cert")
    [ -f "$WORK/$part.cert" ] || LACKING=1
done
if [ -n "$LACKING" ]; then
    awk '$1 == "exact" { low = $2; high = $2 } $1 == "between" { low = $2; high = $3 }
        $1 == "exact" || $1 == "between" { if (low > most) most = low; if (high > above) above = high }
        END { print "between", most + 0, above + 0 }' "$WORK"/*.out
    exit 3
fi
joined=0 status=0
"$TDELAY" join "$FILE" "${CERTS[@]}" --no-check --cert "$OUT" "${ASKED[@]}" || joined=$?
case $joined in 0 | 3 | 6) ;; *) exit $joined ;; esac
"$TDELAY" check "$FILE" "$OUT" "${READ[@]}" > "$WORK/checked" || status=$?
head -n 1 "$WORK/checked"
[ $status -ne 0 ] || status=$joined
exit $status
