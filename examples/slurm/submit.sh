#!/bin/sh
# submit.sh NETLIST PARTS [OPTION VALUE]..
# Searches a netlist as a job array of Slurm: cuts the question into PARTS parts (parts.txt),
# submits a task for each, and a job that joins their certificates into whole.cert when all have
# ended (join.log). The options are those of `worst` that have a value, and --cert-between; --cert and
# --vcd aren't needed.
#
# Run it in a folder that all nodes see. Run again with the same words, it submits those parts
# alone that have no certificate; give a greater BUDGET where some were cut short. With
# --cert-between a part that was cut short may have one, and is joined as it is. TDELAY is the
# program, ./tdelay where it isn't set, and MOST the most tasks at a time. A partition, an account
# and such go by Slurm's own variables, as SBATCH_PARTITION.
set -eu
[ $# -ge 2 ] || { sed -n '2,/^[^#]/s/^# \{0,1\}//p' "$0" >&2; exit 2; }
here=$(cd "$(dirname "$0")" && pwd)
words="$*" NETLIST=$1 count=$2
shift 2
TDELAY=${TDELAY:-./tdelay} BUDGET=${BUDGET:-} most=${MOST:-64}

# What is asked (`parts` gives it to each `worst`), what of it no certificate says, so that `check`
# is told, how `parts` cuts, and how `worst` searches.
ASKED="" READ="" CUT="" HOW=""
while [ $# -gt 0 ]; do
    option=$1
    shift
    case $option in
    --cert-between) HOW="$HOW $option"; continue ;;
    --*=*) value=${option#*=} option=${option%%=*} ;;
    *)
        [ $# -gt 0 ] || { echo "submit.sh: $option has no value" >&2; exit 2; }
        value=$1
        shift ;;
    esac
    case $option in
    --first | --second | --pin | --hold | --hold-input | --keep | --flips | --at | --required)
        ASKED="$ASKED $option $value" ;;
    --output | --default-rise | --default-fall)
        ASKED="$ASKED $option $value" READ="$READ $option $value" ;;
    --strategy) CUT="$CUT $option $value" HOW="$HOW $option $value" ;;
    --budget) BUDGET=$value ;;
    *) HOW="$HOW $option $value" ;;
    esac
done
export NETLIST TDELAY HOW ASKED READ BUDGET

if [ ! -f parts.txt ]; then
    # shellcheck disable=SC2086 # words of the command line
    "$TDELAY" parts "$NETLIST" --parts "$count" $ASKED $CUT > parts.part
    echo "$words" > question.txt
    mv parts.part parts.txt
elif [ "$words" != "$(cat question.txt)" ]; then
    echo "submit.sh: parts.txt here is of another question: $(cat question.txt)" >&2
    echo "  what to do: give the same words, or work in another folder" >&2
    exit 1
fi

# An array's numbers are below MaxArraySize, so more parts make more arrays.
block=$(scontrol show config | sed -n 's/^MaxArraySize *= *//p')
block=$((${block:-1001} - 1))
total=$(wc -l < parts.txt)
arrays="" OFFSET=0
while [ "$OFFSET" -lt "$total" ]; do
    export OFFSET
    left=$(for place in $(seq "$block"); do
        part=$((OFFSET + place))
        [ "$part" -gt "$total" ] || [ -f "part-$part.cert" ] || echo "$place"
    done | paste -sd,)
    if [ -n "$left" ]; then
        log="part-%a.log"
        [ "$OFFSET" -eq 0 ] || log="part-$OFFSET+%a.log"
        job=$(sbatch --parsable --array="$left%$most" --output="$log" "$here/part.sbatch")
        arrays=$arrays:${job%%;*}
    fi
    OFFSET=$((OFFSET + block))
done
[ -n "$arrays" ] || echo "submit.sh: every part has a certificate" >&2
sbatch ${arrays:+--dependency=afterany$arrays} "$here/join.sbatch"
