#!/bin/bash
#SBATCH --job-name=tdelay-part
#SBATCH --cpus-per-task=1
#SBATCH --mem=2G
#SBATCH --signal=B:USR1@60
# One part: the line of parts.txt that the array's index and OFFSET name. submit.sh sets the other
# variables. Status 3 says that the part was cut short, and 6 that a pair of it is later than is
# required; Slurm calls that a failed job. A minute before its time limit Slurm sends USR1 to this
# shell, which makes the file that ends the search with what it has.
part=$((OFFSET + SLURM_ARRAY_TASK_ID))
stop="part-$part.stop"
rm -f "part-$part.cert" "$stop"
trap 'signalled=yes; true > "$stop"' USR1
# shellcheck disable=SC2046,SC2086 # words of the command line
"$TDELAY" worst "$NETLIST" $(sed -n "${part}p" parts.txt) $HOW ${BUDGET:+--budget "$BUDGET"} \
    --stop "$stop" --cert "part-$part.cert" > "part-$part.out" &
search=$!
# The signal ends the wait, not the search.
until
    signalled=''
    wait "$search"
    status=$?
    [ -z "$signalled" ]
do :; done
rm -f "$stop"
exit $status
