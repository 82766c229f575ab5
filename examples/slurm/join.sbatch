#!/bin/bash
#SBATCH --job-name=tdelay-join
#SBATCH --cpus-per-task=1
#SBATCH --mem=2G
#SBATCH --output=join.log
# Joins the certificates of all parts and checks the whole. Where parts lack one, it says which, and
# between which figures the worst delay lies, when each part has come to some.
rm -f whole.cert
total=$(wc -l < parts.txt)
lacking=$(for part in $(seq "$total"); do
    [ -f "part-$part.cert" ] || echo "$part"
done | paste -sd' ')
if [ -n "$lacking" ]; then
    echo "parts without a certificate: $lacking"
    awk '$1 == "exact" { low = $2; high = $2 } $1 == "between" { low = $2; high = $3 }
        $1 == "exact" || $1 == "between" {
            parts++; if (low > most) most = low; if (high > above) above = high }
        END { if (parts == '"$total"') print "between", most + 0, above + 0 }' part-*.out
    echo "submit them again: BUDGET=.. submit.sh with the same words"
    exit 3
fi
# shellcheck disable=SC2046,SC2086 # words of the command line
"$TDELAY" join "$NETLIST" $(seq -f 'part-%.0f.cert' "$total") $ASKED --no-check \
    --cert whole.cert
joined=$?
case $joined in 0 | 3 | 6) ;; *) exit $joined ;; esac
# shellcheck disable=SC2086 # words of the command line
checked=$("$TDELAY" check "$NETLIST" whole.cert $READ)
status=$?
printf '%s\n' "$checked" | head -n 1
[ $status -ne 0 ] || status=$joined
exit $status
