#!/bin/sh
# synth.sh RTL.v TOP LIBERTY OUT [--allow NAME].. [--keep-net NET]..
# Synthesises RTL by yosys and ABC onto the cells of a Liberty library, as OUT.mapped.v, with
# buffers and sizes for its loads.
#
# RTL.v may be several files, as one word with spaces, and have -IFOLDER and -DNAME=VALUE before
# them. It may instantiate cells of the library. Modules are mapped one by one and flattened at the
# end, so that nothing is optimised across the border of a module. A net with two drivers, z, a net
# without a driver and one that isn't declared are refused: TwoDrivers, HighZ, NoDriver,
# ImplicitNet. --allow NAME goes on. A net NET of TOP stays, though nothing reads it, as those do
# that `--keep` names in OUT.options.
# shellcheck disable=SC2086 # words that are several files
set -eu
script=synth.sh
here=$(dirname "$0")
# shellcheck source=bridges/common.sh
. "$here/common.sh"
usage 4 "$@"
rtl=$1 top=$2 liberty=$3 out=$4
shift 4
allow="" nets=""
while [ $# -gt 0 ]; do
    value "$1" $#
    case $1,$2 in
    --allow,TwoDrivers | --allow,HighZ | --allow,NoDriver | --allow,ImplicitNet)
        allow="$allow --allow $2"
        ;;
    --keep-net,*) nets="$nets $2" ;;
    *) bad "$1 $2" ;;
    esac
    shift 2
done
given $rtl $liberty
[ "$liberty" = "${liberty%% *}" ] || refuse OneLibrary "$liberty are several libraries" \
    "map onto one of them, or by another tool"
# The next command writes OUT.v.
apart "$out.v $out.shell.v" $rtl $liberty
fresh "$out.mapped.v $out.synth.log $out.rtl.log $out.constr $out.boxes.v" $rtl $liberty
need yosys yosys
nets=$(python3 "$here/options.py" nets "$out" $nets) || exit 1
read="read_verilog -sv $rtl; write_verilog -blackboxes $out.boxes.v
    $(libraries "read_liberty -lib" $liberty)
    hierarchy -check -top $top"
checked "$out.rtl.log" "$read" $allow
python3 "$here/liberty.py" driver $liberty > "$out.constr"
sizes=""
[ ! -s "$out.constr" ] || sizes="-D 1000 -constr $out.constr"
# A net without a driver that is allowed is 0, before anything is made of it.
case $allow in *NoDriver*) driven="proc; setundef -zero -undriven;" ;; *) driven="" ;; esac
logged "$out.synth.log" "mend the source, or map it by another tool" yosys -p "
    $read; $driven
    $(python3 "$here/options.py" steps "$top" $nets)
    synth -nofsm -top $top; simplemap; dfflibmap -liberty $liberty
    abc $sizes -liberty $liberty
    setundef -zero; opt_clean -purge
    flatten; setundef -zero -undriven; opt_clean -purge; tee -o $out.unmapped dump t:\$*
    write_verilog -noattr $out.mapped.v"
rm -f "$out.constr"
unmapped=$(sed -n 's/^ *cell \([^ ]*\) .*/\1/p; s/^ *connect .[QY] .\(.*\)/\1/p' "$out.unmapped" |
    paste -s -d '\t\n' | sed 's/\t/ of /; s/ \[/[/' | head -n 3)
if [ -n "$unmapped" ]; then
    rm -f "$out.mapped.v"
    refuse UnmappedCells "the library has no cells for $(echo "$unmapped" | paste -s -d ,)" \
        "instantiate a cell of the library there, as for latches, or take a library that has them"
fi
! grep -q '^module' "$out.boxes.v" || cat "$out.boxes.v" >> "$out.mapped.v"
rm -f "$out.unmapped" "$out.boxes.v"
