#!/bin/sh
# from_liberty.sh MAPPED.v TOP LIBERTY OUT [--clock PORT] [--slew T] [--load C] [--sdc FILE]
#     [--sdf FILE] [--cut INSTANCE].. [--cut-net NET].. [--keep-net NET]..
#     [options of primitives.py]
# Writes a netlist of library cells as gate primitives: OUT.v, and OUT.shell.v, which has the
# flip-flops around them; OUT.options gets the options of tdelay that an SDC file asks for, after
# what stands there of your own, and OUT.map.json has which cell and pin each net is.
#
# Delays are those of OpenSTA (OUT.sdf, OUT.sta.log) for inputs that change at moment 0 in T and
# outputs with a load of C, in units of the library, or for the constraints of an SDC file; or those
# of an SDF file that another timing tool wrote. PORT is the clock of a sequential design. MAPPED.v
# and LIBERTY may be several files, as one word with spaces. --cut makes ports INSTANCE.PIN of the
# pins of a black box or a cell with state, --cut-net an input NET.q and an output NET.d of a net.
# A net NET stays, though nothing reads it, as those do that `--keep` names in OUT.options.
# shellcheck disable=SC2086 # words that are several files
set -eu
script=from_liberty.sh
here=$(dirname "$0")
# shellcheck source=bridges/common.sh
. "$here/common.sh"
usage 4 "$@"
mapped=$1 top=$2 liberty=$3 out=$4
shift 4
clock="" slew=0.1 load=0.05 sdc="" sdf="" cuts="" nets="" step=1ps
shell="--shell $out.shell.v" rest=$#
while [ "$rest" -gt 0 ]; do
    word=$1
    shift
    rest=$((rest - 1))
    case $word in
    --clock | --slew | --load | --sdc | --sdf | --cut | --cut-net | --keep-net)
        value "$word" $((rest + 1))
        case $word in
        --cut*) cuts="$cuts $word $1" ;;
        --keep-net) nets="$nets $1" ;;
        *) eval "${word#--}=\$1" ;;
        esac
        shift
        rest=$((rest - 1))
        ;;
    *)
        [ "$word" != --outputs ] || shell=""
        [ "$word" != --step ] || step=${1:-}
        set -- "$@" "$word"
        ;;
    esac
done
python3 "$here/primitives.py" - "$top" --words-only "$@" || exit 2
given $mapped $liberty $sdc $sdf
made=".v .shell.v .json .map.json .cut.v .tcl .sdc .sta.log .yosys.log"
[ -n "$sdf" ] || made="$made .sdf"
fresh "$(for end in $made; do printf '%s ' "$out$end"; done)" $mapped $liberty $sdc $sdf
apart "$out.options" $mapped $liberty $sdc $sdf
need yosys yosys
nets=$(python3 "$here/options.py" nets "$out" $nets) || exit 1
kept=$(echo "$cuts " | grep -o -e '--cut [^ ]*' | sed 's|.* \(.*[./]\)\{0,1\}\([^./]*\)$|\2|' |
    sed 's|.*|setattr -set keep 1 -set keep_hierarchy 1 */&|')
logged "$out.yosys.log" "give the library that has all cells of the netlist" yosys -p "
    $(cells $liberty)
    read_verilog $mapped; hierarchy -check -top $top
    $kept
    flatten
    $(python3 "$here/options.py" steps "$top" $nets)
    opt_clean; write_json $out.all.json"
# Power pins, and what is cut, aren't part of the gates.
python3 "$here/cuts.py" "$out.all.json" "$top" --power "$liberty" $cuts > "$out.json" || {
    rm -f "$out.all.json" "$out.json"
    exit 1
}
rm -f "$out.all.json"
if [ -z "$sdf" ]; then
    need sta opensta
    sdf=$out.sdf timed=$mapped
    if [ -n "$cuts" ]; then
        timed=$out.cut.v
        logged "$out.yosys.log" "look at the cuts" yosys -p "
            read_json $out.json; cd $top; select *; opt_clean -purge
            write_verilog -noattr -selected $timed"
    fi
    {
        libraries read_liberty $liberty
        libraries read_verilog $timed
        echo "link_design $top"
        if [ -n "$sdc" ]; then
            echo "read_sdc $sdc"
            echo "write_sdc -digits 6 $out.sdc"
        else
            echo "set_input_transition $slew [all_inputs]"
            echo "set_load $load [all_outputs]"
            echo "create_clock -name all -period 1000 ${clock:+[get_ports $clock]}"
            [ -z "$clock" ] || echo "set_propagated_clock all"
            echo "set_input_delay 0 -clock all [all_inputs]"
            echo "set_output_delay 0 -clock all [all_outputs]"
        fi
        echo "report_checks -path_delay max -digits 4"
        # Levels that the constraints fix are asked for by --pin: their arcs have delays.
        [ -z "$sdc" ] || echo "unset_case_analysis [all_inputs]"
        echo "write_sdf -no_timestamp -digits 5 $sdf"
    } > "$out.tcl"
    remedy="mend the constraints or the library"
    logged "$out.sta.log" "$remedy" sta -no_splash -exit "$out.tcl"
    ! grep '^Error' "$out.sta.log" > "$out.error" ||
        refuse ToolFailed "sta: $(head -n 3 "$out.error")" "$remedy"
    rm -f "$out.error"
fi
python3 "$here/primitives.py" "$out.json" "$top" --sdf "$sdf" --map "$out.map.json" \
    --library "$liberty" --cuts "$cuts" --kept "$nets" $shell "$@" > "$out.part" || {
    rm -f "$out.part"
    exit 1
}
if [ -n "$sdc" ]; then
    unit=$(sed -n 's/.*time_unit *: *"\([0-9]*[munpf]*s\)".*/\1/p' ${liberty%% *} | head -n 1)
    touch "$out.sdc"
    python3 "$here/sdc.py" "$out.sdc" "$out.part" --step "$step" --unit "${unit:-1ns}" \
        > "$out.asked" || {
        rm -f "$out.part" "$out.asked"
        exit 1
    }
    echo "$script: options of tdelay: $(cat "$out.asked")" >&2
else
    : > "$out.asked"
fi
python3 "$here/options.py" constraints "$out" < "$out.asked"
rm -f "$out.asked"
mv "$out.part" "$out.v"
