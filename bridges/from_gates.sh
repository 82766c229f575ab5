#!/bin/sh
# from_gates.sh DESIGN TOP OUT [--keep] [--allow NAME].. [--keep-net NET]..
#     [options of primitives.py]
# Writes a design as gate primitives without a library: OUT.v, and OUT.shell.v, which has the
# flip-flops around them. Each gate takes tdelay's default delay, or what --delays says of its kind.
#
# DESIGN is RTL, which yosys and ABC synthesise onto gates of one and two inputs, or a netlist of
# BLIF (a name that ends in .blif), which is mapped in the same way; with --keep each `.names`
# of it stays a gate as it is, and has to be a primitive. A net NET of TOP stays, though nothing
# reads it, as those do that `--keep` names in OUT.options.
# shellcheck disable=SC2086 # words that are several files
set -eu
script=from_gates.sh
here=$(dirname "$0")
# shellcheck source=bridges/common.sh
. "$here/common.sh"
usage 3 "$@"
design=$1 top=$2 out=$3
shift 3
keep="" allow="" nets="" shell="--shell $out.shell.v" rest=$#
while [ "$rest" -gt 0 ]; do
    word=$1
    shift
    rest=$((rest - 1))
    case $word in
    --keep) keep=1 ;;
    --allow | --keep-net)
        value "$word" $((rest + 1))
        case $word in
        --allow) allow="$allow --allow $1" ;;
        *) nets="$nets $1" ;;
        esac
        shift
        rest=$((rest - 1))
        ;;
    *)
        [ "$word" = --outputs ] && shell=""
        set -- "$@" "$word"
        ;;
    esac
done
python3 "$here/primitives.py" - "$top" --words-only "$@" || exit 2
given $design
fresh "$out.v $out.shell.v $out.json $out.yosys.log" $design
need yosys yosys
nets=$(python3 "$here/options.py" nets "$out" $nets) || exit 1
kept=$(python3 "$here/options.py" steps "$top" $nets)
map="dffunmap; abc -g AND,NAND,OR,NOR,XOR,XNOR; flatten; opt_clean -purge"
case $design,$keep in
*.blif,1) steps="read_blif $design; hierarchy -check -top $top; flatten; $kept
    opt_clean" ;;
*.blif,) steps="read_blif $design; hierarchy -check -top $top; flatten; $kept
    techmap; opt; $map" ;;
*,1) bad "--keep is about BLIF" ;;
*)
    steps="read_verilog -sv $design; hierarchy -check -top $top; $kept
        synth -nofsm -top $top; $map"
    checked "$out.rtl.log" "read_verilog -sv $design; hierarchy -check -top $top" $allow
    ;;
esac
logged "$out.yosys.log" "mend the source" yosys -p "$steps; write_json $out.json"
python3 "$here/primitives.py" "$out.json" "$top" --kept "$nets" $shell "$@" > "$out.part" || {
    rm -f "$out.part"
    exit 1
}
mv "$out.part" "$out.v"
