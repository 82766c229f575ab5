#!/bin/sh
# equivalent.sh [--cec|--sat] [--allow NAME].. [--seed S] [--vectors N] DESIGN.v TOP LIBERTY OUT
# Proves that OUT.v, with the flip-flops of OUT.shell.v around it, does what a design does: RTL, or
# a netlist of cells. LIBERTY is the library, or `-` where there is none. Status 0 where it is
# proved.
#
# Two readers say so. yosys reads both, and ABC's `cec` proves it (--cec, where nothing is said); a
# design with registers, or with --sat, is proved by yosys register by register, for which these
# need the same names in both: with a netlist whose registers have other names than the RTL's,
# compare that netlist. Icarus Verilog reads the design as it stands, and simulates it beside the
# gates: all vectors of up to 12 inputs, else N random ones (1000) of the seed S (1). What Icarus
# can't read is proved by one reader alone, which is said. DESIGN.v and LIBERTY may be several
# files, as one word with spaces. --allow NAME passes over what drivers.py refuses, or UnknownLevel.
# shellcheck disable=SC2086 # words that are several files
set -eu
script=equivalent.sh
here=$(dirname "$0")
# shellcheck source=bridges/common.sh
. "$here/common.sh"
usage 4 "$@"
way=--cec allow="" beside=""
while :; do
    case $1 in
    --cec | --sat) way=$1 ;;
    --allow | --seed | --vectors)
        value "$1" $#
        case $1,$2 in
        --allow,UnknownLevel) beside="$beside --allow $2" ;;
        --allow,TwoDrivers | --allow,HighZ | --allow,NoDriver | --allow,ImplicitNet)
            allow="$allow --allow $2"
            ;;
        --seed,*[!0-9]* | --vectors,*[!0-9]* | --allow,*) bad "$1 $2" ;;
        *) beside="$beside $1 $2" ;;
        esac
        shift
        ;;
    --*) bad "$1" ;;
    *) break ;;
    esac
    shift
done
usage 4 "$@"
[ $# -eq 4 ] || bad "$5"
design=$1 top=$2 liberty=$3 out=$4
[ "$liberty" != - ] || liberty=""
given $design $liberty "$out.v"
need yosys yosys
log=$out.equiv.log
fresh "$log $out.rtl.log $out.gold.blif $out.gate.blif $out.gates.v $out.cells.v $out.boxes.v" \
    $design $liberty "$out.v"
# What was left out of the gates: cuts, and latches that are open. Nets that stay in them are
# compared as outputs are.
nets=$(sed -n 's|^// Kept: ||p' "$out.v")
stay=$(python3 "$here/options.py" steps "$top" $nets)
seen=$(echo "$stay" | sed 's/^setattr -set keep 1/expose/')
cuts=$(sed -n 's|^// Cut: ||p' "$out.v")
opened=""
! grep -q '^// Open: ' "$out.v" ||
    opened="techmap -map $here/open_latches.v; opt
        $(sed -n "s|^// Open: \(.*\)=.|delete -input $top/w:\1|p" "$out.v")"
kept=$(echo "$cuts " | grep -o -e '--cut [^ ]*' | sed 's|.* \(.*[./]\)\{0,1\}\([^./]*\)$|\2|' |
    sed 's|.*|setattr -set keep 1 -set keep_hierarchy 1 */&|')
read="$(cells $liberty)
    read_verilog -sv -icells $design; hierarchy -check -top $top"
checked "$out.rtl.log" "$read" $allow
flat="proc; $kept
    setattr -mod -unset keep_hierarchy *; flatten"
gold="$read; $flat"
if [ -n "$cuts" ]; then
    logged "$log" "mend the source" yosys -p "$gold; write_json $out.all.json"
    python3 "$here/cuts.py" "$out.all.json" "$top" --power "$liberty" $cuts > "$out.cut.json" ||
        exit 1
    gold="read_json $out.cut.json; hierarchy -top $top"
fi
# As synth.sh makes of nets without a driver.
case $allow in *NoDriver*) gold="$gold; setundef -zero -undriven" ;; esac
! grep -q '^// Flip-flops and latches are cut out' "$out.v" || way=--sat
case $way in --sat) gold="$gold
    $stay" ;;
*) gold="$gold
    $seen" ;;
esac
# Sums and products are joined as `synth` does, or the proof of a multiplier takes minutes.
gold="$gold
    opt_expr; opt_clean; wreduce; peepopt; opt_clean; alumacc; opt; memory; opt -full
    techmap; opt; $opened"
python3 "$here/declared.py" "$out.v" > "$out.gates.v" || exit 1
small="async2sync; dffunmap; opt; setundef -zero; aigmap; opt_clean"
if [ "$way" = --cec ]; then
    need berkeley-abc berkeley-abc
    logged "$log" "take --sat: the design has registers" yosys -p "
        $gold; $small; select -assert-none t:\$_*FF* t:\$_*LATCH*
        write_blif $out.gold.blif; design -reset
        read_verilog $out.gates.v; hierarchy -top $top; proc
        $seen
        $small; write_blif $out.gate.blif"
    berkeley-abc -q "cec -T 600 -C 1000000 $out.gold.blif $out.gate.blif" > "$log" 2>&1 || true
    rm -f "$out.gold.blif" "$out.gate.blif"
    if grep -q "Networks are equivalent" "$log"; then
        echo "equal by yosys: $(grep -m 1 "Networks are equivalent" "$log")"
    elif grep -q "NOT EQUIVALENT" "$log"; then
        refuse NotEquivalent "$(tail -n 2 "$log")" "look at $log"
    else
        case $allow in
        *TwoDrivers*) echo "not proved by yosys: a net has two drivers" ;;
        *) refuse ToolFailed "berkeley-abc: $(tail -n 2 "$log")" "look at $log" ;;
        esac
    fi
else
    states="async2sync; dffunmap; opt; splitnets"
    yosys -p "
        $gold; $states; rename $top gold; design -stash gold
        $(cells $liberty)
        read_verilog -icells $out.gates.v $out.shell.v; hierarchy -top ${top}_shell
        setattr -mod -unset keep_hierarchy *; flatten; cd ${top}_shell
        $(for net in $nets; do echo "rename gates.$net $net"; done)
        cd
        $(python3 "$here/options.py" steps "${top}_shell" $nets)
        $states; rename ${top}_shell gate; design -stash gate
        design -copy-from gold -as gold gold; design -copy-from gate -as gate gate
        equiv_make gold gate equiv; hierarchy -top equiv
        $(python3 "$here/options.py" steps equiv $nets)
        opt -full
        equiv_simple -undef; equiv_induct -undef; equiv_status -assert" > "$log" 2>&1 ||
        refuse NotEquivalent "$(grep -v '^Warning' "$log" | tail -n 3)" \
            "look at $log; compare the mapped netlist, where names of registers differ"
    proved=$(sed -n 's/^Found \([0-9]*\) .equiv cells in equiv:.*/\1/p' "$log" | tail -n 1)
    [ "${proved:-0}" -gt 0 ] || refuse NotEquivalent "no net has one name in both" "look at $log"
    echo "equal by yosys: $proved outputs and registers are proved, bit by bit"
fi
rm -f "$out.all.json" "$out.cut.json" "$out.gates.v"
if ! command -v iverilog > /dev/null; then
    echo "proved by one reader alone: Icarus Verilog isn't installed"
    exit
fi
: > "$out.cells.v"
[ -z "$liberty" ] || logged "$log.cells" "look at the library" yosys -p "
    $(cells $liberty)
    write_verilog -noattr $out.cells.v; write_verilog -noattr -blackboxes $out.boxes.v"
[ ! -f "$out.boxes.v" ] || cat "$out.boxes.v" >> "$out.cells.v"
own=/dev/null
[ -n "$liberty" ] || own=$(dirname "$(command -v yosys)")/../share/yosys/simcells.v
python3 "$here/second_reader.py" "$top" "$out" "$out.cells.v" "$own" $design $beside || exit 1
rm -f "$out.cells.v" "$out.boxes.v" "$log.cells"
