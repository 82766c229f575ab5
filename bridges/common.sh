# shellcheck shell=sh
# What the shell scripts of this folder share. Sourced by them, with `script` set to their name.

# refuse NAME WRONG REMEDY: ends the script, with what is wrong and what to do.
refuse() {
    printf '%s: %s: %s\n  what to do: %s\n' "${script:?}" "$1" "$2" "$3" >&2
    exit 1
}

# bad WRONG: ends the script where its own words are bad, before any tool runs.
bad() {
    printf '%s: BadWord: %s\n  what to do: see %s --help\n' "${script:?}" "$1" "$script" >&2
    exit 2
}

# usage COUNT WORD..: shows the comment at the head of the script where there are fewer words.
usage() {
    if [ $# -le "$1" ] || [ "$2" = --help ] || [ "$2" = -h ]; then
        sed -n '2,/^[^#]/s/^# \{0,1\}//p' "$0" | grep -v shellcheck >&2
        exit 2
    fi
}

# value WORD COUNT: the option WORD has to have a word after it, of COUNT that are left.
value() {
    [ "$2" -gt 1 ] || bad "$1 has no word after it"
}

# given WORD..: refuses files that aren't there. Words that begin with - are options of readers.
given() {
    for file in "$@"; do
        case $file in
        -*) ;;
        *)
            [ -r "$file" ] || refuse NoFile "$file isn't there" \
                "look at the name; a path with blanks can't be read: link it under another name"
            ;;
        esac
    done
}

# fresh "OUT .." FILE..: removes what an earlier run has made, which mustn't be one of the files.
fresh() {
    folder=$(dirname "${1%% *}")
    [ -d "$folder" ] || refuse NoFolder "there is no folder $folder" "make it: mkdir -p $folder"
    apart "$@"
    # shellcheck disable=SC2086 # several files
    rm -f $1
}

# apart "OUT .." FILE..: refuses what would be written over a file, by whatever name or link.
# shellcheck disable=SC3013 # dash and bash have -ef
apart() {
    made=$1
    shift
    for written in $made; do
        for file in "$@"; do
            [ ! "$file" -ef "$written" ] ||
                refuse SameFile "$written would be written over the input $file" "take another OUT"
        done
    done
}

# need PROGRAM PACKAGE: refuses where a program isn't installed.
need() {
    command -v "$1" > /dev/null ||
        refuse NoTool "$1 isn't installed" "install it, as by \`apt-get install $2\`"
}

# logged LOG REMEDY COMMAND..: runs a tool with what it says in a file, of which the end is shown
# where it fails.
logged() {
    logged_to=$1 logged_remedy=$2
    shift 2
    "$@" > "$logged_to" 2>&1 || refuse ToolFailed \
        "$1: $(grep -v '^Warning' "$logged_to" | tail -n 3)" "$logged_remedy (see $logged_to)"
}

# libraries COMMAND FILE..: a command of yosys or OpenSTA for each Liberty file.
libraries() {
    command=$1
    shift
    for file in "$@"; do printf '%s %s\n' "$command" "$file"; done
}

# cells FILE..: the steps of yosys that read all cells of Liberty files: those with a function as
# modules, the others as black boxes, and with the power pins that they have.
cells() {
    [ $# -gt 0 ] || return 0
    libraries "read_liberty -ignore_miss_func -setattr keep_hierarchy" "$@"
    libraries "read_liberty -lib -nooverwrite" "$@"
    python3 "${here:?}/liberty.py" power "$@"
}

# checked LOG STEPS ALLOWED..: refuses RTL of which yosys drops something, by what it says of the
# sources that STEPS read.
checked() {
    checked_by=$1 checked_steps=$2
    shift 2
    logged "$checked_by" "mend the source or TOP; sv2v converts SystemVerilog" yosys -p "
        $checked_steps; proc; check; write_json $checked_by.json"
    python3 "${here:?}/drivers.py" "$checked_by" "$checked_by.json" "$@" || exit 1
    rm -f "$checked_by.json"
}
