# Finds built programs of the checkout at `here`: sourced by `tdelay` and packaging/install.sh, after
# place.sh.

# Whether a program is there and none of these parts of the crates was changed after it.
is_fresh() (
    program=$1
    shift
    [ -x "$program" ] && cd "$here" && shopt -s nullglob || exit 1
    sources=(HANDLES crates.txt)
    for part in "$@"; do
        sources+=(crates/*/"$part")
    done
    newer="$(find "${sources[@]}" -newer "$program" -print -quit)" && [ -z "$newer" ]
)
# Whether a program is of the sources by its stamp: a checkout may have written the same text again.
has_stamp() { [ -f "$1.stamp" ] && python3 "$here/build/sources.py" is "$1" "$2" 2>/dev/null; }

# Sets `proved` to a program that was proved of these sources. Fails where there is none.
find_proved() {
    for proved in "$here/crates/tdelay/out/tdelay" "$place/proved/tdelay"; do
        if is_fresh "$proved" src specs proofs; then
            # `rt ci` leaves no stamp: it is written now, while the times tell that it is true.
            [ -f "$proved.stamp" ] && [ ! "$proved" -nt "$proved.stamp" ] ||
                python3 "$here/build/sources.py" stamp "$proved" 2>/dev/null || true
            return 0
        elif has_stamp "$proved" all; then
            return 0
        fi
    done
    return 1
}

# Sets `unproved` to where the program that is compiled without proofs stands. Fails where it isn't
# there, or isn't of these sources.
find_unproved() {
    unproved="$place/unproved/tdelay"
    is_fresh "$unproved" src || has_stamp "$unproved" code
}
