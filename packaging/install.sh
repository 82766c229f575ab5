#!/usr/bin/env bash
# install.sh [--unproved] [--program FILE] [PREFIX]: installs `tdelay`, its man page, its completions
# for bash, zsh and fish, and `tdelay-figure` with the bridges from RTL (share/tdelay/bridges) below
# PREFIX, /usr/local where it is left out. bin/tdelay is a script that runs lib/tdelay/tdelay by
# front.sh, so that ^C loses nothing.
# install.sh --remove [PREFIX]: removes what an install has put there, and the folders it made.
#
# The program is the one that `rt ci` or ./prove has proved of the present sources, or FILE, which
# has to be that as well: build/sources.py knows by the stamp beside it. With `--unproved` a program
# that isn't known to be proved is installed too: FILE, or what the first `./tdelay` has compiled.
# What is installed stands in PREFIX/share/tdelay/installed, a name a line, folders with a slash, and
# of which version and commit it is in PREFIX/share/tdelay/version. An install takes the place of an
# earlier one, and one that fails leaves nothing.
# Exit status 0 where it is done, 1 where something can't be written or there is nothing to remove,
# 2 where the words are bad, 5 where there is no program that may be installed.
set -eu
here="$(cd "$(dirname "${BASH_SOURCE[0]}")/.." && pwd)"
. "$here/build/place.sh"
. "$here/build/programs.sh"
. "$here/build/commit.sh"

usage() {
    sed -n '2,/^set -eu/{/^# \?/s///p}' "$here/packaging/install.sh"
}
fail() {
    local status=$1
    shift
    printf 'install.sh: %s\n' "$@" >&2
    exit "$status"
}

# Sets `program` to the one that is asked for.
find_program() {
    if [ "$given" ]; then
        program=$given
        [ -f "$program" ] && [ -x "$program" ] || fail 5 "$program is no program"
        [ "$take_unproved" ] || has_stamp "$program" all ||
            fail 5 "$program isn't known to be proved of these sources (--unproved takes it)"
    elif find_proved; then
        program=$proved
    elif [ "$take_unproved" ]; then
        find_unproved || fail 5 "no program of these sources: run ./tdelay once, which compiles one"
        program=$unproved
    else
        fail 5 "no program is proved of these sources: \`rt ci\` or ./prove proves one," \
            "or --unproved installs the one that ./tdelay has compiled"
    fi
}

# Writes the completions for a shell: those that the program prints, where it has such a command.
completions() {
    if "$program" --help | grep -q '^  completions '; then
        "$program" completions "$1"
    else
        python3 "$here/packaging/completions.py" "$1" "$program"
    fi
}

# Prints the scripts of the bridges, as they stand in the checkout.
bridges() {
    (cd "$here" && find bridges -maxdepth 1 -type f | sort)
}

# Puts all files into the folder `room`, under their names below PREFIX.
make_files() {
    local name
    for name in "$list" "${names[@]}"; do
        mkdir -p "$room/$(dirname "$name")"
    done
    cp "$program" "$room/lib/tdelay/tdelay"
    cp "$here/packaging/front.sh" "$room/share/tdelay/front.sh"
    cat > "$room/bin/tdelay" << 'END'
#!/bin/sh
# Runs ../lib/tdelay/tdelay, a search so that ^C loses nothing.
here="$(dirname "$(readlink -f "$0")")/.."
set -- "$here/lib/tdelay/tdelay" "$@"
. "$here/share/tdelay/front.sh"
END
    { "$program" --version && print_commit; } > "$room/share/tdelay/version"
    python3 "$here/packaging/manual.py" "$program" > "$room/share/man/man1/tdelay.1"
    for name in $(bridges); do
        cp "$here/$name" "$room/share/tdelay/$name"
    done
    # shellcheck disable=SC2016 # for the script that is written
    printf '#!/bin/sh\nexec "%s/share/tdelay/bridges/figure.sh" "$@"\n' \
        '$(dirname "$(readlink -f "$0")")/..' > "$room/bin/tdelay-figure"
    completions bash > "$room/share/bash-completion/completions/tdelay"
    completions zsh > "$room/share/zsh/site-functions/_tdelay"
    completions fish > "$room/share/fish/vendor_completions.d/tdelay.fish"
}

# Prints the folders to a name that aren't there, each with a slash, the outermost first.
missing_folders() {
    local folder
    folder="$(dirname "$1")"
    [ ! -d "$prefix/$folder" ] || return 0
    [ "$folder" = . ] || missing_folders "$folder"
    printf '%s/\n' "$folder"
}

# Puts the files of the folder `room` below PREFIX, and before them the list of what is made.
install_files() {
    local name
    for name in "$list" "${names[@]}"; do
        missing_folders "$name"
        printf '%s\n' "$name"
    done | awk '!seen[$0]++' > "$room/$list"
    chmod 644 "$room/$list" "${names[@]/#/$room/}"
    chmod 755 "$room"/bin/* "$room/lib/tdelay/tdelay" "$room"/share/tdelay/bridges/*.sh \
        "$room"/share/tdelay/bridges/*.py
    for name in "$list" "${names[@]}"; do
        # Beside its place first: a program that runs may keep its old file.
        mkdir -p "$prefix/$(dirname "$name")" && cp -p "$room/$name" "$prefix/$name.part" &&
            mv -f "$prefix/$name.part" "$prefix/$name" || undo "$prefix/$name can't be written"
    done
}

# Removes what an install that failed has written, and ends.
undo() {
    local name
    for name in "$list" "${names[@]}"; do
        rm -f "$prefix/$name.part"
    done
    [ ! -f "$prefix/$list" ] || remove_files
    fail 1 "$1"
}

# Removes what the list names, and each folder of it that is empty then, the innermost first.
remove_files() {
    local name
    while IFS= read -r name; do
        case $name in
            /* | ../* | */../*) fail 1 "$prefix/$list names $name, which is no name of ours" ;;
            ./) rmdir --ignore-fail-on-non-empty "$prefix" ;;
            */) [ ! -d "$prefix/$name" ] || rmdir --ignore-fail-on-non-empty "$prefix/$name" ;;
            *) rm -f "$prefix/$name" ;;
        esac
    done < <(tac "$prefix/$list")
}

list=share/tdelay/installed
names=(lib/tdelay/tdelay share/tdelay/front.sh bin/tdelay bin/tdelay-figure share/tdelay/version
    share/man/man1/tdelay.1 share/bash-completion/completions/tdelay
    share/zsh/site-functions/_tdelay share/fish/vendor_completions.d/tdelay.fish)
for name in $(bridges); do
    names+=("share/tdelay/$name")
done
given= take_unproved= remove= prefix=
while [ $# -gt 0 ]; do
    case $1 in
        --help | -h) usage && exit 0 ;;
        --unproved) take_unproved=yes ;;
        --remove) remove=yes ;;
        --program) [ $# -gt 1 ] || fail 2 "--program: a file has to follow"
            given=$2 && shift ;;
        -*) fail 2 "$1 is no option (--help lists them)" ;;
        "") fail 2 "PREFIX is empty" ;;
        *) [ -z "$prefix" ] || fail 2 "one PREFIX only"
            prefix=$1 ;;
    esac
    shift
done
prefix=${prefix:-/usr/local}
[ -z "$remove" ] || [ -z "$given$take_unproved" ] || fail 2 "--remove goes with PREFIX alone"

if [ "$remove" ]; then
    [ -f "$prefix/$list" ] || fail 1 "nothing is installed in $prefix: it has no $list"
    remove_files
    echo "removed tdelay from $prefix"
    exit 0
fi
find_program
room="$(mktemp -d)"
trap 'rm -rf "$room"' EXIT
make_files
[ ! -f "$prefix/$list" ] || remove_files
install_files
echo "installed $(paste -sd'|' "$prefix/share/tdelay/version" | sed 's/|/, /g') in $prefix"
case ":$PATH:" in *":$prefix/bin:"*) ;; *) echo "$prefix/bin isn't on PATH" ;; esac
