# Prints a line with the commit of the checkout at `here`: sourced by `tdelay` and packaging/install.sh.
# A program can't know it, since it is a checksum of the sources. Nothing is printed where git isn't
# there, or `here` is no checkout of its own.
print_commit() {
    local top commit changed
    top="$(git -C "$here" rev-parse --show-toplevel 2>/dev/null)" && [ "$top" -ef "$here" ] &&
        commit="$(git -C "$here" rev-parse --short=12 HEAD 2>/dev/null)" || return 0
    changed="$(git -C "$here" status --porcelain -- crates crates.txt HANDLES 2>/dev/null)"
    printf 'commit %s%s\n' "$commit" "${changed:+, changed}"
}
