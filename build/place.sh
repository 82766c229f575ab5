# Sets `place`: the folder for programs that are built of the checkout at `here`. Where the user
# can't write there, it is a folder of the user's cache.
if [ -w "$here/out" ] || { [ ! -e "$here/out" ] && [ -w "$here" ]; }; then
    place="$here/out"
else
    place="${XDG_CACHE_HOME:-${HOME:-/tmp}/.cache}/tdelay/$(printf %s "$here" | cksum | cut -d' ' -f1)"
fi
