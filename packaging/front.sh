#!/bin/sh
# front.sh PROGRAM WORD..: runs `tdelay`, and a search so that ^C, a TERM and a USR1 lose nothing.
# `tdelay` at the top and the installed bin/tdelay begin it.
#
# At such a signal it makes the file that `worst --stop FILE` looks for. The search then ends with
# what it has: its report, and the certificate that it was asked for. A second INT or TERM ends it
# at once.

# Whether these words are those of a search, and name no file of their own.
may_be_stopped() {
    [ "${1-}" = worst ] || return 1
    for word; do
        case $word in --stop | --stop=*) return 1 ;; esac
    done
}

# Runs `$program worst WORD..`, and sets `status` to that with which it ended.
run_search() {
    stop=/dev/null asked='' status=0 ended=0
    # Without one of the streams, or a folder, the program runs as it is.
    (exec 7>&2 8<&0) 2> /dev/null || exec "$program" worst "$@"
    exec 7>&2 8<&0
    set_traps
    room=$(make_room 2> /dev/null) || run_plainly "$@"
    stop=$room/stop
    [ -z "$signalled" ] || true > "$stop"
    exec 9<> "$room/pipe"
    watch < "$room/pipe" > /dev/null 2>&1 &
    # By 8, since a command in the background has /dev/null as its standard input. The signals are
    # for this shell alone, though a terminal and `timeout` send them to the child as well.
    (trap '' INT TERM USR1 && exec "$program" worst --stop "$stop" "$@") \
        <&8 7>&- 8<&- 9>&- &
    child=$!
    echo "$child" >&9
    # A signal ends the wait, not the child, with a status above 128.
    while :; do
        heed_signals
        status=0
        wait "$child" 2> /dev/null || status=$?
        if [ "$status" -le 128 ] || ! kill -0 "$child" 2> /dev/null; then break; fi
    done
    trap '' INT TERM USR1
    rm -rf "$room"
    exec 7>&- 8<&- 9>&-
    # Where the child ended just as a signal came, its own status is still to be had, or is 127. The
    # other child, `watch`, has ended by now: some shells would wait for that.
    if [ "$status" -gt 128 ]; then
        wait "$child" 2> /dev/null || ended=$?
        [ "$ended" = 127 ] || status=$ended
    fi
}

# Makes a folder with a pipe, and prints its name. No signal comes between the two.
make_room() {
    trap '' INT TERM USR1
    room=$(mktemp -d) || return 1
    mkfifo "$room/pipe" && echo "$room" && return 0
    rm -rf "$room"
    return 1
}

run_plainly() {
    trap - INT TERM USR1
    [ -z "$signalled" ] || kill -TERM $$
    exec "$program" worst "$@" 7>&- 8<&-
}

# What is done at once is little, and by the shell alone: some shells lose their way where another
# signal comes while a trap runs a command.
set_traps() {
    signalled=''
    trap 'true > "$stop"; signalled=INT; [ "$asked" != heeded ] || asked=130' INT
    trap 'true > "$stop"; signalled=TERM; [ "$asked" != heeded ] || asked=143' TERM
    trap 'true > "$stop"; signalled=USR1' USR1
}

# Does what is left to do after a signal. Those that come within a fifth of a second are one:
# `timeout` sends its signal twice, once to the whole group.
heed_signals() {
    case $asked in 130 | 143)
        trap '' INT TERM USR1
        exec 2> /dev/null
        kill -KILL "$child" 2> /dev/null || true
        rm -rf "$room"
        exit "$asked" ;;
    esac
    case $asked$signalled in
        INT) [ ! -t 7 ] || echo "tdelay: ends the search; ^C again ends it at once" >&7 ;;
        TERM) ;;
        *) return ;;
    esac
    (trap '' INT TERM USR1 && { sleep 0.2 2> /dev/null || sleep 1; })
    asked=heeded
}

# Looks, in a process of its own, that the child doesn't outlive this shell, were that ended by a
# KILL: then the pipe, of which this shell alone has the other end, comes to its end. The child has
# ten seconds to end by the file.
watch() {
    trap '' INT TERM USR1 HUP QUIT
    exec 7>&- 8<&- 9>&-
    read -r child || child=''
    read -r _ || true
    [ -d "$room" ] || return 0
    true > "$stop" || true
    for _ in 1 2 3 4 5 6 7 8 9 10; do
        [ -z "$child" ] || kill -0 "$child" 2> /dev/null || break
        sleep 1
    done
    [ -z "$child" ] || kill -KILL "$child" 2> /dev/null || true
    rm -rf "$room"
}

program=$1
shift
may_be_stopped "$@" || exec "$program" "$@"
shift
run_search "$@"
if [ "$status" -eq 132 ]; then
    echo "tdelay: a run-time check failed, which is a fault of ours: please report it with the" >&2
    echo "tdelay: command line and its files; \`rt try\` in crates/tdelay shows where" >&2
fi
exit "$status"
