"""What shells complete with a file of completions of `tdelay`, each asked as a user would."""

import os
import pty
import select
import signal
import time

from . import running

BASH = """source "$1"; shift
COMP_WORDS=("$@") COMP_CWORD=$(($# - 1))
complete -p tdelay > /dev/null && _tdelay && printf '%s\\n' "${COMPREPLY[@]}"
"""
FISH = "source $argv[1]; complete -C $argv[2]"
# The completed line stands between two marks.
ZSH = """PS1=; fpath=({found} $fpath); autoload -Uz compinit; compinit -u -D; {first}
show() {{ print -r -- "<<""<$BUFFER>"">>"; exit }}
zle -N show; bindkey '^X' show; echo re''ady
"""
SECONDS = 20


def bash(script, words, folder):
    """What bash offers for the last of these words, which begin with `tdelay`."""
    done = running.run(["bash", "--norc", "-c", BASH, "bash", script, *words], folder)
    return sorted(line for line in done.out.splitlines() if line)


def fish(script, line, folder):
    """What fish offers at the end of a line."""
    home = {**os.environ, "HOME": folder, "XDG_CONFIG_HOME": folder, "XDG_DATA_HOME": folder}
    done = running.run(["fish", "--no-config", "-c", FISH, script, line], folder, env=home)
    return sorted(it.split("\t")[0] for it in done.out.splitlines())


def read_until(terminal, mark):
    """What a terminal shows until a text comes, or until there was time enough."""
    shown, end = b"", time.monotonic() + SECONDS
    while mark not in shown and time.monotonic() < end:
        if select.select([terminal], [], [], 0.1)[0]:
            try:
                part = os.read(terminal, 65536)
            except OSError:
                break
            if not part:
                break
            shown += part
    return shown


def zsh(script, line, folder, is_read=False):
    """What a line is after one press of the tabulator at its end, None where nothing is shown. zsh
    finds the script by its folder, or it is read first.
    """
    found = "" if is_read else os.path.dirname(script)
    words = ZSH.format(found=found, first=f"source {script}" if is_read else ":")
    child, terminal = pty.fork()
    if child == 0:
        os.chdir(folder)
        os.execvpe("zsh", ["zsh", "-f", "-i"], {**os.environ, "TERM": "dumb", "HOME": folder})
    try:
        os.write(terminal, words.encode())
        if b"ready" not in read_until(terminal, b"ready\r\n"):
            return None
        os.write(terminal, line.encode() + b"\t\x18")
        shown = read_until(terminal, b">>>").decode(errors="replace")
    finally:
        os.kill(child, signal.SIGKILL)
        os.waitpid(child, 0)
        os.close(terminal)
    return shown.partition("<<<")[2].partition(">>>")[0] or None
