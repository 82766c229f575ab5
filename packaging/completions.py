#!/usr/bin/env python3
"""completions.py bash|zsh|fish PROGRAM: writes completions of `tdelay` for a shell to standard
output, made of what `PROGRAM --help` and `PROGRAM COMMAND --help` say.

They complete the commands, the options of each, the values where help lists them, and file names
where a file is asked for. `eval "$(packaging/completions.py bash PROGRAM)"` serves at once; where a
shell looks for them: packaging/install.sh. A program with the command `completions` prints its own,
and these offer that command as any other.
"""

import os
import re
import sys

import help_text

# The words for values that are names of files.
FILES = ("FILE", "CERT", "OUT", "PATH", "DIR", "FOLDER")


def quoted(text):
    """A text between single quotes, as all three shells read it."""
    return "'" + text.replace("'", "'\\''") + "'"


def summary(entry):
    """The first sentence of what help says, without marks that shells would read."""
    text = re.split(r"(?<=[a-z)])[.;:] ", entry.text)[0].rstrip(".")
    return text.replace("`", "")


def names_of(entry):
    """The names of an option."""
    return [name for name in (entry.short, entry.name) if name]


def is_file(entry):
    return entry.value.strip("[]<>.").upper() in FILES


BASH = """\
# Completions of tdelay for bash, made by packaging/completions.py.
_tdelay() {{
    local cur=${{COMP_WORDS[COMP_CWORD]}} prev=${{COMP_WORDS[COMP_CWORD - 1]}}
    local command= options= takes= values= places= place=0 at word
    COMPREPLY=()
    # `--option=value` is three words here.
    if [[ $cur == = ]]; then
        cur=
    elif [[ $prev == = && COMP_CWORD -ge 2 ]]; then
        prev=${{COMP_WORDS[COMP_CWORD - 2]}}
    fi
    for ((at = 1; at < COMP_CWORD; at++)); do
        word=${{COMP_WORDS[at]}}
        if [[ -z $command && $word != -* ]]; then
            command=$word
            case $command in
{commands}
            esac
        elif [[ $word == = || ${{COMP_WORDS[at - 1]}} == = ]]; then
            :
        elif [[ " $takes " == *" ${{COMP_WORDS[at - 1]}} "* ]]; then
            :
        elif [[ $word != -?* ]]; then
            place=$((place + 1))
        fi
    done
    if [[ -z $command ]]; then
        mapfile -t COMPREPLY < <(compgen -W {names} -- "$cur")
        return
    fi
    if [[ " $takes " == *" $prev "* ]]; then
        case $command:$prev in
{values}
            *) return ;;
        esac
        [[ $values ]] && mapfile -t COMPREPLY < <(compgen -W "$values" -- "$cur") && return
    elif [[ $cur == -* ]]; then
        mapfile -t COMPREPLY < <(compgen -W "$options" -- "$cur")
        return
    else
        read -r -a places <<< "$places"
        ((${{#places[@]}})) || return
        ((place < ${{#places[@]}})) || place=$((${{#places[@]}} - 1))
        [[ ${{places[place]}} == file ]] || return
    fi
    compopt -o filenames 2> /dev/null
    mapfile -t COMPREPLY < <(compgen -f -- "$cur")
}}
complete -F _tdelay tdelay
"""


def bash(whole, commands):
    """The completions for bash."""
    cases, values = [], []
    for name, help_ in commands.items():
        options = [it for entry in help_.options for it in names_of(entry)]
        takes = [it for entry in help_.options if entry.value for it in names_of(entry)]
        places = ["file" if is_file(entry) else "word" for entry in help_.arguments] or ["word"]
        if help_.arguments and not help_.arguments[-1].many:
            places.append("word")
        cases += [
            f"                {name})",
            f"                    options={quoted(' '.join(options))}",
            f"                    takes={quoted(' '.join(takes))}",
            f"                    places={quoted(' '.join(places))}",
            "                    ;;",
        ]
        for entry in help_.options:
            pattern = "|".join(f"{name}:{it}" for it in names_of(entry))
            if entry.choices:
                values.append(f"            {pattern}) values={quoted(' '.join(entry.choices))} ;;")
            elif entry.value and is_file(entry):
                values.append(f"            {pattern}) ;;")
    names = [*commands, *(it for entry in whole.options for it in names_of(entry))]
    return BASH.format(
        commands="\n".join(cases), values="\n".join(values), names=quoted(" ".join(names))
    )


ZSH = """\
#compdef tdelay
# Completions of tdelay for zsh, made by packaging/completions.py.
_tdelay() {{
    local curcontext="$curcontext" state
    local -a line commands
    _arguments -C -A '-*' \\
{whole}        '1:command:->command' \\
        '*::argument:->argument' && return
    case $state in
        command)
            commands=(
{commands}
            )
            _describe -t commands command commands
            ;;
        argument)
            case $line[1] in
{arguments}
            esac
            ;;
    esac
}}
if [[ $zsh_eval_context[-1] == loadautofunc ]]; then
    _tdelay "$@"
else
    compdef _tdelay tdelay
fi
"""


def zsh_text(text):
    """A text within a specification of `_arguments` or `_describe`."""
    return re.sub(r"([\[\]:\\])", r"\\\1", text)


def zsh_action(entry):
    """What completes a value."""
    choices = f"({' '.join(entry.choices)})" if entry.choices else ""
    return f":{entry.value}:{choices or ('_files' if is_file(entry) else ' ')}"


def zsh_option(entry):
    """The specifications of an option, one for each of its names."""
    others = f"({' '.join(names_of(entry))})" if len(names_of(entry)) > 1 else ""
    for name in names_of(entry):
        equals = "=" if entry.value and name.startswith("--") else ""
        action = zsh_action(entry) if entry.value else ""
        yield quoted(f"{others}{name}{equals}[{zsh_text(summary(entry))}]{action}")


def zsh_argument(place, entry):
    """The specification of an argument at a place, from 1."""
    return quoted(f"{'*' if entry.many else place}{zsh_action(entry)}")


def zsh(whole, commands):
    """The completions for zsh."""
    arguments, texts = [], {entry.name: summary(entry) for entry in whole.commands}
    for name, help_ in commands.items():
        words = [it for entry in help_.options for it in zsh_option(entry)]
        words += [zsh_argument(at, entry) for at, entry in enumerate(help_.arguments, 1)]
        specs = " \\\n".join(f"                        {word}" for word in words)
        arguments.append(f"                {name})\n                    _arguments \\\n{specs}")
        arguments.append("                    ;;")
    described = [quoted(f"{name}:{zsh_text(texts.get(name, ''))}") for name in commands]
    own = [it for entry in whole.options for it in zsh_option(entry)]
    return ZSH.format(
        whole="".join(f"        {it} \\\n" for it in own),
        commands="\n".join(f"                {it}" for it in described),
        arguments="\n".join(arguments),
    )


def fish_option(entry):
    """The words of fish's `complete` that say an option's names and what it takes."""
    words = [f"-s {entry.short[1:]}"] if entry.short else []
    words += [f"-l {entry.name[2:]}"] if entry.name else []
    if entry.choices:
        words.append(f"-x -a {quoted(' '.join(entry.choices))}")
    elif entry.value:
        words.append("-r -F" if is_file(entry) else "-x")
    return " ".join([*words, "-d", quoted(summary(entry))])


def fish(whole, commands):
    """The completions for fish."""
    lines = [
        "# Completions of tdelay for fish, made by packaging/completions.py.",
        "complete -c tdelay -n __fish_use_subcommand -f",
    ]
    texts = {entry.name: summary(entry) for entry in whole.commands}
    for name in commands:
        words = f"-a {name} -d {quoted(texts.get(name, ''))}"
        lines.append(f"complete -c tdelay -n __fish_use_subcommand {words}")
    for entry in whole.options:
        lines.append(f"complete -c tdelay -n __fish_use_subcommand {fish_option(entry)}")
    for name, help_ in commands.items():
        seen = quoted(f"__fish_seen_subcommand_from {name}")
        lines += [f"complete -c tdelay -n {seen} {fish_option(entry)}" for entry in help_.options]
        for entry in help_.arguments:
            if entry.choices:
                words = quoted(" ".join(entry.choices))
                lines.append(f"complete -c tdelay -n {seen} -f -a {words}")
    return "\n".join(lines) + "\n"


SHELLS = {"bash": bash, "zsh": zsh, "fish": fish}


def main(words):
    if len(words) != 2 or words[0] not in SHELLS:
        sys.exit(__doc__)
    sys.stdout.write(SHELLS[words[0]](*help_text.read(os.path.abspath(words[1]))))


if __name__ == "__main__":
    main(sys.argv[1:])
