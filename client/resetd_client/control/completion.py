"""Completion for shells, from the parser's own table of commands and options."""

from __future__ import annotations

import argparse
from collections.abc import Iterator
from typing import NamedTuple

from .base import DONE, Command, Control

SHELLS = ("bash", "zsh")
BASH = r"""# bash completion of resetctl: resetctl completion bash > /etc/bash_completion.d/resetctl
_resetctl() {
    local word=${COMP_WORDS[COMP_CWORD]} before=${COMP_WORDS[COMP_CWORD-1]} command= i
    for ((i = 1; i < COMP_CWORD; i++)); do
        case ${COMP_WORDS[i]} in
        @TAKING@)
            [[ ${COMP_WORDS[i + 1]} == '=' ]] && ((i++))
            while [[ ${COMP_WORDS[i + 2]} == ':' ]]; do ((i += 2)); done
            ((i++)) ;;
        -*) ;;
        *) command=${COMP_WORDS[i]}; break ;;
        esac
    done
    COMPREPLY=()
    case $before in
    @TAKING@|=) return ;;
    esac
    case $command in
    '') COMPREPLY=($(compgen -W '@TOP@' -- "$word")) ;;
@COMMANDS@
    esac
}
complete -o default -F _resetctl resetctl
"""
ZSH = r"""#compdef resetctl
# zsh completion of resetctl: resetctl completion zsh > /usr/local/share/zsh/site-functions/_resetctl
_resetctl() {
    local -a commands=(
@NAMES@
    )
    local context state state_descr line
    typeset -A opt_args
    _arguments -C @TOP@ '1:command:->command' '*::word:->words'
    case $state in
    command) _describe command commands ;;
    words)
        case ${words[1]} in
@COMMANDS@
        esac ;;
    esac
}
_resetctl "$@"
"""


class Option(NamedTuple):
    """An argument of a command: an option with its names, or a positional argument, which has no names."""

    names: tuple[str, ...]
    value: str  # the name of its value, empty if it takes none
    about: str
    choices: tuple[str, ...]


def options(parser: argparse.ArgumentParser) -> Iterator[Option]:
    """Returns the options of a parser, without its commands."""
    for action in parser._actions:
        if isinstance(action, argparse._SubParsersAction):
            continue
        value = "" if action.nargs == 0 else str(action.metavar or action.dest)
        yield Option(tuple(action.option_strings), value, action.help or "", tuple(map(str, action.choices or ())))


def commands(top: argparse.ArgumentParser) -> Iterator[tuple[str, str, argparse.ArgumentParser]]:
    """Yields the name of each command, its purpose, and its parser."""
    for action in top._actions:
        if isinstance(action, argparse._SubParsersAction):
            abouts = {str(each.dest): str(each.help) for each in action._choices_actions}
            for name, parser in action.choices.items():
                yield name, abouts.get(name, ""), parser


def names_of(found: list[Option]) -> list[str]:
    return [name for option in found for name in option.names]


def bash(top: argparse.ArgumentParser) -> str:
    """Returns the script for bash. After an option with a value, and for a command with a file, bash completes file names."""
    every, taking, cases = list(options(top)), set[str](), list[str]()
    for name, _, parser in commands(top):
        found = list(options(parser))
        taking |= {each for option in found if option.value for each in option.names}
        choices = [choice for option in found if not option.names for choice in option.choices]
        leaves_files = "[[ $word != -* ]] || " if any(is_file(option) and not option.names for option in found) else ""
        cases.append(f"    {name}) {leaves_files}COMPREPLY=($(compgen -W '{' '.join([*choices, *names_of(found)])}' -- \"$word\")) ;;")
    taking |= {each for option in every if option.value for each in option.names}
    names = " ".join([*(name for name, _, _ in commands(top)), *names_of(every)])
    return BASH.replace("@TAKING@", "|".join(sorted(taking))).replace("@TOP@", names).replace("@COMMANDS@", "\n".join(cases))


def zsh(top: argparse.ArgumentParser) -> str:
    """Returns the script for zsh."""
    names, cases = list[str](), list[str]()
    for name, about, parser in commands(top):
        names.append(f"        {quoted(f'{name}:{about}')}")
        cases.append(f"        {name}) _arguments {' '.join(map(spec, options(parser)))} ;;")
    return ZSH.replace("@TOP@", " ".join(map(spec, options(top)))).replace("@NAMES@", "\n".join(names)).replace(
        "@COMMANDS@", "\n".join(cases))


def spec(option: Option) -> str:
    """Formats an option for zsh's `_arguments`."""
    about = option.about.replace("\\", "\\\\").replace("[", "\\[").replace("]", "\\]").replace(":", "\\:")
    values = f"({' '.join(option.choices)})" if option.choices else "_files" if is_file(option) else " "
    if not option.names:
        return quoted(f":{option.value.lower()}:{values}")
    value = f":{option.value.lower()}:{values}" if option.value else ""
    return " ".join(quoted(f"{name}[{about}]{value}") for name in option.names)


def is_file(option: Option) -> bool:
    return any(word in option.value for word in ("FILE", "FOLDER", "TOPOLOGY", "OUT", "PEM"))


def quoted(text: str) -> str:
    return "'" + text.replace("'", "'\\''") + "'"


def completion(control: Control) -> int:
    from . import parser  # which has this command in its table

    print((bash if control.arguments.shell == "bash" else zsh)(parser()), end="")
    return DONE


def add_completion_arguments(parser: argparse.ArgumentParser) -> None:
    parser.add_argument("shell", choices=SHELLS, metavar="SHELL", help="the shell: bash or zsh")


COMMANDS = (Command("completion", "prints a script with which a shell completes the commands of resetctl",
                    completion, add_completion_arguments, is_read_only=True),)
