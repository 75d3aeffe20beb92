#!/usr/bin/env python3
"""Writes completions for bash, zsh and fish from what the program's --help says of commands and options.

usage: completions.py PROGRAM FOLDER

Into the folder it writes hugepool.bash, _hugepool (for zsh) and hugepool.fish. Of each help text it reads the lines below `Commands:` and
`Options:`; the prose below them it ignores.
"""
from __future__ import annotations

import re
import subprocess
import sys
from pathlib import Path
from typing import NamedTuple

COMMAND = re.compile(r"  (?P<name>[a-z][\w-]*) +(?P<about>.+)")
OPTION = re.compile(r"  (?:(?P<short>-\w), |    )(?P<name>--[\w-]+)(?: <(?P<value>[^>]+)>)?  +(?P<about>.+)")


class Option(NamedTuple):
    short: str | None
    name: str
    value: str | None
    about: str


class Command(NamedTuple):
    name: str
    about: str
    options: list[Option]


def help_of(program: str, *words: str) -> str:
    return subprocess.run([program, *words, "--help"], stdout=subprocess.PIPE, text=True, check=True).stdout


def part(text: str, heading: str, form: re.Pattern[str]) -> list[re.Match[str]]:
    """The lines below a heading, up to the next empty one. One of another form is an error: it would be left out."""
    _, _, after = text.partition(f"\n{heading}:\n")
    lines = after.split("\n\n")[0].splitlines()
    found = [form.fullmatch(it) for it in lines]
    if not lines or None in found:
        sys.exit(f"completions: nothing can be read below {heading} of:\n{text}")
    return [it for it in found if it]


def options_of(text: str) -> list[Option]:
    return [Option(**it.groupdict()) for it in part(text, "Options", OPTION)]


def commands_of(program: str) -> tuple[list[Command], list[Option]]:
    """The commands, each with its options, and the options of the program itself."""
    text = help_of(program)
    named = [(it["name"], it["about"]) for it in part(text, "Commands", COMMAND)]
    of = lambda name: [] if name == "help" else options_of(help_of(program, name))
    return [Command(name, about, of(name)) for name, about in named], options_of(text)


def flags(options: list[Option]) -> str:
    return " ".join(word for it in options for word in (it.short, it.name) if word)


def names(commands: list[Command]) -> str:
    return " ".join(it.name for it in commands)


def bash(commands: list[Command], own: list[Option]) -> str:
    """After an option that takes a value, nothing is offered."""
    valued = "|".join(sorted({it.name for command in commands for it in command.options if it.value}))
    offered = {it.name: names(commands[:-1]) if it.name == "help" else flags(it.options) for it in commands}
    cases = "".join(f'        {name}) words="{words}" ;;\n' for name, words in offered.items())
    return f"""# bash completion for hugepool
_hugepool()
{{
    local word=${{COMP_WORDS[COMP_CWORD]}} before=${{COMP_WORDS[COMP_CWORD - 1]}} command=${{COMP_WORDS[1]}} words=
    COMPREPLY=()
    if [ "$COMP_CWORD" -eq 1 ]; then command=; fi
    case $before in
        {valued}) return ;;
    esac
    case $command in
        '') words="{names(commands)} {flags(own)}" ;;
{cases}    esac
    mapfile -t COMPREPLY < <(compgen -W "$words" -- "$word")
}}
complete -F _hugepool hugepool
"""


def quoted(text: str) -> str:
    """In single quotes, as bash and zsh read them."""
    return "'" + text.replace("'", "'\\''") + "'"


def zsh_option(option: Option) -> str:
    about = re.sub(r"([\[\]:\\])", r"\\\1", option.about)
    value = f":{option.value}: " if option.value else ""
    all_names = [it for it in (option.short, option.name) if it]
    if len(all_names) == 1:
        return quoted(f"{option.name}[{about}]{value}")
    return f"{quoted(f'({chr(32).join(all_names)})')}{{{','.join(all_names)}}}{quoted(f'[{about}]{value}')}"


def zsh(commands: list[Command], own: list[Option]) -> str:
    described = "\n".join(f"        {quoted(it.name + ':' + it.about.replace(':', chr(92) + ':'))}" for it in commands)
    specs = lambda options: "".join(f" \\\n                {zsh_option(it)}" for it in options)
    cases = "".join(f"            {it.name})\n                _arguments{specs(it.options)} ;;\n" for it in commands if it.options)
    return f"""#compdef hugepool
_hugepool() {{
    local state line
    local -a commands
    commands=(
{described}
    )
    _arguments -C{specs(own)} \\
                '1:command:->command' '*::word:->word'
    case $state in
        command) _describe command commands ;;
        word) case $line[1] in
            help)
                _describe command commands ;;
{cases}        esac ;;
    esac
}}
_hugepool "$@"
"""


def fish(commands: list[Command], own: list[Option]) -> str:
    escaped = lambda text: "'" + re.sub(r"(['\\])", r"\\\1", text) + "'"
    short = lambda it: f" -s {it.short[1:]}" if it.short else ""
    option = lambda it: f"{short(it)} -l {it.name[2:]}{' -x' if it.value else ''} -d {escaped(it.about)}"
    lines = ["# fish completion for hugepool", "complete -c hugepool -f"]
    first, after = "-n __fish_use_subcommand", "-n '__fish_seen_subcommand_from %s'"
    lines += [f"complete -c hugepool {first}{option(it)}" for it in own]
    lines += [f"complete -c hugepool {first} -a {it.name} -d {escaped(it.about)}" for it in commands]
    lines += [f"complete -c hugepool {after % it.name}{option(that)}" for it in commands for that in it.options]
    lines.append(f"complete -c hugepool {after % 'help'} -a '{names(commands[:-1])}'")
    return "\n".join(lines) + "\n"


def main(program: str, folder: str) -> None:
    read = commands_of(program)
    for name, write in (("hugepool.bash", bash), ("_hugepool", zsh), ("hugepool.fish", fish)):
        Path(folder, name).write_text(write(*read), encoding="utf-8")


if __name__ == "__main__":
    main(*sys.argv[1:])
