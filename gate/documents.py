#!/usr/bin/env python3
"""Says whether each path, link, command and public call that a document names is there; and whether commands print what documents show.

usage: gate/documents.py            the names
       gate/documents.py --shown    the commands

A document is a file *.md outside of the crates. Looked at are the words between backquotes and the lines of commands in blocks:
a path has to be the end of one in the repository; a link has to lead to a file and a heading; `./hugepool` has to have the command and
its options, `./check` the step; and of a call `hp_frames::Bank::take` or `hp_frames::Bank::{take, free}` each name has to be declared in
that crate. The blocks of docs/MACHINE.md have to stand in the specs of the machine, but for white space; its table of phases in Linux has
to be that of hp_phases::linux_name, and each crate has to have a row in docs/ARCHITECTURE.md.

A shown command is a line `    $ COMMAND` of README.md, docs/*.md or examples/README.md; the indented lines below it are its output, with
the complaints. A line `..` stands for one line or more that the page leaves out. Run are commands that print the same each time, with
filters, and all of two pages; the others are listed.
"""
from __future__ import annotations

import os
import re
import signal
import subprocess
import sys
from concurrent.futures import ThreadPoolExecutor
from fnmatch import fnmatch
from functools import cache
from pathlib import Path
from typing import Iterator, NamedTuple

import check
from programs import TOP, commands, crates_of, first_difference, is_proved, report, run, sources_of, tested

# what documents tell of the kernel's sources, and of the machine
ELSEWHERE = ("mm/", "fs/", "Documentation/", "~", "/")
LEFT_OUT = {".git", "out", "target", "__pycache__"}
PATH = re.compile(r"[\w.*-]*(?:/[\w.*-]*)+|[\w.*-]+\.(?:md|rt|antt|rs|sh|py|c|txt|trace|script|edit|explained|lines)")
COMMAND = re.compile(r"(?:^|[|;&$] *)(\./[\w./-]+|hugepool)(?= |$)([^|;&#]*)")
OPTION = re.compile(r"--([\w-]+)")
LINK = re.compile(r"\]\(([^()\s]+)\)")
PAGES = ("README.md", "docs/*.md", "examples/README.md")
# commands that print something else each time, or that take a kernel
NOT_RUN = re.compile(r"^(?:\./kernel(?! schedules)|\./check|conformance/live/race\.sh)\b|\brace --t(?:imes|race)")
LEFT_OUT_LINES = ".."
# what a command may take without a proof, and with one
SECONDS = (10, 300)


@cache
def paths() -> list[str]:
    """All files and folders of the repository."""
    found = []
    for folder, below, files in os.walk(TOP):
        below[:] = [it for it in below if it not in LEFT_OUT]
        found += [str(Path(folder, it).relative_to(TOP)) for it in [*below, *files]]
    return found


@cache
def is_path(path: str) -> bool:
    """Whether some path of the repository ends so; NAME stands for any name."""
    wanted = path.removeprefix("./").rstrip("/").replace("NAME", "*")
    return not wanted or any(fnmatch(it, wanted) or fnmatch(it, f"*/{wanted}") for it in paths())


@cache
def source_of(crate: str) -> str:
    return "".join(sources_of([crate]).values())


@cache
def words_of_help() -> tuple[frozenset[str], frozenset[str]]:
    """The commands and the options that the program's help names."""
    helps = "".join(run(tested(), f"{it} --help").out for it in commands() if it != "help")
    return frozenset(commands()), frozenset(OPTION.findall(helps))


def is_declared(crate: str, name: str) -> bool:
    """Whether a crate declares an item, a variant or a module of this name, or hands one on."""
    item = rf"\b(?:fn|struct|enum|trait|type|const|mod) {name}\b|^ +{name}(?:,|\(| \{{)|^impl(?:<[^>]*>)? (?:\w+::)*{name} for"
    return bool(re.search(rf"{item}|\bpub use [^;]*\b{name}\b", source_of(crate), re.M))


def call_faults(text: str) -> Iterator[str]:
    """The names that their crate doesn't declare, of calls as `hp_base::b::{c, d}`."""
    for crate, names in re.findall(r"\b(hp_\w+)((?:::\w+)*::(?:\w+|\{[^}]*\}))", text):
        for it in re.findall(r"[^\W\d]\w*", names):
            if crate not in crates_of() or not is_declared(crate, it):
                yield f"{crate} declares no {it}"


def command_faults(line: str) -> Iterator[str]:
    """What is wrong with the commands of a line."""
    for program, words in COMMAND.findall(line):
        asked = words.split()
        first = asked[0] if asked else ""
        if program in ("./hugepool", "hugepool"):
            known, options = words_of_help()
            is_known = not re.fullmatch(r"[a-z]+", first) or first in {*known, "build"}
            yield from [] if is_known else [f"hugepool has no command {first}"]
            yield from (f"hugepool has no option --{it}" for it in OPTION.findall(words) if it not in {*options, "help", "version"})
        elif not is_path(program):
            yield f"there is no {program}"
        elif program == "./check" and first not in ("", "--help", "--install", *check.STEPS):
            yield f"./check has no step {first}"
        elif program == "./check" and len(asked) > 1 and not (asked[1].startswith("-") or asked[1] in ("CRATE", *crates_of())):
            yield f"there is no crate {asked[1]}"
        yield from (f"there is no {it}" for it in re.findall(r"< ([\w.-]+/\S+)", words) if not is_path(it))


def faults_in(text: str) -> Iterator[str]:
    """What a document names that isn't there."""
    for span in re.findall(r"`([^`\n]+)`", re.sub(r"^```.*?^```", "", text, flags=re.M | re.S)):
        yield from command_faults(span)
        if PATH.fullmatch(span) and not (span.startswith(ELSEWHERE) or "out" in span.split("/") or is_path(span)):
            yield f"there is no {span}"
    yield from call_faults(text)
    for line in text.splitlines():
        if line.startswith(("    ./", "    $ ./", "./", "$ ./")):
            yield from command_faults(line.strip().removeprefix("$ "))


@cache
def headings(file: Path) -> set[str]:
    """The headings of a document, as links spell them."""
    text = re.sub(r"^```.*?^```", "", file.read_text(encoding="utf-8"), flags=re.M | re.S)
    return {re.sub(r"[^\w\- ]", "", it.lower()).replace(" ", "-") for it in re.findall(r"^#+ (.*)$", text, re.M)}


def link_faults(document: Path, text: str) -> Iterator[str]:
    """The links that lead nowhere."""
    for link in LINK.findall(text):
        path, _, heading = link.partition("#")
        file = document.parent / path if path else document
        if link.startswith(("http:", "https:")):
            continue
        if not file.exists():
            yield f"there is no {path}"
        elif heading and heading not in headings(file):
            yield f"{file.name} has no heading {heading}"


def flat(text: str) -> str:
    """A text of specs without comments, white space and semicolons."""
    return re.sub(r"--[^\n]*|[\s;]+", "", text)


def quotation_faults(text: str) -> Iterator[str]:
    """The blocks that don't stand in the machine's specs."""
    files = sorted((TOP / "crates" / "hp_machine" / "specs").glob("*.antt"))
    said = flat("".join(it.read_text(encoding="utf-8") for it in files))
    yield from (f"no spec has {it.strip()[:60]}" for it in re.findall(r"(?:^    .+\n)+", text, re.M) if flat(it) not in said)


def phase_faults(text: str) -> Iterator[str]:
    """The names of Linux's functions that hp_phases has and the tables of phases in Linux don't."""
    rows = re.findall(r"^\| .*\|$", text.partition("### The phases in Linux")[2].partition("\n#")[0], re.M)
    table = set(re.findall(r"`(\w+)`", "".join(rows)))
    code = set(re.findall(r'(?:linux_\w+: |=> )"(\w+)"', source_of("hp_phases")))
    yield from sorted(code ^ table if len(code) > 20 else {"nothing was read"})


class Shown(NamedTuple):
    page: str
    command: str
    lines: list[str]


def shown_in(page: str, text: str) -> Iterator[Shown]:
    """The commands of a page, each with the lines below it."""
    for command, lines in re.findall(r"^    \$ (.*)\n((?:    (?!\$ ).*\n)*)", text, re.M):
        yield Shown(page, command, [it[4:] for it in lines.splitlines()])


def agree(printed: list[str], wanted: list[str]) -> bool:
    """Whether lines are those of a page, where `..` is one line or more."""
    pattern = "".join(r"(?:.*\n)+" if it == LEFT_OUT_LINES else re.escape(f"{it}\n") for it in wanted)
    return bool(re.fullmatch(pattern, "".join(f"{it}\n" for it in printed)))


def printed_by(command: str) -> list[str] | None:
    """What a command prints, in a shell at the top; nothing where it doesn't end."""
    own = {"env": {**os.environ, "HUGEPOOL": "now"}, "stdin": subprocess.DEVNULL, "stdout": subprocess.PIPE}
    with subprocess.Popen(["bash", "-o", "pipefail", "-c", f"exec 2>&1\n{command}\n:"], cwd=TOP, start_new_session=True, **own) as ran:
        try:
            return ran.communicate(timeout=SECONDS[is_proved()])[0].decode(errors="replace").splitlines()
        except subprocess.TimeoutExpired:
            os.killpg(ran.pid, signal.SIGKILL)
            return None


def shown_tries() -> Iterator[tuple[str, bool]]:
    pages = sorted(str(file.relative_to(TOP)) for page in PAGES for file in TOP.glob(page))
    shown = [it for page in pages for it in shown_in(page, (TOP / page).read_text(encoding="utf-8"))]
    own, slow = [it for it in shown if not NOT_RUN.search(it.command)], 0
    yield "some are run", bool(own)
    with ThreadPoolExecutor(2) as pool:
        for it, printed in zip(own, pool.map(lambda it: printed_by(it.command), own)):
            if printed is None and not is_proved():
                slow += 1
                continue
            wrong = printed[:3] if printed and LEFT_OUT_LINES in it.lines else first_difference(printed or ["nothing"], it.lines)
            yield f"{it.page}: {it.command}: {wrong}", printed is not None and agree(printed, it.lines)
    print(f"shown: {len(own) - slow} commands are run, {len(shown) - len(own)} aren't")
    print(f"left out: {slow} long commands that documents show: they need the proved program\n" if slow else "", end="")


def tries() -> Iterator[tuple[str, bool]]:
    """What is tried, and whether it went as it should."""
    for file in sorted(TOP / it for it in paths() if it.endswith(".md") and not it.startswith("crates/")):
        text = file.read_text(encoding="utf-8")
        faults = [*faults_in(text), *link_faults(file, text)]
        yield f"{file.relative_to(TOP)}: {'; '.join(faults)}", not faults
    machine = (TOP / "docs" / "MACHINE.md").read_text(encoding="utf-8")
    yield f"docs/MACHINE.md quotes the specs: {'; '.join(quotation_faults(machine))}", not any(quotation_faults(machine))
    yield f"docs/MACHINE.md has linux_name's names: {', '.join(phase_faults(machine))}", not any(phase_faults(machine))
    architecture = (TOP / "docs" / "ARCHITECTURE.md").read_text(encoding="utf-8")
    unlisted = set(crates_of()) - set(re.findall(r"^\| [^|]*\| `(\w+)` \|", architecture, re.M))
    yield f"docs/ARCHITECTURE.md lists all crates: {unlisted}", not unlisted


if __name__ == "__main__":
    sys.exit(report("shown", shown_tries()) if sys.argv[1:] == ["--shown"] else report("documents", tries()))
