#!/usr/bin/env python3
"""Runs the program on the examples, and compares status and both streams with what stands beside them.

Each trace of examples/ and of the folders in it is replayed: NAME.out has the output, NAME.err and NAME.status the complaint and the
status, where they aren't nothing and 0. NAME.explained is what is written where the trace is explained, and docs/pictures/NAME.svg what
is drawn of it.
All these are rows, as are the tables `[[row]]` of examples/commands/NAME.toml; examples/README.md lists their keys. A row may hand the
program streams that fail: an input that breaks off, an output with room for some bytes, a full standard error. They are the system's own (a
socket whose other end is reset, a limit on the size of files, /dev/full), so the whole program runs as it ships.
Each script is explored by the words behind each `#` of the file NAME.lines beside it, and its lines are compared with those
below the words. It is raced some times in threads, too, whole, in parts, and where steps are denied and tasks killed: every race has to be
closed.
"""
from __future__ import annotations

import os
import re
import resource
import shlex
import signal
import socket
import subprocess
import sys
import tempfile
import tomllib
from concurrent.futures import ThreadPoolExecutor
from contextlib import ExitStack
from dataclasses import dataclass, field, replace
from pathlib import Path
from typing import IO, Iterator

from programs import TOP, Ran, closed, first_difference, is_proved, report, run, tested

FOLDER = TOP / "examples"
COMMANDS = FOLDER / "commands"
PICTURES = TOP / "docs" / "pictures"
RACES = 20
# how the journal of a race is cut, or that it isn't
CUTS = ("", *(f" --cut {calls}" for calls in range(1, 7)))
# by which chances steps are denied and tasks killed in some of the races
CHANCES = " --deny 50 --kill 200"
# the bytes of an input that the program without proof reads too slowly
LARGE = 100_000
# a run that takes longer hangs
SECONDS = 600
# in command lines and on standard error this stands for the name of a file that has the input
NAMED = "{file}"
# `LINE x12` stands for twelve lines
REPEATED = re.compile(r"^(.*) x(\d+)$", re.MULTILINE)


@dataclass(frozen=True)
class Row:
    """Command lines that all do the same, their streams, and what has to come of each."""

    name: str
    words: list[str]
    status: int = 0
    # the input as it stands; or a trace with repeated lines, and behind it numbered rounds
    stdin: str = ""
    trace: str = ""
    rounds: dict[str, int | str] = field(default_factory=dict)
    # the streams that fail
    breaks: bool = False
    room: list[int] | str | None = None
    stderr_is_full: bool = False
    # the reader of the output leaves before anything is written
    leaves: bool = False
    # what is written: a text, or names of the file's texts; or some of it
    stdout: str | None = None
    stdout_starts: str = ""
    stdout_ends: str = ""
    stdout_holds: list[str] = field(default_factory=list)
    stdout_lines: int | None = None
    stderr: str = ""
    stderr_starts: str = ""

    def is_partly_said(self) -> bool:
        """Whether the row says something of its output, but not all of it."""
        return bool(self.stdout_starts or self.stdout_ends or self.stdout_holds or self.stdout_lines)

    def read(self) -> bytes:
        """The input."""
        text = self.trace
        if self.rounds:
            lines = str(self.rounds["lines"])
            text += "".join(lines.replace("{n}", str(n)) for n in range(0, int(self.rounds["below"]), int(self.rounds["by"])))
        return (self.stdin + REPEATED.sub(lambda it: "\n".join([it[1]] * int(it[2])), text)).encode()


def rows_below(folder: Path) -> list[tuple[str, Row]]:
    """All rows of a folder, each with the name of its file and its own. A key that is none of a row's is an error."""
    tables = {file.name: tomllib.loads(file.read_text(encoding="utf-8")) for file in sorted(folder.glob("*.toml"))}
    # (a text that its own file doesn't have is that of another)
    shared = {name: text for it in tables.values() for name, text in it.get("texts", {}).items()}
    found = []
    for file, it in tables.items():
        texts = shared | it.get("texts", {})
        for row in it["row"]:
            named = {key: "".join(texts[name] for name in row[key]) for key in ("stdout", "stdout_ends") if isinstance(row.get(key), list)}
            found.append((f"{file}: {row['name']}", Row(**row | named)))
    return found


def output_fault(row: Row, out: str) -> str | None:
    """What is wrong with the output of a run, if anything is."""
    wanted = row.stdout if row.stdout is not None or row.is_partly_said() else ""
    if wanted is not None and out != wanted:
        return first_difference(out.split("\n"), wanted.split("\n"))
    if not out.startswith(row.stdout_starts):
        return f"it starts with {out[:200]!r}"
    if not out.endswith(row.stdout_ends):
        return f"it ends with {out[-200:]!r}"
    if row.stdout_lines is not None and out.count("\n") != row.stdout_lines:
        return f"it has {out.count(chr(10))} lines"
    absent = [it for it in row.stdout_holds if out.count(it) != 1]
    return f"{absent[0]!r} stands in it {out.count(absent[0])} times" if absent else None


def fault(row: Row, ran: Ran) -> str | None:
    """What is wrong with a run, if anything is."""
    if ran.status != row.status:
        return f"status {ran.status}: {ran.err.strip()}"
    if wrong := output_fault(row, ran.out):
        return wrong
    is_right = ran.err.startswith(row.stderr_starts) if row.stderr_starts else ran.err == row.stderr
    return None if is_right else f"on standard error {ran.err!r}"


def broken(read: bytes) -> socket.socket:
    """An input that gives these bytes, and then an error: its other end is closed with a byte unread, which resets it."""
    ours, its = socket.socketpair()
    its.sendall(b"?")
    ours.sendall(read)
    ours.close()
    return its


def limit(room: int) -> None:
    """Lets the files that this process writes have so many bytes: a write beyond fails."""
    signal.signal(signal.SIGXFSZ, signal.SIG_IGN)
    resource.setrlimit(resource.RLIMIT_FSIZE, (room, room))


def unread() -> IO[bytes]:
    """An output that nobody reads."""
    reads, writes = os.pipe()
    os.close(reads)
    return os.fdopen(writes, "wb")


def run_row(program: Path, words: str, row: Row, room: int | None = None) -> Ran:
    """Runs the program over the row's streams, with room for so many bytes of output where a number is given."""
    with ExitStack() as opened:
        source, out = (opened.enter_context(tempfile.NamedTemporaryFile()) for _ in range(2))
        source.write(row.read())
        source.seek(0)
        ran = subprocess.run(
            ["hugepool", *shlex.split(words.replace(NAMED, source.name))],
            executable=program,
            stdin=opened.enter_context(broken(row.read())) if row.breaks else source,
            stdout=opened.enter_context(unread()) if row.leaves else out,
            stderr=opened.enter_context(open("/dev/full", "wb")) if row.stderr_is_full else subprocess.PIPE,
            preexec_fn=None if room is None else lambda: limit(room),
            timeout=SECONDS,
        )
        out.seek(0)
        said = (ran.stderr or b"").decode(errors="replace").replace(source.name, NAMED)
        return Ran(ran.returncode, out.read().decode(errors="replace"), said)


def front_fault(program: Path, words: str, row: Row) -> str | None:
    """What is wrong where an output has room for a part of what is written: as much of it, and the fault, has to come."""
    whole = (row.stdout if row.stdout is not None else run_row(program, words, row).out).encode()
    # (a negative number counts from the end)
    for room in range(len(whole)) if row.room == "every" else (it if it >= 0 else len(whole) + it for it in row.room):
        front = replace(row, stdout=whole[:room].decode(errors="replace"))
        if wrong := fault(front, run_row(program, words, row, room)):
            return f"room for {room} bytes: {wrong}"
    return None


def row_tries(program: Path, name: str, row: Row) -> Iterator[tuple[str, bool]]:
    """Each command line of a row, and whether it does what the row says."""
    for words in row.words:
        try:
            wrong = fault(row, run_row(program, words, row)) if row.room is None else front_fault(program, words, row)
        except subprocess.TimeoutExpired:
            wrong = "it does not end"
        yield f"{name}: {program.name} {words}: {wrong}", not wrong


def names(ending: str) -> set[str]:
    """The files with this ending, without it."""
    return {str(file.relative_to(FOLDER).with_suffix("")) for file in FOLDER.rglob(f"*{ending}")}


def text(name: str, ending: str, otherwise: str = "") -> str:
    """The text of an example's file, or what it stands for where there is none."""
    file = FOLDER / f"{name}{ending}"
    return file.read_bytes().decode() if file.is_file() else otherwise


def example_rows() -> Iterator[tuple[str, Row]]:
    """The traces and scripts with what stands beside them. (A trace says the same in the loose form, however short it is.)"""
    for name in sorted(names(".trace")):
        trace, status = text(name, ".trace"), int(text(name, ".status", "0"))
        words = ["replay"] if status else ["replay", "replay --loose"]
        yield name, Row(name, words, status, trace, stdout=text(name, ".out"), stderr=text(name, ".err"))
        if name in names(".explained"):
            yield name, Row(name, ["explain", "explain --loose"], stdin=trace, stdout=text(name, ".explained"))
    for picture in sorted(PICTURES.glob("*.svg")):
        drawn = picture.read_bytes().decode()
        yield picture.name, Row(picture.stem, ["draw", "draw --loose"], stdin=text(picture.stem, ".trace"), stdout=drawn)
    for name in sorted(names(".script")):
        for block in text(name, ".lines").removeprefix("# ").split("\n# "):
            words, _, lines = block.partition("\n")
            yield name, Row(name, [words], stdin=text(name, ".script"), stdout=f"{lines.rstrip()}\n")


def unlisted(listing: str) -> list[str]:
    """The traces and scripts that no table of examples/README.md names (those of needed/ have a page of their own)."""
    listed = set(re.findall(r"^\| `([\w-]+)` \|", listing, re.MULTILINE))
    return sorted(it for it in names(".trace") | names(".script") if Path(it).name not in listed and not it.startswith("needed/"))


def listings() -> Iterator[tuple[str, bool]]:
    """Whether each example has what it has to have, and stands in a table."""
    for one, other in ((".trace", ".out"), (".script", ".lines")):
        yield f"each {one} has its {other}: {sorted(names(one) ^ names(other))}", names(one) == names(other) != set()
    yield "each .explained has its trace", names(".explained") <= names(".trace")
    listing = text("README", ".md")
    yield f"examples/README.md lists each example: {unlisted(listing)}", not unlisted(listing)


def races(program: Path, name: str) -> Iterator[tuple[str, bool]]:
    """Whether each race of a script has a line of a closed one, with its number. (A journal is cut of no script whose calls wait.)"""
    script = text(name, ".script")
    for options in (*CUTS, CHANCES, f"{CHANCES} --cut 2"):
        if "--cut" in options and script.startswith("script "):
            continue
        ran = run(program, f"race --times {RACES}{options}", script)
        is_right = ran.status == 0 and len(closed(ran.out) or []) == RACES
        yield f"{name}: race{options}: {'' if is_right else ran}", is_right


def tries(program: Path, pool: ThreadPoolExecutor) -> Iterator[tuple[str, bool]]:
    """What is tried, and whether it went as it should."""
    yield from listings()
    several = [*example_rows(), *rows_below(COMMANDS)]
    large = [] if is_proved() else [it for it in several if len(it[1].read()) > LARGE]
    print(f"left out: {len(large)} rows of large inputs: they need the proved program\n" if large else "", end="")
    begun = [pool.submit(lambda name=name: [*races(program, name)]) for name in sorted(names(".script"))]
    begun += [pool.submit(lambda it=it: [*row_tries(program, *it)]) for it in several if it not in large]
    for it in begun:
        yield from it.result()


if __name__ == "__main__":
    with ThreadPoolExecutor(os.cpu_count() or 1) as lanes:
        sys.exit(report("examples", tries(tested(), lanes)))
