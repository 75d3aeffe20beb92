#!/usr/bin/env python3
"""Tests the command ./kernel schedules: its statuses, what it prints and writes, and its one line for each bad input."""
from __future__ import annotations

import subprocess
import sys
import tempfile
from pathlib import Path
from typing import Iterator, NamedTuple

import tally
from compare import TOP

KERNEL = TOP / "kernel"
CHECK = TOP / "conformance" / "live" / "check.py"
EXAMPLE = "examples/truncate-against-fault.script"
# (a) and (c) of docs/LINUX.md: the calls of the smallest recordings
COMMIT = "pool 1 1 64 2\nbegin 1 map 0 0 1\nbegin 1 store 0 7\nbegin 2 mapn 0 0 1\nbegin 2 trunc 0 0\n"
BACK_OUT = "pool 2 1 64 2\nbegin 1 mapn 0 0 1\nbegin 1 store 0 1\nbegin 2 mapn 0 0 1\nbegin 2 map 0 0 1\n"
ALONE = "pool 2 1 64 1\nbegin 1 map 0 0 2\nbegin 1 store 0 1\nbegin 1 trunc 0 0\nbegin 1 exit\n"
# a page that a map was promised, and the pool's last page goes to a fallocate
PROMISED = "script 1 2 64 2\nbegin 1 mapn 0 0 1\nbegin 1 store 0 1\nbegin 2 map 0 0 1\nafter 1\nbegin 2 alloc 1 0 1\nbegin 2 load 0\n"
LONGER = PROMISED + "begin 2 punch 1 0 1\nbegin 1 load 0\nbegin 1 load 0\n"
LEAK = "pool 1 1 64 1 2\nbegin 1 alloc 0 0 2\n"


class Ran(NamedTuple):
    status: int
    out: str
    err: str


def run(*words: str, read: str | bytes = "") -> Ran:
    given = read.encode() if isinstance(read, str) else read
    ran = subprocess.run([KERNEL, "schedules", *words], cwd=TOP, input=given, capture_output=True, check=False)
    return Ran(ran.returncode, ran.stdout.decode(), ran.stderr.decode())


class Row(NamedTuple):
    """What is asked of a script, the status, and what has to be printed."""

    name: str
    text: str
    words: tuple[str, ...]
    status: int
    says: tuple[str, ...]


ROWS = (
    Row("a commit loses the count", COMMIT, (), 0, ("reserve count: it can end 1 too low, after", "added 1", "served, in every schedule")),
    Row("so by each version", COMMIT, ("--linux", "6.12"), 0, ("it can end 1 too low",)),
    Row("7.3 has one rule more", COMMIT, ("--linux", "7.3"), 0, ("by its rules B D F L N P Q S T U;", "it can end 1 too low")),
    Row("one task alone loses nothing", ALONE, (), 1, ("right at the end, in every schedule", "served, in every schedule")),
    Row("without a failed allocation nothing is lost", BACK_OUT, (), 1, ("no allocation fails", "right at the end, in every schedule")),
    Row("a back-out loses the count", BACK_OUT, ("--denials", "1"), 0, ("it can end 1 too low", "restore_reserve_on_error", "removed 1")),
    Row("a promise is kept", PROMISED, (), 1, ("served, in every schedule",)),
    Row("a promise is broken", PROMISED, ("--denials", "1"), 0, ("can end in SIGBUS, refused after", "  2  SIGBUS")),
    Row("a limit of states", COMMIT, ("--states", "5"), 3, ("6 states", "not all: there are more", "in what was searched")),
    Row("what is found before a limit counts", LONGER, ("--denials", "1", "--states", "2500"), 0,
        ("not all: there are more", "in what was searched", "can end in SIGBUS")),
    Row("6.1 gives back the quota", LEAK, ("--linux", "6.1"), 1, ("right at the end",)),
)

SCRIPT = "pool 2 1 4 2\nbegin 1 map 0 0 1\n"
# bad inputs, and what the line about each has to say
BAD = (
    ("", "this text has no line"),
    ("pool 2 1 4\n", "line 1: not a header"),
    ("pool 0 1 4 1\n", "line 1: a pool has 1 to 4096 frames"),
    ("pool 1 1 4 65\n", "64 tasks"),
    ("pool 1 1 4 1 0\n", "line 1: a quota is 1 to 65535 pages"),
    (SCRIPT + "step 1\n", "line 3: a script has lines 'begin TASK CALL' and 'after TASK': 'step 1'"),
    (SCRIPT + "kill 1\n", "line 3: a script has lines"),
    (SCRIPT + "resize 3\n", "line 3: a script has lines"),
    (SCRIPT + "\n", "line 3: a script has lines"),
    (SCRIPT + "begin 1 load 0\r\n", "line 3: a script has lines"),
    (SCRIPT + "begin 1 load 0\fbegin 1 load 0\n", "line 3: a script has lines"),
    (SCRIPT + "begin 3 load 0\n", "line 3: the pool has tasks 1 to 2"),
    (SCRIPT + "begin 1\n", "line 3: the calls are map, mapn, load"),
    (SCRIPT + "begin 1 mremap 0\n", "line 3: the calls are map, mapn, load"),
    (SCRIPT + "begin 1 load\n", "line 3: the calls are map, mapn, load"),
    (SCRIPT + "begin 1 map 1 0 1\n", "line 3: the pool has files 0 to 0"),
    (SCRIPT + "begin 1 punch 0 0 0\n", "line 3: the range is empty, or ends above 4096 pages"),
    (SCRIPT + "begin 1 alloc 0 4096 1\n", "line 3: the range is empty, or ends above"),
    (SCRIPT + "begin 1 trunc 0 4097\n", "line 3: the range is empty, or ends above"),
    (SCRIPT + "begin 1 load 16384\n", "line 3: an address space has 16384 pages"),
    (SCRIPT + "begin 2 mapn 0 0 4096\n" * 5, "line 7: the maps of the task fill its address space"),
    (SCRIPT + "after 1\nbegin 2 load 0\n", "line 3: only a script whose header begins with 'script'"),
    (SCRIPT.replace("pool", "script") + "after 1\n", "line 3: an after stands before the begin of another task"),
    (SCRIPT.replace("pool", "script") + "after 1\nbegin 1 load 0\n", "line 3: an after stands before"),
    (b"pool \xff\n", "is not a text"),
)

WORDS = (
    (("/nowhere",), "/nowhere: No such file"),
    ((".",), "Is a directory"),
    (("--linux", "5.4", EXAMPLE), "invalid choice: '5.4'"),
    (("--denials", "x", EXAMPLE), "'x' is not a number"),
    ((EXAMPLE, "--trace", "/nowhere/x"), "/nowhere/x: No such file"),
)


def rows() -> Iterator[tuple[str, object]]:
    for it in ROWS:
        ran = run(*it.words, "-", read=it.text)
        yield it.name, ran.status == it.status and all(word in ran.out for word in it.says) or ran


def bad() -> Iterator[tuple[str, object]]:
    for text, says in BAD:
        ran = run("-", read=text)
        is_one = ran.err.startswith("kernel: ") and ran.err.count("\n") == 1
        yield f"bad input: {says}", ran.status == 2 and is_one and says in ran.err and not ran.out or ran
    for words, says in WORDS:
        ran = run(*words)
        yield f"bad words: {' '.join(words)}", ran.status == 2 and says in ran.err and "Traceback" not in ran.err or ran


def written() -> Iterator[tuple[str, object]]:
    """The trace is one of the machine, and ends where the rows do; check.py takes the recording to be whole by Linux's rules."""
    with tempfile.TemporaryDirectory() as name:
        trace, recorded = Path(name, "a.trace"), Path(name, "a.bin")
        ran = run(EXAMPLE, "--trace", str(trace), "--recording", str(recorded))
        lines = trace.read_text(encoding="utf-8").splitlines()
        outcomes = PROGRAM(lines)[: len(lines) - 1]
        beside = [it.partition("| ")[2] for it in ran.out.splitlines() if " | " in it][1:]
        made = [row for it in beside if it for row in it.split("; ")]
        wanted = [f"{line}: {it}" for line, it in zip(lines[1:], outcomes)]
        yield "the program makes the rows that are printed", made == wanted or (made, wanted)
        checked = subprocess.run([CHECK, "--jobs", "1", "--rules", "BDFNPQSTU", recorded], capture_output=True, text=True, check=False)
        yield "the recording is whole by the rules", checked.stdout.endswith("recordings 1, whole 1\n") or checked
        alone = subprocess.run([CHECK, "--jobs", "1", recorded], capture_output=True, text=True, check=False)
        yield "and by the machine's it isn't", alone.stdout.endswith("recordings 1, whole 0\n") or alone
    with tempfile.TemporaryDirectory() as name:
        trace = Path(name, "a.trace")
        ran = run("--trace", str(trace), "-", read=ALONE)
        yield "where nothing is wrong nothing is written", ran.status == 1 and not trace.exists() or ran


if __name__ == "__main__":
    PROGRAM = tally.machine_of("exploring").program
    sys.exit(tally.ended("exploring", (rows, bad, written)))
