#!/usr/bin/env python3
"""Shows that bench/fuzz.sh notices wrong programs: it compares the program with plain ones that have one wrong line each.

Each has to be noticed within a minute, with a trace that shows it when it is given again. And the right plain program has to
be passed, and the words of the command line judged. It takes some minutes, and needs a processor for itself: where it has none,
what is rare isn't met in a minute. `bench/test_fuzz.py WORD` tries the wrong lines alone whose names have that word.
"""
from __future__ import annotations

import os
import re
import shutil
import subprocess
import sys
import tempfile
import time
from pathlib import Path
from typing import NamedTuple

TOP = Path(__file__).resolve().parent.parent
PLAIN = TOP / "bench" / "plain"
FUZZ = PLAIN / "target" / "release" / "fuzz"
PROGRAM = [str(TOP / "crates" / "hugepool" / "out" / "hugepool"), "replay"]
SECONDS = 60
# (with another seed the rarest, a promised descriptor, may take longer)
SEED = "3"
# a trace that shows a wrong line has at most so many lines, of some 3,000, but for the two about the limit of events: there is no time to
# make these smaller
FEW, LONG = 250, 1_000_100


class Wrong(NamedTuple):
    """A wrong line: in which file it stands, what stands there now, and what takes its place."""

    name: str
    file: str
    old: str
    new: str
    most: int = FEW


ROWS, TEXT, PROGRAM_FILE = "src/lib.rs", "src/text.rs", "src/bin/simulate.rs"
WRONG = [
    Wrong("a denial is ignored", ROWS, "if !grant { return go(c, Restore, Answer::NoMemory); }", ""),
    Wrong("a settle gives no reservation back", ROWS, "self.resv -= c.excess;", ""),
    Wrong("the quota is one too high", ROWS, "c.missing > quota - self.used", "c.missing > quota + 1 - self.used"),
    Wrong("the quota is asked after the frames", ROWS, "go(c, Abort, Answer::NoQuota)", "go(c, Abort, Answer::NoFrame)"),
    Wrong("a truncation leaves the used count", ROWS, "c.excess + c.evicted } else", "c.excess } else"),
    Wrong("a kill isn't noticed by a map", ROWS, "if killed { return go(c, Abort,", "if killed && c.kind != Kind::Map { return go(c, Abort,"),
    Wrong("a resize retires reserved frames", ROWS, "self.free.len() as u32 - self.resv;", "self.free.len() as u32;"),
    Wrong("a denied delete isn't counted", ROWS, "if c.denied { self.resv += 1 } else", "if !c.denied"),
    Wrong("a promised descriptor is taken", ROWS, "if self.spare > self.pending { self.spare -= 1 }", "if self.spare > 0 { self.spare -= 1 }"),
    Wrong("a new page keeps the frame's word", ROWS, "self.words[c.held as usize] = 0;", ""),
    Wrong("the size isn't looked at again", ROWS, "if touches && c.index >= self.files[f].size { return", "if false { return"),
    Wrong("a mapping too many fits", ROWS, "(len <= VPNS - base)", "(len <= VPNS + 1 - base)"),
    Wrong("leading zeros are read", TEXT, "|| field.len() > 1 && field[0] == b'0'", ""),
    Wrong("numbers wrap", TEXT, "number(field, u64::from(u32::MAX))", "number(field, u64::MAX)"),
    Wrong("a carriage return is let pass", TEXT, "if is_whole { line.pop(); }", "if is_whole { line.pop(); if line.last() == Some(&b'\\r') { line.pop(); } }"),
    Wrong("a last line without its end is read", TEXT, "if whole && events", "if events"),
    Wrong("4,097 frames are allowed", TEXT, "within(all[1], 1, MOST_FRAMES)", "within(all[1], 1, MOST_FRAMES + 1)"),
    Wrong("the wrong line is named", TEXT, "Fault::BadLine(events + 1)", "Fault::BadLine(events)"),
    Wrong("one event too many is read", TEXT, "events < MOST_EVENTS", "events <= MOST_EVENTS", LONG),
    Wrong("one event too few is read", TEXT, "events < MOST_EVENTS", "events + 1 < MOST_EVENTS", LONG),
    Wrong("a fault has status 0", PROGRAM_FILE, "    ExitCode::FAILURE", "    ExitCode::SUCCESS"),
    Wrong("a fault is told in other words", PROGRAM_FILE, "not a pool header", "no pool header"),
    Wrong("a fault is told twice", PROGRAM_FILE, "is not allowed here\")", "is not allowed here\\nhugepool: line {line}\")"),
]


def build(folder: Path, wrong: Wrong, target: Path) -> Path:
    """The plain program with one wrong line."""
    shutil.copytree(PLAIN, folder, ignore=shutil.ignore_patterns("target"))
    file = folder / wrong.file
    text = file.read_text(encoding="utf-8")
    if text.count(wrong.old) != 1:
        raise SystemExit(f"test_fuzz: {wrong.name}: its line stands {text.count(wrong.old)} times in {wrong.file}")
    file.write_text(text.replace(wrong.old, wrong.new), encoding="utf-8")
    words = ["cargo", "build", "--quiet", "--release", "--bin", "simulate"]
    subprocess.run(words, cwd=folder, env={**os.environ, "CARGO_TARGET_DIR": str(target), "RUSTFLAGS": "-Awarnings"}, check=True)
    return target / "release" / "simulate"


def fuzz(folder: Path, theirs: Path, seconds: int) -> tuple[int, str]:
    """The status and the output of a run over another plain program."""
    words = [FUZZ, str(seconds), SEED, folder, *PROGRAM, "--", theirs]
    ran = subprocess.run(words, stdout=subprocess.PIPE, text=True, check=False)
    return ran.returncode, ran.stdout


def did(words: list[str | Path], trace: Path) -> tuple[int, bytes, bytes]:
    with trace.open("rb") as source:
        ran = subprocess.run(words, stdin=source, capture_output=True, check=False)
    return ran.returncode, ran.stdout, ran.stderr


def fault(room: Path, wrong: Wrong, theirs: Path) -> str | None:
    """What is wrong with the run over a wrong program, if anything is."""
    room.mkdir()
    began = time.monotonic()
    status, told = fuzz(room, theirs, SECONDS)
    found = re.search(r"^fuzz: (.*)\nfuzz: (\d+) lines show it: (.*)$", told, re.MULTILINE)
    if status != 1 or not found:
        return f"status {status}, and told is {told!r}"
    lines, trace = int(found[2]), Path(found[3])
    if did([*PROGRAM], trace) == did([theirs], trace):
        return "the trace that is named doesn't show it"
    if trace.read_bytes().count(b"\n") > wrong.most:
        return f"the trace that is named has {lines} lines"
    print(f"  {wrong.name}: found and made small in {time.monotonic() - began:.0f} s, {lines} lines: {found[1]}", flush=True)
    return None


# a program that names another command where it should say what is wrong with a line
HINTS = """#!/bin/sh
"{plain}"
status=$?
[ "$status" = 0 ] || echo "hugepool: hugepool format accepts this line, and prints a trace that this command accepts" >&2
exit "$status"
"""


def without_reasons(room: Path) -> list[str]:
    """What is wrong with the runs in which ours is the plain program, which doesn't say what is wrong with a line, without and with a hint."""
    room.mkdir()
    plain, hints = PLAIN / "target" / "release" / "simulate", room / "hints"
    hints.write_text(HINTS.format(plain=plain), encoding="utf-8")
    hints.chmod(0o755)
    faults = []
    for ours in (plain, hints):
        ran = subprocess.run([FUZZ, str(SECONDS), SEED, room, ours, "--", plain], stdout=subprocess.PIPE, text=True, check=False)
        if ran.returncode != 1 or "ours gives no reason in one line" not in ran.stdout:
            faults.append(f"{ours.name}, which gives no reasons: status {ran.returncode}, and told is {ran.stdout!r}")
    return faults


def statuses() -> list[str]:
    """What is wrong with the statuses of the command line."""
    faults = []
    for words, wanted in (([], 2), (["0"], 2), (["x"], 2), (["1", "x"], 2), (["1", "2", "3"], 2), (["3", "7"], 0)):
        status = subprocess.run([TOP / "bench" / "fuzz.sh", *words], capture_output=True, check=False).returncode
        if status != wanted:
            faults.append(f"fuzz.sh {' '.join(words)}: status {status}, and not {wanted}")
    return faults


def main(word: str = "") -> int:
    faults, tried = statuses(), [it for it in WRONG if word in it.name]
    with tempfile.TemporaryDirectory(prefix="test-fuzz-") as name:
        room = Path(name)
        faults += without_reasons(room / "room")
        for k, wrong in enumerate(tried):
            theirs = build(room / f"plain-{k}", wrong, room / "target")
            if found := fault(room / f"room-{k}", wrong, theirs):
                faults.append(f"{wrong.name}: {found}")
    print("".join(f"  {it}\n" for it in faults), end="")
    print(f"fuzz: {len(tried) + 7 - len(faults)} passed, {len(faults)} failed")
    return 1 if faults else 0


if __name__ == "__main__":
    sys.exit(main(*sys.argv[1:2]))
