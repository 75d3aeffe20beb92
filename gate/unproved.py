#!/usr/bin/env python3
"""Tries programs that are compiled without proof from a copy of the repository, in which some things are changed.

The program that only replays has to print what the tested program prints of each trace of examples/, and so has the whole one, in the
words of ./hugepool explain, too: output, status and, behind the line that says that nothing is proved yet, standard error.

The whole one has a running pool whose journal goes wrong at three words that a store may write: it loses the store's begin, swaps it
with the entry before, or has it twice. No proof allows such a pool, so nothing else shows that its end finds the disagreement, and where.
It has an output whose flush fails, where a variable says so, since standard output has nothing to flush: each command has to say that
writing failed.
"""
from __future__ import annotations

import os
import shutil
import sys
import tempfile
from concurrent.futures import ThreadPoolExecutor
from pathlib import Path
from typing import Iterator

from programs import TOP, WORDS, Ran, of_program, report, run, sources_of, status_of, tested

NOTICE = "hugepool: not proved yet: the same sources, compiled without proof; ./hugepool build proves them\n"
LEFT_OUT = shutil.ignore_patterns("out", ".git", "target", "__pycache__")
# what a hold of the running pool writes into its journal, ..
KEEPS = "        self.journal.push_reserved(*kept);\n"
# .. and what it writes at some words
GOES_WRONG = """        let word = match *lent { Event::Begin(_, hp_base::Op::Store { word, .. }) => word, _ => 0 };
        self.journal.reserve(2)?;
        if word != 4001 { self.journal.push_reserved(*kept); }
        if word == 4002 { let many = self.journal.len(); self.journal.as_mut_slice().swap(many - 1, many - 2); }
        if word == 4003 { self.journal.push_reserved(*kept); }
"""
# A load that finds no mapping makes two entries, so the store's begin is the fifth, at position 4. Lost, the next one stands there, which
# isn't the next of its task; swapped, it stands at position 3; twice, it stands at 5 again.
DISAGREE = {4001: "disagree 4 entries 4", 4002: "disagree 3 entries 3", 4003: "disagree 5 entries 5", 4004: "closed entries 8"}

# an output whose flush fails
OUTPUT = """/// Standard output, whose flush may fail.
#[derive(Drop)]
struct Flushed<W>(W, bool);

impl<W: std::io::Write> std::io::Write for Flushed<W> {
    fn write(&mut self, buf: &[u8]) -> io::Result<usize> {
        self.0.write(buf)
    }

    fn flush(&mut self) -> io::Result<()> {
        if self.1 { Err(io::Error::from(io::ErrorKind::StorageFull)) } else { Ok(()) }
    }
}

"""
FLUSHED = "rt.stdout(), palette"
# what is changed in the copy: in the one source of the program that has the first text, each of these, which stands there once
CHANGES = [
    (KEEPS, [(KEEPS, GOES_WRONG)]),
    (
        FLUSHED,
        [
            ("use std::io;\n", "use std::env::Env;\nuse std::io;\n"),
            ("fn main(", f"{OUTPUT}fn main("),
            (FLUSHED, 'Flushed(rt.stdout(), rt.var("FLUSH_FAILS", &mut [0; 8]).is_ok()), palette'),
        ],
    ),
]


def told_of(launcher: Path, words: str, read: bytes, **more: str) -> Ran:
    own = {it: value for it, value in os.environ.items() if it != "HUGEPOOL"}
    return run(launcher, words, read, env={**own, **more})


def change(copy: Path) -> None:
    """Changes the copy."""
    sources = {copy / file.relative_to(TOP): text for file, text in sources_of(of_program()).items()}
    for mark, pairs in CHANGES:
        [(file, text)] = [it for it in sources.items() if mark in it[1]]
        for old, new in pairs:
            if text.count(old) != 1:
                sys.exit(f"unproved: {file.name} has {text.count(old)} times, and not once: {old.strip()}")
            text = text.replace(old, new)
        file.write_text(text, encoding="utf-8")


def same(copy: Path, command: str, pool: ThreadPoolExecutor) -> Iterator[tuple[str, bool]]:
    """Whether the copy's program prints what the tested one prints of each trace."""
    traces = sorted((TOP / "examples").rglob("*.trace"))
    answers = lambda it: (told_of(tested(), command, it.read_bytes()), told_of(copy / "hugepool", command, it.read_bytes()))
    for trace, (wanted, got) in zip(traces, pool.map(answers, traces)):
        yield f"{command} < {trace.relative_to(TOP)}", got == wanted._replace(err=NOTICE + wanted.err)


def compiled(copy: Path) -> list[str]:
    """The crates whose unproved program the copy has."""
    return sorted(it.parent.parent.name for it in copy.glob("crates/*/out/unproved"))


def flushes(copy: Path) -> Iterator[tuple[str, bool]]:
    """Whether each command reports an output that fails at its last flush, and only then."""
    for kind, words in ((kind, words) for kind, several in WORDS.items() for words in several):
        read = b"picture 0 0 0 0\nend\n" if kind == "picture" else b"pool 4 1 4 1\nbegin 1 map 0 0 1\n"
        good, failed = told_of(copy / "hugepool", words, read), told_of(copy / "hugepool", words, read, FLUSH_FAILS="1")
        wanted = (status_of(words), len(good.out), f"{NOTICE}hugepool: writing failed\nhugepool: no storage space\n")
        yield f"{words} flushes its output", good.status == 0 and (failed.status, len(failed.out), failed.err) == wanted


def disagreements(copy: Path) -> Iterator[tuple[str, bool]]:
    """Whether the end of a pool finds where its journal went wrong, also where a cut found it before."""
    for word, told in DISAGREE.items():
        loads = "begin 1 load 0\n"
        script = f"pool 1 1 1 1\n{loads}{loads}begin 1 store 0 {word}\n{loads}".encode()
        wanted = f"run 0 {told} free 1 resv 0\n"
        ran = told_of(copy / "hugepool", "race --times 1", script)
        yield f"a store of {word}: {wanted.strip()}", (ran.out, ran.status) == (wanted, 0 if "closed" in told else 1)
        cut = told_of(copy / "hugepool", "race --times 1 --cut 4", script)
        yield f"a store of {word}, where the race is cut: {cut.out.strip()}", (cut.out, cut.status) == (ran.out, ran.status)


def tries(copy: Path, pool: ThreadPoolExecutor) -> Iterator[tuple[str, bool]]:
    """What is tried, and whether it went as it should."""
    change(copy)
    first = told_of(copy / "hugepool", "replay", b"pool 1 1 1 1\n")
    yield "the program that only replays is compiled first", compiled(copy) == ["replay"] and first.err.count(NOTICE) == 1
    yield from same(copy, "replay", pool)
    told_of(copy / "hugepool", "explain", b"pool 1 1 1 1\n")
    yield "another command compiles the whole program", compiled(copy) == ["hugepool", "replay"]
    for command in ("replay", "explain"):
        yield from same(copy, command, pool)
    yield from disagreements(copy)
    yield from flushes(copy)


if __name__ == "__main__":
    with tempfile.TemporaryDirectory(prefix="unproved-") as room, ThreadPoolExecutor(2) as pool:
        copy = Path(shutil.copytree(TOP, Path(room) / "copy", ignore=LEFT_OUT))
        sys.exit(report("unproved", tries(copy, pool)))
