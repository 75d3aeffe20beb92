#!/usr/bin/env python3
"""Compares what later kernels answered with the machine, where they answered otherwise than Linux 6.1.

recorded/ has the scripts of calls-*.txt with the answers of other kernels, each in a file calls-NAME-VERSION.txt.xz. A script that was
answered as by 6.1 is compared by compare.py already. Each other one has to end at a known issue, in just the numbers that RECORDINGS
has, and is a new difference once that issue's file is left out.
"""
from __future__ import annotations

import sys
from collections import Counter
from dataclasses import dataclass, field
from pathlib import Path
from typing import Iterator

import tally
from compare import Script, scripts
from kernel import machine
from kernel.differences import Comparison, Result
from kernel.known import known_issues
from kernel.suites import call_of

FOLDER = Path(__file__).resolve().parent
RECORDED = FOLDER / "recorded"


@dataclass(frozen=True)
class Recorded:
    """What one version was asked, and at which known issues those scripts end that it answered otherwise than 6.1, and how many."""

    version: str
    names: tuple[str, ...]
    ends: dict[str, int] = field(default_factory=dict)

    def file(self, name: str) -> Path:
        return RECORDED / f"calls-{name}-{self.version}.txt.xz"


RECORDINGS = (
    Recorded("6.12.107", ("fixed", "random", "quota", "resize")),
    Recorded("7.3~rc7", ("fixed", "random", "quota", "resize"), {"quota-leak": 6}),
)


def changed(name: str, file: Path) -> list[Script]:
    """The scripts of a file that a version answered otherwise than 6.1."""
    first, second = list(scripts(FOLDER / f"calls-{name}.txt")), list(scripts(file))
    if [asked(it) for it in first] != [asked(it) for it in second]:
        raise machine.Problem(f"{file.name} doesn't have the scripts of calls-{name}.txt")
    return [new for old, new in zip(first, second) if old.lines != new.lines]


def asked(script: Script) -> tuple[str, str, list[str]]:
    """A script without its answers."""
    return script.name, script.header, [call_of(line) for line in script.lines]


def endings(recorded: Recorded, without: tuple[str, ...] = ()) -> Counter[str]:
    """At what the scripts end that a version answered otherwise."""
    comparison = Comparison(PROGRAM, recorded.version, known_issues(without=without))
    return Counter(ending(comparison.result(it)) for name in recorded.names for it in changed(name, recorded.file(name)))


def ending(result: Result) -> str:
    if result.difference:
        return str(result.difference.known or "new")
    return str(result.ended or "agrees")


def faults() -> Iterator[tuple[str, object]]:
    for it in RECORDINGS:
        found = endings(it)
        yield it.version, found == it.ends or found
        for name, number in it.ends.items():
            found = endings(it, (name,))
            yield f"{it.version} without {name}", found["new"] == number or found
    files = {it.file(name) for it in RECORDINGS for name in it.names}
    yield "all files are read", files == set(RECORDED.iterdir())


if __name__ == "__main__":
    PROGRAM = tally.machine_of("versions").program
    sys.exit(tally.ended("versions", (faults,)))
