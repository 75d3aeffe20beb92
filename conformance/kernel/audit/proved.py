"""Has `hugepool audit` judge the pictures of a state, and compares what it finds with what is found here."""
from __future__ import annotations

import os
import re
import subprocess
from dataclasses import dataclass, field
from pathlib import Path
from typing import Any, Callable

from compare import TOP
from kernel.audit.checks import Finding, check_pool
from kernel.audit.picture import Picture, pictures
from kernel.audit.state import State

LAUNCHER = TOP / "hugepool"
# a finding: its clause, and what names it there in numbers
Named = tuple[str, tuple[int, ...]]
# the status of a program that is given a picture, what it writes, and what it says of a bad text
Answer = tuple[int, str, str]
LINES = {
    "agree": re.compile(r"translation (\d+): not to its file's page at that index"),
    "size": re.compile(r"translation (\d+): at or above the size of an unlocked file"),
    "map": re.compile(r"region (\d+): of no file, empty, too long, or not behind the region before it"),
    "place": re.compile(r"frame (\d+): at two places"),
    "reserve": re.compile(r"resv: should be (-?\d+)"),
    "enough": re.compile(r"resv: below zero, or above the free frames"),
    "used": re.compile(r"used: (?:should be (-?\d+)|below zero, or above the quota)"),
}
# so many differences of a picture are printed
MOST = 3


class NotSaid(Exception):
    """What a program answers isn't what an audit says."""


@dataclass
class Compared:
    """How far a program found the same as the checks here."""

    program: str = ""
    pictures: int = 0
    findings: int = 0
    left_out: list[str] = field(default_factory=list)
    differences: list[str] = field(default_factory=list)

    def lines(self) -> list[str]:
        if not self.program:
            return ["hugepool audit didn't judge this: the program isn't built (./hugepool build)."]
        unproved = ", compiled without proof," if Path(self.program).name == "unproved" else ""
        left_out = [f"hugepool audit didn't judge {it}: a file of it has an index of 2^31 or above." for it in self.left_out]
        if self.differences:
            return [*(f"DIFFERS  {it}" for it in self.differences), *left_out]
        return [f"hugepool audit{unproved} finds the same: pictures {self.pictures}, findings {self.findings}.", *left_out]


def program() -> str:
    """A program that was built from the sources as they are; empty where none is. Nothing is compiled for it."""
    own = {**os.environ, "HUGEPOOL": "there"}
    try:
        return subprocess.run([LAUNCHER], env=own, stdin=subprocess.DEVNULL, capture_output=True, text=True, check=False).stdout.strip()
    except OSError:
        return ""


def asking(path: str) -> Callable[[str], Answer]:
    def asks(text: str) -> Answer:
        ran = subprocess.run([path, "audit"], input=text, capture_output=True, text=True, check=False)
        return ran.returncode, ran.stdout, ran.stderr

    return asks


def compared(state: State, path: str, ask: Callable[[str], Answer]) -> Compared:
    found = Compared(path)
    here = {pool.number: list(check_pool(state, pool)) for pool in state.pools}
    for it in pictures(state):
        if it.fits():
            compare(it, here[it.pool.number], ask, found)
        else:
            found.left_out.append(it.name)
    return found


def compare(it: Picture, here: list[Finding], ask: Callable[[str], Answer], to: Compared) -> None:
    """Adds how a picture is judged, of whose pool that was found here."""
    to.pictures += 1
    try:
        its = named(it, ask(it.text()))
    except (NotSaid, OSError) as why:
        to.differences.append(f"{it.name}: {why}")
        return
    is_uncounted = any(clause == "map" for clause, _ in its)
    own = {(one.clause, one.at): one.text for one in here if one.at is not None and is_in(it, one, is_uncounted)}
    to.findings += len(its)
    lines = [f"{it.name}: hugepool audit alone finds: {its[one]}" for one in sorted(its.keys() - own.keys())]
    lines += [f"{it.name}: the checks here alone find: {own[one]}" for one in sorted(own.keys() - its.keys())]
    to.differences += lines[:MOST] + ([f"{it.name}: .. and {len(lines) - MOST} more"] if len(lines) > MOST else [])


def named(it: Picture, answer: Answer) -> dict[Named, str]:
    """The lines of what a program finds, by the names that it has here."""
    status, out, error = answer
    *lines, last = out.splitlines() or [""]
    if last != f"findings {len(lines)}" or status != (1 if lines else 0):
        raise NotSaid(f"hugepool audit ended with status {status}, {first_of(error) or first_of(out) or 'and wrote nothing'}")
    translations, regions = list(it.translations()), list(it.regions())
    return {name(it, line, translations, regions): line for line in lines}


def first_of(text: str) -> str:
    return next(iter(text.splitlines()), "")


def name(it: Picture, line: str, translations: list[Any], regions: list[Any]) -> Named:
    for clause, pattern in LINES.items():
        if found := pattern.fullmatch(line):
            number = int(found[1]) if found.groups() and found[1] else None
            try:
                return clause, at(it, clause, number, translations, regions)
            except IndexError:
                break
    raise NotSaid(f"hugepool audit finds '{line}', of which nothing here knows")


def at(it: Picture, clause: str, number: int | None, translations: list[Any], regions: list[Any]) -> tuple[int, ...]:
    """What names a finding in numbers."""
    if clause in ("agree", "size"):
        file, mapping, index, frame = translations[number]
        return file.address, mapping.space, index, frame
    if clause == "map":
        return (regions[number][0].address,)
    if clause == "place":
        return (number << it.pool.order,)
    if clause == "used":
        return (it.limited.subpool.address, *(() if number is None else (number,))) if it.limited else ()
    return () if number is None else (number,)


def is_in(it: Picture, one: Finding, is_uncounted: bool) -> bool:
    """Whether a picture shows a finding. A count that calls in flight may owe is right there, and one of wrong regions isn't recomputed."""
    if one.clause in ("agree", "size", "map"):
        return one.at[0] in {file.address for file in it.files}
    if one.clause == "used":
        of_count = len(one.at) == 2
        return bool(it.limited) and one.at[0] == it.limited.subpool.address and not (of_count and (one.owed or is_uncounted))
    return one.clause != "reserve" or not (one.owed or is_uncounted)
