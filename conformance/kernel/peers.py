"""Peers' tests as scripts: their calls, and behind each what the peer asserts of it.

A line of conformance/peers/*.txt is a call, and behind ` = ` one or more assertions, with a comma between: `answer done, free 3`. The
expected values are those of the peer's source. An answer may be cut off behind its first words; `free not 4` means any other number.
"""
from __future__ import annotations

import re
from dataclasses import dataclass
from pathlib import Path
from typing import Iterable, Iterator

import compare
from compare import Script, Told, scripts
from kernel.known import parts_of
from kernel.problem import Problem
from kernel.suites import FOLDER, PEERS, call_of

NUMBERS = ("free", "reserved", "used", "total", "surplus")
ASSERTION = re.compile(rf"answer [a-z]+( \d+)?|(?:{'|'.join(NUMBERS)}) (?:not )?\d+")
HEADS = ("Peer", "Asserts", "Left out")


@dataclass(frozen=True)
class Assertion:
    """What a peer expects of one number, or of the answer, behind a call."""

    field: str
    value: str

    def holds(self, parts: dict[str, str]) -> bool:
        found = parts.get(self.field, "")
        if self.value.startswith("not "):
            return found not in ("", self.value.removeprefix("not "))
        if self.field == "answer":
            words = self.value.split()
            return found.split()[: len(words)] == words
        return found == self.value


@dataclass(frozen=True)
class Broken:
    """An assertion that doesn't hold: in which script, behind which call, and what was seen instead."""

    script: str
    number: int
    call: str
    assertion: Assertion
    seen: str

    def __str__(self) -> str:
        expected = f"{self.assertion.field} {self.assertion.value}"
        return f"{self.script}, call {self.number}: {self.call}: the peer asserts {expected}, seen {self.seen or 'nothing'}"


# a cause: the kind of the call, the field, and how what was seen differs
Cause = tuple[str, str, str]


def cause_of(it: Broken) -> Cause:
    """What an assertion that doesn't hold shows: two with the same cause are told as one."""
    expected, seen = it.assertion.value, it.seen
    if it.assertion.field == "answer":
        how = f"{seen.split(' ')[0]} for {expected.split(' ')[0]}"
    elif expected.startswith("not ") or not seen.lstrip("-").isdecimal():
        how = seen and "it is what it must not be"
    else:
        how = "above" if int(seen) > int(expected) else "below"
    return it.call.split()[2], it.assertion.field, how


@dataclass(frozen=True)
class Group:
    """Assertions of one cause that don't hold: the first, how many there are, and of how many scripts."""

    first: Broken
    assertions: int
    scripts: int

    @property
    def cause(self) -> Cause:
        return cause_of(self.first)

    def __str__(self) -> str:
        more = self.assertions - 1
        scripts = f", in {self.scripts} scripts" if self.scripts > 1 else ""
        return f"{self.first}" + (f" (and {more} more assertion{'s' if more > 1 else ''} like it or behind it{scripts})" if more else "")


def grouped(found: list[Broken]) -> list[Group]:
    """Assertions that don't hold, by cause. What breaks in a script behind its first one is put down to that one's cause."""
    scripts: dict[str, list[Broken]] = {}
    for it in found:
        scripts.setdefault(it.script, []).append(it)
    causes: dict[Cause, list[list[Broken]]] = {}
    for some in scripts.values():
        causes.setdefault(cause_of(some[0]), []).append(some)
    return [Group(them[0][0], sum(map(len, them)), len(them)) for them in causes.values()]


def assertions(line: str) -> list[Assertion]:
    """What stands behind the ` = ` of a line."""
    _, has, text = line.partition(" = ")
    found = text.split(", ") if has else []
    if bad := next((it for it in found if not ASSERTION.fullmatch(it)), None):
        raise Problem(f"'{bad}' is no assertion: 'answer WORDS', or one of {' '.join(NUMBERS)} with a number")
    return [Assertion(*it.split(" ", 1)) for it in found]


def peer_scripts(folder: Path = FOLDER / PEERS) -> list[Script]:
    """All scripts of peers, with their assertions."""
    found = [script for path in sorted(folder.glob("*.txt")) for script in scripts(path)]
    if empty := next((it for it in found if not any(map(assertions, it.lines))), None):
        raise Problem(f"script {empty.name} of a peer asserts nothing")
    return found


def heads(path: Path) -> dict[str, str]:
    """What the comment at the begin of a peer's file says: which test it is, what that asserts, what is left out."""
    text = " ".join(line.removeprefix("#").strip() for line in path.read_text(encoding="utf-8").splitlines() if line.startswith("#"))
    parts = re.split(rf"(?:^| )({'|'.join(HEADS)}): ", text)
    return dict(zip(parts[1::2], parts[2::2]))


def parts(told: Told | None, surplus: int) -> dict[str, str]:
    """The fields of an answer by name; while a task is at work there is only the answer."""
    if told is None:
        return {}
    if not told.counts:
        return {"answer": told.answer}
    return parts_of(told) | {"surplus": str(surplus)}


def recorded_parts(script: Script) -> Iterator[dict[str, str]]:
    """What a kernel told of each call of a script."""
    for text in script.lines:
        line = compare.read(text)
        yield parts(line.linux, line.surplus)


def broken(script: Script, told: Iterable[dict[str, str]]) -> Iterator[Broken]:
    """The assertions of a script that what was told of its calls doesn't meet."""
    for number, (line, seen) in enumerate(zip(script.lines, told, strict=True), 1):
        for it in assertions(line):
            if not it.holds(seen):
                yield Broken(script.name, number, call_of(line), it, seen.get(it.field, ""))


def broken_by(asserted: Script | None, answered: Script) -> list[Broken]:
    """The assertions of a script that a kernel's answers to it don't meet, if it has any."""
    return list(broken(asserted, recorded_parts(answered))) if asserted else []
