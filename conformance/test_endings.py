#!/usr/bin/env python3
"""Tests how ./kernel judges a script whose calls overlap, or are denied memory, and that it minimizes one, on made-up kernels.

`ENDS` has recordings of one script each, and in which way they are wrong, if they are. A `Losing` kernel loses a reservation where a
truncation meets a call of another task that is at work; the smallest such script is written down beside it.
"""
from __future__ import annotations

import sys
from dataclasses import dataclass
from typing import Iterator

import tally
from compare import Script
from kernel import endings, in_c, kernels, machine, minimize, shrinking
from kernel.endings import End, Wrong
from kernel.known import known_issues
from kernel.minimize import Minimizer, minimized
from kernel.testing import parsed

RIGHT = End(4, 4, 0)
AMPLE, SHORT, QUOTA = "pool 4 1 4 2", "pool 2 1 4 2", "pool 4 1 4 2 4"
STARTED = "start 2 store 0 5 = started"
# the pool, the lines as a kernel answers them, the numbers at the end, and in which way that is wrong
ENDS = (
    ("right", AMPLE, (STARTED, "wait 2 = done | 3 0 | 1 1 | 0 1"), RIGHT, None),
    ("a reservation is lost", AMPLE, (STARTED, "wait 2 = done | 4 0 | 0 0 | 0 0"), End(4, 4, -1), "lost"),
    ("one stays", AMPLE, (STARTED, "wait 2 = done | 4 0 | 0 0 | 0 0"), End(4, 4, 1), "leaked"),
    ("a page stays in use", AMPLE, (STARTED, "wait 2 = done | 4 0 | 0 0 | 0 0"), End(4, 3, 0), "gone"),
    ("below zero at rest", AMPLE, (STARTED, "wait 2 = done | 4 -1 | 0 0 | 0 0"), RIGHT, "below"),
    ("more reserved than free", AMPLE, (STARTED, "wait 2 = done | 1 2 | 3 3 | 0 0"), RIGHT, "above"),
    ("a quota leaks", QUOTA, (STARTED, "wait 2 = done | 4 0 | 0 0 | 0 0 | used 1"), RIGHT, "quota"),
    ("a quota is used", QUOTA, (STARTED, "wait 2 = done | 3 0 | 1 1 | 0 0 | used 1"), RIGHT, None),
    ("a quota is reserved", QUOTA, (STARTED, "wait 2 = done | 4 1 | 1 0 | 0 0 | used 1"), RIGHT, None),
    ("an error", AMPLE, ("start 2 alloc 0 0 1 = started", "wait 2 = errno EEXIST | 4 0 | 0 0 | 0 0"), RIGHT, "answer errno EEXIST"),
    ("an error of a denied call", AMPLE, ("deny 1-1 2 alloc 0 0 1 = errno ENOMEM | 4 0 | 0 0 | 0 0",), RIGHT, None),
    ("an error of a call held and denied", AMPLE, ("hold f deny 1-1 2 load 0 = held", "wait 2 = errno EIO | 4 0 | 0 0 | 0 0"), RIGHT, None),
    ("an error of a call in bytes", AMPLE, (STARTED, "begin 1 xload 7 = errno EINVAL"), RIGHT, None),
    ("one that is waited for", AMPLE, ("start 1 xload 7 = started", "wait 1 = errno EINVAL"), RIGHT, None),
    ("no frame in an ample pool", AMPLE, ("start 2 alloc 0 0 2 = started", "wait 2 = noframe"), RIGHT, "answer noframe"),
    ("no frame in one that is short by a hand", AMPLE, ("start 2 alloc 0 0 3 = started", "wait 2 = noframe"), RIGHT, None),
    ("no frame in a short one", SHORT, ("start 2 alloc 0 0 2 = started", "wait 2 = noframe"), RIGHT, None),
    ("no frame in a short quota", "pool 9 1 4 2 1", ("start 2 alloc 0 0 2 = started", "wait 2 = noframe"), RIGHT, None),
    ("two frames of one index", AMPLE, (STARTED, "wait 2 = done | 3 0 | 1 1 | 0 1 DISAGREE"), RIGHT, "answer done"),
)  # fmt: skip
# calls, and whether a truncation runs beside a touch
BESIDE = (
    (("start 1 trunc 0 0", "start 2 store 0 5", "wait 1", "wait 2"), True),
    (("hold f 1 store 0 5", "begin 2 trunc 0 0", "wait 1"), True),
    (("start 2 trunc 0 0", "begin 1 load 0", "wait 2"), True),
    (("hold f 1 alloc 0 0 1", "start 2 trunc 0 0", "begin 3 load 0", "wait 2", "wait 1"), True),
    (("hold f 1 alloc 0 0 1", "start 2 trunc 0 0", "wait 2", "wait 1"), False),
    (("start 2 trunc 0 0", "begin 1 punch 0 0 1", "wait 2"), False),
    (("start 2 map 0 0 2", "begin 1 trunc 0 0", "wait 2", "begin 2 load 0"), False),
    (("start 1 trunc 0 0", "wait 1", "start 2 store 0 5", "wait 2"), False),
    (("hold f 1 store 0 5", "start 2 load 0", "wait 2", "wait 1", "begin 1 trunc 0 0"), False),
)
# calls, and whether the recorder takes them in a pool of two tasks
READABLE = (
    (("start 1 load 0", "wait 1"), True),
    (("start 1 load 0",), False),
    (("wait 1",), False),
    (("start 1 load 0", "begin 1 load 0", "wait 1"), False),
    (("hold f deny 1-1 2 load 0", "begin 1 load 0", "wait 2"), True),
    (("deny 1-1 3 load 0",), False),
    (("hold f 3 load 0", "wait 3"), False),
)
# a held store loses the reservation of its page to a truncation; the rest of the script does nothing to that
HELD = ("pool 6 2 8 3", ["begin 1 map 0 0 3", "begin 2 mapn 0 0 3", "begin 3 map 1 0 2", "hold region_add 1 store 2 5", "start 3 load 0",
                         "wait 3", "start 2 trunc 0 0", "wait 2", "begin 3 load 1", "wait 1", "begin 1 trunc 0 0"])  # fmt: skip
LEAST_HELD = ("pool 1 1 1 2", ["hold region_add 1 store 0 0", "begin 2 trunc 0 0", "wait 1"])
# the same by chance, seen in each third recording
STARTS = ("pool 6 1 8 2", ["begin 1 map 0 0 3", "start 1 store 2 5", "start 2 trunc 0 1", "wait 2", "wait 1", "begin 1 load 1"])
LEAST_STARTS = ("pool 1 1 1 2", ["start 1 store 0 0", "start 2 trunc 0 0", "wait 2", "wait 1"])


@dataclass(frozen=True)
class Losing(kernels.Kernel):
    """A made-up kernel that loses a reservation where a truncation comes while another task's store is at work."""

    # of so many such scripts one shows it, where the store isn't held
    one_of: int = 3

    def record(self, text: str, lines: int, has_races: bool = False) -> str:
        del lines, has_races
        return "# odd Debian 6.1.192-1 x\n" + "".join(self.script(number, it) for number, it in enumerate(parsed(text)[1]))

    def script(self, number: int, script: Script) -> str:
        at_work, lost, lines = set(), 0, []
        for call in script.lines:
            words, task = call.split(), shrinking.task_of(call)
            meets = "trunc" in words and ("held" in at_work or (words[0] == "start" and "started" in at_work and number % self.one_of == 0))
            lost += meets
            if words[0] in ("start", "hold") and "store" in words:
                at_work.add("held" if words[0] == "hold" else "started")
            at_work -= {"held", "started"} if words[0] == "wait" and task == "1" else set()
            rest = " | 9 0 | 0 0 | 0 0" if not at_work else ""
            lines.append(f"{call} = {'done' if words[0] in ('begin', 'wait') else 'started'}{rest}")
        return "\n".join([f"script {script.name}", script.header, *lines, f"end total 9 free 9 resv {-min(lost, 1)} surp 0\n"])


def faults_of_ends() -> Iterator[tuple[str, object]]:
    """In which way each recording is wrong, and what of it a known issue explains."""
    for what, header, lines, end, way in ENDS:
        script = Script("a", header, [line.split(" = ")[0] for line in lines])
        found = endings.wrong(script, Script("a", header, list(lines)), end, known_issues())
        yield what, (found and found.way) == way or found
        yield f"{what}: it is new", found is None or found.known is None
    for calls, is_beside in BESIDE:
        script = Script("a", AMPLE, list(calls))
        yield f"{calls}", endings.is_truncated_beside_a_touch(script) == is_beside
        for way, resv in (("lost", -1), ("leaked", 1)):
            found = endings.wrong(script, Script("a", AMPLE, []), End(4, 4, resv), known_issues())
            explained = is_beside and way == "lost"
            name = found.known and found.known.name
            yield f"{calls}, {way}: known", (found.way, name) == (way, "truncation-race" if explained else None) or found
    for calls, is_readable in READABLE:
        yield f"{calls}: readable", shrinking.is_readable(Script("a", AMPLE, list(calls))) == is_readable


def smallest(script: tuple[str, list[str]], known: bool = False) -> Wrong:
    issues = known_issues(without=() if known else ("truncation-race",))
    minimizer = Minimizer(Losing("made up", lambda *_: []), tally.machine_of("endings"), issues)
    return minimized(minimizer, [Script("a", *script)], lambda it: it.known is None)


def faults_of_minimizing() -> Iterator[tuple[str, object]]:
    """That scripts whose calls overlap become as small as they can, also where chance shows what they are wrong in."""
    kernels.say = minimize.say = lambda words: None
    for what, script, least in (("a held call", HELD, LEAST_HELD), ("calls that are started", STARTS, LEAST_STARTS)):
        found = smallest(script)
        yield f"{what}: the smallest script", (found.script.header, found.script.lines) == least or found.text()
        yield f"{what}: its way", found.way == "lost" or found
    yield "its tries", (found.seen, found.tries) in ((2, 8), (3, 8)) or found
    for what, ask in (("a known loss", lambda: smallest(HELD, True)), ("a race", lambda: smallest((AMPLE, ["race 1 9 4 ms"]))),
                      ("a call that has to wait", lambda: smallest((AMPLE, ["hold f 1 punch 0 0 1", "start 2 trunc 0 0", "wait 2 blocked", "wait 1"]))),
                      ("a program in C", lambda: in_c.program(found))):
        try:
            yield what, f"no problem, but {ask()}"
        except machine.Problem:
            yield what, True


if __name__ == "__main__":
    sys.exit(tally.ended("endings", (faults_of_ends, faults_of_minimizing)))
