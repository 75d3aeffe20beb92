#!/usr/bin/env python3
"""Looks for wrong reserve counts in every schedule of small races, by the machine's rows, by Linux's, and by repaired ones.

usage: repairs.py [--all]

A race has one index, one or two frames and three tasks. Its calls are made in every order of their steps; a frame that was evicted
becomes free at any moment, and in some sets a page may be refused memory where it is placed. `judge` says what is asked of each state at
rest. With --all every race is made (docs/LINUX.md says what came), else a few in some seconds. Status: 0 no count is wrong by the rows that
`SETS` calls right, and some is by each other set; 1 it isn't so.
"""
from __future__ import annotations

import argparse
import sys
from collections import Counter
from dataclasses import dataclass, field
from itertools import product
from typing import Iterable, Iterator

from linux_rows import LinuxRows
from machine import Call, NoSuchStep, Outcome
from reach import clone

SLOTS, TASKS, MOST_STEPS = 64, 3, 500
RESERVES, DOESNT = "map 0 0 1", "mapn 0 0 1"
FIRST = (("load 0",), ("load 0", "load 0"))
SECOND = (("trunc 0 0",), ("trunc 0 0", DOESNT), ("trunc 0 0", RESERVES), ("trunc 0 0", "punch 0 0 1"), ("trunc 0 0", "load 0"),
          ("trunc 0 1",), ("punch 0 0 1",), (RESERVES,), ("alloc 0 0 1",), ("allock 0 0 1",))
THIRD = ((), ("load 0",), (RESERVES,), (DOESNT,), ("punch 0 0 1",), ("trunc 0 0",), ("alloc 0 0 1",))


class Rows(LinuxRows):
    """Linux's rows with what a recording has as events of its own: when counts are raised, indices leave the map and frames become free."""

    def raise_by(self, number: int) -> None:
        """Linux asks for as many free frames as are counted then, and nobody minds its refusal."""
        if self.has("A") or not self.has("N") or max(self.resv, 0) + number <= len(self.free):
            self.resv += number

    def give_back(self, number: int) -> None:
        if number < 0:
            self.raise_by(-number)
        else:
            super().give_back(number)

    def gain(self, call: Call) -> None:
        if self.has("A"):
            self.resv += max(0, call.added - call.missing)

    def make_taken(self, call: Call) -> Outcome:
        outcome = super().make_taken(call)
        self.gain(call)
        return outcome

    touch_taken = alloc_taken = make_taken

    def map_accounted(self, call: Call) -> Outcome:
        outcome = super().map_accounted(call)
        self.gain(call)
        return outcome

    def restore(self, call: Call) -> None:
        super().restore(call)
        if self.has("U") and call.missing:
            self.files[call.file].delete(True, call.index)
        elif self.has("U"):
            self.files[call.file].reserved.add(call.index)

    def punch_delete(self, call: Call) -> Outcome:
        outcome = super().punch_delete(call)
        if outcome.value == "unslot" and not call.removed:
            self.raise_by(1)
        return outcome

    def truncate_delete(self, call: Call) -> Outcome:
        outcome = super().truncate_delete(call)
        self.give_back(call.removed - call.evicted)
        return outcome


def rows_of(rules: str) -> type[Rows]:
    return type(f"Rows{rules}", (Rows,), {"rules": rules})


@dataclass(frozen=True)
class Rules:
    """A set of rows: whether memory is refused, and whether no count may be wrong."""

    name: str
    letters: str
    is_refused: bool
    is_right: bool


SETS = (
    Rules("the machine's", "", True, True),
    Rules("Linux's but T and U", "BFPSN", True, True),
    Rules("Linux's but U", "BFPSTN", False, False),
    Rules("Linux's", "BFPSTNU", True, False),
    Rules("the repair accounting", "BFPSTNA", True, False),
    # (not a repair that a kernel was built with: what the truncation of slots does alone)
    Rules("slots without accounting", "BFPSTNV", False, True),
    Rules("slots without accounting", "BFPSTNUV", True, False),
    Rules("the repair slots", "BFPSTNAV", True, True),
)


@dataclass(frozen=True)
class Race:
    """What is called alone first, and each task's calls in the race."""

    frames: int
    first: str
    calls: tuple[tuple[str, ...], ...]


def races(is_all: bool) -> Iterator[Race]:
    if is_all:
        kinds: Iterable = product((1, 2), (RESERVES, DOESNT), FIRST, SECOND, THIRD)
    else:
        kinds = product((1,), (RESERVES, DOESNT), FIRST[:1], SECOND[:4] + SECOND[7:8], THIRD[:1] + THIRD[4:5])
    for frames, first, *calls in kinds:
        yield Race(frames, first, tuple(calls))


@dataclass
class Place:
    """A state, and how many calls of each task have begun."""

    machine: Rows
    begun: tuple[int, ...]

    def key(self) -> tuple:
        it = self.machine
        files = tuple((one.size, frozenset(one.reserved), frozenset(one.pages.items()), one.pending, one.spare) for one in it.files)
        tasks = tuple((frozenset(one.mappings.items()), frozenset(one.table.items()), call_key(one.call)) for one in it.tasks.values())
        return frozenset(it.free), it.resv, frozenset(it.limbo), files, tuple(it.slots), tuple(it.locks), tasks, self.begun

    def next(self, race: Race, is_refused: bool) -> Iterator[tuple[Place, bool]]:
        """The places behind each step that may be made, and whether it waits."""
        for number, task in self.machine.tasks.items():
            calls, begun = race.calls[number - 1], self.begun
            if task.call is None and begun[number - 1] == len(calls):
                continue
            if task.call is None:
                begun = tuple(it + (at == number - 1) for at, it in enumerate(begun))
            may_refuse = is_refused and task.call is not None and task.call.phase == "committed"
            for is_granted in (True, False) if may_refuse else (True,):
                new = cloned(self.machine)
                if task.call is None:
                    new.begin(number, calls[begun[number - 1] - 1])
                yield Place(new, begun), new.step(number, is_granted).kind == "blocked"
        for frame in self.machine.limbo:
            yield Place(freed(cloned(self.machine), frame), self.begun), False


def call_key(call: Call | None) -> tuple | None:
    if call is None:
        return None
    batch = None if call.batch is None else tuple(call.batch)
    return (call.name, call.phase, call.index, call.missing, call.added, call.evicted, call.removed, call.frame, call.base, call.answer,
            call.cleared, call.is_denied, batch, call.has_more)


def cloned(machine: Rows) -> Rows:
    new = clone(machine)
    new.limbo = set(machine.limbo)
    for task in new.tasks.values():
        if task.call and task.call.batch is not None:
            task.call.batch = list(task.call.batch)
    return new


def freed(machine: Rows, frame: int) -> Rows:
    machine.limbo.remove(frame)
    machine.free.add(frame)
    return machine


def alone(machine: Rows, number: int, words: str) -> None:
    """Makes a call while nobody else does."""
    machine.begin(number, words)
    for _ in range(MOST_STEPS):
        if machine.step(number).kind == "ended":
            break
    for frame in set(machine.limbo):
        freed(machine, frame)


@dataclass
class Seen:
    """The states of a race, those at rest, and what was wrong in some state at rest."""

    states: set[tuple] = field(default_factory=set)
    rests: int = 0
    wrong: set[str] = field(default_factory=set)


def judge(machine: Rows, seen: Seen) -> None:
    """Asks a state at rest for the count: that it is as many as indices wait; that it is that but for pages whose index isn't in the map;
    and that nothing is counted once the file is cut to nothing."""
    seen.rests += 1
    file = machine.files[0]
    waiting, unmapped = len(file.reserved - file.pages.keys()), len(file.pages.keys() - file.reserved)
    if machine.resv != waiting:
        seen.wrong.add("at rest")
    if machine.resv != waiting - unmapped:
        seen.wrong.add("but for unreserved pages")
    end = cloned(machine)
    alone(end, 1, "trunc 0 0")
    if end.resv:
        seen.wrong.add("at the end")


def explore(rules: Rules, race: Race) -> Seen:
    """Every schedule of a race."""
    machine = rows_of(rules.letters)(race.frames, 1, SLOTS, TASKS)
    for number in machine.tasks:
        alone(machine, number, race.first if number == 1 else DOESNT)
    seen, places = Seen(), [Place(machine, (0,) * TASKS)]
    while places:
        place = places.pop()
        key = place.key()
        if key in seen.states:
            continue
        seen.states.add(key)
        try:
            after = list(place.next(race, rules.is_refused))
        except NoSuchStep:
            seen.wrong.add("no such step")
            continue
        if not after:
            judge(place.machine, seen)
        places += (new for new, waits in after if not waits)
    return seen


def try_rules(rules: Rules, is_all: bool) -> bool:
    """Prints a line of the table; whether the counts are as they should be."""
    found, states, number = Counter(), 0, 0
    for race in races(is_all):
        seen = explore(rules, race)
        number, states = number + 1, states + len(seen.states)
        found.update(seen.wrong)
        if not seen.rests:
            found["no state at rest"] += 1
    told = " / ".join(str(found.pop(it, 0)) for it in ("at rest", "but for unreserved pages", "at the end"))
    is_so = (told == "0 / 0 / 0") == rules.is_right and not found
    others = "".join(f", {it} {count}" for it, count in found.items())
    refused = "refused" if rules.is_refused else "granted"
    print(f"{'ok  ' if is_so else 'FAIL'} {rules.name} ({rules.letters or '-'}), memory {refused}: {told} of {number} races wrong, "
          f"{states} states{others}", flush=True)
    return is_so


def main() -> int:
    parser = argparse.ArgumentParser(description=__doc__.split("\n")[0])
    parser.add_argument("--all", action="store_true", help="make every race")
    is_all = parser.parse_args().all
    results = [try_rules(it, is_all) for it in SETS]
    print(f"repairs: {results.count(True)} passed, {results.count(False)} failed")
    return 0 if all(results) else 1


if __name__ == "__main__":
    sys.exit(main())
