#!/usr/bin/env python3
"""Makes the calls of a few tasks in every order, denied and killed anywhere, and prints which rows of the machine they reach.

usage: reach.py [--jobs N] [--all]

It asks the Python machine, which answers as the program does (test_check.py). Each set of calls has an allocation in it and what could add
the allocation's indices to the reserve map meanwhile, since what is looked for is an allocation that goes from taken to settle. That none
does is proved of every run of the machine (an_alloc_never_settles in crates/hp_laws/src/lib.rt). With --all the rows that are reached are
printed, too. Status: 0 that row isn't reached, 1 it is.
"""
from __future__ import annotations

import argparse
import copy
import os
import pickle
import sys
from dataclasses import replace
from itertools import product
from multiprocessing import Pool
from typing import Iterator

from machine import Call, Machine, Task
from rows import ROWS, UNREACHABLE, outcome_of

ALLOCATES = ("alloc 0 0 2",)
ADDS = (("mapn 0 0 2", "store 0 5", "store 1 6"), ("map 0 0 2",), ("alloc 0 1 1", "allock 0 0 1"))
ALSO = ((), ("punch 0 0 2",), ("trunc 0 0",), ("map 0 0 1", "load 0"))
# frames, and slots of the fault mutex table: one slot for both indices, or one each
POOLS = ((2, 1), (3, 2))


def cloned(task: Task) -> Task:
    new = replace(task, mappings=dict(task.mappings), table=dict(task.table), call=copy.copy(task.call))
    if new.call:
        new.call.task = new
    return new


def clone(machine: Machine) -> Machine:
    """A copy that shares nothing that changes. (copy.deepcopy takes 20 times as long.)"""
    new = copy.copy(machine)
    new.free, new.words, new.slots, new.locks = set(machine.free), dict(machine.words), list(machine.slots), list(machine.locks)
    new.files = [replace(it, reserved=set(it.reserved), pages=dict(it.pages)) for it in machine.files]
    new.tasks = {number: cloned(it) for number, it in machine.tasks.items()}
    return new


class Place:
    """A state: the machine, how many calls of each task have begun, and whether a kill is left."""

    def __init__(self, machine: Machine, begun: tuple[int, ...], may_kill: bool) -> None:
        self.machine, self.begun, self.may_kill = machine, begun, may_kill

    def key(self) -> bytes:
        """The state as bytes, by which it is known again."""
        it = self.machine
        files = tuple((one.size, sorted(one.reserved), sorted(one.pages.items()), one.pending, one.spare) for one in it.files)
        tasks = tuple((one.is_killed, sorted(one.mappings.items()), sorted(one.table.items()), one.call and self.call_key(one.call))
                      for one in it.tasks.values())
        return pickle.dumps((self.begun, self.may_kill, it.resv, sorted(it.free), it.slots, it.locks, files, tasks))

    @staticmethod
    def call_key(call: Call) -> tuple[object, ...]:
        return tuple(value for name, value in sorted(vars(call).items()) if name not in ("task", "is_granted", "numbers"))

    def successors(self, calls: tuple[tuple[str, ...], ...], seen: set[tuple[str, str]]) -> Iterator[Place]:
        """The states to which one event leads: a step, granted or denied, the next call of a task, or a kill of task 1."""
        for number, task in self.machine.tasks.items():
            if task.call:
                for is_granted in (True, False):
                    yield self.stepped(number, is_granted, seen)
                if self.may_kill and number == 1 and not task.is_killed:
                    after = clone(self.machine)
                    after.kill(number)
                    yield Place(after, self.begun, False)
            elif self.begun[number - 1] < len(calls[number - 1]) and not task.is_killed:
                after = clone(self.machine)
                after.begin(number, calls[number - 1][self.begun[number - 1]])
                yield Place(after, tuple(it + (at == number - 1) for at, it in enumerate(self.begun)), self.may_kill)

    def stepped(self, number: int, is_granted: bool, seen: set[tuple[str, str]]) -> Place:
        after = clone(self.machine)
        call = after.tasks[number].call
        where, answer = f"{call.table}.{call.phase}", call.answer
        seen.add((where, outcome_of(where, call, answer, after.step(number, is_granted))))
        return Place(after, self.begun, self.may_kill)


def explore(given: tuple[tuple[int, int], tuple[tuple[str, ...], ...]]) -> tuple[int, set[tuple[str, str]]]:
    """How many states these calls lead to, and which rows they reach."""
    (frames, slots), calls = given
    first = Place(Machine(frames, 1, slots, len(calls)), (0,) * len(calls), True)
    known, left, seen = {first.key()}, [first], set()
    while left:
        for it in left.pop().successors(calls, seen):
            key = it.key()
            if key not in known:
                known.add(key)
                left.append(it)
    return len(known), seen


def main() -> int:
    words = argparse.ArgumentParser(prog="reach.py", description=__doc__.split("\n")[0])
    words.add_argument("--all", action="store_true", help="print the rows that are reached, too")
    words.add_argument("--jobs", type=int, default=os.cpu_count() or 1, metavar="N", help="processes side by side (%(default)s)")
    given = words.parse_args()
    sets = list(product(POOLS, product((ALLOCATES,), ADDS, ALSO)))
    with Pool(given.jobs) as pool:
        done = pool.map(explore, sets, chunksize=1)
    reached = set().union(*(seen for _, seen in done))
    for where, outcome in ROWS:
        if given.all and (where, outcome) in reached:
            print(f"reached: {where}: {outcome}")
    for where, outcome in UNREACHABLE:
        print(f"{'REACHED' if (where, outcome) in reached else 'not reached'}: {where}: {outcome}")
    print(f"sets of calls {len(sets)}, states {sum(number for number, _ in done)}, rows reached {len(reached)} of {len(ROWS)}")
    return int(any(it in reached for it in UNREACHABLE))


if __name__ == "__main__":
    sys.exit(main())
