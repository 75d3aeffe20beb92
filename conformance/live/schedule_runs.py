"""A script of calls, and a run of it by the rows of kernel_steps.py, step by step."""
from __future__ import annotations

from dataclasses import dataclass
from typing import Iterator, NamedTuple, Protocol

from kernel_steps import DENIABLE, Steps, steps_of
from machine import Call, Outcome


class Script(NamedTuple):
    """What tasks call, and for each call how many calls of which tasks have to have ended before (conformance/schedules.py reads it)."""

    frames: int
    files: int
    slots: int
    tasks: int
    quota: int | None
    queues: list[list[tuple]]
    needs: list[list[list[tuple[int, int]]]]


class Move(NamedTuple):
    """One step of a schedule: a task begins its next call, or goes on with one."""

    task: int
    is_granted: bool = True


class Watch(Protocol):
    """Sees each row of a schedule."""

    def before(self, call: Call) -> None: ...

    def row(self, move: Move, call: Call, phase: str, outcome: Outcome) -> None: ...


@dataclass
class Run:
    """A machine amid a schedule, and how many calls each task has begun."""

    script: Script
    machine: Steps
    made: list[int]
    denials: int = 0

    def may_begin(self, number: int) -> bool:
        """Whether a task has a call left, and all that it waits for have ended. (The calls of a task behind its exit are passed over.)"""
        at = self.made[number - 1]
        if at == len(self.script.queues[number - 1]):
            return False
        return all(self.has_ended(it + 1, calls) for it, calls in self.script.needs[number - 1][at])

    def has_ended(self, number: int, calls: int) -> bool:
        task = self.machine.tasks[number]
        return task.is_dead or self.made[number - 1] - (task.call is not None) >= calls

    def begin(self, number: int) -> None:
        words = self.script.queues[number - 1][self.made[number - 1]]
        self.made[number - 1] += 1
        self.machine.begin(number, " ".join(map(str, words)))

    def is_deniable(self, call: Call) -> bool:
        """Whether an allocation may fail: by Linux's rules where it does so in recordings, by the machine's anywhere."""
        return not self.machine.rules or f"{call.table}.{call.phase}" in DENIABLE

    def moves(self) -> Iterator[Move]:
        """The steps that tasks may try."""
        for number, task in self.machine.tasks.items():
            if task.call is None and (task.is_dead or not self.may_begin(number)):
                continue
            yield Move(number)
            if self.denials and task.call is not None and self.is_deniable(task.call):
                yield Move(number, False)

    def move(self, move: Move, watch: Watch | None = None) -> Outcome:
        """Makes a step, and the rows behind it that nobody else can notice."""
        machine, task = self.machine, self.machine.tasks[move.task]
        if task.call is None:
            self.begin(move.task)
        is_granted, is_refusing = move.is_granted, False
        while True:
            call, phase = task.call, task.call.phase
            if watch is not None:
                watch.before(call)
            outcome = machine.step(move.task, is_granted)
            is_refusing |= machine.is_refusing
            if watch is not None:
                watch.row(move, call, phase, outcome)
            if outcome.kind != "moved" or not machine.rules or f"{call.table}.{call.phase}" not in machine.local:
                break
            is_granted = True
        machine.is_refusing = is_refusing
        self.denials -= not move.is_granted
        return outcome


def start(script: Script, rules: str, batch: int, denials: int = 0) -> Run:
    quota = () if script.quota is None else (script.quota,)
    machine = steps_of(rules)(script.frames, script.files, script.slots, script.tasks, *quota)
    machine.batch = batch
    return Run(script, machine, [0] * script.tasks, denials)


def error_of(machine: Steps) -> int:
    """How far the reserve count is from the reserved indices less the pages, which at rest it should be."""
    return machine.resv - sum(len(it.reserved) - len(it.pages) for it in machine.files)
