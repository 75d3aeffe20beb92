"""Runs scripts on the machine, also such whose calls overlap, in an order of steps that a seed says.

`begin` runs a call to its end. `start` only begins it, and `wait` steps all tasks that are at work until that one has ended: seed 0 in
turn, other seeds by chance. While nobody else is at work there is one order, whatever the seed.
"""
from __future__ import annotations

import random
import re
from dataclasses import dataclass, field
from typing import Iterator

import compare
from compare import Program, Script
from kernel.peers import parts
from kernel.problem import Problem
from kernel.suites import call_of

PAGE = 2097152
PUNCH = 3
# so many steps are tried at a time where calls overlap, and so often
STEPS, TRIES = 64, 400
# a task that was started may step up to so often before the next line
AHEAD = 12


def in_pages(call: str) -> str | None:
    """A byte call as the call in pages that docs/CLIENT.md gives for it, or None if no whole page lies in it."""
    found = re.fullmatch(r"(begin|start) (\d+) xfallocate (\d+) ([013]) (\d+) (\d+)", call)
    if found is None:
        return call
    word, task, file, mode, first, end = *found.groups()[:4], int(found[5]), int(found[5]) + int(found[6])
    if int(mode) == PUNCH:
        name, low, high = "punch", -(-first // PAGE), end // PAGE
    else:
        name, low, high = "allock" if mode == "1" else "alloc", first // PAGE, -(-end // PAGE)
    return f"{word} {task} {name} {file} {low} {high - low}" if low < high else None


@dataclass
class Run:
    """A pool of the machine, the events so far, and what the tasks at work were asked."""

    program: Program
    header: str
    seed: int
    events: list[str] = field(default_factory=list)
    # of each task that was started: its call, and its answer once that has ended
    calls: dict[int, str] = field(default_factory=dict)
    answers: dict[int, str] = field(default_factory=dict)
    total: str = ""

    def __post_init__(self) -> None:
        self.chance = random.Random(self.seed)
        _, self.files, _, self.tasks = (int(it) for it in self.header.split()[1:5])

    def outcomes(self, more: list[str]) -> list[str]:
        """What the program answers to more events."""
        written = self.program([self.header, *self.events, *more])
        return written[len(self.events) : len(self.events) + len(more)]

    def told(self, line: str) -> dict[str, str]:
        """What is told of a line of a script, by name."""
        answer = self.answer(line)
        if self.calls:
            return {"answer": answer}
        state = self.program([self.header, *self.events])[-(1 + self.files + self.tasks) :]
        pool = compare.Pool(self.program, [self.header], self.files, self.tasks, [f"ended {answer}"], state, self.total)
        return parts(pool.told(), 0)

    def answer(self, line: str) -> str:
        call = in_pages(line)
        if call is None:
            return "done"
        word, number = call.split()[:2]
        if word == "resize":
            return self.resize(call)
        if word == "wait":
            return self.wait(int(number))
        answer = self.begin(int(number), call.replace("start", "begin", 1))
        if word == "begin" and answer == "started":
            return self.wait(int(number))
        if answer == "started":
            self.go_ahead()
        return answer

    def resize(self, call: str) -> str:
        answer = self.outcomes([call])[0]
        self.events.append(call)
        self.total = answer.removeprefix("resized ")
        return answer

    def begin(self, task: int, call: str) -> str:
        """Begins a call, which may end at once, or be refused."""
        outcome = self.outcomes([call])[0]
        self.events.append(call)
        if outcome.startswith("refused "):
            return outcome
        self.calls[task] = call
        if outcome.startswith("ended "):
            self.answers[task] = outcome.removeprefix("ended ")
        return "started"

    def go_ahead(self) -> None:
        """Lets the tasks at work make some steps before the next line."""
        self.step([next(self.turns()) for _ in range(self.chance.randrange(AHEAD))] if self.seed else [])

    def turns(self) -> Iterator[int]:
        """Whose turn it is, without end."""
        tasks = sorted(self.calls)
        weights = [self.chance.choice((1, 1, 8)) for _ in tasks]
        while True:
            yield from self.chance.choices(tasks, weights, k=8) if self.seed else tasks

    def step(self, turns: list[int], until: int | None = None) -> None:
        """Steps tasks in these turns, up to the end of the call of one of them."""
        steps = [f"step {it}" for it in turns]
        for task, event, outcome in zip(turns, steps, self.outcomes(steps)):
            self.events.append(event)
            if outcome.startswith("ended ") and task not in self.answers:
                self.answers[task] = outcome.removeprefix("ended ")
            if until in self.answers:
                return

    def wait(self, task: int) -> str:
        """Steps all tasks at work until this one's call has ended, and returns its answer."""
        if task not in self.calls:
            return "refused notalive"
        alone = len(self.calls) == 1
        steps = compare.most_steps(self.calls[task].split(), self.tasks) if alone else STEPS
        for _ in range(TRIES):
            if task in self.answers:
                del self.calls[task]
                return self.answers.pop(task)
            turns = self.turns()
            self.step([next(turns) for _ in range(steps)], until=task)
        raise Problem(f"'{self.calls[task]}' doesn't end on the machine")


def machine_parts(program: Program, script: Script, seed: int) -> Iterator[dict[str, str]]:
    """What the machine tells of each call of a script, in the order of a seed."""
    run = Run(program, script.header, seed)
    for line in script.lines:
        yield run.told(call_of(line))


def overlaps(script: Script) -> bool:
    """Whether calls of a script overlap, so that its order counts."""
    return any(line.startswith("start ") for line in script.lines)
