"""All schedules of a script, by the rows of kernel_steps.py, from the shortest on.

Most steps depend on their task, on the files and on the counts alone: what comes of such a step is kept, and found again in other states.
"""
from __future__ import annotations

from array import array
from dataclasses import dataclass, field
from typing import Callable, Iterator, NamedTuple

from kernel_steps import Steps
from packing import COUNTS, About, Packing
from schedule_runs import Move, Run, error_of

State = tuple[int, ...]
# so many states are searched between two words of progress
STRIDE = 2000
# what a step of a schedule is, as a number: twice the task, and whether it is denied
DENIED, TASK = 1, 2


@dataclass
class Found:
    """What the search has seen. A state is named by the order in which it was found; the first is 0."""

    states: int = 1
    rests: int = 0
    is_whole: bool = True
    # of each error of the count at rest, the first state that has it; and the first state behind a promised touch that was refused
    errors: dict[int, int] = field(default_factory=dict)
    refused: int | None = None
    endings: set[tuple] = field(default_factory=set)
    parents: array = field(default_factory=lambda: array("q", (0,)))
    moves: array = field(default_factory=lambda: array("i", (0,)))

    def schedule(self, state: int) -> list[Move]:
        """The steps from the first state to one that was found."""
        back = []
        while state:
            back.append(Move(self.moves[state] // TASK, not self.moves[state] & DENIED))
            state = self.parents[state]
        return back[::-1]


class Made(NamedTuple):
    """What comes of a step: counts and files, the task, and whether a promised touch was refused."""

    shared: State
    task: int
    is_refusing: bool


class Search:
    """A search for all states of a script's schedules."""

    def __init__(self, first: Run, most: int) -> None:
        self.packing, self.script, self.most = Packing(first), first.script, most
        opening = self.packing.packed(first)
        # where a state's tasks begin
        self.at = COUNTS + self.script.files
        self.found, self.seen, self.layer = Found(), {opening}, [(0, opening)]
        self.after: list[tuple[int, State]] = []
        self.made: dict[tuple, Made | None] = {}

    def run(self, tell: Callable[[Found, int], None]) -> Found:
        """Searches layer by layer, as long as there are no more states than allowed. `tell` is told how many of a layer are left."""
        while self.layer and self.found.is_whole:
            for at, (name, state) in enumerate(self.layer):
                if at % STRIDE == 0:
                    tell(self.found, len(self.layer) - at)
                if not self.expand(name, state):
                    self.judge(name, state)
                if self.found.states > self.most:
                    self.found.is_whole = False
                    break
            self.layer, self.after = self.after, []
        return self.found

    def expand(self, name: int, state: State) -> bool:
        """Adds the states behind one, and returns whether a task may go on there."""
        is_going = False
        for move in self.moves(state):
            there = self.behind(state, move)
            if there is not None:
                is_going = True
                self.add(name, move, *there)
        return is_going

    def moves(self, state: State) -> Iterator[int]:
        """The steps that tasks may try, as numbers."""
        about = [self.packing.about[it] for it in state[self.at :]]
        for number, it in enumerate(about):
            if not it.is_idle:
                yield (number + 1) * TASK
                if it.is_deniable and state[COUNTS - 1]:
                    yield (number + 1) * TASK + DENIED
            elif not it.is_dead and it.made < len(self.script.queues[number]):
                if all(has_ended(about[one], calls) for one, calls in self.script.needs[number][it.made]):
                    yield (number + 1) * TASK

    def behind(self, state: State, move: int) -> tuple[State, bool] | None:
        """The state behind a step, and whether a promised touch was refused in it; None where the task waits."""
        at = self.at + move // TASK - 1
        about = self.packing.about[state[at]]
        if about.reads_others:
            return self.try_step(state, move)
        if about.wanted is not None and any(self.packing.about[it].slot == about.wanted for it in state[self.at :]):
            return None
        key = (move, state[at], state[: self.at])
        if key not in self.made:
            tried = self.try_step(state, move)
            self.made[key] = None if tried is None else Made(tried[0][: self.at], tried[0][at], tried[1])
        made = self.made[key]
        return None if made is None else (made.shared + state[self.at : at] + (made.task,) + state[at + 1 :], made.is_refusing)

    def try_step(self, state: State, move: int) -> tuple[State, bool] | None:
        run = self.packing.unpacked(state)
        outcome = run.move(Move(move // TASK, not move & DENIED))
        return None if outcome.kind == "blocked" else (self.packing.packed(run), run.machine.is_refusing)

    def add(self, name: int, move: int, there: State, is_refusing: bool) -> None:
        """Adds a state, if it is new. (A refusal is in the state too: the task's call has its answer.)"""
        if there in self.seen:
            return
        found = self.found
        self.seen.add(there)
        self.after.append((found.states, there))
        found.parents.append(name)
        found.moves.append(move)
        if is_refusing and found.refused is None:
            found.refused = found.states
        found.states += 1

    def judge(self, name: int, state: State) -> None:
        """Notes the count of a state in which no task goes on."""
        machine = self.packing.unpacked(state).machine
        self.found.rests += 1
        self.found.errors.setdefault(error_of(machine), name)
        self.found.endings.add(ending(machine))


def has_ended(it: About, calls: int) -> bool:
    """Whether a task's first calls have ended. (Those behind its exit are passed over.)"""
    return it.is_dead or it.made - (not it.is_idle) >= calls


def ending(machine: Steps) -> tuple:
    """The counts and files at rest."""
    files = tuple((it.size, frozenset(it.reserved), frozenset(it.pages)) for it in machine.files)
    return machine.resv, len(machine.free), files, tuple(frozenset(it.table) for it in machine.tasks.values())


def explore(first: Run, most: int, tell: Callable[[Found, int], None] = lambda found, left: None) -> Found:
    """All schedules that begin with this run."""
    return Search(first, most).run(tell)
