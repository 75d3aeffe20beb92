"""States of a run as tuples of small numbers, each of which stands for a file or a task as it is.

Frames have no numbers in it, and pages no words, since no row depends on them.
"""
from __future__ import annotations

from typing import Iterator, NamedTuple

from kernel_steps import Steps
from machine import Call, File, Task
from schedule_runs import Run


class Frames:
    """Frames that can't be told apart."""

    def __init__(self, number: int) -> None:
        self.number = number

    def __len__(self) -> int:
        return self.number

    def __iter__(self) -> Iterator[int]:
        return iter((0,) if self.number else ())

    def add(self, _: int) -> None:
        self.number += 1

    def remove(self, _: int) -> None:
        self.number -= 1


class Slots(dict):
    """Who holds a slot, of slots that anybody holds."""

    def __missing__(self, slot: int) -> None:
        return None


# what a state begins with: the reserve count, and the numbers of free frames, of used pages and of denials that are left
COUNTS = 4
CALL = ("phase", "file", "index", "missing", "added", "evicted", "removed", "base", "is_denied", "is_over_quota", "has_more", "charged",
        "has_put", "cleared", "promise")


# phases in which a call has no slot
OUTSIDE = {
    "touch": ("look", "want"), "alloc": ("start", "head", "want", "extend", "leave"), "punch": ("start", "want", "release", "leave"),
    "truncate": ("start", "size", "want", "release", "tail", "settle", "leave", "last"),
}


def holds_slot(call: Call) -> bool:
    return call.table in OUTSIDE and call.phase not in OUTSIDE[call.table]


def reads_others(call: Call) -> bool:
    """Whether the next step may read or change what other tasks have: their translations, and the pages that an unmap holds."""
    if call.table in ("punch", "truncate"):
        return call.phase in ("want", "unmap", "release")
    return bool(call.waiting)


class About(NamedTuple):
    """What the search asks of a task as it is: its calls begun, whether it has one in flight or is dead; the slot that it has, and the one
    that a touch or an allocation of it waits for; whether its next step reads other tasks, and whether an allocation may fail in it."""

    made: int
    is_idle: bool
    is_dead: bool
    slot: int | None
    wanted: int | None
    reads_others: bool
    is_deniable: bool


class Packing:
    """States as tuples of numbers, and back."""

    def __init__(self, first: Run) -> None:
        self.script, self.kind = first.script, type(first.machine)
        self.batch, self.quota = first.machine.batch, first.machine.quota
        self.parts: list[tuple] = []
        self.numbers: dict[tuple, int] = {}
        # of each part that is a task
        self.about: dict[int, About] = {}
        # (by rule D no row asks whether a descriptor is spare)
        self.has_spare = not first.machine.has("D")

    def number(self, part: tuple) -> int:
        found = self.numbers.get(part)
        if found is None:
            found = self.numbers[part] = len(self.parts)
            self.parts.append(part)
        return found

    def packed(self, run: Run) -> tuple[int, ...]:
        it = run.machine
        files = [self.number(self.file(it, at)) for at in range(len(it.files))]
        tasks = [self.task_number(run, one, made) for one, made in zip(it.tasks.values(), run.made)]
        used = 0 if self.quota is None else it.used
        return it.resv, len(it.free), used, run.denials, *files, *tasks

    def task_number(self, run: Run, task: Task, made: int) -> int:
        number = self.number(self.task(task, made))
        if number not in self.about:
            self.about[number] = self.about_task(run, task, made)
        return number

    @staticmethod
    def about_task(run: Run, task: Task, made: int) -> About:
        call = task.call
        if call is None:
            return About(made, True, task.is_dead, None, None, False, False)
        slot = run.machine.slot_of(call.file, call.index)
        wants = call.phase == "want" and call.table in ("touch", "alloc")
        held, wanted = (slot if it else None for it in (holds_slot(call), wants))
        return About(made, False, False, held, wanted, reads_others(call), run.is_deniable(call))

    def file(self, machine: Steps, at: int) -> tuple:
        it = machine.files[at]
        spare = it.spare if self.has_spare else 0
        return it.size, frozenset(it.reserved), frozenset(it.pages), it.pending, spare, *self.around(machine, at)

    @staticmethod
    def around(machine: Steps, at: int) -> tuple:
        """What there is of a file beside it: its lock, and what was promised and withdrawn of it."""
        return machine.locks[at], frozenset(machine.promised[at].items()), machine.withdrawn[at]

    def task(self, it: Task, made: int) -> tuple:
        # (the number says which calls these are)
        return it.number, made, it.is_dead, tuple(sorted(it.mappings.items())), frozenset(it.table), self.call(it.call) if it.call else None

    def call(self, it: Call) -> tuple:
        batch = None if it.batch is None else tuple(it.batch)
        waiting, held = tuple([page[:2] for page in it.waiting]), tuple(it.held)
        values = tuple([getattr(it, name) for name in CALL])
        return values, it.frame is not None, it.answer.split(" ")[0], batch, waiting, held

    def unpacked(self, state: tuple[int, ...]) -> Run:
        resv, free, used, denials, *numbers = state
        machine = self.kind.__new__(self.kind)
        machine.resv, machine.free, machine.used, machine.quota, machine.batch = resv, Frames(free), used, self.quota, self.batch
        machine.slots, machine.words, machine.limbo, machine.slot_count = Slots(), {0: 0}, set(), self.script.slots
        machine.is_refusing = False
        files = [self.parts[it] for it in numbers[: self.script.files]]
        machine.files = [File(it[0], set(it[1]), dict.fromkeys(it[2], 0), it[3], it[4]) for it in files]
        machine.locks, machine.promised, machine.withdrawn = [it[5] for it in files], [dict(it[6]) for it in files], [it[7] for it in files]
        machine.tasks, made = {}, []
        for number, part in enumerate(numbers[self.script.files :], 1):
            _, count, is_dead, mappings, table, call = self.parts[part]
            task = machine.tasks[number] = Task(number, False, is_dead, dict(mappings), dict.fromkeys(table, 0))
            made.append(count)
            if call is not None:
                self.restore_call(machine, task, count, call)
        return Run(self.script, machine, made, denials)

    def restore_call(self, machine: Steps, task: Task, count: int, part: tuple) -> None:
        values, has_frame, answer, batch, waiting, held = part
        words = self.script.queues[task.number - 1][count - 1]
        call = task.call = Call(task, " ".join(map(str, words)))
        call.__dict__.update(zip(CALL, values))
        call.frame = 0 if has_frame else None
        call.answer = f"mapped {call.base}" if answer == "mapped" else answer
        call.batch = None if batch is None else list(batch)
        call.waiting, call.held = [(*it, 0) for it in waiting], list(held)
        if holds_slot(call):
            machine.slots[machine.slot_of(call.file, call.index)] = task.number
