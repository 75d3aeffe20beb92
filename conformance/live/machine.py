#!/usr/bin/env python3
"""The machine's phase tables as a plain interpreter, one method a row.

The checker uses it to decide where a row of the machine belongs in a recording. It is no authority: what a trace does is what
the program answers to it (verdict.py), and test_check.py compares both on random traces.

As a program, `machine.py < TRACE` prints what `hugepool replay` prints of a well-formed trace.
"""
from __future__ import annotations

import signal
import sys
from dataclasses import dataclass, field

# pages of a file, pages of an address space, and frames of a pool
LIMIT, ADDRESSES, MOST_FRAMES = 4096, 16384, 4096
# the table to which a call belongs
TABLES = {"load": "touch", "store": "touch", "map": "map", "mapn": "map", "alloc": "alloc", "allock": "alloc",
          "punch": "punch", "trunc": "truncate", "unmap": "unmap", "exit": "exit"}


class NoSuchStep(Exception):
    """The machine has no such step: a count would fall below zero, or a lock be given back that nobody holds."""


def require(is_so: bool, what: str) -> None:
    if not is_so:
        raise NoSuchStep(what)


@dataclass(frozen=True)
class Outcome:
    """`moved PHASE`, `ended ANSWER`, `blocked TASK`, or a word of its own."""

    kind: str
    value: str = ""

    def __str__(self) -> str:
        return f"{self.kind} {self.value}".rstrip()


def moved(phase: str) -> Outcome:
    return Outcome("moved", phase)


def ended(answer: str) -> Outcome:
    return Outcome("ended", answer)


@dataclass
class File:
    """A file: its size, its reserve map as a set of indices, its pages, and the two numbers of the changes in progress."""

    size: int = 0
    reserved: set[int] = field(default_factory=set)
    pages: dict[int, int] = field(default_factory=dict)
    pending: int = 0
    spare: int = 0

    def regions(self) -> int:
        return sum(it - 1 not in self.reserved for it in self.reserved)

    def change(self, is_granted: bool, first: int, end: int) -> int | None:
        """Begins a change, and returns how many indices the range lacks, or None where memory is refused."""
        if self.spare == self.pending:
            if not is_granted:
                return None
            self.spare += 1
        self.pending += 1
        return sum(it not in self.reserved for it in range(first, end))

    def commit(self, first: int, end: int) -> int:
        """Ends a change, and returns how many indices it added."""
        require(self.pending >= 1, "a commit without a change")
        added = sum(it not in self.reserved for it in range(first, end))
        if not any(it in self.reserved for it in range(first - 1, end + 1)):
            self.spare -= 1
        self.reserved.update(range(first, end))
        self.pending -= 1
        return added

    def abort(self) -> None:
        require(self.pending >= 1, "an abort without a change")
        self.pending -= 1

    def delete(self, is_granted: bool, index: int) -> int | None:
        """Takes an index out, and returns how many that were, or None where the split of a region is refused memory."""
        if index not in self.reserved:
            return 0
        if index - 1 in self.reserved and index + 1 in self.reserved:
            if self.spare > self.pending:
                self.spare -= 1
            elif not is_granted:
                return None
        self.reserved.remove(index)
        return 1

    def delete_tail(self, size: int) -> int:
        gone = {it for it in self.reserved if it >= size}
        self.reserved -= gone
        return len(gone)


@dataclass
class Task:
    """A task: its mappings by their bases, each a file, a first index and a length, and its translations."""

    number: int
    is_killed: bool = False
    is_dead: bool = False
    mappings: dict[int, tuple[int, int, int]] = field(default_factory=dict)
    table: dict[int, int] = field(default_factory=dict)
    call: Call | None = None

    def place_of(self, page: int) -> tuple[int, int] | None:
        """The file and the index that a page of the address space shows."""
        for base, (file, first, length) in self.mappings.items():
            if base <= page < base + length:
                return file, first + page - base
        return None

    def room_for(self, length: int) -> int | None:
        """The first address at which so many pages are free."""
        base = 0
        for at, (_, _, other) in sorted(self.mappings.items()):
            if base < at + other and at < base + length:
                base = at + other
        return base if base + length <= ADDRESSES else None

    def clear(self, base: int) -> None:
        length = self.mappings[base][2]
        self.table = {page: frame for page, frame in self.table.items() if not base <= page < base + length}

    def life(self) -> str:
        return "dead" if self.is_dead else "killed" if self.is_killed else "alive"


class Call:
    """A call in flight: its words, its phase, and what its rows have kept."""

    def __init__(self, task: Task, words: str) -> None:
        self.name, *numbers = words.split(" ")
        self.task, self.numbers, self.table = task, [int(it) for it in numbers], TABLES[self.name]
        self.file = self.numbers[0] if self.numbers else 0
        self.phase = "look" if self.table == "touch" else "start"
        self.is_granted = True
        self.index = self.missing = self.added = self.evicted = self.removed = 0
        self.frame: int | None = None
        self.base: int | None = None
        self.answer = ""
        # the task whose translations a removal clears next, and whether its deletion was refused memory
        self.cleared, self.is_denied = 1, False
        # of Linux's rows: whether the quota was refused
        self.is_over_quota = False
        # of Linux's rows: the pages that were looked up, and whether there may be more
        self.batch: list[int] | None = None
        self.has_more = False

    @property
    def range(self) -> tuple[int, int]:
        return self.numbers[1], self.numbers[1] + self.numbers[2]

    def go(self, phase: str, answer: str) -> Outcome:
        """Moves on with the call's answer decided."""
        self.answer = answer
        return moved(phase)


class Machine:
    """The pool, the files and the tasks. A row is the method `TABLE_PHASE`."""

    def __init__(self, frames: int, files: int, slots: int, tasks: int, quota: int | None = None) -> None:
        self.frames, self.free, self.resv, self.words = frames, set(range(frames)), 0, {}
        # the frames that aren't retired, and what the files have used of the quota
        self.active, self.quota, self.used = frames, quota, 0
        self.files = [File() for _ in range(files)]
        self.slots: list[int | None] = [None] * slots
        self.locks: list[int | None] = [None] * files
        self.tasks = {number: Task(number) for number in range(1, tasks + 1)}
        # of Linux's rows
        self.batch = 0

    # events

    def begin(self, number: int, words: str) -> Outcome:
        task = self.tasks.get(number)
        if task is None or task.is_dead:
            return Outcome("refused", "notalive")
        if task.call:
            return Outcome("refused", "incall")
        if task.is_killed and words != "exit":
            return Outcome("refused", "notalive")
        task.call = Call(task, words)
        return Outcome("begun")

    def step(self, number: int, is_granted: bool = True) -> Outcome:
        task = self.tasks.get(number)
        if task is None or task.is_dead:
            return Outcome("refused", "notalive")
        if task.call is None:
            return Outcome("refused", "idle")
        call = task.call
        call.is_granted = is_granted
        outcome = getattr(self, f"{call.table}_{call.phase}")(call)
        if outcome.kind == "moved":
            call.phase = outcome.value
        elif outcome.kind == "ended":
            task.call = None
        return outcome

    def kill(self, number: int) -> Outcome:
        task = self.tasks.get(number)
        if task is None or task.is_dead or task.is_killed:
            return Outcome("refused", "notalive")
        task.is_killed = True
        return Outcome("marked")

    def resize(self, frames: int) -> Outcome:
        """Which frames come and go doesn't show, so frames that come have new numbers."""
        if not 1 <= frames <= MOST_FRAMES:
            return Outcome("refused", "badsize")
        while self.active < frames:
            self.free.add(self.frames)
            self.frames += 1
            self.active += 1
        for _ in range(min(self.active - frames, len(self.free) - self.resv)):
            self.free.remove(max(self.free))
            self.active -= 1
        return Outcome("resized", str(self.active))

    # what rows share

    def slot_of(self, file: int, index: int) -> int:
        return (index + 31 * file) % len(self.slots)

    def holder_of(self, file: int, index: int) -> int | None:
        return self.slots[self.slot_of(file, index)]

    def take_slot(self, call: Call) -> Outcome:
        slot = self.slot_of(call.file, call.index)
        if self.slots[slot] is not None:
            return Outcome("blocked", str(self.slots[slot]))
        self.slots[slot] = call.task.number
        return moved("locked")

    def leave_slot(self, call: Call) -> None:
        slot = self.slot_of(call.file, call.index)
        require(self.slots[slot] == call.task.number, "a slot that another task holds")
        self.slots[slot] = None

    def leave_lock(self, call: Call) -> Outcome:
        require(self.locks[call.file] == call.task.number, "a file's lock that another task holds")
        self.locks[call.file] = None
        return ended(call.answer)

    def take_lock(self, call: Call, phase: str) -> Outcome:
        """The first row of a call on a file: its ranges are checked, and the file's lock is taken."""
        if call.file >= len(self.files):
            return ended("badfile")
        if call.table == "truncate":
            is_bad = call.numbers[1] > LIMIT
        else:
            is_bad = call.numbers[2] == 0 or call.range[1] > LIMIT
        if is_bad:
            return ended("badrange")
        if call.task.is_killed:
            return ended(self.word_of_kill(call))
        if self.locks[call.file] is not None:
            return Outcome("blocked", str(self.locks[call.file]))
        self.locks[call.file] = call.task.number
        return moved(phase)

    @staticmethod
    def word_of_kill(call: Call) -> str:
        return "interrupted" if call.table == "alloc" else "killed"

    def exceeds_quota(self, number: int) -> bool:
        return self.quota is not None and self.used + number > self.quota

    def use(self, number: int) -> None:
        """So many more pages are used."""
        self.used += number

    def give_up(self, number: int) -> None:
        """So many pages are no longer used."""
        require(0 <= number <= self.used, f"to use {number} pages less of {self.used}")
        self.used -= number

    def take_free(self) -> int:
        frame = min(self.free)
        self.free.remove(frame)
        self.words[frame] = 0
        return frame

    def take_unreserved(self) -> int:
        require(len(self.free) > self.resv, "no unreserved frame is free")
        return self.take_free()

    def take_reserved(self) -> int:
        require(self.resv >= 1 and bool(self.free), "no reserved frame is free")
        self.resv -= 1
        return self.take_free()

    def give_back(self, number: int) -> None:
        require(0 <= number <= self.resv, f"to give back {number} of a reserve count of {self.resv}")
        self.resv -= number

    def access(self, call: Call) -> str:
        """Reads or writes the word of the touched page."""
        frame = call.task.table[call.numbers[0]]
        if call.name == "load":
            return f"word {self.words[frame]}"
        self.words[frame] = call.numbers[1]
        return "done"

    # a page is made: rows that touches and allocations share

    @staticmethod
    def behind(call: Call) -> str:
        """The phase of a call that makes a page once that is made, or has failed."""
        return "leave" if call.table == "touch" else "unslot"

    def make_missing(self, call: Call) -> Outcome:
        missing = self.files[call.file].change(call.is_granted, call.index, call.index + 1)
        if missing is None:
            return call.go(self.behind(call), "nomemory")
        call.missing = missing
        return moved("changed")

    def make_changed(self, call: Call) -> Outcome:
        if call.task.is_killed:
            return call.go("abort", self.word_of_kill(call))
        if call.missing == 0:
            call.frame = self.take_reserved()
        elif self.exceeds_quota(1):
            return call.go("abort", "noquota")
        elif len(self.free) == self.resv:
            return call.go("abort", "noframe")
        else:
            call.frame = self.take_unreserved()
            self.use(1)
        return moved("taken")

    def make_taken(self, call: Call) -> Outcome:
        call.added = self.files[call.file].commit(call.index, call.index + 1)
        return moved("settle" if call.added < call.missing else "committed")

    def make_settle(self, call: Call) -> Outcome:
        self.give_back(1)
        self.give_up(1)
        return moved("committed")

    def make_abort(self, call: Call) -> Outcome:
        self.files[call.file].abort()
        return moved(self.behind(call))

    def make_restore(self, call: Call) -> Outcome:
        self.restore(call)
        return moved(self.behind(call))

    def restore(self, call: Call) -> None:
        self.free.add(call.frame)
        call.frame = None
        self.resv += 1

    def place(self, call: Call, phase: str) -> Outcome:
        if not call.is_granted:
            return call.go("restore", "nomemory")
        file = self.files[call.file]
        require(call.index not in file.pages, "a second page of an index")
        file.pages[call.index], call.frame = call.frame, None
        return moved(phase)

    touch_missing = alloc_missing = lambda self, call: self.make_missing(call)
    touch_changed = alloc_changed = lambda self, call: self.make_changed(call)
    touch_taken = alloc_taken = lambda self, call: self.make_taken(call)
    touch_settle = alloc_settle = lambda self, call: self.make_settle(call)
    touch_abort = alloc_abort = lambda self, call: self.make_abort(call)
    touch_restore = alloc_restore = lambda self, call: self.make_restore(call)

    # loads and stores

    def touch_look(self, call: Call) -> Outcome:
        place = call.task.place_of(call.numbers[0])
        if place is None:
            return ended("segv")
        if call.numbers[0] in call.task.table:
            return ended(self.access(call))
        call.file, call.index = place
        return moved("want")

    def touch_want(self, call: Call) -> Outcome:
        return ended("killed") if call.task.is_killed else self.take_slot(call)

    def touch_locked(self, call: Call) -> Outcome:
        file = self.files[call.file]
        if call.index >= file.size:
            return call.go("leave", "beyond")
        return moved("found" if call.index in file.pages else "missing")

    def touch_committed(self, call: Call) -> Outcome:
        if call.index >= self.files[call.file].size:
            return call.go("restore", "beyond")
        return self.place(call, "found")

    def touch_found(self, call: Call) -> Outcome:
        file = self.files[call.file]
        if call.index >= file.size:
            return call.go("leave", "beyond")
        if not call.is_granted:
            return call.go("leave", "nomemory")
        call.task.table[call.numbers[0]] = file.pages[call.index]
        return call.go("leave", self.access(call))

    def touch_leave(self, call: Call) -> Outcome:
        self.leave_slot(call)
        return ended(call.answer)

    # maps

    def map_start(self, call: Call) -> Outcome:
        return self.take_lock(call, "room")

    def map_room(self, call: Call) -> Outcome:
        call.base = call.task.room_for(call.numbers[2])
        if call.base is None:
            return call.go("leave", "noaddress")
        if not call.is_granted:
            return call.go("leave", "nomemory")
        return moved("missing" if call.name == "map" else "enter")

    def map_missing(self, call: Call) -> Outcome:
        missing = self.files[call.file].change(call.is_granted, *call.range)
        if missing is None:
            return call.go("leave", "nomemory")
        call.missing = missing
        return moved("changed")

    def map_changed(self, call: Call) -> Outcome:
        if call.task.is_killed:
            return call.go("abort", "killed")
        if self.exceeds_quota(call.missing):
            return call.go("abort", "noquota")
        if call.missing > len(self.free) - self.resv:
            return call.go("abort", "noframe")
        self.resv += call.missing
        self.use(call.missing)
        return moved("accounted")

    def map_abort(self, call: Call) -> Outcome:
        self.files[call.file].abort()
        return moved("leave")

    def map_accounted(self, call: Call) -> Outcome:
        call.added = self.files[call.file].commit(*call.range)
        return moved("settle" if call.added < call.missing else "enter")

    def map_settle(self, call: Call) -> Outcome:
        self.give_back(call.missing - call.added)
        self.give_up(call.missing - call.added)
        return moved("enter")

    def map_enter(self, call: Call) -> Outcome:
        file, first, length = call.numbers
        call.task.mappings[call.base] = (file, first, length)
        self.files[file].size = max(self.files[file].size, first + length)
        return call.go("leave", f"mapped {call.base}")

    def map_leave(self, call: Call) -> Outcome:
        return self.leave_lock(call)

    # allocations

    def alloc_start(self, call: Call) -> Outcome:
        call.index = call.numbers[1]
        return self.take_lock(call, "head")

    def alloc_head(self, call: Call) -> Outcome:
        return call.go("leave", "interrupted") if call.task.is_killed else moved("want")

    def alloc_want(self, call: Call) -> Outcome:
        return call.go("leave", "interrupted") if call.task.is_killed else self.take_slot(call)

    def alloc_locked(self, call: Call) -> Outcome:
        return moved("unslot" if call.index in self.files[call.file].pages else "missing")

    def alloc_committed(self, call: Call) -> Outcome:
        return self.place(call, "unslot")

    def alloc_unslot(self, call: Call) -> Outcome:
        self.leave_slot(call)
        if call.answer:
            return moved("leave")
        if call.index + 1 < call.range[1]:
            call.index += 1
            return moved("head")
        return call.go("leave", "done") if call.name == "allock" else moved("extend")

    def alloc_extend(self, call: Call) -> Outcome:
        file = self.files[call.file]
        file.size = max(file.size, call.range[1])
        return call.go("leave", "done")

    def alloc_leave(self, call: Call) -> Outcome:
        return self.leave_lock(call)

    # hole punches

    def clear_one(self, call: Call) -> Outcome:
        """Clears the translations of the index in one task."""
        task = self.tasks[call.cleared]
        place = call.file, call.index
        task.table = {page: frame for page, frame in task.table.items() if task.place_of(page) != place}
        if call.cleared < len(self.tasks):
            call.cleared += 1
            return moved("unmap")
        call.cleared = 1
        return moved("evict")

    def punch_start(self, call: Call) -> Outcome:
        call.index = call.numbers[1]
        return self.take_lock(call, "want")

    def punch_want(self, call: Call) -> Outcome:
        return self.take_slot(call)

    def punch_locked(self, call: Call) -> Outcome:
        return moved("unmap" if call.index in self.files[call.file].pages else "unslot")

    def punch_unmap(self, call: Call) -> Outcome:
        return self.clear_one(call)

    def punch_evict(self, call: Call) -> Outcome:
        call.frame = self.files[call.file].pages.pop(call.index)
        return moved("delete")

    def punch_delete(self, call: Call) -> Outcome:
        call.is_denied = self.files[call.file].delete(call.is_granted, call.index) is None
        return moved("free")

    def punch_free(self, call: Call) -> Outcome:
        self.free.add(call.frame)
        call.frame = None
        if call.is_denied:
            self.resv += 1
        else:
            self.give_up(1)
        call.is_denied = False
        return moved("unslot")

    def punch_unslot(self, call: Call) -> Outcome:
        self.leave_slot(call)
        if call.index + 1 < call.range[1]:
            call.index += 1
            return moved("want")
        return call.go("leave", "done")

    def punch_leave(self, call: Call) -> Outcome:
        return self.leave_lock(call)

    # truncations

    def truncate_start(self, call: Call) -> Outcome:
        return self.take_lock(call, "size")

    def truncate_size(self, call: Call) -> Outcome:
        file = self.files[call.file]
        top = max(file.size, max(file.pages, default=-1) + 1)
        file.size = call.numbers[1]
        if top <= file.size:
            return moved("tail")
        call.index = top - 1
        return moved("want")

    def truncate_want(self, call: Call) -> Outcome:
        return self.take_slot(call)

    def truncate_locked(self, call: Call) -> Outcome:
        return moved("unmap" if call.index in self.files[call.file].pages else "unslot")

    def truncate_unmap(self, call: Call) -> Outcome:
        return self.clear_one(call)

    def truncate_evict(self, call: Call) -> Outcome:
        call.frame = self.files[call.file].pages.pop(call.index)
        call.evicted += 1
        return moved("free")

    def truncate_free(self, call: Call) -> Outcome:
        self.free.add(call.frame)
        call.frame = None
        return moved("unslot")

    def truncate_unslot(self, call: Call) -> Outcome:
        self.leave_slot(call)
        if call.index <= call.numbers[1]:
            return moved("tail")
        call.index -= 1
        return moved("want")

    def truncate_tail(self, call: Call) -> Outcome:
        call.removed = self.files[call.file].delete_tail(call.numbers[1])
        return moved("settle")

    def truncate_settle(self, call: Call) -> Outcome:
        self.give_back(call.removed - call.evicted)
        self.give_up(call.removed)
        return call.go("leave", "done")

    def truncate_leave(self, call: Call) -> Outcome:
        return self.leave_lock(call)

    # unmaps and exits

    def unmap_start(self, call: Call) -> Outcome:
        return moved("clear") if call.numbers[0] in call.task.mappings else ended("notmapped")

    def unmap_clear(self, call: Call) -> Outcome:
        call.task.clear(call.numbers[0])
        return moved("drop")

    def unmap_drop(self, call: Call) -> Outcome:
        del call.task.mappings[call.numbers[0]]
        return ended("done")

    def exit_start(self, call: Call) -> Outcome:
        return moved("clear" if call.task.mappings else "leave")

    def exit_clear(self, call: Call) -> Outcome:
        call.task.clear(min(call.task.mappings))
        return moved("drop")

    def exit_drop(self, call: Call) -> Outcome:
        del call.task.mappings[min(call.task.mappings)]
        return moved("clear" if call.task.mappings else "leave")

    def exit_leave(self, call: Call) -> Outcome:
        call.task.is_dead = True
        return ended("done")

    # what the calls in flight owe to the count

    def owed(self) -> int:
        return sum(owed_by(task.call) for task in self.tasks.values() if task.call)

    def excess(self) -> int:
        """How far the count is from the reserved indices without a page and what the calls in flight owe. The right machine keeps it at 0."""
        bare = sum(len(file.reserved - file.pages.keys()) for file in self.files)
        return self.resv - bare - self.owed()

    def state(self) -> list[str]:
        """The state's lines at the end of a replay."""
        calls = sum(it.call is not None for it in self.tasks.values())
        lines = [f"free {len(self.free)} resv {self.resv} calls {calls}{'' if self.quota is None else f' used {self.used}'}"]
        for number, it in enumerate(self.files):
            lines.append(f"file {number} size {it.size} reserved {len(it.reserved)} regions {it.regions()} pages {len(it.pages)} "
                         f"changes {it.pending} spare {it.spare}")
        for number, it in self.tasks.items():
            lines.append(f"task {number} {it.life()} mappings {len(it.mappings)} entries {len(it.table)}")
        return lines


# phases of a truncation in which the count lacks what it has evicted so far
SWEEPING = {"want", "locked", "unmap", "evict", "free", "unslot", "tail"}


def owed_by(call: Call) -> int:
    """What one call owes to the count at its phase."""
    if call.table == "map":
        return {"accounted": call.missing, "settle": call.missing - call.added}.get(call.phase, 0)
    if call.table in ("touch", "alloc"):
        return -(call.phase in ("committed", "restore") or call.phase == "taken" and call.missing == 0)
    if call.table == "punch":
        return -(call.phase == "delete" or call.phase == "free" and call.is_denied)
    if call.table == "truncate":
        return -call.evicted if call.phase in SWEEPING else call.removed - call.evicted if call.phase == "settle" else 0
    return 0


def replay(lines: list[str]) -> list[str]:
    """What a replay of a trace prints."""
    machine = Machine(*(int(it) for it in lines[0].split(" ")[1:]))
    return [str(event(machine, line)) for line in lines[1:]] + machine.state()


def event(machine: Machine, line: str) -> Outcome:
    """One line of a trace."""
    word, number, *call = line.split(" ", 2)
    if word == "begin":
        return machine.begin(int(number), call[0])
    if word in ("kill", "resize"):
        return getattr(machine, word)(int(number))
    return machine.step(int(number), word == "step")


if __name__ == "__main__":
    signal.signal(signal.SIGPIPE, signal.SIG_DFL)
    if sys.argv[1:]:
        print("usage: machine.py < TRACE", file=sys.stderr)
        sys.exit(0 if sys.argv[1:] in (["-h"], ["--help"]) else 2)
    try:
        print("\n".join(replay(sys.stdin.read().splitlines())))
    except (ValueError, IndexError, KeyError, TypeError) as why:
        sys.exit(f"machine.py: that is no well-formed trace: {why}")
