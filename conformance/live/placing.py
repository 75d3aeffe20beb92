"""From a recording to a trace: which row of the machine each event of Linux is, and where the rows go that Linux has no event for.

The order of the events is the order of the trace. The kernel logs them inside the locks that protect what they are about, so that order is right for them. Other rows are placed: a removal clears translations just before it evicts; a punch passes an index without
a page at the first moment at which its slot is free; a truncation's visits are tried at three moments. A policy names one choice,
and a recording counts as whole where one of them agrees to its end. This search is not complete.
"""
from __future__ import annotations

from collections import Counter
from dataclasses import dataclass
from typing import Callable

from linux_rows import BATCH
from machine import Call, Machine, NoSuchStep, Outcome
from recordings import UNSIGNED, Event, Recording
from rows import outcome_of

SLOTS = 64
TOUCHES, MAPS, ALLOCATIONS = "ls", "mn", "ak"


class Divergence(Exception):
    """Linux leaves the machine here."""

    def __init__(self, kind: str, text: str) -> None:
        super().__init__(f"{kind}: {text}")
        self.kind, self.text = kind, text


class NotUnderstood(Divergence):
    """The recording has what this program has no reading for."""

    def __init__(self, text: str) -> None:
        super().__init__("NOT UNDERSTOOD", text)


@dataclass(frozen=True)
class Row:
    """A line of the trace, what the Python machine answers, what Linux did (of `word*` any rest), and the event that it belongs to."""

    line: str
    outcome: str
    wanted: tuple[str, ...]
    event: int

    def fits(self, outcome: str) -> bool:
        """Whether an outcome is one that Linux's doing allows."""
        return any(outcome == it or it.endswith("*") and outcome.startswith(it[:-1]) for it in self.wanted)


@dataclass(frozen=True)
class Counts:
    """Linux's free and reserve counts behind so many rows. Frames that the machine has freed already are added to the free ones."""

    rows: int
    free: int
    resv: int


@dataclass(frozen=True)
class Due:
    """A step of a removal that may be made later: what it does, at which index, with which page, and the step itself."""

    what: str
    index: int
    page: int | None
    make: Callable[[], None]


class Racer:
    """What is known of one of the racing tasks."""

    def __init__(self, number: int) -> None:
        self.number = number
        # the positions of its events in the recording, and at which of them it is
        self.events: list[int] = []
        self.at = 0
        # the call of the user: its letter and its numbers; and the answer of the machine's call that ended last
        self.letter, self.numbers, self.answer = "", (0, 0, 0), ""
        # whether a fault has its slot ("slot"), or finds in the machine what it faults for ("same")
        self.fault: str | None = None
        # of a removal: whether it has the file's lock, the pages that Linux looks up, batch by batch, and how many batches were
        self.is_inside, self.is_seen, self.batches, self.looked = False, False, [], 0
        # a free and an unslot that are due, and the page that they are about
        self.is_freeing, self.page = False, None
        # the first steps of a touch, and the steps of a removal, that are due
        self.beginning: list[Callable[[], None]] = []
        self.due: list[Due] = []
        # where a fault begins
        self.file = self.index = 0
        # whether its count was lowered, and its page placed, before their events
        self.is_settled_early = self.is_placed_early = False
        # pages that its call has taken of the quota and not given back
        self.charged = 0
        # by a repair: what its commit added beyond its change, and the count isn't raised for yet
        self.gain = 0

    @property
    def visits(self) -> list[int]:
        return [index for batch in self.batches for index in batch]

    @property
    def removes(self) -> bool:
        return self.letter in ("p", "t")


class Placement:
    """The trace so far, and what was compared. `fault` says afterwards where Linux leaves the machine, if it does."""

    def __init__(self, run: Recording, policy: str, machine: type[Machine] = Machine, is_split: bool = False) -> None:
        self.run, self.policy, self.machine_type, self.is_split = run, policy, machine, is_split
        self.rules: str = getattr(machine, "rules", "")
        self.rows: list[Row] = []
        self.counts: list[Counts] = []
        self.fault: Divergence | None = None
        self.event = run[0]
        # pages that are free in the machine alone, and in Linux alone
        self.freed_here: set[int] = set()
        self.freed_there: set[int] = set()
        self.page_of: dict[int, int] = {}
        # by the rule F, the frame that becomes free with an event, by the event's number
        self.freed_late: dict[int, int] = {}
        # what the files have used of the quota in Linux, and how many pages a thread that frees one has given back to it
        self.used_there = 0
        self.put_by: Counter[int] = Counter()
        self.compared: Counter[str] = Counter()
        self.notes: Counter[str] = Counter()
        self.visited: Counter[tuple[str, str]] = Counter()
        self.met: Counter[tuple[str, str]] = Counter()
        self.overlaps: Counter[tuple[str, str]] = Counter()
        # each row that moves the count away from what it should be: the row, its outcome, and by how much
        self.defects: list[tuple[str, str, int]] = []
        self.excess = 0
        self.read_heads()

    def read_heads(self) -> None:
        """The tasks, the files and the pool that the recording is of."""
        self.racers: dict[int, Racer] = {}
        self.files: dict[int, int] = {}
        self.maps: dict[int, int] = {}
        # how many pages this kernel looks up at once
        self.batch = BATCH
        for it in self.run:
            if it.kind == "task":
                self.racers[it.thread] = Racer(it.a)
            elif it.kind == "file":
                self.files[it.about] = it.a
                self.maps[it.b & UNSIGNED] = it.a
                self.batch = it.c or BATCH
            elif it.kind == "begin" and it.about == ord("!"):
                quota = it.a >> 48 & 0xFFFF
                config = (it.a & 0xFFFF, it.a >> 16 & 0xFFFF, SLOTS, it.a >> 32 & 0xFFFF, *([quota] if quota else []))
        for position, it in enumerate(self.run):
            if it.thread in self.racers:
                self.racers[it.thread].events.append(position)
        self.header = f"pool {' '.join(map(str, config))}"
        self.machine = self.machine_type(*config)
        self.machine.batch = self.batch

    # the machine's steps

    def call(self, racer: Racer) -> Call | None:
        return self.machine.tasks[racer.number].call

    def phase(self, racer: Racer) -> str | None:
        call = self.call(racer)
        return call.phase if call else None

    def make(self, racer: Racer | None, line: str, wanted: tuple[str, ...], act: Callable[[], Outcome]) -> str:
        """Adds a row to the trace, and returns what the Python machine answers. A resize is of no racer."""
        call = self.call(racer) if racer else None
        where, answer = (name_of(call), call.answer) if call else ("", "")
        try:
            made = act()
            outcome = str(made)
        except NoSuchStep as why:
            raise Divergence("no row", f"{line}: the machine has no such step ({why})") from None
        self.rows.append(Row(line, outcome, wanted, self.event.number))
        if self.rules:
            self.note_defect(where, outcome)
        if where and made.kind != "marked":
            self.visited[where, outcome_of(where, call, answer, made)] += 1
        return outcome

    def note_defect(self, where: str, outcome: str) -> None:
        excess = self.machine.excess()
        if excess != self.excess:
            self.defects.append((where, outcome, excess - self.excess))
            self.excess = excess

    def begin(self, racer: Racer, call: str) -> None:
        outcome = self.make(racer, f"begin {racer.number} {call}", ("begun",), lambda: self.machine.begin(racer.number, call))
        if outcome != "begun":
            raise NotUnderstood(f"begin: {outcome}")

    def step(self, racer: Racer, kind: str, *wanted: str, is_granted: bool = True) -> str:
        """One step of a racer. Linux leaves the machine where its outcome is none of those that are wanted."""
        before = self.phase(racer)
        line = f"{'step' if is_granted else 'deny'} {racer.number}"
        outcome = self.make(racer, line, wanted, lambda: self.machine.step(racer.number, is_granted))
        if outcome.startswith("ended"):
            racer.answer = outcome.removeprefix("ended ")
        if not self.rows[-1].fits(outcome):
            raise Divergence(kind, f"task {racer.number} at {before}: the machine {outcome!r}, Linux as {' or '.join(wanted)!r}")
        return outcome

    def same(self, kind: str, machine: object, linux: object) -> None:
        self.compared[kind] += 1
        if machine != linux:
            raise Divergence(kind, f"{kind}: the machine {machine}, Linux {linux}")

    def same_counts(self, event: Event) -> None:
        if self.machine.resv != event.resv:
            self.settle_early(event)
        self.same("reserve count", self.machine.resv, event.resv)
        lag = len(self.freed_here) - len(self.freed_there)
        self.same("free count", len(self.machine.free) - lag, event.free)
        self.compared["free count, exactly"] += lag == 0
        self.counts.append(Counts(len(self.rows), event.free + lag, event.resv))

    def settle_early(self, event: Event) -> None:
        """The kernel leaves its lock between changing the count and our event of it: where it lowers the count, and where it raises it after
        it had to look for free pages a second time."""
        for it in self.racers.values():
            then = next((self.run[at] for at in it.events if self.run[at].number > event.number), None)
            if then is None or then.kind != "account" or then.b or self.machine.resv + then.a != event.resv or it.is_settled_early:
                continue
            if then.a < 0 and self.phase(it) == "settle":
                self.step(it, "settle", "moved enter", "moved committed", "moved leave")
                self.notes["a count lowered before its event"] += 1
            elif then.a > 0 and it.letter == "m" and self.phase(it) == "changed":
                self.same("accounted", self.call(it).missing, then.a)
                self.step(it, "account", "moved accounted")
                self.notes["a count raised before its event"] += 1
            else:
                continue
            it.is_settled_early = True
            return

    def same_frame(self, frame: int, page: int) -> None:
        self.same("frame", self.page_of[frame], page)

    def next_of(self, racer: Racer) -> Event | None:
        after = racer.at + 1
        return self.run[racer.events[after]] if after < len(racer.events) else None

    def is_next(self, racer: Racer, kind: str) -> bool:
        event = self.next_of(racer)
        return event is not None and event.kind == kind

    def because(self) -> str:
        if self.freed_here:
            return ", a frame is freed late"
        return ", a frame is freed early" if self.freed_there else ""

    def free_here(self, page: int) -> None:
        if page in self.freed_there:
            self.freed_there.discard(page)
        else:
            self.freed_here.add(page)

    def free_there(self, page: int) -> None:
        if page in self.freed_here:
            self.freed_here.discard(page)
        else:
            self.freed_there.add(page)


def name_of(call: Call) -> str:
    """A call's table and phase."""
    return f"{call.table}.{call.phase}"
