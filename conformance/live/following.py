"""Whether a recording is a schedule of its script by the rows of kernel_steps.py, event by event.

The script is what the recording's tasks call. Compared are, in their order, the events that others may notice, with their numbers and the
counts behind them: locks, slots, sizes, changes of the reserve map, of the counts and of the page cache, and frames that become free. A
removal's visit counts where it evicts its page. Other events of a call may be anywhere between its own.
"""
from __future__ import annotations

from typing import Callable, Iterator

from packing import Packing
from placing import SLOTS
from recordings import CALLS, FAR, NONE, UNSIGNED, Event, Recording
from schedule_runs import Move, Run, Script, error_of, start
from written import Writer

# how many numbers of a call's event are its own, where these aren't three
NUMBERS = {"u": 1, "l": 1, "s": 2, "t": 2, "x": 0}
Mark = tuple


def header_of(run: Recording) -> tuple[int, int, int, int | None]:
    """Frames, files, tasks and the quota."""
    numbers = next(it.a for it in run if it.kind == "begin" and it.about == ord("!"))
    return numbers & 0xFFFF, numbers >> 16 & 0xFFFF, numbers >> 32 & 0xFFFF, numbers >> 48 & 0xFFFF or None


def script_of(run: Recording) -> Script:
    """What the tasks of a recording call."""
    frames, files, tasks, quota = header_of(run)
    numbers = {it.thread: it.a for it in run if it.kind == "task"}
    queues: list[list[tuple]] = [[] for _ in range(tasks)]
    for event, then in with_next(run):
        if event.kind == "begin" and event.thread in numbers and not is_unmade(event, then):
            letter = chr(event.about)
            queues[numbers[event.thread] - 1].append((CALLS[letter], *event[4:7][: NUMBERS.get(letter, 3)]))
    return Script(frames, files, SLOTS, tasks, quota, queues, [[[] for _ in it] for it in queues])


def with_next(run: Recording) -> Iterator[tuple[Event, Event | None]]:
    """Each event with the next one of its thread."""
    then: dict[int, Event] = {}
    found = []
    for event in reversed(run):
        found.append((event, then.get(event.thread)))
        then[event.thread] = event
    return reversed(found)


def is_unmade(event: Event, then: Event | None) -> bool:
    """Whether it is an unmap that its task doesn't make, since the map before it was refused."""
    return chr(event.about) == "u" and then is not None and then.kind == "return" and chr(then.about) == "x"


class Marks:
    """The events of a recording that are compared, in a form that doesn't depend on inodes, threads and frames."""

    def __init__(self, run: Recording) -> None:
        self.has_quota = header_of(run)[3] is not None
        self.tasks = {it.thread: it.a for it in run if it.kind == "task"}
        self.files = {it.about: it.a for it in run if it.kind == "file"}
        self.maps = {it.b & UNSIGNED: it.a for it in run if it.kind == "file"}

    def of(self, events: Recording) -> list[Mark]:
        found = (self.mark(event, then) for event, then in with_next(events))
        return [it for it in found if it is not None]

    def mark(self, it: Event, then: Event | None) -> Mark | None:
        about = getattr(self, f"on_{it.kind}", None)
        found = None if about is None else about(it, then)
        return None if found is None else (it.kind, self.tasks.get(it.thread), *found)

    def of_file(self, it: Event, _: Event | None) -> Mark:
        return self.files[it.about], it.a

    on_set_size = on_place = on_place_refused = on_evict = of_file

    def on_lock(self, it: Event, _: Event | None) -> Mark:
        return (self.files[it.about],)

    on_unlock = on_lock

    def on_slot(self, it: Event, then: Event | None) -> Mark | None:
        """(the letter of a removal stands in no event of a slot, but its next event does)"""
        return None if then is not None and then.kind in ("evict", "clear") else self.of_file(it, then)

    on_unslot = of_file

    def on_size(self, it: Event, _: Event | None) -> Mark:
        return it.a, it.b

    def on_change(self, it: Event, then: Event | None) -> Mark:
        is_refused = then is not None and then.kind == "change_refused"
        return self.maps[it.about], it.a, it.b, "refused" if is_refused else it.c

    def on_commit(self, it: Event, _: Event | None) -> Mark:
        return self.maps[it.about], it.a, min(it.b, FAR), it.c

    on_delete = on_commit

    def on_abort(self, it: Event, _: Event | None) -> Mark:
        return self.maps[it.about], it.a, it.b

    on_delete_refused = on_abort

    def on_take(self, it: Event, _: Event | None) -> Mark:
        return (it.b != NONE and bool(it.c & 1), it.b != NONE, it.free, it.resv)

    def on_account(self, it: Event, _: Event | None) -> Mark:
        return it.a, it.b != 0, it.resv

    def on_unused(self, it: Event, then: Event | None) -> Mark | None:
        """(one that is followed by a refusal takes back what that had raised)"""
        return None if then is not None and then.kind == "account" and then.b else (-it.a, False, it.resv)

    def on_quota(self, it: Event, _: Event | None) -> Mark | None:
        """(what is given back falls with the frame here, and a moment earlier in Linux)"""
        return None if it.a <= 0 or not self.has_quota else (it.a, it.c != 0)

    def on_free(self, it: Event, _: Event | None) -> Mark:
        return it.free, it.resv


def same(one: list[Mark], other: list[Mark]) -> bool:
    """(newer kernels log a count that is lowered under another name; and who frees a page isn't compared)"""
    return [plain(it) for it in one] == [plain(it) for it in other]


def plain(it: Mark) -> Mark:
    return ("account", *it[1:]) if it[0] == "unused" else ("free", *it[2:]) if it[0] == "free" else it


class Follower:
    """Looks for a schedule that makes a recording's events."""

    def __init__(self, run: Recording, rules: str, batch: int, begin: Callable[[Script, str, int, int], Run] = start) -> None:
        denials = sum(it.kind in ("change_refused", "place_refused", "delete_refused") for it in run)
        first = begin(script_of(run), rules, batch, denials)
        self.packing, self.wanted = Packing(first), Marks(run).of(run)
        self.opening = self.packing.packed(first)
        # how many events were made at most
        self.reached = 0

    def error(self) -> int | None:
        """How far the count is off at the end of such a schedule, or None where there is none."""
        left, seen = [(0, self.opening)], set()
        while left:
            at, state = left.pop()
            if (at, state) in seen:
                continue
            seen.add((at, state))
            self.reached = max(self.reached, at)
            run = self.packing.unpacked(state)
            behind = list(self.behind(at, state, list(run.moves())))
            left += behind
            if at == len(self.wanted) and not behind and not any(it.call for it in run.machine.tasks.values()):
                return error_of(run.machine)
        return None

    def behind(self, at: int, state: tuple[int, ...], moves: list[Move]) -> Iterator[tuple[int, tuple[int, ...]]]:
        for move in moves:
            run = self.packing.unpacked(state)
            writer = Writer(run)
            head = len(writer.events)
            writer.calls = {number: it.call for number, it in run.machine.tasks.items() if it.call}
            if run.move(move, writer).kind == "blocked":
                continue
            made = Marks(writer.events).of(writer.events[head:])
            if same(self.wanted[at : at + len(made)], made):
                yield at + len(made), self.packing.packed(run)
