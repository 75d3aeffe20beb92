"""A schedule by Linux's rows as a recording, as the instrumented kernel would have logged it.

So check.py's own comparison says where the machine's rows belong, and where Linux leaves the machine.
"""
from __future__ import annotations

from typing import Callable, Iterable

from machine import Call, Outcome
from schedule_runs import Move, Run, Script
from recordings import CALLS, NONE, Event, Recording

LETTERS = {name: letter for letter, name in CALLS.items()}
# where inodes, reserve maps and tasks begin whose numbers the log would have; the log's own thread; a page's size in the processor's pages
INODE, MAP, THREAD, OWN, PAGE = 0x1000, 0x2000, 0x100, 1, 512
END, ENOMEM, ENOSPC = 2**63 - 1, 12, 28
# where the log says that a page was reserved, and that it wasn't
RESERVED, UNRESERVED = 1, 2


def page_of(frame: int) -> int:
    return PAGE * (frame + 4)


class Writer:
    """The events of a schedule so far. A row that Linux logs has its method `on_PHASE`."""

    def __init__(self, run: Run) -> None:
        self.run, self.machine, self.events = run, run.machine, []
        self.calls: dict[int, Call] = {}
        self.call: Call | None = None
        self.head(run.script)

    def head(self, script: Script) -> None:
        config = script.frames | script.files << 16 | script.tasks << 32 | (script.quota or 0) << 48
        self.log("recording", OWN, 0)
        self.log("begin", OWN, ord("!"), config)
        for file in range(script.files):
            self.log("file", OWN, INODE + file, file, MAP + file, self.machine.batch)
        for task in range(1, script.tasks + 1):
            self.log("task", THREAD + task, 0, task)

    def log(self, kind: str, thread: int, about: int, a: int = 0, b: int = 0, c: int = 0) -> None:
        self.events.append(Event(len(self.events), kind, thread, about, a, b, c, len(self.machine.free), self.machine.resv))

    def say(self, kind: str, a: int = 0, b: int = 0, c: int = 0) -> None:
        """An event of the call about its file."""
        self.log(kind, THREAD + self.call.task.number, INODE + self.file, a, b, c)

    def say_map(self, kind: str, first: int, end: int, c: int = 0) -> None:
        """An event of the call about its file's reserve map."""
        self.log(kind, THREAD + self.call.task.number, MAP + self.file, first, end, c)

    def say_own(self, kind: str, a: int = 0, b: int = 0, c: int = 0) -> None:
        """An event of the call about its task, or about nothing."""
        self.log(kind, THREAD + self.call.task.number, 0, a, b, c)

    def before(self, call: Call) -> None:
        """Notes what is so before a row, where the row's events are about that."""
        file = self.machine.files[call.file]
        self.file, self.resv, self.used, self.size = call.file, self.machine.resv, self.machine.used, file.size
        self.has_put = call.has_put
        self.index, self.missing, self.charged, self.is_reserved = call.index, call.missing, call.charged, call.index in file.reserved

    def row(self, move: Move, call: Call, phase: str, outcome: Outcome) -> None:
        """The events of a row that was made."""
        self.call = call
        if self.calls.get(move.task) is not call:
            self.calls[move.task] = call
            letter, numbers = LETTERS[call.name], (*call.numbers, 0, 0, 0)
            self.log("begin", THREAD + move.task, ord(letter), *numbers[:3])
        about = getattr(self, f"on_{call.table}_{phase}", None) or getattr(self, f"on_{phase}", None)
        if about is not None:
            about(call, outcome)

    def rest(self) -> None:
        for number, it in enumerate(self.machine.files):
            self.log("rest", OWN, INODE + number, it.size, len(it.reserved) << 16 | it.regions(), len(it.pages))
        self.log("end", OWN, 0)

    # locks, and the ends of calls

    def on_start(self, call: Call, outcome: Outcome) -> None:
        if call.table in ("map", "alloc", "punch", "truncate"):
            self.say("lock", ord(LETTERS[call.name]))
        elif outcome.kind == "ended":
            self.answer("x")

    def answer(self, kind: str, number: int = 0) -> None:
        self.log("return", THREAD + self.call.task.number, ord(kind), number)

    def on_leave(self, call: Call, outcome: Outcome) -> None:
        words = outcome.value.split(" ")
        failed = 0 if words[0] in ("done", "mapped") else ENOMEM if call.table == "map" or words[0] == "nomemory" else ENOSPC
        self.say("unlock", ord(LETTERS[call.name]), -failed)
        if failed:
            self.answer("e", failed)
        elif call.table == "map":
            self.answer("m", int(words[1]))
        else:
            self.answer("d")

    def on_touch_leave(self, call: Call, outcome: Outcome) -> None:
        self.say("unslot", self.index)
        if outcome.kind == "ended":
            self.answer("s")

    def on_drop(self, call: Call, outcome: Outcome) -> None:
        self.say_free(call)
        if outcome.kind == "ended":
            self.answer("d")

    def on_exit_leave(self, call: Call, outcome: Outcome) -> None:
        self.say_free(call)
        if outcome.kind == "ended":
            self.log("dead", OWN, call.task.number)

    def on_touch_look(self, call: Call, outcome: Outcome) -> None:
        if outcome.kind == "moved":
            self.file = call.file
            self.say("fault", call.index)
        elif outcome.value == "segv":
            self.answer("g")
        else:
            word = int(outcome.value.split(" ")[1]) if call.name == "load" else call.numbers[1]
            self.say_own("access", ord("L" if call.name == "load" else "W"), 0, word)
            self.answer("w", word)

    # slots, pages and sizes

    def on_want(self, call: Call, outcome: Outcome) -> None:
        if outcome.value == "locked":
            self.say("slot", call.index)
        elif call.batch:
            self.say("batch", len(call.batch), call.batch[0])

    def on_unslot(self, call: Call, outcome: Outcome) -> None:
        self.say("unslot", self.index)

    def on_locked(self, call: Call, outcome: Outcome) -> None:
        if call.table not in ("touch", "alloc"):
            return
        file = self.machine.files[call.file]
        frame = file.pages.get(call.index)
        self.say("look", call.index, NONE if frame is None else page_of(frame))
        if frame is None and call.table == "touch":
            self.say("size", call.index, file.size)

    def on_committed(self, call: Call, outcome: Outcome) -> None:
        if outcome.value == "restore":
            self.say("place_refused", call.index, page_of(call.frame))
        else:
            self.say("place", call.index, page_of(self.machine.files[call.file].pages[call.index]))

    def on_found(self, call: Call, outcome: Outcome) -> None:
        self.say("translate", call.index, page_of(call.task.table[call.numbers[0]]))

    def on_enter(self, call: Call, outcome: Outcome) -> None:
        self.say("enter", ord(LETTERS[call.name]))
        self.on_extend(call, outcome)

    def on_extend(self, call: Call, outcome: Outcome) -> None:
        size = self.machine.files[call.file].size
        if self.size < size:
            self.say("set_size", size)

    def on_size(self, call: Call, outcome: Outcome) -> None:
        self.say("set_size", call.numbers[1])

    def on_evict(self, call: Call, outcome: Outcome) -> None:
        frame = call.frame if call.frame is not None else call.waiting[-1][2]
        self.say("evict", call.index, page_of(frame))

    # the reserve map

    def range_of(self, call: Call) -> tuple[int, int]:
        return call.range if call.table == "map" else (call.index, call.index + 1)

    def on_missing(self, call: Call, outcome: Outcome) -> None:
        self.say_map("change", *self.range_of(call), call.missing)
        self.say_map("change_pending" if outcome.value == "changed" else "change_refused", *self.range_of(call), 1)

    def on_taken(self, call: Call, outcome: Outcome) -> None:
        self.say_map("commit", *self.range_of(call), call.added)

    on_accounted = on_taken

    def on_abort(self, call: Call, outcome: Outcome) -> None:
        if outcome.value == "abort":
            self.say_quota(-self.charged)
        else:
            self.say_map("abort", *self.range_of(call))

    def on_delete(self, call: Call, outcome: Outcome) -> None:
        self.say("unreserve", call.index, call.index + 1, 1)
        if call.is_denied:
            self.say_map("delete_refused", call.index, call.index + 1)
        else:
            self.say_map("delete", call.index, call.index + 1, call.removed)

    def on_tail(self, call: Call, outcome: Outcome) -> None:
        self.say("unreserve", call.numbers[1], END, call.evicted)
        self.say_map("delete", call.numbers[1], END, call.removed)

    def on_restore(self, call: Call, outcome: Outcome) -> None:
        self.say_map("change", *self.range_of(call), call.removed)
        self.say_map("change_pending", *self.range_of(call), 1)

    def on_judged(self, call: Call, outcome: Outcome) -> None:
        self.say_own("restore", page_of(call.frame), int(not call.missing), call.removed)
        if not call.missing and call.removed:
            self.say_map("commit", *self.range_of(call), 1)
            return
        self.say_map("abort", *self.range_of(call))
        if call.missing and not call.removed:
            self.say_map("delete", *self.range_of(call), int(self.is_reserved))

    # the counts

    def say_quota(self, number: int, is_refused: bool = False) -> None:
        if self.machine.quota is not None:
            self.say_own("quota", number, self.machine.used, int(is_refused))

    def say_account(self, number: int) -> None:
        """The count is raised by so many, or asked to be."""
        if number:
            self.say_own("account", number, 0 if self.machine.resv - self.resv == number else -ENOMEM)

    def on_changed(self, call: Call, outcome: Outcome) -> None:
        if outcome.value == "changed":
            self.say_quota(call.missing, call.is_over_quota)
        elif call.is_over_quota:
            return
        elif call.table == "map":
            self.say_account(call.missing)
        else:
            page = page_of(call.frame) if outcome.value == "taken" else NONE
            self.say_own("take", call.index, page, RESERVED if self.machine.resv < self.resv else UNRESERVED)

    def on_settle(self, call: Call, outcome: Outcome) -> None:
        number = call.removed - call.evicted if call.table == "truncate" else call.missing - call.added
        if outcome.value == "settle":
            self.say_quota(-number)
        else:
            self.say_account(-number)

    def on_raise(self, call: Call, outcome: Outcome) -> None:
        if outcome.value == "raise" or self.machine.quota is not None and not self.has_put:
            self.say_quota(1, outcome.value != "raise")
        else:
            self.say_account(1)

    def say_free(self, call: Call) -> None:
        if self.machine.used < self.used:
            self.say_quota(-1)
        if self.machine.freed is not None:
            self.say_own("free", page_of(self.machine.freed))

    def on_release(self, call: Call, outcome: Outcome) -> None:
        self.say_free(call)

    def on_back(self, call: Call, outcome: Outcome) -> None:
        if self.missing:
            self.say_free(call)
        else:
            self.say_own("free", page_of(self.machine.freed), 1)


def recording(run: Run, moves: Iterable[Move]) -> Recording:
    """The recording of a schedule that begins with this machine."""
    writer = Writer(run)
    for it in moves:
        run.move(it, writer)
    writer.rest()
    return writer.events
