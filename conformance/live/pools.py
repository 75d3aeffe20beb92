"""What happens to the pool beside its calls: its quota, resizes of it, and tasks that are killed or exit.

The machine asks the quota and the reserve count in one step, and a resize of it is one step. In Linux the quota has a lock of its own, and a
pool grows page by page: each page is a resize by one. A kill is placed where Linux notices it, which is where an allocation gives up, or
else the task's end: until then a killed task does what any other does.
"""
from __future__ import annotations

from typing import Callable

from machine import Call, Outcome
from placing import MAPS, Divergence, NotUnderstood, Racer
from recordings import NONE, Event
from removals import Removals

INTERRUPTED = -4
# by how much an event changes the number of free pages
CHANGES_FREE = {"take": -1, "free": 1, "grow": 1}


class Pools(Removals):
    """Adds quotas, resizes, kills and exits to a placement."""

    # the quota

    def on_quota(self, racer: Racer | None, event: Event) -> None:
        """Linux takes some of the quota (a from 0 on; c says that it is refused), or gives some back."""
        if self.machine.quota is None:
            return
        self.used_there = event.b
        if racer is not None:
            self.catch_up(racer)
        if event.a >= 0 and racer is not None and self.phase(racer) == "changed":
            self.charge(racer, event.a, event.c != 0)
        elif event.a < 0:
            self.give_back_quota(racer, event)
        if "Q" in self.rules:
            self.machine.used += 0 if event.c else event.a
            self.same("used", self.machine.used, event.b)

    def charge(self, racer: Racer, number: int, is_refused: bool) -> None:
        call = self.call(racer)
        self.same("asked of the quota", call.missing, number)
        if "Q" in self.rules:
            self.same("over the quota", self.machine.is_beyond_quota(number), is_refused)
        if is_refused:
            self.refuse(racer)
        else:
            racer.charged = number

    def refuse(self, racer: Racer) -> None:
        call = self.call(racer)
        if "Q" in self.rules:
            call.is_over_quota = True
        self.step(racer, "quota asked apart", "moved abort")
        if call.answer != "noquota":
            raise Divergence("quota asked apart", f"task {racer.number} lacks quota in Linux, and in the machine answers {call.answer}")

    def give_back_quota(self, racer: Racer | None, event: Event) -> None:
        phase, call = (self.phase(racer), self.call(racer)) if racer else (None, None)
        if phase == "abort" and racer.charged:
            self.same("given back to the quota", racer.charged, -event.a)
            racer.charged = 0
        elif phase == "settle":
            self.same("given back to the quota", self.excess_of(call), -event.a)
        elif event.a == -1:
            self.put_by[event.thread] += 1

    @staticmethod
    def excess_of(call: Call) -> int:
        """What a settlement gives back."""
        return call.removed - call.evicted if call.table == "truncate" else call.missing - call.added

    def check_quota(self, event: Event) -> None:
        """A frame that becomes free, and whose reservation isn't restored, has given its page back to the quota before."""
        if self.machine.quota is not None and not event.b:
            self.same("given back by a free", self.put_by[event.thread], 1)
            self.put_by[event.thread] = 0

    def check_leak(self, racer: Racer) -> None:
        """A call that was refused a frame has given back what it took of the quota. By the rule L it keeps that, unless it is a map."""
        if self.machine.quota is None or not racer.charged:
            return
        if "L" not in self.rules or racer.letter in MAPS:
            raise Divergence("quota leaked", f"task {racer.number} found no free page, and keeps what it took of the quota")
        self.machine.leak(racer.charged)
        racer.charged = 0
        self.notes["a page of the quota leaked"] += 1

    def short(self, racer: Racer) -> str:
        """What it means if Linux and the machine differ on whether a count suffices."""
        if self.machine.quota is not None and self.machine.exceeds_quota(self.call(racer).missing):
            return "quota given back apart"
        return f"short{self.because()}"

    # resizes

    def retire(self, line: str, wanted: str, act: Callable[[], Outcome]) -> str:
        """A row behind which frames may be gone: their pages are no longer those of frames."""
        before = set(self.machine.free)
        outcome = self.make(None, line, (wanted,), act)
        for gone in before - self.machine.free:
            self.page_of.pop(gone, None)
        return outcome

    def resize(self, frames: int, told: int) -> None:
        line, wanted = f"resize {frames}", f"resized {told}"
        outcome = self.retire(line, wanted, lambda: self.machine.resize(frames))
        if outcome != wanted:
            raise Divergence(f"resize{self.because()}", f"{line}: the machine {outcome!r}, Linux as {wanted!r}")

    def on_grow(self, racer: Racer | None, event: Event) -> None:
        """One more page."""
        self.resize(self.machine.active + 1, event.b)

    def is_in_use(self, page: int) -> bool:
        return any(it == page and frame not in self.machine.free for frame, it in self.page_of.items())

    def grows_by(self, racer: Racer | None, event: Event) -> bool:
        """6.1 adds a page to the pool by freeing it."""
        if racer is not None or self.is_in_use(event.a) or event.a in self.freed_here | self.freed_there:
            return False
        self.resize(self.machine.active + 1, self.machine.active + 1)
        self.same_counts(event)
        return True

    def on_shrink(self, racer: Racer | None, event: Event) -> None:
        """Under one hold of the lock the pages go that a resize to a frames leaves over; b stay."""
        if "R" not in self.rules:
            if event.c:
                raise Divergence("pages over the size", f"a resize finds {event.c} pages that an earlier one left over")
            self.resize(max(event.a, 1), event.b)
            return
        if event.a > self.machine.active - self.machine.surplus:
            self.machine.surplus = self.machine.active - event.a
        outcome = self.retire(f"resize {event.a}", f"resized {event.b}", lambda: self.machine.shrink(event.a))
        self.same("size of the pool", outcome, f"resized {event.b}")
        self.same("pages over the size", self.machine.surplus, event.c)

    def on_resized(self, racer: Racer | None, event: Event) -> None:
        """What is in use over the size is counted; it goes where it becomes free."""
        if "R" in self.rules:
            self.machine.surplus = max(self.machine.surplus, self.machine.active - event.a)
            self.same("pages over the size", self.machine.surplus, event.c)

    def on_surplus(self, racer: Racer | None, event: Event) -> None:
        """A page over the size becomes free, and leaves the pool at once."""
        if "R" not in self.rules:
            raise Divergence("pages over the size", f"pfn {event.a} becomes free, and leaves the pool")
        self.make_free(racer, event)
        self.retire(f"resize {self.machine.active - 1}", f"resized {event.c}", self.leave_the_pool)
        self.same("size of the pool", self.machine.active, event.c)
        self.same_counts(event)

    def drop_unused(self, event: Event) -> None:
        """By the rule R free pages over the size leave the pool with the reservations that are given back. Linux logs nothing of it, but
        the next event has fewer free pages. (A resize that grows the pool begins by taking the pages over the size in, unlogged, too.)"""
        then = self.run[event.number - self.run[0].number + 1]
        gone = event.free + CHANGES_FREE.get(then.kind, 0) * (then.b != NONE) - then.free
        for _ in range(gone if "R" in self.rules and 0 < gone <= min(event.a, self.machine.surplus) else 0):
            self.retire(f"resize {self.machine.active - 1}", f"resized {self.machine.active - 1}", self.leave_the_pool)

    def leave_the_pool(self) -> Outcome:
        self.machine.retire()
        self.machine.surplus -= 1
        return Outcome("resized", str(self.machine.active))

    def make_free(self, racer: Racer | None, event: Event) -> None:
        """Makes a frame free (events.py)."""
        raise NotImplementedError

    # kills and exits

    def kill(self, racer: Racer) -> None:
        if not self.machine.tasks[racer.number].is_killed:
            self.make(racer, f"kill {racer.number}", ("marked",), lambda: self.machine.kill(racer.number))

    def interrupt(self, racer: Racer) -> None:
        """An allocation notices here that its task was killed. By the rule I it extends the file all the same."""
        if self.phase(racer) == "head":
            self.kill(racer)
            self.step(racer, "killed", "moved leave", "moved extend")
        if self.phase(racer) == "extend" and self.event.kind == "unlock":
            self.step(racer, "killed", "moved leave")

    def on_dead(self, event: Event) -> None:
        """A task has ended: it exited, or it was killed, in which case a call of it ends first."""
        racer = next(it for it in self.racers.values() if it.number == event.about)
        if racer.letter != "x":
            self.finish(racer)
        self.begin(racer, "exit")
        while self.call(racer):
            self.step(racer, "exit", "moved clear", "moved drop", "moved leave", "ended done")
        racer.letter = ""

    def finish(self, racer: Racer) -> None:
        """Ends the call of a killed task, of which Linux has nothing more to tell."""
        self.catch_up(racer)
        self.force(racer, lambda due: True)
        self.kill(racer)
        while self.call(racer):
            if racer.letter != "u" and self.phase(racer) != "start":
                raise NotUnderstood(f"task {racer.number} is killed at {self.phase(racer)}")
            self.step(racer, "killed", "moved clear", "moved drop", "ended*")

    @staticmethod
    def catch_up(racer: Racer) -> None:
        due, racer.beginning = racer.beginning, []
        for make in due:
            make()
