"""What each event of a recording is in the machine, and the attempt that comes furthest.

At each event is compared what the machine and Linux have in common: what a change lacks and a commit adds, the amount accounted, short
or not, reserved or not, which frame, whether a page is found, the size, both counts, words and answers; at rest the files, too.
"""
from __future__ import annotations

from typing import Callable

from machine import Call, Machine
from placing import ALLOCATIONS, MAPS, SLOTS, TOUCHES, Divergence, Due, NotUnderstood, Racer, name_of
from pools import INTERRUPTED, Pools
from recordings import CALLS, NONE, UNSIGNED, Event, Recording

POLICIES = ("middle", "late", "lazy", "eager")
# the first events of a fault, up to the change of the reserve map
BEGINNING = ("fault", "slot", "look", "size", "change", "change_pending")
# events that any thread may have
OF_THE_POOL = ("free", "quota", "grow", "shrink", "resized", "surplus")


class Attempt(Pools):
    """One attempt at a recording, with one policy. Each kind of event has its method `on_KIND`."""

    def place(self) -> None:
        """Places all events, up to the first at which Linux leaves the machine."""
        try:
            for position, self.event in enumerate(self.run):
                self.place_event(position, self.event)
            if any(it.call for it in self.machine.tasks.values()):
                raise NotUnderstood("a call is in flight at the end")
        except Divergence as fault:
            self.fault = fault

    def place_event(self, position: int, event: Event) -> None:
        racer = self.racers.get(event.thread)
        if event.kind in OF_THE_POOL:
            getattr(self, f"on_{event.kind}")(racer, event)
        elif racer is None:
            if event.kind in ("rest", "dead"):
                getattr(self, f"on_{event.kind}")(event)
        else:
            while racer.at < len(racer.events) and racer.events[racer.at] < position:
                racer.at += 1
            self.place_of_racer(racer, event)
        for it in self.racers.values():
            if it.removes:
                self.pass_bare(it)
        if racer is not None:
            self.count_meetings(racer)

    def place_of_racer(self, racer: Racer, event: Event) -> None:
        """By the policy `late` a touch's steps up to its change are made where it takes its frame, or where somebody changes what they
        look at."""
        is_beginning = event.kind in BEGINNING
        if not is_beginning:
            self.catch_up(racer)
        if event.kind in ("commit", "delete", "set_size"):
            for it in self.racers.values():
                if it is not racer and it.beginning and self.concerns(it, event):
                    self.catch_up(it)
        handler = getattr(self, f"on_{event.kind}", None)
        if handler is None:
            return
        if is_beginning and self.policy == "late" and racer.letter in TOUCHES:
            self.delay(racer, event, handler)
        else:
            handler(racer, event)

    def delay(self, racer: Racer, event: Event, handler: Callable[[Racer, Event], None]) -> None:
        if event.kind == "fault":
            return
        if event.kind == "slot":
            racer.file, racer.index = self.files[event.about], event.a
            self.force_slot(racer, racer.file, racer.index)
        if event.kind == "change" and self.is_next(racer, "change_refused"):
            self.catch_up(racer)
            handler(racer, event)
            return
        racer.beginning.append(lambda: handler(racer, event))
        if event.kind == "look" and event.b != NONE:
            self.catch_up(racer)

    def concerns(self, racer: Racer, event: Event) -> bool:
        """Whether an event changes what a touch that has begun looks at."""
        if event.kind == "set_size":
            return self.files[event.about] == racer.file
        return self.maps[event.about] == racer.file and event.a <= racer.index < event.b

    def count_meetings(self, racer: Racer) -> None:
        mine = self.call(racer)
        others = [it.call for number, it in self.machine.tasks.items() if number != racer.number and it.call]
        for other in others if mine else ():
            first, second = sorted((name_of(mine), name_of(other)))
            self.met[first, second] += 1

    # events of a call

    def on_begin(self, racer: Racer, event: Event) -> None:
        letter = chr(event.about)
        racer.letter, racer.numbers, racer.answer = letter, (event.a, event.b, event.c), ""
        racer.fault, racer.is_inside, racer.is_freeing, racer.charged = None, False, False, 0
        for it in self.racers.values():
            if it is not racer and it.letter:
                first, second = sorted((CALLS[letter], CALLS[it.letter]))
                self.overlaps[first, second] += 1
        if letter in "mnak" or letter == "p" and not self.is_split:
            self.begin(racer, f"{CALLS[letter]} {event.a} {event.b} {event.c}")
        elif letter == "t":
            self.begin(racer, f"trunc {event.a} {event.b}")
        elif letter == "u" and not self.is_unmade(racer):
            self.begin(racer, f"unmap {event.a}")
        if racer.removes:
            racer.batches, racer.looked, racer.is_seen = self.batches_of(racer), 0, False

    def is_unmade(self, racer: Racer) -> bool:
        """Whether a task doesn't make its unmap, since the map before it was refused and there is none with that base."""
        then = self.next_of(racer)
        return then is not None and then.kind == "return" and chr(then.about) == "x"

    def on_return(self, racer: Racer, event: Event) -> None:
        kind = chr(event.about)
        if racer.letter == "u" and kind != "x":
            for outcome in ("moved clear", "moved drop", "ended done"):
                self.step(racer, "unmap", outcome)
        if kind == "g":
            self.begin(racer, f"load {racer.numbers[0]}")
            self.step(racer, "no mapping", "ended segv")
        self.same("answer", racer.answer, answer_of(racer, kind, event.a))
        racer.letter = ""

    def on_access(self, racer: Racer, event: Event) -> None:
        page, word = racer.numbers[0], event.c & UNSIGNED
        is_load = event.a == ord("L")
        self.begin(racer, f"load {page}" if is_load else f"store {page} {word}")
        self.step(racer, "access", f"ended word {word}" if is_load else "ended done")

    # files' locks and sizes

    def on_lock(self, racer: Racer, event: Event) -> None:
        letter = racer.letter
        racer.is_inside = True
        if letter in MAPS:
            self.step(racer, "file lock", "moved room")
            self.step(racer, "room", "moved missing" if letter == "m" else "moved enter")
        elif letter in ALLOCATIONS:
            self.step(racer, "file lock", "moved head")
        elif letter == "t":
            self.step(racer, "file lock", "moved size")
        elif self.is_split:
            # until Linux visits an index, the punch of one that nobody uses holds the lock; its slot is nobody else's
            file = racer.numbers[0]
            self.begin(racer, f"punch {file} {(SLOTS - 1 - 31 * file) % SLOTS} 1")
            self.step(racer, "file lock", "moved want")
        else:
            self.step(racer, "file lock", "moved want")
            self.pass_bare(racer)

    def on_enter(self, racer: Racer, event: Event) -> None:
        if not self.is_next(racer, "set_size"):
            self.step(racer, "enter", "moved leave")

    def on_set_size(self, racer: Racer, event: Event) -> None:
        outcomes = {"m": ("moved leave",), "n": ("moved leave",), "a": ("moved leave",), "t": ("moved want", "moved tail")}
        if racer.letter not in outcomes:
            return
        if racer.letter == "a" and self.phase(racer) == "head":
            self.interrupt(racer)
            if "I" not in self.rules:
                raise Divergence("interrupted and extended", f"task {racer.number} extends the file, though its allocation is interrupted")
        self.step(racer, "size", *outcomes[racer.letter])
        self.same("size", self.machine.files[racer.numbers[0]].size, event.a)
        if racer.letter == "t" and self.policy == "eager":
            self.sweep(racer, 0, must=False)

    def on_unlock(self, racer: Racer, event: Event) -> None:
        if racer.letter == "p" and self.is_split:
            self.force(racer, lambda due: True)
            self.must_look_up(racer)
            self.flush(racer)
            self.end_part(racer)
            racer.is_inside = False
            return
        if racer.letter == "p":
            self.end_punch(racer)
        elif racer.letter in ALLOCATIONS and event.b == INTERRUPTED:
            self.interrupt(racer)
        elif racer.letter == "a" and self.phase(racer) == "extend":
            self.step(racer, "extend", "moved leave")
        elif racer.letter == "t" and self.phase(racer) == "settle":
            self.step(racer, "settle", "moved leave")
        racer.is_inside = False
        self.step(racer, "leave", "ended*")

    def end_punch(self, racer: Racer) -> None:
        if "B" in self.rules:
            self.must_look_up(racer)
        self.flush(racer)
        self.pass_bare(racer)
        if self.phase(racer) == "want":
            raise self.held_up(racer)

    # slots

    def on_slot(self, racer: Racer, event: Event) -> None:
        file, index = self.files[event.about], event.a
        self.force_slot(racer, file, index)
        if racer.letter in TOUCHES:
            self.begin_fault(racer)
        elif racer.letter in ALLOCATIONS:
            self.step(racer, "head", "moved want")
            self.take_slot(racer, index)
        elif racer.letter == "t":
            if "T" in self.rules:
                self.take_slot(racer, index)
        elif self.is_split:
            self.later(racer, Due("slot", index, None, lambda: self.visit_apart(racer, file, index)))
        else:
            self.visit(racer, index)

    def begin_fault(self, racer: Racer) -> None:
        self.begin(racer, f"load {racer.numbers[0]}")
        if self.step(racer, "look", "moved want", "ended*").startswith("ended"):
            racer.fault = "same"
            self.notes["a fault of a page that was unmapped early"] += 1
            return
        self.step(racer, "slot", "moved locked")
        racer.fault = "slot"

    def take_slot(self, racer: Racer, index: int) -> None:
        self.step(racer, "slot", "moved locked")
        self.same("index", self.call(racer).index, index)

    def visit_apart(self, racer: Racer, file: int, index: int) -> None:
        self.flush(racer)
        self.end_part(racer)
        self.begin(racer, f"punch {file} {index} 1")
        self.step(racer, "file lock", "moved want")
        self.step(racer, "slot", "moved locked")

    def visit(self, racer: Racer, index: int) -> None:
        self.flush(racer)
        self.pass_bare(racer)
        call = self.call(racer)
        if call.phase != "want":
            raise Divergence("visit", f"task {racer.number} visits index {index} in Linux, and is at {call.phase} in the machine")
        if call.index < index:
            raise self.held_up(racer)
        self.take_slot(racer, index)

    def on_unslot(self, racer: Racer, event: Event) -> None:
        if racer.letter in TOUCHES:
            if racer.fault == "slot":
                self.step(racer, "slot left", "ended*")
            racer.fault = None
        elif racer.letter in ALLOCATIONS:
            self.step(racer, "slot left", "moved head", "moved extend", "moved leave")
        elif racer.letter == "t":
            if "T" in self.rules:
                self.step(racer, "slot left", "moved want", "moved tail", "moved last")
        elif "F" in self.rules:
            self.step(racer, "slot left", "moved want", "moved leave")
        elif self.is_split and self.policy == "late":
            self.leave_later(racer, event.a)
        else:
            racer.is_freeing = True

    def leave_later(self, racer: Racer, index: int) -> None:
        evictions = [it.page for it in racer.due if it.what == "evict"]
        page = evictions[-1] if evictions and racer.due[-1].index == index else racer.page

        def free() -> None:
            self.step(racer, "punch free", "moved unslot")
            self.free_here(page)

        racer.due.append(Due("free", index, page, free))
        racer.due.append(Due("unslot", index, None, lambda: self.step(racer, "punch unslot", "moved leave")))

    # looks at pages and sizes

    def on_look(self, racer: Racer, event: Event) -> None:
        file, index = self.machine.files[self.files[event.about]], event.a
        if racer.fault == "same":
            table = self.machine.tasks[racer.number].table
            if racer.numbers[0] not in table:
                raise Divergence("unmapped early", f"task {racer.number} faults at index {index}, which a truncation of the machine has passed")
            self.same_frame(table[racer.numbers[0]], event.b)
        elif event.b != NONE and racer.letter in TOUCHES:
            self.step(racer, "page found at or above the size" if index >= file.size else "page found", "moved found")
            self.same_frame(file.pages[index], event.b)
        elif racer.letter in ALLOCATIONS:
            self.step(racer, "page found", "moved missing" if event.b == NONE else "moved unslot")
            if event.b != NONE:
                self.same_frame(file.pages[index], event.b)

    def on_size(self, racer: Racer, event: Event) -> None:
        self.same("size", self.machine.files[self.files[event.about]].size, event.b)
        self.step(racer, "size look", "moved missing" if event.a < event.b else "moved leave")

    # the reserve map

    def on_change(self, racer: Racer, event: Event) -> None:
        self.force_range(racer, self.maps[event.about], event.a, event.b)
        if self.phase(racer) == "restore":
            return
        if self.is_next(racer, "change_refused"):
            self.step(racer, "denied change", "moved leave", "moved unslot", is_granted=False)
            return
        self.step(racer, "change", "moved changed")
        self.same("missing", self.call(racer).missing, event.c)

    def on_commit(self, racer: Racer, event: Event) -> None:
        self.force_range(racer, self.maps[event.about], event.a, event.b)
        if racer.letter in MAPS and self.phase(racer) == "changed":
            self.step(racer, "account", "moved accounted")
        call = self.call(racer)
        if call.phase == "restore":
            self.enter_again(racer, event)
            return
        self.step(racer, "commit", "moved settle", "moved enter", "moved committed")
        self.same("added", call.added, event.c)
        racer.gain = max(0, call.added - call.missing) if "A" in self.rules else 0

    def enter_again(self, racer: Racer, event: Event) -> None:
        """A reserved page that is backed out: where a truncation has taken its index out of the map meanwhile, the index enters it again."""
        if "U" not in self.rules:
            raise Divergence("backed out", "a touch that is backed out enters its index again, which a truncation has taken out")
        reserved = self.machine.files[self.call(racer).file].reserved
        self.same("added", int(event.a not in reserved), event.c)
        reserved.add(event.a)
        self.notes["a page was backed out, and its index entered again"] += 1

    def on_abort(self, racer: Racer, event: Event) -> None:
        if self.phase(racer) == "restore":
            return
        if racer.letter == "m" and self.phase(racer) == "changed":
            raise NotUnderstood("an abort where nothing was accounted")
        self.check_leak(racer)
        self.step(racer, "abort", "moved leave", "moved unslot")

    def on_delete(self, racer: Racer, event: Event) -> None:
        if racer.letter == "p":
            delete = lambda: self.delete(racer, event)
            if self.is_split:
                self.later(racer, Due("delete", event.a, None, delete))
            else:
                delete()
        elif racer.letter == "t" and "V" in self.rules:
            self.take_out(racer, event)
        elif racer.letter == "t":
            if "T" in self.rules:
                self.must_look_up(racer)
            else:
                self.sweep(racer, 0, must=True)
            self.step(racer, "tail", "moved settle")
            self.same("removed", self.call(racer).removed, event.c)
        elif self.phase(racer) == "restore":
            self.back_out(racer, event)

    def take_out(self, racer: Racer, event: Event) -> None:
        """A repaired truncation takes one index out of the map."""
        if self.phase(racer) == "locked":
            self.step(racer, "no page", "moved delete")
        self.step(racer, "delete", "moved unslot")
        self.same("index", self.call(racer).index, event.a)
        self.same("removed", self.call(racer).removed, event.c)

    def on_last_reserved(self, racer: Racer, event: Event) -> None:
        """A repaired truncation looks for the next index to take out."""
        if self.phase(racer) == "want":
            self.must_look_up(racer)
        self.step(racer, "last reserved", "moved want" if event.a >= 0 else "moved leave")
        if event.a >= 0:
            self.same("last reserved", self.call(racer).index, event.a)

    def on_delete_refused(self, racer: Racer, event: Event) -> None:
        if racer.letter == "t" and "V" in self.rules:
            self.step(racer, "denied delete", "moved unslot", is_granted=False)
            self.same("denied delete", self.call(racer).is_denied, True)
        if racer.letter != "p":
            return
        refused = lambda: self.delete_refused(racer)
        if self.is_split:
            self.later(racer, Due("delete", event.a, None, refused))
            self.force(racer, lambda due: True)
        else:
            refused()

    def delete_refused(self, racer: Racer) -> None:
        call = self.call(racer)
        self.step(racer, "denied delete", "moved unslot" if "F" in self.rules else "moved free", is_granted=False)
        self.same("denied delete", call.is_denied, True)

    def delete(self, racer: Racer, event: Event) -> None:
        call = self.call(racer)
        self.step(racer, "delete", "moved unslot" if "F" in self.rules else "moved free")
        self.same("removed", call.removed if "F" in self.rules or "N" in self.rules else 1, event.c)

    def back_out(self, racer: Racer, event: Event) -> None:
        if "U" not in self.rules:
            raise Divergence("backed out", "an unreserved touch that is backed out takes its index out again")
        reserved = self.machine.files[self.call(racer).file].reserved
        self.same("removed", int(event.a in reserved), event.c)
        reserved.discard(event.a)
        self.notes["a page was backed out"] += 1

    # the counts

    def refuse_early(self) -> None:
        """The kernel leaves its lock between finding that too few pages are free and our event of it. So a map is refused before pages
        become free, or the count is lowered, if it was to be refused then."""
        for it in self.racers.values():
            call, then = self.call(it), self.next_of(it)
            is_refused = it.letter == "m" and self.phase(it) == "changed" and then is not None and then.kind == "account" and then.b != 0
            if is_refused and not it.is_settled_early and call.missing > len(self.machine.free) - self.machine.resv:
                self.step(it, self.short(it), "moved abort")
                it.is_settled_early = True
                self.notes["a map refused before its event"] += 1

    def on_account(self, racer: Racer, event: Event) -> None:
        if racer.is_settled_early:
            racer.is_settled_early = False
            return
        if event.a < 0:
            self.refuse_early()
        letter, phase, call, is_refused = racer.letter, self.phase(racer), self.call(racer), event.b != 0
        if letter == "m" and phase == "changed":
            self.same("accounted", call.missing, event.a)
            self.step(racer, self.short(racer), "moved abort" if is_refused else "moved accounted")
        elif letter == "m" and phase == "settle":
            self.same("accounted", call.added - call.missing, event.a)
            self.step(racer, "settle", "moved enter")
        elif letter in "lsak" and phase == "settle":
            self.same("accounted", -1, event.a)
            self.step(racer, "settle", "moved committed")
        elif racer.gain:
            self.same("accounted", racer.gain, event.a)
            self.machine.resv, racer.gain = self.machine.resv + racer.gain, 0
        elif letter == "t" and "V" in self.rules and phase == "unslot":
            self.same("accounted", call.evicted - call.removed, event.a)
            self.machine.resv += event.a
        elif letter == "t" and phase == "settle":
            self.settle_truncation(racer, call, event.a, is_refused)
        elif letter == "p" and "N" in self.rules and not call.removed:
            self.same("accounted", 1, event.a)
            self.machine.resv += not is_refused
        elif letter == "p" and phase == "free" and call.is_denied:
            self.raise_for_denied(racer, event.a, is_refused)
        else:
            raise Divergence("account", f"Linux accounts {event.a} at {phase}")
        self.same_counts(event)

    def raise_for_denied(self, racer: Racer, delta: int, is_refused: bool) -> None:
        """The machine raises the count in the step that frees the frame, and Linux before that."""
        self.same("accounted", 1, delta)
        if is_refused:
            raise Divergence("raise refused", f"task {racer.number} was denied its deletion, and Linux can't raise the count for it")
        self.step(racer, "punch free", "moved unslot")
        self.free_here(racer.page)

    def settle_truncation(self, racer: Racer, call: Call, delta: int, is_refused: bool) -> None:
        self.same("accounted", call.evicted - call.removed, delta)
        if delta > 0 and is_refused:
            # (Linux couldn't raise the count, and goes on)
            call.removed = call.evicted
        self.step(racer, "settle", "moved leave")

    def on_unused(self, racer: Racer, event: Event) -> None:
        """Linux lowers the count, unless it takes back what a refused raise had raised."""
        then = self.next_of(racer)
        if not (then and then.kind == "account" and then.b != 0):
            self.on_account(racer, event._replace(kind="account", a=-event.a, b=0))
        self.drop_unused(event)

    def on_take(self, racer: Racer, event: Event) -> None:
        call, resv = self.call(racer), self.machine.resv
        is_taken = event.b != NONE
        self.step(racer, self.short(racer), "moved taken" if is_taken else "moved abort")
        if is_taken:
            racer.charged = 0
            self.same("reserved take", self.machine.resv < resv, bool(event.c & 1))
            self.page_of[call.frame] = event.b
        self.same_counts(event)

    def on_free(self, racer: Racer | None, event: Event) -> None:
        if not self.grows_by(racer, event):
            self.make_free(racer, event)
            self.same_counts(event)

    def make_free(self, racer: Racer | None, event: Event) -> None:
        self.refuse_early()
        self.check_quota(event)
        for it in self.racers.values():
            if it.is_freeing and it.page == event.a:
                self.flush(it)
            self.force(it, lambda due: due.what == "free" and due.page == event.a)
        if racer is not None and racer.letter and self.phase(racer) == "restore":
            self.step(racer, "restore", "moved leave", "moved unslot")
        elif not self.free_from_limbo(event.a):
            self.free_there(event.a)

    def free_from_limbo(self, page: int) -> bool:
        """By the rule F a frame that was evicted is free now."""
        limbo = self.machine.limbo if "F" in self.rules else set()
        frame = next((it for it in limbo if self.page_of[it] == page), None)
        if frame is None:
            return False
        limbo.discard(frame)
        self.freed_late[self.event.number] = frame
        self.machine.free.add(frame)
        self.machine.give_up(1)
        return True

    # pages

    def on_place(self, racer: Racer, event: Event) -> None:
        file = self.machine.files[self.files[event.about]]
        if racer.is_placed_early:
            racer.is_placed_early = False
        else:
            is_touch = racer.letter in TOUCHES
            kind = "size looked at once" if is_touch and event.a >= file.size else "place"
            self.step(racer, kind, "moved found" if is_touch else "moved unslot")
        self.same_frame(file.pages[event.a], event.b)

    def on_place_refused(self, racer: Racer, event: Event) -> None:
        self.step(racer, "denied place", "moved restore", is_granted=False)

    def on_translate(self, racer: Racer, event: Event) -> None:
        if racer.fault == "same":
            return
        self.step(racer, "translate", "moved leave")
        if self.call(racer).answer == "beyond":
            raise Divergence("size looked at once", f"task {racer.number} translates index {event.a}, at or above the size")
        self.same_frame(self.machine.tasks[racer.number].table[racer.numbers[0]], event.b)

    def on_present(self, racer: Racer, event: Event) -> None:
        self.notes["a fault of a translation that is there"] += 1
        if racer.fault == "slot":
            raise NotUnderstood("a translation that the machine lacks")

    def on_backout(self, racer: Racer, event: Event) -> None:
        raise NotUnderstood("a fault that is made undone under the table's lock")

    def on_batch(self, racer: Racer, event: Event) -> None:
        if self.looks_up(racer):
            self.must_look_up(racer)

    def on_evict(self, racer: Racer, event: Event) -> None:
        if racer.letter == "t":
            if "T" in self.rules:
                self.evict(racer, event, "moved delete" if "V" in self.rules else "moved unslot")
            elif self.policy != "lazy":
                self.sweep(racer, event.a, must=False)
        elif self.is_split:
            self.later(racer, Due("evict", event.a, event.b, lambda: self.evict(racer, event, "moved delete")))
        else:
            self.evict(racer, event, "moved delete")

    def evict(self, racer: Racer, event: Event, outcome: str) -> None:
        self.unmap_all(racer)
        self.same_frame(self.machine.files[self.files[event.about]].pages[event.a], event.b)
        racer.page = event.b
        self.step(racer, "evict", outcome)

    def on_skip(self, racer: Racer, event: Event) -> None:
        self.notes["a mapping that an unmap of a range skips"] += 1

    # at rest

    def on_rest(self, event: Event) -> None:
        file = self.machine.files[self.files[event.about]]
        self.same("size at rest", file.size, event.a)
        self.same("reserved at rest", len(file.reserved), event.b >> 16)
        self.same("regions at rest", file.regions(), event.b & 0xFFFF)
        self.same("pages at rest", len(file.pages), event.c)
        self.same_counts(event)
        if self.machine.quota is not None:
            self.same("used at rest", self.machine.used, self.used_there)
        if self.freed_here or self.freed_there:
            raise Divergence("free at rest", "frames aren't free at rest")


def answer_of(racer: Racer, kind: str, number: int) -> str:
    """What a call returned to its user, in the machine's words. Linux has one error for several of them."""
    if kind == "m":
        return f"mapped {number}"
    if kind == "w":
        return f"word {number & UNSIGNED}" if racer.letter == "l" else "done"
    if kind == "s":
        return racer.answer if racer.answer in ("beyond", "noframe", "noquota", "nomemory") else "SIGBUS"
    if kind == "e":
        known = (racer.answer, number) in (("nomemory", 12), *((answer, one) for answer in ("noframe", "noquota") for one in (12, 28)))
        return racer.answer if known else f"errno {number}"
    return {"d": "done", "g": "segv", "x": ""}.get(kind, f"?{kind}")


def placed(run: Recording, machine: type[Machine] = Machine, is_split: bool = False, policies: tuple[str, ...] = POLICIES) -> Attempt:
    """The attempt that comes furthest."""
    best: Attempt | None = None
    for policy in policies:
        attempt = Attempt(run, policy, machine, is_split)
        attempt.place()
        if best is None or attempt.fault is None or best.fault and attempt.event.number > best.event.number:
            best = attempt
        if best.fault is None or isinstance(best.fault, NotUnderstood):
            break
    return best
