"""Punches and truncations: when the machine passes the indices that Linux doesn't visit, and when it makes what Linux did unseen."""
from __future__ import annotations

from typing import Callable

from machine import LIMIT, Call
from placing import TOUCHES, Divergence, Due, Placement, Racer


class Removals(Placement):
    """Adds to a placement what removals need."""

    def later(self, racer: Racer, due: Due) -> None:
        """A step of a removal: made now, or, by the policy `late`, when something needs it."""
        if self.policy == "late":
            racer.due.append(due)
        else:
            due.make()

    @staticmethod
    def force(racer: Racer, is_needed: Callable[[Due], bool]) -> None:
        """Makes the steps that are due, up to the last that is needed."""
        last = max((at for at, it in enumerate(racer.due) if is_needed(it)), default=-1)
        now, racer.due[: last + 1] = racer.due[: last + 1], []
        for it in now:
            it.make()

    def force_slot(self, racer: Racer, file: int, index: int) -> None:
        """Has others leave the slot, where they are due to."""
        slot = self.machine.slot_of(file, index)
        for it in self.racers.values():
            if it is not racer:
                self.force(it, lambda due, it=it: due.what == "unslot" and self.machine.slot_of(it.numbers[0], due.index) == slot)
            call = self.call(it)
            if it is not racer and it.is_freeing and self.machine.slot_of(call.file, call.index) == slot:
                self.flush(it)

    def force_range(self, racer: Racer, file: int, first: int, end: int) -> None:
        """Has others delete from this range of a reserve map, where they are due to."""
        for it in self.racers.values():
            if it is not racer and it.due and it.numbers[0] == file:
                self.force(it, lambda due: due.what == "delete" and first <= due.index < end)

    def flush(self, racer: Racer) -> None:
        """Makes the free and the unslot of a punch that are due."""
        if not racer.is_freeing:
            return
        racer.is_freeing = False
        # (a count that was raised for a deletion that was refused has had the frame be free already)
        if self.phase(racer) == "free":
            self.step(racer, "punch free", "moved unslot")
            self.free_here(racer.page)
        self.step(racer, "punch unslot", "moved want", "moved leave")

    def looks_up(self, racer: Racer) -> bool:
        """Whether a removal visits what Linux looks up, by the rules."""
        return racer.letter == "p" and (self.is_split or "B" in self.rules) or racer.letter == "t" and "T" in self.rules

    def batches_of(self, racer: Racer) -> list[list[int]]:
        """The indices that the call that begins here looks up and visits in Linux."""
        found: list[list[int]] = []
        for position in racer.events[racer.at + 1 :]:
            event = self.run[position]
            if event.kind in ("return", "last_reserved"):
                break
            if event.kind == "batch":
                found.append([])
            elif event.kind == "slot":
                found[-1].append(event.a)
        return found

    def batch_of(self, racer: Racer) -> list[int]:
        return racer.batches[racer.looked] if racer.looked < len(racer.batches) else []

    def look_up(self, racer: Racer) -> None:
        """Looks the pages up at the first moment at which they are those that Linux found."""
        if self.is_split:
            # (it is no step of the machine, but compared; no range here has more pages than one look finds)
            if racer.letter == "p" and racer.is_inside and not racer.is_seen:
                file, first, length = racer.numbers
                gone = {it.index for it in racer.due}
                pages = sorted(it for it in self.machine.files[file].pages if first <= it < first + length and it not in gone)
                racer.is_seen = pages == racer.visits
            return
        call = self.call(racer)
        if call is None or call.phase != "want" or not racer.is_inside or call.batch is not None:
            return
        end = call.range[1] if racer.letter == "p" else LIMIT
        if sorted(it for it in self.machine.files[call.file].pages if call.index <= it < end)[: self.batch] == self.batch_of(racer):
            racer.looked += 1
            self.step(racer, "lookup", "moved want", "moved leave", "moved tail", "moved last")

    def is_looking(self, racer: Racer) -> bool:
        """Whether the pages that Linux found are yet to be looked up."""
        if self.is_split:
            return not racer.is_seen
        call = self.call(racer)
        return call.phase == "want" and call.batch is None

    def must_look_up(self, racer: Racer) -> None:
        """Has the pages looked up that Linux found. A page is in the cache before its event (no lock of ours is there): it may be placed
        before."""
        self.look_up(racer)
        if self.is_looking(racer):
            wanted = self.batch_of(racer)
            for it in self.racers.values():
                if it is not racer:
                    self.place_early(it, wanted, before=racer)
            self.look_up(racer)
        if self.is_looking(racer):
            raise Divergence("lookup", f"task {racer.number}: at no moment the pages were those that Linux found")

    def place_early(self, racer: Racer, wanted: list[int], before: Racer) -> None:
        call = self.call(racer)
        if racer.is_placed_early or call is None or call.phase != "committed" or call.index not in wanted:
            return
        if self.is_next(racer, "place") or racer.events[racer.at] > before.events[before.at]:
            self.step(racer, "place", "moved found" if racer.letter in TOUCHES else "moved unslot")
            racer.is_placed_early = True
            self.notes["a page placed before its event"] += 1

    def pass_bare(self, racer: Racer) -> None:
        """Visits indices that Linux doesn't visit, as early as they can be."""
        if self.looks_up(racer):
            self.look_up(racer)
            return
        while self.is_before_bare(racer):
            self.step(racer, "punch bare", "moved locked")
            self.step(racer, "punch bare", "moved unslot")
            self.step(racer, "punch bare", "moved want", "moved leave")

    def is_before_bare(self, racer: Racer) -> bool:
        """Whether a punch is before an index that has no page and that Linux doesn't visit, and can pass it now."""
        call = self.call(racer)
        if racer.letter != "p" or call is None or call.phase != "want" or racer.is_freeing or not racer.is_inside:
            return False
        is_free = self.machine.holder_of(call.file, call.index) is None
        return is_free and call.index not in racer.visits and call.index not in self.machine.files[call.file].pages

    def held_up(self, racer: Racer) -> Divergence:
        """Why a removal of the machine can't pass an index that Linux has passed."""
        call = self.call(racer)
        holder = self.machine.holder_of(call.file, call.index)
        passes = f"{call.name} of task {racer.number} passes index {call.index}"
        if holder is None:
            return Divergence("page passed", f"{passes}, which has a page in the machine")
        at = self.machine.tasks[holder].call.phase
        kind = "bare index not waited for" + (", of a truncation" if racer.letter == "t" else "")
        return Divergence(kind, f"{passes}, which has no page and at which task {holder} works ({at})")

    def sweep(self, racer: Racer, down_to: int, must: bool) -> None:
        """Visits of a truncation, from where it stands down to an index."""
        while self.phase(racer) == "want" and self.call(racer).index >= down_to:
            call = self.call(racer)
            if self.machine.holder_of(call.file, call.index) is not None:
                if must:
                    raise self.held_up(racer)
                return
            self.step(racer, "truncation's visit", "moved locked")
            if call.index in self.machine.files[call.file].pages:
                self.remove_swept(racer, call)
            else:
                self.step(racer, "truncation's visit", "moved unslot")
            self.step(racer, "truncation's visit", "moved want", "moved tail")

    def remove_swept(self, racer: Racer, call: Call) -> None:
        page = self.page_of[self.machine.files[call.file].pages[call.index]]
        self.unmap_all(racer)
        self.step(racer, "truncation's visit", "moved free")
        self.step(racer, "truncation's visit", "moved unslot")
        self.free_here(page)

    def unmap_all(self, racer: Racer) -> None:
        self.step(racer, "page found", "moved unmap")
        for _ in self.machine.tasks:
            self.step(racer, "unmap", "moved unmap", "moved evict")

    def end_part(self, racer: Racer) -> None:
        """Ends the punch of one index, where another follows under the same hold of the file's lock."""
        while self.phase(racer) in ("want", "locked", "unslot"):
            self.step(racer, "punch part", "moved locked", "moved unslot", "moved leave")
        self.step(racer, "punch part", "ended done")
