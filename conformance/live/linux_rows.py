"""The machine with rows as Linux has them, each by a letter, which show what rule of Linux's own a recording needs."""
from __future__ import annotations

from machine import LIMIT, Call, Machine, Outcome, moved, require

RULES = {
    "B": "a punch looks the pages up, 15 or 31 at a time, and visits only these: it waits at no index without a page",
    "F": "an evicted frame is free at a moment of its own, after its slot was left",
    "P": "a touch looks for the page first, and at the size only where there is none",
    "S": "a touch looks at the size once: not where it places its page, nor where it translates it",
    "T": "a truncation looks the pages up like a punch, upwards from the new size",
    "N": "counts are whole numbers, which may fall below zero, and the tests of them are Linux's",
    "D": "a change, or a deletion that splits a region, may be refused memory although a spare descriptor is there for it",
    "U": "an unreserved page that is backed out takes its index out of the map again, and a reserved one enters it where it is gone",
    "Q": "the quota has a lock of its own: it is asked before the reserve count, and given back apart from it",
    "I": "an allocation that is interrupted extends the file as one that was done",
    "L": "a touch or an allocation that finds no page keeps what it took of the quota",
    "R": "pages over a pool's size stay until they become free, and a resize counts those first",
    "A": "repaired: what a change of a reserve map returns is accounted once, a raise asks for no frame, and a backed-out page leaves the map",
    "V": "repaired: a truncation takes each reserved index out of the map under its slot, those with a page first and then from the top down",
}
# the letters that only repaired kernels have (kernel/repair.py)
REPAIRED = "AV"
# so many pages Linux 6.1 looks up at once; later versions log their number
BATCH = 15


class LinuxRows(Machine):
    """The machine, with those rows replaced whose letters `rules` has."""

    rules = ""

    def __init__(self, *config: int) -> None:
        super().__init__(*config)
        # frames that are evicted and not free yet, and how many pages are looked up at once
        self.limbo: set[int] = set()
        self.batch = BATCH
        # pages over the pool's size
        self.surplus = 0

    def has(self, rules: str) -> bool:
        return any(it in self.rules for it in rules)

    # Q: the quota, which changes at Linux's own events of it

    def exceeds_quota(self, number: int) -> bool:
        return not self.has("Q") and super().exceeds_quota(number)

    def is_beyond_quota(self, number: int) -> bool:
        return super().exceeds_quota(number)

    def use(self, number: int) -> None:
        if not self.has("Q"):
            self.used += number

    def give_up(self, number: int) -> None:
        self.use(-number)

    # L: the quota of a page that wasn't had (by Q it is used already)

    def leak(self, number: int) -> None:
        if not self.has("Q"):
            self.used += number

    def is_refused(self, call: Call) -> bool:
        return call.is_over_quota or self.exceeds_quota(call.missing)

    # R: the size of the pool

    def shrink(self, frames: int) -> Outcome:
        """Has the free frames go that are neither reserved nor needed to keep so many frames beside those over the size."""
        least = max(frames, self.resv + self.active - len(self.free))
        while least < self.active - self.surplus and self.free:
            self.retire()
        return Outcome("resized", str(self.active))

    def retire(self) -> None:
        self.free.remove(max(self.free))
        self.active -= 1

    # N: counts

    def take_unreserved(self) -> int:
        return self.take_free() if self.has("N") else super().take_unreserved()

    def take_reserved(self) -> int:
        if not self.has("N"):
            return super().take_reserved()
        self.resv -= 1
        return self.take_unreserved()

    def give_back(self, number: int) -> None:
        if self.has("N"):
            self.resv -= number
        else:
            super().give_back(number)

    def make_changed(self, call: Call) -> Outcome:
        if not self.has("N"):
            return super().make_changed(call)
        # (an unreserved take asks that free - resv isn't 0, and any that the list isn't empty)
        if call.missing and self.is_refused(call):
            return call.go("abort", "noquota")
        if not self.free or call.missing and len(self.free) == self.resv:
            return call.go("abort", "noframe")
        call.frame = self.take_unreserved() if call.missing else self.take_reserved()
        self.use(call.missing)
        return moved("taken")

    def map_changed(self, call: Call) -> Outcome:
        if self.is_refused(call):
            return call.go("abort", "noquota")
        # (that no more are wanted than are free follows only where the count isn't negative)
        if self.has("N") and call.missing > len(self.free):
            return call.go("abort", "noframe")
        return super().map_changed(call)

    # D: refused memory

    def make_missing(self, call: Call) -> Outcome:
        if self.has("D") and not call.is_granted:
            return call.go(self.behind(call), "nomemory")
        return super().make_missing(call)

    def map_missing(self, call: Call) -> Outcome:
        if self.has("D") and not call.is_granted:
            return call.go("leave", "nomemory")
        return super().map_missing(call)

    def delete(self, call: Call) -> int | None:
        file = self.files[call.file]
        if self.has("D") and not call.is_granted and {call.index - 1, call.index, call.index + 1} <= file.reserved:
            return None
        return file.delete(call.is_granted, call.index)

    # I: interrupted allocations

    def alloc_head(self, call: Call) -> Outcome:
        if self.has("I") and call.task.is_killed and call.name == "alloc":
            return call.go("extend", "interrupted")
        return super().alloc_head(call)

    def alloc_extend(self, call: Call) -> Outcome:
        answer = call.answer
        outcome = super().alloc_extend(call)
        call.answer = answer or call.answer
        return outcome

    # P, S: looks at the size

    def touch_locked(self, call: Call) -> Outcome:
        if not self.has("P"):
            return super().touch_locked(call)
        if call.index in self.files[call.file].pages:
            return moved("found")
        return call.go("leave", "beyond") if call.index >= self.files[call.file].size else moved("missing")

    def touch_committed(self, call: Call) -> Outcome:
        return self.place(call, "found") if self.has("S") else super().touch_committed(call)

    def touch_found(self, call: Call) -> Outcome:
        if not self.has("S"):
            return super().touch_found(call)
        file = self.files[call.file]
        size, file.size = file.size, LIMIT
        outcome = super().touch_found(call)
        file.size = size
        return outcome

    # U: the back-out (the index leaves the map at Linux's own event of it)

    def restore(self, call: Call) -> None:
        if self.has("U") and call.missing:
            self.free.add(call.frame)
            call.frame = None
            self.give_up(1)
        else:
            super().restore(call)

    # B, T: looks at the pages

    def look_up(self, call: Call, end: int) -> Outcome:
        """Looks up the next pages; where there are fewer than a batch has, these are the last."""
        call.batch = sorted(it for it in self.files[call.file].pages if call.index <= it < end)[: self.batch]
        call.has_more = len(call.batch) == self.batch
        return self.next_page(call)

    def next_page(self, call: Call) -> Outcome:
        if call.batch:
            call.index = call.batch[0]
            return moved("want")
        if call.has_more:
            call.batch, call.index = None, call.index + 1
            return moved("want")
        if call.table != "truncate":
            return call.go("leave", "done")
        return moved("last" if self.has("V") else "tail")

    def leave_page(self, call: Call) -> Outcome:
        self.leave_slot(call)
        if not call.batch:
            return moved("last")
        call.batch.pop(0)
        return self.next_page(call)

    def punch_want(self, call: Call) -> Outcome:
        return self.look_up(call, call.range[1]) if self.has("B") and call.batch is None else super().punch_want(call)

    def punch_locked(self, call: Call) -> Outcome:
        require(not self.has("B") or call.index in self.files[call.file].pages, "a page that was looked up is gone")
        return super().punch_locked(call)

    def punch_delete(self, call: Call) -> Outcome:
        if not self.has("FND"):
            return super().punch_delete(call)
        removed = self.delete(call)
        call.is_denied, call.removed = removed is None, removed
        if not self.has("F"):
            return moved("free")
        # (what is used falls where the frame becomes free; an index that stays is used)
        self.use(call.is_denied)
        self.limbo.add(call.frame)
        call.frame = None
        return moved("unslot")

    def punch_unslot(self, call: Call) -> Outcome:
        return self.leave_page(call) if self.has("B") else super().punch_unslot(call)

    def truncate_size(self, call: Call) -> Outcome:
        if not self.has("T"):
            return super().truncate_size(call)
        self.files[call.file].size = call.index = call.numbers[1]
        return moved("want")

    def truncate_want(self, call: Call) -> Outcome:
        return self.look_up(call, LIMIT) if self.has("T") and call.batch is None else super().truncate_want(call)

    # V: a truncation that takes each index out under its slot

    def truncate_last(self, call: Call) -> Outcome:
        """The highest reserved index of the tail is the next to go; where there is none, all are gone."""
        left = [it for it in self.files[call.file].reserved if it >= call.numbers[1]]
        if not left:
            return call.go("leave", "done")
        call.index = max(left)
        return moved("want")

    def truncate_delete(self, call: Call) -> Outcome:
        removed = self.delete(call)
        call.is_denied, call.removed, call.evicted = removed is None, removed or 0, int(call.frame is not None)
        if call.frame is not None:
            self.limbo.add(call.frame)
            call.frame = None
        return moved("unslot")

    def truncate_locked(self, call: Call) -> Outcome:
        has_page = call.index in self.files[call.file].pages
        if self.has("V") and not call.batch:
            return moved("unmap" if has_page else "delete")
        require(not self.has("T") or has_page, "a page that was looked up is gone")
        return super().truncate_locked(call)

    def truncate_evict(self, call: Call) -> Outcome:
        if not self.has("T"):
            return super().truncate_evict(call)
        if self.has("V"):
            call.frame = self.files[call.file].pages.pop(call.index)
            return moved("delete")
        self.limbo.add(self.files[call.file].pages.pop(call.index))
        call.evicted += 1
        return moved("unslot")

    def truncate_unslot(self, call: Call) -> Outcome:
        return self.leave_page(call) if self.has("T") else super().truncate_unslot(call)

    def truncate_settle(self, call: Call) -> Outcome:
        if self.has("T"):
            self.use(call.evicted)
        return super().truncate_settle(call)


def machine_of(rules: str) -> type[Machine]:
    """The machine with the rows of these letters, or as it is where there are none."""
    return type(f"LinuxRows{rules}", (LinuxRows,), {"rules": rules}) if rules else Machine
