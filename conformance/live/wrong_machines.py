"""Wrong machines, each with one wrong row beside Linux's own ones. A comparison that passes them compares nothing."""
from __future__ import annotations

from typing import Iterator

from linux_rows import LinuxRows
from machine import Call, Outcome, moved


class Base(LinuxRows):
    """The rows with which every recording is whole in which no change and no placement is refused memory."""

    rules = "BFPSTNDQIR"
    # the recordings on which it is tried
    tried: tuple[str, ...] = ("a", "t", "settle", "settles")


class MapKeepsWhatItOverpaid(Base):
    """map: the settlement is left out"""

    def map_settle(self, call: Call) -> Outcome:
        return moved("enter")


class TouchKeepsWhatItOverpaid(Base):
    """touch, alloc: the settlement is left out"""

    def make_settle(self, call: Call) -> Outcome:
        return moved("committed")

    touch_settle = alloc_settle = make_settle


class TakesReservedFrames(Base):
    """an unreserved take looks at the free count alone"""

    def make_changed(self, call: Call) -> Outcome:
        if not (call.missing and self.free):
            return super().make_changed(call)
        call.frame = self.take_unreserved()
        return moved("taken")


class EveryTakeIsReserved(Base):
    """every take is a reserved one"""

    def make_changed(self, call: Call) -> Outcome:
        if not self.free:
            return super().make_changed(call)
        call.frame = self.take_reserved()
        return moved("taken")


class ReservedTakeLeavesTheCount(Base):
    """a reserved take leaves the reserve count"""

    def take_reserved(self) -> int:
        return self.take_unreserved()


class MapAccountsAgainstFree(Base):
    """map: accounts against the free frames, not those that aren't reserved"""

    def map_changed(self, call: Call) -> Outcome:
        if call.missing > len(self.free):
            return super().map_changed(call)
        self.resv += call.missing
        return moved("accounted")


class MapWantsOneMore(Base):
    """map: it wants one more free frame than it lacks"""

    def map_changed(self, call: Call) -> Outcome:
        if call.missing and call.missing == len(self.free) - self.resv:
            return call.go("abort", "noframe")
        return super().map_changed(call)


class MapBelievesItsChange(Base):
    """map: a commit is taken to add what the change lacked"""

    def map_accounted(self, call: Call) -> Outcome:
        self.files[call.file].commit(*call.range)
        call.added = call.missing
        return moved("enter")


class TouchCountsAgainAtItsTake(Base):
    """touch, alloc: the reserve map is asked again at the take"""

    def make_changed(self, call: Call) -> Outcome:
        call.missing = int(call.index not in self.files[call.file].reserved)
        return super().make_changed(call)


class MapCountsAgainAtItsAccount(Base):
    """map: the reserve map is asked again where it is accounted"""

    def map_changed(self, call: Call) -> Outcome:
        call.missing = sum(it not in self.files[call.file].reserved for it in range(*call.range))
        return super().map_changed(call)


class MapCommitsEarly(Base):
    """map: its range is in the reserve map once it is accounted"""

    def map_changed(self, call: Call) -> Outcome:
        outcome = super().map_changed(call)
        if outcome.value == "accounted":
            self.files[call.file].reserved.update(range(*call.range))
        return outcome


class TouchCommitsEarly(Base):
    """touch, alloc: its index is in the reserve map once a frame is taken"""

    def make_changed(self, call: Call) -> Outcome:
        outcome = super().make_changed(call)
        if outcome.value == "taken":
            self.files[call.file].reserved.add(call.index)
        return outcome


class UnreservedTouchDoesNotEnter(Base):
    """touch, alloc: an unreserved index doesn't enter the reserve map"""

    def make_taken(self, call: Call) -> Outcome:
        outcome = super().make_taken(call)
        if outcome.value == "committed" and call.missing and call.added:
            self.files[call.file].reserved.discard(call.index)
        return outcome


class PunchLeavesItsIndex(Base):
    """punch: its index stays in the reserve map"""

    def punch_delete(self, call: Call) -> Outcome:
        call.removed = 1
        self.limbo.add(call.frame)
        call.frame = None
        return moved("unslot")


class PunchRaisesTheCount(Base):
    """punch: the reserve count is raised"""

    def punch_delete(self, call: Call) -> Outcome:
        outcome = super().punch_delete(call)
        self.resv += 1
        return outcome


class PunchTakesBareIndices(Base):
    """punch: indices without a page leave the reserve map, too"""

    def punch_want(self, call: Call) -> Outcome:
        if call.batch is None:
            file = self.files[call.file]
            file.reserved -= set(range(*call.range)) - file.pages.keys()
        return super().punch_want(call)


class TruncationGivesNothingBack(Base):
    """truncate: nothing is given back"""

    def truncate_settle(self, call: Call) -> Outcome:
        return call.go("leave", "done")


class TruncationGivesPagesBack(Base):
    """truncate: what it evicted is given back, too"""

    def truncate_settle(self, call: Call) -> Outcome:
        self.resv -= call.removed
        return call.go("leave", "done")


class TruncationLeavesTheMap(Base):
    """truncate: the reserve map stays as it is"""

    def truncate_tail(self, call: Call) -> Outcome:
        call.removed = call.evicted
        return moved("settle")


class MapLeavesTheSize(Base):
    """map: the file's size stays as it is"""

    def map_enter(self, call: Call) -> Outcome:
        file = self.files[call.file]
        size = file.size
        outcome = super().map_enter(call)
        file.size = size
        return outcome


class AllocationAlwaysExtends(Base):
    """alloc: the size grows although it is to be kept"""

    def alloc_unslot(self, call: Call) -> Outcome:
        outcome = super().alloc_unslot(call)
        if call.name == "allock" and outcome.value == "leave":
            file = self.files[call.file]
            file.size = max(file.size, call.range[1])
        return outcome


class EveryMapReserves(Base):
    """map: one without reservation reserves, too"""

    def map_room(self, call: Call) -> Outcome:
        call.name = "map"
        return super().map_room(call)


class NewPageKeepsItsWord(Base):
    """a new page has the word that its frame had"""

    def take_unreserved(self) -> int:
        frame = min(self.free)
        word = self.words.get(frame, 0)
        super().take_unreserved()
        self.words[frame] = word
        return frame


class AsksNoQuota(Base):
    """touch, alloc, map: the quota isn't asked"""

    tried = ("6.12/quota",)

    def is_beyond_quota(self, number: int) -> bool:
        return False


class TouchAsksNoQuota(Base):
    """touch, alloc: an index that nobody reserved isn't counted as used"""

    tried = ("6.12/quota",)

    def make_changed(self, call: Call) -> Outcome:
        outcome = super().make_changed(call)
        if outcome.value == "taken":
            self.used -= call.missing
        return outcome


class DeniedDeletionIsDone(Base):
    """punch: a deletion that is refused memory is made all the same"""

    tried = ("6.12/denied",)

    def delete(self, call: Call) -> int | None:
        return self.files[call.file].delete(True, call.index)


class ResizeRetiresReserved(Base):
    """resize: frames that are reserved are retired"""

    tried = ("6.12/resizes",)

    def shrink(self, frames: int) -> Outcome:
        resv, self.resv = self.resv, 0
        outcome = super().shrink(frames)
        self.resv = resv
        return outcome


class ResizeKeepsWhatIsFree(Base):
    """resize: a frame that is free stays"""

    tried = ("6.12/resizes",)

    def shrink(self, frames: int) -> Outcome:
        return super().shrink(frames + 1)


class InterruptedAllocationLeavesTheSize(Base):
    """alloc: one that is interrupted leaves the size"""

    tried = ("6.12/kills",)

    def alloc_extend(self, call: Call) -> Outcome:
        file = self.files[call.file]
        size = file.size
        outcome = super().alloc_extend(call)
        if call.answer == "interrupted":
            file.size = size
        return outcome


class KillIsNotNoticed(Base):
    """alloc: a kill is not noticed"""

    tried = ("6.12/kills",)

    def alloc_head(self, call: Call) -> Outcome:
        return moved("want")


class Repaired(Base):
    """The rows of a repaired kernel, with which its recordings are whole, those with refused memory among them."""

    rules = "BFPSTDNAV"
    tried = ("repaired/trunc", "repaired/refused")


class RepairedTailGoesAtOnce(Repaired):
    """repaired truncation: the indices that are left go at once, and not each under its slot"""

    def truncate_last(self, call: Call) -> Outcome:
        file = self.files[call.file]
        self.resv -= file.delete_tail(call.numbers[1])
        return super().truncate_last(call)


class RepairedTailGoesUpwards(Repaired):
    """repaired truncation: the indices that are left go from the lowest up"""

    def truncate_last(self, call: Call) -> Outcome:
        outcome = super().truncate_last(call)
        if outcome.value == "want":
            call.index = min(it for it in self.files[call.file].reserved if it >= call.numbers[1])
        return outcome


class RepairedTruncationLeavesIndices(Repaired):
    """repaired truncation: an index whose page it removed stays in the reserve map"""

    def truncate_delete(self, call: Call) -> Outcome:
        has_page, reserved = call.frame is not None, set(self.files[call.file].reserved)
        outcome = super().truncate_delete(call)
        if has_page:
            self.files[call.file].reserved = reserved
        return outcome


class RepairedTouchIsBackedOutOfTheMap(Repaired):
    """repaired touch: one that is backed out takes its index out of the reserve map"""

    def restore(self, call: Call) -> None:
        self.files[call.file].reserved.discard(call.index)
        super().restore(call)


def all_below(kind: type[Base]) -> Iterator[type[Base]]:
    for it in kind.__subclasses__():
        yield it
        yield from all_below(it)


# (a repaired kernel's own rows are right)
WRONG: tuple[type[Base], ...] = tuple(it for it in all_below(Base) if it is not Repaired)
