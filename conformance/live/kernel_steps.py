"""Linux's rows with each of its actions a step of its own, so that all schedules can be made.

check.py takes from a recording when the quota changes, a raise is made, a page that is backed out leaves the map, and a frame becomes free.
Here these are rows. Without any letter of a rule the rows are the machine's.
"""
from __future__ import annotations

from machine import LIMIT, Call, Outcome, Task, moved
from repairs import Rows

# by Linux's rules nobody else can tell whether these rows came before or after what others did meanwhile, and none of them waits
LOCAL = frozenset((
    "map.room", "alloc.head", "alloc.locked", "touch.found", "unmap.start", "exit.start",
    "punch.locked", "punch.unmap", "punch.evict", "truncate.locked", "truncate.unmap", "truncate.evict",
))
# rows at which Linux may be refused memory
DENIABLE = frozenset(("touch.missing", "alloc.missing", "map.missing", "touch.committed", "alloc.committed", "punch.delete"))
# answers for which a touch ends in SIGBUS although its page was promised
REFUSED = ("noframe", "noquota")
# in place of the answer of a touch that Linux lets fault again
AGAIN = "again"
# phases of a page that is made in which the call still reads what it lacked
LACKING = ("changed", "taken", "settle", "committed", "restore", "judged", "back", "abort")
# phases of a touch in which it may yet be refused what was promised
ASKING = ("want", "locked", "missing", "changed")


class Steps(Rows):
    """The rows, and what was promised: for each file the indices that a map has reserved for its caller and no removal has taken since.

    A promise has a number, the promises withdrawn before it. A touch knows the one that it began with: what a map promises meanwhile is not
    promised to it.
    """

    # the rows that are made together with the row before them
    local = LOCAL

    def __init__(self, *config: int) -> None:
        super().__init__(*config)
        self.slot_count = config[2]
        self.promised: list[dict[int, int]] = [{} for _ in self.files]
        self.withdrawn = [0 for _ in self.files]
        # whether a promised touch was refused just now, and the frame that became free just now
        self.is_refusing, self.freed = False, None

    def slot_of(self, file: int, index: int) -> int:
        return (index + 31 * file) % self.slot_count

    def begin(self, number: int, words: str) -> Outcome:
        outcome = super().begin(number, words)
        call = self.tasks[number].call
        if outcome.kind == "begun":
            # what is used of the quota for the call so far, and whether it gave back its excess
            call.charged, call.has_put = 0, False
            # pages that are evicted and not free yet; pages whose translations an unmap took, and which stay until it ends
            call.waiting, call.held = [], []
            call.promise = None
            call.file = call.file if call.table in ("map", "alloc", "punch", "truncate") else 0
        return outcome

    def step(self, number: int, is_granted: bool = True) -> Outcome:
        self.is_refusing, self.freed = False, None
        call = self.tasks[number].call
        is_start = call is not None and call.phase == "start"
        outcome = super().step(number, is_granted)
        if is_start and outcome.kind == "moved" and call.table in ("punch", "truncate"):
            self.withdraw(call)
        if outcome.kind == "ended" and call.name == "map" and call.answer.startswith("mapped"):
            self.promise(call)
        if outcome.kind == "moved" and call.table in ("touch", "alloc") and call.phase not in LACKING:
            call.missing = call.added = call.removed = 0
        if call is not None and call.phase not in ASKING:
            call.promise = None
        return outcome

    def promise(self, call: Call) -> None:
        for index in range(*call.range):
            self.promised[call.file].setdefault(index, self.withdrawn[call.file])

    def withdraw(self, call: Call) -> None:
        """A removal ends the promises of its range. (No map is at work on its file: that needs the file's lock.)"""
        first, end = call.range if call.table == "punch" else (call.numbers[1], LIMIT)
        promised = self.promised[call.file]
        kept = {index: number for index, number in promised.items() if not first <= index < end}
        self.withdrawn[call.file] += len(kept) < len(promised)
        self.promised[call.file] = kept

    def touch_look(self, call: Call) -> Outcome:
        outcome = super().touch_look(call)
        call.promise = self.promised[call.file].get(call.index) if outcome.value == "want" else None
        return outcome

    # Q: the quota is asked in a step of its own, and given back in one

    def asks_apart(self, call: Call) -> bool:
        return self.has("Q") and self.quota is not None and call.missing > 0 and not call.charged and not call.is_over_quota

    def charge(self, call: Call) -> Outcome:
        if self.is_beyond_quota(call.missing):
            call.is_over_quota = True
        else:
            call.charged = call.missing
            self.used += call.missing
        return moved("changed")

    def make_changed(self, call: Call) -> Outcome:
        if self.asks_apart(call):
            return self.charge(call)
        outcome = super().make_changed(call)
        if outcome.value == "taken":
            call.charged = 0
        else:
            self.is_refusing = call.answer in REFUSED and self.is_promised(call)
        return outcome

    def is_promised(self, call: Call) -> bool:
        return call.table == "touch" and call.promise is not None and self.promised[call.file].get(call.index) == call.promise

    def map_changed(self, call: Call) -> Outcome:
        if self.asks_apart(call):
            return self.charge(call)
        outcome = super().map_changed(call)
        if outcome.value == "accounted":
            call.charged = 0
        return outcome

    def make_abort(self, call: Call) -> Outcome:
        return self.put_charge(call) or super().make_abort(call)

    def map_abort(self, call: Call) -> Outcome:
        return self.put_charge(call) or super().map_abort(call)

    def put_charge(self, call: Call) -> Outcome | None:
        """L: only a map gives back what it took of the quota and didn't need."""
        number, call.charged, call.is_over_quota = call.charged, 0, False
        if not number or self.has("L") and call.table != "map":
            return None
        self.used -= number
        return moved("abort")

    def put_excess(self, call: Call, number: int) -> bool:
        """Whether what a settlement owes to the quota is given back now, before the reserve count."""
        call.has_put = self.has("Q") and self.quota is not None and not call.has_put and number != 0
        self.used -= number if call.has_put else 0
        return call.has_put

    def puts_page(self, call: Call) -> bool:
        """A page that is about to be free leaves the quota; whether that is a step of its own."""
        if self.quota is None:
            return False
        self.used -= not call.has_put
        call.has_put = not call.has_put and self.has("Q")
        return call.has_put

    def make_settle(self, call: Call) -> Outcome:
        return moved("settle") if self.put_excess(call, 1) else super().make_settle(call)

    def map_settle(self, call: Call) -> Outcome:
        return moved("settle") if self.put_excess(call, call.missing - call.added) else super().map_settle(call)

    def truncate_settle(self, call: Call) -> Outcome:
        return moved("settle") if self.put_excess(call, call.removed - call.evicted) else super().truncate_settle(call)

    # a touch begins anew once it has its translation, which may be gone by then, and where its change was refused memory

    def make_missing(self, call: Call) -> Outcome:
        outcome = super().make_missing(call)
        if self.rules and call.table == "touch" and outcome.value == "leave":
            call.answer = AGAIN
        return outcome

    def touch_leave(self, call: Call) -> Outcome:
        begins_anew = call.answer.split(" ")[0] in ("word", "done", AGAIN)
        outcome = super().touch_leave(call)
        if not self.rules or not begins_anew:
            return outcome
        call.answer, call.index, call.file = "", 0, 0
        return moved("look")

    # U: a page that is backed out

    def make_restore(self, call: Call) -> Outcome:
        if not self.has("U"):
            return super().make_restore(call)
        call.removed = int(call.index not in self.files[call.file].reserved)
        return moved("judged")

    def make_judged(self, call: Call) -> Outcome:
        """Linux undoes what it takes the map to have been before: its look at the map is a step ago."""
        reserved = self.files[call.file].reserved
        if call.missing and not call.removed:
            reserved.discard(call.index)
        elif not call.missing and call.removed:
            reserved.add(call.index)
        return moved("back")

    def make_back(self, call: Call) -> Outcome:
        if call.missing and self.puts_page(call):
            return moved("back")
        self.freed = call.frame
        self.free.add(call.frame)
        call.frame = None
        self.resv += not call.missing
        return moved(self.behind(call))

    touch_changed = alloc_changed = make_changed
    touch_abort = alloc_abort = make_abort
    touch_settle = alloc_settle = make_settle
    touch_restore = alloc_restore = make_restore
    touch_judged = alloc_judged = make_judged
    touch_back = alloc_back = make_back

    # F: frames that were evicted become free where the batch is released, or where the unmap ends that still has them

    def take_waiting(self, call: Call) -> None:
        for frame in self.limbo:
            call.waiting.append((call.file, call.index, frame))
        self.limbo.clear()

    def punch_delete(self, call: Call) -> Outcome:
        if not self.has("F"):
            return super().punch_delete(call)
        outcome = super(Rows, self).punch_delete(call)
        self.take_waiting(call)
        return moved("raise") if call.is_denied or not call.removed else outcome

    def punch_raise(self, call: Call) -> Outcome:
        """An index that stays, or a page without one, is used once more first: its frame gives that back. Where the quota refuses that
        of an index that stays, the count isn't raised."""
        asks = self.has("Q") and self.quota is not None and not call.has_put
        call.has_put = asks and not (call.is_denied and self.is_beyond_quota(1))
        if call.has_put:
            self.used += 1
            return moved("raise")
        if not asks:
            self.raise_by(1)
        call.is_denied = False
        return moved("unslot")

    def truncate_evict(self, call: Call) -> Outcome:
        outcome = super().truncate_evict(call)
        self.take_waiting(call)
        return outcome

    def next_page(self, call: Call) -> Outcome:
        return moved("release") if not call.batch and call.waiting else super().next_page(call)

    def release(self, call: Call) -> None:
        """The next frame becomes free, unless an unmap still has it; a quota gets its page back in a step before that."""
        page = call.waiting[0]
        holder = next((it.call for it in self.tasks.values() if it.call is not call and it.call and page[:2] in it.call.held), None)
        if holder is None and self.puts_page(call):
            return
        call.waiting.pop(0)
        if holder is not None:
            holder.waiting.append(page)
        else:
            self.freed = page[2]
            self.free.add(page[2])

    def punch_release(self, call: Call) -> Outcome:
        self.release(call)
        return self.next_page(call)

    truncate_release = punch_release

    def hold(self, task: Task, base: int) -> None:
        if not self.has("F"):
            return
        file, first, length = task.mappings[base]
        task.call.held += [(file, first + page - base) for page in task.table if base <= page < base + length]

    def unmap_clear(self, call: Call) -> Outcome:
        self.hold(call.task, call.numbers[0])
        return super().unmap_clear(call)

    def exit_clear(self, call: Call) -> Outcome:
        self.hold(call.task, min(call.task.mappings))
        return super().exit_clear(call)

    def unmap_drop(self, call: Call) -> Outcome:
        return self.let_go(call) or super().unmap_drop(call)

    def exit_leave(self, call: Call) -> Outcome:
        return self.let_go(call) or super().exit_leave(call)

    def let_go(self, call: Call) -> Outcome | None:
        """The pages that an unmap still has become free, or are left to another that has them, too."""
        call.held = []
        if not call.waiting:
            return None
        self.release(call)
        return moved(call.phase)


def steps_of(rules: str) -> type[Steps]:
    return type(f"Steps{rules}", (Steps,), {"rules": rules})
