"""Scripts whose schedules are forced: calls that are held where they enter a function of the kernel, or denied memory.

A script of the first kind makes ready what its calls need, holds a call of task 1 in the kernel, has task 2 make another
one meanwhile, and lets the first go on. Each function in which a call decides something is tried with each two calls that
can meet there. In a script of the second kind one or two allocations of kernel memory of a call are denied: its first,
its second, and so on. Each pool has frames for all. Linux loses a reservation only where a truncation takes off a page at
which a touch works. Most truncations here are beside calls that hold the inode's lock, as they do themselves, or beside
touches below the new size; the others come where by Linux's rules all is right again once the touch's page is removed.
So on a right kernel no count goes wrong, and no call finds the pool empty.
"""
from __future__ import annotations

import re
from dataclasses import dataclass
from itertools import product
from typing import Iterator

from compare import Script

# ample: what all calls of a script can need, and as much quota
POOL = "pool 16 1 8 2 16"
END = "begin 1 trunc 0 0"
# both tasks map the file without reservations, from virtual page 0 on
MAPPED = ("begin 1 mapn 0 0 5", "begin 2 mapn 0 0 5")


@dataclass(frozen=True)
class Place:
    """A function in which calls are held, by its names in versions of Linux, and the kinds of calls that come there."""

    name: str
    functions: tuple[str, ...]
    kinds: tuple[str, ...]


# what is there before: nothing; reservations; reservations and a page among them; pages; reservations with holes, and no
# spare descriptor
SETTINGS = {
    "bare": (),
    "reserved": ("begin 1 map 0 0 3",),
    # (by the task whose calls aren't held: a removal waits for a touch that is held if its mapping shows the page)
    "placed": ("begin 1 map 0 0 3", "begin 2 store 1 7"),
    "allocated": ("begin 1 alloc 0 1 3",),
    "holed": ("begin 1 map 0 0 5", "begin 1 store 1 7", "begin 1 store 3 7", "begin 1 punch 0 1 1"),
}
PLACES = (
    Place("change", ("region_chg",), ("map",)),
    Place("frame", ("alloc_huge_page", "alloc_hugetlb_folio"), ("store", "alloc")),
    Place("quota", ("hugepage_subpool_get_pages",), ("store", "alloc", "map")),
    Place("commit", ("region_add",), ("store", "alloc", "map")),
    Place("page", ("hugetlb_add_to_page_cache",), ("store", "alloc")),
    Place("account", ("hugetlb_acct_memory",), ("map",)),
    Place("removal", ("hugetlb_unreserve_pages",), ("punch",)),
    Place("deletion", ("region_del",), ("punch",)),
    Place("freeing", ("free_huge_page", "free_huge_folio"), ("punch",)),
)
# the calls that are held
HELD = ("store 1 5", "store 3 5", "alloc 0 1 3", "map 0 0 4", "punch 0 1 1", "punch 0 0 5")
# what is made meanwhile: touches, and beside a touch also calls that take the file's lock, which other held calls have
TOUCHES, LOCKING = ("store 1 6", "store 2 6"), ("alloc 0 1 3", "map 0 0 5", "punch 0 1 1")
# truncations beside which no count may be lost: to nothing, which waits for each call but a touch, and to the size behind a touch
TRUNCATIONS = {"alloc": "trunc 0 0", "map": "trunc 0 0", "punch": "trunc 0 0", "store": "trunc 0 4"}
CUTTABLE = ("reserved", "placed")
# a punch beside calls that it waits for, which takes a reserved index out of the map, and a page, if it doesn't wait
PUNCH = "punch 0 1 1"
# where a truncation is held, and what is made meanwhile: it waits, or it touches a page below the new size
CUTTING = ("removal", "deletion", "freeing")
CUT, UNCUT = "trunc 0 2", ("store 1 6", "alloc 0 1 3", "map 0 0 5", "punch 0 1 1")
# a touch of a page that the truncation has taken off: the size is lowered already, so it lies beyond
ABOVE, BEYOND = "store 3 6", "wait 2 = beyond"
# where a truncation may take off a page that is touched, if it is reserved and if it isn't: the touch asks the reserve map only then, or has
# committed what the map answered. The reservations of another file, which are counted meanwhile, keep the count above zero
WIDER_POOL, KEPT = "pool 16 2 8 2 16", "begin 1 map 1 0 3"
RECOVERED = {"store 1 5": ("frame", "page"), "store 3 5": ("frame", "quota", "commit", "page")}
# a page that a punch has yet to remove, touched in two mappings of a task while the punch is held at a page before it
AGAIN, TWICE = "begin 2 mapn 0 0 5", ("start 2 store 2 6", "wait 2", "start 2 load 7", "wait 2")
# behind the wait for a call that can't end before the one that is held
BLOCKED = " blocked"
# calls that hold the file's lock from their begin to their end, those that visit each index of their range, and those that touch one
LOCKED, VISITING, TOUCHING = ("alloc", "map", "punch", "trunc"), ("alloc",), ("load", "store")
# where a removal that is held has the slot of an index; the indices that have a page, of which it visits no other; and those that are
# reserved, at which no quota is asked
SLOTTED, PAGES, RESERVED = ("removal", "deletion"), {"placed": (1,), "allocated": (1, 2, 3)}, {"reserved": (0, 1, 2), "placed": (0, 1, 2)}
# what is made in a memory cgroup that may have nothing, of a file without a page: what a page is placed in can't be had then
POOR = ("store 1 5", "store 3 5", "load 2", "alloc 0 1 1", "alloc 0 0 3", "allock 0 3 1")
EMPTY = {
    "bare": (),
    "reserved": ("begin 2 map 0 0 4",),
    "holed": ("begin 2 map 0 0 5", "begin 2 store 8 7", "begin 2 punch 0 3 1"),
}
# the tables of a task's own pages are there
TABLES = ("begin 1 load 4", "begin 1 punch 0 4 1")
# the calls that are denied memory, and up to which of their allocations
DENIED = ("store 1 5", "store 3 5", "load 0", "alloc 0 0 3", "alloc 0 3 2", "map 0 0 4", "map 0 1 1")
DENIED += ("punch 0 1 1", "punch 0 3 1", "unmap 0")
ALLOCATIONS = 6
# a private mapping of task 1, from virtual page 5 on: what is there before a touch of its page 6, and that touch. It copies the page of
# the file where that was read before
PRIVATE, OWN = "begin 1 xprivate 0 0 8388608", {"own": (), "own.copied": ("begin 2 store 1 7", "begin 1 load 6")}
OWN_TOUCH, OWN_AFTER = "store 6 5", ("begin 1 store 6 7", "begin 1 load 5", "begin 1 xunmap 5 8388608", "begin 2 map 0 0 5")


def script(name: str, setting: str, lines: tuple[str, ...], pool: str = POOL) -> Script:
    return Script(name, pool, [*MAPPED, *SETTINGS[setting], *lines, END])


def kind_of(call: str) -> str:
    return call.split()[0]


def held() -> Iterator[Script]:
    """Each call held in each function that it comes to, and each other call meanwhile."""
    for place, setting, (number, first) in product(PLACES, list(SETTINGS)[:4], enumerate(HELD, 1)):
        if kind_of(first) not in place.kinds:
            continue
        others = (TOUCHES[0], *LOCKING) if kind_of(first) == "store" else TOUCHES
        others += (TRUNCATIONS[kind_of(first)],) if setting in CUTTABLE else ()
        others += (PUNCH,) if setting in CUTTABLE and kind_of(first) != "store" else ()
        for at, other in enumerate(others, 1):
            yield script(f"held.{place.name}.{setting}.{number}.{at}", setting, beside(place, setting, first, other))
    for place, setting, (at, other) in product(PLACES, (*CUTTABLE, "allocated"), enumerate(UNCUT, 1)):
        if place.name in CUTTING:
            yield script(f"held.{place.name}.{setting}.cut.{at}", setting, beside(place, setting, CUT, other))
    for place, setting in product(PLACES, (*CUTTABLE, "allocated")):
        if place.name in CUTTING:
            yield script(f"held.{place.name}.{setting}.above", setting, (hold(place, CUT), f"start 2 {ABOVE}", "wait 2", "wait 1"))
    for place in PLACES:
        if place.name in SLOTTED:
            lines = (AGAIN, hold(place, HELD[-1]), *TWICE, "wait 1", "begin 1 load 1", "begin 1 load 2")
            yield script(f"held.{place.name}.allocated.twice", "allocated", lines)
    for first, place in product(RECOVERED, PLACES):
        if place.name in RECOVERED[first]:
            lines = (KEPT, hold(place, first), "start 2 trunc 0 0", "wait 2", "wait 1", "begin 2 trunc 0 0", "begin 1 trunc 1 0")
            yield script(f"held.{place.name}.recovered.{first.split()[1]}", "reserved", lines, WIDER_POOL)


def hold(place: Place, call: str) -> str:
    return f"hold {'|'.join(place.functions)} 1 {call}"


def beside(place: Place, setting: str, first: str, other: str) -> tuple[str, ...]:
    """A call that is held, and another one meanwhile; behind them each page is touched, of which some were promised."""
    # (where a truncation may be the last of both, the pages are promised anew)
    again = ("begin 1 map 0 0 5",) if "trunc" in first + other else ()
    blocked = BLOCKED if has_to_wait(place, setting, first, other) else ""
    return (hold(place, first), f"start 2 {other}", f"wait 2{blocked}", "wait 1", *again, "begin 1 load 1", "begin 1 load 2")


def has_to_wait(place: Place, setting: str, first: str, other: str) -> bool:
    """Whether a call can't end before the one that is held: both lock the file, or it comes to the index whose slot that one has."""
    if kind_of(first) in LOCKED and kind_of(other) in LOCKED:
        return True
    index = slot_of(place, setting, first)
    return index in indices_of(other) if index is not None and kind_of(other) in (*VISITING, *TOUCHING) else False


def slot_of(place: Place, setting: str, call: str) -> int | None:
    """The index whose slot a call has where it is held, if it has one: the first at which it comes there."""
    pages = PAGES.get(setting, ())
    if kind_of(call) == "punch":
        return next((it for it in indices_of(call) if it in pages), None) if place.name in SLOTTED else None
    passed = (*pages, *(RESERVED.get(setting, ()) if place.name == "quota" else ()))
    return next((it for it in indices_of(call) if it not in passed), None) if kind_of(call) in (*VISITING, *TOUCHING) else None


def indices_of(call: str) -> range:
    """The indices of a call's file that it is about; both tasks map the file from its begin on."""
    kind, *numbers = call.split()
    if kind in TOUCHING:
        return range(int(numbers[0]), int(numbers[0]) + 1)
    first, count = int(numbers[1]), int(numbers[2]) if kind != "trunc" else 0
    return range(first, first + count)


def denied() -> Iterator[Script]:
    """Each call with each of its first allocations denied, and with two of them; then all is mapped, and a page touched.

    (Two, since the page cache tries twice to get a node of its tree, without waiting and with it.)
    """
    for setting, (at, call), first, more in product(SETTINGS, enumerate(DENIED, 1), range(1, ALLOCATIONS + 1), (0, 1)):
        lines = (f"deny {first}-{first + more} 1 {call}", "begin 2 map 0 0 5", "begin 2 load 1")
        yield script(f"denied.{setting}.{at}.{first}-{first + more}", setting, lines)
    for name, first, more in product(OWN, range(1, ALLOCATIONS + 1), (0, 1)):
        yield own(f"denied.{name}.{first}-{first + more}", name, f"deny {first}-{first + more}")


def own(name: str, setting: str, denial: str) -> Script:
    """A touch of a private mapping that is denied memory, then another one of it, and the mapping goes."""
    return script(name, "bare", (PRIVATE, *OWN[setting], f"{denial} 1 {OWN_TOUCH}", *OWN_AFTER))


def charged() -> Iterator[Script]:
    """Each call for which what is charged to a memory cgroup can't be had: the page that it has taken is backed out."""
    for (setting, before), (at, call) in product(EMPTY.items(), enumerate(POOR, 1)):
        lines = (*TABLES, *before, f"deny charged 1 {call}", "begin 2 map 0 0 5", "begin 2 load 1", "begin 2 load 2")
        yield script(f"charged.{setting}.{at}", "bare", lines)
    yield from (own(f"charged.{name}", name, "deny charged") for name in OWN)


# the lines of a script whose schedule is forced, and what they are answered where the kernel can do so
FORCED = ("hold ", "deny ")
CANNOT = ("started", "refused nodenial")
# the answer of a wait for which a hold didn't last
RAN_OUT = " = ranout"
# what no call may be answered where the pool is ample, unless it is denied memory
ODD = re.compile(r"(?!deny )[^=]* = (?:noframe|errno|segv|beyond|bus|unblocked)|.*DISAGREE")


def has_force(script: Script) -> bool:
    return any(line.startswith(FORCED) for line in script.lines)


def ran_out(script: Script) -> bool:
    """Whether a hold of a recorded script ended before what was to happen meanwhile had happened, each time that it was made."""
    return any(line.partition(" | ")[0].endswith(RAN_OUT) for line in script.lines)


def was_forced(script: Script) -> bool:
    """Whether a call of a recorded script was held for as long as it had to be, or might be denied memory."""
    if ran_out(script):
        return False
    lines = [line for line in script.lines if line.startswith(FORCED)]
    return any(not line.partition(" = ")[2].startswith((*CANNOT, "passed")) for line in lines)


def cannot(script: Script) -> bool:
    """Whether this kernel can't force what a recorded script asks for."""
    return any(line.startswith(FORCED) and line.partition(" = ")[2].startswith(CANNOT) for line in script.lines)


def oddities(script: Script) -> list[str]:
    """What a recorded script has against its kernel beside wrong counts: answers, and used pages at the end."""
    is_above = script.name.endswith(".above")
    odd = [line.partition(" | ")[0] for line in script.lines if ODD.match(line) and not (is_above and line == BEYOND)]
    odd += [it for it in script.lines if is_above and not (cannot(script) or ran_out(script)) and it.startswith("wait 2") and it != BEYOND]
    used = re.search(r"\| used (-?\d+)$", script.lines[-1])
    is_leak = used is not None and used[1] != "0"
    return odd + ([f"at the end, where no page is left, {used[1]} are used of the quota"] if is_leak else [])
