"""A recording in words: Linux's events in their order, and beside each the rows of the machine that belong to it."""
from __future__ import annotations

from typing import Callable, Iterator

from placing import Placement
from recordings import CALLS, FAR, NONE, Event


# events that are told of any thread
OF_ANY_THREAD = ("free", "quota", "grow", "shrink", "surplus", "resized", "dead")


def end_of(event: Event) -> str:
    return "end" if event.b > FAR else str(event.b)


def page_of(event: Event) -> str:
    return "none" if event.b == NONE else f"pfn {event.b}"


def call_of(event: Event) -> str:
    letter = chr(event.about)
    numbers = (event.a, event.b, event.c)[: {"u": 1, "l": 1, "s": 2, "t": 2}.get(letter, 3)]
    return f"calls {CALLS.get(letter, '?')} {' '.join(map(str, numbers))}"


def answer_of(event: Event) -> str:
    words = {"m": f"returns mapped {event.a}", "w": "returns", "d": "returns 0", "s": "SIGBUS", "g": "SIGSEGV", "e": f"returns errno {event.a}"}
    return words.get(chr(event.about), "returns")


# each event that is shown, with the kernel's function where that says more than a sentence
WORDS: dict[str, Callable[[Event], str]] = {
    "begin": call_of,
    "return": answer_of,
    "access": lambda it: f"{'reads' if it.a == ord('L') else 'writes'} {it.c}",
    "change": lambda it: f"region_chg [{it.a}, {end_of(it)}): missing {it.c}",
    "change_refused": lambda it: "region_chg is refused memory",
    "commit": lambda it: f"region_add [{it.a}, {end_of(it)}): added {it.c}",
    "abort": lambda it: "region_abort",
    "delete": lambda it: f"region_del [{it.a}, {end_of(it)}): removed {it.c}",
    "delete_refused": lambda it: "region_del is refused memory",
    "account": lambda it: f"hugetlb_acct_memory {it.a:+d}{': refused' if it.b else ''}",
    "unused": lambda it: f"return_unused_surplus_pages {it.a}",
    # (7.3 takes a page where its index isn't known)
    "take": lambda it: f"a page{'' if it.a < 0 else f' for index {it.a}'}: {'' if it.b == NONE else 'reserved, ' if it.c & 1 else 'not reserved, '}{page_of(it)}",
    "free": lambda it: f"pfn {it.a} is free",
    "place": lambda it: f"pfn {it.b} is in the page cache at index {it.a}",
    "place_refused": lambda it: "adding to the page cache is refused memory",
    "look": lambda it: f"page cache at index {it.a}: {page_of(it)}",
    "size": lambda it: f"i_size is {it.b}, index {it.a}",
    "translate": lambda it: f"translates index {it.a}",
    "fault": lambda it: f"faults at index {it.a}",
    "slot": lambda it: f"has the fault mutex of index {it.a}",
    "unslot": lambda it: f"leaves the fault mutex of index {it.a}",
    "unreserve": lambda it: f"hugetlb_unreserve_pages, {it.c} freed",
    "clear": lambda it: f"clears a translation of index {it.b}",
    "lock": lambda it: "has the inode lock",
    "unlock": lambda it: "leaves the inode lock",
    "set_size": lambda it: f"i_size = {it.a}",
    "skip": lambda it: "skips a mapping whose vma lock is held",
    "evict": lambda it: f"index {it.a} leaves the page cache, pfn {it.b}",
    "batch": lambda it: f"looks up {it.a} pages, the first at {it.b}",
    "restore": lambda it: f"restore_reserve_on_error, restore {it.b}",
    "quota": lambda it: f"used of the quota {it.a:+d}{': refused' if it.c else f', {it.b} now'}",
    "grow": lambda it: f"the pool grows by pfn {it.a} to {it.b} pages",
    "shrink": lambda it: f"a resize to {it.a} leaves {it.b} pages",
    "surplus": lambda it: f"pfn {it.a} is free, and leaves the pool of {it.c}",
    "resized": lambda it: f"of {it.b} pages {it.c} are over the size",
    "dead": lambda it: f"task {it.about} has ended",
    "last_reserved": lambda it: f"the highest reserved index of the tail: {'none' if it.a < 0 else it.a}",
}


def account(placement: Placement, goes_on: bool = False) -> Iterator[str]:
    """The lines of the account, up to where Linux leaves the machine; where it goes on, Linux's alone behind that."""
    rows: dict[int, list[str]] = {}
    for row in placement.rows:
        rows.setdefault(row.event, []).append(f"{row.line}: {row.outcome}")
    left = iter([f"   Linux leaves the machine: {placement.fault}"] if placement.fault else [])
    yield f"{placement.header}; Linux's task and event, with its free and reserve counts behind it | rows of the machine"
    for event in placement.run:
        if placement.fault is not None and event.number > placement.event.number:
            yield from left
            if not goes_on:
                return
        racer = placement.racers.get(event.thread)
        if event.kind in WORDS and (racer is not None or event.kind in OF_ANY_THREAD):
            yield line_of(placement, event, racer.number if racer else None, rows)
    yield from left


def line_of(placement: Placement, event: Event, task: int | None, rows: dict[int, list[str]]) -> str:
    made = "; ".join(rows.get(event.number, []))
    number = event.number - placement.run[0].number
    return f"{number:5}  {task or '-'}  {WORDS[event.kind](event):<52} {event.free:3} {event.resv:3}  | {made}".rstrip()
