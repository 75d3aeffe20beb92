"""How a test of this folder begins and ends: the machine that it asks, what its parts tried, and the line that counts."""
from __future__ import annotations

import sys
from typing import Callable, Iterable, Iterator

from kernel import machine

# yields what it tried, each time with True or with what was found instead
Part = Callable[[], Iterable[tuple[str, object]]]


def machine_of(name: str) -> machine.Machine:
    """What answers for the machine; without it the test of this name ends as failed."""
    try:
        return machine.machine(None)
    except machine.Problem as why:
        sys.exit(f"  {why}\n{name}: 0 passed, 1 failed")


def all_of(part: Part) -> Iterator[tuple[str, object]]:
    """What a part tries; one that can't go on is a fault."""
    try:
        yield from part()
    except Exception as why:
        yield part.__name__, f"{type(why).__name__}: {why}"


def ended(name: str, parts: Iterable[Part], more: str = "") -> int:
    """Prints what failed, and how many passed and failed in all. Returns the status to end with."""
    tried = [it for part in parts for it in all_of(part)]
    wrong = [(what, found) for what, found in tried if found is not True]
    print("".join(f"  {what}: {found}\n" for what, found in wrong), end="")
    print(f"{name}: {len(tried) - len(wrong)} passed, {len(wrong)} failed{more}")
    return 1 if wrong else 0
