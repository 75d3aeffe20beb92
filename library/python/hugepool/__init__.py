r"""A pool of huge pages as Linux's hugetlbfs keeps it: the proved library libhugepool, from Python.

    import hugepool

    with hugepool.Pool(frames=4, files=1, slots=2, tasks=2) as pool:
        print(pool.event(hugepool.begin(1, "map", 0, 0, 4)))
        while not pool.event(hugepool.step(1)).is_ended:
            pass
        print(pool.numbers().resv)

Events, outcomes and numbers are structs of the library, which don't change and can be compared, hashed and printed; str() of an event or
an outcome is a line of a trace, or of what a replay writes. Numbers that are one of a list are enums: `Phase`, `Answer`, .. A number that
doesn't fit (there is no task -1) raises `NoSuch`, which is a ValueError.

`minimize`, `find` and `find_every` search traces and schedules by conditions: a text, or a list, with a line for each, as
the options of the program `hugepool find` without their dashes. They let other threads run.

    found = hugepool.find("pool 4 1 4 2\nbegin 1 map 0 0 4\nbegin 2 map 0 0 4\n", ["blocked 2", "final resv>0"])
    print(found.run, found.trace)

An event by itself costs about a microsecond, nearly all of it Python's own; `Pool.run` makes many in one call.

The library is the one that HUGEPOOL_LIBRARY names, that of a wheel, or the system's libhugepool.so.1.
"""
from __future__ import annotations

from hugepool._errors import BadCondition, BadTrace, Closed, Error, InFlight, LimitReached, NoSuch, OutOfMemory
from hugepool._events import begin, deny, events, kill, parse, resize, step
from hugepool._library import library_version
from hugepool._pool import Pool
from hugepool._searches import Found, find, find_every, minimize
from hugepool._traces import check, draw, explain, explain_json, explain_rows, format, replay
from hugepool._words import (
    Acquired, AcquiredKind, Answer, Event, EventKind, FileNumbers, Finding, Life, Op, Outcome, OutcomeKind, Phase, PoolNumbers, Refusal,
    TaskNumbers,
)

__version__ = "0.1.0"
__all__ = [
    "Acquired", "AcquiredKind", "Answer", "BadCondition", "BadTrace", "Closed", "Error", "Event", "EventKind", "FileNumbers", "Finding", "Found",
    "InFlight", "Life", "LimitReached", "NoSuch", "Op", "OutOfMemory", "Outcome", "OutcomeKind", "Phase", "Pool", "PoolNumbers", "Refusal",
    "TaskNumbers", "begin", "check", "deny", "draw", "events", "explain", "explain_json", "explain_rows", "find", "find_every",
    "format", "kill", "library_version", "minimize", "parse", "replay", "resize", "step",
]
