"""Events are made."""
from __future__ import annotations

import ctypes
from typing import Iterable

from hugepool import _library
from hugepool._errors import NoSuch
from hugepool._words import NAMED, Event, EventKind, Op, packed

_OPS = {it.name.lower(): it for it in Op}
_made = Event.from_buffer_copy
_new = Event.__new__


def begin(task: int, op: str | Op, *numbers: int) -> Event:
    """A task begins a call: begin(1, "map", 0, 0, 4), with the numbers of a trace's line."""
    call = op if isinstance(op, Op) else _OPS.get(op)
    if call is None:
        raise NoSuch(f"{op} is not a call")
    names = NAMED[call]
    if len(names) != len(numbers):
        raise NoSuch(f"{call.name.lower()} names {len(names)} numbers: {', '.join(names)}")
    return _made(packed(EventKind.BEGIN, task, call, **dict(zip(names, numbers))))


def step(task: int) -> Event:
    """Its call makes one step, and gets what memory it wants."""
    return _made(packed(1, task))


def deny(task: int) -> Event:
    """The same, but what memory the step wants is refused."""
    return _made(packed(2, task))


def kill(task: int) -> Event:
    """The task is killed."""
    return _made(packed(3, task))


def resize(frames: int) -> Event:
    """The pool is to have so many frames."""
    return _made(packed(4, 0, len=frames))


def parse(line: str) -> Event:
    """The event of a trace's line, which stands here as traces have it, without its end."""
    event = _new(Event)
    try:
        text = line.encode()
    except AttributeError:
        raise TypeError(f"a line is str, and not {type(line).__name__}") from None
    if _library.read_event(text, len(text), event):
        raise NoSuch(f"not an event: {line!r}")
    return event


def events(items: Iterable[Event]) -> ctypes.Array[Event]:
    """An array of events, which `Pool.run` takes as it is."""
    made = list(items)
    for it in made:
        if not isinstance(it, Event):
            raise TypeError(f"not an Event: {it!r}")
    return (Event * len(made))(*made)
