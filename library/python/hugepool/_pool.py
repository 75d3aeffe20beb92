"""Pools."""
from __future__ import annotations

import ctypes
from ctypes import byref, c_bool, c_size_t, c_uint32
from operator import index
from threading import RLock
from typing import Callable, ContextManager, Iterable

from hugepool import _library
from hugepool._errors import NoSuch, error_of
from hugepool._events import events
from hugepool._words import Acquired, AcquiredKind, Config, Event, FileNumbers, Finding, Frame, Handle, Outcome, PoolNumbers, TaskNumbers


def _short(number: int) -> int:
    """A number of 32 bits: no file, task or size has another."""
    value = index(number)
    if not 0 <= value < 1 << 32:
        raise NoSuch(f"no config, event, file or task has the number {value}")
    return value


def _exact(event: Event) -> Event:
    if not isinstance(event, Event):
        raise TypeError(f"not an Event: {event!r}")
    return event


class Pool:
    """A pool, to which nothing has happened yet. It is closed at the end of a `with` block, or once nobody has it any more.

    A pool may be used by several threads: while one is in a call, others wait for it. Which of them goes first, nobody says."""

    _close: Callable[..., int] = staticmethod(_library.close_pool)
    _handle: Handle
    _lock: ContextManager[object]

    def __new__(cls, *_: object, **__: object) -> Pool:
        """A closed pool: what can be closed is there, however the opening ends."""
        pool = super().__new__(cls)
        pool._handle, pool._lock = Handle(), RLock()
        return pool

    def __init__(self, frames: int, files: int, slots: int, tasks: int, quota: int | None = None) -> None:
        sizes = [_short(it) for it in (frames, files, slots, tasks, 0 if quota is None else quota)]
        self._done(_library.open_pool, Config(*sizes, quota is not None))

    def _done(self, call: Callable[..., int], *words: object) -> None:
        """Makes a call of the library on the pool, while no other thread does."""
        with self._lock:
            code = call(self._handle, *words)
        if code:
            raise error_of(code)

    def __enter__(self) -> Pool:
        return self

    def __exit__(self, *_: object) -> None:
        self.close()

    def __del__(self) -> None:
        self.close()

    def close(self) -> None:
        """Gives the pool's memory back. To close it again does nothing."""
        with self._lock:
            self._close(self._handle)

    def copy(self) -> Pool:
        """A pool of its own in the same state, where no call is in flight."""
        other = Pool.__new__(Pool)
        self._done(_library.copy_pool, other._handle)
        return other

    __copy__ = copy

    def __deepcopy__(self, _: object) -> Pool:
        return self.copy()

    def __reduce__(self) -> str:
        raise TypeError("a pool can't be pickled; its events can, as lines of a trace")

    def event(self, event: Event) -> Outcome:
        """One event, and what came of it."""
        if not isinstance(event, Event):
            _exact(event)
        outcome = Outcome()
        with self._lock:
            code = _library.event(self._handle, event, outcome)
        if code:
            raise error_of(code)
        return outcome

    def run(self, many: Iterable[Event]) -> ctypes.Array[Outcome]:
        """The outcomes of many events, made in one call. Where one can't happen, those before it have: the error's `done` is how many, and
        its `outcomes` what came of them."""
        items = many if isinstance(many, ctypes.Array) and many._type_ is Event else events(many)
        # (how many there are in memory: a class of somebody else may say another length)
        count, done = ctypes.sizeof(items) // ctypes.sizeof(Event), c_size_t()
        outcomes = (Outcome * count)()
        with self._lock:
            code = _library.events(self._handle, items, count, outcomes, count, byref(done))
        if code:
            error = error_of(code)
            error.done, error.outcomes = done.value, (Outcome * done.value).from_buffer(outcomes)
            raise error
        return outcomes

    def held_back(self, event: Event) -> Outcome | None:
        """What would come of an event that would change nothing: one that is refused, or blocked."""
        is_held_back, outcome = c_bool(), Outcome()
        self._done(_library.held_back, _exact(event), byref(is_held_back), outcome)
        return outcome if is_held_back.value else None

    def numbers(self) -> PoolNumbers:
        """What the pool holds."""
        numbers = PoolNumbers()
        self._done(_library.pool_numbers, numbers)
        return numbers

    def file(self, file: int) -> FileNumbers:
        """What a file holds; files are numbered from 0."""
        numbers = FileNumbers()
        self._done(_library.file_numbers, _short(file), numbers)
        return numbers

    def task(self, task: int) -> TaskNumbers:
        """What a task holds, and where its call stands; tasks are numbered from 1."""
        numbers = TaskNumbers()
        self._done(_library.task_numbers, _short(task), numbers)
        return numbers

    def acquires(self, task: int) -> Acquired | None:
        """What the next step of the task's call has to take, if anything."""
        acquired = Acquired()
        self._done(_library.acquires, _short(task), acquired)
        return None if acquired.kind == AcquiredKind.NOTHING else acquired

    def translate(self, task: int, page: int) -> int | None:
        """The frame that the task's page is translated to, if it is."""
        frame = Frame()
        self._done(_library.translate, _short(task), _short(page), frame)
        return frame.frame if frame.is_there else None

    def audit(self) -> Finding:
        """Looks at all of the pool. It finds NOTHING, unless the pool's memory was damaged."""
        finding = c_uint32()
        self._done(_library.audit, byref(finding))
        return Finding(finding.value)
