"""The structs of hugepool.h, and the enums of its numbers."""
from __future__ import annotations

import ctypes
import struct
from ctypes import c_bool, c_int64, c_size_t, c_uint32, c_uint64, c_void_p
from enum import IntEnum
from operator import attrgetter, index
from typing import ClassVar, TypeVar

from hugepool._errors import NoSuch


class EventKind(IntEnum):
    BEGIN, STEP, DENY, KILL, RESIZE = range(5)


class Op(IntEnum):
    """A call, by the word that traces have for it."""

    MAP, MAPN, UNMAP, LOAD, STORE, ALLOC, ALLOCK, PUNCH, TRUNC, EXIT = range(10)


class OutcomeKind(IntEnum):
    BEGUN, MOVED, BLOCKED, ENDED, MARKED, RESIZED, REFUSED = range(7)


class Phase(IntEnum):
    """Where a call stands."""

    START, LOOK, WANT, LOCKED, MISSING, CHANGED, ABORT, TAKEN, SETTLE = range(1, 10)
    COMMITTED, RESTORE, FOUND, LEAVE, ROOM, ACCOUNTED, ENTER, HEAD, UNSLOT = range(10, 19)
    EXTEND, UNMAP, EVICT, DELETE, FREE, SIZE, TAIL, CLEAR, DROP = range(19, 28)


class Answer(IntEnum):
    """What a call ends with."""

    MAPPED, WORD, DONE, SEGV, BEYOND, NOFRAME, NOQUOTA = range(1, 8)
    NOMEMORY, INTERRUPTED, KILLED, BADFILE, BADRANGE, NOTMAPPED, NOADDRESS = range(8, 15)


class Refusal(IntEnum):
    """Why an event was refused."""

    NOTALIVE, INCALL, IDLE, BADSIZE = range(1, 5)


class Life(IntEnum):
    ALIVE, KILLED, DEAD = range(3)


class AcquiredKind(IntEnum):
    """What the next step of a call has to take."""

    NOTHING, LOCK, SLOT = range(3)


class Finding(IntEnum):
    """What an audit finds. Anything but NOTHING says that the pool's memory was damaged."""

    NOTHING, SHAPE, AGREE, PLACE, SIZE, COUNT, USED = range(7)


class Words(ctypes.Structure):
    """Numbers that don't change: they are compared and hashed by what they say. (Bytes behind the last field say nothing.)"""

    _extent: ClassVar[int]  # bytes up to the end of the last field

    def __eq__(self, other: object) -> bool:
        return type(other) is type(self) and bytes(self)[: self._extent] == bytes(other)[: self._extent]  # type: ignore[call-overload]

    def __hash__(self) -> int:
        return hash(bytes(self)[: self._extent])

    def __repr__(self) -> str:
        numbers = (f"{name.removeprefix('_')}={getattr(self, name)}" for name, *_ in self._fields_)
        return f"{type(self).__name__}({', '.join(numbers)})"


_W = TypeVar("_W", bound=type[Words])


def _readable(words: _W) -> _W:
    """Has each field _name read as name, where the class doesn't say otherwise."""
    last = getattr(words, words._fields_[-1][0])
    words._extent = last.offset + last.size
    for name, *_ in words._fields_:
        if not hasattr(words, name.removeprefix("_")):
            setattr(words, name.removeprefix("_"), property(attrgetter(name)))
    return words


def _numbers(names: str, kind: type = c_uint32) -> list[tuple[str, type]]:
    return [(f"_{name}", kind) for name in names.split()]


# what a call names, in the order of a trace's line
_RANGE = ("file", "from_", "len")
NAMED = {
    Op.MAP: _RANGE, Op.MAPN: _RANGE, Op.UNMAP: ("page",), Op.LOAD: ("page",), Op.STORE: ("page", "word"),
    Op.ALLOC: _RANGE, Op.ALLOCK: _RANGE, Op.PUNCH: _RANGE, Op.TRUNC: ("file", "len"), Op.EXIT: (),
}
_packed = struct.Struct("=Q7I4x").pack


def packed(kind: int, task: int, op: int = 0, file: int = 0, from_: int = 0, len: int = 0, page: int = 0, word: int = 0) -> bytes:
    """The bytes of an event. A number that doesn't fit its field is no number of an event."""
    numbers = (word, kind, task, op, file, from_, len, page)
    try:
        return _packed(*numbers)
    except struct.error:
        for it in numbers:
            index(it)  # (what is no whole number raises what Python raises for it)
        raise NoSuch(f"no event has these numbers: {', '.join(map(str, numbers))}") from None


@_readable
class Event(Words):
    """What happens to a pool: `begin`, `step`, `deny`, `kill`, `resize` and `parse` make one. str() of it is a line of a trace."""

    _fields_ = [("_word", c_uint64), *_numbers("kind task op file from_ len page")]
    word: int
    task: int
    file: int
    from_: int
    len: int
    page: int

    def __init__(
        self, kind: int = 0, task: int = 0, op: int = 0, file: int = 0, from_: int = 0, len: int = 0, page: int = 0, word: int = 0
    ) -> None:
        ctypes.memmove(ctypes.byref(self), packed(kind, task, op, file, from_, len, page, word), ctypes.sizeof(self))

    @property
    def kind(self) -> EventKind:
        return EventKind(self._kind)

    @property
    def op(self) -> Op:
        return Op(self._op)

    def __str__(self) -> str:
        kind = self.kind.name.lower()
        if self.kind == EventKind.RESIZE:
            return f"{kind} {self.len}"
        if self.kind != EventKind.BEGIN:
            return f"{kind} {self.task}"
        return " ".join([kind, str(self.task), self.op.name.lower(), *(str(getattr(self, it)) for it in NAMED[self.op])])


@_readable
class Outcome(Words):
    """What came of an event. What doesn't belong to its kind, or to its answer, is 0 or None. str() of it is a line of a replay."""

    _fields_ = [("_word", c_uint64), *_numbers("kind phase task answer page frames refusal")]
    word: int
    task: int
    page: int
    frames: int

    @property
    def kind(self) -> OutcomeKind:
        return OutcomeKind(self._kind)

    @property
    def phase(self) -> Phase | None:
        return Phase(self._phase) if self._phase else None

    @property
    def answer(self) -> Answer | None:
        return Answer(self._answer) if self._answer else None

    @property
    def refusal(self) -> Refusal | None:
        return Refusal(self._refusal) if self._refusal else None

    @property
    def is_ended(self) -> bool:
        return bool(self._kind == 3)

    @property
    def _behind(self) -> tuple[object, ...]:
        """What stands behind the first word of its line."""
        if self.answer:
            numbers = {Answer.MAPPED: (self.page,), Answer.WORD: (self.word,)}
            return (self.answer.name.lower(), *numbers.get(self.answer, ()))
        if named := self.phase or self.refusal:
            return (named.name.lower(),)
        counted = {OutcomeKind.BLOCKED: (self.task,), OutcomeKind.RESIZED: (self.frames,)}
        return counted.get(self.kind, ())

    def __str__(self) -> str:
        return " ".join([self.kind.name.lower(), *map(str, self._behind)])


@_readable
class PoolNumbers(Words):
    """Frames that aren't retired, and free ones; the reserve count, the used count, and what calls in flight owe to each; the quota of
    used pages, where there is one; calls in flight, files and tasks."""

    _fields_ = [*_numbers("owed used_owed", c_int64), *_numbers("frames free resv used quota calls files tasks"), ("_has_quota", c_bool)]
    owed: int
    used_owed: int
    frames: int
    free: int
    resv: int
    used: int
    calls: int
    files: int
    tasks: int
    has_quota: bool

    @property
    def quota(self) -> int | None:
        return self._quota if self._has_quota else None


@_readable
class FileNumbers(Words):
    """The regions of a file's reserve map, its pending changes, spare descriptors; its size, its reserved indices, its pages."""

    _fields_ = [*_numbers("regions changes spare", c_size_t), *_numbers("size reserved pages")]
    regions: int
    changes: int
    spare: int
    size: int
    reserved: int
    pages: int


@_readable
class TaskNumbers(Words):
    """A task's mappings and translated pages; how it lives; where its call stands, if one is in flight; and, where it is blocked, who
    holds what the call's next step wants."""

    _fields_ = [*_numbers("mappings entries", c_size_t), *_numbers("life phase holder"), ("_is_blocked", c_bool)]
    mappings: int
    entries: int
    is_blocked: bool

    @property
    def life(self) -> Life:
        return Life(self._life)

    @property
    def phase(self) -> Phase | None:
        return Phase(self._phase) if self._phase else None

    @property
    def holder(self) -> int | None:
        return self._holder if self._is_blocked else None


@_readable
class Acquired(Words):
    """What the next step of a call has to take: nothing, the lock of a file, or the slot of an index of a file."""

    _fields_ = _numbers("kind file index")
    file: int
    index: int

    @property
    def kind(self) -> AcquiredKind:
        return AcquiredKind(self._kind)


class Config(ctypes.Structure):
    _fields_ = [*_numbers("frames files slots tasks quota"), ("_has_quota", c_bool)]


class Handle(ctypes.Structure):
    _fields_ = [("core", c_void_p), ("is_open", c_bool), ("was_held_back", c_bool)]


class Hunt(ctypes.Structure):
    _fields_ = [("seed", c_uint64), ("limit", c_uint32), ("deny", c_uint32), ("kill", c_uint32)]


class Bounds(ctypes.Structure):
    _fields_ = [("denials", c_uint32), ("kills", c_uint32), ("states", c_uint32)]


class Frame(ctypes.Structure):
    _fields_ = [("frame", c_uint32), ("is_there", c_bool)]
