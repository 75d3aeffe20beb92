"""Searches: small traces, random runs and all schedules."""
from __future__ import annotations

from contextlib import suppress
from ctypes import Structure, byref, c_uint32
from dataclasses import dataclass
from operator import index
from threading import Thread, current_thread, main_thread
from time import monotonic
from typing import Callable, Iterable, TypeVar

from hugepool import _library
from hugepool._errors import BAD_CONDITION, LIMIT_REACHED, NONE_MEETS, OK, BadCondition, LimitReached, NoSuch
from hugepool._traces import bytes_of, put, refuse
from hugepool._words import Bounds, Hunt

# no trace has more bytes; a room takes no memory until it is written to
_ROOM = 1 << 26
# Between two calls of the library Python hears signals: so many random runs are made in one, fewer where they take more seconds than that
_SLICE, _SECONDS = 1 << 12, 0.05
# a search of so many states, or of so many bytes of a trace, is over in a moment; a longer one has a thread of its own
_FEW_STATES, _FEW_BYTES = 1 << 10, 1 << 10
_SEEDS = 1 << 64
_Told = TypeVar("_Told")


@dataclass(frozen=True)
class Found:
    """A run that `find` found: its trace, its number, counted from 0, and the seed of which it is run 0."""

    trace: str
    run: int
    seed: int


def _text(conditions: str | Iterable[str]) -> str:
    """Conditions as a text, a line for each."""
    if isinstance(conditions, str):
        return conditions
    lines = list(conditions)
    for number, it in enumerate(lines, 1):
        if not isinstance(it, str):
            raise TypeError(f"a condition is str, and not {type(it).__name__}")
        if "\n" in it:  # (which would be two lines)
            raise BadCondition(number, it)
    return "".join(f"{it}\n" for it in lines)


def _number(name: str, value: int, end: int = 1 << 32) -> int:
    """A number of a search, which fits its field."""
    number = index(value)
    if not 0 <= number < end:
        raise NoSuch(f"no search has {name} {number}")
    return number


def _aside(call: Callable[[], _Told]) -> _Told:
    """What a call returns that is made in a thread of its own. Python hears signals in the main thread alone, and not in a call of the
    library; so that one waits, and an interrupt ends the wait. The library can't be stopped: there the call goes on until it is done."""
    told: list[_Told] = []
    raised: list[BaseException] = []

    def make() -> None:
        try:
            told.append(call())
        except BaseException as why:
            raised.append(why)

    if current_thread() is not main_thread():
        return call()
    thread = Thread(target=make, daemon=True)
    try:
        thread.start()
    except RuntimeError:  # (there is no thread to be had, as when Python ends)
        return call()
    thread.join()
    if raised:
        raise raised[0]
    return told[0]


def _search(export: Callable[..., int], text: str | bytes, conditions: str, words: Structure | None = None) -> tuple[str | None, int]:
    """The text that a search finds, or None if nothing meets the conditions, and the number that it tells besides."""
    data, asked, line, number = bytes_of(text), conditions.encode(), c_uint32(), c_uint32()
    given, more = ((), ()) if words is None else ((byref(words),), (byref(number),))
    code, told = put(lambda *it: export(data, len(data), asked, len(asked), *given, *it), _ROOM, byref(line), *more)
    if code == BAD_CONDITION:
        raise BadCondition(line.value, conditions.split("\n")[line.value - 1] if line.value else "")
    if code == LIMIT_REACHED:
        raise LimitReached(number.value)
    if code not in (OK, NONE_MEETS):
        refuse(data, code, line.value)
    return told if code == OK else None, number.value


def minimize(trace: str | bytes, conditions: str | Iterable[str]) -> str | None:
    """A small trace of those to which the trace can be cut, by dropping events and lowering numbers, and that still meet the conditions. None
    if the trace itself doesn't meet them."""
    data, text = bytes_of(trace), _text(conditions)

    def search() -> str | None:
        return _search(_library.minimize, data, text)[0]

    return search() if len(data) <= _FEW_BYTES else _aside(search)


def find(
    script: str | bytes, conditions: str | Iterable[str], *, seed: int = 1, limit: int = 65_536, deny: int = 0, kill: int = 0
) -> Found | None:
    """The first of so many random runs of the script that meets the conditions, or None if none of them does. Run k goes by the generator
    that is seeded with seed + k; deny and kill are chances in 1000 that an allocation fails, and that a turn kills its task."""
    text, first, end = _text(conditions), _number("seed", seed, _SEEDS), _number("limit", limit)
    hunt = Hunt(deny=_number("deny", deny), kill=_number("kill", kill))
    done, size = 0, 1
    while True:
        hunt.seed, hunt.limit = (first + done) % _SEEDS, min(size, _SLICE, end - done)
        began = monotonic()
        trace, run = _search(_library.find, script, text, hunt)
        if trace is not None:
            return Found(trace, done + run, (first + done + run) % _SEEDS)
        done += hunt.limit
        if done == end:
            return None
        if monotonic() - began < _SECONDS / 2:
            size = 2 * hunt.limit


def _bounds(**numbers: int) -> Bounds:
    return Bounds(**{name: _number(name, value) for name, value in numbers.items()})


def find_every(
    script: str | bytes, conditions: str | Iterable[str], *, denials: int = 0, kills: int = 0, states: int = 1_000_000
) -> str | None:
    """The trace of a shortest of all schedules of the script that meet the conditions, or None if no schedule does. In a schedule so many
    allocations fail at most, and so many tasks are killed. `LimitReached` if more states than that, of some 500 bytes each, had to be kept."""
    data, text, bounds = bytes_of(script), _text(conditions), _bounds(denials=denials, kills=kills, states=states)

    def search(states: int) -> str | None:
        return _search(_library.find_every, data, text, Bounds(bounds.denials, bounds.kills, states))[0]

    if bounds.states <= _FEW_STATES:
        return search(bounds.states)
    with suppress(LimitReached):
        return search(_FEW_STATES)
    return _aside(lambda: search(bounds.states))
