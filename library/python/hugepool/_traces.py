"""Whole traces as texts."""
from __future__ import annotations

from ctypes import Array, byref, c_char, c_size_t, c_uint32
from mmap import MAP_ANONYMOUS, MAP_PRIVATE, mmap
from operator import index
from typing import Callable

from hugepool import _library
from hugepool._errors import BAD_HEADER, BAD_LINE, NO_MEMORY, OK, TOO_SMALL, BadTrace, NoSuch, error_of


def bytes_of(trace: str | bytes) -> bytes:
    if isinstance(trace, str):
        return trace.encode()
    if isinstance(trace, (bytes, bytearray, memoryview)):
        return bytes(trace)
    raise TypeError(f"a trace is str or bytes, and not {type(trace).__name__}")


# An explanation or a picture has some 60 bytes for each of its trace. What is made of one in a room that is too small is made once more;
# a room that is too large takes no memory, until it is written to.
_LEAST, _TIMES, _MOST = 1 << 16, 80, 1 << 28
# behind all lines
_LAST = (1 << 32) - 1


def _roomy(size: int) -> Array[c_char]:
    try:
        return (c_char * size).from_buffer(mmap(-1, size, MAP_PRIVATE | MAP_ANONYMOUS))
    except OSError as why:
        raise error_of(NO_MEMORY) from why


def put(call: Callable[..., int], room: int, *words: object) -> tuple[int, str]:
    """What is put into a room that is large enough, which is read there."""
    needed = c_size_t()
    while True:
        out = _roomy(room)
        code = call(out, room, byref(needed), *words)
        if code != TOO_SMALL:
            return code, str(memoryview(out)[: needed.value], "utf-8") if code == OK else ""
        room = needed.value


def refuse(data: bytes, code: int, line: int) -> None:
    """Raises what a code says of a trace."""
    if code not in (BAD_LINE, BAD_HEADER):
        raise error_of(code)
    told, why = put(lambda *it: _library.reason(data, len(data), line, *it), _LEAST)
    raise BadTrace(line, why if told == OK else "nothing more can be told")


def _number(line: int) -> int:
    """The number of a line, which has 32 bits."""
    number = index(line)
    if not 0 <= number <= _LAST:
        raise NoSuch(f"no line has the number {number}")
    return number


def _text(export: Callable[..., int], trace: str | bytes, *numbers: int) -> str:
    data, line, lines = bytes_of(trace), c_uint32(), [_number(it) for it in numbers]
    room = min(_LEAST + _TIMES * len(data), _MOST)
    code, text = put(lambda *it: export(data, len(data), *lines, *it), room, byref(line))
    if code:
        refuse(data, code, line.value)
    return text


def replay(trace: str | bytes) -> str:
    """A line for each outcome of the trace, and then the state."""
    return _text(_library.replay, trace)


def explain(trace: str | bytes) -> str:
    """A row of words for each event of the trace, and then the state."""
    return _text(_library.explain, trace)


def explain_rows(trace: str | bytes, first: int = 2, last: int = _LAST) -> str:
    """The rows of the trace's lines from first to last, all in one column and with Linux's functions, and then the state behind the last."""
    return _text(_library.explain_rows, trace, first, last)


def explain_json(trace: str | bytes, first: int = 2, last: int = _LAST) -> str:
    """Rows as lines of JSON: an object of the pool, one of each event of these lines, and one of the state behind the last."""
    return _text(_library.explain_json, trace, first, last)


def format(loose: str | bytes) -> str:
    """The trace that a text in the loose form asks for, which has comments, blank lines, and steps that are repeated."""
    data, line = bytes_of(loose), c_size_t()
    code, text = put(lambda *it: _library.format_trace(data, len(data), *it), _LEAST, byref(line))
    if code == BAD_LINE:
        raise BadTrace(line.value, put(lambda *it: _library.format_reason(data, len(data), *it), _LEAST)[1])
    if code:
        raise error_of(code)
    return text


def draw(trace: str | bytes) -> str:
    """A picture of the trace, an SVG."""
    return _text(_library.draw, trace)


def check(trace: str | bytes) -> int:
    """How many events the trace has."""
    data, count, line = bytes_of(trace), c_uint32(), c_uint32()
    if code := _library.check(data, len(data), byref(count), byref(line)):
        refuse(data, code, line.value)
    return count.value
