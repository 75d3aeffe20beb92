"""The shared library: where it is, and its calls with the types of their parameters."""
from __future__ import annotations

import ctypes
import os
from ctypes import POINTER, c_bool, c_char, c_char_p, c_size_t, c_uint32
from pathlib import Path
from typing import Callable

from hugepool._words import Acquired, Bounds, Config, Event, FileNumbers, Frame, Handle, Hunt, Outcome, PoolNumbers, TaskNumbers

NAME = "libhugepool.so.1"


def _path() -> str:
    """HUGEPOOL_LIBRARY, the library of a wheel, which lies beside this file, or the name by which a system's is found."""
    own = Path(__file__).with_name(NAME)
    return os.environ.get("HUGEPOOL_LIBRARY") or (str(own) if own.exists() else NAME)


# A call that is over in a microsecond keeps the interpreter's lock, which costs more to give up and to wait for.
_short, _long = ctypes.PyDLL(_path()), ctypes.CDLL(_path())
_HANDLE, _SIZE, _LINE = POINTER(Handle), POINTER(c_size_t), POINTER(c_uint32)


def _call(library: ctypes.CDLL, name: str, *kinds: object) -> Callable[..., int]:
    try:
        call = library[f"hugepool_{name}"]  # (each subscript is a function of its own)
    except AttributeError:
        raise ImportError(f"{_path()} has no hugepool_{name}: it is older than this module") from None
    call.argtypes, call.restype = kinds, c_uint32  # type: ignore[assignment]
    return call


open_pool = _call(_short, "open", _HANDLE, POINTER(Config))
copy_pool = _call(_short, "copy", _HANDLE, _HANDLE)
close_pool = _call(_short, "close", _HANDLE)
close_pool.restype = None  # type: ignore[attr-defined]
event = _call(_short, "event", _HANDLE, POINTER(Event), POINTER(Outcome))
events = _call(_long, "events", _HANDLE, POINTER(Event), c_size_t, POINTER(Outcome), c_size_t, _SIZE)
held_back = _call(_short, "held_back", _HANDLE, POINTER(Event), POINTER(c_bool), POINTER(Outcome))
pool_numbers = _call(_short, "pool_numbers", _HANDLE, POINTER(PoolNumbers))
file_numbers = _call(_short, "file_numbers", _HANDLE, c_uint32, POINTER(FileNumbers))
task_numbers = _call(_short, "task_numbers", _HANDLE, c_uint32, POINTER(TaskNumbers))
acquires = _call(_short, "acquires", _HANDLE, c_uint32, POINTER(Acquired))
translate = _call(_short, "translate", _HANDLE, c_uint32, c_uint32, POINTER(Frame))
audit = _call(_long, "audit", _HANDLE, _LINE)
read_event = _call(_short, "read_event", c_char_p, c_size_t, POINTER(Event))
_TEXT = (c_char_p, c_size_t, POINTER(c_char), c_size_t, _SIZE, _LINE)
replay, explain, draw = (_call(_long, it, *_TEXT) for it in ("replay", "explain", "draw"))
explain_rows, explain_json = (_call(_long, it, c_char_p, c_size_t, c_uint32, c_uint32, *_TEXT[2:]) for it in ("explain_rows", "explain_json"))
format_trace = _call(_long, "format", *_TEXT[:5], _SIZE)
format_reason = _call(_long, "format_reason", *_TEXT[:5])
check = _call(_long, "check", c_char_p, c_size_t, _LINE, _LINE)
reason = _call(_long, "reason", c_char_p, c_size_t, c_uint32, POINTER(c_char), c_size_t, _SIZE)
_ASKED = (c_char_p, c_size_t, c_char_p, c_size_t)
minimize = _call(_long, "minimize", *_ASKED, *_TEXT[2:])
find = _call(_long, "find", *_ASKED, POINTER(Hunt), *_TEXT[2:], _LINE)
find_every = _call(_long, "find_every", *_ASKED, POINTER(Bounds), *_TEXT[2:], _LINE)
_version = _call(_short, "version")


def library_version() -> tuple[int, int, int]:
    """The version of the library that was found; that of this module is __version__."""
    first, rest = divmod(_version(), 1_000_000)
    return first, *divmod(rest, 1_000)
