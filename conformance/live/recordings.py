"""Recordings of racing calls: the events that the instrumented kernel logged, read from its file.

An event has 48 bytes (kernel/hplive.h): its kind, the thread, what it is about, three numbers of its own, and the kernel's free
and reserve counts when it was logged.
"""
from __future__ import annotations

import gzip
import lzma
import struct
from pathlib import Path
from typing import Iterator, NamedTuple

FORM = struct.Struct("<IIQqqqii")
KINDS = {
    1: "recording", 2: "end", 3: "task", 4: "file", 5: "rest", 6: "rest_more", 7: "begin", 8: "return", 9: "access",
    # the reserve map and the counts
    20: "change", 21: "change_pending", 22: "change_refused", 23: "commit", 24: "abort", 25: "delete", 26: "account", 27: "take", 28: "free",
    # the page cache, the size and the translations
    29: "place", 30: "place_refused", 31: "look", 32: "size", 33: "translate", 34: "backout", 35: "fault", 36: "slot", 37: "unslot",
    38: "present", 39: "unreserve", 40: "clear", 41: "lock", 42: "unlock", 43: "set_size", 44: "skip", 45: "evict", 46: "batch",
    47: "delete_refused", 48: "restore", 49: "enter", 50: "unused",
    # the quota, the pool's size, and a task that is gone
    51: "quota", 52: "grow", 53: "shrink", 54: "surplus", 55: "resized", 56: "dead",
    # a repaired truncation: the highest index of its tail that is reserved
    57: "last_reserved",
}
CODES = {kind: code for code, kind in KINDS.items()}
# the calls by their letters in a workload and in the log
CALLS = {"m": "map", "n": "mapn", "u": "unmap", "l": "load", "s": "store", "a": "alloc", "k": "allock", "p": "punch", "t": "trunc", "x": "exit"}
# how the logs' numbers for "no page" and "to the end" are told apart from small ones
NONE, FAR = -1, 2**40
UNSIGNED = 2**64 - 1


class Event(NamedTuple):
    """One event. `number` is its place in the file; `about` is an inode, a reserve map or an address space."""

    number: int
    kind: str
    thread: int
    about: int
    a: int
    b: int
    c: int
    free: int
    resv: int


Recording = list[Event]


def contents(file: Path) -> bytes:
    opened = {".gz": gzip.open, ".xz": lzma.open}.get(file.suffix, open)
    try:
        with opened(file, "rb") as it:
            return it.read()
    except (lzma.LZMAError, EOFError) as why:
        raise OSError(None, f"it can't be unpacked: {why}", str(file)) from why


def recordings(file: Path) -> Iterator[Recording]:
    """The recordings of a file, each from its first event to its last. One without its end is left out."""
    data = contents(file)
    run: Recording | None = None
    for number, fields in enumerate(FORM.iter_unpack(data[: len(data) // FORM.size * FORM.size])):
        event = Event(number, KINDS.get(fields[0], "unknown"), *fields[1:])
        if event.kind == "recording":
            run = []
        if run is not None:
            run.append(event)
        if event.kind == "end" and run is not None:
            yield run
            run = None


def packed(run: Recording) -> bytes:
    """A recording as the bytes of a file."""
    return b"".join(FORM.pack(CODES[it.kind], *it[2:]) for it in run)


def workload_file(file: Path) -> Path | None:
    """The workload of a recording, where it stands beside it or in the folder workloads of a folder around it."""
    name = f"{file.name.split('.')[0]}.in"
    around = [it / "workloads" / name for it in file.resolve().parents[1:3]]
    return next((it for it in (file.parent / name, *around) if it.is_file()), None)


def workload_of(file: Path) -> dict[int, str]:
    """Of each seed the line of the workload that it belongs to."""
    found = workload_file(file)
    lines = [it.split() for it in found.read_text(encoding="utf-8").splitlines()] if found else []
    return {int(it[2]) + k: it[1] for it in lines if it[:1] in (["rec"], ["script"]) for k in range(int(it[3]))}


def error_at_rest(run: Recording) -> int:
    """How far the kernel's reserve count is from the reserved indices without a page, once all calls have ended."""
    rests = [it for it in run if it.kind == "rest"]
    return rests[-1].resv - sum((it.b >> 16) - it.c for it in rests) if rests else 0
