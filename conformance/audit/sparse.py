#!/usr/bin/env python3
"""Dumps an emulated kernel with more memory than this machine has: 100,000 huge pages, each mapped by four processes.

usage: sparse.py --kernel VMLINUZ --dump FILE [--files N] [OPTION ..]    the options are those of scenes.py

Each file has 60 pages that are there, and 64 that are mapped. The guest's memory is a file in memory (memfd). Now and then the guest is
stopped, and what of it is all zero is given back: a hole reads as zero, too. The dump is an ELF file with the same holes.
Status: 0 dumped; 2 it could not.
"""
from __future__ import annotations

import argparse
import ctypes
import errno
import os
import struct
import subprocess
import sys
import tempfile
import threading
import time
from pathlib import Path
from typing import Iterator

from scenes import parser, running
from kernel.audit import elf
from kernel.audit.emulated import Monitor
from kernel.problem import Problem

HUGE, PAGE = 2 << 20, 4 << 10
ZEROES = bytes(HUGE)
# FALLOC_FL_KEEP_SIZE | FALLOC_FL_PUNCH_HOLE
PUNCH = 3
# QEMU's pc: so much of the memory is at address 0, and the rest at 4 GiB
LOW, HIGH = 3 << 30, 4 << 30
EVERY = 4.0


def extents(file: int) -> Iterator[tuple[int, int]]:
    """Where a file has data."""
    at = 0
    while True:
        try:
            at = os.lseek(file, at, os.SEEK_DATA)
        except OSError as why:
            if why.errno == errno.ENXIO:
                return
            raise
        end = os.lseek(file, at, os.SEEK_HOLE)
        yield at, end
        at = end


def pieces(file: int, without: frozenset[int] | set[int] = frozenset()) -> Iterator[tuple[int, bytes]]:
    """The data of a file, in pieces of at most 2 MiB, but of these."""
    for begin, end in extents(file):
        at = begin
        while at < end:
            to = min(end, (at // HUGE + 1) * HUGE)
            if at // HUGE not in without:
                yield at, os.pread(file, to - at, at)
            at = to


def zero_runs(data: bytes) -> Iterator[tuple[int, int]]:
    """Where pages of a piece are all zero: begin and size."""
    if data == ZEROES[: len(data)]:
        yield 0, len(data)
        return
    begin = None
    for at in range(0, len(data) + PAGE, PAGE):
        is_zero = at < len(data) and data[at : at + PAGE] == ZEROES[:PAGE]
        if is_zero and begin is None:
            begin = at
        elif not is_zero and begin is not None:
            yield begin, at - begin
            begin = None


def give_back(file: int, full: set[int]) -> int:
    """Makes holes of what is all zero; how many bytes that was. Pieces that had nothing of it are noted, and not looked at again."""
    libc, given = ctypes.CDLL(None, use_errno=True), 0
    for at, data in pieces(file, full):
        runs = list(zero_runs(data))
        for begin, size in runs:
            if libc.fallocate(file, PUNCH, ctypes.c_long(at + begin), ctypes.c_long(size)):
                raise OSError(ctypes.get_errno(), "fallocate")
            given += size
        if not runs:
            full.add(at // HUGE)
    return given


class Memory:
    """The memory of a machine."""

    def __init__(self, machine: int, monitor: Path) -> None:
        folder = Path(f"/proc/{machine}/fd")
        link = next(it for it in folder.iterdir() if "memfd:memory-backend" in os.readlink(it))
        self.file, self.monitor = os.open(link, os.O_RDWR), Monitor(monitor)
        self.full: set[int] = set()

    def shrink(self) -> None:
        self.monitor.call("stop")
        given = give_back(self.file, self.full)
        self.monitor.call("cont")
        print(f"sparse: {given >> 20} MiB given back", flush=True)


def shrink_while(ended: threading.Event, room: Path, found: list[Memory]) -> None:
    """Gives memory back until the job is done. The machine is the one whose monitor is there."""
    while not ended.wait(EVERY):
        try:
            if not found:
                found.append(Memory(machine_of(room / "monitor"), room / "monitor"))
            found[0].shrink()
        except (OSError, ValueError, StopIteration):
            found.clear()


def machine_of(monitor: Path) -> int:
    """The process of the machine with this monitor."""
    for it in Path("/proc").glob("[0-9]*/cmdline"):
        try:
            if f"unix:{monitor}," in it.read_text(errors="replace"):
                return int(it.parent.name)
        except OSError:
            continue
    raise OSError(f"no machine with the monitor {monitor}")


def write_dump(memory: Memory, room: Path, to: Path) -> None:
    """Writes an ELF file: QEMU's notes and VMCOREINFO, and what of the memory isn't a hole."""
    memory.monitor.call("stop")
    memory.monitor.call("dump-guest-memory", paging=False, protocol=f"file:{room}/notes", begin=0, length=PAGE)
    with (room / "notes").open("rb") as of:
        part = next(it for it in elf.parts(of) if it.kind == elf.PT_NOTE)
        of.seek(part.offset)
        notes = of.read(part.size)
    give_back(memory.file, set())
    notes += next(found for _, data in pieces(memory.file) if (found := elf.vmcoreinfo_in(data)))
    size = os.fstat(memory.file).st_size
    loads = [(HUGE, 0, min(LOW, size)), (HUGE + LOW, HIGH, size - LOW)]
    with to.open("wb") as out:
        out.write(b"\x7fELF\x02\x01\x01" + bytes(9) + struct.pack("<HHIQQQIHHHHHH", 4, 62, 1, 0, 64, 0, 0, 64, 56, 1 + len(loads), 0, 0, 0))
        out.write(struct.pack("<IIQQQQQQ", elf.PT_NOTE, 0, 4096, 0, 0, len(notes), len(notes), 0))
        for offset, physical, length in loads:
            out.write(struct.pack("<IIQQQQQQ", elf.PT_LOAD, 0, offset, 0, physical, length, length, 0))
        out.seek(4096)
        out.write(notes)
        for at, data in pieces(memory.file):
            out.seek(HUGE + at)
            out.write(data)
        out.truncate(HUGE + size)


def main() -> int:
    words = parser()
    words.description = __doc__
    words.add_argument("--files", type=int, default=1667)
    options = words.parse_args()
    pages = options.files * 64
    size = pages * HUGE + (10 << 30)
    options.memory, options.job = f"{size >> 20}M", f"exec scene pages {pages} many {options.files}"
    # (each page is cleared as it is touched, and not as it comes into the pool, too)
    options.append += " init_on_alloc=0"
    options.qemu += f" -object memory-backend-memfd,id=all,size={size >> 20}M,share=on -machine memory-backend=all"
    try:
        with tempfile.TemporaryDirectory(prefix="sparse-") as name:
            dumped(options, Path(name))
    except (Problem, OSError, subprocess.CalledProcessError) as why:
        print(f"sparse: {why}", file=sys.stderr)
        return 2
    return 0


def dumped(options: argparse.Namespace, room: Path) -> None:
    ended, found = threading.Event(), []
    shrinking = threading.Thread(target=shrink_while, args=(ended, room, found), daemon=True)
    shrinking.start()
    began = time.monotonic()
    try:
        with running(options, room):
            print(f"sparse: ready after {time.monotonic() - began:.0f} s", flush=True)
            ended.set()
            shrinking.join()
            write_dump(found[0], room, Path(options.dump))
    finally:
        ended.set()
    there = os.stat(options.dump)
    print(f"sparse: dumped {there.st_size >> 30} GiB, of which {there.st_blocks >> 21} GiB are no holes")


if __name__ == "__main__":
    sys.exit(main())
