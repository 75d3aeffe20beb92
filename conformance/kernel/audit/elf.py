"""Notes of ELF files: VMCOREINFO and the processors' registers of a dump, the build ID of a kernel."""
from __future__ import annotations

import mmap
import re
import struct
from dataclasses import dataclass
from pathlib import Path
from typing import BinaryIO, Iterator

MAGIC = b"\x7fELF\x02\x01"
PT_LOAD, PT_NOTE, SHT_NOTE = 1, 4, 7
NT_PRSTATUS, NT_GNU_BUILD_ID = 1, 3
# of a struct elf_prstatus of x86-64: where the process and the registers are; which registers are these
PID, REGISTERS, RIP, CS, RSP = 32, 112, 16, 17, 19


class Torn(Exception):
    """A file isn't whole."""


@dataclass(frozen=True)
class Part:
    """A program header."""

    kind: int
    offset: int
    physical: int
    size: int
    header: int


@dataclass(frozen=True)
class Note:
    name: bytes
    kind: int
    data: bytes


def is_elf(of: BinaryIO) -> bool:
    of.seek(0)
    return of.read(len(MAGIC)) == MAGIC


def parts(of: BinaryIO) -> list[Part]:
    """The program headers, whose number is in the first section's header if there are too many for the file's own."""
    of.seek(0)
    head = of.read(64)
    if len(head) < 64:
        raise Torn("it ends in its header")
    at, sections, _, _, size, count, _, _, _ = struct.unpack("<QQIHHHHHH", head[32:64])
    if count == 0xFFFF:
        of.seek(sections + 44)
        count = struct.unpack("<I", of.read(4))[0]
    of.seek(at)
    table = of.read(size * count)
    if len(table) < size * count:
        raise Torn("it ends in its program headers")
    found = []
    for k in range(count):
        kind, _, offset, _, physical, in_file = struct.unpack("<IIQQQQ", table[k * size : k * size + 40])
        found.append(Part(kind, offset, physical, in_file, at + k * size))
    return found


def check_whole(path: Path) -> None:
    """Refuses an ELF file that is shorter than its headers say."""
    with path.open("rb") as of:
        if is_elf(of):
            end = max((it.offset + it.size for it in parts(of)), default=0)
            if (size := path.stat().st_size) < end:
                raise Torn(f"it has {size} of {end} bytes")


def notes_in(data: bytes) -> Iterator[Note]:
    at = 0
    while at + 12 <= len(data):
        named, sized, kind = struct.unpack("<III", data[at : at + 12])
        name, body = at + 12, at + 12 + (named + 3 & ~3)
        yield Note(data[name : name + named].rstrip(b"\0"), kind, data[body : body + sized])
        at = body + (sized + 3 & ~3)


def notes(path: Path) -> list[Note]:
    """The notes of an ELF file's program headers."""
    with path.open("rb") as of:
        if not is_elf(of):
            return []
        found = []
        for it in (it for it in parts(of) if it.kind == PT_NOTE):
            of.seek(it.offset)
            found += notes_in(of.read(it.size))
        return found


def section_notes(path: Path) -> list[Note]:
    """The notes of an ELF file's sections, which a vmlinux of debug symbols has, too."""
    with path.open("rb") as of:
        if not is_elf(of):
            return []
        of.seek(0)
        at, size, count = (lambda head: (head[0], head[1], head[2]))(struct.unpack("<Q10xHH", of.read(64)[40:62]))
        of.seek(at)
        table, found = of.read(size * count), []
        for k in range(count):
            kind, offset, length = struct.unpack("<4xI16xQQ", table[k * size : k * size + 40])
            if kind == SHT_NOTE:
                of.seek(offset)
                found += notes_in(of.read(length))
        return found


def build_id(path: Path) -> str | None:
    """The build ID of a kernel's file."""
    return next((it.data.hex() for it in section_notes(path) if it.name == b"GNU" and it.kind == NT_GNU_BUILD_ID), None)


def build_id_in(data: bytes) -> str | None:
    """The build ID of a kernel in its notes, as /sys/kernel/notes has them."""
    return next((it.data.hex() for it in notes_in(data) if it.name == b"GNU" and it.kind == NT_GNU_BUILD_ID), None)


def registers(path: Path) -> dict[int, tuple[int, int, int]]:
    """Of each processor of a dump, in their order: RIP, CS and RSP."""
    found = [it.data for it in notes(path) if it.name == b"CORE" and it.kind == NT_PRSTATUS]
    words = [struct.unpack("<27Q", data[REGISTERS : REGISTERS + 216]) for data in found if len(data) >= REGISTERS + 216]
    return {number: (it[RIP], it[CS], it[RSP]) for number, it in enumerate(words)}


def vmcoreinfo(path: Path) -> dict[str, str]:
    """The lines of a dump's VMCOREINFO, by their names."""
    found = next((it.data for it in notes(path) if it.name == b"VMCOREINFO"), b"")
    return dict(line.split("=", 1) for line in found.decode(errors="replace").splitlines() if "=" in line)


def add_vmcoreinfo(path: Path) -> None:
    """Gives a dump of QEMU's its VMCOREINFO, which lies in the guest's memory, as a note: at the end, behind the notes that it has.

    So the guest needs neither a device nor a module by which it tells where that is.
    """
    with path.open("r+b") as of:
        note = next((it for it in parts(of) if it.kind == PT_NOTE), None)
        if note is None:
            raise Torn("it has no notes")
        with mmap.mmap(of.fileno(), 0, access=mmap.ACCESS_READ) as memory:
            found = vmcoreinfo_in(memory)
        if not found:
            raise Torn("there is no VMCOREINFO in the guest's memory")
        of.seek(note.offset)
        data = of.read(note.size) + found
        of.seek(0, 2)
        end = of.tell()
        of.write(data)
        of.seek(note.header + 8)
        of.write(struct.pack("<Q", end))
        of.seek(note.header + 32)
        of.write(struct.pack("<QQ", len(data), len(data)))


def vmcoreinfo_in(memory: mmap.mmap) -> bytes:
    """The note of VMCOREINFO in a machine's memory: the one that is filled (its buffer is there before)."""
    for found in re.finditer(rb"\x0b\0\0\0(..)\0\0\0\0\0\0VMCOREINFO\0\0OSRELEASE=", memory, re.DOTALL):
        size = struct.unpack("<H", found[1])[0]
        return memory[found.start() : found.start() + 24 + (size + 3 & ~3)]
    return b""
