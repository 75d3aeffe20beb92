#!/usr/bin/env python3
"""Says in which fields two recordings of the same scripts differ.

usage: changed.py BEFORE AFTER

Prints a line for each script that differs: its first such call, each field with its value then and before, and how many more there are.
"""
from __future__ import annotations

import sys
from pathlib import Path
from typing import Iterator

sys.path.insert(0, str(Path(__file__).resolve().parent.parent))

from compare import Line, Script, read, scripts  # noqa: E402

NAMES = {"answer": "answer", "counts": "free and reserve count", "files": "sizes and pages", "entries": "translations", "used": "used pages",
         "total": "frames"}  # fmt: skip


def fields(before: Line, after: Line) -> str:
    """The fields in which two answers to one call differ."""
    pairs = ((NAMES[name], getattr(before.linux, name), getattr(after.linux, name)) for name in before.linux._fields)
    found = [f"{name} {new.removeprefix('used ')}, before {old.removeprefix('used ')}" for name, old, new in pairs if old != new]
    found += [f"surplus {after.surplus}, before {before.surplus}"] if before.surplus != after.surplus else []
    return "; ".join(found)


def changed(old: Script, new: Script) -> list[str]:
    """The calls of a script that differ."""
    pairs = enumerate(zip(old.lines, new.lines), 1)
    both = [(number, read(first), read(second)) for number, (first, second) in pairs if first != second]
    return [f"call {number}, {first.call}: {fields(first, second)}" for number, first, second in both]


def changes(before: Path, after: Path) -> Iterator[str]:
    """The first call of each script that differs, and how many later ones do."""
    for old, new in zip(scripts(before), scripts(after)):
        if found := changed(old, new):
            yield f"{old.name}, {found[0]}" + (f"; {len(found) - 1} later calls differ, too" if len(found) > 1 else "")


if __name__ == "__main__":
    if len(sys.argv) != 3:
        sys.exit(__doc__)
    try:
        print("".join(f"  {it}\n" for it in changes(Path(sys.argv[1]), Path(sys.argv[2]))), end="")
    except OSError as why:
        sys.exit(f"changed.py: {why.filename}: {why.strerror}")
