"""./kernel audit: its words, and what it does."""
from __future__ import annotations

import argparse
import time
from pathlib import Path
from typing import TYPE_CHECKING

import packages
from kernel import kernels, report as kernel_report
from kernel.audit import picture, proved, report, who
from kernel.audit.checks import Finding, check, wrong
from kernel.audit.opened import first_line, need_drgn, opened
from kernel.audit.state import State
from kernel.problem import Problem

if TYPE_CHECKING:
    from kernel.audit.reader import Reader

ABOUT = """Prints who has reserved the huge pages of a kernel, whether its counts are right, and what contradicts each of nine clauses.

  sudo ./kernel audit                                        the kernel of this machine, with the symbols that are installed
  sudo ./kernel audit --package linux-image-$(uname -r)      .. with symbols that are fetched into the cache, and not installed
  ./kernel audit --core vmcore --vmlinux vmlinux-6.1.0-56    a dump of kdump's, or of QEMU's dump-guest-memory
  ./kernel audit --without-symbols                           bounds alone, for any user

It only reads. docs/AUDIT.md says how to read each row, and what to do next. Where ./hugepool is built, `hugepool audit` has to find the same.
"""
AFTER = """Status: 0 nothing is wrong; 1 something is, or hugepool audit finds otherwise; 2 it could not be read: one line says why."""
# readings of a running kernel: what moves between them isn't wrong for good; seconds between
READINGS, BETWEEN = 3, 0.2


def add_words(to: argparse.ArgumentParser) -> None:
    which = to.add_mutually_exclusive_group()
    which.add_argument("--here", action="store_true", help="the running kernel, by /proc/kcore, as root (unless --core is named)")
    which.add_argument("--core", type=Path, metavar="VMCORE", help="a dump")
    symbols = to.add_mutually_exclusive_group()
    symbols.add_argument("--vmlinux", type=Path, action="append", default=[], metavar="FILE", help="the kernel with its symbols")
    symbols.add_argument("--package", metavar="P", help="fetches the symbols of the kernel of this Debian package: NAME, NAME/SUITE or NAME=VERSION")
    symbols.add_argument("--without-symbols", action="store_true", help="bounds alone, by /proc and /sys of this machine")
    to.add_argument("--json", metavar="FILE", help="writes all that was read, and the findings, as JSON, too")
    to.add_argument("--pictures", type=Path, metavar="FOLDER", help="writes the state as text, of each pool and each mount with size=")
    to.add_argument("--readings", type=int, metavar="N", help=f"keeps the findings that are in each of N readings ({READINGS}, of a dump 1)")


def symbols_of(package: str) -> Path:
    """The symbols of the kernel of a Debian package, fetched unless they are kept."""
    kernels.say(f"the symbols of {package}: fetched unless they are kept")
    try:
        return packages.symbols(package, kernels.cache())
    except (packages.NotFound, OSError, packages.tarfile.TarError) as why:
        raise Problem(f"the symbols of {package} can't be fetched: {getattr(why, 'strerror', None) or why}") from why


def read(reader: Reader, readings: int) -> tuple[State, list[Finding], int]:
    """The last state that was read, what is wrong in each reading, and how many findings were in some alone."""
    state = reader.state()
    found, moved = check(state), 0
    for _ in range(readings - 1):
        time.sleep(BETWEEN)
        state = reader.state()
        again = check(state)
        moved += len(set(found) ^ set(again))
        found = [it for it in again if it in found]
    return state, found, moved


def audited(core: Path | None, symbols: list[Path], readings: int) -> tuple[State, list[Finding], int]:
    from kernel.audit.reader import Reader  # pylint: disable=import-outside-toplevel

    try:
        return read(Reader(opened(core, symbols), core), readings)
    except Problem:
        raise
    except Exception as why:  # pylint: disable=broad-except  (drgn raises Exception itself; whatever it is, nothing was audited)
        what = f"the dump {core}" if core else "the kernel's memory"
        left_out = " (makedumpfile left it out: it has to know this kernel, or to filter less)" if "Excluded page" in str(why) else ""
        raise Problem(f"{what} can't be read to its end: {type(why).__name__}: {first_line(why)}{left_out}") from why


def write_pictures(folder: Path | None, state: State) -> None:
    if folder is None:
        return
    try:
        folder.mkdir(parents=True, exist_ok=True)
    except OSError as why:
        raise Problem(f"{folder}: {why.strerror}") from why
    for it in picture.pictures(state):
        kernel_report.write(str(folder / f"{it.name}.picture"), it.text())


def compared(state: State) -> proved.Compared:
    """How far the proved audit finds the same, if its program is there."""
    path = proved.program()
    return proved.compared(state, path, proved.asking(path)) if path else proved.Compared()


def run(options: argparse.Namespace) -> int:
    if options.without_symbols:
        if options.core:
            raise Problem("--without-symbols looks at this machine's /proc and /sys, and not at a dump")
        print("\n".join(who.lines()))
        return 0
    need_drgn()
    symbols = [symbols_of(options.package)] if options.package else options.vmlinux
    state, found, moved = audited(options.core, symbols, options.readings or (1 if options.core else READINGS))
    beside = compared(state)
    kernel_report.write(options.json, report.json_text(state, found, moved, beside))
    write_pictures(options.pictures, state)
    print("\n".join([report.text(state, found, moved), *beside.lines()]))
    return 1 if wrong(found) or beside.differences else 0
