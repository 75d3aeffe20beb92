#!/usr/bin/env python3
"""Runs all that is tried of ./kernel audit with kernels, step by step: what docs/AUDIT.md has in "What was measured".

usage: everything.py [--package P ..] [--step NAME ..] [--folder FOLDER] [--debian FOLDER ..]

  table     dumps in each scene (table.py), the first of which are kept in FOLDER for the steps behind it
  plants    each planted error and sign of a call in these ELF dumps (plants.py)
  refused   a torn dump, another kernel's symbols, .. : one line, and status 2
  crash     kdump's dumps, filtered by -d 31 (crash.py): audited, and each plant
  live      the running kernel from within (live.py)
  during    dumps while recorded calls run (during.py)
  sparse    100,000 pages of four processes each (sparse.py), audited in under two minutes
  races     ./kernel test --suites races --audit

--debian names the files of newer Debians with their own drgn and makedumpfile, as mmdebstrap writes them: the plants
are tried by each drgn, too (as root), and a kernel is filtered by the last of them. It takes about two hours.
The last line is 'N passed, M failed'.
Status: 0 all as required; 1 not; 2 it could not run.
"""
from __future__ import annotations

import argparse
import re
import subprocess
import sys
import tempfile
import time
from contextlib import ExitStack, contextmanager
from dataclasses import dataclass, field
from pathlib import Path
from typing import Callable, Iterator

from table import HERE, PACKAGES, SCENES, TOP
from kernel import kernels
from kernel.audit.command import symbols_of
from kernel.audit.opened import DEBIAN_PYTHON
from kernel.problem import Problem


# an audit of the sparse dump has to take less, in seconds; and a crashed kernel has to have dumped itself by then, also beside other work
MOST, DUMPS = 120.0, 3600
# of two kernels: which calls run while one is dumped, how often, and which clauses its known issues touch
DURING = {
    "6.1": (("calls-random.txt", 25, ()), ("calls-resize.txt", 12, ())),
    "7.3": (("calls-random.txt", 25, ("reserve", "marked", "size")), ("calls-quota.txt", 12, ("used",))),
}


@dataclass
class Tried:
    """What came of the steps so far."""

    passed: int = 0
    failed: int = 0

    def add(self, what: str, is_right: bool, said: str = "") -> None:
        self.passed, self.failed = self.passed + is_right, self.failed + (not is_right)
        print(f"{'passed' if is_right else 'FAILED'}  {what}{': ' if said else ''}{said}", flush=True)

    def run(self, what: str, words: list[str | Path], most: float = float("inf"), status: int = 0) -> None:
        """Runs a program, which has to end with this status and in this time."""
        began = time.monotonic()
        ran = subprocess.run(words, capture_output=True, text=True, check=False)
        seconds = time.monotonic() - began
        lines = (ran.stdout + ran.stderr).strip().splitlines()
        is_right = ran.returncode == status and seconds < most
        self.add(what, is_right, f"{lines[-1] if lines else 'nothing'} ({seconds:.0f} s)")
        if not is_right:
            print("\n".join(f"    {line}" for line in lines[-30:]), flush=True)


@dataclass(frozen=True)
class Kernel:
    package: str
    image: Path
    symbols: Path
    folder: Path

    @property
    def release(self) -> str:
        return self.symbols.name.removeprefix("vmlinux-")

    @property
    def dump(self) -> Path:
        """Its dump in the scene `plain`."""
        return self.folder / f"{self.release}.plain"


@dataclass(frozen=True)
class Work:
    kernels: list[Kernel]
    folder: Path
    debians: list[Path] = field(default_factory=list)


def audit(dump: Path, *symbols: Path) -> list[str | Path]:
    return [TOP / "kernel", "audit", "--core", dump, *(word for it in symbols for word in ("--vmlinux", it))]


def plants_of(dump: Path, symbols: Path) -> list[str | Path]:
    return [DEBIAN_PYTHON, "-B", HERE / "plants.py", "--core", dump, "--vmlinux", symbols]


def try_table(work: Work, tried: Tried) -> None:
    for it in work.kernels:
        table = [sys.executable, HERE / "table.py", "--package", it.package]
        tried.run(f"{it.release} scene plain", [*table, "--scene", "plain", "--keep", work.folder])
        others = [scene.name for scene in SCENES if scene.name != "plain"]
        tried.run(f"{it.release} other scenes", [*table, "--scene", *others])


def try_plants(work: Work, tried: Tried) -> None:
    for it in work.kernels:
        plants = plants_of(it.dump, it.symbols)
        tried.run(f"{it.release} plants, ELF", plants)
        for debian in work.debians:
            with bound(debian, TOP, work.folder, it.symbols.parent):
                tried.run(f"{it.release} plants, drgn of {debian.name}", ["chroot", debian, *plants])


@contextmanager
def bound(root: Path, *folders: Path) -> Iterator[None]:
    """Has folders at the same place below a root, to be read."""
    with ExitStack() as left:
        for it in (*folders, Path("/proc")):
            at = root / it.relative_to("/")
            at.mkdir(parents=True, exist_ok=True)
            subprocess.run(["mount", "--bind", it, at], check=True)
            left.callback(subprocess.run, ["umount", at], check=True)
        yield


def try_refused(work: Work, tried: Tried) -> None:
    """What can't be audited, which is said in one line."""
    for it, other in zip(work.kernels, [*work.kernels[1:], work.kernels[0]]):
        with tempfile.TemporaryDirectory(prefix="refused-") as name:
            for what, words in refusals(it, other, Path(name)):
                ran = subprocess.run(words, capture_output=True, text=True, check=False)
                is_right = ran.returncode == 2 and not ran.stdout and len(ran.stderr.splitlines()) == 1
                tried.add(f"{it.release} {what}", is_right, ran.stderr.strip() or ran.stdout[-200:])


def refusals(it: Kernel, other: Kernel, room: Path) -> Iterator[tuple[str, list[str | Path]]]:
    """What is refused, and how that is asked for."""
    torn, text, plain = room / "torn", room / "text", room / "symbols"
    with it.dump.open("rb") as whole:
        torn.write_bytes(whole.read(200 << 20))
    text.write_text("no dump\n", encoding="utf-8")
    plain.symlink_to(other.symbols)
    yield "another kernel's symbols", audit(it.dump, other.symbols)
    yield "the same by another name", audit(it.dump, plain)
    yield "a torn dump", audit(torn, it.symbols)
    yield "a text for a dump", audit(text, it.symbols)
    yield "no dump", audit(room / "none", it.symbols)
    yield "a text for symbols", audit(it.dump, text)
    yield "no symbols", audit(it.dump)
    torn.write_bytes(b"")
    yield "an empty dump", audit(torn, it.symbols)


def try_crash(work: Work, tried: Tried) -> None:
    for it in work.kernels:
        dump = work.folder / f"{it.release}.kdump"
        # (libkdumpfile doesn't know a release without a third number, in whose stead an ELF file is written)
        more = [] if re.match(r"\d+\.\d+\.\d+", it.release) else ["--elf"]
        files = ["--files", work.debians[-1]] if work.debians else []
        crash = [sys.executable, HERE / "crash.py", "--kernel", it.image, "--dump", dump, "--seconds", str(DUMPS)]
        tried.run(f"{it.release} crashes", [*crash, *more, *files])
        tried.run(f"{it.release} kdump's dump", audit(dump, it.symbols))
        tried.run(f"{it.release} plants, kdump", plants_of(dump, it.symbols))
        dump.unlink(missing_ok=True)


def try_live(work: Work, tried: Tried) -> None:
    for it in work.kernels:
        tried.run(f"{it.release} from within", [sys.executable, HERE / "live.py", "--package", it.package])


def try_during(work: Work, tried: Tried) -> None:
    for it in work.kernels:
        for scripts, dumps, allow in next((runs for name, runs in DURING.items() if it.release.startswith(name)), ()):
            known = ["--allow", *allow] if allow else []
            during = [sys.executable, HERE / "during.py", "--package", it.package, "--scripts", HERE.parent / scripts]
            tried.run(f"{it.release} during {scripts}", [*during, "--dumps", str(dumps), *known])


def try_sparse(work: Work, tried: Tried) -> None:
    for it in (work.kernels[0], work.kernels[-1]):
        dump = work.folder / f"{it.release}.sparse"
        sparse = [sys.executable, HERE / "sparse.py", "--kernel", it.image, "--dump", dump, "--seconds", "3000"]
        tried.run(f"{it.release} sparse", sparse)
        tried.run(f"{it.release} 100,000 pages", audit(dump, it.symbols), MOST)
        dump.unlink(missing_ok=True)


def try_races(work: Work, tried: Tried) -> None:
    for it in work.kernels:
        words = ["test", "--package", it.package, "--suites", "races", "--audit"]
        tried.run(f"{it.release} races", [TOP / "kernel", *words])


STEPS: dict[str, Callable[[Work, Tried], None]] = {
    "table": try_table, "plants": try_plants, "refused": try_refused, "crash": try_crash,
    "live": try_live, "during": try_during, "sparse": try_sparse, "races": try_races,
}  # fmt: skip


def main() -> int:
    words = argparse.ArgumentParser(description=__doc__, formatter_class=argparse.RawDescriptionHelpFormatter)
    words.add_argument("--package", nargs="+", default=PACKAGES, metavar="P")
    words.add_argument("--step", nargs="+", default=list(STEPS), choices=STEPS, metavar="NAME")
    words.add_argument("--folder", type=Path, help="keeps dumps there (768 MiB for each kernel)")
    words.add_argument("--debian", nargs="+", type=Path, default=[], metavar="FOLDER")
    options = words.parse_args()
    tried = Tried()
    try:
        with tempfile.TemporaryDirectory(prefix="everything-") as room:
            folder = (options.folder or Path(room)).resolve()
            folder.mkdir(parents=True, exist_ok=True)
            of = [Kernel(it, kernels.image_of(it), symbols_of(it), folder) for it in options.package]
            for step in options.step:
                STEPS[step](Work(of, folder, options.debian), tried)
    except (Problem, OSError, subprocess.CalledProcessError) as why:
        print(f"everything: {why}", file=sys.stderr)
        return 2
    print(f"everything: {tried.passed} passed, {tried.failed} failed")
    return 1 if tried.failed else 0


if __name__ == "__main__":
    sys.exit(main())
