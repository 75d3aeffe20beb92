#!/usr/bin/env python3
"""Tries whether `./kernel test` finds errors that are planted into Linux, one at a time.

usage: try.py SOURCE [--jobs N] [--at-once N] [--only NAME ..] [--table FILE] [--check]

SOURCE is a tree of Linux as Debian's package linux-source-6.1, or -7.3, has it. Each patch of that version's folder is
applied to it, the kernel is built with the configuration of `./kernel test --config`, and tested by `./kernel test --first`; then the
patch is taken out again. First the kernel is tested as it came, which has to show nothing new. The tree keeps what was
built, so a kernel after the first takes a minute.

  --jobs N      processes that build (2)
  --at-once N   kernels that are tested at a time, while the next one is built (1)
  --only NAME   these patches alone, without the kernel as it came
  --table FILE  where the table is written (the part of it between the version's two marks, if the file has them)
  --words ..    further words for ./kernel test, as the last option
  --check       only looks whether each patch applies
Status: 0 all were found; 1 some weren't, or the kernel as it came differs; 2 it could not run.
"""
from __future__ import annotations

import argparse
import json
import re
import shutil
import subprocess
import sys
import tempfile
import time
from concurrent.futures import Future, ThreadPoolExecutor
from dataclasses import dataclass
from pathlib import Path

FOLDER = Path(__file__).resolve().parent
TOP = FOLDER.parent.parent
# what ./kernel test --config prints, so that the fragment is known to suffice
CONFIG = TOP / "conformance" / "kernel" / "config"
# the suites that are tried, those that take least time first
SUITES = ("fixed", "quota", "resize", "held", "denied", "peers", "random", "races")
# what stands around the table of a version
BEGIN, END = "<!-- planted {}: begin -->", "<!-- planted {}: end -->"
# a kernel test that isn't done by then is ended, in seconds
MOST_SECONDS = 3000


class CannotRun(Exception):
    """Why it can't go on, in one line."""


@dataclass(frozen=True)
class Planted:
    """A patch: its name, the function that it makes wrong, and how, in words."""

    name: str
    function: str
    what: str
    path: Path


@dataclass(frozen=True)
class Found:
    """What a test showed of a kernel: its status, the suite and the first line of what is new, and how long it took."""

    status: int
    suite: str
    first: str
    seconds: float

    @property
    def is_new(self) -> bool:
        """Whether a suite shows something new. (A test that breaks has status 1, too, and tells of no suite.)"""
        return self.status == 1 and self.suite != ""


def read_planted(path: Path) -> Planted:
    head = dict(line.split(": ", 1) for line in path.read_text(encoding="utf-8").split("\n\n", 1)[0].splitlines())
    return Planted(path.stem, head["Function"], head["Planted"], path)


def version_of(tree: Path) -> str:
    """The version of a tree, of which some have a folder of patches here."""
    makefile = tree / "Makefile"
    if not (tree / "mm" / "hugetlb.c").is_file() or not makefile.is_file():
        raise CannotRun(f"{tree} is no tree of Linux")
    return ".".join(re.findall(r"(?m)^(?:VERSION|PATCHLEVEL) = (\d+)$", makefile.read_text(encoding="utf-8")))


def all_planted(tree: Path) -> list[Planted]:
    """The patches for a tree's version."""
    if not (found := sorted((FOLDER / version_of(tree)).glob("*.patch"))):
        raise CannotRun(f"there are no patches for Linux {version_of(tree)}")
    return [read_planted(path) for path in found]


def run(*words: str | Path, folder: Path) -> None:
    done = subprocess.run(words, cwd=folder, capture_output=True, text=True, check=False)
    if done.returncode:
        said = (done.stderr + done.stdout).strip().splitlines()
        why = next((it for it in said if "error" in it), (said or ["no reason given"])[-1])
        raise CannotRun(f"{' '.join(map(str, words))}: {why}")


def patch(tree: Path, it: Planted, *words: str) -> None:
    run("patch", "--strip=1", "--silent", "--force", *words, f"--input={it.path}", folder=tree)


def is_met(wanted: str, has: set[str]) -> bool:
    """Whether a configuration has a line that is wanted. What is to be left out, a version may not know at all."""
    left_out = re.fullmatch(r"# (CONFIG_\w+) is not set", wanted)
    return f"{left_out[1]}=y" not in has if left_out else wanted in has


def configure(tree: Path) -> None:
    """Configures a tree, unless it is configured so already."""
    wanted = CONFIG.read_text(encoding="utf-8")
    mark = tree / ".kirvessa-config"
    if mark.is_file() and mark.read_text(encoding="utf-8") == wanted and (tree / ".config").is_file():
        return
    run("make", "--silent", "tinyconfig", folder=tree)
    with (tree / ".config").open("a", encoding="utf-8") as file:
        file.write(wanted)
    run("make", "--silent", "olddefconfig", folder=tree)
    has = set((tree / ".config").read_text(encoding="utf-8").splitlines())
    if lost := [line for line in wanted.splitlines() if not is_met(line, has)]:
        raise CannotRun(f"the tree can't be configured with {lost[0]}")
    mark.write_text(wanted, encoding="utf-8")


def built(tree: Path, jobs: int) -> Path:
    run("make", "--silent", f"--jobs={jobs}", "bzImage", folder=tree)
    return tree / "arch" / "x86" / "boot" / "bzImage"


def suite_of(told: Path) -> str:
    """The suite that has the first new difference, by the report as JSON."""
    suites = json.loads(told.read_text(encoding="utf-8"))["suites"] if told.is_file() else []
    return next((it["suite"] for it in suites if it["new"]), "")


def tested(image: Path, words: list[str]) -> Found:
    with tempfile.TemporaryDirectory(prefix="planted-") as room:
        began, told = time.monotonic(), Path(room) / "told"
        command = [TOP / "kernel", "test", "--kernel", image, "--first", "--json", told, *words]
        try:
            done = subprocess.run(command, capture_output=True, text=True, check=False, timeout=MOST_SECONDS)
        except subprocess.TimeoutExpired:
            return Found(2, "", f"not done in {MOST_SECONDS} s", time.monotonic() - began)
        first = re.search(r"(?m)^new:[ \n]*(.*)$", done.stdout)
        line = first[1] if first else done.stderr.strip().splitlines()[-1]
        return Found(done.returncode, suite_of(told), line, time.monotonic() - began)


def planted(tree: Path, it: Planted, jobs: int, to: Path) -> Path:
    """Plants an error, builds, keeps the image, and takes the error out again."""
    patch(tree, it)
    try:
        return Path(shutil.copyfile(built(tree, jobs), to))
    finally:
        patch(tree, it, "--reverse")


def tried(it: Planted, image: Path, words: list[str]) -> tuple[str, bool]:
    """Tests a kernel, and prints its row at once; whether it was found."""
    found = tested(image, words)
    image.unlink()
    line = row(it, found)
    print(f"{line} {found.first}", flush=True)
    return line, found.is_new


def row(it: Planted, found: Found) -> str:
    how = f"`{found.suite}`" if found.is_new else f"**missed** (status {found.status})"
    return f"| `{it.name}` | `{it.function}` | {it.what} | {how} | {found.seconds:.0f} |"


def table(rows: list[str]) -> str:
    head = ["| Patch | Function | What is wrong | Found by suite | Seconds |", "|---|---|---|---|---|"]
    return "\n".join([*head, *rows])


def write_table(path: Path, text: str, version: str) -> None:
    """Writes a version's table to a file, between its marks if the file has them."""
    old = path.read_text(encoding="utf-8") if path.is_file() else ""
    before, begin, rest = old.partition(BEGIN.format(version))
    _, end, behind = rest.partition(END.format(version))
    path.write_text(f"{before}{begin}\n\n{text}\n\n{end}{behind}" if begin and end else f"{text}\n", encoding="utf-8")


def check(tree: Path) -> int:
    """Whether each patch applies to the tree as it is."""
    passed, failed = 0, []
    for it in all_planted(tree):
        try:
            patch(tree, it, "--dry-run")
            passed += 1
        except CannotRun as why:
            failed.append(f"  {it.name}: {why}")
    print("\n".join([*failed, f"planted: {passed} passed, {len(failed)} failed"]))
    return 1 if failed else 0


def is_clean(image: Path, words: list[str]) -> bool:
    """Whether the kernel as it came shows nothing new, which is printed."""
    found = tested(image, [it for it in words if it != "--first"])
    print(f"as it came: status {found.status}, {found.seconds:.0f} s: {found.first}", flush=True)
    return found.status == 0


def try_all(options: argparse.Namespace) -> int:
    tree, words = options.source, options.words
    configure(tree)
    some = [it for it in all_planted(tree) if not options.only or it.name in options.only]
    clean: Future[bool] | None = None
    started: list[Future[tuple[str, bool]]] = []
    with tempfile.TemporaryDirectory(prefix="planted-") as name, ThreadPoolExecutor(options.at_once) as tests:
        room = Path(name)
        if not options.only:
            image = Path(shutil.copyfile(built(tree, options.jobs), room / "clean"))
            clean = tests.submit(is_clean, image, words)
        for it in some:
            image = planted(tree, it, options.jobs, room / it.name)
            started.append(tests.submit(tried, it, image, words))
        done = [it.result() for it in started]
        missed = sum(not is_found for _, is_found in done) + (clean is not None and not clean.result())
    if options.table:
        write_table(options.table, table([line for line, _ in done]), version_of(tree))
    print(f"planted: {len(done) - missed} passed, {missed} failed")
    return 1 if missed else 0


def main() -> int:
    raw = argparse.RawDescriptionHelpFormatter
    parser = argparse.ArgumentParser(description=__doc__, formatter_class=raw, usage=argparse.SUPPRESS)
    parser.add_argument("source", type=Path)
    parser.add_argument("--jobs", type=int, default=2)
    parser.add_argument("--at-once", type=int, default=1)
    parser.add_argument("--only", nargs="+", default=[])
    parser.add_argument("--table", type=Path)
    parser.add_argument("--check", action="store_true")
    parser.add_argument("--words", nargs=argparse.REMAINDER, default=["--suites", *SUITES])
    options = parser.parse_args()
    try:
        return check(options.source) if options.check else try_all(options)
    except CannotRun as why:
        print(f"try.py: {why}", file=sys.stderr)
        return 2


if __name__ == "__main__":
    sys.exit(main())
