"""./kernel schedules: all schedules of a script by the named rules of a version of Linux."""
from __future__ import annotations

import argparse
import re
import sys
import time
from dataclasses import dataclass
from pathlib import Path
from typing import Iterator

from compare import TOP
from kernel.kernels import say
from kernel.problem import Problem

sys.path.append(str(TOP / "conformance" / "live"))

from accounts import account  # noqa: E402
from events import placed  # noqa: E402
from linux_rows import BATCH  # noqa: E402
from machine import ADDRESSES, LIMIT, MOST_FRAMES  # noqa: E402
from orders import Found, explore  # noqa: E402
from placing import SLOTS, Placement  # noqa: E402
from recordings import packed  # noqa: E402
from schedule_runs import Move, Run, Script, start  # noqa: E402
from schedules import read_script  # noqa: E402
from verdict import trace_of  # noqa: E402
from written import recording  # noqa: E402

# the rules of each version (conformance/live/linux_rows.py), and how many pages a removal looks up at once. Those of kills (I) and of
# resizes (R) have nothing to do here: a script has neither.
RULES, WIDE = "BDFNPQSTU", 31
VERSIONS = {"6.1": (RULES, BATCH), "6.12": (RULES, WIDE), "7.3": (RULES + "L", WIDE)}
STATES = 1_000_000
WRONG, NEVER, LIMITED = 0, 1, 3
# so many seconds pass before progress is shown at a terminal
QUIET = 0.5
MOST_TASKS, MOST_FILES, MOST_QUOTA = 64, 16, 2**16 - 1

ABOUT = """Searches all schedules of a script by the rules of a version of Linux.

Says whether the reserve count can end wrong, and by how much, and whether a touch of a page that a map has reserved for it can end
in SIGBUS. Of each it prints a shortest schedule: what Linux does, with its free and reserve counts, and beside it the rows of the
machine, up to where the two part.

  ./kernel schedules examples/truncate-against-fault.script
  ./kernel schedules --linux 7.3 --denials 1 --trace parts.trace mine.script
  ./hugepool explain parts.trace"""
AFTER = f"""SCRIPT says what each task calls, as for './hugepool find' (docs/EXPLORING.md); calls may wait for others. A fault mutex table
has {SLOTS} slots here, whatever the script has. A page is promised to touches that begin after a map of it with reservation has returned,
and before a punch or a truncation of it begins.

Status: 0 something goes wrong in some schedule; 1 in none; 2 could not run; 3 nothing wrong in --states states, and there are more.
docs/LINUX.md has the rules, and what they leave out."""


def natural(word: str) -> int:
    if not word.isdecimal() or len(word) > 9:
        raise argparse.ArgumentTypeError(f"{word!r} is not a number up to 999999999")
    return int(word)


def add_words(to: argparse.ArgumentParser) -> None:
    to.add_argument("script", type=Path, metavar="SCRIPT", help="a file with a script; '-' is standard input")
    to.add_argument("--linux", choices=VERSIONS, default="6.1", help="by the rules of this version (6.1)")
    to.add_argument("--denials", type=natural, default=0, metavar="N",
                    help="at most N allocations of changes, pages and deletions fail (0)")
    to.add_argument("--states", type=natural, default=STATES, metavar="N", help=f"ends the search at more than N states ({STATES})")
    to.add_argument("--trace", type=Path, metavar="FILE", help="writes the machine's events up to where the two part, for hugepool replay")
    to.add_argument("--recording", type=Path, metavar="FILE", help="writes the schedule as a recording, for conformance/live/check.py")


# scripts

CALLS = {"map": 3, "mapn": 3, "load": 1, "store": 2, "alloc": 3, "allock": 3, "punch": 3, "trunc": 2, "unmap": 1, "exit": 0}
RANGES = ("map", "mapn", "alloc", "allock", "punch")


def script_of(text: str) -> Script:
    """The script that a text is, or the first line that is none."""
    lines = text.removesuffix("\n").split("\n")
    if not text:
        raise Problem("a script has a header 'pool FRAMES FILES SLOTS TASKS', and this text has no line")
    header = header_of(lines[0])
    pages: dict[int, int] = {}
    for number, line in enumerate(lines[1:], 2):
        what = fault_of(line, header, pages, lines[number : number + 1])
        if what:
            raise Problem(f"line {number}: {what}: {line!r}")
    return Script(*read_script(text))._replace(slots=SLOTS)


@dataclass(frozen=True)
class Header:
    files: int
    tasks: int
    has_waits: bool


def header_of(line: str) -> Header:
    found = re.fullmatch(r"(pool|script)((?: [0-9]{1,9}){4})( [0-9]{1,9})?", line)
    if found is None:
        raise Problem(f"line 1: not a header 'pool FRAMES FILES SLOTS TASKS' or 'script ..', with a quota behind it or none: {line!r}")
    frames, files, slots, tasks = (int(it) for it in found[2].split())
    if not (1 <= frames <= MOST_FRAMES and 1 <= files <= MOST_FILES and slots and 1 <= tasks <= MOST_TASKS):
        raise Problem(f"line 1: a pool has 1 to {MOST_FRAMES} frames, {MOST_FILES} files and {MOST_TASKS} tasks: {line!r}")
    if found[3] and not 1 <= int(found[3]) <= MOST_QUOTA:
        raise Problem(f"line 1: a quota is 1 to {MOST_QUOTA} pages: {line!r}")
    return Header(files, tasks, found[1] == "script")


def fault_of(line: str, header: Header, pages: dict[int, int], then: list[str]) -> str | None:
    """What is wrong with a line. `pages` counts how many a task maps; `then` is the next line, if there is one."""
    found = re.fullmatch(r"(begin|after) ([0-9]{1,9})(?: ([a-z]+)((?: [0-9]{1,20})*))?", line)
    if found is None:
        return "a script has lines 'begin TASK CALL' and 'after TASK'"
    task, name, numbers = int(found[2]), found[3], [int(it) for it in (found[4] or "").split()]
    if not 1 <= task <= header.tasks:
        return f"the pool has tasks 1 to {header.tasks}"
    if found[1] == "after":
        return fault_of_wait(name, task, header, then)
    if name not in CALLS or len(numbers) != CALLS[name]:
        return f"the calls are {', '.join(CALLS)}, each with its numbers"
    return fault_of_call(name, numbers, header) or fault_of_maps(task, name, numbers, pages)


def fault_of_wait(name: str | None, task: int, header: Header, then: list[str]) -> str | None:
    if name is not None:
        return "an after has a task alone"
    if not header.has_waits:
        return "only a script whose header begins with 'script' has calls that wait"
    if not then or not then[0].startswith(("begin ", "after ")) or then[0].startswith(f"begin {task} "):
        return "an after stands before the begin of another task"
    return None


def fault_of_call(name: str, numbers: list[int], header: Header) -> str | None:
    """The rules cover calls on files and ranges that are there."""
    if name in (*RANGES, "trunc") and numbers[0] >= header.files:
        return f"the pool has files 0 to {header.files - 1}"
    if name in RANGES and (not numbers[2] or numbers[1] + numbers[2] > LIMIT) or name == "trunc" and numbers[1] > LIMIT:
        return f"the range is empty, or ends above {LIMIT} pages"
    if name in ("load", "store", "unmap") and numbers[0] >= ADDRESSES:
        return f"an address space has {ADDRESSES} pages"
    return None


def fault_of_maps(task: int, name: str, numbers: list[int], pages: dict[int, int]) -> str | None:
    pages[task] = pages.get(task, 0) + (numbers[2] if name in ("map", "mapn") else 0)
    return f"the maps of the task fill its address space of {ADDRESSES} pages" if pages[task] > ADDRESSES else None


# what is printed


@dataclass
class Progress:
    """Shows at a terminal how far the search is."""

    began: float
    is_shown: bool = False

    def __call__(self, found: Found, left: int) -> None:
        passed = time.monotonic() - self.began
        if passed < QUIET or not sys.stderr.isatty():
            return
        self.is_shown = True
        print(f"\r\033[K{found.states} states, {found.states / passed:.0f} a second", end="", file=sys.stderr, flush=True)

    def end(self) -> None:
        if self.is_shown:
            print("\r\033[K", end="", file=sys.stderr, flush=True)


def too(error: int) -> str:
    return f"{abs(error)} too {'low' if error < 0 else 'high'}"


def steps(number: int) -> str:
    return f"{number} step{'' if number == 1 else 's'}"


def summary(options: argparse.Namespace, found: Found) -> Iterator[str]:
    rules, _ = VERSIONS[options.linux]
    few = {0: "no allocation fails", 1: "at most 1 allocation fails"}
    failing = few.get(options.denials, f"at most {options.denials} allocations fail")
    yield f"Linux {options.linux}, by its rules {' '.join(sorted(rules))}; {SLOTS} slots; {failing}"
    yield f"{found.states} states, {found.rests} of them at rest{'' if found.is_whole else '; not all: there are more'}"
    errors = sorted(it for it in found.errors if it)
    of_all = "in every schedule" if found.is_whole else "in what was searched"
    for error in errors:
        yield f"reserve count: it can end {too(error)}, after {steps(len(found.schedule(found.errors[error])))} or more"
    if not errors:
        yield f"reserve count: right at the end, {of_all}"
    if found.refused is None:
        yield f"promises: a touch of a promised page is served, {of_all}"
    else:
        yield f"promises: a touch of a promised page can end in SIGBUS, refused after {steps(len(found.schedule(found.refused)))} or more"


@dataclass(frozen=True)
class Shown:
    """A schedule to print: what it shows, and its steps."""

    title: str
    moves: list[Move]


def shown(found: Found, first: Run) -> Iterator[Shown]:
    """A shortest schedule behind which the count is wrong, and one in which a promise is broken, up to that call's end."""
    errors = [it for it in found.errors if it]
    if errors:
        error = min(errors, key=lambda it: found.errors[it])
        yield Shown(f"A shortest schedule behind which the reserve count is {too(error)}:", found.schedule(found.errors[error]))
    if found.refused is not None:
        moves = found.schedule(found.refused)
        yield Shown("A shortest schedule in which a touch of a promised page is refused:", moves + ending(first, moves))


def ending(run: Run, moves: list[Move]) -> list[Move]:
    """The last task's steps up to the end of its call. (Its touch has its answer, and waits for nobody.)"""
    for it in moves:
        run.move(it)
    last, more = moves[-1].task, []
    while run.machine.tasks[last].call is not None:
        more.append(Move(last))
        run.move(more[-1])
    return more


def run(options: argparse.Namespace) -> int:
    rules, batch = VERSIONS[options.linux]
    try:
        text = (sys.stdin.buffer.read() if str(options.script) == "-" else options.script.read_bytes()).decode()
    except UnicodeDecodeError:
        raise Problem(f"{options.script} is not a text") from None
    script = script_of(text)
    begin = lambda: start(script, rules, batch, options.denials)
    progress = Progress(time.monotonic())
    try:
        found = explore(begin(), options.states, progress)
    finally:
        progress.end()
    print("\n".join(summary(options, found)), flush=True)
    for number, it in enumerate(shown(found, begin())):
        events = recording(begin(), it.moves)
        placement = placed(events)
        print("\n".join(["", it.title, *account(placement, goes_on=True)]))
        if number == 0:
            write(options, placement)
    if found.refused is None and not any(found.errors):
        return NEVER if found.is_whole else limited(options)
    return WRONG


def limited(options: argparse.Namespace) -> int:
    say(f"there are more than {options.states} states, and nothing is wrong in these; --states N searches more")
    return LIMITED


def write(options: argparse.Namespace, placement: Placement) -> None:
    if options.trace is not None:
        options.trace.write_text(trace_of(placement), encoding="utf-8")
    if options.recording is not None:
        options.recording.write_bytes(packed(placement.run))
