#!/usr/bin/env python3
"""Has one growth of memory of the built programs fail, each in turn, one a run, and compares the output with the right one.

A library that is loaded before the program (faults.c) refuses the 1st, 2nd, .. growth, up to a run that meets none. hugepool must say so
and end with status 1, and its output must be a front of the right one; where a thread is refused, or nothing fails, the output must be
right. hp_memory_tests runs stories, which print each refusal and try again: everything else must be as with ample memory, to the end.

At last it counts the threads that a command starts: one for each racing task and each call of a round on a running pool, anew behind each
cut of a journal, and no other. It has Linux say how much memory is free, of which a search takes half. It looks for races in which all
tasks have calls in flight at once, and whether a task that waits for another's call sleeps (hp_pool_bench).
"""
from __future__ import annotations

import os
import re
import shlex
import subprocess
import sys
import tempfile
import time
import tomllib
from bisect import bisect_left
from concurrent.futures import ThreadPoolExecutor
from pathlib import Path
from typing import Iterable, Iterator, NamedTuple

from programs import TOP, WORDS, Ran, closed, commands, example, is_current, is_proved, program_of, report, run, status_of, tested

# (a race whose thread isn't made looks for it 20,000,000 times: 5 s, and beside many busy processes minutes)
SECONDS = 1_800
# no line of words has so many growths
MOST = 20_000
# the number by which the library tells of each thread, and refuses nothing
TELL_THREADS = -1
FAILED = "hugepool: out of memory\n"
# a writer of objects takes memory of its own, so its write fails
FAILED_WRITE = f"hugepool: writing failed\n{FAILED}"
# what hp_memory_tests tells
STORIES = TOP / "crates" / "hp_memory_tests" / "stories.toml"
# what is told of something that was refused memory; where that was a call in flight, the journal isn't cut then
RETRIED = re.compile(r"^(?:.* of (?P<task>\d)|\w+): out of memory\n(?:cut: task (?P=task) has a call in flight\n)?", re.MULTILINE)
LATE = re.compile(r"run 0 late entries \d+ free \d+ resv \d+\n")
# by chance some tasks may have ended their calls before others begin, so it is tried so often
RACES = 40


class Told(NamedTuple):
    """A run's status, both streams, and a letter for each fault (faults.c)."""

    status: int
    out: str
    err: str
    faults: str


class Program:
    """A program, and the library that is loaded before it."""

    def __init__(self, path: Path, library: Path) -> None:
        self.path, self.library = path, library

    def told(self, words: str, given: str, refused: int = 0, **more: str) -> Told:
        """A run with these words and this input, in which the growth of this number is refused, if any is."""
        with tempfile.TemporaryFile() as told:
            own = {"PATH": os.environ["PATH"], "LD_PRELOAD": str(self.library), **more}
            own |= {"FAULT_TOLD": str(told.fileno()), "FAULT_GROWTH": str(refused)}
            try:
                ran = run(self.path, words, given, env=own, pass_fds=[told.fileno()], timeout=SECONDS)
            except subprocess.TimeoutExpired:
                ran = Ran(-1, "", f"it hasn't ended after {SECONDS} seconds")
            told.seek(0)
            return Told(*ran, told.read().decode())


def library(folder: Path) -> Path:
    """The library, which the C compiler builds."""
    words = [*shlex.split(os.environ.get("CC", "cc")), "-O2", "-Wall", "-Wextra", "-Werror", "-shared", "-fPIC"]
    subprocess.run([*words, "-o", folder / "faults.so", TOP / "gate" / "faults.c"], check=True)
    return folder / "faults.so"


class Case(NamedTuple):
    """Words, what is read, and what the outputs of two runs have in common: all, or what races have."""

    words: str
    read: str
    alike: str = "all"
    # the status behind a fault
    status: int = 1
    # whether it is promised to start threads, so that some refused growth is a thread's
    starts: bool = False
    # whether its calls wait for those of other threads: where one can't be made it ends as if memory were wanted
    waits: bool = False
    # where this is a number, some run that lacks memory has written lines, and fewer than so many
    lines: int = 0

    def agrees(self, out: str, right: str, is_whole: bool) -> bool:
        """Whether an output is right, or the front of one that is. Of races each line is that of a closed one, in order; the traces of two
        races are alike in their first line alone."""
        if self.alike == "header":
            header = right.split("\n")[0]
            return header.startswith(out[: len(header)])
        if self.alike == "races":
            missing = right.count("\n") - out.count("\n")
            return closed(out) is not None and (missing == 0 or missing > 0 and not is_whole)
        return out == right if is_whole else right.startswith(out)

    def is_whole(self, right: Told, told: Told) -> bool:
        """Whether a run is right to its end. One may be that was refused memory: a list that is collected is begun anew with less room."""
        return (told.status, told.err) == (right.status, right.err) and self.agrees(told.out, right.out, True)

    def is_late(self, told: Told) -> bool:
        """Whether a race says that a call waited for one of a task whose thread wasn't made."""
        return self.waits and (told.status, told.err) == (1, "") and bool(LATE.fullmatch(told.out))

    def fault(self, right: Told, told: Told) -> str | None:
        """What is wrong with a run beside the right one, if anything is."""
        is_alone = self.waits and told.faults == "t"
        if len(told.faults) < 2 and (self.is_late(told) if is_alone else self.is_whole(right, told)):
            return None
        if told.faults != "m":
            return f"status {told.status}, {told.err!r} and {told.out[-100:]!r}, where {told.faults!r} was refused"
        if self.is_late(told):
            return None
        has_objects = "--json" in self.words and self.words.split()[0] not in ("explain", "replay")
        # (without memory for the words no command is known)
        if told.status not in (1, self.status) or told.err not in (FAILED, *([FAILED_WRITE] if has_objects else [])):
            return f"status {told.status}, and on standard error {told.err!r}"
        return None if self.agrees(told.out, right.out, False) else f"its output is no front of the right one: {told.out[-100:]!r}"

    def missing(self, right: Told, several: list[Told]) -> Iterator[str]:
        """What has to come of some of its runs, and came of none."""
        failed = [it for it in several if it.faults]
        if self.starts and not any(it.faults == "t" for it in failed):
            yield "it starts no thread"
        if self.lines and not any(it.err == FAILED and 0 < it.out.count("\n") < self.lines for it in failed):
            yield "where it lacks memory it never shows what came before"
        whole = sum(it.faults == "m" and self.is_whole(right, it) for it in failed)
        if whole * 3 > len(failed):
            yield f"of {len(failed)} failures {whole} are not told"


class Story(NamedTuple):
    """A story: what is read; and of what is told, from some words on and but for what was tried again: where nothing fails (`out`), where
    no second thread can be made (`apart`), where memory is refused to what isn't tried again (`also`), and what is told in some run."""

    read: str
    out: str
    apart: str | None = None
    also: tuple[str, ...] = ()
    brought: tuple[str, ...] = ()
    begins: str = ""
    words: str = ""

    def fault(self, _: Told, told: Told) -> str | None:
        """What is wrong with a story that was told, if anything is."""
        if len(told.faults) > 1 or (told.status, told.err) != (0, ""):
            return f"status {told.status}, on standard error {told.err!r}, faults {told.faults!r}"
        retried = told.out.count("out of memory")
        if retried > (told.faults == "m"):
            return f"it tells of what wasn't refused: {told.out[-100:]!r}"
        # (before a thread is started memory is taken for it too)
        allowed = {"t": [self.apart], "m": [self.out, *(self.also if retried else [self.apart])]}.get(told.faults, [self.out])
        kept = RETRIED.sub("", told.out[told.out.find(self.begins) :])
        return None if kept in allowed else f"its output isn't right: {told.out[-100:]!r}"

    def missing(self, _: Told, several: list[Told]) -> Iterator[str]:
        yield from (f"in no run is told {it!r}" for it in self.brought if not any(it in told.out for told in several))


def crowd(tasks: int) -> str:
    """A script in which many tasks store to the pages of one file."""
    lines = [f"pool 8 2 4 {tasks}", *(f"begin {task} mapn 0 0 4" for task in range(1, tasks + 1))]
    lines += [f"begin {task} store {task % 4} {task}" for task in range(1, tasks + 1)]
    return "".join(f"{line}\n" for line in [*lines, "begin 1 trunc 0 2", "begin 2 punch 0 0 1"])


# what a person writes: comments, repeated steps, and steps up to a phase
LOOSE = "# by hand\n\npool 4 1 4 1\n begin 1 map 0 0 1\nstep 1 *3\nstep 1 until ended\nbegin 1 store 0 7\nstep 1 until taken\n"
# a trace that is a script
SMALL = "pool 4 1 4 1\nbegin 1 map 0 0 1\n"
# a state with which much is wrong
PICTURE = "picture 1 0 0 0\n" + "".join(f"hand {it // 2}\n" for it in range(600)) + "end\n"


def cases() -> Iterator[Case]:
    """What is run."""
    wide, script = example("calls-in-flight.trace"), example("truncate-against-store.script")
    for name in ("calls-in-flight", "alloc-punch-and-store-under-a-quota", "resize-keeps-reserved-frames"):
        trace = example(f"{name}.trace")
        yield Case("replay", trace, lines=trace.count("\n") - 1)
    yield Case("replay", example("a-bad-line.trace"))
    yield Case("draw", example("quota-goes-to-the-map.trace"))
    reads = {"trace": wide, "script": script, "picture": PICTURE, "nothing": ""}
    # (where there is one processor runs are explored by no second thread)
    explores = (os.cpu_count() or 1) > 1
    for kind, words in ((kind, words) for kind, several in WORDS.items() for words in several):
        command = words.split()[0]
        alike = "header" if words == "race --trace" else "races" if command == "race" else "all"
        is_search = command in ("find", "minimize") or "--every" in words
        starts = command == "race" or explores and command == "explore" and not is_search
        yield Case(words, SMALL if is_search else reads[kind], alike, status_of(words), starts)
    yield Case("find --seed 7 --answer 1:2=beyond", script, status=2, starts=explores)
    yield Case("minimize --answer 1:2=beyond", example("truncate-overtakes-a-store.trace"), status=2)
    for words in ("replay --help", "nothing", "replay --all", "explain --lines 4..3", "explain --tasks 65", "format", "step"):
        yield Case(words, LOOSE)
    workloads = re.findall(r"^  ([\w-]+) {2,}\w", run(tested(), "work --help").out.partition("The workloads")[2], re.M)
    yield from (Case(f"work {name}", "") for name in workloads)
    yield from (Case(f"work {name} --on pool", "", starts=True) for name in ("shared", "alloc-instantiate-race"))
    for words in ("explore --seed 7 --runs 3 --deny 100 --kill 10", "explore --summary --runs 3 --deny 100 --kill 10"):
        yield Case(words, script, starts=explores)
    yield Case("explore --runs 2 --audit", crowd(6), starts=explores)
    # (the lines of the first part are written while the second is explored)
    yield Case("explore --runs 513", "pool 1 1 1 1\n", starts=explores, lines=513)
    yield Case("race --times 2", script, "races", starts=True, lines=2)
    yield from (Case(f"race --times 1 {words}", script, "races", starts=True) for words in ("--cut 2", "--deny 100 --kill 200"))
    yield Case("race --times 1", example("truncate-after-store.script"), "races", starts=True, waits=True)
    yield Case("race --times 1", crowd(12), "races", starts=True)


def stories() -> Iterator[Story]:
    """What hp_memory_tests reads, and tells: stories of its own, and traces of examples/."""
    for it in tomllib.loads(STORIES.read_text(encoding="utf-8"))["story"]:
        yield Story(**it)
    for file in sorted((TOP / "examples").rglob("*.out")):
        if not file.with_suffix(".err").exists():
            yield Story(*(file.with_suffix(it).read_text(encoding="utf-8") for it in (".trace", ".out")))


def runs(program: Program, case: Case | Story, pool: ThreadPoolExecutor) -> Iterator[Told]:
    """The runs in which the 1st growth is refused, the 2nd, and so on, up to one that meets no refusal."""
    step = os.cpu_count() or 1
    for first in range(1, MOST, step):
        for told in pool.map(lambda number: program.told(case.words, case.read, number), range(first, first + step)):
            yield told
            if not told.faults:
                return


def faults(program: Program, case: Case | Story, pool: ThreadPoolExecutor) -> tuple[int, list[str]]:
    """How many growths were refused, and what was wrong with the runs."""
    name = f"{program.path.name} {case.words}".strip() + f" {case.read[:20]!r}"
    right = program.told(case.words, case.read)
    if right.faults or case.fault(right, right):
        return 0, [f"{name}: where nothing fails it tells {right.out[-100:]!r}, and on standard error {right.err!r}"]
    several = [*runs(program, case, pool)]
    found = [f"{name}: growth {number}: {wrong}" for number, told in enumerate(several, 1) if (wrong := case.fault(right, told))]
    found += [f"{name}: {it}" for it in case.missing(right, several)]
    if len(several) == 1 or several[-1].faults:
        found.append(f"{name}: of its {len(several)} runs the last was refused {several[-1].faults!r}")
    return len(several) - 1, found


def threads_tried(program: Program) -> Iterator[tuple[str, bool]]:
    """How many threads commands start. (The first thread races, too.)"""
    # (no call of these scripts waits for another)
    even = lambda tasks, calls: f"pool 1 1 1 {tasks}\n" + "".join(f"begin {task} load 0\n" for task in range(1, tasks + 1)) * calls
    tasks, calls, trace = 12, 6, example("calls-in-flight.trace")
    script, most, long = even(tasks, calls), even(64, 1), even(2, 2_002)
    rows = [("race --times 1", script, tasks - 1), ("race --times 3", script, 3 * (tasks - 1)), ("race --trace", script, tasks - 1)]
    rows += [(f"race --times 1 --cut {cut}", script, -(-calls // cut) * (tasks - 1)) for cut in (1, 2, 4, calls - 1, calls, 65_536)]
    rows += [("race --times 1", most, 63), ("race --times 1 --cut 2002", long, 1), ("race --times 1 --cut 1001", long, 2)]
    for name, several in (("readback", 3), ("shared", 6), ("alloc-instantiate-race", 4), ("counters", 6)):
        rows += [(f"work {name}", "", 0), (f"work {name} --on core", "", 0), (f"work {name} --on pool", "", several)]
    for words, read, wanted in [*rows, *((words, trace, 0) for words in ("replay", "explain", "draw", "check"))]:
        told = program.told(words, read, TELL_THREADS)
        yield f"{words} starts {wanted} threads: {told._replace(out='')}", (told.status, told.err, told.faults) == (0, "", "s" * wanted)


def halves_tried(program: Program) -> Iterator[tuple[str, bool]]:
    """Whether a search that is given no limit of memory takes half of what Linux says is free, in whose place a file says it."""
    stores = "".join(f"begin {task} map 0 0 2\nbegin {task} store {task % 2} 1\n" for task in range(1, 5))
    for words in ("find --every --answer 1:1=segv", "explore --every", "schedule --every"):
        limits = [program.told(f"{words} --memory {mib}", f"pool 4 1 4 4\n{stores}") for mib in (1, 2)]
        yield f"{words}: each limit cuts it, and elsewhere", [it.status for it in limits] == [3, 3] and limits[0].err != limits[1].err
        for kib, wanted in zip((2048, 4096), limits):
            with tempfile.NamedTemporaryFile("w") as free:
                print(f"MemTotal: 9 kB\nMemFree: 9 kB\nMemAvailable: {kib:>9} kB", file=free, flush=True)
                told = program.told(words, f"pool 4 1 4 4\n{stores}", FAULT_MEMORY=free.name)
            yield f"{words}: of {kib} KiB half are taken", told == wanted


def sleeps(program: Path) -> bool:
    """Whether a task that waits for another's call sleeps: in half a minute at some time no thread of the program ran for a quarter of a
    second, and each slept."""
    with subprocess.Popen([program], stdin=subprocess.PIPE, stdout=subprocess.DEVNULL) as waits:
        files = lambda: Path(f"/proc/{waits.pid}/task").glob("*/status")
        looked = lambda: [re.findall(r"^(?:State|\w+_switches):\s*(\w+)", it.read_text(), re.M) for it in files()]
        looks = ((looked(), time.sleep(0.25), looked()) for _ in range(120))
        return any(before == after and [it[0] for it in before] == ["S", "S"] for before, _, after in looks)


def most_at_once(program: Path, script: str) -> int:
    """How many calls a race of this script has in flight at once, at the most."""
    trace = run(program, "race --trace", script).out
    busy: set[str] = set()
    most = 0
    for event, outcome in zip(trace.splitlines()[1:], run(program, "replay", trace).out.splitlines()):
        task = event.split()[1]
        busy = busy | {task} if outcome == "begun" else busy - {task} if outcome.startswith("ended") else busy
        most = max(most, len(busy))
    return most


def audits_tried(program: Program) -> Iterator[tuple[str, bool]]:
    """Whether each run is audited, which takes memory for a picture after each turn. (Runs of one task are alike.)"""
    begins = "pool 64 1 64 1\nbegin 1 alloc 0 0 8\nbegin 1 punch 0 0 8\n"
    # (the least number that isn't refused)
    growths = lambda words: bisect_left(range(MOST), True, lo=1, key=lambda number: not program.told(words, begins, number).faults)
    more = lambda runs: growths(f"explore --audit --runs {runs}") - growths(f"explore --runs {runs}")
    one, four = more(1), more(4)
    yield f"each of four runs is audited ({one} growths for one, {four} for four)", four > 3 * one > 30


def refusals(program: Program, several: Iterable[Case | Story], pool: ThreadPoolExecutor) -> Iterator[tuple[str, bool]]:
    """Whether each case ends as it should where one of its growths is refused."""
    counts = []
    for case in several:
        count, found = faults(program, case, pool)
        counts.append(count)
        yield "; ".join(found[:3]), not found
    print(f"growths: {sum(counts)} growths of {program.path.name} were refused, one a run")


def tries(loaded: Path, pool: ThreadPoolExecutor) -> Iterator[tuple[str, bool]]:
    """What is tried, and whether it went as it should."""
    program, teller, waits = Program(tested(), loaded), Program(program_of("hp_memory_tests"), loaded), program_of("hp_pool_bench")
    yield "each command is run", {words.split()[0] for several in WORDS.values() for words in several} >= {*commands()} - {"help"}
    if is_proved():
        yield from refusals(program, cases(), pool)
        yield from audits_tried(program)
        yield from halves_tried(program)
    else:
        print("left out: failed allocations of commands, and searches to their limits: they need the proved program")
    if is_current(teller.path, "hp_memory_tests") and is_current(waits, "hp_pool_bench"):
        yield from refusals(teller, stories(), pool)
        yield "a task that waits for another's call sleeps", sleeps(waits)
    else:
        print("left out: failed allocations in scenarios, and a task that waits: they need proved programs of their own (./check all)")
    yield from threads_tried(program)
    for tasks in (2, 12, 64):
        is_so = any(most_at_once(program.path, crowd(tasks)) == tasks for _ in range(RACES))
        yield f"all {tasks} tasks of a race have calls in flight at once", is_so


if __name__ == "__main__":
    with tempfile.TemporaryDirectory(prefix="growths-") as name, ThreadPoolExecutor(os.cpu_count() or 1) as pool:
        sys.exit(report("growths", tries(library(Path(name)), pool)))
