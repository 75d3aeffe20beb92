#!/usr/bin/env python3
"""Runs the program at every size: each number of tasks, files and slots, and reserve maps, caches and tables that grow one by one.

What it writes is compared with what the plain programs of bench/plain write, which share no line with it, or with counts that
follow from the tables: a call that waits for nobody makes the same steps whatever the size. So a program that gives up, or goes
astray, at some size that no example has is noticed. Needs cargo, which builds the plain programs.

At last 8 tasks race a long script of calls of all kinds in threads, whole and cut: each race has to be closed. (Longer ones, with kills,
are those of `crates/hp_pool_tests`. That a trace of a race is that race is proved.)

The program that is compiled without proof takes up to 60 times as long: it is tried at fewer sizes.
"""
from __future__ import annotations

import os
import re
import subprocess
import sys
from concurrent.futures import ThreadPoolExecutor
from pathlib import Path
from typing import Iterable, Iterator

from programs import TOP, Ran, closed, is_proved, report, run, tested

PLAIN = TOP / "bench" / "plain"
# the largest pool
FRAMES, FILES, SLOTS, TASKS, LIMIT, PAGES = 4_096, 16, 64, 64, 4_096, 16_384
# seeds at the ends of 64 and 63 bits, and in between
SEEDS = [0, 1, 2**32, 2**63 - 1, 2**63, 2**63 + 12_345, 2**64 - 1]
# chances, of a thousand, at both ends and in pairs
CHANCES = [(0, 0), (1, 0), (0, 1), (999, 999), (1000, 0), (0, 1000), (500, 501), (501, 500), (1000, 1000)]
# steps that are more than any call of a page makes
ENOUGH = 20
# the bytes in which a trace of any length is replayed
MEMORY = 4_000_000


def text(lines: Iterable[str]) -> str:
    return "".join(f"{line}\n" for line in lines)


def calls_of(task: int, file: int, index: int) -> list[str]:
    """What a task does with a page of a file: it maps, stores, loads and unmaps it, allocates two others, and punches all."""
    page, next_page, last = (f"{file} {it} 1" for it in (index, 2_000 + index, LIMIT - 1 - index))
    return [
        *(f"map {page}", "store 0 7", "load 0", f"alloc {last}", "unmap 0", f"mapn {page}", "store 0 8", f"allock {next_page}"),
        *(f"punch {page}", f"punch {next_page}", f"punch {last}", "load 0", f"trunc {file} {task}"),
    ]


def crowd(frames: int, files: int, slots: int, tasks: int) -> tuple[str, list[list[str]]]:
    """The header of a pool, and the calls of each task in it."""
    each = [calls_of(task, task * 7 % files, task * 31 % 200) for task in range(1, tasks + 1)]
    return f"pool {frames} {files} {slots} {tasks}", each


def in_turn(header: str, each: list[list[str]]) -> str:
    """A trace in which all tasks make their calls at once, step by step in turn; then all but the first are killed, and all exit."""
    lines = [header]
    for calls in zip(*each):
        lines += [f"begin {task} {call}" for task, call in enumerate(calls, 1)]
        for step in range(9):
            lines += [f"{'deny' if step % 5 == 4 and task % 3 == 0 else 'step'} {task}" for task in range(1, len(each) + 1)]
    lines += [f"kill {task}" for task in range(2, len(each) + 1)] + [f"begin {task} exit" for task in range(1, len(each) + 1)]
    return text([*lines, *(f"step {task}" for _ in range(60) for task in range(1, len(each) + 1))])


def script(header: str, each: list[list[str]]) -> str:
    return text([header, *(f"begin {task} {call}" for task, calls in enumerate(each, 1) for call in calls)])


def alone(header: str, calls: list[str]) -> str:
    """A trace in which one task makes these calls, each to its end. (An exit makes two steps for each mapping.)"""
    steps = lambda call: ENOUGH + 2 * len(calls) * (call == "exit")
    return text([header, *(line for call in calls for line in (f"begin 1 {call}", *["step 1"] * steps(call)))])


def growing() -> dict[str, tuple[str, list[str]]]:
    """Calls by which a reserve map, a cache, a file and a table grow one by one to their ends, and shrink again."""
    every, other = range(LIMIT), range(0, LIMIT, 2)
    return {
        "regions": ("pool 4096 1 1 1", [f"allock 0 {i} 1" for i in other] + [f"punch 0 {i} 1" for i in other]),
        "pages": ("pool 4096 1 64 1", [f"alloc 0 {i} 1" for i in every] + [f"punch 0 {i} 1" for i in reversed(every)]),
        "entries": ("pool 4096 2 64 1", [call for v in every for call in (f"mapn 1 {v} 1", f"store {v} {v}")] + ["exit"]),
        "sizes": ("pool 1 1 1 1", [f"trunc 0 {n}" for n in (*range(LIMIT + 1), *reversed(range(LIMIT)))]),
        "mappings": ("pool 1 16 64 1", [f"mapn {v % FILES} {v % LIMIT} 1" for v in range(PAGES)] + ["mapn 0 0 1", "unmap 9999", "exit"]),
    }


def plain(name: str, words: str, read: str) -> Ran:
    return run(PLAIN / "target" / "release" / name, words, read)


def is_like_plain(program: Path, words: str, name: str, read: str, plain_words: str = "") -> bool:
    """Whether the program writes what the plain one does, and ends well."""
    ours, theirs = run(program, words, read), plain(name, plain_words, read)
    return ours == theirs and ours.status == 0


def ending(told: str) -> tuple[int, ...]:
    """How many events of a replay changed the pool, being neither blocked nor refused; and its free frames and reserve count at the end."""
    made = sum(line.split()[0] in ("begun", "moved", "ended", "marked", "resized") for line in told.splitlines())
    return (made, *map(int, re.search(r"^free (\d+) resv (\d+)", told, re.MULTILINE).groups()))


def raced(program: Path, words: str, read: str) -> tuple[int, ...]:
    """The entries, free frames and reserve count of one race, if it was closed."""
    ran = run(program, f"race --times 1{words}", read)
    return next(iter(closed(ran.out) or [()])) if ran.status == 0 else ()


def sizes(program: Path) -> Iterator[tuple[str, bool]]:
    """Each number of tasks, of files and of slots: by a trace, by the words about it, and by runs of a script."""
    pools = [(64, 1 + tasks % FILES, tasks, tasks) for tasks in range(1, TASKS + 1)]
    pools = pools if is_proved() else pools[:8] + pools[-1:]
    pools += [(16, files, SLOTS, 4) for files in range(1, FILES + 1)]
    pools += [(16, 2, slots, 4) for slots in range(1, SLOTS + 1, 1 if is_proved() else 9)]
    for pool in pools:
        header, each = crowd(*pool)
        trace, calls = in_turn(header, each), script(header, each)
        yield f"{header}: replayed", is_like_plain(program, "replay", "simulate", trace)
        if pool[3] % 8 in (0, 1) or pool in pools[TASKS :: 9]:
            yield f"{header}: explained", is_like_plain(program, "explain", "explain", trace)
            yield f"{header}: drawn", run(program, "draw", trace).out.endswith("</svg>\n")
            yield f"{header}: explored", is_like_plain(program, "explore --runs 2", "explore", calls, "--runs 2")


def grown(program: Path) -> Iterator[tuple[str, bool]]:
    """Each size that something grows to, one by one; and a copy of it there, which a cut makes."""
    for name, (header, calls) in growing().items():
        trace, begins = alone(header, calls), script(header, [calls])
        told = plain("simulate", "", trace).out
        yield f"{name}, one by one", run(program, "replay", trace) == Ran(0, told, "")
        for cut in "", " --cut 1", f" --cut {len(calls) - 1}":
            yield f"{name}, raced{cut}: {ending(told)}", raced(program, cut, begins) == ending(told)


def chances(program: Path) -> Iterator[tuple[str, bool]]:
    """Seeds and chances at their ends."""
    begins = script(*crowd(4, 2, 2, 5))
    words = [f"--seed {seed} --deny 100 --kill 20" for seed in SEEDS] + [f"--seed 7 --deny {deny} --kill {kill}" for deny, kill in CHANCES]
    for it in words:
        found = run(program, f"explore {it} --runs 5", begins)
        yield f"explore {it}", found == plain("explore", f"{it} --runs 5", begins)


def crowds(program: Path) -> Iterator[tuple[str, bool]]:
    """Races of each number of tasks, of which each has a page of its own: mapped by five holds that change the pool, stored to by ten."""
    for tasks in range(1, TASKS + 1):
        calls = [[f"mapn {task % FILES} {task} 1", f"store 0 {task}"] for task in range(1, tasks + 1)]
        read, wanted = script(f"pool {FRAMES} {FILES} {SLOTS} {tasks}", calls), (15 * tasks, FRAMES - tasks, 0)
        yield f"{tasks} tasks, each with a page of its own", raced(program, "", read) == wanted
        if tasks % 16 == 0:
            yield f"{tasks} tasks, and a cut between", raced(program, " --cut 1", read) == wanted


def costs(program: Path) -> Iterator[tuple[str, bool]]:
    """That nothing is kept for ever: a million events need no more than a few megabytes."""
    one = ["begin 1 mapn 0 0 1", *["step 1"] * 4, "begin 1 store 0 7", *["step 1"] * 9, "begin 1 punch 0 0 1", *["step 1"] * 9]
    one += ["begin 1 unmap 0", *["step 1"] * 3]
    many = text(["pool 1 1 1 1", *one * (1_000_000 // len(one))])
    how = {"input": many.encode(), "stdout": subprocess.DEVNULL, "stderr": subprocess.PIPE}
    ran = subprocess.run(["prlimit", f"--data={MEMORY}", program, "replay"], **how)
    yield f"a million events take no more than {MEMORY} bytes: {ran.stderr.decode()}", ran.returncode == 0


def long_traces(program: Path) -> Iterator[tuple[str, bool]]:
    """Traces of many events, in each command that reads one; and races in many parts."""
    turns = ["begin 1 map 0 0 2", *["step 1"] * 8, "begin 2 store 0 7", *["step 2"] * 3, "kill 3", "begin 1 unmap 0", *["step 1"] * 4]
    events = (turns * (65_537 // len(turns) + 1))[:65_537]
    trace = text(["pool 4 1 4 3", *events])
    yield "65,537 events are replayed", is_like_plain(program, "replay", "simulate", trace)
    yield "65,537 events are explained", is_like_plain(program, "explain", "explain", trace)
    yield "65,537 events are drawn", run(program, "draw", trace).out.endswith("</svg>\n")
    loads = text(["pool 1 1 1 1", *["begin 1 load 0"] * 4_000])
    words = text(["pool 4 1 1 1", "begin 1 map 0 0 2", "begin 1 store 0 7", *["begin 1 load 0"] * 600_000])
    for cut in ("", " --cut 65536"):
        yield f"1,200,018 entries{cut}", raced(program, cut, words) == (8 + 10 + 1_200_000, 3, 1)
    for cut in (1, 2, 999, 1_000, 1_001, 3_999, 4_000, 65_536):
        yield f"4,000 loads that find no mapping, cut behind {cut} of them", raced(program, f" --cut {cut}", loads) == (8_000, 1, 0)


def soaked(program: Path) -> Iterator[tuple[str, bool]]:
    """A long race in threads, of calls of all kinds."""
    header, each = crowd(24, 3, 8, 8)
    # (beside other processes each wait of a thread takes milliseconds, so a longer one takes minutes)
    asked = script(header, [[*calls * (200 if is_proved() else 20), "exit"] for calls in each])
    for cut in ("", " --cut 1000"):
        yield f"a long race{cut} is closed", bool(raced(program, cut, asked))


def tries(program: Path, pool: ThreadPoolExecutor) -> Iterator[tuple[str, bool]]:
    """What is tried, and whether it went as it should."""
    slow = (crowds, grown, long_traces, costs)
    parts = (*(slow if is_proved() else ()), sizes, chances, soaked)
    for found in pool.map(lambda part: [*part(program)], parts):
        yield from found
    print("" if is_proved() else "left out: the largest sizes, long traces and costs: they need the proved program\n", end="")


def main() -> int:
    subprocess.run(["cargo", "build", "--quiet", "--release", "--manifest-path", PLAIN / "Cargo.toml"], check=True)
    with ThreadPoolExecutor(os.cpu_count() or 1) as pool:
        return report("sweep", tries(tested(), pool))


if __name__ == "__main__":
    sys.exit(main())
