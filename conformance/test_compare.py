#!/usr/bin/env python3
"""Compares programs that are wrong with what a Linux kernel answered: what ends a script early has to excuse none of them.

Each is the program of this repository with some of its words for others, or some lines of what it reads. On which scripts
it has to differ, and which alone may end at the known difference, stands in `EXPECTED`, for those of calls-fixed.txt, and
in `EXPECTED_OF_QUOTAS` and `EXPECTED_OF_RESIZES`, for those of calls-quota.txt and calls-resize.txt.
"""
from __future__ import annotations

import contextlib
import io
import re
import sys
import tempfile
from pathlib import Path
from typing import Iterator

import compare
from compare import KNOWN, LIMIT, Program

SCRIPTS = Path(__file__).resolve().parent / "calls-fixed.txt"
SCRIPTS_OF_QUOTAS = SCRIPTS.with_name("calls-quota.txt")
SCRIPTS_OF_RESIZES = SCRIPTS.with_name("calls-resize.txt")
# the calls with bytes that the tests of hp_pool make, which can read no file
BYTE_CALLS = SCRIPTS.parents[1] / "crates" / "hp_pool_tests" / "src" / "byte_calls.rt"
# they come to a touch of a page that is cached at or above the size
PAST_THE_END = {"d:smallest", "d:touch-of-a-cached-page-past-the-end", "d:translation-past-the-end"}
# a task touches a page below the size that is cached, and that it hasn't touched before
SHARED = {"w:shared", "w:alloc-instantiate-race", "truncate-of-two-mapped-pages"}
# too few frames are free, and the pool has no quota
SHORT = {"w:chunk-overcommit", "w:noresv-preserve-resv-page", "map-five-of-four", "unreserved-touch-leaves-the-reservation", "alloc-beyond-the-pool"}
# the quota is used up
USED_UP = {"q:map-over-the-quota", "q:alloc-punch-and-store", "q:zero"}
# a resize leaves a surplus
SURPLUS = {"z:keeps-reserved-frames", "z:in-use", "z:grow-takes-surplus-first"}
# touches of cached pages above the size, before or after a resize
PAST_THE_END_RESIZED = {"resize4.2", "resize4.8"}


def with_other_words(pattern: str, words: str) -> Program:
    """The program, but what matches the pattern it writes in other words."""
    return lambda trace: re.sub(pattern, words, "\n".join(compare.replayed(trace))).splitlines()


def is_raised(trace: list[str]) -> bool:
    """Whether a file was truncated to the limit."""
    return any(re.search(rf" trunc \d+ {LIMIT}$", line) for line in trace)


def until_a_size_is_raised(program: Program) -> Program:
    """That program, but the right one once a file was truncated to the limit."""
    return lambda trace: (compare.replayed if is_raised(trace) else program)(trace)


def once_a_size_is_raised(program: Program) -> Program:
    """The right program, but that one once a file was truncated to the limit."""
    return lambda trace: (program if is_raised(trace) else compare.replayed)(trace)


def each_resize(frames: str) -> Program:
    """The program, but each resize asks for so many frames."""
    return lambda trace: compare.replayed([re.sub(r"resize (\d+)", frames, line) for line in trace])


def told_as_asked(trace: list[str]) -> list[str]:
    """What the program writes, but each resize tells what it was asked for."""
    asked = iter(line.removeprefix("resize ") for line in trace if line.startswith("resize "))
    return [f"resized {next(asked)}" if line.startswith("resized ") else line for line in compare.replayed(trace)]


all_beyond = with_other_words(r"(begun|moved found\nmoved leave)\nended (?:word \d+|done)", r"\1\nended beyond")
cached_beyond = with_other_words(r"locked\nmoved found\nmoved leave\nended .*", r"locked\nmoved leave\nended beyond\nrefused idle")
found_first = with_other_words(r"locked\nmoved leave\nended beyond\nrefused idle", r"locked\nmoved found\nmoved leave\nended beyond")
none_found = with_other_words(r"locked\nmoved found", r"locked\nmoved missing")
none_entered = with_other_words(r"(task .* entries) \d+", r"\1 0")
one_more_free = with_other_words(r"free (\d+) resv", r"free 1\1 resv")

# what is wrong, the program, the scripts on which it has to differ, and those that end at the known difference
EXPECTED = [
    ("nothing is wrong", compare.replayed, set(), PAST_THE_END),
    ("each touch that is answered the word is answered beyond", all_beyond, PAST_THE_END | SHARED, set()),
    ("a touch of a cached page is answered beyond below the limit", until_a_size_is_raised(cached_beyond), SHARED, PAST_THE_END),
    ("a touch looks for the page before it looks at the size", found_first, PAST_THE_END, set()),
    ("a touch finds no page", none_found, PAST_THE_END, set()),
    ("no translation is entered", none_entered, PAST_THE_END | SHARED, set()),
    ("a touch of a cached page past the end tells another free count", once_a_size_is_raised(one_more_free), PAST_THE_END, set()),
    ("want of frames is told as want of quota", with_other_words(r"ended noframe", "ended noquota"), SHORT, PAST_THE_END),
]
EXPECTED_OF_QUOTAS = [
    ("want of quota is answered well", with_other_words(r"ended noquota", "ended done"), USED_UP, set()),
    ("one page too many is told as used", with_other_words(r" used (\d+)", r" used 1\1"), USED_UP, set()),
]
EXPECTED_OF_RESIZES = [
    ("resizes are right", compare.replayed, set(), PAST_THE_END_RESIZED),
    ("a resize tells what it was asked for", told_as_asked, SURPLUS, PAST_THE_END_RESIZED),
    ("a resize brings in more frames", each_resize(r"resize 1\1"), SURPLUS | {"z:room-only", "resize4.8"}, {"resize4.2"}),
]

# some calls, and which file and index a task's virtual pages show then
CALLS = [
    "begin 1 map 0 7 2 = mapped 0 |",
    "begin 2 map 0 5 9 = mapped 0 |",
    "begin 1 mapn 1 3 2 = mapped 2 |",
    "begin 1 unmap 0 = done |",
    "begin 1 map 2 0 1 = mapped 0 |",
]
PLACES = {("1", 0): (2, 0), ("1", 3): (1, 4), ("1", 4): None, ("2", 8): (0, 13)}


def endings(program: Program, file: Path) -> tuple[set[str], set[str]]:
    """The names of the file's scripts on which a program differs, and of those that end at the known difference."""
    ends = {script.name: compare.compare(program, script)[1] for script in compare.scripts(file)}
    return {name for name, end in ends.items() if end not in (None, KNOWN, compare.SURPLUS)}, {name for name, end in ends.items() if end == KNOWN}


# what is expected on the scripts of each file
EXPECTATIONS = ((SCRIPTS, EXPECTED), (SCRIPTS_OF_QUOTAS, EXPECTED_OF_QUOTAS), (SCRIPTS_OF_RESIZES, EXPECTED_OF_RESIZES))


# what a kernel may say of a load that finds no mapping, in a pool from which a resize took a frame, and the status that this brings
STATUSES = {
    "segv | 1 0 | 0 0 | 0 | total 1 surplus 0": 0,
    "done | 1 0 | 0 0 | 0 | total 1 surplus 0": 1,
    "segv | 2 0 | 0 0 | 0 | total 1 surplus 0": 1,
    "segv | 1 0 | 0 0 | 0 | total 2 surplus 0": 1,
}


def status_of(said: str) -> int:
    """With which status a file is compared in which a kernel says that of a load."""
    resized = "resize 1 = resized 1 | 1 0 | 0 0 | 0 | total 1 surplus 0"
    with tempfile.TemporaryDirectory(prefix="compare-") as name, contextlib.redirect_stdout(io.StringIO()):
        file = Path(name, "file")
        file.write_text(f"script a\npool 2 1 1 1\n{resized}\nbegin 1 load 0 = {said}\nend\n", encoding="utf-8")
        return compare.main([file])


def unrecorded_byte_calls() -> Iterator[str]:
    """What the byte calls of the pool's tests have that isn't recorded, script by script and in order."""
    scripts = BYTE_CALLS.read_text(encoding="utf-8").partition('const ANSWERS: &str = "')[2].partition('";')[0].replace("\\n\\\n", "\n").split("script ")[1:]
    yield from [] if scripts else ["no byte calls are read"]
    for script in scripts:
        name, *lines = script.removesuffix("\\n").splitlines()
        recorded = iter(SCRIPTS.read_text(encoding="utf-8").partition(f"script {name}\n")[2].partition("\nend ")[0].splitlines())
        # (each line is looked for behind the one before)
        yield from (f"{BYTE_CALLS.name}: {name}: {line}: it isn't recorded so" for line in lines if line not in recorded)


def faults() -> Iterator[str]:
    """What the comparison doesn't tell, or tells where nothing is."""
    for said, status in STATUSES.items():
        if (found := status_of(said)) != status:
            yield f"where a kernel says {said} the status is {found}"
    yield from unrecorded_byte_calls()
    for (task, page), place in PLACES.items():
        if (found := compare.place_of(CALLS, task, page)) != place:
            yield f"page {page} of task {task} is reckoned to show {found}, and shows {place}"
    for name in compare.RECORDED:
        whole = list(compare.scripts(SCRIPTS.with_name(name)))
        shorter = compare.replace(whole[-1], lines=whole[-1].lines[:-1])
        if [len(compare.lost(name, it)) for it in (whole, whole[::2], [*whole[:-1], shorter], [])] != [0, 1, 1, 1]:
            yield f"{name}: that half of it, or its last call, or all is lost isn't told"
    for file, expected in EXPECTATIONS:
        for what, program, must_differ, may_be_known in expected:
            differ, known = endings(program, file)
            if not must_differ <= differ or known != may_be_known:
                yield f"{what}: it differs on {sorted(differ)}, and ends at the known difference on {sorted(known)}"


def main() -> int:
    compare.tested()
    found = list(faults())
    print("".join(f"  {it}\n" for it in found), end="")
    tried = 1 + len(STATUSES) + len(PLACES) + len(compare.RECORDED) + sum(len(expected) for _, expected in EXPECTATIONS)
    print(f"wrong programs told: {tried - len(found)} passed, {len(found)} failed")
    return 1 if found else 0


if __name__ == "__main__":
    sys.exit(main())
