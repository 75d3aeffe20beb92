#!/usr/bin/env python3
"""Tests ./kernel as far as that needs no boot: what a known issue explains, and above all what it doesn't.

Each case is a recording as a kernel would write it, made up or shortened, and how its comparison has to end: `new`, `agrees`, or the
name of a known issue. A case that a known issue explains has to be new once that issue's file is left out. The answers of the leaks
are those of leak scripts on 6.12.117, 6.16.12 and 7.3.4. The minimizer is tested with a made-up kernel that leaks.
"""
from __future__ import annotations

import errno
import os
import re
import signal
import subprocess
import sys
import tempfile
import time
from dataclasses import dataclass, replace
from pathlib import Path
from typing import Callable, Iterator
from unittest.mock import patch

import compare
import packages
import races
import tally
from compare import Script
from kernel import endings, kernels, machine, minimize, report, reproduce, shrinking, suites, testing
from kernel.differences import Comparison, Result
from kernel.known import Known, explains, faults, known_issues, release, translated
from kernel.minimize import Minimizer, minimized
from kernel.reproduce import Shown
from kernel.testing import Tested, parsed, version_of, wrong_counts

TOP = Path(__file__).resolve().parent.parent
SMALLEST = TOP / "conformance" / "live" / "smallest"
sys.path.append(str(TOP / "conformance" / "live"))

from events import placed  # noqa: E402
from linux_rows import REPAIRED, RULES, machine_of  # noqa: E402
from recordings import recordings  # noqa: E402

NEW_KERNEL, OLD_KERNEL, MIDDLE_KERNEL = "7.3.4", "6.12.117", "6.16.12"
# an error of the kernel, and no rule of the machine
NO_RULE = {"quota-leak.toml"}
LEAK, TOUCH, SURPLUS, RACE = "quota-leak", "cached-page-above-size", "surplus-at-shrink", "truncation-race"


@dataclass(frozen=True)
class Case:
    """A recording of one script, and how its comparison has to end."""

    what: str
    version: str
    lines: tuple[str, ...]
    ends: str


FULL = ("pool 1 2 4 1 8", "begin 1 alloc 0 0 1 = done | 0 0 | 1 1, 0 0 | 0 | used 1")
MAPPED = (*FULL, "begin 1 mapn 1 0 1 = mapped 0 | 0 0 | 1 1, 1 0 | 0 | used 1")
LEAKING = (*FULL, "begin 1 alloc 1 0 1 = noframe | 0 0 | 1 1, 0 0 | 0 | used 2")
REFUSED_MAP = (*FULL, "begin 1 map 1 0 2 = noframe | 0 0 | 1 1, 0 0 | 0 | used 3")
USED_UP = ("pool 4 1 4 1 1", "begin 1 alloc 0 0 1 = done | 3 0 | 1 1 | 0 | used 1")
ABOVE = ("pool 1 1 1 1", "begin 1 mapn 0 0 1 = mapped 0 | 1 0 | 1 0 | 0", "begin 1 trunc 0 0 = done | 1 0 | 0 0 | 0",
         "begin 1 allock 0 0 1 = done | 0 0 | 0 1 | 0")
BELOW = ("pool 1 1 1 1", "begin 1 mapn 0 0 1 = mapped 0 | 1 0 | 1 0 | 0")
IN_USE = ("pool 2 1 4 1", "begin 1 alloc 0 0 2 = done | 0 0 | 2 2 | 0")
SHRUNK = (*IN_USE, "resize 1 = resized 2 | 0 0 | 2 2 | 0 | total 2 surplus 1")

CASES = (
    Case("a refused fallocate leaks", NEW_KERNEL, LEAKING, LEAK),
    Case("a refused store leaks", MIDDLE_KERNEL, (*MAPPED, "begin 1 store 0 5 = noframe | 0 0 | 1 1, 1 0 | 0 | used 2"), LEAK),
    Case("a refused map leaks in 6.16", MIDDLE_KERNEL, REFUSED_MAP, LEAK),
    Case("nothing leaks", OLD_KERNEL, (*FULL, "begin 1 alloc 1 0 1 = noframe | 0 0 | 1 1, 0 0 | 0 | used 1"), "agrees"),
    Case("a fallocate leaks in a kernel that had no leak", OLD_KERNEL, LEAKING, "new"),
    Case("a fallocate leaks in a kernel without a version", "", LEAKING, "new"),
    Case("a map leaks in a kernel that leaks at faults only", NEW_KERNEL, REFUSED_MAP, "new"),
    Case("a map leaks one page there", NEW_KERNEL, (*FULL, "begin 1 map 1 0 1 = noframe | 0 0 | 1 1, 0 0 | 0 | used 2"), "new"),
    Case("a map leaks more than its pages", MIDDLE_KERNEL, (*REFUSED_MAP[:2], REFUSED_MAP[2].replace("used 3", "used 4")), "new"),
    Case("two pages leak", NEW_KERNEL, (*FULL, "begin 1 alloc 1 0 1 = noframe | 0 0 | 1 1, 0 0 | 0 | used 3"), "new"),
    Case("a used page is lost", NEW_KERNEL, (*FULL, "begin 1 alloc 1 0 1 = noframe | 0 0 | 1 1, 0 0 | 0 | used 0"), "new"),
    Case("a free frame appears beside the leak", NEW_KERNEL, (*FULL, "begin 1 alloc 1 0 1 = noframe | 1 0 | 1 1, 0 0 | 0 | used 2"), "new"),
    Case("a reservation is left beside the leak", NEW_KERNEL, (*FULL, "begin 1 alloc 1 0 1 = noframe | 0 1 | 1 1, 0 0 | 0 | used 2"), "new"),
    Case("the size grows beside the leak", NEW_KERNEL, (*FULL, "begin 1 alloc 1 0 1 = noframe | 0 0 | 1 1, 1 0 | 0 | used 2"), "new"),
    Case("the refused fallocate is done", NEW_KERNEL, (*FULL, "begin 1 alloc 1 0 1 = done | 0 0 | 1 1, 0 0 | 0 | used 2"), "new"),
    Case("a fallocate that is done leaks", NEW_KERNEL, (FULL[0], "begin 1 alloc 0 0 1 = done | 0 0 | 1 1, 0 0 | 0 | used 2"), "new"),
    Case("a punch leaks", NEW_KERNEL, (*FULL, "begin 1 punch 0 0 1 = done | 1 0 | 1 0, 0 0 | 0 | used 1"), "new"),
    Case("a truncation leaks", NEW_KERNEL, (*FULL, "begin 1 trunc 0 0 = done | 1 0 | 0 0, 0 0 | 0 | used 1"), "new"),
    Case("a fallocate above the quota leaks", NEW_KERNEL, (*USED_UP, "begin 1 alloc 0 1 1 = noframe | 3 0 | 1 1 | 0 | used 2"), "new"),
    Case("want of quota is noframe", NEW_KERNEL, (*USED_UP, "begin 1 alloc 0 1 1 = noframe | 3 0 | 1 1 | 0 | used 1"), "agrees"),
    Case("want of quota is done", NEW_KERNEL, (*USED_UP, "begin 1 alloc 0 1 1 = done | 3 0 | 1 1 | 0 | used 1"), "new"),
    Case("a touch finds the page above the size", NEW_KERNEL, (*ABOVE, "begin 1 load 0 = word 0 | 0 0 | 0 1 | 1"), TOUCH),
    Case("a touch above the size is beyond", NEW_KERNEL, (*ABOVE, "begin 1 load 0 = beyond | 0 0 | 0 1 | 0"), "agrees"),
    Case("that touch reads another word", NEW_KERNEL, (*ABOVE, "begin 1 load 0 = word 7 | 0 0 | 0 1 | 1"), "new"),
    Case("that touch translates nothing", NEW_KERNEL, (*ABOVE, "begin 1 load 0 = word 0 | 0 0 | 0 1 | 0"), "new"),
    Case("that touch frees the page", NEW_KERNEL, (*ABOVE, "begin 1 load 0 = word 0 | 1 0 | 0 1 | 1"), "new"),
    Case("that touch raises the size", NEW_KERNEL, (*ABOVE, "begin 1 load 0 = word 0 | 0 0 | 1 1 | 1"), "new"),
    Case("a touch below the size is beyond", NEW_KERNEL, (*BELOW, "begin 1 load 0 = beyond | 1 0 | 1 0 | 0"), "new"),
    Case("a touch above the size of no page is served", NEW_KERNEL, (*ABOVE[:3], "begin 1 load 0 = word 0 | 0 0 | 0 1 | 1"), "new"),
    Case("a shrink leaves a surplus", NEW_KERNEL, (*SHRUNK, "begin 1 trunc 0 0 = done | 1 0 | 0 0 | 0 | total 1 surplus 0"), SURPLUS),
    Case("that resize has another total", NEW_KERNEL, (*IN_USE, "resize 1 = resized 1 | 0 0 | 2 2 | 0 | total 1 surplus 1"), "new"),
    Case("that resize has a free frame", NEW_KERNEL, (*IN_USE, "resize 1 = resized 2 | 1 0 | 2 2 | 0 | total 2 surplus 1"), "new"),
    Case("a resize to nothing", NEW_KERNEL, ("pool 1 1 4 1", "resize 0 = resized 0 | 0 0 | 0 0 | 0 | total 0 surplus 0"), SURPLUS),
    Case("a map takes a frame", NEW_KERNEL, ("pool 2 1 4 1", "begin 1 map 0 0 1 = mapped 0 | 1 1 | 1 0 | 0"), "new"),
    Case("want of frames without a quota is done", NEW_KERNEL, ("pool 1 1 4 1", "begin 1 alloc 0 0 2 = done | 0 0 | 2 1 | 0"), "new"),
)
# from the second call on the kernel lacks a page and its frame: the third differs by that, the fifth by its answer; then bytes are asked for
SPOILED = (
    "pool 4 1 4 1",
    "begin 1 alloc 0 0 1 = done | 3 0 | 1 1 | 0",
    "begin 1 alloc 0 1 1 = done | 3 0 | 2 1 | 0",
    "begin 1 alloc 0 2 1 = done | 2 0 | 3 2 | 0",
    "begin 1 trunc 0 0 = done | 4 0 | 0 0 | 0",
    "begin 1 alloc 0 0 1 = noframe | 4 0 | 0 0 | 0",
    "begin 1 xload 0 = errno EINVAL",
    "begin 1 trunc 0 0 = done | 3 0 | 0 0 | 0",
)
VERSIONS = {
    "# 7.3-cloud-amd64 #1 SMP PREEMPT_DYNAMIC Debian 7.3~rc7-1~exp1 (2026-10-16)": "7.3~rc7",
    "# 6.1.0-56-cloud-amd64 #1 SMP PREEMPT_DYNAMIC Debian 6.1.192-2 (2026-11-16)": "6.1.192",
    "# 7.3.4+deb13-cloud-amd64 #1 SMP PREEMPT_DYNAMIC Debian 7.3.4-1~bpo13+1 (2026-11-15)": "7.3.4",
    "# 6.18.15 #3 SMP me@home": "6.18.15",
    "script a": "",
}
MEMBERS = {
    "./boot/vmlinuz-6.1.0-56-cloud-amd64": "vmlinuz-6.1.0-56-cloud-amd64",
    "./usr/lib/modules/7.3-cloud-amd64/vmlinuz": "vmlinuz-7.3-cloud-amd64",
    "./boot/config-6.1.0-56-cloud-amd64": None,
    "./usr/lib/modules/7.3-cloud-amd64/kernel/vmlinuz": None,
}
NAMES = {"linux-binary-7.3-amd64 (= 7.3~rc7-1~exp1)": "linux-binary-7.3-amd64=7.3~rc7-1~exp1", "dracut": "dracut", "kmod (>= 20)": "kmod"}
RACES = (
    ("a race of maps ends right", "mns", 0, "", "agrees"),
    ("a race of maps loses a count", "mns", -1, "", "new"),
    ("a race with truncations loses a count", "mst", -1, "", RACE),
    ("a race with truncations leaks a count", "mst", 1, "", "new"),
    ("a race loses a count where a truncation ran beside a touch", "mst", -1, " beside 1", RACE),
    ("a race loses a count where no truncation ran beside a touch", "mst", -1, " beside 0", "new"),
    ("a race loses more than its touches may beside truncations", "mst", -3, " beside 2", "new"),
)
# the account of two races and the reserve count behind each, the last at the end, too; and how that ends
TWO_RACES = (
    ("each race loses what it may", (1, -1), (1, -2), RACE),
    ("a race loses more than it may, and the next could lose it", (0, -1), (2, -1), "new"),
    ("a race loses what the one before could", (2, 0), (0, -2), RACE),
)
# a script's last calls, what the kernel has where nothing is left of it, and how that ends
RESERVED = "begin 1 map 0 0 1 = mapped 0 | 4 1 | 1 0 | 0 0"
ENDS = (
    ("all is given back", (RESERVED,), "total 4 free 4 resv 0 surp 0", "agrees"),
    ("a reservation stays", (RESERVED,), "total 4 free 4 resv 1 surp 0", "new"),
    ("a reservation is lost", (RESERVED,), "total 4 free 4 resv -1 surp 0", "new"),
    ("a page isn't free", (RESERVED,), "total 4 free 3 resv 0 surp 0", "new"),
    ("a surplus leaves the pool", (RESERVED, "resize 0 = resized 1 | 1 1 | 1 0 | 0 0 | total 1 surplus 1"), "total 1 free 0 resv 0 surp 0", "agrees"),
    ("a truncation is beside a touch", ("start 1 trunc 0 0 = started", "start 2 load 0 = started"), "total 4 free 4 resv -1 surp 0", RACE),
    ("and one isn't free", ("start 1 trunc 0 0 = started", "start 2 load 0 = started"), "total 4 free 3 resv -1 surp 0", "new"),
    ("a truncation is beside an allocation", ("start 1 trunc 0 0 = started", "start 2 alloc 0 0 1 = started"), "total 4 free 4 resv -1 surp 0", "new"),
)
# a suite, a script of it, a call that the machine doesn't answer as recorded or not at all, and another answer: new, unless it is another known one
RECORDED = (
    ("fixed", "b:sizes-and-modes", "begin 1 xftruncate 0 2097153", "done | 4 1 | 1+1 0 | 0", "new"),
    ("fixed", "b:partial-punch-zeroes", "begin 1 load 0", "word 258 | 3 0 | 1 1 | 1", "new"),
    ("fixed", "b:map-lengths", "begin 1 xmap 0 4096 2097152", "mapped 1 | 4 1 | 1 0 | 0", "new"),
    ("resize", "z:keeps-reserved-frames", "begin 1 trunc 0 1", "done | 3 1 | 1 0 | 0 | total 3 surplus 1", "new"),
    ("resize", "z:keeps-reserved-frames", "resize 2", "resized 4 | 4 4 | 4 0 | 0 | total 4 surplus 2", SURPLUS),
)
KNOWN_TEXTS = {key: "" for key in ("title", "script", "kernel", "machine", "cause")} | {"versions": [], "functions": [], "links": []}
BAD_FILES = (
    ({}, "there is no rule"),
    ({"race": [{"kind": "t"}], "odd": 1}, "odd is no key"),
    ({"race": [{"kinds": "t"}]}, "kinds is no key of a rule 'race'"),
    ({"difference": [{"calls": ["load"]}]}, "a rule 'difference' has no fields"),
    ({"recording": [{"rule": "B", "file": "x.bin"}]}, "a rule 'recording' has no letters"),
)
MISUSES = (
    (["test"], "one of the arguments --package --kernel --here --answers --config is required"),
    (["test", "--kernel", "/nonexistent"], "/nonexistent is no kernel that can be read"),
    (["test", "--kernel", "/dev/null", "--suites", "odd"], "there is no suite odd"),
    (["test", "--kernel", "/dev/null", "--without", "odd"], "there is no known issue odd"),
    (["test", "--kernel", "/dev/null", "--page", "64", "--suites", "peers"], "the suite peers has calls in bytes, for pages of 2048 KiB"),
    (["test", "--kernel", "/dev/null", "--program", "/bin/true"], "/bin/true doesn't replay a trace"),
    (["minimize", "/nonexistent", "--kernel", "/dev/null"], "/nonexistent: No such file"),
)
REASONS = (
    ("qemu-system-x86_64: ended\nemulate: the machine wasn't done after 3 seconds\n", "emulate: the machine wasn't done after 3 seconds"),
    ("emulate: it ended; its console's last lines:\nKernel panic - no init\n---[ end\n", "emulate: it ended: Kernel panic - no init"),
    ("qemu-system-x86_64: bad\nemulate: it ended; its console's last lines:\n", "emulate: it ended: qemu-system-x86_64: bad"),
    ("cpio: write error: No space left on device\nemulate: odd\n", "cpio: write error: No space left on device"),
    ("", "the recorder ended with status 9"),
)


def recording(case: Case) -> str:
    first = f"# odd #1 SMP Debian {case.version}-1 (2026-11-15)\n" if case.version else ""
    return first + "\n".join(["script made.up", *case.lines, "end total 1 free 1 resv 0 surp 0\n"])


def end_of(result: Result) -> str:
    """How a comparison ended, in one word."""
    if result.difference is not None:
        return str(result.difference.known or "new")
    return str(result.ended or "agrees")


def ending(case: Case, without: tuple[str, ...] = ()) -> str:
    version, answered = parsed(recording(case))
    return end_of(Comparison(PROGRAM, version, known_issues(without=without)).result(answered[0]))


def race_ending(kinds: str, reserved: int, beside: str = "") -> str:
    lines = (f"race 1 9 4 {kinds} = rest{beside} | 4 0 | 0 0 | 0 0", f"begin 1 trunc 0 0 = done | 4 {reserved} | 0 0 | 0 0")
    return ending_of(lines)


def ending_of(lines: tuple[str, ...]) -> str:
    text = "\n".join(["# x", "script r", "pool 4 1 4 2", *lines, "end x\n"])
    wrong = wrong_counts(parsed(text)[1], known_issues())
    return str(wrong[0].known or "new") if wrong else "agrees"


def two_races_ending(first: tuple[int, int], second: tuple[int, int]) -> str:
    told = [f"race 1 9 4 mst = rest beside {beside} | 4 {reserved} | 0 0 | 0 0" for beside, reserved in (first, second)]
    return ending_of((*told, f"begin 1 trunc 0 0 = done | 4 {second[1]} | 0 0 | 0 0"))


def judged_at_end(lines: tuple[str, ...], end: str, has_races: bool = False) -> Tested:
    """A script of two tasks with these numbers at its end."""
    answered = [Script("r", "pool 4 1 4 2", list(lines), f"end {end}")]
    return testing.judged(Comparison(PROGRAM, NEW_KERNEL, known_issues()), testing.Work("made", answered, has_races), answered)


def faults_of_ends() -> Iterator[tuple[str, object]]:
    """What is wrong where nothing is left of a script, of calls one by one and of races; and that each recorded script tells it."""
    for what, lines, end, ends in ENDS:
        found = judged_at_end(lines, end).wrong
        yield what, (str(found[0].known or "new") if found else "agrees") == ends or found
    told = "\n".join(report.wrong_text(judged_at_end(*ENDS[1][1:3]).wrong[0]))
    said = ("expected: all 4 pages free, and none reserved", "found:    4 free, 1 reserved", "behind:   call 2: its tasks end, and its files go")
    yield "what is said of it", all(it in told for it in said) or told
    differs = judged_at_end((RESERVED.replace("4 1", "4 2"),), "total 4 free 4 resv 1 surp 0")
    yield "one that differs before is new once", (differs.new, differs.wrong) == (1, []) or differs
    raced = ("race 1 9 4 mst = rest beside 1 | 4 0 | 0 0 | 0 0", "begin 1 trunc 0 0 = done | 4 -1 | 0 0 | 0 0")
    for resv, ends in ((-1, RACE), (0, "new"), (-2, "new")):
        found = judged_at_end(raced, f"total 4 free 4 resv {resv} surp 0", True).wrong
        yield f"behind races {resv}", [str(it.known or "new") for it in found] == [ends] or found
    recorded = [it for path in (TOP / "conformance").glob("calls-*.txt") for it in compare.scripts(path)]
    recorded += compare.scripts(TOP / "conformance" / suites.PRIVATE)
    yield "each recorded script tells its end", len(recorded) == 295 + 23 and all(map(endings.end_of, recorded))


def faults_of_recorded_answers() -> Iterator[tuple[str, object]]:
    """That calls which the machine doesn't answer are compared with a recording, and that of a kernel with another known difference none are."""
    for suite, name, call, answer, ends in RECORDED:
        before = suites.recorded_of(suites.SUITES[suite])
        comparison, lines = Comparison(PROGRAM, OLD_KERNEL, known_issues(), before), before[name].lines
        at = next(number for number, line in enumerate(lines) if line.startswith(f"{call} = "))
        found = comparison.result(before[name])
        yield f"{name} as recorded", (found.is_new, found.agreed + found.recorded) == (False, len(lines)) or found
        found = comparison.result(replace(before[name], lines=[*lines[:at], f"{call} = {answer}", *lines[at + 1 :]]))
        yield f"{name}, {call}", end_of(found) == ends or found
        text = "\n".join(report.difference_text(found.difference)) if ends == "new" else ""
        was = lines[at].partition(" = ")[2]
        yield f"{name}, {call}: what is said", ends != "new" or all(it in text for it in (f"kernel:  {answer}", f"6.1.192: {was}")) or text
    leak = Case("", NEW_KERNEL, (*FULL, "begin 1 alloc 1 0 1 = noframe | 0 0 | 1 1, 0 0 | 0 | used 2", "begin 1 trunc 0 0 = done | 1 0 | 0 0, 0 0 | 0 | used 1"), "")
    version, (script,) = parsed(recording(leak))
    before = replace(script, lines=[script.lines[0], script.lines[1].replace("used 2", "used 1"), script.lines[2].replace("used 1", "used 0")])
    found = Comparison(PROGRAM, version, known_issues(), {script.name: before}).result(script)
    yield "a leak goes another way than the recording", (end_of(found), found.recorded) == (LEAK, 0) or found


class Leaking(kernels.Kernel):
    """A made-up kernel: the machine, but a fallocate for which no frame is free raises the used pages that its line shows."""

    def record(self, text: str, lines: int, has_races: bool = False) -> str:
        del lines, has_races
        return f"# odd Debian {NEW_KERNEL}-1 x\n" + "".join(leaking_script(it) for it in parsed(text)[1])


def leaking_script(script: Script) -> str:
    pool, lines = compare.opened(PROGRAM, script.header), []
    for call in script.lines:
        pool = pool.after(call)
        told = pool.told()
        # (want of quota leaks, too, where there is no quota at all: another way to differ, which a smaller script has)
        is_leak = pool.answer() == "noframe" or (pool.answer() == "noquota" and script.header.endswith(" 0"))
        used = int(told.used.split()[1]) + (is_leak and " alloc" in call)
        lines.append(f"{call} = {told.answer} | {told.counts} | {told.files} | {told.entries} | used {used}")
    return "\n".join([f"script {script.name}", script.header, *lines, "end x\n"])


def generated(seed: int, count: int, kind: str) -> list[Script]:
    words = [sys.executable, TOP / "conformance" / "generate.py", str(seed), str(count), kind]
    return parsed(subprocess.run(words, capture_output=True, text=True, check=True).stdout)[1]


def minimum(without: tuple[str, ...]) -> tuple[int, str, int]:
    """How many calls are left of random scripts on the leaking kernel, the machine's answer to the last one, and how many boots it took."""
    minimizer = Minimizer(Leaking("made up", lambda *_: []), MACHINE, known_issues(without=without))
    found = minimized(minimizer, generated(11, 12, "quota"), lambda it: it.known is None and it.seen.own_answer == "noframe")
    return found.number, found.seen.own_answer, minimizer.boots


def faults_of_known() -> Iterator[tuple[str, object]]:
    """What is to be known, and what isn't."""
    for case in CASES:
        yield case.what, ending(case) == case.ends or ending(case)
        if case.ends not in ("new", "agrees", SURPLUS):
            yield f"{case.what}, with its file left out", ending(case, (case.ends,)) == "new" or ending(case, (case.ends,))
    shrunk = next(it for it in CASES if it.ends == SURPLUS)
    yield "a surplus, with its file left out", ending(shrunk, (SURPLUS,)) == "new"
    quota = next(it for it in CASES if it.what == "want of quota is noframe")
    yield "noquota, with its file left out", ending(quota, ("noquota-is-noframe",)) == "new"
    for what, kinds, reserved, beside, ends in RACES:
        yield what, race_ending(kinds, reserved, beside) == ends or race_ending(kinds, reserved, beside)
    for what, first, second, ends in TWO_RACES:
        yield what, two_races_ending(first, second) == ends or two_races_ending(first, second)
    yield from faults_of_rules()
    yield from faults_of_translation()
    yield from faults_of_spoiled()
    for told, why in BAD_FILES:
        found = faults({**KNOWN_TEXTS, **told})
        yield why, found[:1] == [why] or found


def faults_of_spoiled() -> Iterator[tuple[str, object]]:
    """Which later calls a difference spoils, and what of them is told."""
    version, answered = parsed(recording(Case("", NEW_KERNEL, SPOILED, "")))
    found = Comparison(PROGRAM, version, known_issues()).result(answered[0]).difference
    later = [(3, "begin 1 alloc 0 2 1"), (5, "begin 1 alloc 0 0 1")]
    yield "the first call that differs", (found.number, found.known) == (2, None) or (found.number, found.known)
    yield "later calls that differ", found.spoiled == later or found.spoiled
    told = [report.spoiled_text(replace(found, spoiled=it)) for it in ([], later, later * 3)]
    said = ["no later call of the script", "3 (1 alloc 0 2 1), 5 (1 alloc 0 0 1)"]
    said.append(f"{said[1]}, {said[1]}, 3 (1 alloc 0 2 1), and 1 more")
    yield "what is told of them", told == said or told


def faults_of_rules() -> Iterator[tuple[str, object]]:
    """That each key of a rule counts: a rule that explains a made-up difference doesn't with any one key changed."""
    case = next(it for it in CASES if it.what == "want of quota is done")
    version, answered = parsed(recording(case))
    seen = Comparison(PROGRAM, version, known_issues()).result(answered[0]).difference.seen
    rule = {"calls": ["alloc"], "fields": ["answer"], "kernel": "do.e", "machine": "noquota", "rise": {"used": [0, 0]}}
    rule |= {"since": "7.3", "before": "7.4"}
    yield "a made-up rule explains it", explains(rule, seen)
    others = {"calls": ["allock"], "fields": ["answer", "used"], "kernel": "don", "machine": "noframe", "since": "7.3.5", "before": "7.3.4",
              "rise": {"used": [1, 1]}, "condition": "cached-page-above-size"}
    for key, other in others.items():
        yield f"a made-up rule with another {key} doesn't", not explains({**rule, key: other}, seen)


def faults_of_translation() -> Iterator[tuple[str, object]]:
    """That an answer has another name only in the pools of its rule."""
    for has_quota, answer in ((True, "noframe"), (False, "noquota")):
        yield f"noquota, with a quota {has_quota}", translated(known_issues(), "noquota", has_quota) == answer


def faults_of_files() -> Iterator[tuple[str, object]]:
    """That each file's script shows what the file says: the machine's answer, and the difference from the kernel's."""
    for it in known_issues():
        if it.rules.get("race") or not it.script:
            continue
        header, *calls = it.script.splitlines()
        pool = compare.opened(PROGRAM, header)
        for call in calls:
            pool = pool.after(call)
        answer = report.answer_text(pool.told()._replace(answer=pool.answer()))
        yield f"{it.name}: the machine's answer", answer == it.machine or answer
        yield f"{it.name}: the kernel's answer", it.kernel != it.machine


def faults_of_reading() -> Iterator[tuple[str, object]]:
    """Versions, packages, and the reason of a failure."""
    for line, version in VERSIONS.items():
        yield line, version_of(line) == version or version_of(line)
    yield "versions have an order", release("6.1.192") < release("6.16") < release("6.16.12") < release("7") < release("7.3~rc7") < release("7.3.4")
    own = Known("own", "title", ["6.1.192", "7.3~rc7"], "", "", "")
    for version, is_listed in {"6.1.192-own": True, "7.3-rc7+": True, "6.1.19": False, "6.1.1920": False, "unknown": False}.items():
        yield f"{version} is told by its numbers", ("not yet" not in report.known_text(own, 1, version)) == is_listed
    for name, kernel in MEMBERS.items():
        yield name, packages.kernel_member(name) == kernel
    for word, name in NAMES.items():
        yield word, packages.named(word) == name or packages.named(word)
    for said, why in REASONS:
        yield said, kernels.reason(said, 9) == why or kernels.reason(said, 9)


def faults_of_report() -> Iterator[tuple[str, object]]:
    """That the counts and each form of the report have what was found."""
    new = next(it for it in CASES if it.what == "two pages leak")
    others = (replace(new, version="", lines=LEAKING), replace(CASES[3], version=""))
    version, answered = parsed("".join(map(recording, (new, *others))))
    found = Tested("made", version, [Comparison(PROGRAM, version, known_issues()).result(it) for it in answered])
    yield "the table", report.table([found])[1].split()[:9] == ["made", "3", "6", "4", "0", "2", "2", "1", "1"] or report.table([found])
    text = report.text([found], "x")
    answers = ("kernel:  noframe | 0 0 | 1 1, 0 0 | 0 | used 3", "machine: noframe | 0 0 | 1 1, 0 0 | 0 | used 1")
    yield "both answers of the new one alone", all(it in text for it in answers) and "used 2" not in text or text
    yield "JSON", '"kernel": "noframe | 0 0 | 1 1, 0 0 | 0 | used 3"' in report.json_text([found], "x")
    yield "JUnit", 'tests="3" failures="1"' in report.junit_text([found]) or report.junit_text([found])


def faults_of_basis() -> Iterator[tuple[str, object]]:
    """That a proved program counts only while no source is newer than its build, and where rt is."""
    with tempfile.TemporaryDirectory(prefix="kernel-") as name, patch.object(machine, "TOP", Path(name)):
        source, program = Path(name) / "crates" / "a" / "src" / "a.rs", Path(name) / "hugepool"
        source.parent.mkdir(parents=True)
        files = [source, program, Path(name) / "hugepool.begun", Path(name) / "crates.txt", Path(name) / "HANDLES"]
        for file in files:
            file.touch(0o755)
        for at, file in ((100, source), (100, source.parent), (100, files[3]), (100, files[4]), (200, files[2])):
            os.utime(file, (at, at))
        has_rt = lambda path: patch.object(machine.shutil, "which", lambda _: path)
        with patch.object(machine, "PROGRAM", program), has_rt("/rt"):
            yield "the proved program is current", machine.is_proved_current()
            with has_rt(None):
                yield "the proved program isn't used without rt", not machine.is_proved_current()
            os.utime(source, (300, 300))
            yield "the proved program is older than a source", not machine.is_proved_current()


def faults_of_again() -> Iterator[tuple[str, object]]:
    """That changed.py, which emulate.sh --again runs, names the script, the call and the fields."""
    calls = (*LEAKING, "begin 1 trunc 0 0 = done | 1 0 | 0 0, 0 0 | 0 | used 1")
    before = (*LEAKING[:2], LEAKING[2].replace("used 2", "used 1"), calls[3].replace("used 1", "used 0"))
    with tempfile.TemporaryDirectory(prefix="kernel-") as name:
        files = [Path(name) / "before", Path(name) / "after"]
        for file, lines in zip(files, (before, calls)):
            file.write_text(recording(Case("", NEW_KERNEL, lines, "")), encoding="utf-8")
        words = [sys.executable, TOP / "conformance" / "record" / "changed.py", *files]
        told = subprocess.run(words, capture_output=True, text=True, check=False).stdout
    yield "again", told == "  made.up, call 2, begin 1 alloc 1 0 1: used pages 2, before 1; 1 later calls differ, too\n" or told


def faults_of_whole() -> Iterator[tuple[str, object]]:
    """That a recording without its last call or script is rejected."""
    version, answered = parsed(recording(CASES[0]))
    asked = [Script(it.name, it.header, [suites.call_of(line) for line in it.lines]) for it in answered]
    yield "a whole recording", testing.check_whole("x", asked, answered) is None
    for what, came in (("call", [Script("made.up", asked[0].header, answered[0].lines[:-1])]), ("script", [])):
        try:
            testing.check_whole("x", asked, came)
            yield f"a recording without a {what}", version
        except machine.Problem:
            yield f"a recording without a {what}", True


def faults_of_commands() -> Iterator[tuple[str, object]]:
    """That each command that can't run says so in one line, and with status 2."""
    for words, why in MISUSES:
        ran = subprocess.run([TOP / "kernel", *words], stdin=subprocess.DEVNULL, capture_output=True, text=True, check=False)
        yield str(words), (ran.returncode, ran.stdout, why in ran.stderr.splitlines()[-1]) == (2, "", True) or (ran.returncode, ran.stderr)
    with tempfile.TemporaryDirectory(prefix="kernel-") as name:
        (Path(name) / "compare.py").write_text("raise ValueError", encoding="utf-8")
        ran = subprocess.run([TOP / "kernel", "known"], cwd=name, capture_output=True, text=True, check=False)
        yield "called in a folder that has a module's name", (ran.returncode, ran.stderr) == (0, "") or ran.stderr


def boots(room: Path, begins: int, works: int, is_hanging: bool = False) -> tuple[int, int]:
    """The status of emulate.sh with a made-up QEMU, and how often that ran: from boot `begins` on its kernel runs the recorder, and from
    boot `works` on the recorder ends. Before that its kernel panics, or hangs."""
    qemu = f"""#!/bin/bash
    echo boot >> {room}/boots
    at=$(wc -l < {room}/boots)
    for word in "$@"; do case $word in file:*/recorded) recorded=${{word#file:}} ;; file:*/told) told=${{word#file:}} ;; esac done
    if [ "$at" -lt {begins} ] && {str(is_hanging).lower()}; then exec sleep 99; fi
    if [ "$at" -ge {begins} ]; then echo "record: this kernel has 0 huge pages" > "$told"; fi
    if [ "$at" -ge {works} ]; then echo "script a" > "$recorded"; printf 'record: 1 scripts recorded, 1 lines\nstatus 0\n' >> "$told"; fi
    """
    room.mkdir()
    for name, text in (("qemu-system-x86_64", qemu), ("cpio", "#!/bin/bash\ncat > /dev/null\n")):
        (room / name).write_text(text, encoding="utf-8")
        (room / name).chmod(0o755)
    (room / "scripts").write_text("script a\npool 1 1 1 1\nend\n", encoding="utf-8")
    words = [TOP / "conformance" / "record" / "emulate.sh", "--kernel", "/dev/null", "--boot-seconds", "1", room / "scripts"]
    environment = {**os.environ, "PATH": f"{room}:{os.environ['PATH']}"}
    ran = subprocess.run(words, env=environment, stdin=subprocess.DEVNULL, capture_output=True, check=False)
    return ran.returncode, len((room / "boots").read_text(encoding="utf-8").splitlines())


def faults_of_interrupts() -> Iterator[tuple[str, object]]:
    """That Ctrl-C prints nothing, whenever it comes: while Python begins, while it imports, and later."""
    for milliseconds in (0, 20, 50, 80, 120, 200):
        ran = subprocess.Popen([TOP / "kernel", "known"], stdin=subprocess.DEVNULL, stdout=subprocess.PIPE, stderr=subprocess.PIPE)
        time.sleep(milliseconds / 1000)
        ran.send_signal(signal.SIGINT)
        _, said = ran.communicate()
        yield f"Ctrl-C after {milliseconds} ms", said == b"" or said


def faults_of_races() -> Iterator[tuple[str, object]]:
    """That a suite of races is shortened where that is asked for, that scripts with truncations come last, and that the table has both."""
    some = suites.scripts_of(suites.SUITES["races"])
    whole, short = (testing.Work("races", some, True, [], most).asked() for most in (None, 100))
    yield "no race is shortened", sorted(it.lines for it in whole) == sorted(it.lines for it in some)
    yield "each race is shortened", set(suites.race_calls(short)) == {100} and len(suites.race_calls(short)) == 52
    has = [races.has_truncations(it) for it in short]
    yield "truncations come last", has == sorted(has) and 0 < sum(has) < len(has)
    raced = Script("r", "pool 4 1 4 2", ["race 1 900 4 mst = rest | 4 0 | 0 0 | 0 0", "begin 1 trunc 0 0 = done | 4 -1 | 0 0 | 0 0"])
    work = testing.Work("made", [Script("r", raced.header, ["race 1 900 4 mst", "begin 1 trunc 0 0"])], True, [], 70)
    found = testing.judged(Comparison(PROGRAM, "7", known_issues()), work, [raced])
    told = report.tables([found])
    yield "the table of races", told[1].split() == ["made", "no", "1", "0", "1", "0", "1", "70", "900", "0"] or told
    yield "JSON of races", '"race_calls": 70' in report.json_text([found], "x")


def faults_of_covering() -> Iterator[tuple[str, object]]:
    """What runs by default, and that the last table says of each suite what it found, and nothing that its scripts have as not covered."""
    expected = "fixed random quota resize peers held denied charged races"
    yield "the races run by default", " ".join(suites.default(False)) == expected or suites.default(False)
    yield "but not on a machine's own kernel", suites.default(True) == ("fixed", "random", "quota", "resize", "peers") or suites.default(True)
    signs = {"quotas": r"(?m)^pool( \d+){5}$", "resizes": r"(?m)^resize ", "calls at once": r"(?m)^(start|race) "}
    for it in suites.SUITES.values():
        text = suites.text_of(suites.scripts_of(it))
        for what, sign in signs.items():
            yield f"{it.name}: {what}", (what in it.lacks) == (re.search(sign, text) is None)
    calls = Tested("quota", "7", [Result("a", 3, 3), Result("b", 2, 2)], left=4)
    raced = Tested("mine", "7", [Result("r", 2, 2)], [testing.WrongCount("r", "x", None)], rounds=testing.Rounds(1, 70, 900, 141))
    found = report.covered([calls, raced])
    yield "a suite that was ended", re.fullmatch(r"quota +5 +0 +0  calls at once, .*; the last 4 scripts, which were not made", found[1]) is not None or found
    yield "races of one's own", re.fullmatch(r"mine +141 +1 +0  answers, .*\(only counts at rest are compared\); .*", found[2]) is not None or found
    lacking = ("private", "fork", "mremap", "userfaultfd", "minimum sizes", "surplus", "control groups", "NUMA", "migration", "poison")
    yield "what no suite covers", all(it in " ".join(found[3:]) for it in lacking) or found
    both = report.text([calls, raced], "x").splitlines()
    yield "the table is the last one", both[1 - len(found) :] == found[:-1] or both
    script = Script("r", "pool 4 1 4 3", ["begin 1 map 0 0 1", "race 1 900 4 mst", "race 2 100 4 mst", "begin 1 trunc 0 0"])
    yield "calls of all tasks", testing.calls_of_all(script) == 2 + 3 * 1000 or testing.calls_of_all(script)


def faults_of_saying() -> Iterator[tuple[str, object]]:
    """That a boot that was tried again is passed on."""
    said: list[str] = []
    with patch.object(kernels, "say", said.append):
        kernels.say_boots("record: 1\nemulate: it stopped: booting it again, attempt 2 of 3\n")
    yield "a boot that was tried again", said == ["emulate: it stopped: booting it again, attempt 2 of 3"] or said


def faults_of_boots() -> Iterator[tuple[str, object]]:
    """That a kernel which stops before the first call is booted again, three times in all, and one that stops later isn't."""
    expected = {(1, 1): (0, 1), (2, 2): (0, 2), (3, 3): (0, 3), (4, 4): (1, 3), (1, 2): (1, 1), (2, 3): (1, 2)}
    with tempfile.TemporaryDirectory(prefix="kernel-") as name:
        for (begins, works), ends in expected.items():
            found = boots(Path(name) / f"{begins}-{works}", begins, works)
            yield f"a kernel that begins at boot {begins} and works at {works}", found == ends or found
        for begins, ends in ((2, (0, 2)), (4, (1, 3))):
            found = boots(Path(name) / f"hangs-{begins}", begins, begins, is_hanging=True)
            yield f"a kernel that hangs before boot {begins}", found == ends or found


def faults_of_minimizing() -> Iterator[tuple[str, object]]:
    """That the made-up leak is minimized, and that there is nothing to minimize where it is known."""
    kernels.say = minimize.say = lambda words: None
    found = minimum((LEAK,))
    yield "the leak is minimized to one call, in the same way", found[:2] == (1, "noframe") or found
    yield "each round takes the smallest script", found[2] <= 9 or found
    try:
        yield "a known leak is not minimized", minimum(())
    except minimize.Problem:
        yield "a known leak is not minimized", True
    line = "begin 1 alloc 0 2 3"
    smaller = set(shrinking.with_smaller_numbers(line))
    yield "smaller numbers", "begin 1 alloc 0 2 1" in smaller and line not in smaller
    four = ["begin 1 mapn 0 0 1", "begin 1 mapn 0 1 2", "begin 1 map 0 0 2", "begin 1 load 2"]
    script, three = Script("a", "pool 2 1 1 1 3", four), ("begin 1 mapn 0 1 2", "begin 1 map 0 0 2", "begin 1 load 1")
    near, far = ({tuple(it.lines) for it in some(script)} for some in (shrinking.neighbours, minimize.farther))
    yield "two changes at once", three in far and three not in near
    yield "a suite has its scripts", len(suites.scripts_of(suites.SUITES["fixed"])) == 33 + 23


def problem_of(call: Callable[[], object]) -> str:
    """The line with which a call ends that can't run."""
    try:
        return f"no problem, but {call()}"
    except machine.Problem as why:
        return str(why)


def unreachable(room: Path) -> dict[str, str]:
    """An environment in which apt knows one mirror, where nobody listens."""
    (room / "parts").mkdir(parents=True)
    (room / "lists" / "partial").mkdir(parents=True)
    stanza = "Types: deb\nURIs: http://127.0.0.1:9/debian\nSuites: stable\nComponents: main\n"
    (room / "parts" / "only.sources").write_text(stanza, encoding="utf-8")
    said = {"Dir::Etc::SourceList": "/dev/null", "Dir::Etc::SourceParts": room / "parts", "Dir::State::Lists": room / "lists",
            "Dir::Cache": room / "cache", "APT::Sandbox::User": "root" if os.geteuid() == 0 else ""}  # fmt: skip
    (room / "apt.conf").write_text("".join(f'{key} "{value}";\n' for key, value in said.items()), encoding="utf-8")
    return {**os.environ, "APT_CONFIG": str(room / "apt.conf")}


def full(source: Path, to: Path) -> None:
    """Copies a file onto a disk that is full in the middle."""
    del source
    Path(to).write_text("half", encoding="utf-8")
    raise OSError(errno.ENOSPC, os.strerror(errno.ENOSPC), str(to))


def faults_of_lacks() -> Iterator[tuple[str, object]]:
    """That what is missing is said in one line that names it, and that nothing is left behind."""
    with tempfile.TemporaryDirectory(prefix="kernel-") as name:
        room, image = Path(name), Path(name) / "vmlinuz-1"
        image.touch()
        with patch.object(kernels.shutil, "which", lambda command: None if command.startswith("qemu") else f"/bin/{command}"):
            for start, emulator, package in ((b"", "qemu-system-x86_64", "x86"), (bytes(56) + b"ARMd", "qemu-system-aarch64", "arm")):
                image.write_bytes(start)
                said = problem_of(lambda: kernels.emulated(image, "x", kernels.Emulation(1, 1)))
                yield f"no {emulator}", said.startswith(f"not on the PATH: '{emulator}' (package: qemu-system-{package})") or said
        with patch.object(kernels.os, "geteuid", lambda: 1000):
            said = problem_of(kernels.here)
        yield "no root", said == "--here needs root, which alone can change the number of huge pages" or said
        cache, apt = room / "cache", lambda part: unreachable(Path(tempfile.mkdtemp(dir=room)) / part)
        with patch.object(kernels, "cache", lambda: cache), patch.object(kernels, "say", lambda _: None):
            with patch.object(packages, "own_environment", lambda: apt("own")), patch.object(packages, "configuration", lambda *_: apt("other")):
                said = problem_of(lambda: kernels.image_of("linux-image-1"))
        yield "no network", said.startswith("the kernel of linux-image-1 can't be fetched: ") and "Failed to fetch" in said or said
        yield "no network: nothing is kept", not cache.exists()
        cache.mkdir()
        with patch.object(packages.shutil, "copyfile", full):
            try:
                packages.moved(image, cache / "vmlinuz-1")
                yield "a full disk", False
            except OSError as why:
                yield "a full disk", why.strerror == "No space left on device"
        yield "a full disk: nothing is kept", not cache.exists()
    yield from faults_of_full_reports()


def faults_of_full_reports() -> Iterator[tuple[str, object]]:
    """That a report which can't be written is named, and that the file that was there stays."""
    with tempfile.TemporaryDirectory(prefix="kernel-") as name:
        old = Path(name) / "report.json"
        old.write_text("old", encoding="utf-8")
        with patch.object(Path, "write_text", side_effect=OSError(errno.ENOSPC, "No space left on device")):
            said = problem_of(lambda: report.write(str(old), "new"))
        yield "a report on a full disk", said == f"{old}: No space left on device" or said
        yield "a report on a full disk: the old one stays", [it.name for it in Path(name).iterdir()] == ["report.json"] and old.read_text() == "old"
    said = problem_of(lambda: report.write("/nonexistent/report.json", "new"))
    yield "a report nowhere", said == "/nonexistent/report.json: No such file or directory" or said


def shown(room: Path, status: int, told: str = "reproducer: x on Linux 6.99.1, #1 Debian 6.99-2 (2026)") -> Shown | str:
    """What a reproducer shows that ends with this status, on a made-up QEMU; or why it couldn't run."""
    qemu = f"""#!/bin/bash
    for word in "$@"; do case $word in file:*/recorded) recorded=${{word#file:}} ;; file:*/told) told=${{word#file:}} ;; esac done
    echo "$*" > {room}/words
    echo "expected 0, seen 1" > "$recorded"; printf '%s\n' "{told}" "status {status}" > "$told"
    """
    for name, text in (("qemu-system-x86_64", qemu), ("cpio", "#!/bin/bash\ncat > /dev/null\n")):
        (room / name).write_text(text, encoding="utf-8")
        (room / name).chmod(0o755)
    with patch.dict(os.environ, {"PATH": f"{room}:{os.environ['PATH']}"}):
        try:
            return reproduce.show(reproduce.FINDINGS[1], Path("/dev/null"), 7, 9, room)
        except machine.Problem as why:
            return str(why)


def faults_of_reproducing() -> Iterator[tuple[str, object]]:
    """That the reports' programs compile without a warning, and that what they show is passed on. None is run, since they change counts."""
    with tempfile.TemporaryDirectory(prefix="kernel-") as name:
        room = Path(name)
        for it in reproduce.FINDINGS:
            yield f"{it.name} compiles", problem_of(lambda it=it: reproduce.built(it, room).name) == f"no problem, but {it.source}"
        misused = subprocess.run([room / "reserve-count-race", "odd"], capture_output=True, text=True, check=False)
        yield "a wrong word", (misused.returncode, misused.stderr.startswith("usage: ")) == (2, True) or misused
        wrong, right = shown(room, 1), shown(room, 0)
        yield "an error that shows", (wrong.status, wrong.version, wrong.printed) == (1, "6.99", "expected 0, seen 1\n") or wrong
        yield "its words", " -- commit 7 " in f"{(room / 'words').read_text(encoding='utf-8')} " or (room / "words").read_text(encoding="utf-8")
        yield "the table", reproduce.table([wrong]) == ["kernel  reserve-count-race commit", "6.99    WRONG"] or reproduce.table([wrong])
        yield "no error", right.status == 0 and reproduce.table([right])[1] == "6.99    right"
        said = shown(room, 2, "reproducer: x on Linux 6.99.1, y\nreproducer: could not run: mount: x")
        yield "one that could not run", said == "reserve-count-race commit on null: reproducer: could not run: mount: x" or said
        said = shown(room, 1, "odd")
        yield "one that told nothing", isinstance(said, str) or said


def faults_of_recorded() -> Iterator[tuple[str, object]]:
    """That each recording of a known rule is whole with its letters alone, and with those of another one only if they are among them."""
    found = [(it, one) for it in known_issues() for one in it.recordings]
    for known, one in found:
        run = next(recordings(SMALLEST / one["file"]))
        for letters in sorted({other["letters"] for _, other in found} | {""}):
            is_whole = placed(run, machine_of(letters), False).fault is None
            yield f"{known.name}: {one['file']} with {letters or 'no rule'}", is_whole == (set(one["letters"]) <= set(letters))
        less = ["".join(sorted(set(one["letters"]) - {letter})) for letter in one["letters"]]
        yield f"{known.name}: {one['file']} wants each letter", all(placed(run, machine_of(it), False).fault for it in less)
        yield f"{known.name}: its own letter", one["rule"] in one["letters"]
    yield "each recording is one of a known rule", {one["file"] for _, one in found} == {it.name for it in SMALLEST.glob("*.bin")}
    yield "each rule of Linux's has a recording", {one["rule"] for _, one in found} == set(RULES) - set(REPAIRED)


def faults_of_document() -> Iterator[tuple[str, object]]:
    """That docs/LINUX.md lists the known issues as they are, and each rule with its recordings."""
    text = (TOP / "docs" / "LINUX.md").read_text(encoding="utf-8")
    rows = [tuple(cell.strip() for cell in line.strip("|").split("|")) for line in text.splitlines() if line.startswith("| `")]
    expected = {(f"`{it.name}.toml`", it.title, ", ".join(it.versions)) for it in known_issues()}
    listed = {row for row in rows if row[0].endswith(".toml`")}
    yield "the known issues", listed == expected or sorted(listed ^ expected)
    rules = dict(re.findall(r"(?m)^\| ([A-Z]) \|.*\| (.*) \|$", text))
    for it in known_issues():
        for one in it.recordings:
            yield f"rule {one['rule']}", f"`{one['file'].removesuffix('.bin')}`" in rules.get(one["rule"], "")
    table = text.split("| Rule of `docs/decisions/linux.md` |")[1].split("\n\n")[0]
    first = re.findall(r"(?m)^\| (.*?) \|", table)
    yield "each rule of the decisions", first == decided() or sorted(set(first) ^ set(decided()))
    yield "known issues of the decisions", set(re.findall(r"`([\w-]+\.toml)`", table)) == {f"{it.name}.toml" for it in known_issues()} - NO_RULE


def decided() -> list[str]:
    """The rules in which the machine differs from Linux, as docs/decisions/linux.md begins each of them."""
    text = (TOP / "docs" / "decisions" / "linux.md").read_text(encoding="utf-8")
    part = text.split("## Where this differs from Linux")[1].split("\n## ")[0]
    found = re.findall(r"(?m)^- (?:\*\*((?:.|\n)+?)\*\*|(.+)$)", part)
    return [" ".join((bold or plain).split()) for bold, plain in found]


def main() -> int:
    parts = (faults_of_known, faults_of_ends, faults_of_recorded_answers, faults_of_files, faults_of_reading, faults_of_report, faults_of_commands, faults_of_recorded)
    parts += (faults_of_document, faults_of_lacks, faults_of_reproducing, faults_of_saying, faults_of_interrupts, faults_of_races)
    parts += (faults_of_covering, faults_of_whole, faults_of_basis, faults_of_again, faults_of_boots, faults_of_minimizing)
    return tally.ended("kernel", parts)


if __name__ == "__main__":
    MACHINE = tally.machine_of("kernel")
    PROGRAM = MACHINE.program
    sys.exit(main())
