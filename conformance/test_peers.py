#!/usr/bin/env python3
"""Runs peers' tests over the machine, and checks what the peers assert; then that wrong machines and recordings are noticed.

A peer's test is a file of peers/: calls, and behind each what that test asserts of it. Where calls overlap, the machine takes its
steps in several orders. Each wrong machine has to break an assertion of each peer that it is listed with, and each peer is listed
with one at least.
"""
from __future__ import annotations

import io
import re
import sys
from contextlib import redirect_stdout
from functools import cache
from pathlib import Path
from types import SimpleNamespace
from typing import Callable, Iterator

import tally
from compare import Program, Script, scripts
from kernel import __main__ as command_line
from kernel import machine, report, schedules
from kernel.differences import BrokenAssertion, Comparison, Result
from kernel.known import known_issues
from kernel.peers import Assertion, Broken, assertions, broken, heads, peer_scripts
from kernel.suites import PEERS, call_of
from kernel.testing import Tested, Work, judged

FOLDER = Path(__file__).resolve().parent / PEERS
# orders of steps where calls overlap
SEEDS = range(6)
COUNTS = {"charge_reserved_hugetlb", "counters", "fallocate_basic", "fallocate_align", "fallocate_stress", "hugetlb-madvise", "hugetlb-mmap"}
WORDS = {"shm-fork", "shm-gettest", "hugetlb-mmap", "hugetlb-shm"}
RESERVES = {"charge_reserved_hugetlb", "counters", "fadvise_reserve", "madvise_reserve", "readahead_reserve", "truncate_reserve_wraparound"}
PUNCHES = {"fallocate_basic", "fallocate_align", "hugetlb-madvise"}


def events(pattern: str, words: str) -> Callable[[Program], Program]:
    """A machine to which another event happens than the one that it is given."""
    return lambda program: lambda trace: program([re.sub(pattern, words, line) for line in trace])


def answers(pattern: str, words: str) -> Callable[[Program], Program]:
    """A machine that answers otherwise than it should."""
    return lambda program: lambda trace: [re.sub(pattern, words, line) for line in program(trace)]


# what is wrong, the machine, and the peers that have to notice
WRONG = (
    ("a map reserves nothing", events(r" map ", " mapn "), {"charge_reserved_hugetlb", "counters"}),
    ("a map without reservation reserves", events(r" mapn ", " map "), {"charge_reserved_hugetlb"}),
    ("a punch leaves all pages but the first", events(r"punch (\d+) (\d+) \d+", r"punch \1 \2 1"), PUNCHES),
    ("a punch passes its first page", events(r"punch (\d+) 0 ", r"punch \1 1 "), PUNCHES),
    ("an allocation is of one page", events(r"alloc (\d+) (\d+) \d+", r"alloc \1 \2 1"), PUNCHES | {"fallocate_stress"}),
    ("a truncation to nothing leaves a page", events(r"trunc (\d+) 0$", r"trunc \1 1"),
     {"counters", "madvise_reserve", "quota", "truncate_sigbus_versus_oom", "truncate_reserve_wraparound"}),
    ("a resize brings in a frame too many", events(r"resize (\d+)", r"resize 1\1"), COUNTS),
    ("a store stores 9", events(r"store (\d+) \d+", r"store \1 9"), WORDS),
    ("two tasks never share a page", answers(r"ended word .*", "ended word 0"), WORDS),
    ("want of quota is answered well", answers(r"ended noquota", "ended mapped 0"), {"quota"}),
    ("a touch beyond the end is told as want of frames", answers(r"ended beyond", "ended noframe"),
     {"truncate_sigbus_versus_oom", "truncate_reserve_wraparound"}),
    ("the reserve count is one too high", answers(r" resv 0 ", " resv 1 "), RESERVES | {"fallocate_stress"}),
    ("a page too many is used", answers(r" used (\d+)", r" used 1\1"), {"quota"}),
)  # fmt: skip
BAD_ASSERTIONS = ("free", "free -1", "answer", "free 3,reserved 1", "pages 3", "answer Done")
HOLDING = (
    ("free 3", {"free": "3"}, True), ("free 3", {"free": "30"}, False), ("free 3", {}, False), ("free not 3", {"free": "4"}, True),
    ("free not 3", {"free": "3"}, False), ("free not 3", {}, False), ("answer mapped", {"answer": "mapped 7"}, True),
    ("answer word 5", {"answer": "word 5"}, True), ("answer word 5", {"answer": "word 55"}, False), ("answer done", {"answer": "noframe"}, False),
)  # fmt: skip
BYTE_CALLS = {
    "begin 1 xfallocate 0 0 0 1": "begin 1 alloc 0 0 1",
    "start 2 xfallocate 1 1 1 2097152": "start 2 allock 1 0 2",
    "begin 1 xfallocate 0 3 1 2097152": None,
    "begin 1 xfallocate 0 3 1 4194303": "begin 1 punch 0 1 1",
    "begin 1 load 3": "begin 1 load 3",
}
# a script whose kernel is made up: it leaks at its third call, on a kernel with the known leak or on another one
LEAK = """# odd #1 SMP Debian {version}-1 (2026-11-15)
script leak
pool 1 2 4 1 8
begin 1 alloc 0 0 1 = done | 0 0 | 1 1, 0 0 | 0 | used 1
begin 1 mapn 1 0 1 = mapped 0 | 0 0 | 1 1, 1 0 | 0 | used 1
begin 1 alloc 1 0 1 = noframe | 0 0 | 1 1, 1 0 | 0 | used 2
begin 1 trunc 0 0 = done | 1 0 | 0 0, 1 0 | 0 | used 1
end total 1 free 1 resv 0 surp 0
"""
ASSERTED = ["begin 1 alloc 0 0 1 = answer done, used {first}", "begin 1 mapn 1 0 1", "begin 1 alloc 1 0 1 = answer noframe", "begin 1 trunc 0 0 = used 0"]


@cache
def by_peer() -> dict[str, list[Script]]:
    """The scripts of each peer's test."""
    return {path.stem: list(scripts(path)) for path in sorted(FOLDER.glob("*.txt"))}


def broken_on(program: Program, script: Script) -> Iterator[Broken]:
    """The assertions of a script that don't hold on a machine, in each order of steps."""
    for seed in SEEDS if schedules.overlaps(script) else SEEDS[:1]:
        yield from broken(script, schedules.machine_parts(program, script, seed))


def notices(program: Program, peer: str) -> bool:
    """Whether a peer's test breaks on a machine, or can't go on there."""
    try:
        return any(True for script in by_peer()[peer] for _ in broken_on(program, script))
    except machine.Problem:
        return True


def faults_of_peers() -> Iterator[tuple[str, object]]:
    """That each peer's assertions hold on the machine, and that each file says which test it is, what that asserts and what is left out."""
    for peer, some in by_peer().items():
        found = [str(it) for script in some for it in broken_on(PROGRAM, script)]
        yield peer, not found or found[:3]
        yield f"the head of {peer}", list(heads(FOLDER / f"{peer}.txt")) == ["Peer", "Asserts", "Left out"]


def faults_of_wrong() -> Iterator[tuple[str, object]]:
    """That wrong machines are noticed, and that each peer notices one."""
    for what, wrong, peers in WRONG:
        for peer in sorted(peers):
            yield f"{what}: {peer}", notices(wrong(PROGRAM), peer)
    listed = {peer for _, _, peers in WRONG for peer in peers}
    yield "each peer is listed with a wrong machine", listed == set(by_peer()) or set(by_peer()) - listed


def faults_of_orders() -> Iterator[tuple[str, object]]:
    """That calls do overlap: other seeds make other traces, and in some of them a call waits for another one."""
    script = by_peer()["fallocate_stress"][0]
    script = Script(script.name, script.header, script.lines[:100])
    traces, blocked = [], 0
    for seed in SEEDS:
        run = schedules.Run(PROGRAM, script.header, seed)
        for line in script.lines:
            run.told(call_of(line))
        traces.append(tuple(run.events))
        blocked += sum(line.startswith("blocked") for line in PROGRAM([run.header, *run.events]))
    yield "each seed makes another trace", len(set(traces)) == len(traces)
    yield "calls wait for each other", blocked > 0


def faults_of_words() -> Iterator[tuple[str, object]]:
    """What is an assertion and when it holds, and which byte call is which call in pages."""
    for text in BAD_ASSERTIONS:
        try:
            yield f"'{text}' is no assertion", assertions(f"begin 1 exit = {text}")
        except machine.Problem:
            yield f"'{text}' is no assertion", True
    for text, told, holds in HOLDING:
        yield f"{text} of {told}", Assertion(*text.split(" ", 1)).holds(told) == holds
    for call, other in BYTE_CALLS.items():
        yield call, schedules.in_pages(call) == other or schedules.in_pages(call)
    yield "a task that ended", [it["answer"] for it in refused()] == ["done", "refused notalive", "refused notalive"] or list(refused())


def refused() -> Iterator[dict[str, str]]:
    lines = ["begin 1 exit", "start 1 load 0", "wait 1"]
    return schedules.machine_parts(PROGRAM, Script("a", "pool 1 1 1 1", lines), 0)


def judged_leak(version: str, first: int) -> Tested:
    """What is said of the made-up recording if a peer asserts so many used pages at the first call, and none at the last."""
    answered = list(scripts_of(LEAK.format(version=version)))
    asserted = [Script("leak", answered[0].header, [line.format(first=first) for line in ASSERTED])]
    return judged(Comparison(PROGRAM, version, known_issues()), Work(PEERS, [], False, asserted), answered)


def scripts_of(text: str) -> Iterator[Script]:
    lines = text.splitlines()
    yield Script("leak", lines[2], lines[3:-1])


def faults_of_recordings() -> Iterator[tuple[str, object]]:
    """That a broken assertion is new, except from a known difference on, and that each form of the report has it."""
    for version, first, known in (("7.3.4", 1, ["quota-leak"]), ("7.3.4", 2, [None, "quota-leak"]), ("6.12.117", 1, [None])):
        found = judged_leak(version, first)
        names = [it.known and it.known.name for it in found.results[0].broken]
        yield f"a leak in {version}, where {first} used pages are asserted", names == known or names
    found = judged_leak("7.3.4", 2)
    said = "leak, call 1: begin 1 alloc 0 0 1: the peer asserts used 2, seen 1"
    yield "the new one is counted", (found.new, found.differ) == (1, 1) or (found.new, found.differ)
    yield "the report has it", f"new: {said}" in report.text([found], "x") and "asserts used 0" not in report.text([found], "x")
    yield "JSON has it", said in report.json_text([found], "x") and '"known": "quota-leak"' in report.json_text([found], "x")
    yield "JUnit has it", said in report.junit_text([found]) and 'failures="1"' in report.junit_text([found])
    yield "all suites as one have it", report.total([found, found]).new == 2


def broken_ones(script: str, *texts: str) -> Result:
    """A script whose calls, from the first on, break assertions: each text is `CALL: FIELD EXPECTED, seen SEEN`."""
    found = []
    for number, text in enumerate(texts, 1):
        call, field, expected, seen = re.fullmatch(r"(.+): (\w+) (.+), seen (.*)", text).groups()
        found.append(BrokenAssertion(Broken(script, number, f"begin 1 {call}", Assertion(field, expected), seen), None))
    return Result(script, len(texts), len(texts), broken=found)


LOW, HIGH = "punch 0 0 1: free 3, seen 2", "punch 0 0 1: free 3, seen 4"
REFUSED = "alloc 0 0 1: answer done, seen noframe"


def faults_of_groups() -> Iterator[tuple[str, object]]:
    """That 70 assertions of one cause are one line, that other causes keep theirs, and that the same cause is told once."""
    found = Tested(PEERS, "7", [broken_ones("a", LOW, *[REFUSED] * 39), broken_ones("b", *["punch 1 2 3: free 9, seen 5"] * 30)])
    first = f"new: a, call 1: begin 1 {LOW.replace(': ', ': the peer asserts ')}"
    lines = [f"{first} (and 69 more assertions like it or behind it, in 2 scripts)"]
    yield "70 assertions are one line", report.news([found]) == lines or report.news([found])
    yield "they are counted as scripts", found.new == 2 or found.new
    yield "JSON has each", report.json_text([found], "x").count("the peer asserts") == 70
    texts = {"c": HIGH, "d": REFUSED, "e": "map 0 0 1: free 3, seen 2", "f": "punch 0 0 1: free not 3, seen 3"}
    others = [broken_ones(script, text) for script, text in texts.items()]
    both = Tested(PEERS, "7", [*found.results, *others])
    yield "another side, field, call or word is another cause", len(report.news([both])) == 5 or report.news([both])
    run, said = command_line.Running(SimpleNamespace(first=False, bisect=False), "x", 1), io.StringIO()
    with redirect_stdout(said):
        run.tell(found)
        run.tell(both)
    begins = [it[:6] for it in said.getvalue().splitlines()]
    yield "a cause is told once in a run", begins == [f"new: {it}" for it in "acdef"] or begins


def main() -> int:
    parts = (faults_of_words, faults_of_peers, faults_of_wrong, faults_of_orders, faults_of_recordings, faults_of_groups)
    return tally.ended("peers", parts, f"; {len(peer_scripts())} scripts")


if __name__ == "__main__":
    PROGRAM = tally.machine_of("peers").program
    sys.exit(main())
