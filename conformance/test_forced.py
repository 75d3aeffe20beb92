#!/usr/bin/env python3
"""Tests what forces schedules, and what brings a test elsewhere, as far as that needs no kernel.

Scripts whose calls are held or denied memory: that the recorder reads them, that answers which only a wrong kernel gives are new, and
that a hold which ran out is said, and never passes for one that lasted.
A made-up QEMU (test_console.py) is ended in each way. KTAP, bundles and reproducers in C are made of made-up results.
"""
from __future__ import annotations

import os
import re
import signal
import subprocess
import sys
import tarfile
import tempfile
import time
from pathlib import Path
from typing import Iterator

import forced
import tally
import test_console
from compare import Script
from kernel import bundle, in_c, ktap, report, suites, testing
from kernel.differences import Comparison
from kernel.known import known_issues

TOP = Path(__file__).resolve().parent.parent
HEADER = forced.POOL
FINE = (
    "hold region_add 1 store 3 5 = held", "start 2 store 1 6 = started", "wait 2 = done", "wait 1 = done | 14 0 | 5 2 | 1 1 | used 2",
    "begin 1 trunc 0 0 = done | 16 0 | 0 0 | 0 0 | used 0",
)  # fmt: skip
# a line of a script, what a wrong kernel answers there, and what is said of it
ODD = (
    (2, "wait 2 = noframe", "wait 2 = noframe"),
    (2, "wait 2 = errno EEXIST", "wait 2 = errno EEXIST"),
    (2, "wait 2 blocked = unblocked", "wait 2 blocked = unblocked"),
    (3, "wait 1 = done | 14 0 | 5 2 | 1 1 | used 2 DISAGREE", "wait 1 = done"),
    (3, "wait 1 = done | 14 15 | 5 2 | 1 1 | used 2", "found:    14 free, 15 reserved"),
    (4, "begin 1 trunc 0 0 = done | 16 0 | 0 0 | 0 0 | used 1", "1 are used of the quota"),
    (4, "begin 1 trunc 0 0 = done | 16 -1 | 0 0 | 0 0 | used 0", "found:    16 free, -1 reserved"),
)
DENIED = ("deny 2-3 1 store 3 5 = noframe | 16 0 | 5 0 | 0 0 | used 0", "begin 1 trunc 0 0 = done | 16 0 | 0 0 | 0 0 | used 0")
# what a kernel that can't force answers
VAIN = ("hold region_add 1 store 3 5 = started", "deny 1-1 1 store 3 5 = refused nodenial | 16 0 | 5 0 | 0 0 | used 0")
# a hold that ran out at its first try, and one that did so at each; the last line is what stands behind a whole script
FIRST_TRY = (*FINE[:2], "wait 2 = ranout", *FINE[3:])
END = "end total 16 free 16 resv 0 surp 0"
KERNEL = "# 6.1.0-56-cloud-amd64 #1 SMP Debian 6.1.192-2 (2026-11-16)"
HELD = Script("h", HEADER, [line.partition(" = ")[0] for line in FINE])
# where a call is held, what was there before, that call, another one, and whether that has to wait
MEETINGS = (
    ("removal", "placed", "punch 0 1 1", "trunc 0 0", True),
    ("change", "reserved", "map 0 0 4", "punch 0 1 1", True),
    ("frame", "bare", "store 1 5", "map 0 0 5", False),
    ("frame", "bare", "store 1 5", "store 1 6", True),
    ("frame", "bare", "store 3 5", "store 1 6", False),
    ("page", "bare", "store 3 5", "alloc 0 1 3", True),
    ("page", "bare", "store 3 5", "punch 0 1 1", False),
    ("page", "placed", "alloc 0 1 3", "store 1 6", False),
    ("page", "placed", "alloc 0 1 3", "store 2 6", True),
    ("quota", "reserved", "alloc 0 1 3", "store 1 6", False),
    ("quota", "reserved", "alloc 0 1 3", "store 3 6", True),
    ("deletion", "placed", "punch 0 0 5", "store 1 6", True),
    ("deletion", "placed", "punch 0 0 5", "store 2 6", False),
    ("freeing", "placed", "punch 0 0 5", "store 1 6", False),
    ("deletion", "placed", "trunc 0 2", "store 1 6", False),
)
SIGNALS = (signal.SIGTERM, signal.SIGHUP, signal.SIGINT, signal.SIGKILL)
LEAK = ("# 7.3-cloud #1 SMP Debian 7.3~rc7-1 x", "script a", "pool 1 1 4 2 4", "begin 1 mapn 0 0 2 = mapped 0 | 1 0 | 2 0 | 0 0 | used 0",
        "begin 2 store 0 1 = segv | 1 0 | 2 0 | 0 0 | used 0", "begin 1 exit = done | 1 0 | 2 0 | 0 0 | used 0",
        "begin 2 alloc 0 0 1 = done | 0 0 | 2 1 | 0 0 | used 2", "end total 1 free 1 resv 0 surp 0")  # fmt: skip


def wrong(lines: tuple[str, ...]) -> str:
    """What is said of a recorded script, or that it is right."""
    found = testing.wrong_counts([Script("f", HEADER, list(lines))], known_issues())
    return "\n".join(report.wrong_text(found[0])) if found and found[0].known is None else "known" if found else "right"


def takes_a_touched_page_off(script: Script) -> bool:
    """Whether a truncation and a touch of a page that it takes off are at work at once, in a script whose pages are mapped in the order of the file."""
    at_work: dict[str, list[str]] = {}
    for line in script.lines:
        kind, *words = line.split()
        words = words[words[0] not in ("1", "2") :]
        if kind == "wait":
            at_work.pop(words[0], None)
            continue
        calls = [*at_work.values(), words[1:]]
        sizes = [int(it[2]) for it in calls if it[0] == "trunc"]
        touched = [int(it[1]) for it in calls if it[0] in ("load", "store")]
        if any(page >= size for page in touched for size in sizes):
            return True
        if kind in ("start", "hold"):
            at_work[words[0]] = words[1:]
    return False


def faults_of_scripts() -> Iterator[tuple[str, object]]:
    """That the scripts are what they say, and that the recorder reads them."""
    with tempfile.TemporaryDirectory(prefix="forced-") as name:
        room = Path(name)
        subprocess.run([TOP / "conformance" / "record" / "build.sh", room], check=True)
        for suite in (suites.HELD, suites.DENIED, suites.CHARGED):
            some = suites.scripts_of(suites.SUITES[suite])
            (room / suite).write_text(suites.text_of(some), encoding="utf-8")
            checked = subprocess.run([room / "record", "--check", room / suite], capture_output=True, text=True, check=False)
            yield f"{suite}: the recorder reads it", checked.stdout.startswith(f"{len(some)} scripts, ") or checked.stderr
            yield f"{suite}: each name stands once", len({it.name for it in some}) == len(some)
            yield f"{suite}: each is forced", all(map(forced.has_force, some))
            yield f"{suite}: truncated at its end", all(it.lines[-1] == forced.END for it in some)
            off = [it.name for it in some if takes_a_touched_page_off(it)]
            yield f"{suite}: no truncation takes off what is touched beside it, but where that is recovered, or beyond", off == [it.name for it in some if re.search(r"\.(?:recovered\.|above$)", it.name)] or off
        cut = ["hold region_add 1 store 2 5", "start 2 trunc 0 2", "wait 2", "wait 1"]
        yield "a touched page is taken off", takes_a_touched_page_off(Script("a", HEADER, cut))
        yield "a page below the size isn't", not takes_a_touched_page_off(Script("a", HEADER, [cut[0].replace("store 2", "store 1"), *cut[1:]]))
        words = [room / "record", room / suites.HELD]
        yield "held only with --race", "which --race allows" in subprocess.run(words, capture_output=True, text=True, check=False).stderr


def faults_of_meetings() -> Iterator[tuple[str, object]]:
    """Which calls have to wait for one that is held."""
    places = {it.name: it for it in forced.PLACES}
    for name, setting, first, other, expected in MEETINGS:
        yield f"{name}, {setting}: {other} beside {first}", forced.has_to_wait(places[name], setting, first, other) == expected


def faults_of_answers() -> Iterator[tuple[str, object]]:
    """What a right kernel answers, and what only a wrong one does."""
    for lines in (FINE, DENIED):
        yield lines[0], wrong(lines) == "right" or wrong(lines)
    for at, line, said in ODD:
        found = wrong((*FINE[:at], line, *FINE[at + 1 :]))
        yield line, said in found or found
    for answer, expected in (("beyond", "right"), ("done", "wait 2 = done")):
        above = Script("a.above", HEADER, [FINE[0], FINE[1], f"wait 2 = {answer}", *FINE[3:]])
        yield f"above the size: {answer}", forced.oddities(above) == [] if expected == "right" else forced.oddities(above) == [expected]
    recorded = [Script("f", HEADER, [line]) for line in (FINE[0], DENIED[0], *VAIN)]
    yield "what was forced", [forced.was_forced(it) for it in recorded] == [True, True, False, False]
    yield "what can't be forced", [forced.cannot(it) for it in recorded] == [False, False, True, True]


def faults_of_vain() -> Iterator[tuple[str, object]]:
    """That a suite ends early on a kernel that can't force it, and only there."""
    some = [Script(f"s{at}", HEADER, ["hold region_add 1 load 0", forced.END]) for at in range(9)]
    for answer, made in (("started", testing.ENOUGH_IN_VAIN), ("passed", 9), ("held", 9)):
        following = testing.Following(Comparison(test_console.MACHINE.program, "", []), testing.Work("held", some, True), lambda _: None)
        answers = [f"hold region_add 1 load 0 = {answer}", f"{forced.END} = done | 16 0 | 0 0 | 0 0 | used 0"]
        following.follow([Script(it.name, HEADER, answers) for it in some], float("inf"))
        yield f"calls that are {answer}", len(following.results) == made or following.results


def held_on(lines: list[str], *words: str) -> tuple[int, str]:
    """How ./kernel test ends where a made-up machine answers so to a script with a hold, and what it prints."""
    told = (f"record: 1 scripts recorded, {len(lines)} lines", "status 0")
    status, out, said = test_console.command_on(test_console.Machine(recorded=tuple(lines), told=told, stays=False), *words, some=(("held.txt", [HELD]),))
    return status, out or said


def faults_of_holds() -> Iterator[tuple[str, object]]:
    """That a hold which ran out at each try is no verdict, that one which lasted at the second try is, and that a wrong count is one anyhow."""
    head = ("script h", HEADER)
    lasted, tried, in_vain = (*head, *FINE, END), (*head, *FIRST_TRY, "again"), (*head, *FIRST_TRY, END)
    status, out = held_on([KERNEL, *lasted])
    yield "a hold that lasted", (status, out.splitlines()[-1]) == (0, "kernel: 0 new differences") or (status, out)
    status, out = held_on([KERNEL, *tried, *tried, *lasted])
    yield "a hold that lasted at the third try", (status, out.splitlines()[-1], "ran out" in out) == (0, "kernel: 0 new differences", False) or (status, out)
    for words, expected in (((), 2), (("--bisect",), 125)):
        status, out = held_on([KERNEL, *tried, *in_vain], *words)
        last = "kernel: not judged: the holds of 1 scripts ran out, and nothing else is new"
        yield f"a hold that ran out at each try {words}", (status, out.splitlines()[-1], "\n  held.txt: h\n" in out) == (expected, last, True) or (status, out)
    wrong = [line.replace("14 0 |", "14 15 |") for line in in_vain]
    status, out = held_on([KERNEL, *wrong])
    yield "a wrong count behind a hold that ran out", (status, "found:    14 free, 15 reserved" in out) == (1, True) or (status, out)
    ran_out = Script("h", HEADER, list(FIRST_TRY))
    yield "it was not forced", (forced.ran_out(ran_out), forced.was_forced(ran_out), forced.ran_out(Script("h", HEADER, list(FINE)))) == (True, False, False)
    found = testing.judged(Comparison(test_console.MACHINE.program, "6.1", known_issues()), testing.Work("made", [HELD], True), [ran_out])
    yield "KTAP of it", "ok 1 h # SKIP its hold ran out" in ktap.text([found]) or ktap.text([found])
    yield "JUnit of it", '<skipped message="its hold ran out"' in report.junit_text([found]) or report.junit_text([found])


def begun(room: Path) -> subprocess.Popen[bytes]:
    """./kernel test on a made-up machine that stays, once that has begun."""
    (room / "made.txt").write_text(suites.text_of(test_console.SCRIPTS), encoding="utf-8")
    words = [TOP / "kernel", "test", "--kernel", room / "cpio", "--scripts", room / "made.txt"]
    ran = subprocess.Popen(words, stdin=subprocess.DEVNULL, stdout=subprocess.DEVNULL, stderr=subprocess.DEVNULL, start_new_session=True, env={**os.environ, "TMPDIR": str(room)})
    until = time.monotonic() + 60
    while not (room / "process").is_file() and time.monotonic() < until:
        time.sleep(0.1)
    time.sleep(0.3)
    return ran


def faults_of_endings() -> Iterator[tuple[str, object]]:
    """That the machine ends with the program, in whatever way and with whichever signal that is ended."""
    for number in SIGNALS:
        for is_group in (False, True):
            with test_console.standing_in(test_console.Machine()) as room:
                ran = begun(room)
                (os.killpg if is_group else os.kill)(ran.pid, number)
                yield f"{number.name} of {'the group' if is_group else 'the program'}", test_console.is_gone(room)
                ran.wait()


def faults_of_ktap() -> Iterator[tuple[str, object]]:
    """KTAP of a suite of which a script differs: each number is one higher, and a line says what is wrong."""
    found = testing.judged(Comparison(test_console.MACHINE.program, "6.1", known_issues()), testing.Work("made", [], False), testing.parsed("\n".join(LEAK) + "\n")[1])
    text = ktap.text([found])
    expected = ["KTAP version 1", "1..1", "    KTAP version 1", "    # Subtest: made", "    1..1", "    # new: begin 2 alloc 0 0 1", "    not ok 1 a", "not ok 1 made"]
    yield "KTAP", text.splitlines() == expected or text


def faults_of_c() -> Iterator[tuple[str, object]]:
    """That a difference becomes a program that compiles, makes all its calls, and expects what the machine answers."""
    difference = Comparison(test_console.MACHINE.program, "6.1", known_issues()).result(testing.parsed("\n".join(LEAK) + "\n")[1][0]).difference
    text = in_c.program(difference)
    with tempfile.TemporaryDirectory(prefix="forced-") as name:
        (Path(name) / "a.c").write_text(text, encoding="utf-8")
        words = ["cc", "-std=gnu11", "-O2", "-Wall", "-Wextra", "-Werror", "-Wno-unused-function", "-o", Path(name) / "a", Path(name) / "a.c"]
        yield "a program in C compiles", subprocess.run(words, capture_output=True, text=True, check=False).stderr == "" or text
    calls = re.findall(r'tell\("(.*?)"', text)
    yield "its calls", calls == difference.script.lines or calls
    yield "what it expects", '"done | 0 0 | 2 1 | used 1"' in text or text[-400:]


def faults_of_bundles() -> Iterator[tuple[str, object]]:
    """What a bundle has, and that answers which were brought back are compared as if they had been recorded here."""
    with tempfile.TemporaryDirectory(prefix="forced-") as name:
        room = Path(name)
        bundle.pack(room / "b.tar", [suites.SUITES["fixed"], suites.SUITES["races"]])
        with tarfile.open(room / "b.tar") as archive:
            archive.extractall(room)
        has = {str(it.relative_to(room / bundle.NAME)) for it in (room / bundle.NAME).rglob("*") if it.is_file()}
        yield "a bundle's files", has == {"record", "run.sh", "scripts/fixed", "scripts/races"} or has
        yield "run.sh", subprocess.run(["sh", "-n", room / bundle.NAME / "run.sh"], check=False).returncode == 0
        answers = room / "answers"
        answers.mkdir()
        yield "no answers", subprocess.run([TOP / "kernel", "test", "--answers", answers], capture_output=True, check=False).returncode == 2
        (answers / "fixed").write_bytes(b"".join((TOP / "conformance" / name).read_bytes() for name in suites.SUITES["fixed"].files))
        ran = subprocess.run([TOP / "kernel", "test", "--answers", answers], capture_output=True, text=True, check=False)
        yield "answers of another machine", (ran.returncode, "0 new differences" in ran.stdout) == (0, True) or ran
        text = (answers / "fixed").read_text(encoding="utf-8")
        (answers / "fixed").write_text(re.sub(r"(begin 1 map 0 0 \d = mapped 0) \| (\d) ", r"\1 | 7\2 ", text, count=1), encoding="utf-8")
        ran = subprocess.run([TOP / "kernel", "test", "--answers", answers], capture_output=True, text=True, check=False)
        yield "wrong answers of another machine", (ran.returncode, "1 new difference" in ran.stdout) == (1, True) or ran


def main() -> int:
    parts = (faults_of_scripts, faults_of_meetings, faults_of_answers, faults_of_vain, faults_of_holds, faults_of_endings, faults_of_ktap, faults_of_c, faults_of_bundles)
    return tally.ended("forced", parts)


if __name__ == "__main__":
    test_console.MACHINE = tally.machine_of("forced")
    sys.exit(main())
