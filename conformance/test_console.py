#!/usr/bin/env python3
"""Tests what ./kernel says of a kernel while it answers, and where it does wrong before its last answer, with a made-up QEMU.

`FIRST` has first lines of reports as kernels write them, and what kind each is. `Machine` is a made-up emulated machine: what its
recorder answers and says, and what its kernel writes to the console, each after some time.
"""
from __future__ import annotations

import os
import re
import subprocess
import sys
import tempfile
import time
from contextlib import contextmanager
from dataclasses import dataclass
from pathlib import Path
from types import SimpleNamespace
from typing import Iterator
from unittest.mock import patch

import tally
from compare import Script
from kernel import __main__ as command_line
from kernel import console, kernels, machine, report, testing
from kernel.known import known_issues
from kernel.suites import text_of
from kernel.testing import Tested, Work

TOP = Path(__file__).resolve().parent.parent
TIME = "[   33.104817] "
# the first line of a report, and its kind
FIRST = (
    ("BUG: kernel NULL pointer dereference, address: 0000000000000008", "BUG"),
    ("BUG: unable to handle page fault for address: ffffea0000000034", "BUG"),
    ("Oops: 0002 [#1] PREEMPT SMP NOPTI", "Oops"),
    ("general protection fault, probably for non-canonical address 0xdead000000000100: 0000 [#1] PREEMPT SMP NOPTI", "Oops"),
    ("invalid opcode: 0000 [#1] PREEMPT SMP NOPTI", "Oops"),
    ("kernel BUG at mm/hugetlb.c:451!", "BUG"),
    ("BUG: Bad page state in process record  pfn:1f800", "BUG"),
    ("WARNING: CPU: 1 PID: 84 at mm/hugetlb.c:4885 hugetlb_reserve_pages+0x3a/0x40", "WARNING"),
    ("WARNING: mm/hugetlb.c:4885 at hugetlb_reserve_pages+0x3a/0x40, CPU#1: record/84", "WARNING"),
    ("BUG: KASAN: slab-use-after-free in region_del+0x2d1/0x3a0", "KASAN"),
    ("WARNING: possible circular locking dependency detected", "lockdep"),
    ("WARNING: inconsistent lock state", "lockdep"),
    ("WARNING: bad unlock balance detected!", "lockdep"),
    ("WARNING: suspicious RCU usage", "lockdep"),
    ("watchdog: BUG: soft lockup - CPU#0 stuck for 22s! [record:84]", "soft lockup"),
    ("INFO: task record:84 blocked for more than 61 seconds.", "hung task"),
    ("Kernel panic - not syncing: Fatal exception", "panic"),
)
# lines that are no report
OTHERS = (
    "mtrr: your CPUs had inconsistent variable MTRR settings",
    "Spectre V2 : WARNING: Unprivileged eBPF is enabled with eIBRS on, data leaks possible via Spectre v2 BHB attacks!",
    "Unstable clock detected, switching default tracing clock to \"global\"",
    "Warning: unable to open an initial console.",
    "hugetlbfs: 8 pages, 4 of them reserved",
)
WARNING = (
    "------------[ cut here ]------------",
    "WARNING: CPU: 1 PID: 84 at mm/hugetlb.c:4885 hugetlb_reserve_pages+0x3a/0x40",
    "Call Trace:",
    " hugetlbfs_file_mmap+0x1a5/0x290",
    "---[ end trace 0000000000000000 ]---",
)
OOPS = ("BUG: kernel NULL pointer dereference, address: 0000000000000008", "Oops: 0000 [#1] PREEMPT SMP NOPTI", "Call Trace:", " region_del+0x2d/0x3a0")
BEGUN = "record: this kernel has 0 huge pages of 2 MiB, none in use"
SCRIPTS = [
    Script("a", "pool 4 1 4 1", ["begin 1 map 0 0 1", "begin 1 trunc 0 0"]),
    Script("b", "pool 4 1 4 1", ["begin 1 map 0 0 2", "begin 1 punch 0 0 1", "begin 1 trunc 0 0"]),
    Script("c", "pool 4 1 4 1", ["begin 1 map 0 0 1"]),
]
A = ("script a", "pool 4 1 4 1", "begin 1 map 0 0 1 = mapped 0 | 4 1 | 1 0 | 0", "begin 1 trunc 0 0 = done | 4 0 | 0 0 | 0", "end total 4 free 4 resv 0 surp 0")
B = ("script b", "pool 4 1 4 1", "begin 1 map 0 0 2 = mapped 0 | 4 2 | 2 0 | 0")
# a script whose last answer no rule allows
WRONG_A = (*A[:3], "begin 1 trunc 0 0 = done | 4 1 | 0 0 | 0", "end total 4 free 4 resv 1 surp 0")
# what a recorder says of what a kernel did, and what becomes of it
ODD = (
    ("'race 1 900 4 mst': task 2: its alloc was answered 'errno EEXIST'", "no rule allows the answer 'errno EEXIST' to the alloc of task 2 in race 1 900 4 mst"),
    ("task 1 died of signal 7 (Bus error)", "a call of task 1 ended in signal 7 (Bus error)"),
    ("before script c the kernel keeps 2 huge pages that nobody should use", "2 huge pages are still in use before script c, and nobody has them"),
)
# what it says of itself, or of its machine
NO_ANSWERS = ("task 1 died of signal 9 (Killed)", "script b wants 4 huge pages, and the kernel has memory for 2", "'race 1 900 4 u': task 1: there is nothing left that it may do")
# the lines of a script of races, and what is said of them
RESTS = (
    (("race 1 9 4 mns = rest | 4 0 | 0 0 | 0 0", "race 2 9 4 mns = rest | 2 3 | 2 2 | 0 0", "begin 1 trunc 0 0 = done | 4 0 | 0 0 | 0 0"),
     ("expected: a reserve count from 0 to the number of free pages\n", "found:    2 free, 3 reserved\n", "behind:   call 2: race 2 9 4 mns\n", "    race 1 9 4 mns\n")),
    (("race 1 9 4 mns = rest | 4 0 | 0 0 | 0 0", "begin 1 trunc 0 0 = done | 4 -1 | 0 0 | 0 0"),
     ("expected: all 4 pages free, and none reserved\n", "found:    4 free, -1 reserved\n", "behind:   call 2: begin 1 trunc 0 0\n")),
    (("race 1 9 4 mns = rest | 4 -1 | 0 0 | 0 0", "begin 1 trunc 0 0 = done | 4 0 | 0 0 | 0 0"), ("found:    4 free, -1 reserved\n", "behind:   call 1: ")),
    (("race 1 9 4 mns = rest | 4 4 | 0 0 | 0 0", "begin 1 trunc 0 0 = done | 4 0 | 0 0 | 0 0"), ("right",)),
)  # fmt: skip
# (on a busy machine a made-up one takes seconds to say its first line)
LIMIT = "8"
KERNEL = "# 6.1.0-56-cloud-amd64 #1 SMP Debian 6.1.192-2 (2026-11-16)"


@dataclass(frozen=True)
class Machine:
    """What a made-up machine writes, and whether it stands still behind that or ends; `booting` comes before the recorder begins."""

    console: tuple[str, ...] = ()
    recorded: tuple[str, ...] = (KERNEL, *A, *B)
    told: tuple[str, ...] = ()
    booting: tuple[str, ...] = ()
    stays: bool = True

    def program(self, room: Path) -> str:
        """The machine as a program in QEMU's place."""
        parts = {"boot": timed(self.booting), "console": timed(self.console), "recorded": self.recorded, "told": self.told}
        for name, lines in parts.items():
            (room / f"its-{name}").write_text("".join(f"{line}\n" for line in lines), encoding="utf-8")
        return f"""#!/bin/bash
        echo $$ > {room}/process
        echo "$*" > {room}/words
        for word in "$@"; do case $word in file:*) name=${{word##*/}}; declare "$name=${{word#file:}}" ;; esac done
        cat {room}/its-boot >> "$console"
        sleep 0.6
        echo "{BEGUN}" >> "$told"
        sleep 0.6
        cat {room}/its-recorded >> "$recorded"
        cat {room}/its-console >> "$console"
        cat {room}/its-told >> "$told"
        {"exec sleep 99" if self.stays else ""}
        """


def timed(lines: tuple[str, ...]) -> tuple[str, ...]:
    return tuple(f"{TIME}{line}" for line in lines)


@contextmanager
def standing_in(it: Machine) -> Iterator[Path]:
    """A folder in which a made-up machine is QEMU, on the PATH."""
    with tempfile.TemporaryDirectory(prefix="kernel-") as name:
        room = Path(name)
        for command, text in (("qemu-system-x86_64", it.program(room)), ("cpio", "#!/bin/bash\ncat > /dev/null\n")):
            (room / command).write_text(text, encoding="utf-8")
            (room / command).chmod(0o755)
        with patch.dict(os.environ, {"PATH": f"{room}:{os.environ['PATH']}"}):
            yield room


def shown(it: Machine, room: Path, how: kernels.Emulation, some: list[Script] = SCRIPTS) -> tuple[Tested | str, list[str]]:
    """What a suite on a made-up machine shows, or why it couldn't run; and what is said meanwhile."""
    said: list[str] = []
    with patch.object(kernels, "say", said.append), patch.object(testing, "say", lambda _: None):
        try:
            kernel = kernels.emulated(room / "cpio", "x", how)
            return testing.tested(kernel, MACHINE, known_issues(), Work("made", some, any("race" in line for one in some for line in one.lines))), said
        except machine.Problem as why:
            return str(why), said


def suite_on(it: Machine, how: kernels.Emulation = kernels.Emulation(1, 60)) -> Tested | str:
    with standing_in(it) as room:
        return shown(it, room, how)[0]


def command_on(it: Machine, *words: str, some: tuple[tuple[str, list[Script]], ...] = (("made.txt", SCRIPTS),)) -> tuple[int, str, str]:
    """How ./kernel test ends on a made-up machine with files of scripts, and what it prints and says."""
    with standing_in(it) as room:
        for name, scripts in some:
            (room / name).write_text(text_of(scripts), encoding="utf-8")
        files = [room / name for name, _ in some]
        command = [TOP / "kernel", "test", "--kernel", room / "cpio", "--seconds", LIMIT, *words, "--scripts", *files]
        ran = subprocess.run(command, stdin=subprocess.DEVNULL, capture_output=True, text=True, check=False)
        return ran.returncode, ran.stdout, ran.stderr


def is_gone(room: Path) -> bool:
    """Whether the process of a made-up machine ends, which may take a moment behind its signal."""
    process = Path("/proc") / (room / "process").read_text().strip()
    return any(not process.exists() or time.sleep(0.1) for _ in range(100))


def faults_of_reports() -> Iterator[tuple[str, object]]:
    """What is a report, of which kind, and how far it goes."""
    for line, kind in FIRST:
        for before in (TIME, "", f"{TIME[:-1]}[   T84] "):
            found = console.report_in(f"{before}one more\n{before}{line}\n{before}Call Trace:\n")
            expected = (kind, line, (f"{before}{line}", f"{before}Call Trace:"))
            yield f"{before}{line}", (found and (found.kind, found.what, found.lines)) == expected or found
    for line in OTHERS:
        yield line, console.report_in(f"{TIME}{line}\n") is None
    found = console.report_in("\n".join(["odd", *timed(WARNING), *timed(OOPS)]))
    yield "a report from its cut to its end", found.lines == timed(WARNING) or found


def faults_of_ends() -> Iterator[tuple[str, object]]:
    """That a suite ends at once with the report and the call in flight, and that its machine ends too."""
    it = Machine(WARNING)
    with standing_in(it) as room:
        began = time.monotonic()
        found, _ = shown(it, room, kernels.Emulation(1, 60, panics_on_warning=True, consoles=room / "kept"))
        yield "a warning ends the suite at once", time.monotonic() - began < 40
        yield "its machine is gone", is_gone(room)
        yield "a warning is one new difference", isinstance(found, Tested) and (found.new, found.known, found.calls, found.left) == (1, 0, 2, 2) or found
        yield "the kernel's words", all(f" {word} " in (room / "words").read_text() for word in ("oops=panic", "panic_on_warn=1", "loglevel=5"))
        yield "the console is kept", (room / "kept").read_text().splitlines() == [*timed(WARNING)]
    if isinstance(found, str):
        return
    text = report.text([found], "x")
    yield "the call in flight", "in flight: suite made, b, call 2: begin 1 punch 0 0 1\n" in text or text
    yield "the report's lines", all(f"  | {line}\n" in text for line in timed(WARNING)) or text
    yield "the script up to there", "    begin 1 map 0 0 2\n    begin 1 punch 0 0 1\n    end" in text or text
    yield "JSON", '"kind": "WARNING"' in report.json_text([found], "x") and '"call": "begin 1 punch 0 0 1"' in report.json_text([found], "x")
    yield "JUnit", 'tests="2" failures="1"' in report.junit_text([found]) or report.junit_text([found])
    found = suite_on(Machine(OOPS, stays=False))
    yield "a kernel that ends at an oops", isinstance(found, Tested) and (found.new, found.stopped[0].call) == (1, "begin 1 punch 0 0 1") or found
    with standing_in(Machine(OOPS, stays=False)) as room:
        kernel = kernels.emulated(room / "cpio", "x", kernels.Emulation(1, 60))
        found = kernel.recording(text_of(SCRIPTS), 6, look=lambda _: bool(time.sleep(5)))
        yield "a kernel that ends while answers are compared", (found.ended and found.ended.kind) == "BUG" or found
    found = suite_on(Machine(OOPS, recorded=(KERNEL, *A)))
    yield "between two scripts", isinstance(found, Tested) and (found.new, found.stopped[0].call) == (1, "its pool is opened") or found


def faults_of_other_ends() -> Iterator[tuple[str, object]]:
    """That nothing else is a report: what the boot says, and a machine that ends without a word."""
    whole = (KERNEL, *A, *B, "begin 1 punch 0 0 1 = done | 4 2 | 2 0 | 0", "begin 1 trunc 0 0 = done | 4 0 | 0 0 | 0", *A[4:],
             "script c", "pool 4 1 4 1", A[2], *A[4:])  # fmt: skip
    ended = (f"record: 3 scripts recorded, {len(whole)} lines", "status 0")
    found = suite_on(Machine(recorded=whole, told=ended, booting=WARNING, stays=False))
    yield "a warning of the boot", isinstance(found, Tested) and (found.new, found.calls, found.left) == (0, 6, 0) or found
    found = suite_on(Machine(recorded=whole, told=ended, console=WARNING, stays=False))
    yield "a warning behind the last call", isinstance(found, Tested) and (found.new, found.calls, found.stopped[0].call) == (1, 6, "all calls were answered") or found
    found = suite_on(Machine(stays=False))
    yield "a machine that ends without a word", isinstance(found, str) and "the machine ended before the recorder did" in found or found


def faults_of_silence() -> Iterator[tuple[str, object]]:
    """That a run without an answer says so, and where it is."""
    it = Machine()
    with standing_in(it) as room, patch.object(kernels, "SILENT", 1.0):
        _, said = shown(it, room, kernels.Emulation(1, 4))
    found = [line for line in said if line.startswith("  no call was answered for ") and line.endswith(f"; the last line is '{B[-1]}'")]
    yield "a silent run says so", len(found) >= 1 or said
    yield "its words", kernels.SILENT == 30.0


def faults_of_news() -> Iterator[tuple[str, object]]:
    """That a difference is printed while the machine still runs, and that --first ends it there."""
    it, heard = Machine(recorded=(KERNEL, *WRONG_A, *B)), []
    with standing_in(it) as room:
        began = time.monotonic()
        with patch.object(testing, "say", lambda _: None):
            kernel = kernels.emulated(room / "cpio", "x", kernels.Emulation(1, 60))
            found = testing.tested(kernel, MACHINE, known_issues(), Work("made", SCRIPTS, False), heard.append, is_first=True)
        yield "the first difference ends the run", time.monotonic() - began < 40 and is_gone(room)
        yield "it is passed on", [(it.new, it.calls) for it in heard] == [(1, 2)] or heard
        yield "the suite has what came", (found.new, found.calls, found.left, found.stopped) == (1, 2, 2, []) or found
    status, out, said = command_on(it)
    yield "a difference of a machine that isn't done", (status, out.splitlines()[-1]) == (1, "kernel: 1 new difference; 0 of 1 suites ran") or (status, out)
    yield "its text", out.startswith("new:\na, call 2: begin 1 trunc 0 0: reserved\n") and said.count("wasn't done after 8 seconds") == 1 or (out, said)
    status, out, _ = command_on(it, "--bisect")
    yield "a bad kernel of a bisection", (status, out.splitlines()[-1]) == (1, "kernel: 1 new difference, the first of which ended it") or (status, out)
    yield "printed in full once", out.count("kernel:  done | 4 1") == 1 and "new, printed in full above:\n  a, call 2: " in out or out


def faults_of_verdicts() -> Iterator[tuple[str, object]]:
    """That nothing passes for a kernel that is right where it wasn't judged."""
    for words, expected in (((), 2), (("--bisect",), 125)):
        status, out, said = command_on(Machine(), *words)
        yield f"a machine that isn't done {words}", (status, out, said.count("wasn't done after 8 seconds")) == (expected, "", 1) or (status, out, said)
    only_a = Machine(recorded=(KERNEL, *A), told=(f"record: 1 scripts recorded, {1 + len(A)} lines", "status 0"), stays=False)
    status, out, _ = command_on(only_a, some=(("a.txt", SCRIPTS[:1]), ("b.txt", SCRIPTS[1:])))
    expected = "kernel: not judged: 1 of 2 suites ran, and nothing in them is new"
    yield "a later suite that can't run", (status, out.splitlines()[-1], "0 new diff" in out) == (2, expected, False) or (status, out)
    status, out, _ = command_on(only_a, "--bisect", some=(("a.txt", SCRIPTS[:1]),))
    yield "a good kernel of a bisection", (status, out.splitlines()[-1]) == (0, "kernel: 0 new differences") or (status, out)
    ran = subprocess.run([TOP / "kernel", "test", "--bisect", "--odd"], capture_output=True, check=False)
    yield "wrong words of a bisection", ran.returncode == 128 or ran
    broken = patch.dict(command_line.COMMANDS, {"test": lambda _: 1 // 0})
    with broken, patch.object(command_line, "say", lambda _: None):
        options = command_line.read_words(["test", "--here", "--bisect"])
        yield "an error of the program in a bisection", command_line.status_of(options) == 125


def faults_of_answers() -> Iterator[tuple[str, object]]:
    """That what no rule allows is a difference where the recorder can't go on from it, and other failures aren't."""
    for told, what in ODD:
        found = suite_on(Machine(told=(f"record: {told}", "status 1"), stays=False))
        yield told, isinstance(found, Tested) and (found.new, found.stopped[0].ended.what, found.stopped[0].call) == (1, what, "begin 1 punch 0 0 1") or found
    for told in NO_ANSWERS:
        found = suite_on(Machine(told=(f"record: {told}", "status 1"), stays=False))
        yield told, found == f"record: {told}" or found


def faults_of_rests() -> Iterator[tuple[str, object]]:
    """That a wrong count of a race says what was expected, what was found, where, and by which script."""
    for lines, said in RESTS:
        wrong = testing.wrong_counts([Script("r", "pool 4 1 4 2", list(lines))], [])
        found = "\n".join(report.wrong_text(wrong[0])) if wrong else "right"
        yield str(lines), all(it in found for it in said) or found


def faults_of_full_disks() -> Iterator[tuple[str, object]]:
    """That a full disk is said in one line, whoever came upon it."""
    with patch.object(kernels.shutil, "disk_usage", lambda _: SimpleNamespace(free=0)):
        found = suite_on(Machine(stays=False))
    yield "a disk that is full where QEMU writes", isinstance(found, str) and re.fullmatch(r"\S+: No space left on device", found) is not None or found
    buffered = {name: value for name, value in os.environ.items() if name != "PYTHONUNBUFFERED"}
    with open("/dev/full", "w", encoding="utf-8") as to:
        ran = subprocess.run([TOP / "kernel", "known"], stdout=to, stderr=subprocess.PIPE, text=True, env=buffered, check=False)
    yield "a disk that is full where the report goes", (ran.returncode, ran.stderr.count("\n"), "No space left" in ran.stderr) == (2, 1, True) or ran


def main() -> int:
    parts = (faults_of_reports, faults_of_ends, faults_of_other_ends, faults_of_silence)
    parts += (faults_of_news, faults_of_verdicts, faults_of_answers, faults_of_rests, faults_of_full_disks)
    return tally.ended("console", parts)


if __name__ == "__main__":
    MACHINE = tally.machine_of("console")
    sys.exit(main())
