"""Runs the reproducers of the reports on kernels, each in a machine of its own, and says on which the error shows."""
from __future__ import annotations

import os
import re
import subprocess
import tempfile
from dataclasses import dataclass
from itertools import product
from pathlib import Path
from typing import Iterator

from compare import TOP
from kernel.kernels import RECORD, need, reason, say, stop
from kernel.problem import Problem

REPORTS = TOP / "docs" / "reports"
FLAGS = ("-O2", "-Wall", "-Wextra", "-Wno-unused-parameter", "-static", "-pthread")
# what a reproducer's status means
RIGHT, WRONG, COULD_NOT = 0, 1, 2
WORDS = {RIGHT: "right", WRONG: "WRONG"}


@dataclass(frozen=True)
class Finding:
    """An error of kernels: its report, and the reproducer with its words."""

    name: str
    source: str
    words: tuple[str, ...] = ()
    # whether it is told for how many seconds to try
    is_race: bool = True


FINDINGS = (
    Finding("used-pages-leak", "used-pages-leak", is_race=False),
    Finding("reserve-count-race commit", "reserve-count-race", ("commit",)),
    Finding("reserve-count-race raise", "reserve-count-race", ("raise",)),
    Finding("reserve-count-back-out", "reserve-count-back-out"),
)


@dataclass(frozen=True)
class Shown:
    """What a reproducer showed on one kernel: its status, and what it printed."""

    finding: Finding
    version: str
    status: int
    printed: str


def built(finding: Finding, room: Path) -> Path:
    """The reproducer, compiled and linked statically."""
    program = room / finding.source
    if program.exists():
        return program
    words = [os.environ.get("CC", "cc"), *FLAGS, "-o", program, REPORTS / f"{finding.source}.c"]
    ran = subprocess.run(words, capture_output=True, text=True, check=False)
    if ran.returncode or ran.stderr:
        raise Problem(f"docs/reports/{finding.source}.c doesn't compile without a warning: {first_complaint(ran.stderr)}")
    return program


def first_complaint(text: str) -> str:
    return next((line for line in text.splitlines() if "error" in line or "warning" in line), "no reason given")


def version_of(told: str) -> str:
    """The kernel's version in a reproducer's first line: Debian's, if it is one of theirs."""
    found = re.search(r"Debian (\d\S*)", told) or re.search(r"on Linux ([^,\s]+)", told)
    return re.sub(r"-[^-]*$", "", found[1]) if found else ""


def show(finding: Finding, kernel: Path, seconds: int, limit: int, room: Path) -> Shown:
    """Boots a kernel, and runs a reproducer on it."""
    program = built(finding, room)
    words = (*finding.words, *([str(seconds)] if finding.is_race else []))
    command = [RECORD / "emulate.sh", "--kernel", kernel, "--seconds", str(limit), "--run", program, *words]
    status, printed, told = outcome(command, room)
    version = version_of(told)
    if not version or status not in WORDS or not printed:
        lines = [line for line in told.splitlines() if "could not run" in line]
        raise Problem(f"{finding.name} on {kernel.name}: {lines[0] if lines else reason(told, status)}")
    return Shown(finding, version, status, printed)


def outcome(command: list[str | Path], room: Path) -> tuple[int, str, str]:
    """The status of a command and what it writes. If this process is ended, the command ends its emulated machine itself."""
    pipes = {"stdin": subprocess.DEVNULL, "stdout": subprocess.PIPE, "stderr": subprocess.PIPE, "text": True}
    ran = subprocess.Popen(command, env={**os.environ, "TMPDIR": str(room)}, **pipes)
    try:
        printed, told = ran.communicate()
    finally:
        stop(ran)
    return ran.returncode, printed, told


def show_all(kernels: list[Path], seconds: int, limit: int) -> Iterator[Shown]:
    """Each reproducer on each kernel, in turn."""
    need("qemu-system-x86_64", "cpio", "cc")
    pairs = list(product(kernels, FINDINGS))
    with tempfile.TemporaryDirectory(prefix="kernel-") as name:
        for number, (kernel, finding) in enumerate(pairs, 1):
            say(f"{number} of {len(pairs)}: {finding.name} on {kernel.name}")
            yield show(finding, kernel, seconds, limit, Path(name))


def table(found: list[Shown]) -> list[str]:
    """A line for each kernel, a column for each finding."""
    versions = list(dict.fromkeys(it.version for it in found))
    names = list(dict.fromkeys(it.finding.name for it in found))
    by_both = {(it.version, it.finding.name): WORDS[it.status] for it in found}
    rows = [("kernel", *names), *((version, *(by_both.get((version, name), "-") for name in names)) for version in versions)]
    widths = [max(len(row[k]) for row in rows) for k in range(len(rows[0]))]
    return ["  ".join(it.ljust(width) for it, width in zip(row, widths)).rstrip() for row in rows]


def text(it: Shown) -> str:
    """What a reproducer printed, and its verdict."""
    return "\n".join([f"{it.finding.name} on {it.version}: {WORDS[it.status]}", *(f"  {line}" for line in it.printed.splitlines())])
