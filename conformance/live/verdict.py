"""What the program says of a placed recording: its answer to each row, its counts behind each row, and its files at the end."""
from __future__ import annotations

import re
import subprocess
from dataclasses import dataclass
from pathlib import Path

from placing import Placement
from recordings import Recording

# a row of an explanation: the line's number at its begin, and the free, the reserve and the owed count at its end; where the pool has a
# quota the used count, too
EXPLAINED, WITH_USED = (re.compile(rf"^ *\d+  .* (\d+) +(\d+) +-?\d+{used}$") for used in ("", r" +\d+"))
# what stands behind the counts: tasks whose wait began or ended
WAITS = re.compile(r"  task \d+ waits .*$")


@dataclass(frozen=True)
class Verdict:
    """Whether the program makes each row as Linux did; else the first row that it doesn't, and how it differs."""

    is_whole: bool
    row: int = 0
    text: str = ""


def run(program: Path, command: str, trace: str) -> list[str]:
    """What a command of the program prints of a trace."""
    ran = subprocess.run([program, command], input=trace, capture_output=True, text=True, check=False)
    if ran.returncode:
        raise OSError(f"{program} {command} ends with {ran.returncode}: {ran.stderr.strip()}")
    return ran.stdout.splitlines()


def counts_of(explanation: list[str]) -> list[tuple[int, int]]:
    """The free and the reserve count behind each event."""
    head, *rows = explanation
    row = WITH_USED if head.endswith("  used") else EXPLAINED
    found = [row.match(WAITS.sub("", it)) for it in rows]
    if None in found:
        raise ValueError(f"this row of an explanation has no counts: {rows[found.index(None)]}")
    return [(int(it[1]), int(it[2])) for it in found]


def trace_of(placement: Placement) -> str:
    return "".join(f"{it}\n" for it in (placement.header, *(row.line for row in placement.rows)))


def judge(placement: Placement, recording: Recording, program: Path) -> Verdict:
    """Compares what the program does with what Linux did. The Python machine has no say in it."""
    trace, rows = trace_of(placement), placement.rows
    printed = run(program, "replay", trace)
    for number, (row, outcome) in enumerate(zip(rows, printed)):
        if not row.fits(outcome):
            return Verdict(False, number, f"{row.line}: the program {outcome!r}, Linux as {' or '.join(row.wanted)!r}")
    counted = counts_of(run(program, "explain", trace)[: len(rows) + 1])
    for it in placement.counts:
        free, resv = counted[it.rows - 1] if it.rows else (it.free, it.resv)
        if (free, resv) != (it.free, it.resv):
            return Verdict(False, it.rows - 1, f"the program has free {free} resv {resv}, Linux free {it.free} resv {it.resv}")
    return Verdict(True) if placement.fault else judge_rest(placement, recording, printed[len(rows) :])


def judge_rest(placement: Placement, recording: Recording, state: list[str]) -> Verdict:
    """Compares the files at rest."""
    for it in recording:
        if it.kind == "rest":
            number = placement.files[it.about]
            linux = f"file {number} size {it.a} reserved {it.b >> 16} regions {it.b & 0xFFFF} pages {it.c} "
            if not any(line.startswith(linux) for line in state):
                return Verdict(False, len(placement.rows), f"at rest Linux has {linux.strip()}, the program {state[1 + number]}")
    return Verdict(True)


def differs(placement: Placement, verdict: Verdict) -> bool:
    """Whether the program and the Python machine, by which the rows were placed, disagree on where Linux leaves the machine. The Python
    machine also compares what no output of the program shows (frames, indices), so it may leave earlier, and never later."""
    return placement.fault is None and not verdict.is_whole or not verdict.is_whole and verdict.row + 1 < len(placement.rows)
