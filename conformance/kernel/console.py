"""The consoles of emulated machines: what a kernel says there against itself, from the recorder's first word on."""
from __future__ import annotations

import re
import time
from dataclasses import dataclass, field
from pathlib import Path

# what a kernel's time and its caller look like before a message
PREFIX = r"(?:\[ *\d+\.\d+\] ?)?(?:\[ *[TC]\d+\] ?)?"
# the first lines of reports, the narrower ones first
KINDS = (
    ("KASAN", r"BUG: KASAN: "),
    ("soft lockup", r"watchdog: BUG: soft lockup "),
    ("hung task", r"INFO: task .+ blocked for more than \d+ seconds"),
    ("lockdep", r"(?:WARNING|INFO): (?:possible (?:circular|recursive|irq lock)|.* lock(?:ing)? (?:dependency|order|state|balance|context)|suspicious RCU)"),
    ("lockdep", r"(?:WARNING: (?:bad unlock|lock held|held lock)|BUG: (?:held lock freed|MAX_LOCK)|INFO: trying to register non-static key)"),
    ("WARNING", r"WARNING: "),
    ("BUG", r"(?:BUG: |kernel BUG at )"),
    ("Oops", r"(?:Oops: |general protection fault|.*\[#\d+\])"),
    ("panic", r"Kernel panic - "),
)
FIRST = [(kind, re.compile(PREFIX + pattern)) for kind, pattern in KINDS]
# the line over some reports, and the one with which most end
CUT, END = re.compile(PREFIX + r"-+\[ cut here \]"), re.compile(PREFIX + r"---\[ end ")
# a report without such an end is taken as it is after so many seconds, and at most so many of its lines are shown
SETTLED, MOST = 3.0, 60


@dataclass(frozen=True)
class Ended:
    """Why a suite ended before its last call: what the kernel did there, its kind in a word, and the lines that say it."""

    kind: str
    what: str
    lines: tuple[str, ...] = ()


def report_in(text: str) -> Ended | None:
    """The first report in a console's text, which may go on."""
    lines = text.splitlines()
    for at, line in enumerate(lines):
        if kind := next((kind for kind, pattern in FIRST if pattern.match(line)), None):
            begin = at - 1 if at and CUT.match(lines[at - 1]) else at
            return Ended(kind, re.sub(PREFIX, "", line, count=1).strip(), tuple(upto_end(lines[begin:])))
    return None


def upto_end(lines: list[str]) -> list[str]:
    end = next((at for at, line in enumerate(lines) if END.match(line)), len(lines))
    return [line.rstrip() for line in lines[: end + 1][:MOST]]


def text_at(path: Path) -> str:
    """The text of a file that somebody writes, if it is there."""
    try:
        return path.read_bytes().decode(errors="replace")
    except FileNotFoundError:
        return ""


@dataclass
class Console:
    """Looks again and again at the consoles of one recorder's machines, whose files are in a folder of that one."""

    room: Path
    found: Ended | None = None
    # where the console of this machine was when the recorder hadn't begun: what came before is no answer to a call
    before: int = 0
    seen: float = field(default=0.0)

    def look(self) -> None:
        """Looks for a report, and for more of one that was found."""
        for folder in self.room.glob("emulate-*"):
            # (the console first: what it has while the recorder hasn't begun is of the boot)
            console, told = text_at(folder / "console"), text_at(folder / "told")
            if not re.search(r"(?m)^record: ", told):
                self.before = len(console)
            elif found := report_in(console[self.before :]):
                self.seen = self.seen or time.monotonic()
                self.found = found

    @property
    def is_done(self) -> bool:
        """Whether there is a report, and it has ended or goes on for long."""
        return self.found is not None and (END.match(self.found.lines[-1]) is not None or time.monotonic() - self.seen >= SETTLED)

    def text(self) -> str:
        """All that the machines said on their consoles."""
        return "".join(text_at(folder / "consoles") + text_at(folder / "console") for folder in self.room.glob("emulate-*"))
