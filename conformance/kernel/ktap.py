"""What a test showed as KTAP, the kernel's own format of results: a subtest for each suite, with a test for each script."""
from __future__ import annotations

from dataclasses import dataclass

from kernel.report import new_broken, stopped_text
from kernel.testing import Tested

VERSION = "KTAP version 1"


@dataclass(frozen=True)
class Line:
    """A test that passed, or didn't, and what is said of it."""

    name: str
    is_right: bool
    told: tuple[str, ...] = ()
    # why it shows nothing, if it does
    skipped: str = ""

    def lines(self, number: int) -> list[str]:
        mark = f" # SKIP {self.skipped}" if self.skipped else ""
        return [*(f"# {it}" for it in self.told), f"{'ok' if self.is_right else 'not ok'} {number} {self.name}{mark}"]


def lines_of(suite: Tested) -> list[Line]:
    counts = {it.name: it.rests for it in suite.wrong if it.known is None}
    broken = {it.script: str(it) for it in reversed(new_broken([suite]))}
    found = []
    for it in suite.results:
        difference = it.difference.seen.call if it.is_new and it.difference else None
        fault = broken.get(it.name) or counts.get(it.name) or difference
        skipped = "its hold ran out" if it.name in suite.ran_out and fault is None else ""
        found.append(Line(it.name, fault is None, (f"new: {fault}",) if fault else (), skipped))
    for it in suite.stopped:
        found.append(Line(it.script.name if it.script else "the end", False, tuple(stopped_text(suite.name, it))))
    return found


def subtest(suite: Tested) -> list[str]:
    tests = lines_of(suite)
    lines = [VERSION, f"# Subtest: {suite.name}", f"1..{len(tests)}"]
    return [f"    {line}" for line in lines + [line for number, it in enumerate(tests, 1) for line in it.lines(number)]]


def text(all_of_them: list[Tested]) -> str:
    lines = [VERSION, f"1..{len(all_of_them)}"]
    for number, suite in enumerate(all_of_them, 1):
        lines += [*subtest(suite), *Line(suite.name, not suite.new).lines(number)]
    return "\n".join([*lines, ""])
