#!/usr/bin/env python3
"""What the recordings of one kernel show, workload by workload, in one table.

usage: results.py [--program P] [--kernel NAME] [--jobs N] RECORDING ..

Each recording is compared twice: with the machine alone, a punch as punches of the indices that Linux visits; and with Linux's own rows,
those that the workload's line 'rules LETTERS' names (check.py --help lists them). Status: 0 all are whole with Linux's own rows; 1 some
aren't; 2 the program and the Python machine disagree, or a file can't be read.
"""
from __future__ import annotations

import argparse
import os
import sys
from collections import Counter
from dataclasses import dataclass
from pathlib import Path

import check
from kernel.repair import REPAIRS
from linux_rows import REPAIRED
from recordings import workload_file

# the rule of Linux's (check.py --help) that shows in each way to leave the machine
RULE_OF = {
    "bare index not waited for": "B", "short, a frame is freed late": "F", "page found at or above the size": "P", "size looked at once": "S",
    "bare index not waited for, of a truncation": "T", "raise refused": "N", "denied change": "D", "denied delete": "D", "backed out": "U",
    "quota asked apart": "Q", "quota given back apart": "Q", "quota leaked": "L", "interrupted and extended": "I", "pages over the size": "R",
    "resize, a frame is freed late": "F",
}  # fmt: skip
# of a repaired kernel: the rules that it has besides, and the one that it lacks
RULES_OF_REPAIR = dict(zip(REPAIRS, ("A", REPAIRED), strict=True))
LACKED = "U"
HEAD = f"{'workload':<10} {'recordings':>10} {'calls':>8} {'events':>9} {'overlaps':>8} {'alone':>6} {'rules':<11} {'whole':>6} {'wrong count at rest':>19}"


@dataclass(frozen=True)
class Line:
    """One workload: what was compared with the machine alone, and with the rows of these rules."""

    name: str
    rules: str
    alone: list[check.Checked]
    whole: list[check.Checked]


def rules_of(recording: Path, repaired: str | None) -> str:
    """The rules that the workload names, or all that Linux has, and those of a repair."""
    file = workload_file(recording)
    lines = file.read_text(encoding="utf-8").splitlines() if file else []
    named = next((line.split()[1] for line in lines if line.startswith("rules ")), None)
    rules = check.letters(named) if named else "".join(it for it in check.RULES if it not in REPAIRED)
    return rules.replace(LACKED, "") + RULES_OF_REPAIR[repaired] if repaired else rules


def compared(recording: Path, rules: str, given: argparse.Namespace) -> Line:
    """A repaired kernel has rows of its own, so that it is not compared with the machine alone."""
    words = argparse.Namespace(recordings=[recording], only=None, rules="", split=True, program=given.program)
    alone = [] if given.repair else list(check.check_all(list(check.jobs_of(words)), given.jobs))
    words.rules, words.split = rules, False
    whole = list(check.check_all(list(check.jobs_of(words)), given.jobs))
    return Line(recording.name.split(".")[0], rules, alone, whole)


def row(name: str, rules: str, alone: list[check.Checked], whole: list[check.Checked]) -> str:
    return (f"{name:<10} {len(whole):>10} {sum(it.calls for it in whole):>8} {sum(it.events for it in whole):>9} "
            f"{sum(it.overlaps.total() for it in whole):>8} {are_whole(alone) if alone else '':>6} {rules:<11} {are_whole(whole):>6} "
            f"{sum(bool(it.error) for it in whole):>19}")


def are_whole(done: list[check.Checked]) -> int:
    return sum(it.kind is None for it in done)


def show_kinds(what: str, done: list[check.Checked]) -> None:
    for kind, number in Counter(it.kind for it in done if it.kind).most_common():
        least = min((it for it in done if it.kind == kind), key=lambda it: it.at)
        rule = f"rule {RULE_OF[kind]}; " if kind in RULE_OF else ""
        print(f"{what}: {number} first leave it by: {kind} ({rule}smallest: {least.file.name} #{least.number}, after {least.at} events)")


def show_rules(done: list[check.Checked]) -> None:
    """How many recordings first leave the machine by each rule."""
    counts = Counter(RULE_OF.get(it.kind, "no rule") for it in done if it.kind)
    if counts:
        print("the machine is first left by rule:", ", ".join(f"{rule} {number}" for rule, number in sorted(counts.items())))


def show(lines: list[Line], kernel: str, program: Path | None, repaired: str | None) -> None:
    whose, how = ("its", "with its own rows") if repaired else ("Linux's", "by the machine alone and with Linux's own rows")
    print(f"{kernel}: recordings that are whole, {how}")
    print(HEAD)
    for it in lines:
        print(row(it.name, it.rules, it.alone, it.whole))
    alone, whole = ([one for it in lines for one in getattr(it, side)] for side in ("alone", "whole"))
    print(row("all", "", alone, whole))
    show_kinds("the machine", alone)
    show_rules(alone)
    show_kinds(f"{whose} rows", whole)
    for it in alone:
        if it.disagreement:
            print(f"{it.file} #{it.number}: THE PROGRAM DIFFERS from the Python machine: {it.disagreement}")
    if not program and any(it.alone for it in lines):
        print("no program was asked (--program): the Python machine alone says this, and nothing is proved of it")


def read_words() -> argparse.Namespace:
    words = argparse.ArgumentParser(prog="results.py", description=__doc__, formatter_class=argparse.RawDescriptionHelpFormatter)
    words.add_argument("recordings", nargs="+", type=Path, metavar="RECORDING")
    words.add_argument("--program", type=Path, help="the program that replays the traces of the machine alone")
    words.add_argument("--kernel", default="Linux", metavar="NAME", help="what the table is of")
    words.add_argument("--repair", choices=REPAIRS, help="the repair that was put into this kernel")
    words.add_argument("--jobs", type=int, default=os.cpu_count() or 1, metavar="N", help="processes side by side (%(default)s)")
    return words.parse_args()


def main() -> int:
    given = read_words()
    try:
        lines = [compared(it, rules_of(it, given.repair), given) for it in given.recordings]
    except (OSError, argparse.ArgumentTypeError) as error:
        print(f"results.py: {error}", file=sys.stderr)
        return 2
    show(lines, given.kernel, given.program, given.repair)
    if any(one.disagreement for it in lines for one in it.alone):
        return 2
    return int(any(one.kind for it in lines for one in it.whole))


if __name__ == "__main__":
    sys.exit(main())
