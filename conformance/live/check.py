#!/usr/bin/env python3
"""Compares recordings of racing hugetlbfs calls with the machine, row by row.

usage: check.py [OPTION ..] RECORDING ..        (files NAME.bin, NAME.bin.xz or NAME.bin.gz)

Each recording becomes a trace, whose events are in the order in which the kernel did them. The program replays it, and each of its
answers and counts has to be what Linux did. A recording that fits to its end is whole; of another is printed where Linux leaves the
machine. The last line is 'recordings N, whole M'. Status: 0 where all are whole, 1 where not, 2 where the program and the Python
machine, by which rows are placed, disagree.
"""
from __future__ import annotations

import argparse
import os
import sys
from collections import Counter
from dataclasses import dataclass, field
from multiprocessing import Pool
from pathlib import Path
from typing import Iterator

import rows
import verdict
from accounts import account
from events import Attempt, placed
from linux_rows import RULES, machine_of
from recordings import Recording, error_at_rest, recordings, workload_of

TOP = Path(__file__).resolve().parents[2]
# so many pairs of phases are printed
MEETINGS = 20


@dataclass(frozen=True)
class Job:
    """A recording to check, and how."""

    file: Path
    number: int
    run: Recording
    workload: str
    rules: str
    is_split: bool
    program: Path | None
    # whether its trace and its account are wanted, too
    is_told: bool = False


@dataclass
class Checked:
    """What came of it."""

    file: Path
    number: int
    workload: str
    events: int
    calls: int
    overlaps: Counter
    met: Counter
    visited: Counter
    notes: Counter
    defects: tuple[tuple[str, str, int], ...]
    error: int
    is_below: bool
    kind: str | None = None
    text: str = ""
    at: int = 0
    trace: str = ""
    disagreement: str = ""
    account: list[str] = field(default_factory=list)


def check(job: Job) -> Checked:
    placement = placed(job.run, machine_of(job.rules), job.is_split)
    done = summary(job, placement)
    if placement.fault:
        done.kind, done.text, done.at = placement.fault.kind, placement.fault.text, placement.event.number - job.run[0].number
    # (no program has Linux's own rows)
    if job.program and not job.rules:
        says = verdict.judge(placement, job.run, job.program)
        if verdict.differs(placement, says):
            done.kind, done.disagreement = done.kind or "THE PROGRAM DIFFERS", says.text
    return done


def summary(job: Job, placement: Attempt) -> Checked:
    done = Checked(
        job.file, job.number, job.workload, len(job.run), sum(it.kind == "return" for it in job.run),
        placement.overlaps, placement.met, placement.visited, placement.notes, tuple(placement.defects),
        error_at_rest(job.run), min(it.resv for it in job.run) < 0,
    )
    if job.is_told:
        done.trace, done.account = verdict.trace_of(placement), list(account(placement))
    return done


def jobs_of(given: argparse.Namespace) -> Iterator[Job]:
    is_told = any(getattr(given, it, None) for it in ("account", "write", "trace"))
    for file in given.recordings:
        workloads = workload_of(file)
        for number, run in enumerate(recordings(file)):
            if given.only is None or given.only == number:
                workload = workloads.get(run[0].about, file.name.split(".")[0])
                yield Job(file, number, run, workload, given.rules, given.split, given.program, is_told)


# what the processes of a pool work on: they have it by the fork, since handing on each recording would take longer than to place it
HELD: list = []


def hold(given: list) -> None:
    HELD[:] = given


def check_held(number: int) -> Checked:
    return check(HELD[number])


def check_all(jobs: list[Job], processes: int) -> Iterator[Checked]:
    """Checks them side by side, in their order. On a terminal a line says how far it is."""
    if len(jobs) < 8 or processes < 2:
        yield from map(check, jobs)
        return
    with Pool(processes, hold, (jobs,)) as pool:
        for number, it in enumerate(pool.imap(check_held, range(len(jobs)), chunksize=8), 1):
            if sys.stderr.isatty() and (number % 50 == 0 or number == len(jobs)):
                print(f"\r\033[K{number} of {len(jobs)} recordings", end="" if number < len(jobs) else "\r\033[K", file=sys.stderr, flush=True)
            yield it


def show_each(done: list[Checked], most: int) -> None:
    """The first few of each kind of divergence."""
    shown: Counter[str] = Counter()
    for it in done:
        if it.disagreement:
            print(f"{it.file} #{it.number}: THE PROGRAM DIFFERS from the Python machine: {it.disagreement}")
        if it.kind and shown[it.kind] < most:
            shown[it.kind] += 1
            print(f"{it.file} #{it.number}, event {it.at}: {it.kind}: {it.text}")


def show_table(done: list[Checked]) -> None:
    """One line a workload."""
    print(f"{'workload':<14} {'recordings':>10} {'whole':>6} {'calls':>7} {'events':>8} {'overlaps':>8} {'wrong count at rest':>19}")
    for name in dict.fromkeys(it.workload for it in done):
        own = [it for it in done if it.workload == name]
        print(f"{name:<14} {len(own):>10} {sum(it.kind is None for it in own):>6} {sum(it.calls for it in own):>7} "
              f"{sum(it.events for it in own):>8} {sum(it.overlaps.total() for it in own):>8} {sum(bool(it.error) for it in own):>19}")


def show_totals(done: list[Checked]) -> None:
    overlaps = sum((it.overlaps for it in done), Counter())
    met = sum((it.met for it in done), Counter())
    print(f"calls {sum(it.calls for it in done)}, events {sum(it.events for it in done)}; {overlaps.total()} pairs of calls overlapped, of "
          f"{len(overlaps)} kinds; {met.total()} meetings of phases, of {len(met)} kinds")
    print(f"reserve count below zero at some moment: {sum(it.is_below for it in done)}; wrong at rest: {sum(bool(it.error) for it in done)}")
    for note, number in sum((it.notes for it in done), Counter()).most_common():
        print(f"  {number} times {note}")
    for kind, number in Counter(it.kind for it in done if it.kind).most_common():
        least = min((it for it in done if it.kind == kind), key=lambda it: it.at)
        print(f"leaves the machine, {number}: {kind} (smallest: {least.file.name} #{least.number}, after {least.at} events)")


def show_causes(done: list[Checked]) -> None:
    """By which rows the count of those goes wrong that are wrong at rest."""
    causes = Counter("; ".join(f"{where} {change:+d}" for where, _, change in it.defects) for it in done if it.error)
    for cause, number in causes.most_common():
        print(f"wrong at rest, {number}: {cause or 'by no row of these rules'}")


def show_rows(done: list[Checked]) -> None:
    """How often each row of the machine was made, and which phases met: one call took a step while another stood at its phase."""
    print("\n".join(rows.table_of(sum((it.visited for it in done), Counter()))))
    print("\n".join(rows.meetings(sum((it.met for it in done), Counter()), MEETINGS)))


def write_traces(done: list[Checked], folder: Path) -> None:
    folder.mkdir(parents=True, exist_ok=True)
    for it in done:
        (folder / f"{it.file.name.split('.')[0]}-{it.number}.trace").write_text(it.trace, encoding="utf-8")


def letters(text: str) -> str:
    unknown = set(text) - set(RULES)
    if unknown:
        raise argparse.ArgumentTypeError(f"no rule has the letter {min(unknown)}; those there are: {' '.join(RULES)}")
    return text


def read_words(given: list[str] | None = None) -> argparse.Namespace:
    rules = "\n".join(f"  {letter}  {text}" for letter, text in RULES.items())
    words = argparse.ArgumentParser(prog="check.py", description=__doc__, formatter_class=argparse.RawDescriptionHelpFormatter,
                                    epilog=f"Linux's own rows, each by the letter of its rule:\n{rules}")
    words.add_argument("recordings", nargs="+", type=Path, metavar="RECORDING")
    words.add_argument("--program", type=Path, help="the program that replays the traces (without it the Python machine alone is asked)")
    words.add_argument("--split", action="store_true", help="replay a punch as punches of the indices that Linux visits, under one hold of the file's lock")
    words.add_argument("--rules", type=letters, default="", metavar="LETTERS", help="use Linux's own rows in place of the machine's (the program has none)")
    words.add_argument("--account", action="store_true", help="print each recording beside the machine, event by event")
    words.add_argument("--only", type=int, metavar="N", help="check recording N of each file alone, counted from 0")
    words.add_argument("--list", type=int, default=3, metavar="N", help="print so many of each kind of divergence (%(default)s)")
    words.add_argument("--rows", action="store_true", help="print how often each row of the machine was made, and which phases met most often")
    words.add_argument("--causes", action="store_true", help="print by which rows a count that is wrong at rest went wrong (needs --rules)")
    words.add_argument("--write", type=Path, metavar="FOLDER", help="write the traces there")
    words.add_argument("--trace", type=Path, metavar="FILE", help="write the trace of one recording, which 'hugepool draw < FILE' draws")
    words.add_argument("--jobs", type=int, default=os.cpu_count() or 1, metavar="N", help="processes side by side (%(default)s)")
    return checked(words, words.parse_args(given))


def checked(words: argparse.ArgumentParser, given: argparse.Namespace) -> argparse.Namespace:
    if given.trace and given.rules:
        words.error("--trace writes rows of the machine, and --rules has others: leave one out")
    return given


def main() -> int:
    given = read_words()
    try:
        done = list(check_all(list(jobs_of(given)), given.jobs))
    except OSError as error:
        print(f"check.py: {error}", file=sys.stderr)
        return 2
    if given.trace and len(done) != 1:
        print(f"check.py: --trace writes the trace of one recording, and these are {len(done)}: choose one with --only N", file=sys.stderr)
        return 2
    if given.account:
        for it in done:
            print("\n".join(it.account))
    show_each(done, given.list)
    show_table(done)
    show_totals(done)
    if given.causes:
        show_causes(done)
    if given.rows:
        show_rows(done)
    if given.write:
        write_traces(done, given.write)
    if given.trace:
        given.trace.write_text(done[0].trace, encoding="utf-8")
    whole = sum(it.kind is None for it in done)
    print(f"recordings {len(done)}, whole {whole}")
    return 2 if any(it.disagreement for it in done) else 0 if whole == len(done) else 1


if __name__ == "__main__":
    sys.exit(main())
