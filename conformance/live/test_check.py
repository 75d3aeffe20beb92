#!/usr/bin/env python3
"""Checks the recordings of this folder, and that the comparison can fail.

usage: test_check.py [--program P | --alone] [--jobs N]

The recordings have to be whole in just the numbers that EXPECTED has. Then wrong machines, and recordings with two events swapped, have
to be noticed, and none of them once the comparison is switched off: so it is the comparison that notices. So have programs that say one
thing of a recording otherwise. The Python machine, by which rows are placed, has to answer random traces as the program does, and the
traces of examples/ as it stands beside these. Together they reach each row that rows.py lists but one, and no other.
"""
from __future__ import annotations

import argparse
import os
import random
import re
import subprocess
import sys
from collections import Counter
from multiprocessing import Pool
from pathlib import Path
from typing import Callable, Iterable, Iterator, NamedTuple

import check
import machine
import rows
import verdict
from events import Attempt
from placing import Racer
from recordings import Recording, recordings
from wrong_machines import WRONG, AsksNoQuota, Base, MapLeavesTheSize, NewPageKeepsItsWord, Repaired, TouchAsksNoQuota

FOLDER = Path(__file__).resolve().parent / "recordings"
TOP = Path(__file__).resolve().parents[2]


class Expected(NamedTuple):
    """Of the recordings of these files, with these rules, or with punches split, so many have to be whole."""

    what: str
    files: tuple[str, ...]
    rules: str
    is_split: bool
    number: int
    whole: int
    # so many of them neither punch nor truncate, and all of these have to be whole; None: not counted
    without_removals: int | None = None


UNTRUNCATED = ("plain", "settle", "settles")
UNTRUNCATED_612 = tuple(f"6.12/{it}" for it in UNTRUNCATED)
WITHOUT_REMOVALS = ("p.touches2", "p.touches3", "p.touches4", "p.maps", "p.alloc3")
# workloads of the pool, with Linux's own rows for each
OF_THE_POOL = {"quota": "BFPSTNQ", "kills": "BFPSTNI", "resizes": "BFPSTNR", "denied": "BFND"}


# recordings of repaired kernels
REPAIRED = (("trunc", "BFPSTNAV", 150), ("refused", "BFPSTDNAV", 138))


def of_the_pool(kernel: str, folder: str, rules: dict[str, str], numbers: dict[str, int], alone: int) -> Iterator[Expected]:
    """What one kernel's recordings of the pool have to be: so many of each workload, all whole with Linux's rows, and so many without."""
    every = tuple(f"{folder}{name}" for name in numbers)
    yield Expected(f"{kernel}: {', '.join(numbers)}; punches split", every, "", True, sum(numbers.values()), alone)
    for name, number in numbers.items():
        yield Expected(f"{kernel}: {name}, Linux's rows", (f"{folder}{name}",), rules[name], False, number, number)


EXPECTED = (
    Expected("no truncation, punches split", UNTRUNCATED, "", True, 3300, 3273, 950),
    Expected("no truncation, Linux's rows", UNTRUNCATED, "BF", False, 3300, 3300),
    Expected("truncations, Linux's rows", ("trunc", "bug"), "BFPSTN", False, 1560, 1560),
    Expected("refused memory, Linux's rows", ("inject", "backed"), "BFUDN", False, 700, 700),
    Expected("6.12: no truncation, punches split", UNTRUNCATED_612, "", True, 708, 708, 589),
    Expected("6.12: no truncation, Linux's rows", UNTRUNCATED_612, "BF", False, 708, 708),
    Expected("6.12: truncations, Linux's rows", ("6.12/trunc", "6.12/bug", "6.12/wide"), "BFPSTN", False, 106, 106),
    Expected("6.12: refused memory, Linux's rows", ("6.12/inject", "6.12/backed"), "BFUDN", False, 36, 36),
    *(Expected(f"repaired, truncations: {name}", (f"repaired/{name}",), rules, False, number, number)
      for name, rules, number in REPAIRED),
    *of_the_pool("6.1", "", OF_THE_POOL | {"pools": "BFPSTNQR"}, {"quota": 164, "kills": 140, "resizes": 120, "denied": 120, "pools": 144}, 487),
    *of_the_pool("7.3-rc7", "7.3/", OF_THE_POOL | {"quota": "BFPSTNQL"}, {"quota": 164, "kills": 140, "resizes": 120, "denied": 120}, 374),
    *of_the_pool("6.12", "6.12/", OF_THE_POOL, {"quota": 114, "kills": 91, "resizes": 70, "denied": 58}, 257),
)
# wrong machines are tried on every so many of the recordings that they name
EVERY = 4
# the machines that are tried, and where the right ones stand behind the wrong ones
MACHINES = (*WRONG, Base, Repaired)
# wrong machines that nothing but the comparison notices
BY_COMPARISON = tuple(map(WRONG.index, (MapLeavesTheSize, NewPageKeepsItsWord, AsksNoQuota, TouchAsksNoQuota)))
# events that may be swapped with a neighbour about the same thing, and what they are about
SWAPPED = {"changes and commits of one map": ("change", "commit", "delete"), "takes and accounts": ("take", "account", "free")}


class Liar(NamedTuple):
    """A program that says one thing of a recording otherwise: of which command, what it says in place of what, and what is found of it."""

    command: str
    has: str
    says: str
    found: str

    def lines(self, program: Path, command: str, trace: str) -> list[str]:
        """What it prints: the last line that has this says something else."""
        lines = RUN(program, command, trace)
        if command == self.command:
            at = max(number for number, line in enumerate(lines) if re.search(self.has, line))
            lines[at] = re.sub(self.has, self.says, lines[at])
        return lines


# what the right program prints
RUN = verdict.run
LIARS = (
    Liar("replay", r"^ended .*", "ended killed", ": the program 'ended killed', Linux as "),
    Liar("explain", r"\d+( +\d+ +-?\d+)$", r"77\1", "the program has free 77 "),
    Liar("explain", r"\d+( +-?\d+)$", r"77\1", r" resv 77, Linux "),
    Liar("replay", r"^(file \d+ .* pages) \d+", r"\1 77", " pages 77 "),
)


class Blind(Attempt):
    """A comparison that is switched off."""

    def same(self, kind: str, machine: object, linux: object) -> None:
        pass

    def step(self, racer: Racer, kind: str, *wanted: str, is_granted: bool = True) -> str:
        return super().step(racer, kind, "*", is_granted=is_granted)


def file_of(name: str) -> Path:
    return FOLDER / f"{name}.bin.xz"


def jobs_of(it: Expected, program: Path | None) -> Iterator[check.Job]:
    words = ["--rules", it.rules] if it.rules else []
    given = check.read_words([*words, *(["--split"] if it.is_split else []), *(str(file_of(name)) for name in it.files)])
    given.program = program
    return check.jobs_of(given)


def replayed(it: Expected, program: Path | None, processes: int) -> Iterator[tuple[bool, str]]:
    """Whether so many recordings are whole as have to be, and the program and the Python machine agree."""
    done = list(check.check_all(list(jobs_of(it, program)), processes))
    whole, disagreements = are_whole(done), sum(bool(one.disagreement) for one in done)
    said = f"{it.what}: recordings {len(done)}, whole {whole}" + (f", {disagreements} of them otherwise by the program" if disagreements else "")
    yield (len(done), whole, disagreements) == (it.number, it.whole, 0), said
    if it.without_removals is not None:
        few = [one for one in done if one.workload in WITHOUT_REMOVALS]
        is_right = len(few) == are_whole(few) == it.without_removals
        yield is_right, f"{it.what}: of these neither punch nor truncate {len(few)}, whole {are_whole(few)}"


def are_whole(done: list[check.Checked]) -> int:
    return sum(one.kind is None for one in done)


def liars_told(program: Path) -> Iterator[tuple[bool, str]]:
    """Whether a program that says one thing of a whole recording otherwise is found to differ, and where."""
    run = next(recordings(file_of("plain")))
    placement = check.placed(run, check.machine_of(""), True)
    for it in (None, *LIARS):
        verdict.run = it.lines if it else RUN
        says = verdict.judge(placement, run, program)
        verdict.run = RUN
        is_so = it.found in says.text and verdict.differs(placement, says) if it else says.is_whole
        yield is_so, f"a program that says {it.says if it else 'nothing'} otherwise: {says.text or 'it is right'}"


def is_noticed(given: tuple[Recording, int, type[Attempt]]) -> bool:
    """Whether an attempt notices a machine of MACHINES. One that is blind doesn't notice a dead end: there the
    machine has no next step, which needs no comparison."""
    run, number, attempt_type = given
    is_blind = attempt_type is Blind
    attempt = attempt_type(run, "middle", MACHINES[number])
    try:
        attempt.place()
    except (ArithmeticError, AttributeError, LookupError, TypeError):
        return not is_blind
    return attempt.fault is not None and not (is_blind and attempt.fault.kind == "no row")


def is_held_noticed(number: int) -> bool:
    return is_noticed(check.HELD[number])


def noticed_of(given: list[tuple[Recording, int, type[Attempt]]], processes: int) -> list[bool]:
    with Pool(processes, check.hold, (given,)) as pool:
        return pool.map(is_held_noticed, range(len(given)), chunksize=20)


def how_often(runs: list[Recording], numbers: Iterable[int], comparison: type[Attempt], processes: int) -> Counter[int]:
    given = [(run, number, comparison) for number in numbers for run in runs]
    return Counter(number for (_, number, _), it in zip(given, noticed_of(given, processes)) if it)


def swap(run: Recording, rng: random.Random, kinds: tuple[str, ...]) -> Recording | None:
    """A recording with two neighbouring events of different tasks swapped that are about the same thing, of which one changes it."""
    at = [position for position, it in enumerate(run) if it.kind in kinds]
    pairs = [(one, other) for one, other in zip(at, at[1:]) if may_be_swapped(run, one, other, kinds)]
    if not pairs:
        return None
    one, other = rng.choice(pairs)
    new = list(run)
    new[one], new[other] = run[other]._replace(number=run[one].number), run[one]._replace(number=run[other].number)
    return new


def may_be_swapped(run: Recording, one: int, other: int, kinds: tuple[str, ...]) -> bool:
    first, second = run[one], run[other]
    threads = {first.thread, second.thread}
    if len(threads) == 1 or first.about != second.about or any(it.thread in threads for it in run[one + 1 : other]):
        return False
    if "change" not in kinds:
        return True
    meet = max(first.a, second.a) < min(first.b, second.b)
    return meet and any(it.kind != "change" and it.c > 0 for it in (first, second))


def swaps(runs: list[Recording], processes: int) -> Iterator[tuple[bool, str]]:
    """Of nearly all recordings a swap has to be noticed. Some change nothing that anybody can see."""
    rng = random.Random(1)
    for what, kinds in SWAPPED.items():
        swapped = [it for it in (swap(run, rng, kinds) for run in runs) if it]
        noticed = sum(noticed_of([(it, -1, Attempt) for it in swapped], processes))
        yield len(swapped) > 5 and noticed >= 0.8 * len(swapped), f"two events swapped, {what}: {noticed} of {len(swapped)} are noticed"


def runs_of(files: tuple[str, ...]) -> list[Recording]:
    return [run for name in files for run in recordings(file_of(name))]


def wrong_machines(processes: int) -> Iterator[tuple[bool, str]]:
    """Each wrong machine is noticed, and the right one isn't."""
    blind: Counter[int] = Counter()
    for files in dict.fromkeys(it.tried for it in WRONG):
        runs, numbers = runs_of(files)[::EVERY], [number for number, it in enumerate(WRONG) if it.tried == files]
        own = Repaired if issubclass(WRONG[numbers[0]], Repaired) else Base
        right = how_often(runs, [MACHINES.index(own)], Attempt, processes)
        yield not right, f"the right machine with {'a repaired kernel' if own is Repaired else 'Linux'}'s rows: {len(runs) - right.total()} of {len(runs)} recordings are whole ({', '.join(files)})"
        noticed = how_often(runs, numbers, Attempt, processes)
        for number in numbers:
            yield noticed[number] > 0, f"wrong machine noticed {noticed[number]} times in {len(runs)}: {WRONG[number].__doc__}"
        blind += how_often(runs, [it for it in numbers if it in BY_COMPARISON], Blind, processes)
    yield not blind, f"with the comparison switched off {blind.total()} are noticed of {len(BY_COMPARISON)} that nothing else notices"


def random_trace(rng: random.Random) -> list[str]:
    """Random events of two or three tasks on a small pool, most of them steps, some of them denied; and some kills and resizes. In some
    traces the files are large, few steps go between two begins, or many steps are denied."""
    tasks = rng.randint(2, 3)
    lines = [f"pool {rng.randint(1, 6)} 2 {rng.randint(1, 8)} {tasks}" + rng.choice(["", f" {rng.randint(1, 5)}"])]
    most, begins, denials = rng.choice([1, 2, 4, 4, 4096]), rng.choice([0.12, 0.25]), rng.choice([0.05, 0.05, 0.4])

    def ranged() -> str:
        if rng.random() < 0.03:
            return rng.choice(["2 0 1", "0 0 0", "1 4096 1"])
        length = min(most, rng.choice([1, 2, 3, most]))
        return f"{rng.choice([0, 0, 1])} {rng.randint(0, min(3, 4096 - length))} {length}"

    calls: dict[str, Callable[[], str]] = {
        "trunc": lambda: f"{rng.choice([0, 0, 1, 2])} {rng.choice([0, 1, 2, 3, 4097])}",
        "load": lambda: f"{rng.randint(0, min(most, 5))}", "store": lambda: f"{rng.randint(0, min(most, 5))} {rng.randint(1, 99)}",
        "unmap": lambda: f"{rng.randint(0, 3)}", **dict.fromkeys(("map", "mapn", "alloc", "allock", "punch"), ranged),
    }
    weights = [4 if name in ("map", "mapn", "store", "punch") else 2 for name in calls]
    for _ in range(400):
        task, chance = rng.randint(1, tasks), rng.random()
        if chance < begins:
            name = rng.choices(list(calls), weights)[0]
            lines.append(f"begin {task} {name} {calls[name]()}")
        elif chance > 0.995:
            lines.append(rng.choice([f"kill {task}", f"begin {task} exit", f"resize {rng.randint(0, 7)}", f"resize {rng.randint(1, 7)}"]))
        else:
            lines.append(f"{'deny' if rng.random() < denials else 'step'} {task}")
    return lines


class Seeing(machine.Machine):
    """The machine, which notes the rows that it makes."""

    def __init__(self, *config: int) -> None:
        super().__init__(*config)
        self.seen: set[tuple[str, str]] = set()

    def step(self, number: int, is_granted: bool = True) -> machine.Outcome:
        task = self.tasks.get(number)
        call = task.call if task else None
        where, answer = (f"{call.table}.{call.phase}", call.answer) if call else ("", "")
        outcome = super().step(number, is_granted)
        if call:
            self.seen.add((where, rows.outcome_of(where, call, answer, outcome)))
        return outcome


def replayed_here(lines: list[str], seen: set[tuple[str, str]]) -> list[str]:
    """What the Python machine prints of a trace; the rows that it makes are added to those that are seen."""
    it = Seeing(*(int(word) for word in lines[0].split(" ")[1:]))
    printed = [str(machine.event(it, line)) for line in lines[1:]]
    seen |= it.seen
    return printed + it.state()


# a row that random traces seldom make: an allocation that wants a slot notices a kill
KILLED_AT_WANT = ["pool 1 1 1 1", "begin 1 alloc 0 0 1", "step 1", "step 1", "kill 1", "step 1", "step 1"]


def same_answers(program: Path | None, traces: int) -> Iterator[tuple[bool, str]]:
    """Whether the Python machine prints what the program prints, and what stands beside the examples; and whether the rows are those listed."""
    rng, seen = random.Random(7), set()
    differ = []
    for number, lines in enumerate([KILLED_AT_WANT, *(random_trace(rng) for _ in range(traces))]):
        printed = replayed_here(lines, seen)
        if program:
            ran = subprocess.run([program, "replay"], input="".join(f"{it}\n" for it in lines), capture_output=True, text=True, check=True)
            differ += [number] if ran.stdout.splitlines() != printed else []
    if program:
        yield not differ, f"{traces + 1} traces: the Python machine answers {'all' if not differ else f'all but {differ}'} as the program does"
    examples = [it for it in sorted((TOP / "examples").rglob("*.trace")) if not it.with_suffix(".err").exists()]
    differ = [it.name for it in examples if replayed_here(it.read_text().splitlines(), seen) != it.with_suffix(".out").read_text().splitlines()]
    yield not differ, f"{len(examples)} traces of examples/: the Python machine answers {'all' if not differ else f'all but {differ}'} as they say"
    known = set(rows.ROWS) - set(rows.UNREACHABLE)
    wrong = sorted(seen ^ known)
    yield not wrong, f"the rows that these reach are the {len(known)} that are listed{f', but {wrong}' if wrong else ''}"


def tested() -> Path:
    """The proved program if it is current, else the one that is compiled without proof. It is called by itself, since the launcher takes
    longer than a replay."""
    own = {**os.environ, "HUGEPOOL": "path"}
    return Path(subprocess.run([TOP / "hugepool"], env=own, stdout=subprocess.PIPE, text=True, check=True).stdout.strip())


def results(program: Path | None, processes: int) -> Iterator[tuple[bool, str]]:
    for it in EXPECTED:
        yield from replayed(it, program, processes)
    yield from wrong_machines(processes)
    yield from swaps(runs_of(Base.tried), processes)
    if program:
        yield from liars_told(program)
    yield from same_answers(program, 300)


def main() -> int:
    words = argparse.ArgumentParser(prog="test_check.py", description=__doc__.split("\n")[0])
    words.add_argument("--program", type=Path, help="the program that replays the traces (the one that ./hugepool builds)")
    words.add_argument("--alone", action="store_true", help="ask the Python machine alone, and no program")
    words.add_argument("--jobs", type=int, default=os.cpu_count() or 1, metavar="N", help="processes side by side")
    given = words.parse_args()
    passed = failed = 0
    program = None if given.alone else given.program or tested()
    for is_good, said in results(program, given.jobs):
        print(said if is_good else f"FAILED: {said}", flush=True)
        passed, failed = passed + is_good, failed + (not is_good)
    print(f"live: {passed} passed, {failed} failed")
    return 1 if failed else 0


if __name__ == "__main__":
    sys.exit(main())
