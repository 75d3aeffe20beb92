"""The scripts that a kernel is tested with: those of the recorded files, without their answers."""
from __future__ import annotations

from dataclasses import dataclass
from pathlib import Path
from typing import Callable, Iterator

import forced
import races
from compare import Script, scripts
from kernel.problem import Problem

FOLDER = Path(__file__).resolve().parent.parent
# the suite of peers' tests, and its folder
PEERS = "peers"


@dataclass(frozen=True)
class Suite:
    """Files of scripts under one name. Races are judged by their counts at rest, and not call by call."""

    name: str
    files: tuple[str, ...]
    # what its scripts don't have, beside what no suite has
    lacks: str
    has_races: bool = False
    # of scripts that no file has: what makes them
    made: Callable[[], Iterator[Script]] | None = None


AT_ONCE = "calls at once"
BY_COUNTS = "quotas, resizes; answers, pages and words (only counts at rest are compared); schedules that chance misses"
NOT_BY_COUNTS = "answers and pages (counts at rest are compared)"
BY_COUNTS_ALONE = f"truncations, resizes; {NOT_BY_COUNTS}"
# the suites whose schedules are forced
HELD, DENIED, CHARGED = "held", "denied", "charged"
# what no suite has
NOWHERE = "private mappings, fork of a task that maps and surplus pages (overcommit) but for some calls one after another; mremap, \
userfaultfd, minimum sizes (min_size=), control groups, NUMA, migration, memory failures (poison), pages of other sizes (--page KIB)"
# what the machine doesn't have at all, as a kernel answered it
PRIVATE = "private.txt"
SUITES = {
    it.name: it
    for it in (
        Suite("fixed", ("calls-fixed.txt", PRIVATE), AT_ONCE),
        Suite("random", ("calls-random.txt",), f"{AT_ONCE}, quotas, resizes, lengths in bytes"),
        Suite("quota", ("calls-quota.txt",), f"{AT_ONCE}, resizes, lengths in bytes"),
        Suite("resize", ("calls-resize.txt",), f"{AT_ONCE}, quotas, lengths in bytes"),
        Suite(PEERS, tuple(f"{PEERS}/{path.name}" for path in sorted((FOLDER / PEERS).glob("*.txt"))), "what its authors don't assert of calls that overlap"),
        Suite(HELD, (), f"calls that are held at other places; truncations of what is touched meanwhile, resizes; {NOT_BY_COUNTS}", True, forced.held),
        Suite(DENIED, (), f"{AT_ONCE}, allocations of whole pages; {BY_COUNTS_ALONE}", True, forced.denied),
        Suite(CHARGED, (), f"{AT_ONCE}, descriptors of the reserve map; {BY_COUNTS_ALONE}", True, forced.charged),
        Suite("races", ("races.txt", "races-by-kind.txt"), BY_COUNTS, True),
        Suite("races-by-chance", ("races-by-chance.txt",), BY_COUNTS, True),
    )
}
# what runs unless suites are named: one boot each; and the races, which may leave a wrong count until the next boot
SEQUENTIAL = ("fixed", "random", "quota", "resize", PEERS)
RACES = "races"


def default(is_here: bool) -> tuple[str, ...]:
    """The suites that run unless some are named. A machine's own kernel is left with its counts: there races have to be named."""
    return SEQUENTIAL if is_here else (*SEQUENTIAL, HELD, DENIED, CHARGED, RACES)


def lacks(name: str, has_races: bool) -> str:
    """What a suite doesn't cover, by its name, or, of scripts of one's own, by what is compared of them."""
    if name in SUITES:
        return SUITES[name].lacks
    return BY_COUNTS.partition("; ")[2] if has_races else "what its scripts don't have"


def suite_of(name: str) -> Suite:
    if name not in SUITES:
        raise Problem(f"there is no suite {name}: there are {', '.join(SUITES)}")
    return SUITES[name]


def read_scripts(path: Path) -> list[Script]:
    """The scripts of a file, each without answers."""
    try:
        return [Script(it.name, it.header, [call_of(line) for line in it.lines]) for it in scripts(path)]
    except OSError as why:
        raise Problem(f"{path}: {why.strerror}") from why


def scripts_of(suite: Suite) -> list[Script]:
    if suite.made is not None:
        return list(suite.made())
    return [script for name in suite.files for script in read_scripts(FOLDER / name)]


def recorded_of(suite: Suite) -> dict[str, Script]:
    """The scripts of a suite with what was recorded of Debian's 6.1.192, by name, if its files have that."""
    files = [FOLDER / name for name in suite.files if name.startswith("calls-") or name == PRIVATE]
    return {script.name: script for path in files for script in scripts(path)}


def has_races(some: list[Script]) -> bool:
    """Whether tasks race in some of the scripts, or calls are forced, which then are judged by their counts at rest."""
    return any(line.startswith(("race ", *forced.FORCED)) for it in some for line in it.lines)


def race_calls(some: list[Script]) -> list[int]:
    """How many calls a task makes in each race of some scripts."""
    return [int(line.split()[2]) for it in some for line in it.lines if line.startswith("race ")]


def shortened(some: list[Script], most: int) -> list[Script]:
    """The scripts with at most so many calls of a task in a race."""
    return [Script(it.name, it.header, [short_line(line, most) for line in it.lines]) for it in some]


def short_line(line: str, most: int) -> str:
    word, *rest = line.split()
    return " ".join([word, rest[0], str(min(int(rest[1]), most)), *rest[2:]]) if word == "race" else line


def in_order(some: list[Script]) -> list[Script]:
    """The scripts of races, those with truncations last: only these can leave a wrong count, behind which the kernel is booted anew."""
    return sorted(some, key=races.has_truncations)


def has_overlaps(some: list[Script]) -> bool:
    """Whether calls of some of the scripts overlap, so that the order in which they act is by chance."""
    return any(line.startswith(("race ", "start ", "hold ")) for it in some for line in it.lines)


def call_of(line: str) -> str:
    return line.split(" = ", 1)[0]


def text_of(some: list[Script]) -> str:
    """Scripts as the recorder reads them."""
    return "".join("\n".join([f"script {it.name}", it.header, *it.lines, "end"]) + "\n" for it in some)
