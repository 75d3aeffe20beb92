"""Runs suites of scripts on a kernel, and compares what it answers."""
from __future__ import annotations

import re
import time
from concurrent.futures import ThreadPoolExecutor
from dataclasses import dataclass, field, replace
from pathlib import Path
from tempfile import TemporaryDirectory
from typing import Callable

import forced
import races
from compare import Script, scripts
from kernel.audit.behind import Audited, Behind
from kernel.console import Ended
from kernel.differences import Comparison, Result
from kernel.endings import end_of, is_truncated_beside_a_touch
from kernel.kernels import PAGE, Kernel, Look, Recording, say
from kernel.known import Known, race_rule
from kernel.machine import Machine
from kernel.peers import broken_by
from kernel.problem import Problem
from kernel.suites import call_of, in_order, race_calls, shortened, text_of

# so many scripts are compared at a time
AT_A_TIME = 2
# a kernel that can't force the calls of so many scripts can't force any
ENOUGH_IN_VAIN = 5
# what a script that has no call left does
AT_ITS_END = "its tasks end, and its files go"
# while a kernel answers, so long is compared before its console is looked at again, in seconds
AT_ONCE = 0.5


@dataclass(frozen=True)
class WrongCount:
    """A script of races at whose end the counts are wrong, and the known issue that it shows, if it does."""

    name: str
    rests: str
    known: Known | None
    # what audits behind its races say against it
    findings: tuple[str, ...] = ()
    # its calls, and the first count that is wrong
    script: Script | None = None
    first: WrongRest | None = None


@dataclass(frozen=True)
class WrongRest:
    """A wrong count at rest: behind which call of its script, what is right there, and what was found."""

    number: int
    call: str
    expected: str
    found: races.Rest


@dataclass(frozen=True)
class Rounds:
    """How much was raced: the races of all scripts, how many calls a task made in each at most, and how many the scripts have."""

    races: int
    calls: int
    written: int
    # all calls of all tasks, in races and beside them
    made: int


@dataclass(frozen=True)
class Stopped:
    """Why a suite ended before its last call, and the script that was at work, cut behind the call in flight."""

    ended: Ended
    script: Script | None
    call: str


@dataclass
class Tested:
    """What a suite showed."""

    name: str
    version: str = ""
    results: list[Result] = field(default_factory=list)
    wrong: list[WrongCount] = field(default_factory=list)
    seconds: float = 0.0
    # of a suite of races, which is judged by its counts alone, or by audits, too
    rounds: Rounds | None = None
    # of a suite whose schedules are forced: in how many scripts a call was held, or denied memory
    forced: int | None = None
    # the scripts that show nothing, since each time a hold ended too early
    ran_out: tuple[str, ...] = ()
    audits: int | None = None
    # where the kernel ended it, if it did: no script behind that was made
    stopped: list[Stopped] = field(default_factory=list)
    # how many scripts weren't made
    left: int = 0

    @property
    def calls(self) -> int:
        return sum(it.calls for it in self.results)

    @property
    def made(self) -> int:
        """How many calls were made, those of each task in a race, too."""
        return self.rounds.made if self.rounds else self.calls

    @property
    def agreed(self) -> int:
        return sum(it.agreed for it in self.results)

    @property
    def as_recorded(self) -> int:
        """How many calls behind those that agree with the machine are as they were recorded."""
        return sum(it.recorded for it in self.results)

    @property
    def known(self) -> int:
        """How many scripts end at a known issue or rule."""
        ended = [it.ended or (it.difference and it.difference.known) for it in self.results]
        return sum(it is not None for it in ended) + sum(it.known is not None for it in self.wrong)

    @property
    def new(self) -> int:
        """How many scripts show something that no known issue explains; the one that the kernel ended is another."""
        return sum(it.is_new for it in self.results) + sum(it.known is None for it in self.wrong) + len(self.stopped)

    @property
    def differ(self) -> int:
        return sum(it.differs for it in self.results) + len(self.wrong) + len(self.stopped)


def parsed(text: str) -> tuple[str, list[Script]]:
    """The kernel's version, and the scripts with its answers."""
    with TemporaryDirectory(prefix="kernel-") as room:
        file = Path(room) / "recorded"
        file.write_text(text, encoding="utf-8")
        return version_of(text.split("\n", 1)[0]), list(scripts(file))


def version_of(first: str) -> str:
    """The version in the first line of a recording: Debian's, if it is one of theirs, since their release names differ from it."""
    found = re.search(r"Debian (\d\S*?)(?:-[^-\s]*)?(?:\s|$)", first) or re.match(r"# (\S+)", first)
    return found[1] if found else ""


def parted(text: str) -> tuple[str, str]:
    """A recording that goes on: its whole scripts, and what follows them."""
    lines = text.splitlines(keepends=True)
    ends = [at for at, line in enumerate(lines) if line.startswith("end ") and line.endswith("\n")]
    at = ends[-1] + 1 if ends else 0
    return "".join(lines[:at]), "".join(lines[at:])


def stopped(asked: list[Script], text: str, ended: Ended) -> Stopped:
    """Where a recording was when the kernel ended it."""
    whole, rest = parted(text)
    number = len(re.findall(r"(?m)^script ", whole))
    if number == len(asked):
        return Stopped(ended, None, "all calls were answered")
    script = asked[number]
    if "\npool " not in rest:
        return Stopped(ended, Script(script.name, script.header, []), "its pool is opened")
    answered = sum(" = " in line for line in rest.splitlines(keepends=True) if line.endswith("\n") and not line.startswith("#"))
    call = script.lines[answered] if answered < len(script.lines) else AT_ITS_END
    return Stopped(ended, Script(script.name, script.header, script.lines[: answered + 1]), call)


def recorded(kernel: Kernel, name: str, some: list[Script], has_races: bool, behind: Behind | None, look: Look) -> tuple[str, list[Script], Recording]:
    """The scripts with the kernel's answers, which have to be all of them, unless the kernel ended it."""
    lines = sum(len(it.lines) for it in some)
    say(f"suite {name}: {len(some)} scripts, {lines} calls on {kernel.name}")
    watch = {"watch": behind.watching} if behind else {}
    recording = kernel.recording(text_of(some), lines, has_races, look=look, **watch)
    version, answered = parsed(recording.text if recording.is_whole else parted(recording.text)[0])
    check_whole(name, some if recording.is_whole else some[: len(answered)], answered)
    return version, answered, recording


def check_whole(name: str, some: list[Script], answered: list[Script]) -> None:
    """Rejects a recording that lacks scripts or calls, which would pass for agreement."""
    asked = [(it.name, it.lines) for it in some]
    came = [(it.name, [call_of(line) for line in it.lines]) for it in answered]
    if asked != came:
        first = next((one[0] for one, other in zip(asked, came) if one != other), "the end")
        raise Problem(f"suite {name}: {len(asked)} scripts were asked, {len(came)} came back, and they differ from {first} on")


@dataclass(frozen=True)
class Work:
    """What a suite asks of a kernel: its scripts, and those of them that say what a peer asserts."""

    name: str
    scripts: list[Script]
    has_races: bool
    asserted: list[Script] = field(default_factory=list)
    # of races: at most so many calls of a task in each
    most_calls: int | None = None
    # of races: the symbols by which the machine is audited behind each
    symbols: Path | None = None
    # the size of the huge pages that are used, in KiB
    page: int = PAGE
    # the scripts with what another kernel answered, by name
    recorded: dict[str, Script] = field(default_factory=dict)

    def asked(self) -> list[Script]:
        """The scripts as they are made."""
        if not self.has_races:
            return self.scripts
        return in_order(self.scripts if self.most_calls is None else shortened(self.scripts, self.most_calls))


@dataclass
class Following:
    """Compares the scripts of a suite as they are answered, and passes on at once what is new: each time a suite of one script."""

    comparison: Comparison
    work: Work
    news: Callable[[Tested], None]
    # whether the first new difference is enough
    is_first: bool = False
    results: list[Result] = field(default_factory=list)
    new: int = 0
    # scripts so far whose calls were forced, and those that asked in vain
    forced: int = 0
    vain: int = 0

    @property
    def is_enough(self) -> bool:
        return self.is_vain or (self.is_first and self.new > 0)

    @property
    def is_vain(self) -> bool:
        """Whether this kernel can't force what the scripts ask for: then the rest of them would show what other suites do."""
        return not self.forced and self.vain >= ENOUGH_IN_VAIN

    def look(self, text: str) -> bool:
        """Looks at the answers so far, for a while; whether they are enough."""
        whole, until = parted(text)[0], time.monotonic() + AT_ONCE
        if len(re.findall(r"(?m)^end ", whole)) > len(self.results):
            self.comparison.version, answered = parsed(whole)
            self.follow(answered[len(self.results) :], until)
        return self.is_enough

    def follow(self, answered: list[Script], until: float) -> None:
        asked = self.work.asked()
        for script in answered:
            if self.is_enough or time.monotonic() >= until or script.name != asked[len(self.results)].name:
                return
            self.add(script)

    def add(self, script: Script) -> None:
        one = judged(self.comparison, self.work, [script])
        self.results += one.results
        self.forced, self.vain = self.forced + forced.was_forced(script), self.vain + forced.cannot(script)
        if one.new and self.work.symbols is None:
            self.new += one.new
            self.news(one)


def tested(kernel: Kernel, machine: Machine, known: list[Known], work: Work, news: Callable[[Tested], None] = lambda _: None, is_first: bool = False) -> Tested:
    """What one suite shows; what is new is passed on as soon as it is seen."""
    began = time.monotonic()
    behind = Behind(work.symbols, work.page) if work.symbols and work.has_races else None
    following = Following(Comparison(machine.program, "", known, work.recorded), work, news, is_first)
    asked = work.asked()
    version, answered, recording = recorded(kernel, work.name, asked, work.has_races, behind, following.look)
    following.comparison.version = version
    following.follow(answered[len(following.results) :], float("inf"))
    if following.is_enough:
        answered = answered[: len(following.results)]
    found = judged(following.comparison, work, answered, behind.audits if behind and recording.is_whole else None, following.results)
    found.left = len(asked) - len(answered)
    if recording.ended and not following.is_enough:
        found.stopped.append(stopped(asked, recording.text, recording.ended))
    if behind or found.stopped:
        news(replace(found, results=[], wrong=found.wrong if behind else []))
    found.seconds = time.monotonic() - began
    name = work.name
    say(f"suite {name}: {found.seconds:.0f} s, {found.known} known, {found.new} new")
    return found


def judged(comparison: Comparison, work: Work, answered: list[Script], audits: list[Audited] | None = None, done: list[Result] | None = None) -> Tested:
    """What the answers to one suite show, of which some may have been compared."""
    found = Tested(work.name, comparison.version)
    if work.has_races:
        found.audits = None if audits is None else len(audits)
        found.wrong = wrong_counts(answered, comparison.known) if audits is None else wrong_audits(answered, comparison.known, audits)
        found.rounds = rounds_of(work, answered)
        found.forced = sum(map(forced.was_forced, answered)) if any(map(forced.has_force, work.scripts)) else None
        found.ran_out = tuple(it.name for it in answered if forced.ran_out(it))
        found.results = [Result(it.name, len(it.lines), len(it.lines)) for it in answered]
        return found
    if done is not None:
        found.results = done
    else:
        asserted = {it.name: it for it in work.asserted}
        found.results = [it.with_broken(broken_by(asserted.get(it.name), script)) for it, script in zip(compared(comparison, answered), answered)]
    ends = [wrong_end(script, comparison.known) for it, script in zip(found.results, answered) if not it.is_new]
    found.wrong = [it for it in ends if it]
    return found


def rounds_of(work: Work, answered: list[Script]) -> Rounds:
    names = {it.name for it in answered}
    raced = [it for it in work.asked() if it.name in names]
    calls, written = race_calls(raced), race_calls(work.scripts)
    return Rounds(len(calls), max(calls, default=0), max(written, default=0), sum(map(calls_of_all, raced)))


def calls_of_all(script: Script) -> int:
    """How many calls all tasks of a script make: in a race each makes as many as it says."""
    raced = race_calls([script])
    return len(script.lines) - len(raced) + int(script.header.split()[4]) * sum(raced)


def compared(comparison: Comparison, answered: list[Script]) -> list[Result]:
    """How far each script agrees."""
    with ThreadPoolExecutor(AT_A_TIME) as at_once:
        return list(at_once.map(comparison.result, answered))


def wrong_counts(answered: list[Script], known: list[Known]) -> list[WrongCount]:
    """The scripts of races at whose end the counts are wrong, and those of forced calls whose answers are: no known issue explains these."""
    found = [(it, oddities_of(it)) for it in answered]
    return [wrong_count(it, None if odd else rule_of(it, known), odd) for it, odd in found if odd or not races.is_right(it)]


def oddities_of(script: Script) -> tuple[str, ...]:
    """What a script has against its kernel beside wrong counts at rest: at its end, and in the answers if its calls are forced."""
    end, (*_, last) = end_of(script), races.rests(script)
    is_odd = end is not None and (end.free, end.resv) != (end.total, last.resv)
    at_end = (f"where no file is left {end.free} of {end.total} pages are free, and {end.resv} reserved",) if is_odd else ()
    return (*forced.oddities(script), *at_end) if forced.has_force(script) else at_end


def wrong_end(script: Script, known: list[Known]) -> WrongCount | None:
    """What is wrong where no task and no file of a script is left, of one whose calls were compared one by one."""
    end = end_of(script)
    if end is None or (end.free, end.resv) == (end.total, 0):
        return None
    is_loss = end.free == end.total and end.resv < 0 and is_truncated_beside_a_touch(script)
    calls = Script(script.name, script.header, [call_of(line) for line in script.lines])
    rest = WrongRest(len(script.lines) + 1, AT_ITS_END, f"all {end.total} pages free, and none reserved", races.Rest(end.free, end.resv))
    return WrongCount(script.name, f"{end.free}/{end.resv}", race_rule(known, "t") if is_loss else None, (), calls, rest)


def wrong_count(script: Script, known: Known | None, findings: tuple[str, ...] = ()) -> WrongCount:
    calls = Script(script.name, script.header, [call_of(line) for line in script.lines])
    return WrongCount(script.name, " ".join(f"{it.free}/{it.resv}" for it in races.rests(script)), known, findings, calls, first_wrong(script))


def first_wrong(script: Script) -> WrongRest | None:
    """The first wrong count of a script, if one is: what races.is_right asks of each, in words."""
    frames = int(script.header.split()[1])
    lines = [(number, line) for number, line in enumerate(script.lines, 1) if races.TOLD.match(line)]
    for (number, line), rest in zip(lines, races.rests(script)):
        is_last = number == lines[-1][0]
        if rest != races.Rest(frames, 0) if is_last else not 0 <= rest.resv <= rest.free:
            expected = f"all {frames} pages free, and none reserved" if is_last else "a reserve count from 0 to the number of free pages"
            return WrongRest(number, call_of(line), expected, rest)
    return None


def rule_of(script: Script, known: list[Known], clauses: frozenset[str] = frozenset()) -> Known | None:
    """The known issue that explains wrong counts: races with truncations lose reservations, no more than their account has, and nothing else."""
    return race_rule(known, "t", clauses) if races.has_truncations(script) and races.is_loss(script) and races.is_accounted(script) else None


def wrong_audits(answered: list[Script], known: list[Known], audits: list[Audited]) -> list[WrongCount]:
    """The scripts of races that are wrong by their counts, or by an audit behind one of their races."""
    if (number := sum(len(race_calls([it])) for it in answered)) != len(audits):
        raise Problem(f"{number} races were made, and {len(audits)} dumps audited")
    left, wrong = iter(audits), []
    for it in answered:
        its = [next(left) for _ in race_calls([it])]
        # (the machine stops behind races alone: a script that has none is judged as without audits)
        if not its:
            wrong += wrong_counts([it], known)
        elif not races.is_right(it) or oddities_of(it) or any(one.findings for one in its):
            wrong.append(wrong_audit(it, known, its))
    return wrong


def wrong_audit(script: Script, known: list[Known], audits: list[Audited]) -> WrongCount:
    """Known is a loss that the audits bear out: no clause but those that it touches, no leak, and as many lost at the end as they say."""
    clauses = frozenset(clause for it in audits for clause, _ in it.findings)
    findings = [f"behind race {number}: {text}" for number, it in enumerate(audits, 1) for _, text in it.findings]
    leaks = [f"behind race {number}: {it.has - it.should} reservations leaked" for number, it in enumerate(audits, 1) if it.has > it.should]
    last, end = audits[-1], races.rests(script)[-1].resv
    if end != (due := last.has - last.should + last.unmarked):
        leaks.append(f"at the end the reserve count is {end}, and by the last audit it should be {due}")
    new = (*leaks, *oddities_of(script))
    return wrong_count(script, None if new else rule_of(script, known, clauses), (*new, *findings))
