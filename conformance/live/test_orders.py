#!/usr/bin/env python3
"""Tests the search of all schedules by Linux's rules (orders.py) against what was made apart from it.

Without any rule it has to end just where the search of conformance/schedules.py ends. By the rules recordings have to be among the
schedules of what their tasks call, and each schedule has to be one that check.py accepts. Then rows and searches that are wrong are tried:
each has to be noticed.

usage: test_orders.py          the tests, in half a minute
       test_orders.py --all    follows all recordings of recordings/, in some eight minutes, and prints how many are such schedules
"""
from __future__ import annotations

import random
import sys
from collections import Counter
from dataclasses import dataclass
from functools import cache
from itertools import islice
from pathlib import Path
from typing import Callable, Iterator

TOP = Path(__file__).resolve().parents[2]
sys.path.append(str(TOP / "conformance"))

import every  # noqa: E402
import schedules  # noqa: E402
from events import Attempt, placed  # noqa: E402
from following import Follower, script_of  # noqa: E402
from kernel_steps import Steps  # noqa: E402
from linux_rows import BATCH, machine_of  # noqa: E402
from machine import LIMIT, Call, Outcome, Task, moved  # noqa: E402
from orders import Search  # noqa: E402
from packing import Packing  # noqa: E402
from placing import SLOTS  # noqa: E402
from recordings import Recording, error_at_rest, recordings  # noqa: E402
from schedule_runs import Run, Script, start  # noqa: E402
from written import Writer, recording  # noqa: E402

FOLDER = Path(__file__).resolve().parent
RULES = "BDFNPQSTU"
# smallest recordings of what no script has: a kill, and resizes
WITHOUT = ("interrupted-and-extended", "pages-over-the-size")
# recordings of each file that are followed; the files, and the first of these
FEW = 8
FILES = {"trunc": 0, "settle": 0, "inject": 152, "denied": 0, "quota": 0, "6.12/trunc": 0, "7.3/quota": 60, "kills": 0}
# a truncation takes translations before it visits their pages, which no row here does: in such a recording a fault finds its page
EARLY = "a fault of a page that was unmapped early"
# random scripts
SEEDS = range(1, 19)
# states of a search that is compared with one of conformance/schedules.py, of one whose steps are made anew, and of one for its errors
MOST, FEWER, FEWEST, WALKS = 8_000, 1_000, 500, 3


# a call that waits for calls behind an exit, which are passed over
BEHIND_AN_EXIT = "script 2 1 64 2\nbegin 1 map 0 0 1\nbegin 1 exit\nbegin 1 load 0\nafter 1\nbegin 2 map 0 1 1\n"
# a touch that begins before a map is done: by the machine's rows, too, it may find no frame
MEANWHILE = "pool 1 1 64 2\nbegin 1 map 0 0 1\nbegin 2 mapn 0 0 1\nbegin 2 store 0 1\n"


def examples() -> list[str]:
    """The scripts of examples/ that have three tasks at most."""
    texts = [it.read_text(encoding="utf-8") for it in sorted((TOP / "examples").glob("*.script"))]
    return [it for it in texts if int(it.split()[4]) <= 3]


@cache
def texts() -> list[str]:
    """The examples' scripts, and random ones whose calls are on files and ranges that are there."""
    drawn = [every.random_script(random.Random(seed)) for seed in SEEDS]
    return examples() + [BEHIND_AN_EXIT, MEANWHILE] + [it for it in drawn if covers(Script(*schedules.read_script(it)))]


def covers(script: Script) -> bool:
    calls = [it for queue in script.queues for it in queue if it[0] in ("map", "mapn", "alloc", "allock", "punch")]
    return all(file < script.files and first + length <= LIMIT for _, file, first, length in calls)


@dataclass(frozen=True)
class Tried:
    """How schedules are made: the rows, and the search."""

    rows: type[Steps] = Steps
    search: type[Search] = Search

    def begin(self, script: Script, rules: str, batch: int, denials: int = 0) -> Run:
        run = start(script, rules, batch, denials)
        if self.rows is not Steps:
            run.machine.__class__ = type("Wrong", (self.rows,), {"rules": rules})
        return run


RIGHT = Tried()


# the endings by the machine's rows


def bits(number: int) -> frozenset[int]:
    return frozenset(it for it in range(number.bit_length()) if number >> it & 1)


def endings_apart(script: Script, denials: int) -> set[tuple] | None:
    """Where schedules end by the search that was written apart, or None if it has too many states."""
    first = schedules.opening(script, denials, 0)
    seen, left, found = {first}, [first], set()
    while left and len(seen) <= MOST:
        frozen = left.pop()
        following = {there for _, there, _ in schedules.turns(script, frozen)}
        if not following:
            it = schedules.Place(frozen)
            files = tuple((size, bits(reserved), bits(pages)) for size, reserved, pages in zip(it.size, it.reserved, it.pages))
            found.add((it.resv, it.free, files, tuple(frozenset(some) for some in it.entries)))
        left += following - seen
        seen |= following
    return None if left else found


@cache
def wanted_endings() -> list[tuple[Script, int, set[tuple] | None]]:
    scripts = [Script(*schedules.read_script(it)) for it in texts()]
    return [(it, denials, endings_apart(it, denials)) for it in scripts for denials in (0, 1)]


def same_endings(tried: Tried) -> Iterator[tuple[str, bool]]:
    searched = [it for it in wanted_endings() if it[2] is not None]
    yield f"{len(searched)} searches of {len(texts())} scripts", len(searched) >= 36
    for number, (script, denials, wanted) in enumerate(searched):
        found = tried.search(tried.begin(script, "", BATCH, denials), 10 * MOST).run(lambda found, left: None)
        yield f"search {number} by the machine's rows, {denials} denied: it ends where the other one does", found.endings == wanted
        yield f"search {number}: no count is wrong, and no promised touch is refused", set(found.errors) == {0} and found.refused is None


# recordings


@cache
def recorded(name: str) -> list[Recording]:
    first = FILES.get(name.removeprefix("recordings/").removesuffix(".bin.xz"), 0)
    return list(islice((it for it in recordings(FOLDER / name) if not is_killed(it)), first, first + FEW))


def is_killed(run: Recording) -> bool:
    """Whether a task ends that doesn't exit."""
    return sum(it.kind == "dead" for it in run) > sum(it.kind == "begin" and it.about == ord("x") for it in run)


def rules_of(name: str) -> str:
    return RULES + "L" * (name.startswith("recordings/7.3") or "quota-leaked" in name)


def batch_of(run: Recording) -> int:
    return next((it.c for it in run if it.kind == "file"), 0) or BATCH


def names() -> list[str]:
    smallest = sorted(it.relative_to(FOLDER).as_posix() for it in (FOLDER / "smallest").glob("*.bin") if it.stem not in WITHOUT)
    return [*smallest, *(f"recordings/{it}.bin.xz" for it in FILES)]


@cache
def is_early(name: str, number: int) -> bool:
    return EARLY in placed(recorded(name)[number], machine_of(rules_of(name))).notes


def followed(tried: Tried) -> Iterator[tuple[str, bool]]:
    """The counts at the end are those of the recording."""
    early = 0
    for name in names():
        for number, run in enumerate(recorded(name)):
            error = Follower(run, rules_of(name), batch_of(run), tried.begin).error()
            if error is None and is_early(name, number):
                early += 1
            else:
                yield f"{name} #{number} is a schedule of what its tasks call", error == error_at_rest(run)
    yield f"of few recordings ({early}) a fault finds its translation gone early", early <= 10


def lost(tried: Tried) -> Iterator[tuple[str, bool]]:
    """The calls of each smallest recording that ends with a wrong count have a schedule that ends with it."""
    losses = [(name, run) for name in names() if name.startswith("smallest/") for run in recorded(name) if error_at_rest(run)]
    yield f"there are {len(losses)} losses", len(losses) == 5
    for name, run in losses:
        denials = sum(it.kind in ("change_refused", "place_refused", "delete_refused") for it in run)
        found = tried.search(tried.begin(script_of(run), rules_of(name), batch_of(run), denials), MOST).run(lambda found, left: None)
        yield f"{name}: its calls can lose the count", found.is_whole and error_at_rest(run) in found.errors


# recordings with resizes, and of an earlier form of the log
NOT_FOLLOWED = ("resizes", "first")
# the log has a count a moment after it was lowered
LATE = "a count lowered before its event"


def follow_all() -> int:
    """Prints how many recordings are schedules of what their tasks call, and why the others aren't."""
    found: Counter[str] = Counter()
    for file in sorted(it for kernel in (".", "6.12", "7.3") for it in (FOLDER / "recordings" / kernel).glob("*.bin.xz")):
        name = file.relative_to(FOLDER).as_posix()
        if file.name.split(".")[0] not in NOT_FOLLOWED:
            found.update(how_followed(run, rules_of(name)) for run in recordings(file))
            print(f"{name}: {dict(found)}", flush=True)
    return 1 if found["NOT"] or not found["yes"] else 0


def how_followed(run: Recording, rules: str) -> str:
    if is_killed(run) or any(it.kind in ("grow", "shrink") for it in run):
        return "a kill or a resize"
    error = Follower(run, rules, batch_of(run)).error()
    if error is not None:
        return "yes" if error == error_at_rest(run) else "NOT"
    notes = placed(run, machine_of(rules)).notes
    return next((it for it in (EARLY, LATE) if it in notes), "NOT")


# schedules as recordings


def walked(tried: Tried, script: Script, rules: str, dice: random.Random) -> Recording:
    """A schedule by chance."""
    run = tried.begin(script, rules, BATCH, dice.randrange(2))
    writer, packing = Writer(run), Packing(run)
    while True:
        moves = list(run.moves())
        dice.shuffle(moves)
        move = next((it for it in moves if packing.unpacked(packing.packed(run)).move(it).kind != "blocked"), None)
        if move is None:
            break
        run.move(move, writer)
    writer.rest()
    return writer.events


def accepted(tried: Tried) -> Iterator[tuple[str, bool]]:
    """Schedules by chance, and those behind which the count is wrong, are whole by the rules."""
    dice, wrong = random.Random(5), 0
    for number, text in enumerate(texts()):
        script = Script(*schedules.read_script(text))._replace(slots=SLOTS)
        for rules in (RULES, RULES + "L"):
            made = [walked(tried, script, rules, dice) for _ in range(WALKS)]
            found = tried.search(tried.begin(script, rules, BATCH), FEWEST).run(lambda found, left: None)
            ends = [recording(tried.begin(script, rules, BATCH), found.schedule(it)) for it in found.errors.values()]
            wrong += sum(error_at_rest(it) != 0 for it in ends)
            faults = [it for it in (fault_of(one, rules) for one in made + ends) if it]
            yield f"script {number}, {rules}: check.py accepts {len(made + ends)} schedules: {faults[:1]}", not faults
            errors = [error_at_rest(it) for it in ends]
            yield f"script {number}, {rules}: the counts are wrong as the search says", errors == list(found.errors)
    yield f"some counts are wrong ({wrong})", wrong > 0


def fault_of(run: Recording, rules: str) -> str:
    attempt: Attempt = placed(run, machine_of(rules))
    return str(attempt.fault or "")


# what is kept of steps


class Plain(Search):
    """Makes each step anew."""

    def behind(self, state: tuple, move: int) -> tuple | None:
        return self.try_step(state, move)


def same_without_keeping(tried: Tried) -> Iterator[tuple[str, bool]]:
    for number, text in enumerate(texts()):
        script = Script(*schedules.read_script(text))._replace(slots=SLOTS)
        fast, slow = (it(tried.begin(script, RULES, BATCH, 1), FEWER).run(lambda found, left: None) for it in (tried.search, Plain))
        yield f"script {number}: the same states with each step made anew", summary(fast) == summary(slow)


def summary(found: object) -> tuple:
    return found.states, found.rests, found.endings, {it: len(found.schedule(at)) for it, at in found.errors.items()}, found.is_whole


class Apart(Steps):
    """Makes each row in a step of its own."""

    local = frozenset()


def same_apart(tried: Tried) -> Iterator[tuple[str, bool]]:
    """Rows that are made together end where they do in steps of their own."""
    compared = 0
    for number, text in enumerate(texts()):
        script = Script(*schedules.read_script(text))._replace(slots=SLOTS)
        found, slow = (it.search(it.begin(script, RULES, BATCH), MOST).run(lambda found, left: None) for it in (tried, Tried(Apart)))
        if slow.is_whole:
            compared += 1
            ends = [(it.endings, set(it.errors), it.refused is None) for it in (found, slow)]
            yield f"script {number}: rows made together end as they do apart", ends[0] == ends[1]
    yield f"most are compared ({compared})", compared >= 15


# promises

# what tasks call, how many allocations may fail, and whether a promised touch may be refused. The first is what docs/LINUX.md tells of (a),
# with maps of another file behind it; the second hp_linux::a_promised_touch_finds_no_frame
PROMISES = (
    ("script 2 2 64 2\nbegin 1 map 0 0 1\nafter 1\nbegin 2 trunc 0 0\nbegin 1 store 0 7\nafter 1\nbegin 2 map 1 0 1\n"
     "begin 2 map 1 1 1\nbegin 2 store 0 1\nbegin 2 store 1 1\n", 0, True),
    ("script 1 2 64 2\nbegin 1 mapn 0 0 1\nbegin 1 store 0 1\nbegin 2 map 0 0 1\nafter 1\nbegin 2 alloc 1 0 1\nbegin 2 load 0\n", 1, True),
    ("script 1 2 64 2\nbegin 1 mapn 0 0 1\nbegin 1 store 0 1\nbegin 2 map 0 0 1\nafter 1\nbegin 2 alloc 1 0 1\nbegin 2 load 0\n", 0, False),
    # a punch ends the promise
    ("script 1 2 64 2\nbegin 1 map 0 0 1\nbegin 1 store 0 1\nbegin 1 punch 0 0 1\nafter 1\nbegin 2 alloc 1 0 1\n"
     "after 2\nbegin 1 store 0 1\n", 0, False),
    # what is promised once a touch is at work isn't promised to it
    (MEANWHILE, 0, False),
    # without a reservation nothing is promised
    ("pool 1 2 64 2\nbegin 1 mapn 0 0 1\nbegin 1 store 0 1\nbegin 2 alloc 1 0 1\n", 0, False),
)


def promises(tried: Tried) -> Iterator[tuple[str, bool]]:
    for number, (text, denials, is_refused) in enumerate(PROMISES):
        found = tried.search(tried.begin(Script(*schedules.read_script(text)), RULES, BATCH, denials), MOST).run(lambda found, left: None)
        yield f"promise {number} can{'' if is_refused else 't'} be broken", found.is_whole and (found.refused is not None) == is_refused
        if found.refused is not None:
            run = recording(tried.begin(Script(*schedules.read_script(text)), RULES, BATCH, denials), found.schedule(found.refused))
            yield f"promise {number}: the machine keeps it", placed(run).fault is not None and placed(run).fault.kind != "NOT UNDERSTOOD"


# wrong ones


class BacksOutNothing(Steps):
    def make_judged(self, call: Call) -> Outcome:
        return moved("back")

    touch_judged = alloc_judged = make_judged


class AlwaysRaises(Steps):
    def raise_by(self, number: int) -> None:
        self.resv += number


class FreesAtOnce(Steps):
    def take_waiting(self, call: Call) -> None:
        for frame in self.limbo:
            self.free.add(frame)
        self.limbo.clear()


class EndsWhereDenied(Steps):
    def touch_missing(self, call: Call) -> Outcome:
        outcome = super().make_missing(call)
        call.answer = call.answer and "nomemory"
        return outcome


class HoldsNothing(Steps):
    def hold(self, task: Task, base: int) -> None:
        pass


class KeepsQuota(Steps):
    def put_charge(self, call: Call) -> Outcome | None:
        call.charged = 0
        return None


class AsksQuotaLate(Steps):
    def asks_apart(self, call: Call) -> bool:
        return False


class LooksUpOne(Steps):
    def look_up(self, call: Call, end: int) -> Outcome:
        outcome = super().look_up(call, end)
        call.batch = call.batch and call.batch[:1]
        return outcome


class PromisesMore(Steps):
    def withdraw(self, call: Call) -> None:
        pass


class PromisesMeanwhile(Steps):
    def is_promised(self, call: Call) -> bool:
        return call.table == "touch" and call.index in self.promised[call.file]


class PromisesNothing(Steps):
    def make_changed(self, call: Call) -> Outcome:
        outcome = super().make_changed(call)
        self.is_refusing = False
        return outcome

    touch_changed = alloc_changed = make_changed


class DeniesNothing(Steps):
    def step(self, number: int, is_granted: bool = True) -> Outcome:
        return super().step(number, True)


class TakesTogether(Steps):
    local = Steps.local | {"touch.changed", "touch.taken"}


class ForgetsCounts(Search):
    """Takes a step to come to the same whatever the counts are."""

    def behind(self, state: tuple, move: int) -> tuple | None:
        key = (move, state[4:])
        if key not in self.made:
            self.made[key] = self.try_step(state, move)
        return self.made[key]


class WaitsForNobody(Search):
    """Finds no slot taken."""

    def behind(self, state: tuple, move: int) -> tuple | None:
        about = self.packing.about
        self.packing.about = {at: it._replace(slot=None) for at, it in about.items()}
        there = super().behind(state, move)
        self.packing.about = {**self.packing.about, **about}
        return there


class StopsEarly(Search):
    """Leaves out the last task wherever another may go on."""

    def moves(self, state: tuple) -> Iterator[int]:
        found = list(super().moves(state))
        yield from found[:-1] if len(found) > 2 else found


Check = Callable[[Tried], Iterator[tuple[str, bool]]]
# what is wrong, and the checks that have to notice
PLANTED: tuple[tuple[Tried, tuple[Check, ...]], ...] = (
    (Tried(BacksOutNothing), (followed,)),
    (Tried(AlwaysRaises), (followed, lost)),
    (Tried(FreesAtOnce), (followed,)),
    (Tried(EndsWhereDenied), (followed,)),
    (Tried(HoldsNothing), (followed,)),
    (Tried(KeepsQuota), (accepted,)),
    (Tried(AsksQuotaLate), (followed,)),
    (Tried(LooksUpOne), (accepted,)),
    (Tried(PromisesMore), (promises,)),
    (Tried(PromisesMeanwhile), (promises, same_endings)),
    (Tried(PromisesNothing), (promises,)),
    (Tried(DeniesNothing), (followed, promises, same_endings)),
    (Tried(TakesTogether), (same_apart, lost)),
    (Tried(search=ForgetsCounts), (same_endings, same_without_keeping)),
    (Tried(search=WaitsForNobody), (same_without_keeping,)),
    (Tried(search=StopsEarly), (same_endings, same_without_keeping)),
)


def notices(check: Check, tried: Tried) -> bool:
    """Whether a check fails, or ends with an error of a machine that goes where it can't."""
    try:
        return any(not is_so for _, is_so in check(tried))
    except (LookupError, TypeError, ValueError):
        return True


def planted() -> Iterator[tuple[str, bool]]:
    for tried, checks in PLANTED:
        name = tried.search.__name__ if tried.rows is Steps else tried.rows.__name__
        for check in checks:
            yield f"{name} is noticed by {check.__name__}", notices(check, tried)


def main() -> int:
    if sys.argv[1:] == ["--all"]:
        return follow_all()
    if sys.argv[1:]:
        print("usage: test_orders.py [--all]", file=sys.stderr)
        return 2
    tried = [it for check in (same_endings, followed, lost, accepted, same_without_keeping, same_apart, promises) for it in check(RIGHT)]
    tried += planted()
    wrong = [what for what, is_so in tried if not is_so]
    print("".join(f"  not so: {it}\n" for it in wrong), end="")
    print(f"orders: {len(tried) - len(wrong)} passed, {len(wrong)} failed; {len(texts())} scripts")
    return 1 if wrong else 0


if __name__ == "__main__":
    sys.exit(main())
