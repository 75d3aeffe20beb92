"""Makes a script in which a kernel differs smaller, by asking the kernel many smaller scripts.

A round tries scripts with calls left out and with smaller numbers. The smallest one that still differs in the same way is the next
round's. It ends when nothing that is one change away differs so, and of a short script nothing that is two away.
"""
from __future__ import annotations

from contextlib import nullcontext
from dataclasses import dataclass
from itertools import accumulate
from typing import Callable, Iterator, Union

import forced
from compare import Script
from kernel.differences import Comparison, Difference
from kernel.endings import Wrong, end_of, ends_of, way_at_end, wrongs
from kernel.kernels import Kernel, say
from kernel.known import Known
from kernel.machine import Machine
from kernel.problem import Problem
from kernel.shrinking import Unit, is_by_counts, is_readable, merges, moved, neighbours, size, unions, units, without, without_pairs
from kernel.standing import Standing, can_stay
from kernel.suites import race_calls, text_of
from kernel.testing import check_whole, compared, parsed

# a round asks at most so many calls, and so many of scripts that are judged by their counts: each that is wrong has the machine go back
MOST_CALLS, MOST_BY_COUNTS = 6000, 800
MOST_ROUNDS = 30
# of a script so short all pairs of changes are tried
SHORT = 6
# a script whose calls overlap by chance is made so often
TRIES = 8
# what a script shows: a call that differs, or where calls overlap what is wrong at rest
Shown = Union[Difference, Wrong]


@dataclass(frozen=True)
class Way:
    """In which way a call differs: its kind, the fields, and both answers without their numbers."""

    kind: str
    fields: tuple[str, ...]
    kernel: str
    machine: str


def way_of(it: Shown) -> Way | str:
    if isinstance(it, Wrong):
        return it.way
    seen = it.seen
    return Way(seen.kind, tuple(seen.fields()), seen.kernel.answer.split()[0], seen.own_answer.split()[0])


def farther(script: Script) -> Iterator[Script]:
    """The scripts that are two changes away, of a short one: a call that is left out may need another number elsewhere."""
    for one in neighbours(script) if len(script.lines) <= SHORT else ():
        yield from neighbours(one)


def tries_of(script: Script) -> int:
    """How often a script is made: its schedule is by chance where calls overlap and none is held."""
    kinds = {line.split(" ", 1)[0] for line in script.lines}
    return TRIES if "start" in kinds and "hold" not in kinds else 1


def named(candidates: Iterator[Script], least: tuple[int, int]) -> list[Script]:
    """Those that are smaller, each once, the smallest first, and as many as one boot takes."""
    different = {(it.header, *it.lines): it for it in candidates if size(it) < least and it.lines and is_readable(it)}
    kept, calls = [], 0
    for it in sorted(different.values(), key=size):
        calls += len(it.lines) * tries_of(it)
        if calls <= (MOST_BY_COUNTS if is_by_counts(it) else MOST_CALLS):
            kept.append(Script(f"m.{len(kept)}", it.header, it.lines))
    return kept


@dataclass
class Minimizer:
    """Asks a kernel smaller and smaller scripts."""

    kernel: Kernel
    machine: Machine
    known: list[Known]
    boots: int = 0
    # a machine that stays, if there can be one
    standing: Standing | None = None

    def answers(self, some: list[Script]) -> str:
        if self.standing is None:
            self.boots += 1
            return self.kernel.record(text_of(some), sum(len(it.lines) for it in some))
        try:
            return self.standing.answers(some)
        finally:
            self.boots = self.standing.boots

    def shown(self, some: list[Script]) -> list[Shown | None]:
        """What each script shows first, on the kernel itself."""
        tried = [Script(f"{it.name}.{number}", it.header, it.lines) for it in some for number in range(tries_of(it))]
        text = self.answers(tried)
        version, answered = parsed(text)
        check_whole("minimize", tried, answered)
        ends = ends_of(text, len(answered)) if any(map(is_by_counts, some)) else [None] * len(answered)
        firsts = list(accumulate((tries_of(it) for it in some), initial=0))
        alone = [Script(it.name, it.header, answered[first].lines) for it, first in zip(some, firsts) if not is_by_counts(it)]
        results = iter(compared(Comparison(self.machine.program, version, self.known), alone))
        found: list[Shown | None] = []
        for it, first, behind in zip(some, firsts, firsts[1:]):
            if is_by_counts(it):
                found.append(wrongs(it, answered[first:behind], ends[first:behind], self.known))
            else:
                found.append(next(results).difference or self.wrong_at_end(it, answered[first]))
        return found

    def wrong_at_end(self, script: Script, answered: Script) -> Wrong | None:
        """What is wrong at the end alone of a script whose calls all agree."""
        end = end_of(answered)
        return wrongs(script, [answered], [end], self.known) if end and way_at_end(end) else None

    def alike(self, number: int, candidates: list[Script], way: Way | str) -> list[Shown]:
        """Those candidates that differ in this way."""
        if not candidates:
            return []
        say(f"round {number}: {len(candidates)} smaller scripts to try, of {len(candidates[-1].lines)} calls at most")
        return [it for it in self.shown(candidates) if it is not None and way_of(it) == way]

    def smallest(self, first: Shown) -> Shown:
        """The smallest script found that differs in the same way, cut behind the call where one differs."""
        best, way, alike = first, way_of(first), [first]
        dispensable: list[Unit] = []
        for number in range(1, MOST_ROUNDS + 1):
            script = best.script
            wider = (*merges(script, [it.script for it in alike]), *unions(script, dispensable), *without_pairs(script))
            near = named(iter((*wider, *neighbours(script))), size(script))
            alike = self.alike(number, near, way) or self.alike(number, named(farther(script), size(script)), way)
            if not alike:
                break
            dispensable = left_out_alone(script, alike)
            best = min(alike, key=lambda it: size(it.script))
            is_less = len(best.script.lines) < len(script.lines) - sum(map(len, dispensable))
            dispensable = [] if is_less else moved(script, best.script, dispensable)
        return best


def left_out_alone(script: Script, alike: list[Shown]) -> list[Unit]:
    """The units without which, each alone, the script still differs in the same way."""
    without_one = {tuple(it.script.lines) for it in alike if it.script.header == script.header}
    return [unit for unit in units(script) if tuple(without(script, [unit]).lines) in without_one]


def minimized(minimizer: Minimizer, some: list[Script], choose: Callable[[Shown], bool]) -> Shown:
    """What some scripts show that is chosen, of the shortest, made as small as it gets."""
    if race_calls(some):
        raise Problem("what the calls of a race are is by chance, so a script with a race can't be minimized")
    if any(line.endswith(forced.BLOCKED) for it in some for line in it.lines):
        raise Problem("whether a call has to wait for one that is held depends on the lines before, so a script with 'wait TASK blocked' can't be minimized")
    say(f"{len(some)} scripts on {minimizer.kernel.name}")
    with Standing(minimizer.kernel) if can_stay(minimizer.kernel) else nullcontext() as minimizer.standing:
        return minimized_there(minimizer, some, choose)


def minimized_there(minimizer: Minimizer, some: list[Script], choose: Callable[[Shown], bool]) -> Shown:
    """The same, while the machine is there."""
    found = [it for it in minimizer.shown(some) if it is not None and choose(it)]
    if not found:
        raise Problem("no script of these shows a new difference on this kernel, so there is nothing to minimize")
    first = min(found, key=lambda it: size(it.script))
    say(f"{first.script.name}: {first.words}")
    return minimizer.smallest(first)
