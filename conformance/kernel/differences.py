"""Compares what a kernel answered to a script with the machine, up to the first call that differs; where that is a known rule, or the
machine hasn't such a call, with what Debian's 6.1.192 answered from there on, if that was recorded."""
from __future__ import annotations

from dataclasses import dataclass, field, replace

import compare
from compare import Line, Pool, Program, Script, Told, read
from kernel.known import Known, Seen, end_before, ends_behind, matching, translated
from kernel.peers import Broken


# the kernel whose answers conformance/calls-*.txt has
RECORDED = "6.1.192"


@dataclass(frozen=True)
class Difference:
    """The first call of a script in which kernel and machine differ."""

    script: Script
    seen: Seen
    known: Known | None
    # the later calls of the script that differ too, each with its number
    spoiled: list[tuple[int, str]]
    # what the kernel differs from, if not from the machine; and both answers then, as they were recorded
    other: str = "machine"
    answers: tuple[str, str] | None = None

    @property
    def number(self) -> int:
        """The number of the call in its script; the first is 1."""
        return len(self.script.lines)

    @property
    def words(self) -> str:
        return f"differs at call {self.number}: {self.seen.call}: {', '.join(self.seen.fields())}"


@dataclass(frozen=True)
class BrokenAssertion:
    """An assertion of a peer that doesn't hold, and the known issue that its script came to before, if it did."""

    broken: Broken
    known: Known | None


@dataclass(frozen=True)
class Result:
    """How far a script agrees, what ended the comparison if it isn't the end of the script, and which assertions of a peer don't hold."""

    name: str
    calls: int
    agreed: int
    difference: Difference | None = None
    ended: Known | None = None
    broken: list[BrokenAssertion] = field(default_factory=list)
    # how many calls behind those that agree are as they were recorded
    recorded: int = 0

    @property
    def differs(self) -> bool:
        return self.difference is not None or bool(self.broken)

    @property
    def is_new(self) -> bool:
        """Whether it shows something that no known issue explains."""
        return (self.difference is not None and self.difference.known is None) or any(it.known is None for it in self.broken)

    def with_broken(self, broken: list[Broken]) -> Result:
        """With assertions that don't hold; from a known difference on, another pool is asserted of, which explains it."""
        first = self.difference.number if self.difference else 0
        explained = self.difference and self.difference.known
        found = [BrokenAssertion(it, explained if it.number >= first else None) for it in broken]
        return replace(self, broken=found)


@dataclass
class Comparison:
    """Compares scripts of one kernel with one program under some known issues."""

    program: Program
    version: str
    known: list[Known] = field(default_factory=list)
    # the scripts with what Debian's 6.1.192 answered, by name
    recorded: dict[str, Script] = field(default_factory=dict)

    def machine_told(self, pool: Pool) -> Told:
        """The machine's answer, with its words replaced where a known issue says that Linux has another one."""
        told = pool.told()._replace(answer=pool.answer())
        return told._replace(answer=translated(self.known, told.answer, bool(told.used)))

    def result(self, script: Script) -> Result:
        """How far a recorded script agrees, with the machine and then with the recording."""
        found, before = self.by_machine(script), self.recorded.get(script.name)
        if before is None or found.is_new or found.agreed == found.calls:
            return found
        # (a kernel whose known difference isn't that of the recording goes another way)
        is_other = found.difference is not None and script.lines[found.agreed] != before.lines[found.agreed]
        return found if is_other else self.by_recording(script, before, found)

    def by_recording(self, script: Script, before: Script, found: Result) -> Result:
        """Compares the calls behind those that agree with a recording of them."""
        lines = list(enumerate(zip(script.lines, before.lines, strict=True)))[found.agreed :]
        others = [number for number, (line, was) in lines if line != was]
        if not others:
            return replace(found, recorded=len(lines))
        at, later = others[0], [(number + 1, read(script.lines[number]).call) for number in others[1:]]
        line, was = read(script.lines[at]), read(before.lines[at])
        seen = Seen(line.call, line.linux, was.linux, was.linux.answer, self.version, script.lines[:at], compare.opened(self.program, script.header))
        cut = Script(script.name, script.header, [read(text).call for text in script.lines[: at + 1]])
        answers = (script.lines[at].partition(" = ")[2], before.lines[at].partition(" = ")[2])
        return replace(found, recorded=at - found.agreed, ended=None, difference=Difference(cut, seen, None, later, RECORDED, answers))

    def by_machine(self, script: Script) -> Result:
        """How far a recorded script agrees with the machine."""
        pool = compare.opened(self.program, script.header)
        for agreed, text in enumerate(script.lines):
            line = read(text)
            ended = end_before(self.known, line.call)
            if compare.NO_TRACE.match(line.call) or ended:
                return Result(script.name, len(script.lines), agreed, ended=ended)
            new = pool.after(line.call)
            if self.machine_told(new) != line.linux:
                return Result(script.name, len(script.lines), agreed, self.difference(pool, new, script, agreed))
            if ended := ends_behind(self.known, line.surplus):
                return Result(script.name, len(script.lines), agreed + 1, ended=ended)
            pool = new
        return Result(script.name, len(script.lines), len(script.lines))

    def difference(self, before: Pool, after: Pool, script: Script, agreed: int) -> Difference:
        """What is to be said of the call in which the two differ."""
        line = read(script.lines[agreed])
        seen = Seen(line.call, line.linux, self.machine_told(after), after.answer(), self.version, script.lines[:agreed], before)
        cut = Script(script.name, script.header, [read(text).call for text in script.lines[: agreed + 1]])
        return Difference(cut, seen, matching(self.known, seen), self.spoiled(after, script, agreed + 1))

    def spoiled(self, pool: Pool, script: Script, first: int) -> list[tuple[int, str]]:
        """The calls from one on in which kernel and machine differ, when the machine goes on from where it is."""
        found = []
        for number, text in enumerate(script.lines[first:], first + 1):
            line: Line = read(text)
            if compare.NO_TRACE.match(line.call) or end_before(self.known, line.call):
                break
            pool = pool.after(line.call)
            if self.machine_told(pool) != line.linux:
                found.append((number, line.call))
            if line.surplus:
                break
        return found
