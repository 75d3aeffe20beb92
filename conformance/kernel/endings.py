"""What is wrong of a script whose calls overlap, or may be denied memory: the order of its calls isn't known, so it isn't compared call by
call. Judged is what is wrong whatever the order is."""
from __future__ import annotations

import re
from dataclasses import dataclass, replace
from typing import NamedTuple

import races
from compare import Script, read
from kernel.known import Known, race_rule
from kernel.problem import Problem
from kernel.shrinking import task_of

END = re.compile(r"(?m)^end total (-?\d+) free (-?\d+) resv (-?\d+) surp (-?\d+)$")
# answers that no call may have, and one that none may have in an ample pool; an error is explained where a call is denied memory, or
# asks in bytes, which is known of the call alone and not of its wait
NEVER, AMPLE = r"(?!deny |[^=]* x)[^=]* = errno|.*DISAGREE", r"(?!deny )[^=]* = noframe"
EXPLAINED = re.compile(r"hold \S+ deny |(?:start|hold) .* x[a-z]")
# the calls that may place or reserve pages: of which file, from which index on, and how many
PLACING = re.compile(r"(?:mapn?|allock?) (\d+) (\d+) (\d+)")
# the calls that touch a page
TOUCHES = {"load", "store", "xload"}


class End(NamedTuple):
    """The kernel's numbers when no file and no task of a script is left."""

    total: int
    free: int
    resv: int


@dataclass(frozen=True)
class Wrong:
    """What is wrong of a script: in which way, in words, and in how many of so many tries."""

    script: Script
    way: str
    words: str
    known: Known | None = None
    seen: int = 1
    tries: int = 1

    def text(self) -> list[str]:
        """As a report has it."""
        script = [f"script {self.script.name}", self.script.header, *self.script.lines, "end"]
        return [f"{self.script.name}: {self.words}; in {self.seen} of {self.tries} tries", *(f"    {line}" for line in script)]


def ends_of(text: str, count: int) -> list[End]:
    """The numbers at the ends of so many scripts."""
    found = [End(*map(int, it.groups()[:3])) for it in END.finditer(text)]
    if len(found) != count:
        raise Problem(f"{count} scripts were asked, and {len(found)} ended with their counts")
    return found


def end_of(script: Script) -> End | None:
    """The numbers at the end of a recorded script, if they were told. (Pages of a surplus leave the pool where they become free.)"""
    found = END.match(script.end)
    if found is None:
        return None
    total, free, resv = map(int, found.groups()[:3])
    return End(total - (read(script.lines[-1]).surplus if script.lines else 0), free, resv)


def way_at_end(end: End) -> tuple[str, str] | None:
    """In which way the counts are wrong where nothing is left of a script."""
    if end.resv:
        return "lost" if end.resv < 0 else "leaked", f"the reserve count is {end.resv} where nothing is left of it"
    return None if end.free == end.total else ("gone", f"{end.total - end.free} pages aren't free where nothing is left of it")


def way_at_rest(script: Script) -> tuple[str, str] | None:
    """In which way counts are wrong where no call is in flight: no reserve count may be below zero, or above what is free."""
    for number, line in enumerate(script.lines, 1):
        if it := races.TOLD.match(line):
            free, resv = map(int, it.groups())
            if not 0 <= resv <= free:
                way = "below" if resv < 0 else "above"
                return way, f"behind call {number} {free} pages are free, and {resv} reserved"
    return None


def way_of_quota(script: Script, end: End) -> tuple[str, str] | None:
    """Whether pages are used of a quota where all pages are free and none is reserved."""
    for number, line in enumerate(script.lines, 1):
        it, used = races.TOLD.match(line), re.search(r"\| used (-?\d+)", line)
        if it and used and (int(it[1]), int(it[2])) == (end.total, 0) and used[1] != "0":
            return "quota", f"behind call {number} all pages are free, and {used[1]} are used of the quota"
    return None


def is_ample(script: Script) -> bool:
    """Whether a pool has frames, and quota, for each index that calls name, and for one more that each task may have in its hands."""
    _, frames, _, _, tasks, *quota = script.header.split()
    ends: dict[str, int] = {}
    for found in (PLACING.search(line) for line in script.lines):
        if found:
            ends[found[1]] = max(ends.get(found[1], 0), int(found[2]) + int(found[3]))
    return min(map(int, [frames, *quota])) >= sum(ends.values()) + int(tasks)


def way_of_answers(script: Script) -> tuple[str, str] | None:
    """Whether a call was answered what none may be."""
    if any(EXPLAINED.match(line) for line in script.lines):
        return None
    odd = re.compile(f"{NEVER}|{AMPLE}" if is_ample(script) else NEVER)
    line = next((it.split(" |")[0] for it in script.lines if odd.match(it)), None)
    return line and (f"answer {line.partition(' = ')[2]}", f"no call may be answered so: {line}")


def kind_of(words: list[str]) -> str | None:
    """Whether a line's call is a truncation, or a touch. (All others hold the inode's lock, so none runs beside a truncation.)"""
    return "truncation" if "trunc" in words else "touch" if TOUCHES & set(words) else None


def is_truncated_beside_a_touch(script: Script) -> bool:
    """Whether a truncation and a touch overlapped."""
    at_work: dict[str, str | None] = {}
    for line in script.lines:
        words = line.split(" = ")[0].split()
        if words[0] == "wait":
            at_work.pop(words[1], None)
            continue
        kinds = {*at_work.values(), kind_of(words)}
        if {"truncation", "touch"} <= kinds:
            return True
        if words[0] in ("start", "hold"):
            at_work[task_of(line)] = kind_of(words)
    return False


def wrong(script: Script, answered: Script, end: End, known: list[Known]) -> Wrong | None:
    """What is wrong of one recording of a script."""
    found = way_at_end(end) or way_at_rest(answered) or way_of_quota(answered, end) or way_of_answers(answered)
    if found is None:
        return None
    is_known = found[0] in ("lost", "below") and is_truncated_beside_a_touch(script)
    return Wrong(script, *found, race_rule(known, "t") if is_known else None)


def wrongs(script: Script, tries: list[Script], ends: list[End], known: list[Known]) -> Wrong | None:
    """What is wrong of a script in some of its tries: in the way that was seen most often."""
    found = [it for it in (wrong(script, *one, known) for one in zip(tries, ends, strict=True)) if it]
    ways = [it.way for it in found]
    first = max(found, key=lambda it: ways.count(it.way), default=None)
    return first and replace(first, seen=ways.count(first.way), tries=len(tries))
