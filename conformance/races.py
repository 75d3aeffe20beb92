#!/usr/bin/env python3
"""Reads what a Linux kernel had after races, and says whether its reserve count stayed right.

usage: races.py [FILE ..]

Each script is of a pool in which tasks race: a line `race SEED CALLS SPAN [KINDS] = rest | FREE RESV | ..` tells the numbers when
all were done, and at the end the file is truncated to nothing, which gives every reservation back. Where no kind is a truncation
(`t`) the count has to be one that the free frames can meet, and 0 at the end. Of the other scripts it is told in how many it is
wrong; in the records of this folder, which are read where no file is named, that has to be as many as RECORDS says, of which
docs/NEEDED.md tells.
"""
from __future__ import annotations

import re
import signal
import sys
from pathlib import Path
from typing import Iterator, NamedTuple

from compare import Script, scripts

FOLDER = Path(__file__).resolve().parent
# the records, and in how many scripts with truncations the count is wrong
RECORDS = {"races.txt": 1, "races-by-chance.txt": 21, "races-by-kind.txt": 2}


class Rest(NamedTuple):
    """The numbers of a pool in which no call is in flight."""

    free: int
    resv: int


# a line that tells the numbers of a pool in which no call is in flight
TOLD = re.compile(r"[^=|]* = [^|]* \| (\d+) (-?\d+) \|")


def rests(script: Script) -> list[Rest]:
    """The numbers behind each line of a script at which no call is in flight; the last is the truncation at its end."""
    said = [TOLD.match(line) for line in script.lines]
    return [Rest(*map(int, it.groups())) for it in said if it]


def is_right(script: Script) -> bool:
    """Whether each count could be met, and nothing was reserved and all was free at the end."""
    *raced, end = rests(script)
    frames = int(script.header.split()[1])
    return all(0 <= it.resv <= it.free for it in raced) and end == Rest(frames, 0)


def is_loss(script: Script) -> bool:
    """Whether counts that are wrong are so because reservations were lost: no more than is free, and at the end all is free and nothing left."""
    *raced, end = rests(script)
    frames = int(script.header.split()[1])
    return all(it.resv <= it.free for it in raced) and end.free == frames and end.resv <= 0


def allowed(script: Script) -> Iterator[tuple[Rest, int | None]]:
    """The numbers at each rest of a script, and how many reservations Linux may have lost in its races so far, if the recorder told so."""
    lost: int | None = 0
    for line in script.lines:
        found = re.search(r" = rest beside (\d+) \|", line)
        if line.startswith("race "):
            lost = lost + int(found[1]) if found and lost is not None else None
        if it := TOLD.match(line):
            yield Rest(*map(int, it.groups())), lost


def is_accounted(script: Script) -> bool:
    """Whether at no rest more reservations are lost than Linux's rules allow by the races before it (record/race.c, touch_beside)."""
    return all(lost is None or -rest.resv <= lost for rest, lost in allowed(script))


def has_truncations(script: Script) -> bool:
    """Whether there are truncations among the calls of a race, as there are where its kinds aren't named."""
    races = [line.split(" = ", 1)[0].split() for line in script.lines if line.startswith("race ")]
    return any("t" in (words[4] if len(words) > 4 else "t") for words in races)


def told(path: Path) -> tuple[list[str], int, int, int]:
    """The faults of a file, how many scripts have no truncations, how many have, and in how many of these the count is wrong."""
    read = [it for it in scripts(path) if any(line.startswith("race ") and TOLD.match(line) for line in it.lines)]
    without = [it for it in read if not has_truncations(it)]
    wrong = [it for it in read if has_truncations(it) and not is_right(it)]
    faults = [f"{path.name}: {it.name}: the counts are wrong: {rests(it)}" for it in without if not is_right(it)]
    return faults, len(without), len(read) - len(without), len(wrong)


def main(paths: list[Path]) -> int:
    passed, faults = 0, []
    for path in paths or [FOLDER / name for name in RECORDS]:
        found, without, others, wrong = told(path)
        print(f"{path.name}: wrong in {len(found)} of {without} scripts without truncations, in {wrong} of {others} with them")
        passed, faults = passed + without - len(found), faults + found
        if not without + others:
            faults.append(f"{path.name}: no script of it has the counts after a race")
        if not paths:
            passed += wrong == RECORDS[path.name]
            faults += [] if wrong == RECORDS[path.name] else [f"{path.name}: the count is to be wrong in {RECORDS[path.name]}"]
    print("".join(f"  {it}\n" for it in faults), end="")
    print(f"races: {passed} passed, {len(faults)} failed")
    return 1 if faults else 0


if __name__ == "__main__":
    signal.signal(signal.SIGPIPE, signal.SIG_DFL)
    if sys.argv[1:] in (["-h"], ["--help"]):
        print(__doc__, end="")
        sys.exit(0)
    if any(word.startswith("-") for word in sys.argv[1:]):
        sys.exit(__doc__)
    try:
        sys.exit(main([Path(word) for word in sys.argv[1:]]))
    except OSError as why:
        sys.exit(f"races.py: {why.filename}: {why.strerror}")
