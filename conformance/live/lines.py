#!/usr/bin/env python3
"""Writes crates/hp_linux/specs/Lines.antt: recordings of this folder, line by line, as hp_linux proves them to be runs.

usage: lines.py [--write]

A line is one event of the kernel: what it did, the machine's events that belong to it, or the frame that becomes free late with it, and
how many frames the kernel had free and reserved behind it. Without --write the file is compared with what the recordings say, and so are
files with another count and with another frame, which must differ.
"""
from __future__ import annotations

import argparse
import sys
from dataclasses import dataclass
from pathlib import Path
from typing import Iterator

from accounts import OF_ANY_THREAD, WORDS
from events import placed
from linux_rows import machine_of
from placing import Placement
from recordings import Event, recordings

HERE = Path(__file__).resolve().parent
WRITTEN = HERE.parents[1] / "crates" / "hp_linux" / "specs" / "Lines.antt"
OPERATIONS = {"map": "Map", "mapn": "MapNoReserve", "unmap": "Unmap", "load": "Load", "store": "Store", "alloc": "Alloc", "allock": "Alloc",
              "punch": "Punch", "trunc": "Truncate", "exit": "Exit"}
# events that the account leaves out, and to which a row may belong
UNSHOWN = {"enter": "enters the mapping"}
# the outcomes of a punch's steps before and behind which, by the rule F, the machine is at `free`
AROUND_FREE = ("moved delete", "moved unslot")
KEEPS = {"alloc": ("false",), "allock": ("true",)}
HEAD = """\
-- Recordings of a kernel, line by line: what the kernel did, the machine's events of that line, and how many frames it had free and
-- counted as reserved behind it. Written by `conformance/live/lines.py` from `conformance/live/smallest/`: no line is by hand.
use Rattle.std.specs.Prelude.{true, false, List, [], ◌∷◌}
use Rattle.hp_base.specs.declared.event.Op.TheVariants as op
use Rattle.hp_base.specs.declared.event.Event.TheVariants.{Begin, Step}
use Rattle.hp_linux.specs.Following.{Line, lets_go, line}
"""


@dataclass(frozen=True)
class Told:
    """A recording that is written: the definition's name, the file, and the rules by which it is replayed."""

    name: str
    recording: str
    rules: str


TOLD = (
    Told("commit_lines", "count-lost-at-a-commit", "BFPSTN"),
    Told("raise_lines", "count-lost-by-a-refused-raise", "FPSTN"),
    Told("back_out_lines", "count-lost-by-a-back-out", "BFUDN"),
)


def placement_of(told: Told) -> Placement:
    """The recording, replayed to its end."""
    run, = recordings(HERE / "smallest" / f"{told.recording}.bin")
    placement = placed(run, machine_of(told.rules))
    if placement.fault:
        raise SystemExit(f"lines.py: {told.recording}: Linux leaves the rows {told.rules}: {placement.fault}")
    return placement


def event_of(line: str) -> str:
    """A line of a trace as an event."""
    word, task, *call = line.split(" ")
    if word != "begin":
        return f"Step {task} {'true' if word == 'step' else 'false'}"
    name, *numbers = call
    return f"Begin {task} ({' '.join((f'op.{OPERATIONS[name]}', *numbers, *KEEPS.get(name, ())))})"


def words_of(event: Event) -> str:
    """What the kernel did, where the account of a recording says it."""
    return WORDS[event.kind](event) if event.kind in WORDS else UNSHOWN[event.kind]


def events_of(placement: Placement) -> dict[int, list[str]]:
    """The machine's events that belong to each event of the kernel, by its number. By the rule F the Python rows go from the deletion to
    the slot, and the machine's by way of `free`: it makes a step more there."""
    events: dict[int, list[str]] = {}
    at: dict[str, str] = {}
    for row in placement.rows:
        made, task = events.setdefault(row.event, []), row.line.split(" ")[1]
        made.append(event_of(row.line))
        if (at.get(task), row.outcome) == AROUND_FREE:
            made.append(f"Step {task} true")
        at[task] = row.outcome
    return events


def lines_of(told: Told) -> Iterator[str]:
    """The lines of a recording: each event that its account shows, or to which events of the machine belong."""
    placement = placement_of(told)
    events = events_of(placement)
    for event in placement.run:
        made, racer = events.get(event.number, []), placement.racers.get(event.thread)
        late = placement.freed_late.get(event.number)
        if made and late is not None:
            raise SystemExit(f"lines.py: {told.recording}: event {event.number} has steps of the machine and frees a frame late")
        if made or event.kind in WORDS and (racer or event.kind in OF_ANY_THREAD):
            happens = f"line ({' ∷ '.join((*made, '[]'))})" if late is None else f"lets_go {late}"
            yield f"    -- {f'task {racer.number}' if racer else 'the pool'}: {words_of(event)}"
            yield f"    {happens} {event.free} {max(event.resv, 0)} {max(-event.resv, 0)} ("


def definition(told: Told) -> str:
    lines = list(lines_of(told))
    number = sum(it.endswith("(") for it in lines)
    return "\n".join((f"\n-- conformance/live/smallest/{told.recording}.bin", f"abbrev pub {told.name} : List Line", f"{told.name} =", *lines,
                      f"    []{')' * number}")) + "\n"


def text() -> str:
    return HEAD + "".join(map(definition, TOLD))


def comparisons() -> Iterator[tuple[bool, str]]:
    """Whether the file is what the recordings say; and whether one that claims another count would be noticed."""
    written, said = WRITTEN.read_text(encoding="utf-8"), text()
    yield written == said, f"{WRITTEN.name} has the lines of {', '.join(it.recording for it in TOLD)}"
    yield written.replace(" 0 0 1 (", " 0 0 2 (", 1) != said, "another count would be noticed"
    yield written.replace("lets_go 0 ", "lets_go 1 ", 1) != said, "another frame would be noticed"


def main() -> int:
    words = argparse.ArgumentParser(prog="lines.py", description=__doc__.split("\n")[0])
    words.add_argument("--write", action="store_true", help="write the file")
    if words.parse_args().write:
        WRITTEN.write_text(text(), encoding="utf-8")
        return 0
    passed = failed = 0
    for is_good, said in comparisons():
        print(said if is_good else f"FAILED: {said}", flush=True)
        passed, failed = passed + is_good, failed + (not is_good)
    print(f"lines: {passed} passed, {failed} failed")
    return 1 if failed else 0


if __name__ == "__main__":
    sys.exit(main())
