#!/usr/bin/env python3
"""Compares what commands write with --json with docs/lines.schema.json. (What the objects say is proved.)

Each line has to be an object of one kind of the schema, spelled as Python's writer does it. What is run are rows of examples/commands/, and
scripts and traces of examples/; each kind of the schema has to occur, but for those that no run of the program writes.
"""
from __future__ import annotations

import json
import re
import sys
from pathlib import Path
from typing import Iterator

from jsonschema import Draft202012Validator

from examples import LARGE, rows_below
from programs import TOP, report, run, tested

FOLDER = TOP / "examples"
SCHEMA = json.loads((TOP / "docs" / "lines.schema.json").read_text(encoding="utf-8"))
# (each kind is tried by itself, so that it is known which one a line is)
NAMED = [it["$ref"].rsplit("/", 1)[1] for it in SCHEMA["oneOf"]]
KINDS = {it: Draft202012Validator({**SCHEMA, "oneOf": [{"$ref": f"#/$defs/{it}"}]}) for it in NAMED}
# no race of a right program and no workload of a right core ends so
NEVER = {"bad_work"}
SCRIPT = ("explore --runs 3", "explore --summary --runs 600 --kill 20", "schedule", "find --rest", "race --times 2", "race --trace")
# words that write no lines, or read a file
OTHERWISE = re.compile(r"--help|\{file\}")


def inputs() -> Iterator[tuple[str, bytes]]:
    """Commands, and what they read."""
    commands = SCHEMA["$defs"]["heading"]["properties"]["command"]["enum"]
    for _, row in rows_below(FOLDER / "commands"):
        is_plain = not (row.breaks or row.room or row.leaves or row.stderr_is_full or row.stderr or row.stderr_starts)
        for words in row.words if is_plain and len(row.read()) < LARGE else []:
            if words.split()[0] in commands and not OTHERWISE.search(words):
                yield words.replace(" --json", ""), row.read()
    for file in sorted(FOLDER.glob("*.script")):
        yield from ((words, file.read_bytes()) for words in SCRIPT)
    for file in sorted(FOLDER.glob("*.trace")):
        if not file.with_suffix(".status").exists():
            yield from ((words, file.read_bytes()) for words in ("check", "explain"))


def spelled(found: object) -> str:
    return json.dumps(found, separators=(",", ":"))


def read(line: str) -> object:
    """The object of a line that is spelled as Python's writer does it: no key twice, and no spaces."""
    try:
        found = json.loads(line)
    except ValueError:
        return None
    return found if spelled(found) == line else None


def tries(program: Path) -> Iterator[tuple[str, bool]]:
    met: set[str] = set()
    for words, text in inputs():
        command, _, options = words.partition(" ")
        lines = run(program, f"{command} --json {options}", text).out.splitlines()
        found = [read(line) for line in lines]
        yield f"{words}: each line is an object", bool(found) and None not in found
        # (the objects of explain are others, and proved)
        if command != "explain":
            kinds = [{kind for kind, validator in KINDS.items() if validator.is_valid(it)} for it in found]
            met |= {kind for several in kinds for kind in several}
            yield f"{words}: each is of one kind", all(len(several) == 1 for several in kinds)
            yield f"{words}: the first names the command", lines[:1] == [spelled({"schema": 1, "command": command})]
    yield f"each kind of object occurs, but for {NEVER}: {set(KINDS) - met}", set(KINDS) - met == NEVER


if __name__ == "__main__":
    sys.exit(report("objects", tries(tested())))
