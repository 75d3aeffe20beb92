"""Rows of examples/commands that search, as calls of the library: conditions as lines of a text, other options as numbers."""
from __future__ import annotations

import re
import shlex
import tomllib
from pathlib import Path
from typing import NamedTuple

CONDITIONS = ("answer", "at", "blocked", "meet", "final")
# the numbers of a call, in order, and what the program takes where they aren't given
NUMBERS = {
    "minimize": {},
    "find": {"seed": "1", "limit": "65536", "deny": "0", "kill": "0"},
    "find-every": {"denials": "0", "kills": "0", "states": "1000000"},
}
STATUSES = (0, 1, 3)
# what the program says against a condition, and the library by its code
REFUSED = ("error: invalid value", "error: at least one condition")


class Search(NamedTuple):
    """A call, and what is wanted of it."""

    name: str
    words: list[str]
    text: str
    status: int
    wanted: str


def call_of(line: str) -> list[str] | None:
    """The search that a command line asks for, its conditions and its numbers; None if the library has no such call."""
    command, *words = shlex.split(line)
    options = [it.removeprefix("--").split("=", 1) if it.startswith("--") else it for it in words]
    lines, given, is_every = [], {}, False
    while options:
        name, *value = option if isinstance(option := options.pop(0), list) else [None]
        if name in (*CONDITIONS, "seed", "limit", "deny", "kill", "denials", "kills", "states") and not value:
            value = [options.pop(0)]
            value = value if isinstance(value[0], str) else ["--" + "=".join(value[0])]
        if name in CONDITIONS:
            lines.append(f"{name} {value[0]}")
        elif name in ("rest", "anywhere"):
            lines.append(name)
        elif name == "every":
            is_every = True
        elif name is not None and value:
            given[name] = value[0]
        else:
            return None
    search = f"{command}-every" if is_every else command
    numbers = NUMBERS.get(search)
    if numbers is None or not given.keys() <= numbers.keys() or {"rest", "anywhere"} <= set(lines):
        return None
    return [search, "".join(f"{it}\n" for it in lines), *(given.get(it, default) for it, default in numbers.items())]


def expanded(text: str) -> str:
    """A text in which `LINE x12` stands for twelve lines."""
    return re.sub(r"^(.*) x(\d+)$", lambda it: "\n".join([it[1]] * int(it[2])), text, flags=re.MULTILINE)


def searches(folder: Path) -> list[Search]:
    """All such rows of a folder of tables."""
    found = []
    for table in ("find", "minimize"):
        for row in tomllib.loads((folder / f"{table}.toml").read_text(encoding="utf-8"))["row"]:
            status, told = row.get("status", 0), row.get("stderr", row.get("stderr_starts", ""))
            if row.keys() & {"room", "breaks", "stdout_starts"} or status not in STATUSES and not told.lstrip().startswith(REFUSED):
                continue
            for line in row["words"]:
                words, text = call_of(line), row.get("stdin", expanded(row.get("trace", "pool 1 1 1 1\n")))
                if words is not None:
                    found.append(Search(f"{table}.toml: {row['name']}: {line}", words, text, status, row.get("stdout", "")))
    return found
