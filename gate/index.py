#!/usr/bin/env python3
"""Compares docs/INDEX.md with the rows that it is made of.

usage: gate/index.py           says whether docs/INDEX.md is what it would write
       gate/index.py --write   writes docs/INDEX.md

docs/INDEX.md has of each operation its phases as a graph. It is read from the rows in crates/hp_machine/specs, and not from the tables of
docs/MACHINE.md: the contracts of the code cite the rows.
"""
from __future__ import annotations

import re
import sys
from pathlib import Path

from programs import TOP

INDEX = TOP / "docs" / "INDEX.md"
OPERATIONS = ("touch", "map", "alloc", "punch", "truncate", "unmap", "exit")
HEAD = """# Where each phase is

Of each operation the graph of its phases, for whoever changes or compares a phase. An arrow shows
where a step may lead; [MACHINE.md](MACHINE.md) says when, and with which answer. "May want memory":
denied memory, a step may lead elsewhere.

| What | Touch, look |
|---|---|
| row, in `crates/hp_machine/specs/` | `TouchLookRow` in `TouchRows.antt` |
| function, in `crates/hp_fault/src/` or `crates/hp_remove/src/` | `from_look` in `touch.rt`, or an arm of `step_touch` |
| lemma on what the row writes, in `crates/hp_laws/proofs/` | `touch_did` in `TouchDid.antt` (an exit's in `UnmapDid.antt`) |

`gate/index.py --write` writes this page from the rows.
"""
SPECS = TOP / "crates" / "hp_machine" / "specs"
# what a row's step waits for, by the row that it shares with others
WAITS = {"StartRow ": "the file lock", "WantSlotRow ": "the slot"}


def graph(operation: str) -> str:
    """The phases of an operation as a graph in Mermaid's words."""
    name = operation.capitalize()
    text = (SPECS / f"{name}Rows.antt").read_text(encoding="utf-8")
    rows = re.findall(rf"^{name}(\w+)Row(?: \w+)+ =(.*?)(?=\n\n|\Z)", text, re.M | re.S)
    lines = ["```mermaid", "flowchart TD", f'    begin(["{operation} begins"])-->{rows[0][0]}']
    for phase, row in rows:
        waits = [what for word, what in WAITS.items() if word in row]
        # (a row that waits names its own phase too)
        targets = [it for it in dict.fromkeys(re.findall(r"\bat\.(\w+)", row)) if not waits or it != phase]
        notes = [*(f"waits for {it}" for it in waits), *["may want memory"] * (" grant" in row)]
        notes += ["may end"] * ("Ends " in row or "StartRow " in row)
        if not targets and "Ends " not in row:
            sys.exit(f"index: {operation}'s phase {phase} leads nowhere")
        lines.append(f'    {phase}["{"<br>".join([f"<b>{phase.lower()}</b>", *notes])}"]')
        lines += [f"    {phase}-->{it}" for it in targets]
    return "\n".join([*lines, "```", ""])


def index() -> str:
    """The text of docs/INDEX.md."""
    return HEAD + "".join(f"\n## {it.capitalize()}\n\n{graph(it)}" for it in OPERATIONS)


def main(words: list[str]) -> int:
    if words == ["--write"]:
        INDEX.write_text(index(), encoding="utf-8")
        return 0
    is_stale = INDEX.read_text(encoding="utf-8") != index()
    print("  docs/INDEX.md isn't what the rows say: gate/index.py --write\n" * is_stale, end="")
    print(f"index: {1 - is_stale} passed, {+is_stale} failed")
    return int(is_stale)


if __name__ == "__main__":
    sys.exit(main(sys.argv[1:]))
