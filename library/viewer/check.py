#!/usr/bin/env python3
"""Tries the page: functions of its own, its module on all traces of examples/ and its searches, and clicks in browsers.

usage: library/viewer/check.py [PAGE.html]

With no page named, ./viewer writes one to try. Without node nothing is tried. Clicks are made in Chromium and in Firefox, where they are there;
CHROMIUM and FIREFOX name others of their kind. The last line is 'N passed, M failed'.
"""
from __future__ import annotations

import json
import re
import shutil
import subprocess
import sys
import tempfile
from pathlib import Path

PAGE = Path(__file__).resolve().parent
TOP = PAGE.parent.parent
sys.path.insert(0, str(PAGE.parent))
import searched  # noqa: E402

# by which node 20 has a memory of 64 bits; later versions have it without, or don't know the word
MEMORY64 = "--experimental-wasm-memory64"
COUNTS = re.compile(r"^(\d+) passed, (\d+) failed$", re.MULTILINE)


def node(*words: str | Path) -> tuple[int, int]:
    """How much of a script's tries passed and failed; its other lines are printed."""
    knows = subprocess.run(["node", MEMORY64, "--eval", "0"], stderr=subprocess.DEVNULL).returncode == 0
    ran = subprocess.run(["node", *([MEMORY64] if knows else []), *words], stdin=subprocess.DEVNULL, stdout=subprocess.PIPE, stderr=subprocess.STDOUT, text=True)
    counts = COUNTS.search(ran.stdout)
    print(COUNTS.sub("", ran.stdout).rstrip())
    if not counts:
        return 0, 1
    return int(counts[1]), int(counts[2])


def main(words: list[str]) -> int:
    if len(words) > 1 or any(it.startswith("-") for it in words):
        sys.exit(__doc__)
    if not shutil.which("node"):
        sys.exit("page: 'node' is missing (package: nodejs): required")
    with tempfile.TemporaryDirectory(prefix="page-") as room:
        file = Path(words[0]) if words else Path(room) / "hugepool.html"
        if not words and subprocess.run([TOP / "viewer", file]).returncode:
            return 1
        searches = Path(room) / "searches.json"
        searches.write_text(json.dumps([it._asdict() for it in searched.searches(TOP / "examples" / "commands")]), encoding="utf-8")
        counts = [node(PAGE / "functions.mjs", file), node(PAGE / "module.mjs", file, searches), node(PAGE / "clicks.mjs", file)]
    passed, failed = (sum(it) for it in zip(*counts))
    print(f"{passed} passed, {failed} failed")
    return 1 if failed else 0


if __name__ == "__main__":
    sys.exit(main(sys.argv[1:]))
