#!/usr/bin/env python3
"""Proves and builds the library for C, where that isn't done yet: crates/hp_c/out/libhp_c.a.

usage: library/archive.py

It is `rt lib` in crates/hp_c. What that prints is held back: before a first build its quick pass prints lines `error[unsupported-theorem]`
of functions that the library doesn't reach. Shown is how far it is; and all of it, if it fails.
"""
from __future__ import annotations

import subprocess
import sys
import threading
import time
from pathlib import Path

TOP = Path(__file__).resolve().parent.parent
CRATE = TOP / "crates" / "hp_c"
ARCHIVE = CRATE / "out" / "libhp_c.a"
sys.path.insert(0, str(TOP / "launcher"))
from building import Line  # noqa: E402
from launch import RT  # noqa: E402

# lines of the toolchain's that say how far it is
FAR = ("so far: ", "rt: ", "crate ")


class Failed(Exception):
    """All that was printed, and that the library isn't proved."""


def how_far(printed: list[str], began: float) -> str:
    """What is done, the last line that says how far it is, and since when."""
    last = next((it.strip() for it in reversed(printed) if it.startswith(FAR)), "")
    return f"proving it, {time.monotonic() - began:.0f} s{': ' if last else ''}{last}"


def prove(name: str) -> str:
    """Shows how far the proof is, as lines of that name, and returns what the toolchain printed."""
    printed: list[str] = []
    line, began = Line(name), time.monotonic()
    how = {"stdin": subprocess.DEVNULL, "stdout": subprocess.PIPE, "stderr": subprocess.STDOUT, "text": True, "errors": "replace"}
    with subprocess.Popen([*RT, "lib"], cwd=CRATE, **how) as ran:
        reader = threading.Thread(target=lambda: printed.extend(iter(ran.stdout.readline, "")))
        reader.start()
        while ran.poll() is None:
            line.show(lambda: how_far(printed, began))
            time.sleep(0.2)
        reader.join()
    line.clear()
    text = "".join(printed)
    if ran.returncode or not ARCHIVE.exists() or "\nlogic=proved " not in text:
        raise Failed(f"{text}{name}: rt lib in crates/hp_c: status {ran.returncode}, and no proved archive")
    return text


def main(words: list[str]) -> int:
    if words:
        print(__doc__, end="", file=sys.stdout if words[0] in ("-h", "--help") else sys.stderr)
        return 0 if words[0] in ("-h", "--help") else 2
    try:
        text = prove("library")
    except Failed as why:
        print(why, file=sys.stderr)
        return 1
    print(text.splitlines()[-1])
    print(f"library: {ARCHIVE.relative_to(TOP)}: {ARCHIVE.stat().st_size:,} bytes")
    return 0


if __name__ == "__main__":
    sys.exit(main(sys.argv[1:]))
