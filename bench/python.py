#!/usr/bin/env python3
"""Times the Python module: an event by itself, lines that are parsed, events in slices of 1,000, and texts of 100,000 events.

usage: bench/python.py [ROUNDS]

The best of several rounds (7 by default) of calls of all operations by 8 tasks. Needs cargo, cc and the Rattle toolchain.
"""
from __future__ import annotations

import os
import subprocess
import sys
import tempfile
import time
from pathlib import Path
from typing import Callable

TOP = Path(__file__).resolve().parent.parent
sys.path[:0] = [str(TOP / "library"), str(TOP / "library" / "python")]
EVENTS, SLICE = 100_000, 1_000


def best(rounds: int, work: Callable[[], object]) -> float:
    """Seconds of the best round."""
    took = []
    for _ in range(rounds):
        began = time.perf_counter()
        work()
        took.append(time.perf_counter() - began)
    return min(took)


def trace() -> list[str]:
    """The first lines of a trace of calls of all operations."""
    manifest = ["--manifest-path", TOP / "bench" / "plain" / "Cargo.toml"]
    words = ["cargo", "run", "--quiet", "--release", *manifest, "--bin", "generate", "--", "mixed", "8"]
    ran = subprocess.run(words, stdout=subprocess.PIPE, text=True, check=True)
    return ran.stdout.splitlines()[: EVENTS + 1]


def measure(rounds: int, header: str, lines: list[str]) -> None:
    import hugepool  # (once HUGEPOOL_LIBRARY is set)

    def opened() -> hugepool.Pool:
        return hugepool.Pool(*map(int, header.split()[1:]))

    def one_by_one() -> None:
        event = opened().event
        for it in items:
            event(it)

    def slices() -> None:
        pool = opened()
        for it in many:
            pool.run(it)

    items, text = [hugepool.parse(it) for it in lines], "\n".join([header, *lines, ""])
    many = [hugepool.events(items[at : at + SLICE]) for at in range(0, EVENTS, SLICE)]
    all_ways = ("an event by itself", one_by_one), ("an event in slices", slices), ("parse", lambda: [hugepool.parse(it) for it in lines])
    for what, work in all_ways:
        print(f"{what:20} {best(rounds, work) / EVENTS * 1e6:8.3f} microseconds")
    for what in "check", "replay", "explain", "draw":
        print(f"{what:20} {best(rounds, lambda: getattr(hugepool, what)(text)):8.3f} seconds")


def main() -> int:
    import archive
    import check

    archive.prove("bench")
    header, *lines = trace()
    with tempfile.TemporaryDirectory(prefix="bench-") as room:
        os.environ["HUGEPOOL_LIBRARY"] = str(check.share(Path(room)))
        measure(int(sys.argv[1]) if len(sys.argv) > 1 else 7, header, lines)
    return 0


if __name__ == "__main__":
    sys.exit(main())
