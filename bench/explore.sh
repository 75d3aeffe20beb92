#!/usr/bin/env bash
# Explores runs of a script beside a plain Rust explorer that does the same with nothing proved, and
# prints whether both wrote the same lines. Needs cargo, python3 and taskset. It measures
#
# - 20,000 runs of some 245 turns, on one processor;
# - 65,536 runs on all processors;
# - fewer runs with the audit of every turn;
# - a turn of a script of 64 tasks in a pool of 4,096 frames, and a turn of one of 4 tasks.
#
# How much faster all processors are is measured by the clock, so it needs a machine with nothing else
# to do. If others had work when it began, the output says so. Beside it stands what the machine
# gives. That is how much more as many explorations do at once, each on a processor of its own, than
# one does alone. Processors that share a core, or that other guests share, do less than as many
# separate ones.
set -euo pipefail
source "$(dirname "${BASH_SOURCE[0]}")/needs.sh" python3 taskset
PYTHONPATH=bench exec python3 -B - <<'P'
import os
import shutil
import statistics
import subprocess
import sys
import tempfile
import time
from pathlib import Path
from measure import PLAIN, PROVED, in_turn, prepare, script_of_tasks

PROCESSORS = sorted(os.sched_getaffinity(0))
ROUNDS = 9


def alone_on(processor):
    """The words that keep a program on one processor."""
    return [shutil.which("taskset"), "-c", str(processor)]


ONE = alone_on(PROCESSORS[0])
OURS = [PROVED[0], "explore"]
THEIRS = [str(PLAIN / "explore")]


def lines_of(words, path):
    with open(path) as source:
        return subprocess.run(words, stdin=source, capture_output=True, check=True, text=True).stdout


def clock(programs, path):
    """The seconds that the clock tells until all of these, begun at once, have ended."""
    start = time.perf_counter()
    started = []
    for words in programs:
        with open(path) as source:
            started.append(subprocess.Popen(words, stdin=source, stdout=subprocess.DEVNULL))
    if any([it.wait() for it in started]):
        sys.exit("bench: one of them failed")
    return time.perf_counter() - start


def wall(words, path):
    """The seconds that the clock tells of one of these, the best of five."""
    return min(clock([words], path) for _ in range(5))


def print_all_processors(words, path):
    """How many times as fast the exploration is on all processors as on one, and what as many at once do."""
    cores = len(PROCESSORS)
    kinds = [[[*ONE, *words]], [words], [[*alone_on(it), *words] for it in PROCESSORS]]
    seen = [[clock(programs, path) for programs in kinds] for _ in range(ROUNDS)]
    one, on_all, at_once = (statistics.median(times) for times in zip(*seen))
    print(f"65,536 runs by the clock, median of {ROUNDS} rounds in turn: {one:.3f} s on one processor, {on_all:.3f} s on {cores}:"
        f" {one / on_all:.2f} times as fast")
    print(f"  {cores} of them at once, each on a processor of its own, do {cores * one / at_once:.2f} times as much as one alone:"
        f" it has {at_once / cores / on_all:.2f} of that")


def busy():
    """The seconds that all processors have been at work since the system began."""
    user, nice, system = Path("/proc/stat").read_text().split(maxsplit=4)[1:4]
    return (int(user) + int(nice) + int(system)) / os.sysconf("SC_CLK_TCK")


def busy_processors():
    """How many processors others keep busy, over a second in which nothing is done here."""
    before = busy()
    time.sleep(1)
    return busy() - before


def turns_of(text):
    return sum(int(line.split()[4]) for line in text.splitlines())


prepare()
with tempfile.TemporaryDirectory() as folder:
    small = Path(folder) / "small"
    small.write_text(script_of_tasks(8, 4, 2))
    options = ["--runs", "20000", "--deny", "50", "--kill", "1"]
    text = lines_of([*OURS, *options], small)
    if text != lines_of([*THEIRS, *options], small):
        sys.exit("bench: the two wrote different lines")
    print(f"20,000 runs of {turns_of(text) / 20_000:.0f} turns each, both wrote the same lines")
    in_turn("on one processor", small, {"hugepool": [*ONE, *OURS, *options], "plain": [*ONE, *THEIRS, *options]}, 7)
    others = busy_processors()
    print_all_processors([*OURS, "--runs", "65536", *options[2:]], small)
    if others > 0.1:
        print(f"  (others kept {others:.1f} processors busy before that: it says nothing of {len(PROCESSORS)} free ones)")
    few = ["--runs", "2000", "--deny", "50", "--kill", "1"]
    bare, audited = wall([*ONE, *OURS, *few], small), wall([*ONE, *OURS, *few, "--audit"], small)
    print(f"2,000 runs with the audit of every turn: {audited:.3f} s, without {bare:.3f} s, on one processor")
    large = Path(folder) / "large"
    large.write_text(script_of_tasks(4096, 64, 2))
    cost = {}
    for name, path, runs in (("4 tasks, 8 frames", small, 5000), ("64 tasks, 4,096 frames", large, 300)):
        words = [*ONE, *OURS, "--runs", str(runs)]
        cost[name] = wall(words, path) / turns_of(lines_of(words, path))
        print(f"{name}: {cost[name] * 1e9:.0f} ns a turn")
    first, second = cost.values()
    print(f"ratio: {second / first:.2f}")
P
