#!/usr/bin/env bash
# Threads make calls on a running pool as fast as they can (crates/hp_pool_bench). Those of a plain
# Rust program do so, too, over a Mutex, a Condvar and the same journal, with nothing proved. A hold
# is one that changed the pool: an entry. The bench prints
#
# - holds a second of both by wall time, with 1, 2 and 4 threads, on a file each and all on one file,
#   and with 64 on one file; and how often so many threads take a lock under which they only count;
# - how much processor time a task that waits uses;
# - what the journal costs;
# - the peak memory of short and long runs whose journal is cut.
#
# `bench/pool.sh [ENTRIES]` sets the entries of the longest run (10,000,000 by default). Needs cargo,
# python3 and the Rattle toolchain.
set -euo pipefail
source "$(dirname "${BASH_SOURCE[0]}")/needs.sh" python3
PYTHONPATH=bench exec python3 -B - "$@" <<'P'
import os
import statistics
import subprocess
import sys
import time
from pathlib import Path
from measure import PLAIN, peak_memory

CRATE = Path("crates/hp_pool_bench")
PROVED, PLAIN_POOL = [str(CRATE / "out/hp_pool_bench")], [str(PLAIN / "pool")]
ROUNDS = 7
# a turn is 9 entries: a page that has to be there takes 7, a store 2
TURN = 9
# the turns of all threads together in a run whose speed is told, and between two cuts
TURNS, PART = 200_000, 10_000
WAITED = 2


def prepare():
    """Builds what isn't built yet."""
    for words, folder in (["rt", "run", "--", "1", "one", "1", "1"], CRATE), (["cargo", "build", "--quiet", "--release"], "bench/plain"):
        built = subprocess.run(words, cwd=folder, stdin=subprocess.DEVNULL, capture_output=True, text=True)
        if built.returncode != 0:
            sys.exit(f"bench: {' '.join(words)}: {built.stdout}{built.stderr}")


def words(threads, files, parts, turns):
    """The words for so many turns of all threads together in each part."""
    return [str(threads), files, str(parts), str(turns // threads)]


def run(program, asked):
    """The entries of one run, and its seconds by the clock and of processor time."""
    began = time.monotonic()
    child = subprocess.Popen([*program, *asked], stdin=subprocess.DEVNULL, stdout=subprocess.PIPE, text=True)
    told = child.stdout.read()
    _, status, used = os.wait4(child.pid, 0)
    child.returncode = status
    if status != 0:
        sys.exit(f"bench: {' '.join([*program, *asked])} failed")
    return int(told.split()[1]), time.monotonic() - began, used.ru_utime + used.ru_stime


def medians(programs, asked):
    """Runs the programs in turn, and tells the entries, and the median seconds of each by the clock and of processor time."""
    runs = [[run(program, asked) for program in programs] for _ in range(ROUNDS)]
    entries = {it[0] for row in runs for it in row}
    if len(entries) != 1:
        sys.exit(f"bench: the programs made {entries} entries by {' '.join(asked)}")
    return entries.pop(), [tuple(statistics.median(row[k][at] for row in runs) for at in (1, 2)) for k in range(len(programs))]


def speeds():
    """Holds a second, by threads and files."""
    print(f"holds a second by the clock, median of {ROUNDS} rounds in turn; cut every {PART * TURN} entries")
    print(f"{'threads':>7} {'files':8} {'hugepool':>10} {'plain':>10} {'ratio':>6} {'mutex':>10}   of processor time: ratio")
    # (a pool has no more than 16 files)
    for threads, files in *((it, files) for it in (1, 2, 4) for files in ("own", "one")), (64, "one"):
        entries, (ours, plain) = medians([PROVED, PLAIN_POOL], words(threads, files, TURNS // PART, PART))
        _, [(alone, _)] = medians([[*PLAIN_POOL, "mutex"]], [str(threads), str(entries // threads)])
        told = {"own": "one each", "one": "one"}[files]
        print(
            f"{threads:7} {told:8} {entries / ours[0]:10.0f} {entries / plain[0]:10.0f} {ours[0] / plain[0]:6.2f} {entries / alone:10.0f}"
            f"   {ours[1] / plain[1]:24.2f}",
            flush=True,
        )


def waiting():
    """What a task that waits uses of a processor."""
    for name, program in ("hugepool", PROVED), ("plain", PLAIN_POOL):
        child = subprocess.Popen(program, stdin=subprocess.PIPE, stdout=subprocess.DEVNULL)
        time.sleep(WAITED)
        if child.poll() is not None:
            sys.exit(f"bench: {name} didn't wait")
        child.stdin.close()
        _, status, used = os.wait4(child.pid, 0)
        child.returncode = status
        if status != 0:
            sys.exit(f"bench: {name} failed while a task waited")
        milliseconds = 1000 * (used.ru_utime + used.ru_stime)
        print(f"a task waits {WAITED} seconds for another's call: {name} uses {milliseconds:.0f} ms of processor time in all")


def journal_costs():
    """What the journal costs: time and memory."""
    asked = words(1, "own", TURNS // PART, PART)
    entries, (ours, plain, bare) = medians([PROVED, PLAIN_POOL, [*PLAIN_POOL, "bare"]], asked)
    told = ", ".join(
        f"{name} {1e9 * it[1] / entries:.0f}"
        for name, it in (("hugepool", ours), ("plain", plain), ("plain without journal and lists", bare))
    )
    print(f"nanoseconds of processor time an entry, one thread: {told}")
    for name, program in ("hugepool", PROVED), ("plain", PLAIN_POOL):
        short, long = (peak_memory([*program, *words(1, "own", 1, turns)], os.devnull) for turns in (PART, 10 * PART))
        if short is None or long is None:
            print(f"bytes an entry that isn't cut, {name}: not to be had here")
        else:
            print(f"bytes an entry that isn't cut, in journal and list, {name}: {1024 * (long - short) / (9 * PART * TURN):.0f}")


def memory(most):
    """Peak memory of runs whose journal is cut, short and long."""
    turns = 1_000
    for entries in most // 10, most:
        asked = words(4, "own", max(1, entries // (turns * TURN)), turns)
        for name, program in ("hugepool", PROVED), ("plain", PLAIN_POOL):
            peak = peak_memory([*program, *asked], os.devnull)
            told = "not to be had here" if peak is None else f"{peak} KiB"
            print(f"peak memory of {name}, {entries} entries, 4 threads, cut every {turns * TURN}: {told}", flush=True)


if len(sys.argv) > 2 or not all(word.isdecimal() for word in sys.argv[1:]):
    sys.exit("bench: the most entries are one number")
prepare()
speeds()
waiting()
journal_costs()
memory(int(sys.argv[1]) if len(sys.argv) > 1 else 10_000_000)
P
