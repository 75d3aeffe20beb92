#!/usr/bin/env bash
# Replays traces that are made here, each of one way to use a pool, in two sizes. A plain Rust program
# makes the same steps with maps and balanced trees, and with nothing proved. Prints whether both
# wrote the same, and a table. It has the processor time for an event of each, their ratio, and how
# our time grows from the smaller size to the larger. Then prints the peak memory of both on the
# largest pool. Needs cargo and python3.
set -euo pipefail
source "$(dirname "${BASH_SOURCE[0]}")/needs.sh" python3
PYTHONPATH=bench exec python3 -B - "$@" <<'P'
import subprocess
import sys
import tempfile
from pathlib import Path
from measure import PLAIN, PROVED, best_of, prepare, print_memory

# a kind of trace, its sizes, and what is in it
KINDS = [
    ("mixed", (8, 64), "calls of all operations by so many tasks"),
    ("touches", (8, 64), "loads and stores by so many tasks on the largest pool"),
    ("descending", (4096, 16384), "so many translations made, from the last page down"),
    ("scattered", (4096, 16384), "so many translations made, in any order"),
    ("punched", (1024, 4096), "so many pages allocated, then punched"),
    ("truncated", (1024, 4096), "so many pages allocated, then truncated"),
    ("mappings", (4096, 16384), "pages allocated, touched and punched among so many mappings"),
    ("replaced", (4096, 16384), "one of so many mappings goes and comes again"),
    ("gaps", (4096, 16380), "every second of so many pages is mapped, and room wanted for two"),
    ("refused-maps", (512, 2048), "maps refused over so many regions"),
    ("regions", (512, 2048), "so many regions made in any order"),
]
ROUNDS = 15


def make(kind, size, folder):
    """A trace of that kind and size, and how many events it has."""
    trace = folder / f"{kind}-{size}"
    with open(trace, "wb") as out:
        subprocess.run([PLAIN / "generate", kind, str(size)], stdout=out, check=True)
    with open(trace, "rb") as lines:
        return trace, sum(1 for _ in lines) - 1


def output(words, trace):
    """What the program writes."""
    with open(trace) as source:
        return subprocess.run(words, stdin=source, capture_output=True, check=True).stdout


prepare()
wanted = set(sys.argv[1:])
unknown = wanted - {kind for kind, _, _ in KINDS}
if unknown:
    sys.exit(f"bench: no kind {', '.join(sorted(unknown))}; there are {', '.join(kind for kind, _, _ in KINDS)}")
programs = {"hugepool": PROVED, "plain": [str(PLAIN / "simulate")]}
print(f"best of {ROUNDS} rounds in turn, nanoseconds of processor time an event; both wrote the same")
print(f"{'trace':12} {'size':>6} {'hugepool':>9} {'plain':>7} {'ratio':>6} {'growth':>7}")
with tempfile.TemporaryDirectory() as name:
    folder = Path(name)
    for kind, sizes, what in KINDS:
        if wanted and kind not in wanted:
            continue
        before = None
        for size in sizes:
            trace, events = make(kind, size, folder)
            if output(PROVED, trace) != output(programs["plain"], trace):
                sys.exit(f"bench: the two wrote different lines on the trace {kind} {size}")
            ours, plain = (1e9 * seconds / events for seconds in best_of(trace, programs.values(), ROUNDS))
            growth = f"{ours / before:7.2f}" if before else ""
            print(f"{kind:12} {size:6} {ours:9.0f} {plain:7.0f} {ours / plain:6.2f} {growth}", flush=True)
            before = ours
        print(f"  {what}")
    largest = make("touches", 64, folder)[0]
    print_memory([(f"{name} on the largest pool", words, largest) for name, words in programs.items()])
P
