#!/usr/bin/env bash
# Replays 1,000,000 lines `step 1`, each of which is refused, beside a plain Rust loop that only
# parses the same file. Prints the processor time of each, and the peak memory on that file and on one
# a tenth as long. Needs cargo and python3.
set -euo pipefail
source "$(dirname "${BASH_SOURCE[0]}")/needs.sh" python3
PYTHONPATH=bench exec python3 -B - <<'P'
import tempfile
from pathlib import Path
from measure import PLAIN, PROVED, in_turn, prepare, print_memory

prepare()
programs = {"hugepool": PROVED, "plain": [str(PLAIN / "plain")]}
with tempfile.TemporaryDirectory() as folder:
    traces = {}
    for lines in (1_000_000, 100_000):
        traces[lines] = Path(folder) / str(lines)
        traces[lines].write_text("pool 1 1 1 1\n" + "step 1\n" * lines)
    in_turn("1,000,000 refused lines", traces[1_000_000], programs, 15)
    print_memory([(f"hugepool on {lines:,} lines", PROVED, trace) for lines, trace in traces.items()])
P
