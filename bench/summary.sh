#!/usr/bin/env bash
# Explores runs of two scripts on one processor, with a line for each run and with one summary of all:
# 20,000 runs of 4 tasks, of some 245 turns each, and 1,000 runs of 64 tasks. Prints the processor
# time of both, and the ratio of the summary's to that of the lines. Needs cargo, python3 and taskset.
set -euo pipefail
source "$(dirname "${BASH_SOURCE[0]}")/needs.sh" python3 taskset
PYTHONPATH=bench exec python3 -B - <<'P'
import os
import shutil
import tempfile
from pathlib import Path
from measure import PROVED, in_turn, prepare, script_of_tasks

ONE = [shutil.which("taskset"), "-c", str(sorted(os.sched_getaffinity(0))[0])]
OURS = [*ONE, PROVED[0], "explore"]


prepare()
with tempfile.TemporaryDirectory() as folder:
    for frames, tasks, runs in ((8, 4, 20_000), (4_096, 64, 1_000)):
        path = Path(folder) / str(tasks)
        path.write_text(script_of_tasks(frames, tasks, 2))
        options = ["--runs", str(runs), "--deny", "50", "--kill", "1"]
        in_turn(f"{tasks} tasks, {runs} runs", path, {"summary": [*OURS, *options, "--summary"], "lines": [*OURS, *options]}, 7)
P
