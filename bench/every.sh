#!/usr/bin/env bash
# Searches all schedules of scripts for an answer that none gives, for a count at the end that none has
# (which needs fewer states), and then for all their endings, on one processor: scripts of examples/, and
# three and four tasks that map one file and store into it.
# Prints the processor time, the peak memory, and the states by the progress line, which is shown after
# half a second. Then the largest search by the clock, on one processor and on all, in turn.
# Needs cargo, python3 and taskset.
set -euo pipefail
source "$(dirname "${BASH_SOURCE[0]}")/needs.sh" python3 taskset
PYTHONPATH=bench exec python3 -B - <<'P'
import os
import pty
import re
import shutil
import subprocess
import sys
import tempfile
import time
from pathlib import Path
from statistics import median
from measure import PROVED, peak_memory, prepare

NAMES = ("truncate-against-fault", "two-files-one-quota", "store-against-map", "balloon-against-guest", "two-files-short-pool",
    "truncate-against-store")
ONE = [shutil.which("taskset"), "-c", str(sorted(os.sched_getaffinity(0))[0])]
ROUNDS = 5
# what is searched, and the status
SEARCHES = {
    "answer": ([PROVED[0], "find", "--every", "--answer", "1:1=segv"], 1),
    "count": ([PROVED[0], "find", "--every", "--final", "free=999"], 1),
    "endings": ([PROVED[0], "explore", "--every", "--states", "4000000"], 0),
}


def backends(tasks):
    """Tasks that map one file, and store into it."""
    lines = [f"pool 8 1 8 {tasks}"]
    for task in range(1, tasks + 1):
        lines += [f"begin {task} map 0 0 4", f"begin {task} store {task % 4} {task}"]
    return "\n".join(lines) + "\n"


def searched(search, wanted, path):
    """The seconds of processor time, and the states that the terminal showed last."""
    terminal, error = pty.openpty()
    streams = [(os.POSIX_SPAWN_OPEN, 0, path, os.O_RDONLY, 0), (os.POSIX_SPAWN_OPEN, 1, os.devnull, os.O_WRONLY, 0)]
    words = [*ONE, *search]
    child = os.posix_spawn(words[0], words, os.environ, file_actions=[*streams, (os.POSIX_SPAWN_DUP2, error, 2)])
    os.close(error)
    shown = b""
    try:
        while some := os.read(terminal, 65536):
            shown = shown[-200:] + some
    except OSError:
        # a terminal that its last writer closed
        pass
    os.close(terminal)
    _, status, used = os.wait4(child, 0)
    if os.waitstatus_to_exitcode(status) != wanted:
        sys.exit(f"bench: the search of {path} failed")
    states = re.findall(rb"(\d+) states", shown)
    return used.ru_utime + used.ru_stime, int(states[-1]) if states else None


def clocked(words, wanted, path):
    """The seconds that a search takes by the clock."""
    with open(path, "rb") as script:
        began = time.monotonic()
        if subprocess.run(words, stdin=script, stdout=subprocess.DEVNULL, stderr=subprocess.DEVNULL).returncode != wanted:
            sys.exit(f"bench: the search of {path} failed")
        return time.monotonic() - began


prepare()
with tempfile.TemporaryDirectory() as folder:
    scripts = {name: Path("examples") / f"{name}.script" for name in NAMES}
    for tasks in (3, 4):
        path = scripts[f"{tasks} tasks that store into one file"] = Path(folder) / str(tasks)
        path.write_text(backends(tasks))
    print(f"{'script':36} {'':7} {'seconds':>7} {'KiB':>8} {'states':>9}")
    for name, path in scripts.items():
        for what, (search, wanted) in SEARCHES.items():
            seconds, states = searched(search, wanted, path)
            memory = peak_memory(search, path)
            told = ["-" if it is None else it for it in (memory, states)]
            print(f"{name:36} {what:7} {seconds:7.2f} {told[0]:>8} {told[1]:>9}", flush=True)
    for what, (search, wanted) in SEARCHES.items():
        rounds = [[clocked(words, wanted, path) for words in ([*ONE, *search], search)] for _ in range(ROUNDS)]
        one, all_of_them = (median(it) for it in zip(*rounds))
        print(f"{name} by the clock, {what}, median of {ROUNDS} rounds in turn: {one:.2f} s on one processor, {all_of_them:.2f} s on"
            f" {len(os.sched_getaffinity(0))}: {one / all_of_them:.2f} times as fast", flush=True)
P
