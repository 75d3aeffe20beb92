#!/usr/bin/env python3
"""Dumps emulated kernels again and again while recorded calls run on them, and audits each dump.

usage: during.py [--package P] [--scripts FILE] [--dumps N]

A dump at rest may have no finding but those of --allow; of one that isn't, what is wrong has to be within what its calls owe.
The last line is 'N passed, M failed'. Status: 0 none is wrongly accused; 1 one is; 2 it could not run.
"""
from __future__ import annotations

import argparse
import random
import shutil
import subprocess
import sys
import tempfile
import time
from collections import Counter
from pathlib import Path

from scenes import HERE, parser as scene_parser, running
from table import Row, Scene, audited
from kernel import kernels
from kernel.audit.command import symbols_of
from kernel.audit.emulated import Monitor
from kernel.problem import Problem

JOB = "while true; do record --race /scripts > /dev/null 2> /said || cat /said; done & echo 'scene: ready'; wait"


def room_of(room: Path, scripts: Path) -> Path:
    """What the guest has beside the scene: the recorder and its scripts."""
    subprocess.run([kernels.RECORD / "build.sh", room / "built"], check=True)
    (room / "tree" / "bin").mkdir(parents=True)
    shutil.copy(room / "built" / "record", room / "tree" / "bin" / "record")
    shutil.copy(scripts, room / "tree" / "scripts")
    return room / "tree"


def follow(options: argparse.Namespace, image: Path, symbols: Path, room: Path) -> Counter[str]:
    found: Counter[str] = Counter()
    chance = random.Random(options.seed)
    tree = str(room_of(room, options.scripts))
    words = scene_parser().parse_args(["--kernel", str(image), "--job", JOB, "--tree", tree, "--seconds", "1800"])
    with running(words, room):
        monitor = Monitor(room / "monitor")
        for number in range(options.dumps):
            time.sleep(chance.uniform(0.2, 1.5))
            monitor.dump(room / "dump")
            row = Row(Scene("going", ""), symbols.name.removeprefix("vmlinux-"))
            audited(row, room / "dump", symbols)
            found[verdict(row, set(options.allow))] += 1
            print(f"{number}: {verdict(row, set(options.allow))}: {row.resv}, {row.calls} calls in flight; "
                  + "; ".join(f"{it['clause']}{' (owed)' if it['owed'] else ''}: {it['text']}" for it in row.findings), flush=True)
            if row.status == 2 or row.differences:
                print(row.text, flush=True)
    return found


def verdict(row: Row, allow: set[str]) -> str:
    if row.status == 2 or row.differences:
        return "FAILED to be read" if row.status == 2 else "FAILED, hugepool audit differs"
    where = "in flight" if row.calls else "at rest"
    return f"{where}, {'right' if not row.wrong() else 'allowed' if row.wrong() <= allow else 'FAILED'}{', owed' if any(it['owed'] for it in row.findings) else ''}"


def main() -> int:
    words = argparse.ArgumentParser(description=__doc__, formatter_class=argparse.RawDescriptionHelpFormatter)
    words.add_argument("--package", default="linux-image-cloud-amd64")
    words.add_argument("--scripts", type=Path, default=HERE.parent / "calls-random.txt")
    words.add_argument("--dumps", type=int, default=25)
    words.add_argument("--seed", type=int, default=1)
    words.add_argument("--allow", nargs="*", default=[], metavar="CLAUSE", help="clauses that known issues of this kernel touch")
    options = words.parse_args()
    try:
        image, symbols = kernels.image_of(options.package), symbols_of(options.package)
        with tempfile.TemporaryDirectory(prefix="during-") as room:
            found = follow(options, image, symbols, Path(room))
    except (Problem, OSError, subprocess.CalledProcessError) as why:
        print(f"during: {why}", file=sys.stderr)
        return 2
    print("\n".join(f"{count:4} {what}" for what, count in sorted(found.items())))
    failed = sum(count for what, count in found.items() if "FAILED" in what)
    print(f"during: {sum(found.values()) - failed} passed, {failed} failed")
    return 1 if failed else 0


if __name__ == "__main__":
    sys.exit(main())
