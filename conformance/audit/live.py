#!/usr/bin/env python3
"""Audits emulated kernels from within, by /proc/kcore: plain, with each planted error, as another user, and locked down.

usage: live.py [--package P ..] [--verbose]

The guest has this machine's Python and drgn, and the symbols. The last line is 'N passed, M failed'. Status: 0 all as required; 1 not;
2 it could not run.
"""
from __future__ import annotations

import argparse
import re
import shutil
import subprocess
import sys
import tempfile
from pathlib import Path

from scenes import add_libraries, add_program, add_sources, parser as scene_parser, running
from table import PACKAGES
from kernel import kernels
from kernel.audit.command import symbols_of
from kernel.problem import Problem

PYTHON, LIBRARY, DRGN = Path("/usr/bin/python3.11"), Path("/usr/lib/python3.11"), Path("/usr/lib/python3/dist-packages")
# what is run, and the status that it has to end with
RUNS = (
    ("plain", "python3 -m kernel audit --vmlinux $symbols", 0),
    ("plants", "python3 conformance/audit/plants.py --vmlinux $symbols", 0),
    ("without symbols", "python3 -m kernel audit --without-symbols", 0),
    ("another user", "python3 -c 'import os; os.setuid(1); os.execv(\"/bin/python3\", \"python3 -m kernel audit --vmlinux '$symbols'\".split())'", 2),
    ("no symbols", "python3 -m kernel audit", 2),
    ("locked down", "mount -t securityfs s /sys/kernel/security; echo confidentiality > /sys/kernel/security/lockdown; "
                    "python3 -m kernel audit --vmlinux $symbols", 2),
)


def guest(symbols: Path, room: Path) -> Path:
    """A tree with Python, drgn, the symbols, and what is audited with."""
    tree = room / "tree"
    add_program(tree, PYTHON)
    (tree / "bin" / "python3").symlink_to(PYTHON.name)
    shutil.copytree(LIBRARY, tree / LIBRARY.relative_to("/"), ignore=shutil.ignore_patterns("test", "__pycache__", "idlelib", "config-*", "ensurepip"))
    shutil.copytree(DRGN / "drgn", tree / DRGN.relative_to("/") / "drgn", ignore=shutil.ignore_patterns("__pycache__"))
    for path in (*LIBRARY.glob("lib-dynload/*.so"), *DRGN.glob("_drgn*.so")):
        (tree / path.parent.relative_to("/")).mkdir(parents=True, exist_ok=True)
        shutil.copy(path, tree / path.relative_to("/"))
        add_libraries(tree, path)
    add_sources(tree)
    (tree / "tmp").mkdir()
    shutil.copy(symbols, tree / symbols.name)
    return tree


def job(symbols: Path) -> str:
    lines = ["scene pages 48 plain > /said 2>&1 &", "until grep -q 'scene: ready' /said; do sleep 1; done", "cat /said", f"symbols=/{symbols.name}",
             "mkdir -p /usr/bin; ln -s /bin/python3 /usr/bin/python3",
             "cd /kirvessa; export PYTHONPATH=/kirvessa/conformance PYTHONDONTWRITEBYTECODE=1 HOME=/tmp"]
    runs = (f"echo 'live: begins {name}'; {command}; echo \"live: {name} ended with $?\"" for name, command, _ in RUNS)
    return "\n".join([*lines, *runs, "echo live: all ended"])


def shown(package: str, is_verbose: bool) -> tuple[int, int]:
    """How many runs ended as they have to, and how many not."""
    image, symbols = kernels.image_of(package), symbols_of(package)
    with tempfile.TemporaryDirectory(prefix="live-") as name:
        room = Path(name)
        words = scene_parser().parse_args(["--kernel", str(image), "--job", job(symbols), "--tree", str(guest(symbols, room)), "--memory", "4096",
                                           "--until", "live: all ended", "--seconds", "3600", *(["--verbose"] if is_verbose else [])])
        with running(words, room):
            console = (room / "console").read_text(errors="replace").replace("\r", "")
    passed = 0
    for what, _, status in RUNS:
        found = re.search(rf"live: begins {what}\n(.*?)live: {what} ended with (\d+)\n", console, re.DOTALL)
        lines = found[1].strip().splitlines() if found else []
        is_right = found is not None and int(found[2]) == status and (status != 2 or len(lines) == 1)
        passed += is_right
        print(f"{'passed' if is_right else 'FAILED'}  {symbols.name} {what}: {lines[-1] if lines else ''}", flush=True)
        if not is_right:
            print("\n".join(f"    {line}" for line in lines[-25:]), flush=True)
    return passed, len(RUNS) - passed


def main() -> int:
    words = argparse.ArgumentParser(description=__doc__, formatter_class=argparse.RawDescriptionHelpFormatter)
    words.add_argument("--package", nargs="+", default=PACKAGES, metavar="P")
    words.add_argument("--verbose", action="store_true")
    options = words.parse_args()
    try:
        found = [shown(package, options.verbose) for package in options.package]
    except (Problem, OSError, subprocess.CalledProcessError) as why:
        print(f"live: {why}", file=sys.stderr)
        return 2
    passed, failed = (sum(it[k] for it in found) for k in (0, 1))
    print(f"live: {passed} passed, {failed} failed")
    return 1 if failed else 0


if __name__ == "__main__":
    sys.exit(main())
