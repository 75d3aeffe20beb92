#!/usr/bin/env python3
"""Says of recordings how many end with a reserve count that is right, too low or too high.

usage: lost.py [RECORDING ..]

Without words it reads all that are in recordings/, but for those of repaired kernels. A count at rest is compared with the reserved
indices less the pages: the law of crates/hp_linux_laws, by which it may be too low and never too high. Status: 0 some is too low and none
too high, 1 it isn't so.
"""
from __future__ import annotations

import argparse
import signal
import sys
from pathlib import Path

from recordings import error_at_rest, recordings

HERE = Path(__file__).resolve().parent


def main() -> int:
    parser = argparse.ArgumentParser(description=__doc__.split("\n")[0])
    parser.add_argument("recordings", nargs="*", type=Path)
    files = parser.parse_args().recordings or sorted(it for it in (HERE / "recordings").rglob("*.bin.xz") if it.parent.name != "repaired")
    try:
        errors = [error_at_rest(run) for file in files for run in recordings(file)]
    except OSError as why:
        print(f"lost.py: {why}", file=sys.stderr)
        return 2
    low, high = sum(it < 0 for it in errors), sum(it > 0 for it in errors)
    print(f"{len(errors)} recordings: the count at rest is right in {len(errors) - low - high}, too low in {low}, too high in {high}")
    results = [low > 0, high == 0]
    print(f"lost: {results.count(True)} passed, {results.count(False)} failed")
    return 0 if all(results) else 1


if __name__ == "__main__":
    signal.signal(signal.SIGPIPE, signal.SIG_DFL)
    sys.exit(main())
