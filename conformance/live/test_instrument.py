#!/usr/bin/env python3
"""Checks that instrument.py refuses a kernel that it doesn't know, names each place, and writes nothing.

The tree is made up: it has some functions of those names, and a statement where a line is to go, or not.
"""
from __future__ import annotations

import subprocess
import sys
import tempfile
from pathlib import Path
from typing import Iterator

INSTRUMENT = Path(__file__).resolve().parent / "kernel" / "instrument.py"
HUGETLB = """#include <linux/hugetlb.h>

static long region_add(struct resv_map *resv, long f, long t)
{
	add = add_reservation_in_range(resv, f, t);
	return add;
}

static void return_unused_surplus_pages(struct hstate *h, unsigned long unused)
{
	h->resv_huge_pages -= unused_resv_pages;
	h->resv_huge_pages -= unused_resv_pages;
}
"""
FILES = {"mm/hugetlb.c": HUGETLB, "mm/Makefile": "obj-y += mmap.o\n", "fs/hugetlbfs/inode.c": "#include <linux/hugetlb.h>\n"}
# what has to be said: a place that is gone, one that is there twice, a function that is gone
WANTED = (
    "mm/hugetlb.c:3: region_add: 0 matches, and not 1, of spin_unlock",
    "mm/hugetlb.c:9: return_unused_surplus_pages: 2 matches, and not 1, of h->resv_huge_pages",
    "mm/hugetlb.c: there is no function region_del, for the line ",
    "fs/hugetlbfs/inode.c: there is no function hugetlbfs_punch_hole, for the line ",
)
# and of a repair: a raise that is conditional, and a truncation's last step
REPAIR_WANTED = (
    "mm/hugetlb.c: there is no function hugetlb_fix_reserve_counts, for the line hp_raise(h, 1);",
    "fs/hugetlbfs/inode.c: there is no function remove_inode_hugepages, for the line hp_remove_tail(",
)


def make_tree(tree: Path) -> None:
    for name, text in FILES.items():
        file = tree / name
        file.parent.mkdir(parents=True, exist_ok=True)
        file.write_text(text, encoding="utf-8")


def results(tree: Path) -> Iterator[tuple[bool, str]]:
    make_tree(tree)
    ran = subprocess.run([sys.executable, INSTRUMENT, tree], capture_output=True, text=True, check=False)
    yield ran.returncode == 1, f"an unknown kernel has status 1, and not {ran.returncode}"
    for it in WANTED:
        yield it in ran.stderr, f"said is: {it}"
    known = "hp_log(HP_ADD"
    yield known not in ran.stderr, "a place that is as it has to be isn't named"
    written = [name for name, text in FILES.items() if (tree / name).read_text(encoding="utf-8") != text]
    yield not written and not (tree / "mm" / "hplive.c").exists(), f"nothing is written ({', '.join(written) or 'none of the files'})"
    ran = subprocess.run([sys.executable, INSTRUMENT, tree, "slots"], capture_output=True, text=True, check=False)
    for it in REPAIR_WANTED:
        yield ran.returncode == 1 and it in ran.stderr, f"said of a repair is: {it}"
    ran = subprocess.run([sys.executable, INSTRUMENT, tree / "mm"], capture_output=True, text=True, check=False)
    yield ran.returncode == 2 and "usage" in ran.stderr, "a folder that is no kernel has status 2"
    ran = subprocess.run([sys.executable, INSTRUMENT, tree, "half"], capture_output=True, text=True, check=False)
    yield ran.returncode == 2 and "usage" in ran.stderr, "a repair that there isn't has status 2"


def main() -> int:
    with tempfile.TemporaryDirectory(prefix="instrument-") as folder:
        done = list(results(Path(folder)))
    for is_good, said in done:
        if not is_good:
            print(f"FAILED: {said}")
    passed = sum(is_good for is_good, _ in done)
    print(f"instrument: {passed} passed, {len(done) - passed} failed")
    return int(passed < len(done))


if __name__ == "__main__":
    sys.exit(main())
