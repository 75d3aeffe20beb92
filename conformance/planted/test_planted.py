#!/usr/bin/env python3
"""Looks whether the planted errors, and the reports' patches, apply to Debian's sources of Linux, where these are installed.

The README has to list all planted errors of each version, and none as missed.
"""
from __future__ import annotations

import subprocess
import sys
import tarfile
import tempfile
from pathlib import Path

FOLDER = Path(__file__).resolve().parent
SOURCES = Path("/usr/src")
# the versions for which errors are planted
VERSIONS = sorted(path.name for path in FOLDER.iterdir() if any(path.glob("*.patch")))
# the reports' patches, in a folder for each version, each on top of those before
REPORTED = FOLDER.parent.parent / "docs" / "reports" / "patches"
# the files that the patches are about
FILES = ("mm/hugetlb.c", "fs/hugetlbfs/inode.c")


def unpack(archive: Path, to: Path) -> Path:
    """The files of a source that patches are about, and the one that has its version."""
    name = archive.name.removesuffix(".tar.xz")
    wanted = {f"{name}/{it}" for it in (*FILES, "Makefile")}
    with tarfile.open(archive) as source:
        for member in source:
            if member.name in wanted:
                source.extract(member, to)
                wanted.discard(member.name)
            if not wanted:
                break
    return to / name


def faults_of_table(version: str) -> list[str]:
    """The patches that the README's table of a version lacks, has too much, or has as missed."""
    text = (FOLDER.parent / "README.md").read_text(encoding="utf-8")
    table = text.partition(f"<!-- planted {version}: begin -->")[2].partition(f"<!-- planted {version}: end -->")[0]
    rows = [line for line in table.splitlines() if line.startswith("| `")]
    listed = {line.split("`")[1] for line in rows}
    patches = {path.stem for path in (FOLDER / version).glob("*.patch")}
    missed = [f"{version}: {line.split('`')[1]} was missed" for line in rows if "missed" in line]
    return missed + [f"{version}: {it} is in the table, or a patch, alone" for it in sorted(listed ^ patches)]


def faults_of_patches(version: str) -> list[str]:
    """What doesn't apply; nothing where the source isn't there."""
    archive = SOURCES / f"linux-source-{version}.tar.xz"
    if not archive.is_file():
        print(f"(the package linux-source-{version} isn't installed: whether the patches apply isn't looked at)")
        return []
    with tempfile.TemporaryDirectory(prefix="planted-") as room:
        tree = unpack(archive, Path(room))
        planted = subprocess.run([sys.executable, "-B", FOLDER / "try.py", tree, "--check"], check=False)
        words = ["patch", "--strip=1", "--silent", "--force"]
        reported = [subprocess.run([*words, f"--input={it}"], cwd=tree, check=False) for it in sorted((REPORTED / version).glob("*.patch"))]
    found = [f"{version}: a planted error doesn't apply"] if planted.returncode else []
    is_whole = reported and not any(it.returncode for it in reported)
    return found if is_whole else [*found, f"{version}: a patch of the reports doesn't apply"]


def main() -> int:
    parts = [faults(version) for version in VERSIONS for faults in (faults_of_table, faults_of_patches)]
    print("".join(f"  {it}\n" for part in parts for it in part), end="")
    failed = sum(map(bool, parts))
    print(f"planted errors: {len(parts) - failed} passed, {failed} failed")
    return 1 if failed else 0


if __name__ == "__main__":
    sys.exit(main())
