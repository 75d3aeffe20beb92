"""A recorder for a machine where nothing of this is installed, packed with scripts; and what it brings back."""
from __future__ import annotations

import io
import subprocess
import tarfile
import tempfile
from pathlib import Path

from compare import scripts
from kernel.kernels import RECORD, Kernel, need, reason
from kernel.problem import Problem
from kernel.suites import SUITES, Suite, in_order, read_scripts, scripts_of, text_of

NAME = "kirvessa-recorder"
# (the recorder puts all things back; a suite that it can't record whole isn't kept)
RUN = """#!/bin/sh
# Records what this machine's kernel answers to the scripts, as root, where no huge page of 2 MiB is in use. Nothing is
# installed, and the number of huge pages is put back. Then the folder 'answers' is to be brought back.
cd "$(dirname "$0")" || exit 1
mkdir -p answers
for file in scripts/*; do
    name=${file#scripts/}
    race=
    if grep -Eq '^(race|hold|deny) ' "$file"; then race=--race; fi
    echo "$name" >&2
    ./record $race "$file" > "answers/.$name" || exit
    mv "answers/.$name" "answers/$name"
done
"""


def pack(to: Path, some: list[Suite]) -> None:
    """Writes an archive with the recorder, the scripts of some suites, and what runs them."""
    need("cc")
    with tempfile.TemporaryDirectory(prefix="kernel-") as room:
        built = subprocess.run([RECORD / "build.sh", room], capture_output=True, text=True, check=False)
        if built.returncode:
            raise Problem(f"the recorder can't be compiled: {reason(built.stderr, built.returncode)}")
        files = {"record": (Path(room) / "record").read_bytes(), "run.sh": RUN.encode()}
    for it in some:
        files[f"scripts/{it.name}"] = text_of(in_order(scripts_of(it)) if it.has_races else scripts_of(it)).encode()
    with tarfile.open(to, "w") as archive:
        for name, content in files.items():
            member = tarfile.TarInfo(f"{NAME}/{name}")
            member.size, member.mode = len(content), 0o644 if name.startswith("scripts/") else 0o755
            archive.addfile(member, io.BytesIO(content))


def suites_in(folder: Path) -> tuple[str, ...]:
    """The suites whose answers were brought back."""
    found = tuple(name for name in SUITES if (folder / name).is_file())
    if not found:
        raise Problem(f"{folder} has no answers of a suite: there are {', '.join(SUITES)}")
    return found


def answered(folder: Path) -> Kernel:
    """The kernel of another machine, as far as its answers were brought back."""
    files = {tuple(it.name for it in scripts(folder / name)): folder / name for name in suites_in(folder)}

    def command(asked: Path, _: bool) -> list[str | Path]:
        names = tuple(it.name for it in read_scripts(asked))
        if names not in files:
            raise Problem(f"{folder} has no answers to these scripts")
        return ["cat", files[names]]

    return Kernel(f"the one whose answers are in {folder}", command)
