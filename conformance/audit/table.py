#!/usr/bin/env python3
"""Dumps emulated kernels in scenes, audits each dump, and requires just the findings that are known of that kernel.

usage: table.py [--package P ..] [--scene NAME ..] [--keep FOLDER]

The packages are those of ./kernel (linux-image-cloud-amd64, /stable and /experimental unless named); what is fetched is kept.
The last line is 'N passed, M failed'. Status: 0 all as required; 1 not; 2 it could not run.
"""
from __future__ import annotations

import argparse
import json
import re
import subprocess
import sys
import tempfile
import time
from dataclasses import dataclass, field
from pathlib import Path

HERE = Path(__file__).resolve().parent
TOP = HERE.parent.parent
sys.path.insert(0, str(HERE.parent))

from kernel import kernels  # noqa: E402
from kernel.audit.command import symbols_of  # noqa: E402
from kernel.problem import Problem  # noqa: E402

PACKAGES = ("linux-image-cloud-amd64", "linux-image-cloud-amd64/stable", "linux-image-cloud-amd64/experimental")
REPORTS = TOP / "docs" / "reports"
# what is lost by a race of the reports, and what a page outside of the reserve map shows
LOST, OUTSIDE = {"reserve"}, {"reserve", "marked", "size"}


@dataclass(frozen=True)
class Scene:
    """What the guest does, and which clauses have findings then: of kernels from some release on, if it says so."""

    name: str
    job: str
    wrong: frozenset[str] = frozenset()
    since: tuple[int, ...] = ()
    before: tuple[int, ...] = (999,)
    programs: tuple[str, ...] = ()
    words: tuple[str, ...] = field(default=())
    # calls go on, so that what is wrong has to be within what they owe
    goes_on: bool = False
    may_be: frozenset[str] = frozenset()


SCENES = (
    Scene("plain", "exec scene pages 48 plain"),
    Scene("cut", "exec scene pages 48 plain cut"),
    Scene("race", "reserve-count-race commit 100; exec scene pages 48 plain", frozenset(LOST), programs=("reserve-count-race",)),
    Scene("back-out", "reserve-count-back-out 100; exec scene pages 48 plain", frozenset(LOST), programs=("reserve-count-back-out",)),
    Scene("outside", "exec scene pages 48 plain outside", frozenset(OUTSIDE)),
    Scene("refused", "exec scene pages 48 plain refused", frozenset({"used"}), since=(6, 16), before=(7, 4)),
    Scene("surplus", "exec scene pages 48 plain surplus"),
    Scene("parts", "exec scene pages 64 plain groups split"),
    Scene("poison", "exec scene pages 64 plain poison"),
    Scene("nodes", "exec scene pages 48 plain", words=("--qemu=-object memory-backend-ram,id=a,size=384M -object memory-backend-ram,id=b,size=384M "
          "-numa node,nodeid=0,cpus=0,memdev=a -numa node,nodeid=1,cpus=1,memdev=b",)),
    Scene("vmemmap", "exec scene pages 48 plain", words=("--append=hugetlb_free_vmemmap=on",)),
    Scene("giant", "exec scene giant", words=("--memory=6144", "--append=hugepagesz=1G hugepages=2")),
    Scene("busy", "exec scene pages 64 plain busy", goes_on=True, may_be=frozenset(LOST | OUTSIDE)),
)


def release(name: str) -> tuple[int, ...]:
    return tuple(int(it) for it in re.match(r"\d+(\.\d+)*", name)[0].split("."))


@dataclass
class Row:
    """What an audit said of a scene on a kernel."""

    scene: Scene
    kernel: str
    status: int = 2
    text: str = ""
    resv: str = ""
    findings: list[dict[str, str]] = field(default_factory=list)
    calls: int = 0
    seconds: float = 0.0
    # of hugepool audit, where it is there
    differences: list[str] = field(default_factory=list)

    def wrong(self) -> set[str]:
        return {it["clause"] for it in self.findings if not it["owed"]}

    def required(self) -> frozenset[str]:
        it = self.scene
        return it.wrong if it.since <= release(self.kernel) < it.before else frozenset()

    def is_right(self) -> bool:
        if self.status == 2 or self.differences:
            return False
        return self.wrong() <= self.scene.may_be if self.scene.goes_on else self.wrong() == self.required() and not self.calls

    def line(self) -> str:
        owed = sorted({it["clause"] for it in self.findings if it["owed"]})
        said = f"wrong: {', '.join(sorted(self.wrong()))}" if self.wrong() else "ok"
        said += f"; owed: {', '.join(owed)}" if owed else ""
        said += f"; {self.calls} calls in flight" if self.calls else ""
        said += "; hugepool audit differs" if self.differences else ""
        return f"{'passed' if self.is_right() else 'FAILED'}  {self.kernel:26} {self.scene.name:9} {self.resv:10} {said} ({self.seconds:.1f} s)"


def audited(row: Row, dump: Path, symbols: Path) -> None:
    """Has ./kernel audit read a dump."""
    began = time.monotonic()
    said = dump.with_suffix(".json")
    ran = subprocess.run([TOP / "kernel", "audit", "--core", dump, "--vmlinux", symbols, "--json", said], capture_output=True, text=True, check=False)
    row.seconds, row.status, row.text = time.monotonic() - began, ran.returncode, ran.stdout + ran.stderr
    if ran.returncode in (0, 1):
        told = json.loads(said.read_text(encoding="utf-8"))
        pools = [it for it in told["state"]["pools"] if it["counts"]["nr"] or it["counts"]["resv"]]
        row.resv = " ".join(f"{it['counts']['resv']}={told['recomputed'][it['name']]['all']}" for it in pools)
        row.findings, row.calls, row.differences = told["findings"], len(told["state"]["calls"]), told["compared"]["differences"]


def shown(scene: Scene, image: Path, symbols: Path, room: Path, keep: Path | None) -> Row:
    row = Row(scene, symbols.name.removeprefix("vmlinux-"))
    dump = (keep or room) / f"{row.kernel}.{scene.name}"
    programs = [word for name in scene.programs for word in ("--program", REPORTS / f"{name}.c")]
    ran = subprocess.run([sys.executable, HERE / "scenes.py", "--kernel", image, "--dump", dump, "--job", scene.job, *programs, *scene.words],
                         capture_output=True, text=True, check=False)
    if ran.returncode:
        row.text = ran.stderr or ran.stdout
        return row
    audited(row, dump, symbols)
    if keep is None:
        dump.unlink()
    return row


def main() -> int:
    words = argparse.ArgumentParser(description=__doc__, formatter_class=argparse.RawDescriptionHelpFormatter)
    words.add_argument("--package", nargs="+", default=PACKAGES, metavar="P")
    words.add_argument("--scene", nargs="+", default=[it.name for it in SCENES], choices=[it.name for it in SCENES], metavar="NAME")
    words.add_argument("--keep", type=Path, metavar="FOLDER", help="keeps the dumps there")
    options = words.parse_args()
    failed = passed = 0
    try:
        for package in options.package:
            image, symbols = kernels.image_of(package), symbols_of(package)
            for scene in (it for it in SCENES if it.name in options.scene):
                with tempfile.TemporaryDirectory(prefix="table-") as room:
                    row = shown(scene, image, symbols, Path(room), options.keep)
                print(row.line(), flush=True)
                passed, failed = passed + row.is_right(), failed + (not row.is_right())
                if not row.is_right():
                    print("\n".join(f"    {line}" for line in row.text.splitlines()[-45:]), flush=True)
    except Problem as why:
        print(f"table: {why}", file=sys.stderr)
        return 2
    print(f"table: {passed} passed, {failed} failed")
    return 1 if failed else 0


if __name__ == "__main__":
    sys.exit(main())
