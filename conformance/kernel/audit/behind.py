"""Audits an emulated machine behind each race: it is stopped there, dumped, and has to go on."""
from __future__ import annotations

import json
import subprocess
import threading
import time
from contextlib import contextmanager
from dataclasses import dataclass, field
from pathlib import Path
from typing import Iterator

from compare import TOP
from kernel.audit.emulated import Monitor
from kernel.kernels import PAGE
from kernel.problem import Problem

# how often it is looked whether the machine stands still, in seconds
LOOK = 0.05
STOPPED = "guest-panicked"


@dataclass(frozen=True)
class Audited:
    """What an audit said of a dump: the findings by their clauses, the reserve count and what it should be, and what comes back with pages."""

    findings: list[tuple[str, str]]
    has: int
    should: int
    unmarked: int
    calls: list[str]


def read(told: dict, page: int = PAGE) -> Audited:
    """The audit's JSON, of the one pool that the scripts use. Where two audits differ, one of them is wrong, and not the kernel."""
    if told["compared"]["differences"]:
        raise Problem("; ".join(told["compared"]["differences"]))
    pool = next((it for it in told["state"]["pools"] if it["name"] == f"{page}kB"), None)
    if pool is None:
        raise Problem(f"the kernel has no huge pages of {page} KiB")
    files = [file for mount in told["state"]["mounts"] if mount["pool"] == pool["number"] for file in mount["files"]]
    outside = sum(not any(begin <= int(index) < to for begin, to in it["map"]["regions"]) for it in files for index in it["cache"])
    findings = [(it["clause"], it["text"]) for it in told["findings"] if not it["owed"]]
    return Audited(findings, pool["counts"]["resv"], told["recomputed"][pool["name"]]["all"], outside, [it["sign"] for it in told["state"]["calls"]])


@dataclass
class Behind:
    """Audits of one suite, in the order of its races."""

    symbols: Path
    page: int = PAGE
    audits: list[Audited] = field(default_factory=list)
    problem: Problem | None = None

    @contextmanager
    def watching(self, room: Path) -> Iterator[None]:
        """Has a thread look at the machines of a recorder; what went wrong there is raised here."""
        ended = threading.Event()
        thread = threading.Thread(target=self.watch, args=(room, ended), daemon=True)
        thread.start()
        try:
            yield
        finally:
            ended.set()
            thread.join()
        if self.problem:
            raise self.problem

    def watch(self, room: Path, ended: threading.Event) -> None:
        while not ended.is_set():
            time.sleep(LOOK)
            for path in room.glob("emulate-*/monitor"):
                self.follow(path, room, ended)

    def follow(self, path: Path, room: Path, ended: threading.Event) -> None:
        """Looks at one machine until it ends. An audit that can't be made is kept as the problem; the machine goes on all the same."""
        try:
            monitor = Monitor(path)
        except (OSError, ValueError):
            return
        try:
            while not ended.is_set():
                if monitor.status() == STOPPED:
                    self.look(monitor, room)
                    monitor.call("cont")
                time.sleep(LOOK)
        except (OSError, ValueError, Problem):
            pass
        finally:
            monitor.close()

    def look(self, monitor: Monitor, room: Path) -> None:
        dump = room / "dump"
        try:
            monitor.dump(dump)
            self.audits.append(audit_of(dump, self.symbols, self.page))
        except (OSError, ValueError, LookupError, Problem) as why:
            self.problem = self.problem or Problem(f"the audit behind race {len(self.audits) + 1}: {why}")
        finally:
            dump.unlink(missing_ok=True)


def audit_of(dump: Path, symbols: Path, page: int) -> Audited:
    """Audits a dump in a process of its own, since drgn may be there for another Python alone."""
    said = dump.with_suffix(".json")
    command = [TOP / "kernel", "audit", "--core", dump, "--vmlinux", symbols, "--json", said]
    ran = subprocess.run(command, capture_output=True, text=True, check=False)
    if ran.returncode not in (0, 1):
        raise Problem(ran.stderr.strip().removeprefix("kernel: "))
    return read(json.loads(said.read_text(encoding="utf-8")), page)
