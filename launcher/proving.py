"""Libraries that are proved side by side: which is begun when, with how many processors, and how many minutes are left.

A library can begin as soon as those below it are built. The longest chain of libraries decides how long it all takes, so the libraries that
stand on it, the urgent ones, share all processors by the prover's own `--jobs`. The others run beside them, one job each: the first and
the last part of each check run on one processor, whatever its jobs.
"""
from __future__ import annotations

import os
import re
import subprocess
import sys
import time
from dataclasses import dataclass, field
from pathlib import Path
from typing import Iterable

from building import Line, SIGNALS

ONE = Path(__file__).with_name("launch.py")
# the seconds by which an urgent library's chain may be shorter than the longest
SLACK = 15.0
# what another job adds to the memory of the first, since it is a copy that shares most of it
MORE_MEMORY = 0.5
# of a proof that takes longer than is known, and doesn't say how far it is, the share that is taken to be done; and the share that is
# done when its first function is
MOST_DONE, READING = 0.85, 0.3
# so many seconds of proofs that went as is known are put beside those of this build
EXPECTED = 120.0
FUNCTIONS = re.compile(r"^so far: (\d+) of (\d+) functions", re.M)
IS_PROVED, BEGUN_WITH_KEPT = ": proved", ": begins with what a check kept in "
PAUSE = 0.25


@dataclass
class Library:
    """A library, or the program: what it stands on, and the processor seconds and the bytes of memory that its first proof takes."""

    name: str
    folder: str
    below: frozenset[str]
    seconds: float
    memory: float
    # the seconds of the longest chain from its beginning to the program's end
    chain: float = 0.0


@dataclass
class Run:
    """A library that is being proved."""

    library: Library
    jobs: int
    process: subprocess.Popen
    log: Path
    # whether nothing was kept of it in its own folder
    is_first: bool
    began: float = field(default_factory=time.monotonic)

    def share(self) -> float:
        """How much of the library is done, as the prover says."""
        said = FUNCTIONS.findall(self.log.read_text(encoding="utf-8", errors="replace"))
        return int(said[-1][0]) / max(int(said[-1][1]), 1) if said else 0.0

    def done(self, pace: float) -> float:
        """The seconds that are done, of what is known: as the prover says, or by the clock."""
        known, clock, share = self.library.seconds, (time.monotonic() - self.began) / pace, self.share()
        if not share:
            return min(clock, known * MOST_DONE)
        said = known * (READING + (1 - READING) * share)
        # (the last functions of a first proof take longest)
        return min(said, clock) if self.is_first else said

    def memory(self) -> float:
        return self.library.memory * (1 + MORE_MEMORY * (self.jobs - 1))


class NotProved(Exception):
    """The library of this name is not proved."""


def with_chains(libraries: Iterable[Library]) -> list[Library]:
    """The libraries, those with the longest chain first. They come with each behind those that it stands on."""
    found = list(libraries)
    for it in reversed(found):
        it.chain = it.seconds + max((above.chain for above in found if it.name in above.below), default=0.0)
    return sorted(found, key=lambda it: -it.chain)


def jobs_of(ready: list[Library], active: list[Library], left: list[Library], processors: int) -> dict[str, int]:
    """How many jobs each library that is ready gets: urgent ones share the processors."""
    longest = max((it.chain for it in [*active, *left]), default=0.0)
    is_urgent = lambda it: it.chain >= longest - SLACK
    urgent = max(1, sum(map(is_urgent, [*active, *ready])))
    return {it.name: max(1, processors // urgent) if is_urgent(it) else 1 for it in ready}


def begin(words: list[str], library: Library, jobs: int, folder: Path) -> Run:
    """Begins to prove a library. What the prover prints goes to a file of the folder."""
    log, is_first = folder / f"{library.name}.log", not Path(library.folder, "out", "incremental").exists()
    with open(log, "wb") as out:
        process = subprocess.Popen(words, cwd=library.folder, stdin=subprocess.DEVNULL, stdout=out, stderr=subprocess.STDOUT)
    return Run(library, jobs, process, log, is_first)


def is_from_nothing(run: Run) -> bool:
    """Whether a proof began with nothing that was kept, here or in a copy, so that what it took is what a first one takes."""
    said = run.log.read_text(encoding="utf-8", errors="replace")
    return run.is_first and IS_PROVED in said and BEGUN_WITH_KEPT not in said


class Proving:
    """The libraries that are left, and those that are being proved."""

    def __init__(self, libraries: list[Library], built: set[str], processors: int, memory: float, logs: Path) -> None:
        self.libraries, self.built, self.processors, self.memory, self.logs = libraries, built, processors, memory, logs
        self.left = [it for it in libraries if it.name not in built]
        self.whole = sum(it.seconds for it in self.left)
        self.runs: dict[int, Run] = {}
        # what each proof from nothing took: processor seconds, and the bytes of its largest process
        self.took: dict[str, tuple[float, int]] = {}
        # of the proofs with several jobs that have ended, the seconds by the clock, and those that were known
        self.clock = self.known = EXPECTED
        self.began, self.line = time.monotonic(), Line()

    def begin_ready(self) -> None:
        """Begins what there are processors and memory for, the longest chain first. Where nothing runs, one does in any case."""
        ready = [it for it in self.left if it.below <= self.built]
        jobs = jobs_of(ready, [run.library for run in self.runs.values()], self.left, self.processors)
        for it in ready:
            fit = self.jobs_that_fit(it, jobs[it.name])
            if len(self.runs) < self.processors and fit:
                self.left.remove(it)
                self.follow(begin([sys.executable, str(ONE), "one", it.folder, str(fit)], it, fit, self.logs))

    def jobs_that_fit(self, library: Library, most: int) -> int:
        """So many jobs of a library fit into the memory that the others leave; one does where nothing else runs."""
        room = self.memory - sum(run.memory() for run in self.runs.values())
        more = int((room / library.memory - 1) / MORE_MEMORY) if room >= library.memory else -1
        return min(most, 1 + more) if more >= 0 else int(not self.runs)

    def follow(self, run: Run) -> None:
        self.runs[run.process.pid] = run

    def reap(self) -> None:
        """Notes each library whose proof has ended."""
        for pid, run in list(self.runs.items()):
            ended, status, used = os.wait4(pid, os.WNOHANG)
            if not ended:
                continue
            del self.runs[pid]
            run.process.returncode = os.waitstatus_to_exitcode(status)
            if run.process.returncode:
                # (a signal may have ended it before this process)
                SIGNALS.look()
                raise NotProved(run.library.name)
            self.built.add(run.library.name)
            if run.jobs > 1:
                self.clock, self.known = self.clock + time.monotonic() - run.began, self.known + run.library.seconds
            if is_from_nothing(run):
                self.took[run.library.name] = used.ru_utime + used.ru_stime, used.ru_maxrss * 1024

    def prove(self) -> None:
        """Proves all that is left. Whatever ends it, no process is left behind."""
        try:
            while self.left or self.runs:
                SIGNALS.look()
                self.begin_ready()
                self.line.show(self.told)
                time.sleep(PAUSE)
                self.reap()
        finally:
            self.end()
            self.line.clear()

    def end(self) -> None:
        """Ends what still runs. The toolchain ends the prover's processes with the one that began them."""
        for run in self.runs.values():
            run.process.terminate()
        for run in self.runs.values():
            run.process.wait()

    def seconds_left(self) -> float:
        """The estimate: what is left at the rate so far; or the longest chain, if that takes longer, at the pace of those before, which had
        several jobs, too."""
        pace = self.clock / self.known
        parts = {run.library.name: run.done(pace) for run in self.runs.values()}
        waiting = [it for it in self.libraries if it.name not in self.built]
        left = sum(it.seconds - parts.get(it.name, 0.0) for it in waiting)
        chain = max(it.chain - parts.get(it.name, 0.0) for it in waiting)
        return max(left * (time.monotonic() - self.began) / max(self.whole - left, 1.0), chain * pace)

    def told(self) -> str:
        """How many crates are proved, how many functions of the others, and how many minutes are left."""
        now = ", ".join(f"{run.library.name} ({run.share():.0%})" for run in self.runs.values())
        minutes = max(1, round(self.seconds_left() / 60))
        return f"{len(self.built)} of {len(self.libraries)} crates proved; proving {now}; about {minutes} min left"
