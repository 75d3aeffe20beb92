"""What builds of a program share: the files beside it (what it was built from, a lock meanwhile), signals, and a line that shows progress.

`PROGRAM.begun` lists the folders of sources that there were when the build began, and is as old as that: ./hugepool compares it with
the sources as they are. It is there only where a build ended well.
"""
from __future__ import annotations

import fcntl
import os
import signal
import sys
import time
from contextlib import contextmanager
from pathlib import Path
from typing import Callable, Iterable, Iterator, TextIO

TOP = Path(__file__).resolve().parent.parent
INTERRUPTED, FAILED = 130, 126


class BuildFailed(Exception):
    """A build that failed. Its text says why."""


class Interrupted(Exception):
    """A signal asked the build to stop."""


class Signals:
    """The signals that ask a build to stop, SIGINT, SIGTERM and SIGHUP, also where the caller ignores them.

    They are noted, and `look` raises them: it is called where every process that was begun is known to whoever has to end it. During a wait
    in which there is no process, `raising` has them raised at once.
    """

    def __init__(self) -> None:
        self.is_noted = self.is_raising = False

    def catch(self) -> None:
        for number in (signal.SIGINT, signal.SIGTERM, signal.SIGHUP):
            signal.signal(number, self.note)

    def note(self, _number: int, _frame: object) -> None:
        self.is_noted = True
        if self.is_raising:
            raise Interrupted

    def look(self) -> None:
        if self.is_noted:
            raise Interrupted

    @contextmanager
    def raising(self) -> Iterator[None]:
        self.look()
        self.is_raising = True
        try:
            yield
        finally:
            self.is_raising = False


SIGNALS = Signals()


class Line:
    """A line that shows how far a long task is: on a terminal it changes in place each second, elsewhere there is a new one each 15 s."""

    def __init__(self, name: str = "hugepool", out: TextIO | None = None) -> None:
        self.name, self.out = name, out or sys.stderr
        self.is_terminal = self.out.isatty()
        self.pause = 1.0 if self.is_terminal else 15.0
        self.next = time.monotonic()

    def show(self, text: Callable[[], str]) -> None:
        """Shows the text, which isn't made where something was shown a moment ago."""
        if time.monotonic() < self.next:
            return
        self.next = time.monotonic() + self.pause
        start, end = ("\r\033[K", "") if self.is_terminal else ("", "\n")
        print(f"{start}{self.name}: {text()}", end=end, file=self.out, flush=True)

    def clear(self) -> None:
        """Makes room for what is printed next: an empty line on a terminal, or a pause in a log."""
        if self.is_terminal:
            print("\r\033[K", end="", file=self.out, flush=True)
        else:
            self.next = time.monotonic() + self.pause


def say(text: str) -> None:
    print(f"hugepool: {text}", file=sys.stderr, flush=True)


@contextmanager
def marked(program: Path, moment: float, sources: str, words: Iterable[str]) -> Iterator[None]:
    """Marks the program as built from these sources where the block ends well, and keeps other calls that build it waiting. What is written
    meanwhile is newer than the mark. Where another call has built it since that moment, it begins anew with the launcher, which finds out
    whether that is current."""
    program.parent.mkdir(parents=True, exist_ok=True)
    with open(program.with_name(f"{program.name}.lock"), "w", encoding="utf-8") as lock:
        try:
            fcntl.flock(lock, fcntl.LOCK_EX | fcntl.LOCK_NB)
        except BlockingIOError:
            say(f"another call is building {program.name}; waiting for it")
            with SIGNALS.raising():
                fcntl.flock(lock, fcntl.LOCK_EX)
        marker = program.with_name(f"{program.name}.begun")
        if marker.exists() and marker.stat().st_ctime > moment:
            os.execv(TOP / "hugepool", [str(TOP / "hugepool"), *words])
        beginning = marker.with_suffix(".next")
        marker.unlink(missing_ok=True)
        beginning.write_text(f"{sources}\n", encoding="utf-8")
        try:
            yield
            beginning.replace(marker)
        finally:
            beginning.unlink(missing_ok=True)
