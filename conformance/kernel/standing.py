"""An emulated machine that stays: it is asked again and again, and goes back where its kernel has lost count."""
from __future__ import annotations

import json
import os
import re
import shutil
import socket
import subprocess
import tempfile
import time
from dataclasses import dataclass, field
from pathlib import Path
from typing import Callable

from compare import Script
from kernel.console import Console, text_at
from kernel.kernels import WITH_US, Kernel, last_tries, odd, reason, stop
from kernel.problem import Problem
from kernel.suites import text_of

# it is looked so often whether a machine has answered, in seconds
LOOK = 0.05
# the name of the state behind the boot
STATE = "booted"
# what the recorder ends with where the kernel has lost count, and scripts are left
DONE, COUNT_LOST = 0, 3


def can_stay(kernel: Kernel) -> bool:
    """Whether a machine of this kernel can stay: its state is kept by QEMU, in a file that qemu-img makes."""
    return bool(kernel.staying) and shutil.which("qemu-img") is not None


@dataclass
class Standing:
    """A machine of a kernel, as long as it is entered (with)."""

    kernel: Kernel
    room: Path = Path()
    ran: subprocess.Popen[bytes] | None = None
    # how often it was booted, and went back
    boots: int = 0
    returns: int = 0
    # how much of what it recorded was read
    read: int = 0
    folders: list[tempfile.TemporaryDirectory[str]] = field(default_factory=list)

    def __enter__(self) -> Standing:
        self.folders.append(tempfile.TemporaryDirectory(prefix="kernel-"))
        self.room = Path(self.folders[0].name)
        return self

    def __exit__(self, *_: object) -> None:
        if self.ran is not None:
            stop(self.ran)
        self.folders.pop().cleanup()

    @property
    def folder(self) -> Path:
        return next(self.room.glob("emulate-*"), self.room)

    def boot(self) -> None:
        """Boots the machine, and keeps its state."""
        said = (self.room / "said").open("wb")
        environment = {**os.environ, "TMPDIR": str(self.room)}
        command = [*WITH_US, *self.kernel.staying]
        nothing = subprocess.DEVNULL
        self.ran = subprocess.Popen(command, stdin=nothing, stdout=nothing, stderr=said, env=environment)
        self.boots += 1
        self.await_text(lambda: "record: serves" in text_at(self.folder / "told"))
        self.monitor("savevm " + STATE)

    def monitor(self, words: str) -> None:
        """Has QEMU do something, and waits until it is done."""
        with socket.socket(socket.AF_UNIX) as line:
            line.connect(str(self.folder / "monitor"))
            with line.makefile("rw", encoding="utf-8") as file:
                file.readline()
                command = {"execute": "human-monitor-command", "arguments": {"command-line": words}}
                for asked in ({"execute": "qmp_capabilities"}, command):
                    file.write(json.dumps(asked) + "\n")
                    file.flush()
                    told = next(it for it in map(json.loads, file) if "return" in it or "error" in it)
        if fault := told.get("return") or told.get("error"):
            raise Problem(f"QEMU's {words}: {fault}".strip())

    def await_text(self, is_there: Callable[[], object]) -> None:
        """Waits until something is there; a machine that ended or hangs is a problem."""
        size, heard = 0, time.monotonic()
        while not is_there():
            time.sleep(LOOK)
            before, size = size, len(text_at(self.folder / "recorded"))
            heard = time.monotonic() if size != before else heard
            if self.ran.poll() is not None or time.monotonic() - heard > self.kernel.patience:
                raise Problem(self.why())

    def why(self) -> str:
        console, told = Console(self.room), text_at(self.room / "said") + text_at(self.folder / "told")
        console.look()
        if ended := console.found or odd(told):
            return f"the kernel ended it: {ended.what}"
        if self.ran.poll() is None:
            return f"the machine hasn't answered for {self.kernel.patience} s"
        return reason(told, self.ran.returncode)

    def recorded(self, some: list[Script]) -> tuple[str, int]:
        """What the machine answers to scripts, and the recorder's status."""
        path = self.folder / "recorded"
        with socket.socket(socket.AF_UNIX) as line:
            line.connect(str(self.folder / "asked"))
            line.sendall(f"{text_of(some)}go\n".encode())
            pattern = re.compile(r"(?m)^served (\d+)\n")
            self.await_text(lambda: pattern.search(text_at(path)[self.read :]))
        text = text_at(path)[self.read :]
        found = pattern.search(text)
        self.read += found.end()
        return last_tries(text[: found.start()]), int(found[1])

    def answers(self, some: list[Script]) -> str:
        """What the kernel answers to scripts: behind one that leaves wrong counts the machine goes back."""
        first, rest = "", some
        while True:
            if self.ran is None:
                self.boot()
            text, status = self.recorded(rest)
            first = first + (text.partition("\n")[2] if first else text)
            made = len(re.findall(r"(?m)^script ", text))
            if status not in (DONE, COUNT_LOST):
                raise Problem(self.why())
            if status == COUNT_LOST or not first.rstrip().endswith("resv 0 surp 0"):
                self.monitor("loadvm " + STATE)
                self.returns += 1
            if status == DONE:
                return first
            rest = rest[made:]
