"""Emulated machines that are dumped: QEMU's monitor, and dumps by it."""
from __future__ import annotations

import json
import socket
from pathlib import Path

from kernel.audit import elf
from kernel.problem import Problem


class Monitor:
    """QEMU's monitor, by QMP."""

    def __init__(self, path: Path, timeout: float = 600.0) -> None:
        self.socket = socket.socket(socket.AF_UNIX)
        self.socket.settimeout(timeout)
        self.socket.connect(str(path))
        self.lines = self.socket.makefile("r", encoding="utf-8")
        self.lines.readline()
        self.call("qmp_capabilities")

    def call(self, name: str, **arguments: object) -> object:
        self.socket.sendall(json.dumps({"execute": name, "arguments": arguments}).encode())
        while line := self.lines.readline():
            answer = json.loads(line)
            if "error" in answer:
                raise Problem(f"the emulated machine's monitor: {name}: {answer['error']['desc']}")
            if "return" in answer:
                return answer["return"]
        raise Problem("the emulated machine ended while it was dumped")

    def status(self) -> str:
        """`running`, `guest-panicked`, .."""
        return self.call("query-status")["status"]

    def dump(self, to: Path, **more: object) -> None:
        """Dumps the machine's memory as ELF, with VMCOREINFO."""
        self.call("dump-guest-memory", paging=False, protocol=f"file:{to.resolve()}", **more)
        try:
            elf.add_vmcoreinfo(to)
        except (elf.Torn, OSError) as why:
            raise Problem(f"the dump of the emulated machine: {why}") from why

    def close(self) -> None:
        self.lines.close()
        self.socket.close()
