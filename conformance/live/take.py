#!/usr/bin/env python3
"""Takes the kernel's log out of the file that was the guest's memory.

usage: take.py MEMORY RECORDING
"""
from __future__ import annotations

import struct
import sys

# where the log lies in the guest's memory, and what its head begins with (kernel/hplive.c)
BASE, HEAD, MAGIC, EVENT = 0x2000_0000, 4096, 0x6576696C7068, 48


def main() -> int:
    if len(sys.argv) != 3:
        print("usage: take.py MEMORY RECORDING", file=sys.stderr)
        return 2
    with open(sys.argv[1], "rb") as memory:
        memory.seek(BASE)
        magic, count, lost, size = struct.unpack("<QQQQ", memory.read(32))
        if (magic, size) != (MAGIC, EVENT):
            print("take.py: the guest's memory has no log: did its kernel boot?", file=sys.stderr)
            return 1
        memory.seek(BASE + HEAD)
        with open(sys.argv[2], "wb") as recording:
            recording.write(memory.read(count * EVENT))
    if lost:
        print(f"take.py: the log was full, and {lost} events are lost", file=sys.stderr)
    return 1 if lost else 0


if __name__ == "__main__":
    sys.exit(main())
