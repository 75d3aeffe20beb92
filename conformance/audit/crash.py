#!/usr/bin/env python3
"""Has an emulated kernel crash in a scene, and keeps the dump that kdump's second kernel makes of it.

usage: crash.py --kernel VMLINUZ --dump FILE [--level N] [OPTION ..]    the options are those of scenes.py

It takes kexec and makedumpfile from this machine (packages: kexec-tools, makedumpfile), or the latter from --files: a kernel needs one
that knows it. The dump comes by a serial line.
Status: 0 dumped; 2 it could not.
"""
from __future__ import annotations

import argparse
import gzip
import re
import shutil
import subprocess
import sys
import tempfile
from pathlib import Path

from scenes import add_program, archived, parser, running
from kernel.problem import Problem

# the first process of the second kernel
INIT = """#!/bin/sh
export PATH=/bin
/bin/busybox --install -s /bin
/bin/busybox mkdir -p /proc /dev /tmp
mount -t proc proc /proc; mount -t devtmpfs dev /dev; mount -t tmpfs -o size=100% tmp /tmp
exec > /dev/ttyS0 2>&1
makedumpfile --message-level 5 {format} -d {level} /proc/vmcore /tmp/dump || {{ echo "scene: makedumpfile failed"; sleep 1000000; }}
stty -F /dev/ttyS1 115200 raw -echo
{pack} /tmp/dump > /dev/ttyS1
echo "crash: wrote $(stat -c %s /tmp/dump) bytes"; sleep 1000000
"""
JOB = """{job} > /said 2>&1 &
until grep -q 'scene: ready' /said; do sleep 1; done
cat /said
kexec -p /crash/kernel --initrd=/crash/initramfs --append='console=ttyS0 nr_cpus=1 irqpoll reset_devices quiet no_timer_check' || exit
echo c > /proc/sysrq-trigger
"""


def second(options: argparse.Namespace, room: Path) -> Path:
    """A tree for the guest: kexec, and the kernel that is started by it with its initramfs."""
    root, tree = room / "second", room / "tree"
    add_program(root, Path("/bin/busybox"))
    add_program(root, Path("/usr/bin/makedumpfile"), options.files)
    add_program(tree, Path(shutil.which("kexec") or "/sbin/kexec"))
    (root / "bin" / "sh").symlink_to("busybox")
    # (an ELF file isn't compressed, and the line is slow)
    form, pack = ("-E", "gzip -1 -c") if options.elf else ("-c", "cat")
    (root / "init").write_text(INIT.format(format=form, level=options.level, pack=pack), encoding="utf-8")
    (root / "init").chmod(0o755)
    (tree / "crash").mkdir()
    archived(root, tree / "crash" / "initramfs")
    shutil.copy(options.kernel, tree / "crash" / "kernel")
    return tree


def main() -> int:
    words = parser()
    words.description = __doc__
    words.add_argument("--level", type=int, default=31, help="of makedumpfile's filter (31: no page of any process)")
    words.add_argument("--elf", action="store_true", help="an ELF file, which isn't compressed")
    words.add_argument("--files", type=Path, default=Path("/"), metavar="FOLDER", help="the files of the Debian that has makedumpfile")
    options = words.parse_args()
    try:
        with tempfile.TemporaryDirectory(prefix="crash-") as name:
            room = Path(name)
            options.tree = second(options, room)
            options.job = JOB.format(job=options.job.removeprefix("exec "))
            options.append += f" crashkernel={512 if options.elf else 256}M"
            options.qemu += f" -serial file:{room}/dump"
            options.memory, options.until = "1536" if options.memory == "768" else options.memory, "crash: wrote"
            with running(options, room):
                wrote = int(re.search(r"crash: wrote (\d+) bytes", (room / "console").read_text(errors="replace"))[1])
                with (gzip.open if options.elf else open)(room / "dump", "rb") as came_by_line, open(options.dump, "wb") as to:
                    shutil.copyfileobj(came_by_line, to)
            if (came := Path(options.dump).stat().st_size) != wrote:
                raise Problem(f"{wrote} bytes were written, and {came} came")
            print(f"crash: {Path(options.dump).stat().st_size >> 20} MiB")
    except (Problem, OSError, EOFError, subprocess.CalledProcessError) as why:
        print(f"crash: {why}", file=sys.stderr)
        return 2
    return 0


if __name__ == "__main__":
    sys.exit(main())
