#!/usr/bin/env python3
"""Boots a kernel in an emulated machine, has it use huge pages, and dumps its memory.

usage: scenes.py --kernel VMLINUZ [--dump FILE] [--job 'LINES OF SH'] [OPTION ..]

The job runs as the first process's script, with `scene` (scene.c) and the programs of --program on its PATH; it has to begin `scene`
last, which writes "scene: ready". Status: 0 dumped; 2 it could not.
"""
from __future__ import annotations

import argparse
import os
import re
import shutil
import subprocess
import sys
import tempfile
import time
from contextlib import contextmanager
from pathlib import Path
from typing import Iterator

HERE = Path(__file__).resolve().parent
TOP = HERE.parent.parent
sys.path.insert(0, str(HERE.parent))

from kernel.audit.emulated import Monitor  # noqa: E402
from kernel.kernels import WITH_US  # noqa: E402
from kernel.problem import Problem  # noqa: E402

INIT = """#!/bin/sh
export PATH=/bin
/bin/busybox --install -s /bin
/bin/busybox mkdir -p /proc /sys /dev /tmp /dev/shm
mount -t proc proc /proc; mount -t sysfs sys /sys; mount -t devtmpfs dev /dev; mount -t tmpfs tmp /tmp
exec > /dev/ttyS0 2>&1
echo "scene: begun"
. /job
echo "scene: the job ended"; sleep 1000000
"""

# a kernel that hasn't begun the job by then hangs, in seconds, unless a fifth of the time that it may take is longer
BOOT = 150.0


def compiled(source: Path, to: Path) -> None:
    subprocess.run([os.environ.get("CC", "cc"), "-O2", "-static", "-pthread", "-o", to, source], check=True)


def packed(options: argparse.Namespace, room: Path) -> Path:
    """The initramfs."""
    root = room / "root"
    (root / "bin").mkdir(parents=True)
    compiled(HERE / "scene.c", root / "bin" / "scene")
    for source in map(Path, options.program):
        compiled(source, root / "bin" / source.stem)
    shutil.copy("/bin/busybox", root / "bin")
    (root / "bin" / "sh").symlink_to("busybox")
    if options.tree:
        shutil.copytree(options.tree, root, symlinks=True, dirs_exist_ok=True)
    (root / "init").write_text(INIT, encoding="utf-8")
    (root / "init").chmod(0o755)
    (root / "job").write_text(options.job + "\n", encoding="utf-8")
    return archived(root, room / "initramfs")


def archived(root: Path, to: Path) -> Path:
    names = b"\n".join(os.fsencode(it.relative_to(root)) for it in sorted(root.rglob("*")))
    with to.open("wb") as out:
        subprocess.run(["cpio", "-o", "-H", "newc", "--quiet"], cwd=root, input=names, stdout=out, check=True)
    return to


def add_program(root: Path, program: Path, source: Path = Path("/")) -> None:
    """Puts a program of this machine, or of another one's files, into a guest's /bin, with the libraries that it is linked to."""
    (root / "bin").mkdir(parents=True, exist_ok=True)
    shutil.copy(source / program.relative_to("/"), root / "bin" / program.name)
    add_libraries(root, program, source)


def add_libraries(root: Path, of: Path, source: Path = Path("/")) -> None:
    """Those that a program is linked to; ldd fails for one that is linked to none."""
    words = ["ldd", of] if source == Path("/") else ["chroot", source, "ldd", of]
    for path in re.findall(r"(/\S+) \(0x", subprocess.run(words, capture_output=True, text=True, check=False).stdout):
        (root / path[1:]).parent.mkdir(parents=True, exist_ok=True)
        shutil.copy(source / path[1:], root / path[1:])


def add_sources(root: Path) -> None:
    """Puts all Python of this folder's parent into a guest's /kirvessa: a command of ./kernel imports what the others need."""
    for path in TOP.glob("conformance/**/*.py"):
        to = root / "kirvessa" / path.relative_to(TOP)
        to.parent.mkdir(parents=True, exist_ok=True)
        shutil.copy(path, to)


def wait_for(text: str, console: Path, machine: subprocess.Popen[bytes], seconds: float) -> None:
    end = time.monotonic() + seconds
    while text not in console.read_text(errors="replace"):
        if machine.poll() is not None or time.monotonic() > end:
            lines = console.read_text(errors="replace").splitlines()
            own = [line for line in lines[:-15] if line.startswith("scene:")]
            raise Problem(f"no {text!r}; the console's last lines:\n" + "\n".join([*own, *lines[-15:]]))
        time.sleep(0.3)


def command(options: argparse.Namespace, initramfs: Path, console: Path, monitor: Path) -> list[str]:
    return ["qemu-system-x86_64", "-machine", "pc", "-accel", options.accel, "-cpu", options.cpu, "-m", options.memory, "-smp", str(options.cpus),
            "-nodefaults", "-no-user-config", "-display", "none", "-no-reboot", "-kernel", options.kernel, "-initrd", str(initramfs),
            "-append", f"console=ttyS0 quiet panic=-1 no_timer_check {options.append}",
            "-serial", f"file:{console}", "-qmp", f"unix:{monitor},server=on,wait=off", *options.qemu.split()]


def booted(options: argparse.Namespace, room: Path) -> subprocess.Popen[bytes]:
    """A machine whose job has begun: booted up to three times if the kernel stops or hangs before that."""
    initramfs, console = packed(options, room), room / "console"
    for attempt in range(3):
        console.write_bytes(b"")
        machine = subprocess.Popen([*WITH_US, *command(options, initramfs, console, room / "monitor")], stdin=subprocess.DEVNULL)
        try:
            wait_for("scene: begun", console, machine, max(BOOT, options.seconds / 5))
            return machine
        except Problem as why:
            machine.kill()
            machine.wait()
            if attempt == 2:
                raise
            print(f"scenes: booting again: {str(why).splitlines()[0]}", flush=True)
    raise AssertionError


@contextmanager
def running(options: argparse.Namespace, room: Path) -> Iterator[subprocess.Popen[bytes]]:
    """A machine that has done its job."""
    machine = booted(options, room)
    try:
        wait_for(options.until, room / "console", machine, options.seconds)
        yield machine
    finally:
        machine.kill()
        machine.wait()
        if options.verbose:
            print("\n".join(line for line in (room / "console").read_text(errors="replace").splitlines() if line.strip()))


def dumped(options: argparse.Namespace, room: Path) -> None:
    """Boots, and dumps as often as is asked."""
    with running(options, room):
        dump_all(options, room / "monitor")


def dump_all(options: argparse.Namespace, monitor: Path) -> None:
    """Dumps once, or several times with a wait between."""
    it = Monitor(monitor) if options.dump else None
    for number in range(options.dumps if it else 0):
        time.sleep(options.settle)
        began = time.monotonic()
        to = Path(options.dump if options.dumps == 1 else f"{options.dump}.{number}")
        more = {"begin": 0, "length": options.length << 20} if options.length else {}
        it.dump(to, **more)
        print(f"scenes: dumped in {time.monotonic() - began:.1f} s, {to.stat().st_size >> 20} MiB", flush=True)
        if options.then:
            subprocess.run(f"{options.then} {to}", shell=True, check=False)


def parser() -> argparse.ArgumentParser:
    words = argparse.ArgumentParser(description=__doc__, formatter_class=argparse.RawDescriptionHelpFormatter)
    words.add_argument("--kernel", required=True)
    words.add_argument("--program", action="append", default=[], help="C source of a program for the job")
    words.add_argument("--tree", help="a folder that is put into the guest's root, too")
    words.add_argument("--dump", help="where the dump goes; none unless named")
    words.add_argument("--dumps", type=int, default=1, help="so many dumps, with .NUMBER behind their names")
    words.add_argument("--then", default="", metavar="COMMAND", help="runs this with each dump's path behind it")
    words.add_argument("--until", default="scene: ready", metavar="TEXT", help="waits for this on the console")
    words.add_argument("--job", default="exec scene pages 48 plain")
    words.add_argument("--memory", default="768", help="in MiB, or as QEMU's -m")
    words.add_argument("--length", type=int, default=0, metavar="MIB", help="dumps so much of the first memory alone")
    words.add_argument("--append", default="")
    words.add_argument("--cpus", type=int, default=2)
    words.add_argument("--cpu", default="max,-erms,-cx16")
    words.add_argument("--qemu", default="", metavar="WORDS", help="more words for QEMU")
    words.add_argument("--accel", default="tcg")
    words.add_argument("--seconds", type=int, default=300)
    words.add_argument("--settle", type=float, default=1.0, help="waits so long before each dump")
    words.add_argument("--verbose", action="store_true", help="prints the console")
    return words


def main() -> int:
    options = parser().parse_args()
    try:
        with tempfile.TemporaryDirectory(prefix="scenes-") as room:
            dumped(options, Path(room))
    except (Problem, OSError, subprocess.CalledProcessError) as why:
        print(f"scenes: {why}", file=sys.stderr)
        return 2
    return 0


if __name__ == "__main__":
    sys.exit(main())
