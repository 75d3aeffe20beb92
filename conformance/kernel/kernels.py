"""Asks a kernel: one that is booted in an emulated machine, or the one of this machine."""
from __future__ import annotations

import errno
import os
import re
import shutil
import subprocess
import sys
import tempfile
import time
from contextlib import AbstractContextManager, nullcontext
from dataclasses import dataclass
from pathlib import Path
from typing import Callable

import packages
from kernel.console import Console, Ended, text_at
from kernel.problem import Problem

RECORD = Path(__file__).resolve().parent.parent / "record"
# how often it is looked whether a recorder is done, and how often its progress is printed, in seconds
LOOK, SAY = 0.2, 15.0
# a run without an answer for so many seconds says so
SILENT = 30.0
# a machine that hasn't begun to record by then is booted again, unless a tenth of the time that it may take is longer
BOOT = 180
# a disk with less than so many bytes left is full
FULL = 65536
# what a recorder says where a kernel did what no rule allows: each pattern, and its sentence
ODD = (
    (r"record: '(race .*)': task (\d+): its (\w+) was answered '(.*)'", "no rule allows the answer '{3}' to the {2} of task {1} in {0}"),
    (r"record: task (\d+) died of signal ((?:4|5|7|8|11) \(.*\))", "a call of task {0} ended in signal {1}"),
    (r"record: before script (\S+) the kernel keeps (\d+) huge pages that nobody should use", "{1} huge pages are still in use before script {0}, and nobody has them"),
)
COMMANDS = {
    "qemu-system-x86_64": "qemu-system-x86", "qemu-system-aarch64": "qemu-system-arm",
    "aarch64-linux-gnu-gcc": "gcc-aarch64-linux-gnu libc6-dev-arm64-cross",
    "cpio": "cpio", "cc": "build-essential", "setpriv": "util-linux",
}  # fmt: skip
# what emulates a processor, beside the C compiler for this machine's own
EMULATING = {"x86_64": ("qemu-system-x86_64",), "aarch64": ("qemu-system-aarch64", "aarch64-linux-gnu-gcc")}
# the size of huge pages, in KiB, unless it is said
PAGE = 2048
# a script whose hold ran out, and that was made again for it
MADE_AGAIN = re.compile(r"(?ms)^script (?:(?!^script |^end ).)*?^again\n")
# what ends a recorder in order if this program is killed, even in a way that it can't notice
WITH_US = ("setpriv", "--pdeathsig", "TERM")


# what looks on while a recorder runs, given the folder in which its files are
Watch = Callable[[Path], AbstractContextManager[None]]
# what reads the answers that came so far, and says whether they are enough
Look = Callable[[str], bool]


@dataclass(frozen=True)
class Recording:
    """What a kernel answered, and why it isn't all of it, if it isn't."""

    text: str
    is_whole: bool = True
    ended: Ended | None = None


def say(words: str) -> None:
    print(f"kernel: {words}", file=sys.stderr, flush=True)


def cache() -> Path:
    """Where fetched kernels are kept."""
    return Path(os.environ.get("KIRVESSA_CACHE") or Path(os.environ.get("XDG_CACHE_HOME") or Path.home() / ".cache") / "kirvessa")


def need(*commands: str) -> None:
    """Ends with one line if commands are missing."""
    missing = [it for it in commands if shutil.which(os.environ.get("CC", it) if it == "cc" else it) is None]
    if missing:
        names = ", ".join(f"'{it}' (package: {COMMANDS[it]})" for it in missing)
        raise Problem(f"not on the PATH: {names}; conformance/record/emulate.sh --install installs what is missing")


@dataclass(frozen=True)
class Kernel:
    """A kernel that can be asked: what it is called, and the command that records a file of scripts."""

    name: str
    command: Callable[[Path, bool], list[str | Path]]
    # whether its processor is emulated, too, so that races take long
    is_slow: bool = False
    # where the consoles of its machines are kept, if they are
    consoles: Path | None = None
    # what boots one that stays, if it can; and how long it may be silent, in seconds
    staying: tuple[str | Path, ...] = ()
    patience: int = BOOT

    def record(self, text: str, lines: int, has_races: bool = False) -> str:
        """What the kernel answers to the scripts of a text, which has so many lines to be answered."""
        found = self.recording(text, lines, has_races)
        if found.ended:
            raise Problem(f"the kernel ended it: {found.ended.what}")
        return found.text

    def recording(
        self, text: str, lines: int, has_races: bool = False, watch: Watch = lambda _: nullcontext(), look: Look = lambda _: False
    ) -> Recording:
        """The same, or what it answers until it ends the run by what it does, or until enough is seen. It may be watched meanwhile."""
        with tempfile.TemporaryDirectory(prefix="kernel-") as name:
            room = Path(name)
            (room / "scripts").write_text(text, encoding="utf-8")
            console = Console(room)
            try:
                with watch(room):
                    return self.run(room, has_races, Waiting(room, lines, console, look))
            finally:
                keep(console.text(), self.consoles)

    def run(self, room: Path, has_races: bool, waiting: Waiting) -> Recording:
        command = self.command(room / "scripts", has_races)
        environment = {**os.environ, "TMPDIR": str(room)}
        # (what is told is kept in memory: where the disk is full, that is just what has to be read)
        with (room / "recorded").open("wb") as out, open(os.memfd_create("said"), "w+b") as said:
            ran = subprocess.Popen([*WITH_US, *command], stdin=subprocess.DEVNULL, stdout=out, stderr=said, env=environment)
            try:
                is_enough = waiting.wait(ran)
            finally:
                stop(ran)
            said.seek(0)
            told = said.read().decode(errors="replace")
        waiting.console.look()
        if ended := waiting.console.found or odd(told):
            return Recording(so_far(room), False, ended)
        if is_enough:
            return Recording(so_far(room), False)
        if ran.returncode:
            raise Problem(full(room) or reason(told, ran.returncode))
        say_boots(told)
        return Recording(last_tries((room / "recorded").read_text(encoding="utf-8")))


def keep(text: str, path: Path | None) -> None:
    """Appends what the consoles of a run said to the file that keeps them."""
    if path is not None and text:
        with path.open("a", encoding="utf-8") as file:
            file.write(text)


def odd(told: str) -> Ended | None:
    """What a kernel did that no rule allows, by the word of the recorder, which can't go on from there."""
    found = ((re.search(rf"(?m)^{pattern}", told), sentence) for pattern, sentence in ODD)
    return next((Ended("answer", sentence.format(*it.groups())) for it, sentence in found if it), None)


def full(room: Path) -> str | None:
    """That the disk of the recorder's files is full, if it is: what was written there may lack its end."""
    return f"{room}: {os.strerror(errno.ENOSPC)}" if shutil.disk_usage(room).free < FULL else None


def say_boots(told: str) -> None:
    """Passes on that a kernel was booted again, which a run that ends well doesn't hide."""
    for line in told.splitlines():
        if "booting it again" in line:
            say(line)


@dataclass
class Waiting:
    """Waits for a recorder: says how far it is, and that it has been silent for long, and ends where the kernel does wrong or enough is seen."""

    room: Path
    lines: int
    console: Console
    look: Look

    def wait(self, ran: subprocess.Popen[bytes]) -> bool:
        """Waits until a recorder has ended, its kernel did wrong, or enough is seen; whether it is the last."""
        began = said = heard = silent = time.monotonic()
        number = 0
        while ran.poll() is None:
            time.sleep(LOOK)
            self.console.look()
            if self.console.is_done:
                return False
            text = so_far(self.room)
            if self.look(text):
                return True
            now, before, number = time.monotonic(), number, text.count(" = ")
            if number != before:
                heard = silent = now
            if now - silent >= SILENT:
                silent = now
                say(f"  no call was answered for {now - heard:.0f} s; {last_of(text)}")
            if now - said >= SAY:
                said = now
                say(f"  {now - began:.0f} s: {number} of {self.lines} calls answered")
        return False


def last_of(text: str) -> str:
    """The last answer of a recording that goes on."""
    line = next((line for line in reversed(text.splitlines()) if " = " in line or line.startswith("script ")), None)
    return f"the last line is '{line}'" if line else "the kernel is still booting, or hangs"


def stop(ran: subprocess.Popen[bytes]) -> None:
    """Ends a recorder that runs still; it puts all things back itself."""
    if ran.poll() is None:
        ran.terminate()
        ran.wait()


def last_tries(text: str) -> str:
    """A recording without the tries of scripts that were made again."""
    return MADE_AGAIN.sub("", text) if "\nagain\n" in text else text


def so_far(room: Path) -> str:
    """What the recorder has written so far on all its machines, but for tries of scripts that were made again; the last line may lack its end."""
    return last_tries(written_so_far(room))


def written_so_far(room: Path) -> str:
    for folder in room.glob("emulate-*"):
        before, now = text_at(folder / "all"), text_at(folder / "recorded")
        # (each machine says first which kernel it has; and what a machine wrote is copied before the next one is booted)
        rest = now.partition("\n")[2] if before else now
        return before if rest and before.endswith(rest) else before + rest
    return text_at(room / "recorded")


def reason(said: str, status: int) -> str:
    """The one line that says why a recorder failed: a full disk, or the recorder's own last word and the line that explains it."""
    lines = [line.strip() for line in said.splitlines() if line.strip()]
    full = next((line for line in lines if "No space left on device" in line), None)
    own = [at for at, line in enumerate(lines) if line.startswith(("emulate: ", "record: ", "init: "))]
    if full or not own:
        return full or (lines[-1] if lines else f"the recorder ended with status {status}")
    last, console, behind = lines[own[-1]].partition("; its console's last lines:")[:2] + (lines[own[-1] + 1 :],)
    if not console:
        return last
    qemu = [line for line in lines if line.startswith("qemu")]
    panics = [line for line in behind if "Kernel panic" in line]
    return ": ".join([last, *(panics or behind or qemu)[-1:]])


@dataclass(frozen=True)
class Emulation:
    """How a kernel is emulated: its processors, the seconds that a machine may take, and what else."""

    cpus: int
    seconds: int
    # stopped behind each race
    is_paused: bool = False
    # a warning stops the kernel
    panics_on_warning: bool = False
    consoles: Path | None = None
    # further words for the kernel, and its memory in MiB, if it isn't emulate.sh's own
    append: str = ""
    memory: int | None = None
    # the size of the huge pages that are used, in KiB
    page: int = PAGE

    @property
    def patience(self) -> int:
        """How many seconds it may take to boot."""
        return max(BOOT, self.seconds // 10)

    def words(self) -> list[str]:
        words = ["--leave", "--cpus", str(self.cpus), "--seconds", str(self.seconds), "--boot-seconds", str(self.patience)]
        words += ["--memory", str(self.memory)] if self.memory else []
        words += ["--page", str(self.page)] if self.page != PAGE else []
        append = " ".join(it for it in ("panic_on_warn=1" if self.panics_on_warning else "", self.append) if it)
        return [*words, *(["--pause"] if self.is_paused else []), *(["--append", append] if append else [])]


def emulated(kernel: Path, name: str, how: Emulation) -> Kernel:
    """A kernel in an emulated machine."""
    processor = processor_of(readable(kernel))
    need(*EMULATING[processor], "cpio", "cc", "setpriv")
    accel = accelerator() if processor == "x86_64" else "tcg"
    options = ["--kernel", kernel, *how.words(), "--accel", accel]
    command = [RECORD / "emulate.sh", *options]
    return Kernel(name, lambda scripts, _: [*command, scripts], accel == "tcg", how.consoles, (*command, "--stay"), how.patience)


def processor_of(image: Path) -> str:
    """The processor that a kernel's image is for, as emulate.sh finds it."""
    with image.open("rb") as file:
        return "aarch64" if file.read(60)[56:] == b"ARMd" else "x86_64"


def accelerator() -> str:
    """As emulate.sh chooses: KVM where it may be used and this machine isn't a virtual one, else the processor is emulated."""
    is_virtual = "hypervisor" in Path("/proc/cpuinfo").read_text(encoding="utf-8").split()
    return "kvm" if os.access("/dev/kvm", os.R_OK | os.W_OK) and not is_virtual else "tcg"


def readable(kernel: Path) -> Path:
    """A kernel's image, if it is a file that can be read."""
    if not os.access(kernel, os.R_OK) or not kernel.is_file():
        raise Problem(f"{kernel} is no kernel that can be read")
    return kernel


def image_of(package: str) -> Path:
    """The image of the kernel of a Debian package, fetched unless it is kept."""
    kept = packages.kept_kernel(package, cache())
    if kept is None:
        say(f"fetching the kernel of {package}")
    try:
        return packages.kernel(package, cache())
    except (packages.NotFound, OSError, packages.tarfile.TarError) as why:
        raise Problem(f"the kernel of {package} can't be fetched: {getattr(why, 'strerror', None) or why}") from why


def of_package(package: str, how: Emulation) -> Kernel:
    """The kernel of a Debian package, in an emulated machine."""
    need(*EMULATING["aarch64" if packages.is_foreign(package) else "x86_64"], "cpio", "cc")
    kernel = image_of(package)
    return emulated(kernel, f"{package} ({kernel.name})", how)


def here(page: int = PAGE) -> Kernel:
    """The kernel of this machine. The recorder refuses unless no huge page is in use, and puts the settings back."""
    if os.geteuid() != 0:
        raise Problem("--here needs root, which alone can change the number of huge pages")
    need("cc", "setpriv")
    environment = {**os.environ, "PAGE_KIB": str(page)}
    built = subprocess.run([RECORD / "build.sh"], capture_output=True, text=True, check=False, env=environment)
    if built.returncode:
        raise Problem(f"the recorder can't be compiled: {reason(built.stderr, built.returncode)}")

    def command(scripts: Path, has_races: bool) -> list[str | Path]:
        return [RECORD / "out" / "record", *(["--race"] if has_races else []), scripts]

    return Kernel(f"this machine's ({os.uname().release})", command)
