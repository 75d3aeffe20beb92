#!/usr/bin/env python3
"""Tests which program ./hugepool runs, when it compiles or proves one, how libraries are proved side by side, which mutants are due, and
with which status a report ends.

Each is tried in a small repository with a stand-in for `rt`, which counts its calls, and builds programs that print how they were built.
As the toolchain's module it notes when each library is begun and built, and refuses one that is begun before those below it are built.
"""
from __future__ import annotations

import contextlib
import io
import os
import shutil
import signal
import subprocess
import sys
import tempfile
import time
from concurrent.futures import ThreadPoolExecutor
from pathlib import Path
from typing import Callable, Iterable, Iterator

from mutants import due
from programs import TOP, Ran, crates_of, of_program, report

NOTICE = "hugepool: not proved yet: the same sources, compiled without proof; ./hugepool build proves them\n"
# What it makes is a program that prints its words, by which command and at which call of that it was made, and what it reads. A file
# `broken` at the top has it fail, or names the library that isn't proved; `stuck` has it not end; `slow` has it change a source meanwhile.
RT = r"""#!/usr/bin/env python3
import os, subprocess, sys, tempfile, time
from pathlib import Path
from types import SimpleNamespace

class Crate:
    def __init__(self, folder, root, known):
        self.folder, self.name, self.top = folder, Path(folder).name, Path(root)
    def below(self):
        own = dict(line.partition("#")[0].split(":") for line in (self.top / "crates.txt").read_text().splitlines())
        names = [it for low in own[self.name].split() for it in [*(one.name for one in self.at(low).below()), low]]
        return [self.at(it) for it in dict.fromkeys(names)]
    def at(self, name):
        return Crate(str(self.top / "crates" / name), self.top, {})
    def stamp(self):
        return self.name
    def is_built(self):
        return Path(self.folder, "built").exists()
    def planned(self):
        return 1000
    def note(self, what):
        with open(self.top / "notes", "a") as notes:
            print(what, self.name, os.getpid(), file=notes)
    def met(self):
        return {"left", "right"} <= {line.split()[1] for line in said(self.top / "notes").splitlines()}
    def build_rlib(self, words, anew):
        self.note("begin")
        print("so far: 1 of 1 functions checked\nfn f: proved", flush=True)
        # (left and right wait for each other, where both may run)
        for _ in range(1200):
            if not (self.top / "stuck").exists() and (self.name not in ("left", "right") or (self.top / "free").exists() or self.met()):
                break
            time.sleep(0.1)
        if said(self.top / "broken") == self.name or not all(low.is_built() for low in self.below()):
            print("this is why")
            return 1
        Path(self.folder, "built").touch()
        self.note("end")
        return 0

def said(file):
    return file.read_text() if file.exists() else None

def write(file, by):
    file.write_text(f'#!/bin/sh\necho "$@ by {by}"\ncat\n[ ! -e {top}/status ] || exit 3\n')
    file.chmod(0o755)

rtlib = SimpleNamespace(Crate=Crate, lock=lambda crates: [], root_above=lambda folder: str(Path(folder).parent.parent))
share_work = lambda is_alone: None
processors = lambda: 3
free = lambda: int(said(Path(__file__).parents[1] / "free") or 10**12)
def main(words):
    global top
    top, crate, verb = Path("../..").resolve(), Path.cwd().name, words[0]
    with open(top / verb, "a") as calls:
        print("x", file=calls)
    by = f"{crate} {verb} {len(said(top / verb).split())}"
    if said(top / "broken") == "all":
        sys.exit("rt: it is broken")
    if (top / "slow").exists():
        time.sleep(0.02)
        (top / "crates/a/src/main.rt").write_text("changed meanwhile")
    if verb == "run":
        sys.stdin.read()
        Path("out").mkdir(exist_ok=True)
        write(Path("out/hugepool"), by)
    else:
        with tempfile.TemporaryDirectory() as room:
            program = Path(room, "native", "program")
            program.parent.mkdir()
            write(program, by)
            # (a program runs once the launcher has linked it, which may take long on a busy machine)
            while program.stat().st_nlink == 1:
                time.sleep(0.05)

if __name__ == "__main__":
    main(sys.argv[1:])
"""
WORDS = ("a", "b")
CRATES = {"a": [], "a_tests": ["a"], "hugepool": ["a"], "replay": []}
# two libraries stand on the third, and the program on both
SIDE_BY_SIDE = {"low": [], "left": ["low"], "right": ["low"], "hugepool": ["left", "right"]}


class Room:
    """The small repository, and calls of its launcher."""

    def __init__(self, top: Path, crates: dict[str, list[str]]) -> None:
        self.top = top
        for path in ("HANDLES", *(f"crates/{name}/{part}/main.rt" for name in crates for part in ("src", "specs", "proofs"))):
            self.write(path, "")
        self.write("crates.txt", "".join(f"{name}: {' '.join(low)}\n" for name, low in crates.items()))
        self.write("bin/rt", RT)
        (top / "bin/rt").chmod(0o755)
        shutil.copy(TOP / "hugepool", top / "hugepool")
        shutil.copytree(TOP / "launcher", top / "launcher", ignore=shutil.ignore_patterns("__pycache__"))

    def write(self, path: str, text: str = "") -> None:
        (self.top / path).parent.mkdir(parents=True, exist_ok=True)
        (self.top / path).write_text(text, encoding="utf-8")

    def remove(self, path: str) -> None:
        (self.top / path).unlink()

    def begin(self, words: Iterable[str] = WORDS, launcher: str = "hugepool", path: str = "bin", **more: str) -> subprocess.Popen:
        own = {it: value for it, value in os.environ.items() if not it.startswith("HUGEPOOL")}
        python = Path(sys.executable).parent
        how = {"env": {**own, "PATH": f"{self.top / path}:{python}:/usr/bin:/bin", **more}, "cwd": "/", "text": True}
        pipes = {it: subprocess.PIPE for it in ("stdin", "stdout", "stderr")}
        return subprocess.Popen([self.top / launcher, *words], **pipes, **how)

    def call(self, words: Iterable[str] = WORDS, read: str = "", **how: str) -> Ran:
        ran = self.begin(words, **how)
        out, err = ran.communicate(read)
        return Ran(ran.returncode, out, err)

    def proved(self, number: int, **how: str) -> bool:
        """Whether a call runs the program of this proof, and prints nothing that isn't its own."""
        return self.call(**how)[:2] == (0, f"a b by hugepool run {number}\n")

    def calls(self, verb: str) -> int:
        file = self.top / verb
        return len(file.read_text(encoding="utf-8").split()) if file.exists() else 0

    def notes(self) -> list[tuple[str, ...]]:
        """Which libraries were begun and built, in order, and by which process."""
        file = self.top / "notes"
        return [tuple(line.split()) for line in file.read_text(encoding="utf-8").splitlines()] if file.exists() else []

    def running(self) -> int:
        """How many of the processes that were begun are still there."""
        return sum(Path("/proc", pid).exists() for pid in {pid for *_, pid in self.notes()})


def unproved(room: Room) -> Iterator[tuple[str, bool]]:
    """Calls of a repository in which nothing was proved."""
    yield "without rt there is nothing to run or to prove", [room.call(it, path="none").status for it in (WORDS, ("build",))] == [127, 127]
    first = room.call(("replay",), "a line\n")
    yield "a replay is compiled alone", first[:2] == (0, "replay by replay try 1\na line\n") and first.err.endswith(NOTICE)
    yield "it says once that it isn't proved, and is kept", room.call(("replay",)) == Ran(0, "replay by replay try 1\n", NOTICE)
    yield "other words compile the whole program", room.call(read="a line\n")[:2] == (0, "a b by hugepool try 2\na line\n")
    yield "that is kept, and replays", room.call(("replay",)) == Ran(0, "replay by hugepool try 2\n", NOTICE)
    room.write("status")
    yield "words and status are passed as they are", room.call(("a  *", "", "b"))[:2] == (3, "a  *  b by hugepool try 2\n")
    room.remove("status")
    room.write("crates/a_tests/src/main.rt", "new")
    room.write("crates/a/proofs/main.rt", "new")
    yield "a crate of tests, or a proof, isn't looked at", room.call() == Ran(0, "a b by hugepool try 2\n", NOTICE)
    room.write("crates/a/src/main.rt", "new")
    with ThreadPoolExecutor(3) as pool:
        outs = [it.out for it in pool.map(lambda _: room.call(), range(3))]
    yield "of three calls at once behind a change one compiles", outs == ["a b by hugepool try 3\n"] * 3 and room.calls("try") == 3
    room.write("crates/a/src/main.rt", "newer")
    room.write("broken", "all")
    told = room.call()
    yield "a refusal is told", told[:2] == (126, "") and "rt: it is broken" in told.err and room.calls("run") == 0


def proofs(room: Room) -> Iterator[tuple[str, bool]]:
    """Calls around a proof."""
    where = lambda how="path": room.call((), HUGEPOOL=how).out.strip().removeprefix(str(room.top))
    yield "where no program is there, none is compiled", room.call((), HUGEPOOL="there") == Ran(1, "", "") and room.calls("try") == 0
    yield "for tests that need no proof a path is printed", where() == where("there") == "/crates/hugepool/out/unproved"
    is_proved = room.proved(1, HUGEPOOL="proved")
    yield "HUGEPOOL=proved proves, and then each call runs that", is_proved and room.call() == Ran(0, "a b by hugepool run 1\n", "")
    yield "so do tests", where() == where("there") == "/crates/hugepool/out/hugepool" and room.proved(1, HUGEPOOL="now")
    yield "what is proved isn't built again", room.call(("build",))[:2] == (0, "") and room.calls("run") == 1
    (room.top / "other").mkdir()
    (room.top / "other/link").symlink_to("../hugepool")
    (room.top / "link").symlink_to("other/link")
    yield "a link to a link leads to it", room.proved(1, launcher="link")
    room.write("crates/a/src/main.rt", "new")
    yield "after an edit neither program is there", where("there") == ""
    yield "after an edit tests prove nothing", where() == "/crates/hugepool/out/unproved" and room.calls("run") == 1
    with ThreadPoolExecutor(3) as pool:
        yield "of three other calls at once one proves", all(pool.map(room.proved, [2, 2, 2])) and room.calls("run") == 2
    room.write("slow")
    room.write("crates/a/src/main.rt", "newer")
    is_built = room.proved(3)
    room.remove("slow")
    yield "what is written meanwhile is proved later", is_built and room.proved(4) and room.proved(4)
    room.write("crates/a/src/main.rt", "newest")
    room.write("broken", "all")
    told = [room.call() for _ in range(2)]
    yield "a failure is told each time", all(it[:2] == (126, "") and "rt: it is broken" in it.err for it in told)
    room.remove("broken")
    yield "and then it is proved", room.proved(7) and room.proved(7)
    for number, text in ((8, "by rt ci"), (9, "since it began")):
        room.write("crates/hugepool/src/main.rt", text)
        if number == 8:
            since = since_now(room)
            subprocess.run(["../../bin/rt", "run"], cwd=room.top / "crates/hugepool", check=True, stdin=subprocess.DEVNULL)
        yield f"what rt ci built is taken over, but not what was written {text}", room.proved(number, **since) and room.proved(number)
    room.write("crates/hugepool/src/main.rt", "newest of all")
    yield "what was built before rt ci began isn't taken over", room.proved(10, **since_now(room))


def since_now(room: Room) -> dict[str, str]:
    """Says to the launcher that another command begins now."""
    time.sleep(0.02)
    room.write("since")
    time.sleep(0.02)
    return {"HUGEPOOL_BUILT_SINCE": str(room.top / "since")}


def staleness(room: Room) -> Iterator[tuple[str, bool]]:
    """What is newer than a proof."""
    changes = {
        "a new file": lambda: room.write("crates/a/src/deep/more.rt", "new"),
        "a file that is gone": lambda: room.remove("crates/a/src/deep/more.rt"),
        "a folder that is gone": lambda: shutil.rmtree(room.top / "crates/a/specs"),
        "HANDLES": lambda: room.write("HANDLES", "new"),
        "crates.txt": lambda: room.write("crates.txt", "a:\nhugepool: # all\n"),
        "a proof": lambda: room.write("crates/hugepool/proofs/main.rt", "new"),
        "a spec": lambda: room.write("crates/hugepool/specs/more.antt", "new"),
    }
    yield "all is proved", room.proved(1, HUGEPOOL="proved")
    for number, (what, change) in enumerate(changes.items(), 2):
        change()
        yield f"{what} is looked at", room.proved(number) and room.proved(number)


def stands_on(room: Room) -> Iterator[tuple[str, bool]]:
    """From which crates the program of this repository is built."""
    is_there = lambda: room.call((), HUGEPOOL="there").status == 0
    unproved = room.call((), HUGEPOOL="path").out.strip()
    for name in sorted(set(crates_of()) - set(of_program())):
        room.write(f"crates/{name}/src/main.rt", "new")
    yield "it doesn't stand on the other crates", is_there()
    for name in of_program():
        room.write(f"crates/{name}/src/main.rt", "new")
        yield f"it stands on {name}", not is_there()
        Path(f"{unproved}.begun").touch()


def side_by_side(room: Room) -> Iterator[tuple[str, bool]]:
    """Libraries that are proved side by side."""
    is_current = lambda: (room.top / "crates/hugepool/out/hugepool.begun").exists()

    def begin() -> subprocess.Popen:
        for file in (*room.top.glob("crates/*/built"), *room.top.glob("crates/hugepool/out/hugepool*"), room.top / "notes"):
            file.unlink(missing_ok=True)
        return room.begin(("build",))

    def built() -> tuple[int, str]:
        ran = begin()
        err = ran.communicate()[1]
        return ran.returncode, err

    status, told = built()[0], [it[:2] for it in room.notes()]
    yield "all libraries are proved, and the program is built", status == 0 and is_current() and len(told) == 6
    yield "what the others stand on comes first", told[:2] == [("begin", "low"), ("end", "low")]
    yield "the others are proved side by side", sorted(told[2:4]) == [("begin", "left"), ("begin", "right")]
    weights = (room.top / "out/weights.txt").read_text(encoding="utf-8")
    yield "what each took is noted", {"low", "left", "right"} <= {line.split()[0] for line in weights.splitlines()}
    for free in ("1500", "10"):
        room.write("free", free)
        yield f"with {free} bytes one follows the other", built()[0] == 0 and room.notes()[3][0] == "end"
    room.remove("free")
    room.write("broken", "right")
    status, err = built()
    yield "one that isn't proved is named, with why", status == 126 and "right is not proved" in err and "this is why" in err
    yield "then nothing is current, and nothing runs", not is_current() and room.running() == 0
    room.remove("broken")
    for number in (signal.SIGINT, signal.SIGTERM):
        room.write("stuck")
        ran = begin()
        while ran.poll() is None and not room.notes():
            time.sleep(0.05)
        ran.send_signal(number)
        ran.communicate(timeout=120)
        room.remove("stuck")
        yield f"{number.name} ends all, and leaves nothing current", (ran.returncode, room.running(), is_current()) == (130, 0, False)
    yield "afterwards all is proved", built()[0] == 0 and is_current()


def dues(top: Path) -> Iterator[tuple[str, bool]]:
    """Which mutants are due."""
    every, tried, later = {"high", "low"}, "2026-01-01T12:00:00+00:00", "2026-01-01T13:00:00+00:00"
    own = ["git", "-C", top, "-c", "user.name=a", "-c", "user.email=a@b"]
    dated = lambda at: {**os.environ, "GIT_COMMITTER_DATE": at}
    git = lambda *words, at="": subprocess.run([*own, *words], capture_output=True, check=True, env=dated(at))

    def commit(path: str, at: str, text: str = "") -> None:
        (top / path).parent.mkdir(parents=True, exist_ok=True)
        (top / path).write_text(text or at, encoding="utf-8")
        git("add", "-A")
        git("commit", "-qm", "one", at=at)

    yield "outside of a repository all are due", due(top, tried, every) == every
    git("init", "-q")
    commit("crates/low/src/lib.rt", "2026-01-01T11:00:00+00:00")
    commit("crates/low/proofs/a.antt", later)
    yield "what was committed before isn't due, nor are proofs", due(top, tried, every) == set()
    commit("crates/high/src/lib.rt", later, "    /// a\n    // b\n-- c\n\n")
    yield "nor what changed comments alone", due(top, tried, every) == set()
    commit("crates/high/src/lib.rt", later, "    /// a\n    -b / c\n")
    yield ".. but what changed code beside them is", due(top, tried, every) == {"high"}
    tried = f"{tried}\nhigh 2026-01-01T14:00:00+00:00"
    yield "without a time all are due", due(top, "soon", every) == every
    commit("crates/low/edits/a.edit", later)
    yield "a mutant makes those of its own crate due", due(top, tried, every) == {"low"}
    yield ".. unless they were tried later", due(top, f"{tried}\nlow 2026-01-01T14:00:00+00:00", every) == set()
    (top / "crates/high/src/lib.rt").write_text("new", encoding="utf-8")
    yield "a change that isn't committed does, too", due(top, tried, every) == every


def tries_in(part: Callable, crates: dict[str, list[str]] | None) -> list[tuple[str, bool]]:
    with tempfile.TemporaryDirectory(prefix="launcher-") as name:
        return [*part(Room(Path(name), crates) if crates else Path(name))]


def tries() -> Iterator[tuple[str, bool]]:
    parts = [*((part, CRATES) for part in (unproved, proofs, staleness)), (stands_on, crates_of()), (side_by_side, SIDE_BY_SIDE)]
    parts.append((dues, None))
    with contextlib.redirect_stdout(io.StringIO()):
        found = [report("a report", ((str(it), it) for it in several)) for several in ([], [1], [0], [1, 0], [0, 1])]
    yield "a report of nothing, or of what isn't so, fails", found == [1, 0, 1, 1, 1]
    with ThreadPoolExecutor(len(parts)) as pool:
        for found in pool.map(lambda it: tries_in(*it), parts):
            yield from found


if __name__ == "__main__":
    sys.exit(report("launcher", tries()))
