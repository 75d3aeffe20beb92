#!/usr/bin/env python3
"""Replays what a Linux kernel was asked, call by call, and compares the answers.

usage: compare.py [FILE ..]

Reads the files, which may be packed (.xz), or all calls-*.txt beside this program, of which none may lack a script or a call.
Each line of a script is one call that ran to its end, or a resize of the pool, with what the kernel said then:
`begin T OP = ANSWER | FREE RESV | SIZE PAGES, .. | ENTRIES ..` (one `SIZE PAGES` a file, one number of
translations a task), and behind it ` | used U` where the pool has a quota, or ` | total T surplus S` once it was
resized. A script is compared up to the first touch of a page that is cached at or above the file's size, where
this pool answers beyond and Linux the word; up to the first byte call (`x..`), the first call that is started beside
others (`start`), or `resize 0`, which is refused here; or through the first resize that leaves a surplus, of which this
pool knows nothing.
"""
from __future__ import annotations

import lzma
import os
import re
import signal
import subprocess
import sys
from dataclasses import dataclass, field, replace
from functools import cache
from pathlib import Path
from typing import Callable, Iterator, NamedTuple

TOP = Path(__file__).resolve().parent.parent
PROGRAM = TOP / "crates" / "hugepool" / "out" / "hugepool"
# the pages that a file may have
LIMIT = 4096
# a touch of a page that is cached at or above the file's size
KNOWN = "known"
# a resize that leaves more pages than were asked for, or asks for none
SURPLUS = "surplus"

# how many scripts and calls the files beside this program have, so that none is lost unnoticed
RECORDED = {"calls-fixed.txt": (33, 177), "calls-random.txt": (200, 6737), "calls-quota.txt": (31, 878), "calls-resize.txt": (31, 968)}

# a byte call and surplus pages, which the machine doesn't have, and a call beside others, whose order isn't told
NO_TRACE = re.compile(r"begin \d+ x|start |overcommit ")

# the sizes of a script's pool, and its quota, if it has one
HEADER = re.compile(r"pool( \d+){4,5}$")

# a call, and what the kernel said of it: the answer alone where it is one beside others
CALL = r"begin \d+ (?:(?:mapn?|allock?|punch)(?: \d+){3}|(?:trunc|store)(?: \d+){2}|(?:load|unmap) \d+|exit|x\w*(?: \w+)*)|(?:resize|overcommit) \d+"
SAID = r" \| \d+ -?\d+ \| \d+(?:\+\d+)? \d+(?:, \d+(?:\+\d+)? \d+)* \| \d+(?: \d+)*(?: \| used -?\d+)?(?: \| total \d+ surplus \d+)?"
ANSWERED = re.compile(rf"(?:(?:{CALL}) = \w+(?: \w+)?(?:{SAID})?|(?:start|wait|race) .* = .*)$")

# what a program writes of a trace, both line by line
Program = Callable[[list[str]], list[str]]


@dataclass(frozen=True)
class Script:
    """Calls of one pool, in their order, each with what the kernel said."""

    name: str
    header: str
    lines: list[str]
    # the line behind them, with the kernel's numbers where no task and no file is left
    end: str = ""


class Told(NamedTuple):
    """What is told of a call: its answer, and the numbers of the state then, each part as a script spells it."""

    answer: str
    counts: str
    files: str
    entries: str
    used: str = ""
    total: str = ""


class Line(NamedTuple):
    """A script's call, what the kernel said of it, and how many surplus pages it had then."""

    call: str
    linux: Told
    surplus: int


@dataclass(frozen=True)
class Pool:
    """A pool after some calls, and what the program wrote of the last one."""

    program: Program
    trace: list[str]
    files: int
    tasks: int
    outcomes: list[str] = field(default_factory=list)
    state: list[str] = field(default_factory=list)
    # how many frames the last resize told, if there was one
    total: str = ""

    def after(self, call: str) -> Pool:
        """The pool after one more call, which is stepped until it ends, or after a resize."""
        words = call.split()
        steps = [f"step {words[1]}"] * most_steps(words, self.tasks) if words[0] == "begin" else []
        written = self.program([*self.trace, call, *steps])
        outcomes, state = written[len(self.trace) - 1:], written[-(1 + self.files + self.tasks):]
        end = next((k for k, what in enumerate(outcomes) if what.startswith(("ended ", "refused "))), len(steps))
        total = outcomes[0].removeprefix("resized ") if words[0] == "resize" else self.total
        # (the steps that are left over were refused, which changes nothing)
        return replace(self, trace=[*self.trace, call, *steps[:end]], outcomes=outcomes[:end + 1], state=state, total=total)

    def answer(self) -> str:
        """The last call's answer, in the machine's own words."""
        return self.outcomes[-1].removeprefix("ended ")

    def told(self) -> Told:
        """What is told of the last call."""
        free, resv, used = re.match(r"free (\d+) resv (\d+) calls \d+(?: (used \d+))?$", self.state[0]).groups("")
        sizes = [re.match(r"file \d+ size (\d+) .* pages (\d+) ", line).groups() for line in self.state[1:1 + self.files]]
        entries = [line.rsplit(" ", 1)[1] for line in self.state[1 + self.files:]]
        # Linux has one error for want of quota and of frames (`used` is told of a pool with a quota alone)
        answer = "noframe" if self.answer() == "noquota" and used else self.answer()
        files = ", ".join(" ".join(pair) for pair in sizes)
        return Told(answer, f"{free} {resv}", files, " ".join(entries), used, self.total)


def replaying(*command: str | Path) -> Program:
    """What a command writes of a trace that it reads from standard input."""

    def replays(trace: list[str]) -> list[str]:
        text = "".join(f"{line}\n" for line in trace)
        done = subprocess.run(command, input=text.encode(), capture_output=True, check=True)
        return done.stdout.decode().splitlines()

    return replays


@cache
def tested() -> Path:
    """The proved program if it is current, else the one that is compiled without proof."""
    own = {**os.environ, "HUGEPOOL": "path"}
    ran = subprocess.run([TOP / "hugepool"], env=own, stdin=subprocess.DEVNULL, stdout=subprocess.PIPE, text=True, check=True)
    return Path(ran.stdout.strip())


def replayed(trace: list[str]) -> list[str]:
    """What the program of this repository writes of a trace."""
    return replaying(tested(), "replay")(trace)


def opened(program: Program, header: str) -> Pool:
    """A pool to which nothing has happened."""
    numbers = [int(word) for word in header.split()[1:]]
    return Pool(program, [header], files=numbers[1], tasks=numbers[3])


def contents(path: Path) -> str:
    """The text of a file, which may be packed."""
    try:
        return (lzma.decompress(path.read_bytes()) if path.suffix == ".xz" else path.read_bytes()).decode()
    except lzma.LZMAError as why:
        raise OSError(None, f"it can't be unpacked: {why}", str(path)) from why
    except UnicodeDecodeError as why:
        raise OSError(None, "it is no text, so not a file of scripts", str(path)) from why


def scripts(path: Path) -> Iterator[Script]:
    """The scripts of a file. One that isn't well-formed is a fault of the file, which names the line."""
    name = header = None
    lines: list[str] = []
    for number, line in enumerate(contents(path).splitlines(), 1):
        if line.startswith("script "):
            name, header, lines = line[len("script "):], None, []
        elif line.startswith("#") or name is None and not line.strip():
            pass
        elif name is None or (header is None or line.startswith("pool ")) and not HEADER.match(line):
            raise OSError(None, f"line {number}: a script begins with 'script NAME' and 'pool F N S T'", str(path))
        elif line.startswith("pool "):
            header = line
        elif line.split(" ")[0] == "end":
            yield Script(name, header, lines, line)
            name = None
        else:
            lines.append(line)
    if name is not None:
        raise OSError(None, f"script {name} has no 'end'", str(path))


def answered_scripts(path: Path) -> list[Script]:
    """The scripts of a file in which each call has its answer."""
    found = list(scripts(path))
    if not found:
        raise OSError(None, "there is no script in it", str(path))
    for script, line in ((script, line) for script in found for line in script.lines):
        if not ANSWERED.match(line):
            raise OSError(None, f"script {script.name}: '{line}' is no call with an answer behind ' = '", str(path))
    return found


def read(line: str) -> Line:
    """A line of a script; while a task is at work the kernel tells only the answer."""
    call, said = line.split(" = ", 1)
    parts = [part.strip() for part in said.split("|")]
    if len(parts) == 1:
        return Line(call, Told(said, "", "", ""), 0)
    resized = re.match(r"total (\d+) surplus (\d+)$", parts[-1])
    if resized is None:
        return Line(call, Told(*parts), 0)
    return Line(call, Told(*parts[:-1], total=resized[1]), int(resized[2]))


def most_steps(words: list[str], tasks: int) -> int:
    """How many steps a call makes at most."""
    op, numbers = words[2], [int(word) for word in words[3:]]
    if op in ("alloc", "allock"):
        return 9 * numbers[2] + 3
    if op == "punch":
        return (6 + tasks) * numbers[2] + 2
    if op == "trunc":
        return (5 + tasks) * 4100 + 5
    return 100


def place_of(lines: list[str], task: str, page: int) -> tuple[int, int] | None:
    """The file and the index that a task's virtual page shows since the last call that mapped it, if it is mapped still."""
    for line in reversed(lines):
        if made := re.match(rf"begin {task} mapn? (\d+) (\d+) (\d+) = mapped (\d+) ", line):
            file, first, length, base = (int(number) for number in made.groups())
            if base <= page < base + length:
                return file, first + page - base
    return None


def is_known(pool: Pool, lines: list[str], call: str, linux: Told) -> bool:
    """Whether a call after these lines touches a page that is cached at or above its file's size, and differs from Linux by that alone.

    That it isn't below the size is reckoned from what Linux said. That this pool has it cached shows once the size is raised to the
    limit (by a truncation, which then takes nothing away): the same touch has to find the page, and to tell all else that Linux told.
    """
    if not call.startswith("begin "):
        return False
    _, task, op, *numbers = call.split()
    place = place_of(lines, task, int(numbers[0])) if op in ("load", "store") else None
    if place is None:
        return False
    file, index = place
    size = int(linux.files.split(", ")[file].split()[0])
    touched, found = pool.after(call), pool.after(f"begin {task} trunc {file} {LIMIT}").after(call)
    return (
        size <= index
        and touched.outcomes == ["begun", "moved want", "moved locked", "moved leave", "ended beyond"]
        and found.outcomes == ["begun", "moved want", "moved locked", "moved found", "moved leave", f"ended {linux.answer}"]
        and found.told()._replace(files=touched.told().files) == linux
    )


def compare(program: Program, script: Script) -> tuple[int, str | None]:
    """How many calls agree, and how the script ended: None, KNOWN, SURPLUS, or what was different."""
    pool = opened(program, script.header)
    for agreed, line in enumerate(script.lines):
        call, linux, surplus = read(line)
        if NO_TRACE.match(call):
            return agreed, None
        if call == "resize 0":
            return agreed, SURPLUS
        new = pool.after(call)
        if new.told() != linux:
            is_excused = is_known(pool, script.lines[:agreed], call, linux)
            return agreed, KNOWN if is_excused else f"{script.name}: {call}: {tuple(new.told())}, but Linux: {tuple(linux)}"
        if surplus:
            return agreed + 1, SURPLUS
        pool = new
    return len(script.lines), None


def lost(name: str, file: list[Script]) -> list[str]:
    """That this file of ours hasn't the scripts and calls that were recorded, if it hasn't."""
    has, had = (len(file), sum(len(script.lines) for script in file)), RECORDED[name]
    return [] if has == had else [f"{name} has {has[0]} scripts of {has[1]} calls, and not {had[0]} of {had[1]}"]


def main(paths: list[Path]) -> int:
    # (a file that can't be read is reported before a program is compiled, which may take long)
    files = [(path.name, answered_scripts(path)) for path in paths or map(Path(__file__).with_name, RECORDED)]
    tested()
    total, asked, calls, known, surplus = 0, 0, 0, 0, 0
    different = [] if paths else [it for name, file in files for it in lost(name, file)]
    for _, file in files:
        for script in file:
            agreed, difference = compare(replayed, script)
            total, asked, calls = total + 1, asked + len(script.lines), calls + agreed
            known, surplus = known + (difference == KNOWN), surplus + (difference == SURPLUS)
            if difference not in (None, KNOWN, SURPLUS):
                different.append(difference)
    # (only now: until here a program that it runs may be gone before it has read its trace)
    signal.signal(signal.SIGPIPE, signal.SIG_DFL)
    print(f"{total} scripts, {calls} of their {asked} calls agree, {known} scripts end at the known difference")
    print(f"{surplus} end at a surplus or at a resize to nothing, {len(different)} differ")
    print("".join(f"  {difference}\n" for difference in different), end="")
    print(f"linux: {total - len(different)} passed, {len(different)} failed")
    return 1 if different else 0


if __name__ == "__main__":
    if sys.argv[1:] in (["-h"], ["--help"]):
        signal.signal(signal.SIGPIPE, signal.SIG_DFL)
        print(__doc__, end="")
        sys.exit(0)
    if any(word.startswith("-") for word in sys.argv[1:]):
        sys.exit(__doc__)
    try:
        sys.exit(main([Path(word) for word in sys.argv[1:]]))
    except OSError as why:
        sys.exit(f"compare.py: {why.filename}: {why.strerror}")
    except subprocess.CalledProcessError as why:
        sys.exit(f"compare.py: {' '.join(map(str, why.cmd))}: status {why.returncode}")
