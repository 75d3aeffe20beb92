"""What the scripts share: the crates, the programs that they run, runs, and the report of what was tried."""
from __future__ import annotations

import os
import re
import shlex
import subprocess
import sys
import tomllib
from functools import cache
from pathlib import Path
from typing import Iterable, NamedTuple

TOP = Path(__file__).resolve().parent.parent
# (the gate shares the launcher's modules)
sys.path.append(str(TOP / "launcher"))

# words with which each command writes something, by what it reads
TABLES = [tomllib.loads(it.read_text(encoding="utf-8")).get("everywhere", {}) for it in sorted((TOP / "examples" / "commands").glob("*.toml"))]
WORDS = {kind: [words for it in TABLES for words in it.get(kind, ())] for kind in ("trace", "script", "picture", "nothing")}
RACED = re.compile(r"run (\d+) closed entries (\d+) free (\d+) resv (\d+)")


class Ran(NamedTuple):
    """A run's status and both streams."""

    status: int
    out: str
    err: str


def run(program: Path, words: str, read: str | bytes = b"", **how) -> Ran:
    """Runs a program with these words and this input. One that takes an hour hangs."""
    given = read.encode() if isinstance(read, str) else read
    # (the usage that it prints has the name that users call it by)
    how = {"capture_output": True, "timeout": 3600, **how}
    ran = subprocess.run(["hugepool", *shlex.split(words)], executable=program, input=given, **how)
    return Ran(ran.returncode, ran.stdout.decode(errors="replace"), ran.stderr.decode(errors="replace"))


def closed(out: str) -> list[tuple[int, ...]] | None:
    """Of each race its entries, free frames and reserve count, where each whole line is that of a closed one, with its number."""
    found = [RACED.fullmatch(line) for line in out.splitlines()]
    is_right = out.count("\n") == len(found) and all(it and int(it[1]) == number for number, it in enumerate(found))
    return [tuple(map(int, it.groups()[1:])) for it in found] if is_right else None


def example(name: str) -> str:
    return (TOP / "examples" / name).read_text(encoding="utf-8")


def first_difference(printed: list[str], wanted: list[str]) -> str:
    """The first line that differs, and how."""
    at = next((k for k, (a, b) in enumerate(zip(printed, wanted)) if a != b), min(len(printed), len(wanted)))
    of = lambda lines: repr(lines[at]) if at < len(lines) else "nothing"
    return f"line {at + 1}: {of(printed)}, and not {of(wanted)}"


def report(name: str, tries: Iterable[tuple[str, bool]]) -> int:
    """Prints what did not go as it should, and the counts. The status is 1 where anything didn't, or where nothing was tried."""
    tried = list(tries)
    wrong = [f"  not so: {what}\n" for what, is_so in tried if not is_so] if tried else ["  nothing was tried\n"]
    print("".join(wrong), end="")
    print(f"{name}: {max(0, len(tried) - len(wrong))} passed, {len(wrong)} failed")
    return 1 if wrong else 0


def crates_of(top: Path = TOP) -> dict[str, list[str]]:
    """The crates of crates.txt, each with the libraries on which it stands."""
    lines = (line.partition("#")[0].strip() for line in (top / "crates.txt").read_text(encoding="utf-8").splitlines())
    heads = (line.partition(":") for line in lines if line)
    return {head.split()[0]: below.split() for head, _, below in heads}


def below(crate: str, crates: dict[str, list[str]]) -> set[str]:
    """The crates of the repository on which this one stands, at any remove."""
    own = [it for it in crates[crate] if it in crates]
    return {*own, *(low for it in own for low in below(it, crates))}


def of_program(crate: str = "hugepool") -> list[str]:
    """The crates that a program is made of, its own last."""
    crates = crates_of()
    return [*(it for it in crates if it in below(crate, crates)), crate]


def sources_of(crates: Iterable[str]) -> dict[Path, str]:
    """The texts in src/ of these crates."""
    return {file: file.read_text(encoding="utf-8") for it in crates for file in sorted((TOP / "crates" / it / "src").rglob("*.rt"))}


def program_of(crate: str) -> Path:
    return TOP / "crates" / crate / "out" / crate


@cache
def tested() -> Path:
    """The program that the tests run: the proved one if it is current, else the one that is compiled without proof."""
    own = {**os.environ, "HUGEPOOL": "path"}
    ran = subprocess.run([TOP / "hugepool"], env=own, stdin=subprocess.DEVNULL, stdout=subprocess.PIPE, text=True, check=True)
    return Path(ran.stdout.strip())


def commands() -> list[str]:
    """The commands that the program's help names."""
    return re.findall(r"^  ([a-z]+) ", run(tested(), "--help").out.partition("Commands:\n")[2].partition("\n\n")[0], re.M)


def status_of(words: str) -> int:
    """The status of these words behind a fault: that of a search or an audit isn't taken for an answer."""
    return 2 if words.split()[0] in ("audit", "find", "minimize") or "--every" in words else 1


def is_proved() -> bool:
    return tested().name == "hugepool"


def is_current(file: Path, crate: str) -> bool:
    """Whether a file that was built of a crate is newer than each source of the crate and of those below it."""
    folders = [TOP / "crates" / it / part for it in of_program(crate) for part in ("src", "specs", "proofs")]
    newer = ["find", TOP / "crates.txt", *filter(Path.is_dir, folders), "-newer", file, "-print", "-quit"]
    return file.is_file() and not subprocess.run(newer, stdout=subprocess.PIPE, check=True).stdout
