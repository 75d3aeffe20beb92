"""The program that answers for the machine, and on what its answers rest."""
from __future__ import annotations

import os
import shutil
import subprocess
from dataclasses import dataclass
from pathlib import Path

from compare import PROGRAM, TOP, Program, replaying
from kernel.problem import Problem

PLAIN = TOP / "bench" / "plain"
SIMULATE = PLAIN / "target" / "release" / "simulate"


@dataclass(frozen=True)
class Machine:
    """What writes the machine's side of a trace, and a line about how far it can be relied on."""

    program: Program
    basis: str


def is_proved_current() -> bool:
    """Whether the proved program was built from the sources as they are; asking never starts a proof.

    The launcher writes when its build began beside the program. A source that is newer, a folder in which one is gone, or no such note
    means that it isn't current.
    """
    begun = PROGRAM.with_name(f"{PROGRAM.name}.begun")
    if shutil.which("rt") is None or not os.access(PROGRAM, os.X_OK) or not begun.is_file():
        return False
    folders = [it for kind in ("src", "specs", "proofs") for it in TOP.glob(f"crates/*/{kind}")]
    sources = [TOP / "crates.txt", TOP / "HANDLES", *folders, *(it for folder in folders for it in folder.rglob("*"))]
    return all(it.stat().st_mtime <= begun.stat().st_mtime for it in sources)


def answers_trace(program: Program) -> bool:
    """Whether a program replays a trace as it should."""
    try:
        return program(["pool 1 1 1 1", "begin 1 exit"])[0] == "begun"
    except (OSError, subprocess.SubprocessError, IndexError, UnicodeDecodeError):
        return False


def plain_program() -> Path:
    """The plain program; cargo compiles it, or leaves it if it is current."""
    if shutil.which("cargo") is None:
        if SIMULATE.is_file():
            return SIMULATE
        raise Problem("there is no proved program, and 'cargo' (package: cargo), which compiles the plain one, is not on the PATH")
    command = ["cargo", "build", "--quiet", "--release", "--bin", "simulate"]
    built = subprocess.run(command, cwd=PLAIN, capture_output=True, text=True, check=False)
    if built.returncode:
        raise Problem(f"cargo can't compile {PLAIN}: {first_error(built.stderr)}")
    return SIMULATE


def first_error(text: str) -> str:
    return next((line for line in text.splitlines() if line.startswith("error")), "no reason given")


def machine(named: str | None) -> Machine:
    """The program named, else the proved one, else the plain one."""
    if named is not None:
        command, basis = [Path(named).resolve(), "replay"], f"{named}, of which nothing is known here"
    elif is_proved_current():
        command, basis = [PROGRAM, "replay"], "the proved program, built from the sources as they are"
    else:
        command, basis = [plain_program()], "the plain Rust program bench/plain: tested, and nothing proved of it"
    found = Machine(replaying(*command), basis)
    if not answers_trace(found.program):
        raise Problem(f"{command[0]} doesn't replay a trace")
    return found
