#!/usr/bin/env python3
"""Builds a program and runs it: without proof, or proved, with the libraries that it stands on side by side.

usage: launch.py unproved CRATE MOMENT SOURCES [WORD ..]    what ./hugepool does where nothing was proved yet
       launch.py proved CRATE MOMENT SOURCES WORD ..        what ./hugepool build does
       launch.py libraries CRATE ..                         proves and builds the libraries that these crates stand on
       launch.py one FOLDER JOBS                            proves and builds one library, over libraries that are built
       launch.py rt WORD ..                                 what `rt` does, sooner

`rt try` compiles a program without proof, with checks at run time, runs it once and removes it. While the program runs, it lies in a
folder below TMPDIR. A hard link to it, taken then, keeps it as out/unproved. The name of that file is not documented.

What is proved, and how it is kept, is the toolchain's own doing; `rt run` afterwards finds each library built, and proves and builds the
program. The toolchain's module is the one way to prove libraries side by side, and this file the one place that loads it: `rt lib` locks
all crates below its own, and all stand on one; `rt all check` gives each crate one job. Meanwhile this holds the locks.
"""
from __future__ import annotations

import contextlib
import os
import shutil
import subprocess
import sys
import tempfile
import time
from importlib.machinery import SourceFileLoader
from importlib.util import module_from_spec, spec_from_loader
from pathlib import Path
from types import ModuleType
from typing import Callable, Iterator

import building
from building import BuildFailed, Interrupted, Line, SIGNALS, TOP, say
from proving import Library, NotProved, Proving, begin, with_chains

# seconds that each took to compile without proof on an idle machine (2026-11-28)
SECONDS = {"replay": 25, "hugepool": 80}
# what the program reads while it is looked for: a trace that it works on for a moment
TRACE = b"pool 1 1 1 1\n" + 20_000 * b"step 1\n"
PAUSE = 0.02
RT = [sys.executable, __file__, "rt"]
# what each crate's first proof takes: processor seconds, and MiB of its largest process (2026-12-01; those near the usual aren't listed).
# A build notes it in the second file, which goes before the first.
WEIGHTS = Path(__file__).with_name("weights.txt"), TOP / "out" / "weights.txt"
# the usual processor seconds of a crate, and the share of the free memory that is planned on
USUAL, SHARE = 80.0, 0.85
MIB = 1024 * 1024


def follow(ran: subprocess.Popen, room: Path, to: Path, crate: str) -> bool:
    """Waits until `rt try` ends, shows how far it is, and returns whether the program that it ran was kept."""
    began, line, usual, is_taken = time.monotonic(), Line(), SECONDS.get(crate, 100), False
    while ran.poll() is None:
        SIGNALS.look()
        for file in () if is_taken else room.glob("*/*/program"):
            with contextlib.suppress(OSError):
                os.link(file, to)
                is_taken = True
        line.show(lambda: f"compiling without proof, {time.monotonic() - began:.0f} s so far; an idle machine takes {usual} s")
        time.sleep(PAUSE)
    line.clear()
    return is_taken


def compile_unproved(crate: str, program: Path, room: Path) -> None:
    """Has `rt try` compile the program and run it on the trace, and keeps it. Besides the compiled program `rt try` has an interpreter; one
    step of that is enough here."""
    # (a program that only replays reads no words)
    words = ["rt", "try", "--steps", "1", "--", *([] if crate == "replay" else ["replay"])]
    (room / "trace").write_bytes(TRACE)
    how = {"cwd": TOP / "crates" / crate, "env": {**os.environ, "TMPDIR": str(room)}, "stdout": subprocess.DEVNULL}
    with open(room / "trace", "rb") as trace, open(room / "log", "w+", encoding="utf-8", errors="replace") as log:
        ran = subprocess.Popen(words, stdin=trace, stderr=log, **how)
        try:
            is_taken = follow(ran, room, room / "new", crate)
        finally:
            ran.terminate()
            ran.wait()
        log.seek(0)
        said = log.read()
    # (a signal may have ended it before this process)
    SIGNALS.look()
    if ran.returncode:
        raise BuildFailed(f"{said}hugepool: the sources were refused")
    if not is_taken:
        raise BuildFailed("hugepool: the program was compiled, but can't be kept; ./hugepool build proves and builds it")
    (room / "new").replace(program)


def once_a_call(method: Callable) -> Callable:
    """A method of a crate that asks those below it: while it is called from outside, each of them is asked once. The toolchain asks again on
    each path that leads there, some 28,000 times below the program, and reads all files each time."""
    known, depth = {}, 0

    def asked(crate: object) -> object:
        nonlocal depth
        if crate.folder not in known:
            depth += 1
            try:
                known[crate.folder] = method(crate)
            finally:
                depth -= 1
        found = known[crate.folder]
        if not depth:
            known.clear()
        return found

    return asked


def load() -> ModuleType:
    """The module behind the command `rt`. Loading it does nothing else."""
    loader = SourceFileLoader("rt_command", os.path.realpath(shutil.which("rt") or "rt"))
    module = module_from_spec(spec_from_loader("rt_command", loader))
    sys.dont_write_bytecode = True
    loader.exec_module(module)
    crate = module.rtlib.Crate
    crate.stamp, crate.below = once_a_call(crate.stamp), once_a_call(crate.below)
    return module


def prove_one(folder: str, jobs: str) -> int:
    """What `rt lib` does, without its locks."""
    os.chdir(folder)
    rt = load()
    # (copies of a repository on one machine share what they have proved; kits before 13f can't)
    if hasattr(rt, "share_work"):
        rt.share_work(True)
    crate = rt.rtlib.Crate(folder, rt.rtlib.root_above(folder), {})
    return crate.build_rlib(["--jobs", jobs], anew=False)


def weights() -> dict[str, tuple[float, float]]:
    """What is known of each crate: the processor seconds and the bytes of its first proof."""
    lines = [line.split() for file in WEIGHTS if file.is_file() for line in file.read_text(encoding="utf-8").splitlines()]
    return {name: (float(seconds), float(memory) * MIB) for name, seconds, memory in lines}


def prove(proving: Proving) -> None:
    """Proves what is left, and notes what each proof from nothing took, also where the build is interrupted."""
    try:
        proving.prove()
    finally:
        WEIGHTS[1].parent.mkdir(exist_ok=True)
        lines = (f"{name} {seconds:.0f} {memory / MIB:.0f}\n" for name, (seconds, memory) in (weights() | proving.took).items())
        WEIGHTS[1].write_text("".join(lines), encoding="utf-8")


@contextlib.contextmanager
def locked(rt: ModuleType, crates: list) -> Iterator[None]:
    """Keeps other commands of the toolchain out of the crates, as the toolchain itself does."""
    with SIGNALS.raising():
        held = rt.rtlib.lock(crates)
    try:
        yield
    finally:
        for it in held:
            os.close(it)


def prove_libraries(names: list[str], logs: Path, program: str = "") -> Proving:
    """Proves and builds the libraries below these crates, over those that are built, and leaves the program, if one is named."""
    shutil.rmtree(logs, ignore_errors=True)
    logs.mkdir(parents=True)
    rt, crates, known, libraries = load(), {}, weights(), []
    for name in names:
        top = rt.rtlib.Crate(str(TOP / "crates" / name), str(TOP), {})
        crates |= {it.name: it for it in [*top.below(), *([top] if name == program else [])] if it.name not in crates}
    for it in crates.values():
        seconds, memory = known.get(it.name, (USUAL, 0.0))
        libraries.append(Library(it.name, it.folder, frozenset(low.name for low in it.below()), seconds, memory or it.planned()))
    built = {it.name for it in crates.values() if it.name != program and it.is_built()}
    proving = Proving(with_chains(libraries), built, rt.processors(), SHARE * rt.free(), logs)
    last = [it for it in proving.left if it.name == program]
    proving.left = [it for it in proving.left if it.name != program]
    with locked(rt, list(crates.values())):
        prove(proving)
    proving.left = last
    return proving


def prove_program(crate: str, logs: Path) -> None:
    """Proves and builds the libraries side by side, and has the toolchain prove the program over them, and build it."""
    proving = prove_libraries([crate], logs, crate)
    program = proving.left.pop()
    jobs = proving.jobs_that_fit(program, proving.processors)
    proving.follow(begin([*RT, "run", "--jobs", str(jobs), "--", "--help"], program, jobs, logs))
    prove(proving)


def reporting(logs: Path, build: Callable, *given) -> None:
    """Builds something, and shows what the prover said of what isn't proved, which stands in the logs."""
    try:
        build(*given, logs)
    except NotProved as name:
        said = (logs / f"{name}.log").read_text(encoding="utf-8", errors="replace")
        raise BuildFailed(f"{said}hugepool: the build failed: {name} is not proved") from name


def build(kind: str, crate: str, moment: str, sources: str, *words: str) -> None:
    """Builds a program, and runs it, unless the words ask for the build alone."""
    out, began = TOP / "crates" / crate / "out", time.monotonic()
    if kind == "unproved":
        program = out / "unproved"
        with building.marked(program, float(moment), sources, words):
            with tempfile.TemporaryDirectory(prefix="unproved-", dir=out) as name:
                compile_unproved(crate, program, Path(name))
        os.execv(TOP / "hugepool", [str(TOP / "hugepool"), *words])
    program = out / crate
    with building.marked(program, float(moment), sources, words):
        reporting(out / "proving", prove_program, crate)
    say(f"the program is proved and built, in {(time.monotonic() - began) / 60:.1f} min")
    if words != ("build",):
        os.execv(program, [crate, *words])


def main(words: list[str]) -> int:
    if words[0] == "one":
        return prove_one(*words[1:])
    if words[0] == "rt":
        return load().main(words[1:])
    SIGNALS.catch()
    try:
        if words[0] == "libraries":
            reporting(TOP / "out" / "proving", prove_libraries, words[1:])
        else:
            build(*words)
    except Interrupted:
        say("the build was interrupted; what is proved is kept")
        return building.INTERRUPTED
    except BuildFailed as why:
        print(why, file=sys.stderr)
        return building.FAILED
    return 0


if __name__ == "__main__":
    sys.exit(main(sys.argv[1:]))
