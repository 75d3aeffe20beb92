"""Proves, tests and compares: what a change has to pass.

usage: ./check [--install] [STEP] [..]

  ./check              all tests that need no proof: over the proved program if it is current, else over the one compiled without proof
  ./check all          every proof, from nothing (rt ci); these tests; and the mutants that are due, but none behind the 145th minute
  ./check proofs       the proofs alone
  ./check mutants [CRATE ..] [--all]
                       the mutants: wrong bodies that the prover must refuse; of crates that are named, of those that are due, or of all
  ./check examples     what the program writes of the examples, of every size, at terminals, in threads and on streams that fail;
                       what ./hugepool compiles and proves; documents that show what commands print
  ./check faults       a failed allocation at each place where a program makes one, and the threads that it starts
  ./check linux        what Linux kernels answered (conformance/), peers' tests, recordings of races
  ./check library      libhugepool from C, Rust and Python
  ./check documents    the names in documents, pages that scripts write, docs/PROVED.md beside the sources, whether each mutant applies

What is missing is installed where this runs as root or with --install; else one line says how. It prints what was left out for want of a
command or of a proof, and the output of each script that failed. The last line is 'N passed, M failed'.
"""
from __future__ import annotations

import os
import re
import resource
import shlex
import shutil
import signal
import subprocess
import sys
import tempfile
import time
from concurrent.futures import ThreadPoolExecutor, wait
from pathlib import Path
from typing import Callable, NamedTuple

import programs
from programs import TOP, is_current, program_of
import launch  # (of the launcher, which programs makes known, as the next)
from building import Line


class Script(NamedTuple):
    """A script: its words, and what it needs: commands, modules, and what is proved."""

    words: str
    needs: tuple[str, ...] = ()


PROVED, LIBRARY = "the proved program (./hugepool build)", "the proved library (./check all)"
CONFORMANCE = TOP / "conformance"
# (those that take longest come first)
GROUPS = {
    "faults": [Script("gate/growths.py", ("cc",))],
    "examples": [
        Script("gate/unproved.py", ("cc",)),
        Script("gate/sweep.py", ("cargo",)),
        *(Script(f"gate/{it}.py") for it in ("examples", "showing", "test_launcher")),
        Script("gate/objects.py", ("jsonschema",)),
        Script("gate/documents.py --shown"),
        Script("bench/fuzz.sh 10 1", ("cargo",)),
    ],
    "linux": [
        Script("conformance/compare.py", (PROVED,)),
        *(Script(f"conformance/{it}.py") for it in ("races", "live/lines", "live/lost", "live/repairs", "audit/pictures")),
        # (each test that there is)
        *(
            Script(str(it.relative_to(TOP)), ("cc", "cargo", *([PROVED] if it.stem == "test_compare" else [])))
            for it in sorted(CONFORMANCE.glob("**/test_*.py"))
        ),
    ],
    "library": [*(Script(f"library/{it}.py", ("cc",)) for it in ("header", "abi")), Script("library/check.py", ("cc", LIBRARY))],
    "documents": [
        *(Script(f"gate/{it}") for it in ("documents.py", "index.py", "proved.py", "mutants.py --apply")),
        *(Script(f"gate/{it}.mjs", ("node",)) for it in ("html_test", "html_clicks")),
    ],
}
# the commands that scripts need, each with its Debian package; without the first nothing runs
PACKAGES = {"rt": None, "git": "git", "find": "findutils", "cc": "gcc libc6-dev"}
PACKAGES |= {"cargo": "cargo", "node": "nodejs", "pytest": "python3-pytest", "jsonschema": "python3-jsonschema"}
# (modules, and the python that has to have them)
MODULES = {"pytest": "/usr/bin/python3", "jsonschema": "python3"}
COUNTS = re.compile(r"^(?:[\w ]+: )?(\d+) passed, (\d+) failed$", re.M)
BEGAN = time.monotonic()
# minutes of all proofs from nothing, behind which too little of three hours is left for those of the library once more; and those behind
# which no mutant is tried any more
LONG, ENOUGH = 90, 145
# (without a network apt-get gives up soon)
QUICKLY = ("-o", "Acquire::Retries=0", "-o", "Acquire::http::Timeout=10")


def lacking() -> list[str]:
    """The commands and modules that aren't there; CC may name another C compiler."""
    found = {it: shutil.which(shlex.split(os.environ.get("CC", "cc"))[0] if it == "cc" else it) for it in PACKAGES}
    for it, python in MODULES.items():
        found[it] = found[it] or subprocess.run([python, "-c", f"import {it}"], stderr=subprocess.DEVNULL).returncode == 0
    return [it for it in PACKAGES if not found[it]]


def provide(may_install: bool) -> list[str]:
    """Installs what is missing, where that is asked for or this is root, and returns the commands that still are."""
    packages = " ".join(PACKAGES[it] for it in lacking() if PACKAGES[it])
    if packages and shutil.which("apt-get") and (may_install or os.geteuid() == 0):
        print(f"check: installing {packages}", flush=True)
        apt = [*([] if os.geteuid() == 0 else ["sudo"]), "apt-get", "--quiet", *QUICKLY]
        for words in (["update"], ["install", "--yes", "--no-install-recommends", *packages.split()]):
            subprocess.run([*apt, *words], stdin=subprocess.DEVNULL, stdout=subprocess.DEVNULL, stderr=subprocess.DEVNULL)
    missing = lacking()
    if packages := " ".join(PACKAGES[it] for it in missing if PACKAGES[it]):
        print(f"check: missing: {', '.join(it for it in missing if PACKAGES[it])}: sudo apt-get install {packages}", flush=True)
    if "rt" in missing:
        print('check: missing: rt, the command of the Rattle toolchain (README, "The toolchain")', flush=True)
    return missing


class Gate:
    """What passed and failed so far, and what was left out."""

    def __init__(self, lacking: list[str]) -> None:
        self.lacking, self.passed, self.failed, self.left_out, self.wrong, self.took = lacking, 0, 0, [], [], []

    def without(self, script: Script) -> str:
        """What a script lacks."""
        archive = TOP / "crates" / "hp_c" / "out" / "libhp_c.a"
        there = {PROVED: programs.is_proved, LIBRARY: lambda: is_current(archive, "hp_c")}
        return ", ".join(it for it in script.needs if (not there[it]() if it in there else it in self.lacking))

    def run(self, words: list[str], name: str, is_shown: bool = False) -> bool:
        """Runs a command, counts what it says of itself, and returns whether it ended well. One that counts nothing passed or failed; one
        that fails and counts no failure has one. What takes very long is shown as it comes."""
        began, said = time.monotonic(), ""
        how = {"stdin": subprocess.DEVNULL, "stdout": subprocess.PIPE, "stderr": subprocess.STDOUT, "text": True, "errors": "replace"}
        with subprocess.Popen(words, cwd=TOP, **how) as ran:
            for text in ran.stdout:
                said += text
                print(text if is_shown else "", end="", flush=is_shown)
        counts = [(int(passed), int(failed)) for passed, failed in COUNTS.findall(said)]
        passed, failed = (sum(it) for it in zip(*counts)) if counts else (int(not ran.returncode), 0)
        failed = failed or int(ran.returncode != 0)
        self.passed, self.failed = self.passed + passed, self.failed + failed
        self.left_out += re.findall(r"^left out: .*", said, re.M)
        print(f"check: {name}: {passed} passed, {failed} failed, {(took := time.monotonic() - began):.0f} s", flush=True)
        self.took += [f"{name} {took / 60:.0f} min"] if took >= 300 else []
        if failed:
            self.wrong.append(f"== {name}\n{said}")
        return not failed

    def scripts(self, several: list[Script]) -> None:
        """Runs scripts side by side, one a processor, and says which are left."""
        self.left_out += [f"left out: {it.words}: it needs {lacks}" for it in several if (lacks := self.without(it))]
        several = [it for it in several if not self.without(it)]
        line, left = Line("check", sys.stdout), {it.words for it in several}
        with ThreadPoolExecutor(os.cpu_count() or 1) as pool:
            begun = {pool.submit(self.run, command(it.words), it.words): it.words for it in several}
            while left:
                line.show(lambda: f"{len(begun) - len(left)} of {len(begun)} scripts are done; left are {', '.join(sorted(left))}")
                left -= {begun[it] for it in wait(begun, timeout=0.2).done}
            line.clear()
        for it in begun:
            it.result()

    def tell(self) -> int:
        """Prints what was left out, what failed, how long it took, and the counts, and returns the status."""
        used, clock = resource.getrusage(resource.RUSAGE_CHILDREN), (time.monotonic() - BEGAN) / 60
        took = [*self.took, f"all {clock:.0f} min, with {used.ru_utime + used.ru_stime:.0f} s of processor time"]
        print("".join([*self.wrong, *(f"{it}\n" for it in self.left_out), f"check: {'; '.join(took)}\n"]), end="")
        print(f"{self.passed} passed, {self.failed} failed")
        return 1 if self.failed else 0


def command(words: str) -> list[str]:
    path, *more = words.split()
    return [*([sys.executable, "-B"] if path.endswith(".py") else []), str(TOP / path), *more]


def proofs(gate: Gate, _: list[str]) -> bool:
    """Where it ends well, the tests run the programs that were proved and built by it."""
    with tempfile.NamedTemporaryFile(prefix="check-began-") as began:
        print("check: rt ci: every proof from nothing", flush=True)
        if not gate.run(["rt", "ci"], "rt ci", True):
            return False
        # (it sets aside what was there before, so these are its own, also where it took them from an earlier run)
        if program_of("hugepool").is_file():
            program_of("hugepool").touch()
        own = {**os.environ, "HUGEPOOL_BUILT_SINCE": began.name}
        subprocess.run([TOP / "hugepool", "--help"], env=own, stdout=subprocess.DEVNULL, check=True)
        # (what was written meanwhile is newer)
        for it in filter(Path.is_file, map(program_of, ("hp_memory_tests", "hp_pool_bench"))):
            os.utime(it, (os.stat(began.name).st_mtime,) * 2)
    return True


def tests(gate: Gate, groups: list[str]) -> bool:
    kind = "proved program" if programs.is_proved() else "program that is compiled without proof (./hugepool build proves it)"
    print(f"check: the tests run the {kind}: {programs.tested()}", flush=True)
    gate.scripts([it for group in groups for it in GROUPS[group]])
    return not gate.failed


def mutants(gate: Gate, words: list[str]) -> bool:
    """Runs them with their output, which takes long."""
    named = f"gate/mutants.py {' '.join(words)}".strip()
    return gate.run(command(named), named, True)


def library(gate: Gate) -> bool:
    """Has the library for C proved and built, over libraries that are proved side by side."""
    built = gate.run(command("launcher/launch.py libraries hp_c"), "the libraries below hp_c", True)
    return built and gate.run(["env", f"--chdir={TOP / 'crates' / 'hp_c'}", *launch.RT, "lib"], "the library for C")


def everything(gate: Gate, _: list[str]) -> bool:
    """All others rest on what `rt ci` proves, so they are left out where that fails. Some kits keep nothing of it for other commands: there
    the library is proved from nothing once more, but not on a machine on which all would take over three hours; nor are all mutants tried
    there: those that aren't stay due."""
    if not proofs(gate, []):
        gate.left_out.append("left out: all tests and mutants, since they rest on what is proved")
        return False
    is_kept, minutes = (TOP / "crates" / "hp_core" / "out" / "rlib" / "stamp").exists(), (time.monotonic() - BEGAN) / 60
    steps = [] if minutes > LONG and not is_kept else [library]
    fine = [*(step(gate) for step in steps), tests(gate, [*GROUPS])]
    return all([*fine, mutants(gate, ["--minutes", f"{ENOUGH - (time.monotonic() - BEGAN) / 60:.0f}"])])


STEPS: dict[str, Callable[[Gate, list[str]], bool]] = {
    "all": everything,
    "proofs": proofs,
    "mutants": mutants,
    **{group: lambda gate, _, group=group: tests(gate, [group]) for group in GROUPS},
}


def main(words: list[str]) -> int:
    may_install = "--install" in words
    words = [it for it in words if it != "--install"]
    if words[:1] in (["-h"], ["--help"], ["help"]):
        signal.signal(signal.SIGPIPE, signal.SIG_DFL)
        print(__doc__, end="")
        return 0
    if words and words[0] not in STEPS or words[1:] and words[0] != "mutants":
        print(__doc__.split("\n\n", 1)[1], end="", file=sys.stderr)
        return 2
    lacking = provide(may_install)
    if "rt" in lacking or "find" in lacking:
        return 127
    # (no script has ./hugepool prove anything)
    os.environ["HUGEPOOL"] = "now"
    gate, step = Gate(lacking), STEPS[words[0]] if words else lambda gate, _: tests(gate, [*GROUPS])
    step(gate, words[1:])
    return gate.tell()


if __name__ == "__main__":
    sys.exit(main(sys.argv[1:]))
