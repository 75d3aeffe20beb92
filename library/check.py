#!/usr/bin/env python3
"""Tries libhugepool as programs in C, Rust and Python use it; those in C with sanitizers, and with each growth of memory refused in turn.

usage: library/check.py [--events N]

It builds the proved archive, a heap over malloc and the programs of library/examples and library/tests. Then, on the traces of examples/:
outcomes, with a branch at each moment at rest, and texts are those beside the trace, to the byte, and pictures those of docs/pictures; and
of each trace that isn't long each growth of memory is refused once, and pools that run it go from thread to thread. Then the searches of
examples/commands, and others by conditions of random words; calls that name nothing, closed pools, the largest pool, rooms that are too
small, and N events of random numbers (200,000; a long try is 10,000,000); and that the library has no variables, which threads would share.

At last a program in C++, where there is c++; the crates for Rust, where there is cargo, each way that they find the library; the Python
module, where there is pytest; both over an instrumented library (sanitized.py); a wheel in an environment of its own, where there are
setuptools; and the programs of docs/LIBRARY.md.
"""
from __future__ import annotations

import argparse
import os
import re
import shutil
import subprocess
import sys
import tempfile
from concurrent.futures import ThreadPoolExecutor
from contextlib import redirect_stderr, redirect_stdout
from io import StringIO
from pathlib import Path
from typing import Iterator

import archive
import module
import sanitized
import searched
import shown
from archive import ARCHIVE, TOP

LIBRARY = TOP / "library"
SANITIZED = ["-std=gnu11", "-O1", "-g", "-Wall", "-Wextra", "-Werror", "-fsanitize=address,undefined", "-fno-sanitize-recover=all"]
PROGRAMS = {"examples": ["branches", "find"], "tests": ["texts", "misuse", "refused", "searches", "odd_searches", "threads"]}
OWN_HEAPS = ("tests/refused", "tests/searches")
# of traces with more lines than this only some growths would be refused in a minute
LONG = 300
# searches by random words, which take some 5 seconds
ODD_SEARCHES = 4_000


def build(room: Path) -> None:
    """Builds the archive where a source is newer, and the programs."""
    try:
        archive.prove("library")
    except archive.Failed as why:
        sys.exit(str(why))
    for source in (f"{folder}/{it}" for folder, names in PROGRAMS.items() for it in names):
        to = room / Path(source).name
        more = [] if source in OWN_HEAPS else [LIBRARY / "heap.c"]
        words = ["cc", *SANITIZED, "-I", LIBRARY / "include", "-o", to, LIBRARY / f"{source}.c", *more, ARCHIVE]
        ran = subprocess.run(words, stdout=subprocess.PIPE, stderr=subprocess.STDOUT, text=True)
        if ran.returncode:
            sys.exit(f"library: {ran.stdout}library: {source}.c wasn't built")


def share(room: Path) -> Path:
    """The archive and the heap as a shared library, whose names are the header's."""
    (room / "exports.map").write_text("{ global: hugepool_*; local: *; };\n", encoding="utf-8")
    library = room / "libhugepool.so.1"
    words = ["cc", "-O2", "-fPIC", "-shared", f"-Wl,-soname,{library.name}", f"-Wl,--version-script={room / 'exports.map'}", "-o", library]
    subprocess.run([*words, "-Wl,--whole-archive", ARCHIVE, "-Wl,--no-whole-archive", LIBRARY / "heap.c"], check=True)
    return library


def python_with(*modules: str) -> str | None:
    """A Python that has these modules."""
    return next((it for it in (sys.executable, "/usr/bin/python3") if can(it, f"import {', '.join(modules)}")), None)


def try_python(room: Path, **own: str | Path) -> tuple[int, int]:
    """How many tests of the module passed, and how many failed, by a library that variables name or the shared one."""
    python = python_with("pytest")
    if python is None:
        print("left out: the Python module, since pytest is missing (package: python3-pytest)")
        return 0, 0
    own = {"HUGEPOOL_LIBRARY": share(room)} | own
    words = [python, "-m", "pytest", "-q", "-p", "no:cacheprovider", "library/python"]
    return counted(words, TOP, {**os.environ, "PYTHONDONTWRITEBYTECODE": "1", **{it: str(value) for it, value in own.items()}})


def counted(words: list[str | Path], where: Path, own: dict[str, str]) -> tuple[int, int]:
    """How many tests a command says passed, and whether it failed; then what it printed is shown."""
    ran = subprocess.run(words, cwd=where, env=own, stdin=subprocess.DEVNULL, stdout=subprocess.PIPE, stderr=subprocess.STDOUT, text=True)
    print("" if ran.returncode == 0 else ran.stdout, end="")
    return sum(map(int, re.findall(r"(\d+) passed", ran.stdout))), int(ran.returncode != 0)


def try_wheel(room: Path) -> tuple[int, int]:
    """Whether a wheel installs in an environment of its own, and finds the library that it brings there."""
    python = python_with("ensurepip", "setuptools", "wheel", "venv")
    if python is None:
        print("left out: the wheel, since setuptools are missing (packages: python3-venv, python3-setuptools, python3-wheel)")
        return 0, 0
    made, own = room / "made", {it: value for it, value in os.environ.items() if it != "HUGEPOOL_LIBRARY"}
    given = ["PROGRAM=/bin/true", "COMMANDS=none", "PROVED=/dev/null", "VERSION=0"]
    given += [f"ARCHIVE={ARCHIVE}", f"BUILD={made}", f"PYTHON={python}"]
    trace = TOP / "examples" / "map-four-of-four.trace"
    replays = f"import hugepool, sys; sys.stdout.write(hugepool.replay(open({str(trace)!r}).read()))"
    is_typed = "import hugepool, pathlib; pathlib.Path(hugepool.__file__).with_name('py.typed').stat()"
    steps = [
        ["make", "--file=packaging/Makefile", *given, "wheel"],
        [python, "-m", "venv", room / "venv"],
        [room / "venv" / "bin" / "pip", "install", "--quiet", "--no-index", f"--find-links={made / 'wheel'}", "hugepool"],
        [room / "venv" / "bin" / "python", "-c", is_typed],
        [room / "venv" / "bin" / "python", "-c", replays],
    ]
    for words in steps:
        ran = subprocess.run(words, cwd=TOP, env=own, stdin=subprocess.DEVNULL, capture_output=True, text=True)
        if ran.returncode:
            print(f"library: the wheel: {' '.join(map(str, words))}: {ran.stdout}{ran.stderr}")
            return 0, 1
    return int(ran.stdout == trace.with_suffix(".out").read_text()), int(ran.stdout != trace.with_suffix(".out").read_text())


def can(python: str, code: str) -> bool:
    return shutil.which(python) is not None and subprocess.run([python, "-c", code], stderr=subprocess.DEVNULL).returncode == 0


def install(room: Path) -> Path:
    """The static library in a folder by itself, and a system's: a shared one, and what pkg-config has of it."""
    static, system = room / "static", room / "system"
    for it in static, system:
        it.mkdir()
    subprocess.run(["cc", "-O2", "-fPIC", "-c", "-o", room / "heap.o", LIBRARY / "heap.c"], check=True)
    shutil.copyfile(ARCHIVE, static / "libhugepool.a")
    subprocess.run(["ar", "rs", static / "libhugepool.a", room / "heap.o"], check=True, stderr=subprocess.DEVNULL)
    shutil.copy(share(room), system)
    (system / "libhugepool.so").symlink_to("libhugepool.so.1")
    (system / "hugepool.pc").write_text(f"Name: hugepool\nDescription: -\nVersion: 0\nLibs: -L{system} -lhugepool\n", encoding="utf-8")
    return static


def cargo(room: Path, words: str, **own: str | Path) -> tuple[int, int]:
    """How many tests of the crates cargo says passed, and whether it failed."""
    plain = {it: value for it, value in os.environ.items() if it != "HUGEPOOL_LIB_DIR"} | {"CARGO_TARGET_DIR": str(room / "target")}
    own = {it: str(value) for it, value in own.items()}
    return counted(["cargo", *words.split(), "--offline", "--quiet"], LIBRARY / "rust", {**plain, **own})


def try_rust(room: Path) -> tuple[int, int]:
    """The crates for Rust: linked statically, with a library that pkg-config finds, and with one that the linker finds; and their pages."""
    if shutil.which("cargo") is None:
        print("left out: the crates for Rust, since cargo is missing (package: cargo)")
        return 0, 0
    static, system = install(room), room / "system"
    told = [
        cargo(room, "test", HUGEPOOL_LIB_DIR=static),
        cargo(room, "test", PKG_CONFIG="/bin/false", LIBRARY_PATH=system, LD_LIBRARY_PATH=system),
        cargo(room, "doc --no-deps", RUSTDOCFLAGS="-D warnings", PKG_CONFIG="/bin/false"),
    ]
    if shutil.which("pkg-config"):
        told.append(cargo(room, "test", PKG_CONFIG_PATH=system, LD_LIBRARY_PATH=system))
    return sum(passed for passed, _ in told), sum(failed for _, failed in told)


def try_sanitized(room: Path) -> tuple[int, int]:
    """The module's tests and the crates' over an instrumented library; and that wrong callers are reported."""
    runtime, folder, tools = sanitized.runtime(), room / "instrumented", module.kit() / "toolchain"
    if runtime is None:
        print("left out: Rust and Python over an instrumented library, since the C compiler has no shared AddressSanitizer")
        return 0, 0
    try:
        library = sanitized.build(module.kept(room, tools, "library").file, tools / "bin" / "clang", folder)
    except archive.Failed as why:
        print(why)
        return 0, 1
    options = sanitized.options(folder)
    own = {"HUGEPOOL_LIBRARY": library, "LD_PRELOAD": runtime, "PYTHONMALLOC": "malloc", **options}
    told = [sanitized.unreported(try_python(room, **own), folder)]
    told += [sanitized.is_reported([sys.executable, "-c", code], LIBRARY / "python", own, folder, wanted) for code, wanted in sanitized.IN_PYTHON.items()]
    if shutil.which("cargo"):
        runs = {"CARGO_TARGET_X86_64_UNKNOWN_LINUX_GNU_RUNNER": f"env LD_PRELOAD={runtime}", **options}
        own = {"PKG_CONFIG": "/bin/false", "LIBRARY_PATH": folder, "LD_LIBRARY_PATH": folder, **runs}
        told.append(sanitized.unreported(cargo(room, "test --tests", **own), folder))
        told.append(sanitized.is_reported(["cargo", "run", "--offline"], sanitized.crate(folder), own, folder, sanitized.OVERRUN))
    return sum(passed for passed, _ in told), sum(failed for _, failed in told)


def try_page(room: Path) -> tuple[int, int]:
    """The programs of docs/LIBRARY.md, in each language that can be run."""
    own = {**os.environ, "PYTHONPATH": str(LIBRARY / "python"), "PYTHONDONTWRITEBYTECODE": "1", "HUGEPOOL_LIBRARY": str(share(room))}
    own |= {"HUGEPOOL_LIB_DIR": str(room / "static"), "CARGO_TARGET_DIR": str(room / "target")}
    passed = failed = 0
    for language, is_well, told in shown.tried(room, own, ["c", "python", *(["rust"] if shutil.which("cargo") else [])]):
        passed, failed = passed + is_well, failed + (not is_well)
        print("" if is_well else f"library: the program in {language} of docs/LIBRARY.md prints: {told}\n", end="")
    return passed, failed


def variables(library: Path) -> list[str]:
    """The sections of a library that hold variables, of a thread or of the whole process. (Tables with addresses are written once.)"""
    sections = subprocess.run(["readelf", "--sections", "--wide", library], capture_output=True, text=True, check=True).stdout
    found = re.findall(r"(\.t?(?:data|bss)(?!\.rel\.ro)[.\w]*) +\w+ +\w+ +\w+ +(\w+) ", sections)
    return [name for name, size in found if int(size, 16)]


def try_exports(room: Path) -> tuple[int, int]:
    """The shared library has the calls of library/abi.txt, and no other."""
    listed = set(re.findall(r"^call \w+ (\w+)", (LIBRARY / "abi.txt").read_text(encoding="utf-8"), re.MULTILINE))
    symbols = subprocess.run(["nm", "--dynamic", "--defined-only", share(room)], capture_output=True, text=True, check=True).stdout
    exported = {line.split()[-1].split("@")[0] for line in symbols.splitlines()}
    for it in sorted(listed ^ exported):
        print(f"library: only one of library/abi.txt and the shared library has {it}")
    return int(listed == exported), int(listed != exported)


def try_variables(room: Path) -> tuple[int, int]:
    """The library has none: so pools may go from thread to thread, and don't meet. The same look finds some where there are some."""
    (room / "some.c").write_text("int some = 1; static _Thread_local int other; int *none(void) { return &other; }\n", encoding="utf-8")
    subprocess.run(["cc", "-c", "-o", room / "some.o", room / "some.c"], check=True)
    found, seen = variables(ARCHIVE), variables(room / "some.o")
    print("".join(f"library: variables in {it}\n" for it in found), end="")
    is_well = not found and len(seen) == 2
    return int(is_well), int(not is_well)


def run(*words: str | Path, read: bytes = b"") -> tuple[int, bytes, bytes]:
    ran = subprocess.run(words, input=read, capture_output=True)
    return ran.returncode, ran.stdout, ran.stderr


def outcomes_of(trace: bytes, out: bytes) -> bytes:
    """Of what a replay writes the lines of the outcomes: one for each event."""
    return b"".join(out.splitlines(keepends=True)[: trace.count(b"\n") - 1])


def try_trace(room: Path, trace: Path) -> Iterator[tuple[str, bool, str]]:
    """What was tried on a trace, whether it went well, and what was told."""
    read, out, explained = trace.read_bytes(), trace.with_suffix(".out"), trace.with_suffix(".explained")
    status = trace.with_suffix(".status")
    if status.exists() and status.read_text().strip() != "0":
        code, told, complaint = run(room / "texts", "replay", trace)
        wanted = trace.with_suffix(".err").read_bytes().splitlines()[-1]
        yield "a fault and its reason", code == 1 and not told and wanted in complaint, complaint.decode()
        return
    drawn = TOP / "docs" / "pictures" / f"{trace.stem}.svg"
    for word, beside in ("replay", out), ("explain", explained), ("draw", drawn):
        if beside.exists():
            code, told, complaint = run(room / "texts", word, trace)
            yield word, code == 0 and told == beside.read_bytes(), complaint.decode()
    code, told, complaint = run(room / "texts", "check", trace)
    yield "check", code == 0 and told == b"events %d\n" % (read.count(b"\n") - 1), complaint.decode()
    if not out.exists():
        return
    wanted = outcomes_of(read, out.read_bytes())
    code, told, complaint = run(room / "branches", read=read)
    yield "branches", code == 0 and told == wanted, complaint.decode()
    if read.count(b"\n") <= LONG:
        (room / f"{trace.stem}.outcomes").write_bytes(wanted)
        code, told, complaint = run(room / "refused", trace, room / f"{trace.stem}.outcomes")
        yield "refused memory", code == 0 and told != b"0 growths refused\n", complaint.decode()
        code, told, complaint = run(room / "threads", trace, room / f"{trace.stem}.outcomes")
        yield "threads", code == 0 and (told != b"0 changes of threads\n") == bool(wanted), complaint.decode()


def try_search(room: Path, number: int, row: searched.Search) -> tuple[bool, str]:
    """Whether a search by the library ends as the row says, with a growth refused in turn, and what it said."""
    text = room / f"search-{number}"
    text.write_text(row.text, encoding="utf-8")
    search, *more = row.words
    code, told, complaint = run(room / "searches", search, text, *more)
    return code == row.status and told == row.wanted.encode(), complaint.decode()


def try_searches(room: Path) -> tuple[int, int]:
    """The searches of examples/commands, whose outputs are written by hand."""
    rows = searched.searches(TOP / "examples" / "commands")
    with ThreadPoolExecutor(os.cpu_count() or 1) as pool:
        told = list(pool.map(lambda it: try_search(room, *it), enumerate(rows)))
    for row, (is_well, complaint) in zip(rows, told):
        print("" if is_well else f"library: {row.name}: {complaint or 'another text'}\n", end="")
    wrong = sum(not is_well for is_well, _ in told)
    return len(rows) - wrong, wrong + (not rows)


# what examples/find.c prints of a script by conditions, and its status: a load of a page that isn't mapped ends at its first step
FOUND = [
    (b"pool 1 1 1 1\nbegin 1 load 0\n", ["answer 1:1=SIGSEGV", "rest"], 0, b"pool 1 1 1 1\nbegin 1 load 0\nstep 1\n"),
    (b"pool 1 1 1 1\nbegin 1 load 0\n", ["answer 1:1=done"], 1, b""),
    (b"pool 1 1 1 1\nbegin 1 load 0\n", ["rest", "blocked 0"], 2, b""),
    (b"pool 1 1 1 1\nstep 1\n", ["rest"], 2, b""),
]


def try_find(room: Path) -> tuple[int, int]:
    """What the example finds."""
    wrong = 0
    for script, asked, status, wanted in FOUND:
        code, told, complaint = run(room / "find", *asked, read=script)
        is_well = code == status and told == wanted and bool(complaint) == bool(status)
        wrong += not is_well
        print("" if is_well else f"library: examples/find.c: {asked}: status {code}: {(told + complaint).decode()}", end="")
    return len(FOUND) - wrong, wrong


# a program in C++: a closed pool is what it begins with, and what it assigns
IN_CPP = """#include <hugepool.h>
#include <cstring>
int main()
{
    hugepool_pool pool = HUGEPOOL_CLOSED;
    hugepool_config_words config = { 4, 1, 2, 2, 0, false };
    if (hugepool_open(&pool, &config) != HUGEPOOL_OK)
        return 1;
    hugepool_close(&pool);
    pool = HUGEPOOL_CLOSED;
    hugepool_pool_words numbers;
    return std::strcmp(hugepool_strerror(hugepool_pool_numbers(&pool, &numbers)), "the pool is closed");
}
"""


# in place of the toolchain: it prints what means nothing, and ends as it is told
NOISY = "print('error[unsupported-theorem]: ..\\n' * 17 + 'so far: 3 of 4\\nlogic=proved sum=0'); raise SystemExit({status})"


def try_noise(_: Path) -> tuple[int, int]:
    """What the toolchain prints of the library is held back where that is proved, while it is said how far it is; and told where it isn't."""
    toolchain, passed = archive.RT, 0
    for status in 0, 1:
        archive.RT = [sys.executable, "-c", NOISY.format(status=status)]
        with redirect_stderr(StringIO()) as shown, redirect_stdout(shown):
            try:
                told = archive.prove("noise") * (status == 0)
            except archive.Failed as why:
                told = str(why) * (status == 1)
        is_well = told.count("unsupported-theorem") == 17 and "unsupported" not in shown.getvalue() and shown.getvalue().startswith("noise: proving it")
        passed += is_well
        print("" if is_well else f"library: a toolchain that ends with {status}: {shown.getvalue()}{told}\n", end="")
    archive.RT = toolchain
    return passed, 2 - passed


def try_cpp(room: Path) -> tuple[int, int]:
    """Whether a compiler for C++ takes the header, and its program runs."""
    if shutil.which("c++") is None:
        print("left out: a program in C++, since c++ is missing (package: g++)")
        return 0, 0
    (room / "in_cpp.cc").write_text(IN_CPP, encoding="utf-8")
    strict = ["-std=c++11", "-Wall", "-Wextra", "-Wpedantic", "-Werror", "-I", LIBRARY / "include", f"-Wl,-rpath,{room}"]
    for words in ["c++", *strict, "-o", room / "in_cpp", room / "in_cpp.cc", share(room)], [room / "in_cpp"]:
        ran = subprocess.run(words, capture_output=True, text=True)
        if ran.returncode:
            print(f"library: the program in C++: status {ran.returncode}: {ran.stderr}")
            return 0, 1
    return 1, 0


def main() -> int:
    words = argparse.ArgumentParser(description=__doc__, formatter_class=argparse.RawDescriptionHelpFormatter)
    words.add_argument("--events", type=int, default=200_000, metavar="N", help="events of random numbers (200000)")
    asked = words.parse_args()
    traces = sorted(it for it in (TOP / "examples").rglob("*.trace"))
    passed = failed = 0
    with tempfile.TemporaryDirectory(prefix="library-") as name:
        room = Path(name)
        build(room)
        with ThreadPoolExecutor(os.cpu_count() or 1) as pool:
            for trace, told in zip(traces, pool.map(lambda it: list(try_trace(room, it)), traces)):
                for what, is_well, complaint in told:
                    passed, failed = passed + is_well, failed + (not is_well)
                    print("" if is_well else f"library: {trace.relative_to(TOP)}: {what}: {complaint or 'another text'}\n", end="")
        for program, tries, seed in ("misuse", asked.events, "1"), ("misuse", asked.events, "2"), ("odd_searches", ODD_SEARCHES, "1"):
            code, told, complaint = run(room / program, str(tries), seed)
            passed, failed = passed + (code == 0), failed + (code != 0)
            print(f"library: {told.decode() or complaint.decode()}", end="")
        tries = [try_searches, try_find, try_exports, try_variables, try_noise, try_cpp, try_rust, try_python, try_sanitized, try_wheel, try_page]
        for tried in tries:
            well, wrong = tried(room)
            passed, failed = passed + well, failed + wrong
    print(f"{passed} passed, {failed} failed")
    return 1 if failed else 0


if __name__ == "__main__":
    sys.exit(main())
