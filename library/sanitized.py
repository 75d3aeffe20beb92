"""An instrumented library, for the tests in Rust and Python; and deliberately wrong callers, which it has to report.

The library's module is compiled once more, with AddressSanitizer in each function, and library/heap.c with UndefinedBehaviorSanitizer, too.
So each load and store of the proved functions is checked, in their own blocks and in those of their caller, and at the end of a process
that none of their blocks is still allocated.
"""
from __future__ import annotations

import os
import re
import subprocess
from pathlib import Path

from archive import TOP

LIBRARY = TOP / "library"
COMPILES = ["-O1", "-fPIC", "-fsanitize=address", "-x", "ir", "-c"]
LINKS = ["-O1", "-g", "-fPIC", "-shared", "-fsanitize=address,undefined", "-fno-sanitize-recover=all", "-Wl,-soname,libhugepool.so.1"]
# what a report says of an access, or of a block of the library's that is still allocated (Python has others), or that it couldn't look
WRONG = re.compile(r"AddressSanitizer: [\w-]+|runtime error: .*|leak of .*\n.*\n.* in rattle_\w+|LeakSanitizer has encountered .*")

LEAK, OVERRUN = "leak of ", "AddressSanitizer: heap-buffer-overflow"

# wrong callers in Python, each with what is reported: an open pool that is dropped, and an array with one event less than is declared
BEGINS = "import ctypes; from hugepool import _library, _words, Event, Outcome, Pool; pool = Pool(2, 1, 1, 1); "
IN_PYTHON = {
    BEGINS + "_library.open_pool(_words.Handle(), _words.Config(4, 1, 1, 1, 0, False))": LEAK,
    BEGINS + "_library.events(pool._handle, (Event * 1)(), 2, (Outcome * 2)(), 2, ctypes.c_size_t())": OVERRUN,
}
# and in Rust: a line with one byte less than is declared
IN_RUST = """fn main() {
    let (line, mut config) = (b"pool 1 1 1 ".to_vec(), hugepool_sys::ConfigWords::default());
    unsafe { hugepool_sys::hugepool_read_config(line.as_ptr(), line.len() + 1, &mut config) };
}
"""
CARGO = f"""[package]
name = "wrong"
version = "0.0.0"
edition = "2021"
[dependencies]
hugepool-sys = {{ path = "{LIBRARY / 'rust' / 'hugepool-sys'}" }}
[workspace]
"""


def runtime() -> Path | None:
    """The sanitizer's shared library, which a program that isn't compiled for it has to load before all others."""
    named = subprocess.run(["cc", "-print-file-name=libasan.so"], stdout=subprocess.PIPE, text=True).stdout.strip()
    found = Path(named).resolve()
    return found if found.is_file() and found.read_bytes()[:4] == b"\x7fELF" else None


def instrumented(text: str) -> str:
    """A module as text, each of whose functions is to be instrumented."""
    groups = set(re.findall(r"^define .* #(\d+)(?: .*)?\{$", text, re.MULTILINE))
    return re.sub(r"^attributes #(\d+) = \{ (?!.*sanitize_address)", lambda it: it[0] + "sanitize_address " * (it[1] in groups), text, flags=re.MULTILINE)


def build(module: Path, clang: Path, folder: Path) -> Path:
    """The library in a folder of its own, of its module and by the toolchain's own compiler."""
    folder.mkdir()
    text, compiled, library = folder / "module.ll", folder / "hp_c.o", folder / "libhugepool.so.1"
    subprocess.run([clang, "-S", "-emit-llvm", "-Xclang", "-disable-llvm-passes", "-O1", "-x", "ir", module, "-o", text], check=True)
    text.write_text(instrumented(text.read_text(encoding="utf-8")), encoding="utf-8")
    subprocess.run([clang, *COMPILES, text, "-o", compiled], check=True)
    subprocess.run(["cc", *LINKS, "-o", library, compiled, LIBRARY / "heap.c"], check=True)
    (folder / "libhugepool.so").symlink_to(library.name)
    return library


def options(folder: Path) -> dict[str, str]:
    """The variables by which processes report into files of the folder."""
    reports = f"log_path={folder / 'report'}"
    return {"ASAN_OPTIONS": f"{reports}:abort_on_error=1:allocator_may_return_null=1", "UBSAN_OPTIONS": reports, "LSAN_OPTIONS": "exitcode=0"}


def reported(folder: Path) -> list[str]:
    """What is wrong by the reports since the last time."""
    found = []
    for it in sorted(folder.glob("report.*")):
        found += WRONG.findall(it.read_text(encoding="utf-8", errors="replace"))
        it.unlink()
    return found


def unreported(counts: tuple[int, int], folder: Path) -> tuple[int, int]:
    """How many tests passed and failed, and whether nothing was reported of them."""
    wrong = reported(folder)
    print("".join(f"library: sanitized: {it}\n" for it in wrong), end="")
    return counts[0] + (not wrong), counts[1] + bool(wrong)


def is_reported(words: list[str], where: Path, own: dict[str, str | Path], folder: Path, wanted: str) -> tuple[int, int]:
    """Whether a wrong caller is reported as wanted."""
    ran = subprocess.run(words, cwd=where, env={**os.environ, **{it: str(value) for it, value in own.items()}}, capture_output=True, text=True)
    is_well = any(wanted in it for it in reported(folder))
    print("" if is_well else f"library: sanitized: {words[-1]}: status {ran.returncode}, and no {wanted!r}: {ran.stderr}\n", end="")
    return int(is_well), int(not is_well)


def crate(folder: Path) -> Path:
    """The wrong caller in Rust, as a crate."""
    (folder / "wrong" / "src").mkdir(parents=True)
    (folder / "wrong" / "src" / "main.rs").write_text(IN_RUST, encoding="utf-8")
    (folder / "wrong" / "Cargo.toml").write_text(CARGO, encoding="utf-8")
    return folder / "wrong"
