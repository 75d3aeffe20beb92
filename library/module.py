"""LLVM's module of the proved library, which the toolchain's own compiler compiles and throws away: the page has it compiled for browsers,
and library/sanitized.py with a look at each access to memory.

A variable: PAGE_MODULE=FILE names a module that was kept already.
"""
from __future__ import annotations

import contextlib
import hashlib
import os
import re
import shutil
import subprocess
import sys
from pathlib import Path
from typing import NamedTuple

from archive import ARCHIVE, CRATE, TOP, Failed

sys.path.insert(0, str(TOP / "launcher"))
import launch  # noqa: E402

VERDICT = re.compile(r"^(logic=proved .*? sum=\w+)", re.MULTILINE)


class Module(NamedTuple):
    """The module, and what the page says of where it is from."""

    file: Path
    origin: dict[str, str]


def kit() -> Path | None:
    """The folder of the toolchain, which the command `rt` is in."""
    command = shutil.which("rt")
    return Path(os.path.realpath(command)).parent.parent if command else None


def keeping(room: Path, tools: Path) -> Path:
    """A toolchain whose compiler keeps the module before it compiles it."""
    mine = room / "toolchain"
    (mine / "bin").mkdir(parents=True)
    (mine / "lib").symlink_to(tools / "lib")
    for it in (tools / "bin").iterdir():
        if it.name != "clang":
            (mine / "bin" / it.name).symlink_to(it)
    # (it runs in a folder with the module in it, and with no environment)
    script = f'#!/bin/sh\n/bin/cp module.bc "{room}/module.bc" || exit 1\nexec "{tools}/bin/clang" "$@"\n'
    (mine / "bin" / "clang").write_text(script, encoding="utf-8")
    (mine / "bin" / "clang").chmod(0o755)
    return mine


def prove_again(room: Path, tools: Path, name: str) -> str:
    """Has the library proved over what is kept of its proof, and compiled by the compiler that keeps the module; what was printed."""
    rt = launch.load()
    crate = rt.rtlib.Crate(str(CRATE), str(TOP), {})
    if not ARCHIVE.is_file() or not all(it.is_built() for it in crate.below()):
        raise Failed(f"{name}: the library isn't proved and built yet: run library/archive.py")
    print(f"{name}: proving the library over what is kept of its proof, to keep its module", flush=True)
    crate.held = rt.rtlib.lock([*crate.below(), crate])
    try:
        with open(room / "printed", "w+", encoding="utf-8") as crate.out, contextlib.redirect_stdout(crate.out):
            words = [*crate.words([]), "--toolchain", str(keeping(room, tools)), "--backend", "llvm", *rt.rtlib.KEPT]
            status = crate.call(rt.rtlib.RATTLE, "build", *words, "-o", str(room / "libhp_c.a"))
    finally:
        for it in crate.held:
            os.close(it)
    printed = (room / "printed").read_text(encoding="utf-8")
    if status:
        raise Failed(f"{printed}{name}: the library isn't proved: run library/archive.py")
    return printed


def kept(room: Path, tools: Path, name: str) -> Module:
    """The module, in this room; `name` begins what is said meanwhile. The archive that comes of it has to be the one that is built."""
    if given := os.environ.get("PAGE_MODULE"):
        return Module(Path(given).resolve(), {"module": "made elsewhere and given to ./viewer: nothing is said here of its proof"})
    printed = prove_again(room, tools, name)
    if not (verdict := VERDICT.search(printed)):
        raise Failed(f"{printed}{name}: the toolchain doesn't say logic=proved of hp_c")
    archive = (room / "libhp_c.a").read_bytes()
    if archive != ARCHIVE.read_bytes():
        raise Failed(f"{name}: crates/hp_c/out/libhp_c.a is of other sources: run library/archive.py")
    toolchain = subprocess.run(["rt", "--version"], stdout=subprocess.PIPE, text=True, check=True).stdout.strip()
    return Module(room / "module.bc", {"proof": verdict[1], "toolchain": toolchain, "archive": hashlib.sha256(archive).hexdigest()})
