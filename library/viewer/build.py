"""The proved library as one page for browsers, which needs no toolchain and no network.

usage: ./viewer [FILE]

It writes FILE, or dist/hugepool.html if none is named: the library as WebAssembly, the traces of examples/, and the page around them.

The library has to be proved and built: library/archive.py does it. Then the toolchain's `rattle build` runs once more, over what that
kept, with a script in place of its compiler that keeps the LLVM module. The archive that comes of it has to be the one that is built.
The module's lines about the target are changed to 64-bit WebAssembly, and the toolchain's clang and linker compile it.

Two runs on one commit write the same bytes. library/viewer/check.py tries the page.

A variable, to try this without proofs; the page then says that its module was made elsewhere:
  PAGE_MODULE=FILE   a module that was kept already
"""
from __future__ import annotations

import base64
import hashlib
import json
import re
import shutil
import subprocess
import sys
import tempfile
from email.utils import formatdate
from pathlib import Path

TOP = Path(__file__).resolve().parent.parent.parent
PAGE, EXAMPLES = TOP / "library" / "viewer", TOP / "examples"
HEADER = TOP / "library" / "include" / "hugepool.h"
sys.path.insert(0, str(TOP / "library"))
import module  # noqa: E402
from archive import Failed  # noqa: E402
from module import Module  # noqa: E402

TARGET = "wasm64-unknown-unknown"
COMPILES = [f"--target={TARGET}", "-mbulk-memory", "-Wall", "-Wextra", "-Werror"]
# what C has of heap.c, beside the library's calls
HEAP_CALLS = ("page_take", "page_give")
# the stack comes first in memory, so that one that grows too large leaves the memory and ends the call
LINKS = ["-mwasm64", "--no-entry", "--stack-first", "-z", "stack-size=1048576", "--gc-sections", "--strip-all", "--fatal-warnings"]
# lines of a module that name the machine that it is for
OF_MACHINE = re.compile(r' ?"(?:target-cpu|target-features|probe-stack|stack-probe-size)"="[^"]*"')
KINDS = {"uint32_t": ("u32", 4), "uint64_t": ("u64", 8), "int64_t": ("i64", 8), "size_t": ("size", 8), "void *": ("pointer", 8), "bool": ("bool", 1)}
# each row of a table of examples/README.md: a name and what it shows
SHOWN = re.compile(r"^\| `([\w-]+)` \| (.*?) \|", re.MULTILINE)
# the picture of a run, which is also on the page of `draw --html`: constants of modules by these names; the page around it follows
VIEWER, VIEWER_SCRIPTS = TOP / "crates" / "hp_html" / "src", ("run_script", "picture_script", "viewer_script")
NAMES = "pool trace address rows telling drawing own glossary cards tasks forms play texts files beside conditions asking finding page"
SCRIPTS = [PAGE / f"{it}.js" for it in NAMES.split()]
# what the page's worker runs, in which it searches
SEARCHER = [PAGE / "pool.js", PAGE / "searcher.js"]
# of docs/MACHINE.md, a row of the table of phases: the phase, and Linux's function
LINUX = re.compile(r"^\| (\w+) \| `(\w+)` \| (?:`\w+` )?\|$", re.MULTILINE)


def say(text: str) -> None:
    print(f"page: {text}", flush=True)


def run(words: list[str | Path], **how: object) -> str:
    """Runs a command, and returns what it prints. Where it fails, that is why there is no page."""
    ran = subprocess.run(words, stdin=subprocess.DEVNULL, stdout=subprocess.PIPE, stderr=subprocess.STDOUT, text=True, errors="replace", **how)
    if ran.returncode:
        raise Failed(f"{ran.stdout}page: {' '.join(map(str, words))}: status {ran.returncode}")
    return ran.stdout


# ---- the toolchain


def missing() -> list[str]:
    """Says which tools are missing: the linker is the compiler by another name."""
    found = {"rt": (shutil.which("rt"), "the Rattle toolchain, which is no package of Debian's"), "git": (shutil.which("git"), "git")}
    if of := module.kit():
        clang = of / "toolchain" / "bin" / "clang"
        compiles = clang.is_file() and "wasm64" in run([clang, "--print-targets"])
        links = compiles and subprocess.run(["wasm-ld", "--version"], executable=clang, capture_output=True).returncode == 0
        found |= {
            "clang for wasm64": (compiles, "the Rattle toolchain's own, in its folder toolchain"),
            "wasm-ld": (links, "the Rattle toolchain's clang by that name"),
        }
    lacking = [it for it, (is_there, _) in found.items() if not is_there]
    for it in lacking:
        say(f"'{it}' is missing (package: {found[it][1]}): required")
    return lacking


# ---- WebAssembly


def retargeted(text: str, layout: str) -> str:
    """A module as text, with another machine in each of its lines about one: its triple, its layout, attributes of functions."""
    for name, line in ("triple", f'target triple = "{TARGET}"'), ("datalayout", layout):
        text, count = re.subn(rf"^target {name} = .*$", line, text, flags=re.MULTILINE)
        if count != 1:
            raise Failed(f"page: the module has {count} lines of its {name}")
    text = re.sub(r"^attributes .*$", lambda it: OF_MACHINE.sub("", it[0]), text, flags=re.MULTILINE)
    if named := re.search(r"^.*x86.*$", text, re.MULTILINE):
        raise Failed(f"page: a line of the module still names another machine: {named[0]}")
    return text


def compiled(of: Path, room: Path, tools: Path, calls: list[str]) -> bytes:
    """The module as WebAssembly that exports these calls."""
    clang, heap = tools / "bin" / "clang", ["-O2", "-ffreestanding", "-x", "c", PAGE / "heap.c"]
    run([clang, *COMPILES, "-c", *heap, "-o", room / "heap.o"])
    run([clang, *COMPILES, "-S", "-emit-llvm", *heap, "-o", room / "heap.ll"])
    layout = re.search(r"^target datalayout = .*$", (room / "heap.ll").read_text(encoding="utf-8"), re.MULTILINE)[0]
    run([clang, "-S", "-emit-llvm", "-Xclang", "-disable-llvm-passes", "-O3", "-x", "ir", of, "-o", room / "module.ll"])
    text = (room / "module.ll").read_text(encoding="utf-8")
    (room / "module.ll").write_text(retargeted(text, layout), encoding="utf-8")
    run([clang, *COMPILES, "-O3", "-c", "-x", "ir", room / "module.ll", "-o", room / "module.o"])
    exports = [f"--export={it}" for it in [*calls, *HEAP_CALLS]]
    run(["wasm-ld", *LINKS, *exports, "-o", room / "page.wasm", room / "module.o", room / "heap.o"], executable=clang)
    return (room / "page.wasm").read_bytes()


# ---- the page


def layout_of(body: str) -> dict[str, object]:
    """Where C puts each field of a struct, and how large the struct is."""
    fields, end, most = [], 0, 1
    for kind, name in re.findall(r"^    (\w+(?: \*)?) ?(\w+);", body, re.MULTILINE):
        word, size = KINDS[kind]
        end = (end + size - 1) // size * size
        fields.append([name, word, end])
        end, most = end + size, max(most, size)
    return {"size": (end + most - 1) // most * most, "fields": fields}


def header() -> dict[str, object]:
    """What the page knows of hugepool.h: its numbers and its structs, by their names without `hugepool_`."""
    text = HEADER.read_text(encoding="utf-8")
    structs = {name: layout_of(body) for body, name in re.findall(r"^typedef struct \w+ \{\n(.*?)\n\} hugepool_(\w+);", text, re.DOTALL | re.MULTILINE)}
    return {"structs": structs, "numbers": {name: int(number) for name, number in re.findall(r"\bHUGEPOOL_(\w+) = (\d+)", text)}}


def calls() -> list[str]:
    return re.findall(r"^\w+ (hugepool_\w+)\(", HEADER.read_text(encoding="utf-8"), re.MULTILINE)


def examples() -> list[dict[str, str]]:
    """The traces and the scripts that examples/README.md has a row of, in its order."""
    found = []
    for name, shows in SHOWN.findall((EXAMPLES / "README.md").read_text(encoding="utf-8")):
        for kind in ("trace", "script"):
            if (file := EXAMPLES / f"{name}.{kind}").is_file():
                found.append({"name": name, "kind": kind, "shows": shows.replace("`", ""), "text": file.read_text(encoding="utf-8")})
    return found


def linux() -> dict[str, str]:
    """The function of Linux that does what a step from a phase does, by the phase."""
    text = (TOP / "docs" / "MACHINE.md").read_text(encoding="utf-8").partition("### The phases in Linux")[2]
    return dict(LINUX.findall(text))


def origin_of(of: Module, wasm: bytes) -> dict[str, str]:
    """What the page says of where it is from."""
    name, seconds = run(["git", "log", "-1", "--format=%H %ct"], cwd=TOP).split()
    changes = ", with changes that aren't committed" if run(["git", "status", "--porcelain"], cwd=TOP) else ""
    commit = f"{name} of {formatdate(int(seconds))}{changes}"
    return {"commit": commit, **of.origin, "wasm": hashlib.sha256(wasm).hexdigest(), "bytes": f"{len(wasm):,} bytes"}


def viewer(name: str) -> str:
    """A text of the picture's, which is a constant of the crate hp_html: what its module says between the quotes of the first."""
    return re.search(r'r###"(.*?)"###', (VIEWER / f"{name}.rt").read_text(encoding="utf-8"), re.DOTALL)[1]


def script(files: list[Path], *before: str) -> str:
    """JavaScript as one module: what comes before, and files in their order, without the lines by which they import each other."""
    text = "\n".join([*before, *(it.read_text(encoding="utf-8") for it in files)])
    return re.sub(r"^import .*\n", "", re.sub(r"^export ", "", text, flags=re.MULTILINE), flags=re.MULTILINE)


def page(of: Module, wasm: bytes) -> str:
    data = {"header": header(), "examples": examples(), "linux": linux(), "origin": origin_of(of, wasm), "searcher": script(SEARCHER)}
    data["wasm"] = base64.b64encode(wasm).decode()
    parts = {
        "style": viewer("viewer_style") + (PAGE / "page.css").read_text(encoding="utf-8"),
        **{"legend": viewer("legend"), "help": viewer("help"), "search": viewer("search_form")},
        "data": json.dumps(data, ensure_ascii=False, separators=(",", ":")).replace("</", "<\\/"),
        "script": script(SCRIPTS, *map(viewer, VIEWER_SCRIPTS)),
    }
    return re.sub(r"\{\{(\w+)\}\}", lambda it: parts[it[1]], (PAGE / "page.html").read_text(encoding="utf-8"))


def build(to: Path) -> None:
    tools = module.kit() / "toolchain"
    with tempfile.TemporaryDirectory(prefix="page-") as name:
        room = Path(name)
        of = module.kept(room, tools, "page")
        text = page(of, compiled(of.file, room, tools, calls()))
    to.parent.mkdir(parents=True, exist_ok=True)
    to.write_text(text, encoding="utf-8")
    say(f"{to}: {to.stat().st_size:,} bytes")


def main(words: list[str]) -> int:
    if len(words) > 1 or any(it.startswith("-") for it in words) or words == ["help"]:
        is_asked = words in (["-h"], ["--help"], ["help"])
        print(__doc__ if is_asked else __doc__.split("\n\n")[1] + "\n", end="", file=sys.stdout if is_asked else sys.stderr)
        return 0 if is_asked else 2
    if missing():
        return 127
    try:
        build(Path(words[0]) if words else TOP / "dist" / "hugepool.html")
    except Failed as why:
        print(why, file=sys.stderr)
        return 1
    return 0


if __name__ == "__main__":
    sys.exit(main(sys.argv[1:]))
