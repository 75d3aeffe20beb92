"""The programs that docs/LIBRARY.md shows: one in C, one in Python and one in Rust, behind what all of them print."""
from __future__ import annotations

import re
import subprocess
import sys
from pathlib import Path
from typing import Iterator

from archive import ARCHIVE, TOP

PAGE = TOP / "docs" / "LIBRARY.md"
BLOCK = re.compile(r"^```(\w*)\n(.*?)^```$", re.DOTALL | re.MULTILINE)
CARGO = """[package]
name = "shown"
version = "0.0.0"
edition = "2021"
[dependencies]
hugepool = {{ path = "{crate}" }}
[workspace]
"""


def blocks() -> dict[str, str]:
    """What the programs print, and the first block of each language."""
    found: dict[str, str] = {}
    for language, text in BLOCK.findall(PAGE.read_text(encoding="utf-8")):
        found.setdefault(language, text)
    return found


def words_of_c(text: str, room: Path) -> list[list[str | Path]]:
    (room / "shown.c").write_text(text, encoding="utf-8")
    strict = ["-std=c11", "-Wall", "-Wextra", "-Wpedantic", "-Werror", "-fsanitize=address,undefined"]
    words = ["cc", *strict, "-I", TOP / "library" / "include", "-o", room / "shown", room / "shown.c", TOP / "library" / "heap.c", ARCHIVE]
    return [words, [room / "shown"]]


def words_of_python(text: str, room: Path) -> list[list[str | Path]]:
    (room / "shown.py").write_text(text, encoding="utf-8")
    return [[sys.executable, room / "shown.py"]]


def words_of_rust(text: str, room: Path) -> list[list[str | Path]]:
    (room / "crate" / "src").mkdir(parents=True)
    (room / "crate" / "src" / "main.rs").write_text(text, encoding="utf-8")
    (room / "crate" / "Cargo.toml").write_text(CARGO.format(crate=TOP / "library" / "rust" / "hugepool"), encoding="utf-8")
    return [["cargo", "run", "--quiet", "--offline", "--manifest-path", room / "crate" / "Cargo.toml"]]


WORDS = {"c": words_of_c, "python": words_of_python, "rust": words_of_rust}


def tried(room: Path, own: dict[str, str], languages: list[str]) -> Iterator[tuple[str, bool, str]]:
    """Of each language whether its program prints what the page says, and what it printed."""
    shown = blocks()
    for language in languages:
        told = ""
        for words in WORDS[language](shown[language], room):
            ran = subprocess.run(words, env=own, stdin=subprocess.DEVNULL, stdout=subprocess.PIPE, stderr=subprocess.STDOUT, text=True)
            told += ran.stdout
        yield language, ran.returncode == 0 and told == shown[""], told
