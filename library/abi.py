#!/usr/bin/env python3
"""Compares hugepool.h with library/abi.txt: what programs that were built before may rely on, as long as the soname stays.

usage: library/abi.py [--write]

The list has a line for each call with its parameters, for each struct with its size and the places of its fields, and for each number. A
line of it that the header doesn't keep is a fault: a program that was built before would break. A line that the header has more is one
until --write adds it; --write never takes one away. Each call has a line in the symbols of Debian's package, too, and no other has.
"""
from __future__ import annotations

import re
import sys
from typing import Iterator

from header import HEADER, TOP, ran, unnoticed

LIST = TOP / "library" / "abi.txt"
SYMBOLS = TOP / "packaging" / "debian" / "libhugepool1.symbols"
PROTOTYPE = re.compile(r"^(\w+) (hugepool_\w+)\((.*?)\);", re.DOTALL | re.MULTILINE)
STRUCT = re.compile(r"^typedef struct (hugepool_\w+) \{\n(.*?)\n\} \1;", re.DOTALL | re.MULTILINE)
NUMBER = re.compile(r"\bHUGEPOOL_\w+(?= = \d)")
# what a header may not do: the text that is changed, and what it becomes
FAULTS = [
    ("HUGEPOOL_TOO_SMALL = 7", "HUGEPOOL_TOO_SMALL = 8"),
    ("    uint32_t refusal;", "    uint64_t more;\n    uint32_t refusal;"),
    ("    uint32_t from;", "    uint32_t more;\n    uint32_t from;"),
    ("    uint32_t quota;  /**< where", "    uint64_t quota;  /**< where"),
    ("uint32_t task, uint32_t page,", "uint32_t task, uint64_t page,"),
    ("void hugepool_close(", "void hugepool_end("),
    ("void hugepool_close(", "uint32_t hugepool_close("),
]


def calls(header: str) -> Iterator[str]:
    """A line for each call; whether a pointer is const matters to no program that is built already."""
    for result, name, parameters in PROTOTYPE.findall(header):
        kinds = [re.sub(r"\bconst |\w+$", "", it.strip()).strip() if it != "void" else it for it in parameters.split(",")]
        yield f"call {result} {name}({', '.join(kinds)})"


def printing(header: str) -> Iterator[str]:
    """Lines of C that print the line of each struct and of each number."""
    for struct, body in STRUCT.findall(header):
        yield f'printf("struct {struct} %zu:", sizeof({struct}));'
        for field in re.findall(r"^ +[\w *]+?(\w+);", body, re.MULTILINE):
            yield f'printf(" {field} %zu+%zu", offsetof({struct}, {field}), sizeof((({struct} *)0)->{field}));'
        yield 'puts("");'
    for number in NUMBER.findall(header):
        yield f'printf("number {number} %d\\n", {number});'


def lines_of(header: str) -> list[str]:
    """All lines of a header."""
    program = ran(header, "\n".join(["#include <stdio.h>", "int main(void) {", *printing(header), "return 0; }"]))
    if program.returncode:
        sys.exit(f"{program.stderr}abi: the header doesn't compile")
    return [*calls(header), *program.stdout.splitlines()]


def against(header: str, listed: list[str]) -> list[str]:
    """What a header doesn't keep."""
    kept = set(lines_of(header))
    return [it for it in listed if it not in kept]


def main(words: list[str]) -> int:
    header, listed = HEADER.read_text(encoding="utf-8"), LIST.read_text(encoding="utf-8").splitlines() if LIST.exists() else []
    lines, passed, failed = lines_of(header), len(listed), 0
    if words == ["--write"]:
        listed += [it for it in lines if it not in listed]
        LIST.write_text("".join(f"{it}\n" for it in listed), encoding="utf-8")
    for it in against(header, listed):
        print(f"abi: not kept: {it}")
        passed, failed = passed - 1, failed + 1
    for it in lines:
        if it not in listed:
            print(f"abi: not listed, which library/abi.py --write does: {it}")
            failed += 1
    named = set(re.findall(r"^ (hugepool_\w+)@", SYMBOLS.read_text(encoding="utf-8"), re.MULTILINE))
    for it in sorted(named ^ {name for _, name, _ in PROTOTYPE.findall(header)}):
        print(f"abi: only one of the header and {SYMBOLS.relative_to(TOP)} has {it}")
        failed += 1
    unseen = unnoticed("abi", header, FAULTS, lambda it: against(it, listed))
    passed, failed = passed + len(FAULTS) - len(unseen), failed + len(unseen)
    print("".join(f"{it}\n" for it in unseen), end="")
    print(f"{passed} passed, {failed} failed")
    return 1 if failed else 0


if __name__ == "__main__":
    sys.exit(main(sys.argv[1:]))
