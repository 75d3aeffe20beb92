#!/usr/bin/env python3
"""Compares hugepool.h with the definitions and the sources of the library that it stands for.

From specs it reads the number of each name, from sources the fields of each struct and the parameters of each export. Of these it writes a C
program of assertions, which the compiler has to accept: each constant's number, each field's place and size, each struct's size, each
function's parameters; a pool is const exactly where the export's clause `pool` says that it stays. The names of numbers, which the program
prints, are the words of specs, and all versions are one: that of the header, of the library, of `hugepool --version`, of the Python module
and of the crates for Rust. Then it looks that the header declares nothing else, and that a header with one number, one field, one
parameter, one name or one digit of the version changed is refused.
"""
from __future__ import annotations

import re
import subprocess
import sys
import tempfile
from pathlib import Path
from typing import Callable, Iterator

TOP = Path(__file__).resolve().parent.parent
HEADER = TOP / "library" / "include" / "hugepool.h"
CRATES = [TOP / "crates" / it for it in ("hp_phases", "hp_words", "hp_handle", "hp_c")]
# a definition, what it begins with in the header, and the number in its lines
NUMBERED = [
    ("place_of phase", "PHASE_", r"= (\d+)"),
    ("refusal_number refusal", "REFUSAL_", r"= (\d+)"),
    ("life_number life", "LIFE_", r"= (\d+)"),
    ("answer_words answer", "ANSWER_", r"answered (\d+)"),
    ("outcome_words outcome", "", r"no_outcome (\d+)"),
    ("op_words t op", "", r"\{ op = (\d+)"),
    ("finding_number Err", "FOUND_", r"= (\d+)"),
    ("acquired_words ", "ACQUIRES_", r"kind = (\d+)"),
]
# numbers whose lines name something else than the header does
ODD = {
    "BEGIN": r"^op_words t op\.Exit = record \(no_event (\d+) t\)",
    "STEP": r"^step_number true = (\d+)",
    "DENY": r"^step_number false = (\d+)",
    "KILL": r"^event_words \(Kill task\) = no_event (\d+)",
    "RESIZE": r"^event_words \(Resize frames\) = record \(no_event (\d+) 0\)",
    "ALLOC": r"^alloc_number false = (\d+)",
    "ALLOC_KEEP": r"^alloc_number true = (\d+)",
    "ENDED": r"^answered answer = record \(no_outcome (\d+)\)",
    "FOUND_NOTHING": r"^finding_number \(Ok done\) = (\d+)",
    "PHASE_NONE": r"^phase_or_none None = (\d+)",
}
CODES = "ok|is_closed|no_memory|no_such|in_flight|bad_line|bad_header|too_small|bad_condition|none_meets|limit_reached"
CODE = re.compile(rf"^({CODES}) = (\d+)", re.MULTILINE)
SIZES = {"u64": 8, "i64": 8, "usize": 8, "*mut u8": 8, "u32": 4, "bool": 1}
C_TYPES = {"u32": "uint32_t", "usize": "size_t", "bool": "bool", "u8": "uint8_t"}
WORDS = [TOP / "crates" / it / "specs" / "Text.antt" for it in ("hp_base", "hp_machine")]
STRUCT = re.compile(r"#\[repr\(C\)\]\n(?:#\[[^\n]*\n)*pub struct (\w+) \{\n(.*?)\n\}", re.DOTALL)
EXPORT = re.compile(r'pub extern "C" fn (\w+)\((.*?)\)\s*(-> u32)?\s*(ensures.*?)\n\{', re.DOTALL)
# what an export says of a pool that it leaves as it was
STAYS = "ensures pool { held pool.new ≡ held pool.old }"
# of lines the header has char, and of whole texts uint8_t
LINES = re.compile(r"hugepool_(read|write)_")
# the function of the header that has a number's name, and the words of specs
NAMES = [
    ("phase", "PHASE_", r"^phase_word word\.(\w+) = codes \"(\w+)\""),
    ("answer", "ANSWER_", r"^answer_text \(?answer\.(\w+).*? codes \"(\w+) ?\""),
    ("answer", "ANSWER_", r"^answer_text answer\.(\w+) = codes \"(\w+)\""),
    ("refusal", "REFUSAL_", r"^refusal_word refusal\.(\w+) = codes \"(\w+)\""),
    ("life", "LIFE_", r"^life_word life\.(\w+) = codes \"(\w+)\""),
    ("op", "", r"^op_text \(?(\w+).*? = codes \"(\w+)\""),
    ("op", "", r"^alloc_word (\w+) = codes \"(\w+)\""),
]
# where each version stands
VERSIONS = {
    "crates/hp_command/src/commands.rt": r'^const VERSION: &str = "([\d.]+)"',
    "library/include/hugepool.h": r'^#define HUGEPOOL_VERSION "([\d.]+)"',
    "library/python/hugepool/__init__.py": r'^__version__ = "([\d.]+)"',
    "library/rust/hugepool/Cargo.toml": r'^version = "([\d.]+)"',
    "library/rust/hugepool-sys/Cargo.toml": r'^version = "([\d.]+)"',
}
PROTOTYPE = re.compile(r"^\w+ (hugepool_\w+)\((.*?)\);", re.DOTALL | re.MULTILINE)
# what a header may not have: the text that is changed, and what it becomes
FAULTS = [
    ("HUGEPOOL_PHASE_WANT = 3", "HUGEPOOL_PHASE_WANT = 4"),
    ("HUGEPOOL_NO_SUCH = 3", "HUGEPOOL_NO_SUCH = 4"),
    ("    uint32_t from;", "    uint32_t more;\n    uint32_t from;"),
    ("    size_t spare;", "    uint32_t spare;"),
    ("    bool is_blocked;", ""),
    ("uint32_t task, uint32_t page, hugepool_frame_words", "uint32_t task, hugepool_frame_words"),
    ("void hugepool_close(", "void hugepool_end(hugepool_pool *pool);\nvoid hugepool_close("),
    ("    HUGEPOOL_STEP = 1,", "    HUGEPOOL_STEP = 1, HUGEPOOL_WAIT = 9,"),
    ("hugepool_acquires(const hugepool_pool *pool", "hugepool_acquires(hugepool_pool *pool"),
    ("hugepool_event(hugepool_pool *pool", "hugepool_event(const hugepool_pool *pool"),
    ('"locked", "missing"', '"missing", "locked"'),
    ('"nomemory", "interrupted"', '"nospace", "interrupted"'),
    ('"alloc", "allock"', '"alloc", "keep"'),
    ("VERSION_MINOR 1", "VERSION_MINOR 2"),
]


def read(pattern: str) -> str:
    return "\n".join(it.read_text(encoding="utf-8") for crate in CRATES for it in sorted(crate.glob(pattern)))


def snake(name: str) -> str:
    """MapNoReserve: MAP_NO_RESERVE."""
    return re.sub(r"(?<=[a-z])(?=[A-Z])", "_", name)


def c_name(struct: str) -> str:
    """The header's name of a struct: EventWords is hugepool_event_words."""
    return "hugepool_pool" if struct == "Handle" else f"hugepool_{snake(struct).lower()}"


def constants() -> dict[str, int]:
    """The number of each name, as the definitions have it."""
    specs, found = read("specs/*.antt"), {}
    for begin, prefix, number in NUMBERED:
        word, _, of = begin.partition(" ")
        of = {"": "", "Err": r"Err ", "t op": r"t \(?op\."}.get(of, rf"{of}\.")
        for name, line in re.findall(rf"^{word} \(?{of}(\w+)(.*)", specs, re.MULTILINE):
            if told := re.search(number, line):
                found[prefix + snake(name).upper()] = int(told[1])
    [first] = re.findall(r"^phase_number p = place_of p \+ (\d+)", specs, re.MULTILINE)
    found = {name: number + int(first) * name.startswith("PHASE_") for name, number in found.items()}
    for name, line in ODD.items():
        [told] = re.findall(line, specs, re.MULTILINE)
        found[name] = int(told)
    return {**found, **{name.upper(): int(number) for name, number in CODE.findall(specs)}}


def fields_of(body: str) -> Iterator[tuple[str, str]]:
    """The fields of a struct, and their types. A pool's core is a pointer."""
    for name, kind in re.findall(r"^    pub (?!ghost)(\w+): (.*),", body, re.MULTILINE):
        yield name, "*mut u8" if kind == "KeptCore" else kind


def layout(structs: dict[str, str]) -> Iterator[str]:
    """Assertions of where C's layout puts each field."""
    for name, body in structs.items():
        struct, end, most = c_name(name), 0, 1
        for field, kind in fields_of(body):
            size = SIZES[kind]
            end = (end + size - 1) // size * size
            yield f"_Static_assert(offsetof({struct}, {field}) == {end} && sizeof((({struct} *)0)->{field}) == {size}, \"{struct}.{field}\");"
            end, most = end + size, max(most, size)
        yield f"_Static_assert(sizeof({struct}) == {(end + most - 1) // most * most}, \"{struct}\");"


def parameter(kind: str, structs: dict[str, str], byte: str) -> list[str]:
    """The types in C of a parameter."""
    if kind == "Global":
        return []
    shared, of = ("", kind.removeprefix("&mut ")) if kind.startswith("&mut ") else ("const ", kind.removeprefix("&"))
    is_slice = of.startswith("[")
    of = of.strip("[]")
    name = c_name(of) if of in structs else byte if of == "u8" else C_TYPES[of]
    return [name] if not kind.startswith("&") else [f"{shared}{name} *", *(["size_t"] if is_slice else [])]


def prototypes(structs: dict[str, str]) -> Iterator[str]:
    """Each export, declared once more."""
    for name, words, result, clauses in EXPORT.findall(read("src/*.rt")):
        named = [it.partition(":") for it in words.split(",") if it.strip()]
        kinds = [kind.strip().replace("&mut ", "&") if it.strip() == "pool" and STAYS in clauses else kind.strip() for it, _, kind in named]
        byte = "char" if LINES.match(name) else C_TYPES["u8"]
        types = [it for kind in kinds for it in parameter(kind, structs, byte)]
        yield f"{'uint32_t' if result else 'void'} {name}({', '.join(types) or 'void'});"


def names() -> dict[str, str]:
    """A call of the header's for each number that has a name, and the name that specs have for it."""
    specs, found = "\n".join(it.read_text(encoding="utf-8") for it in WORDS), {}
    for function, prefix, line in NAMES:
        for name, word in re.findall(line, specs, re.MULTILINE):
            constant = {"true": "ALLOC_KEEP", "false": "ALLOC"}.get(name, prefix + snake(name).upper())
            found[f"hugepool_{function}_name(HUGEPOOL_{constant})"] = word
    return found


def versions() -> list[int]:
    """The numbers of the version, which is one wherever it stands."""
    found = {}
    for file, line in VERSIONS.items():
        [found[file]] = re.findall(line, (TOP / file).read_text(encoding="utf-8"), re.MULTILINE)
    if len(set(found.values())) != 1:
        sys.exit(f"header: versions differ: {', '.join(f'{file} has {it}' for file, it in found.items())}")
    return [int(it) for it in found["library/include/hugepool.h"].split(".")]


def ran(header: str, program: str) -> subprocess.CompletedProcess[str]:
    """A program with this header, as it was run; or its compiler, where that refuses it."""
    with tempfile.TemporaryDirectory() as name:
        (Path(name) / "hugepool.h").write_text(header, encoding="utf-8")
        (Path(name) / "program.c").write_text(f'#include "hugepool.h"\n{program}\n', encoding="utf-8")
        words = ["cc", "-std=c11", "-Wall", "-Wextra", "-Werror", "-o", "program", "program.c"]
        it = subprocess.run(words, cwd=name, capture_output=True, text=True)
        return it if it.returncode else subprocess.run([Path(name) / "program"], capture_output=True, text=True)


def unnoticed(script: str, header: str, faults: list[tuple[str, str]], against: Callable[[str], object]) -> list[str]:
    """Lines about those of a header's faults, each a text and what it becomes, against which nothing is said."""
    for old, _ in faults:
        if header.count(old) != 1:
            sys.exit(f"{script}: {old!r} stands in the header {header.count(old)} times")
    return [f"{script}: a header with {new!r} isn't noticed" for old, new in faults if not against(header.replace(old, new))]


def saying(named: dict[str, str], numbers: list[int]) -> str:
    """A program that says which names and which numbers of the version are others."""
    lines = [f'if (strcmp({call}, "{word}") != 0) printf("%s isn\'t {word}\\n", "{call}");' for call, word in named.items()]
    for word, number in zip(("MAJOR", "MINOR", "PATCH"), numbers):
        lines.append(f'if (HUGEPOOL_VERSION_{word} != {number}) puts("VERSION_{word} isn\'t {number}");')
    lines.append(f"for (uint32_t code = 0; code < {CODES.count('|') + 1}; code++) if (*hugepool_strerror(code) == '?') puts(\"a code has no words\");")
    return "\n".join(["#include <stdio.h>", "#include <string.h>", "int main(void)", "{", *lines, "return 0;", "}"])


def against(header: str, numbers: dict[str, int], structs: dict[str, str], exports: list[str]) -> str:
    """What is wrong with a header."""
    asserted = [f'_Static_assert(HUGEPOOL_{name} == {number}, "{name}");' for name, number in numbers.items()]
    tried = ran(header, "\n".join([*asserted, *layout(structs), *exports, saying(names(), versions())]))
    told = tried.stdout + tried.stderr
    named = set(re.findall(r"\bHUGEPOOL_(\w+) = \d", header)) ^ numbers.keys()
    declared = {name for name, _ in PROTOTYPE.findall(header)} ^ {it.split("(")[0].split()[-1] for it in exports}
    return told + "".join(f"only one of header and sources has {it}\n" for it in sorted(named | declared))


def main() -> int:
    header = HEADER.read_text(encoding="utf-8")
    structs = {name: body for name, body in STRUCT.findall(read("src/*.rt")) if name != "KeptCore"}
    numbers, exports = constants(), list(prototypes(structs))
    told = against(header, numbers, structs, exports)
    passed, failed = (len(numbers) + len(structs) + len(exports), 0) if not told else (0, 1)
    print(told, end="")
    unseen = unnoticed("header", header, FAULTS, lambda it: against(it, numbers, structs, exports))
    passed, failed = passed + len(FAULTS) - len(unseen), failed + len(unseen)
    print("".join(f"{it}\n" for it in unseen), end="")
    [number] = re.findall(r"^version = (\d+)", read("specs/*.antt"), re.MULTILINE)
    first, second, third = versions()
    if int(number) != first * 1_000_000 + second * 1_000 + third:
        print(f"header: hp_c has the version {number}")
        failed += 1
    print(f"header: {len(numbers)} numbers, {len(names())} names, {len(structs)} structs, {len(exports)} functions")
    print(f"{passed} passed, {failed} failed")
    return 1 if failed else 0


if __name__ == "__main__":
    sys.exit(main())
