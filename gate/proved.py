#!/usr/bin/env python3
"""Compares docs/PROVED.md with the contracts: what a row names is there, and each clause of a public call is named.

A row's second cell has groups between semicolons: calls, and behind a colon their clauses. A group without a colon names whole contracts.
`Bank::{take, free}` are two calls of the crate below whose heading the row stands, `hp_frames::Bank::take` is one of another crate.
`Bank::{..}` are all public calls of a type, `..` all of the crate. `Bank::invariant` and `Display` are what an impl says besides.
A clause is one of a call of its group, or a definition that such a clause cites; each call of the group has one.
In parentheses stand definitions, which have to be in specs. What the tables leave out stands below "What isn't listed". Compared are also
the theorems that no call of the core is named after, and the clauses that docs/POOL.md names.
"""
from __future__ import annotations

import re
import sys
from functools import cache
from pathlib import Path
from typing import Iterator, NamedTuple

from programs import TOP, crates_of, report

CRATES = TOP / "crates"
LIST = "What isn't listed"
POOL_CALL = re.compile(r"\(`([\w:]+)`: ((?:`\w+`(?:,\s)?)+)")
SPAN = re.compile(r"`([^`]+)`")
ASIDE = re.compile(r" \(([^()]*)\)")
NO_CALL = re.compile(r"^Without a call of their name: (.*?)\n\n", re.M | re.S)
CLAUSE = re.compile(r"^ *ensures(?: (\w+))? \{", re.M)
REEXPORT = re.compile(r"^pub use ([^;]+);", re.M)
DEFINITION = re.compile(r"^ *(?:(?:abbrev|unfoldable) )?pub (?:record |data )?([^\s:{(]+)", re.M)
# (the sources are in the formatter's layout, so an item ends with the brace below its first letter, and have no modules within a file)
FUNCTION = re.compile(r"^( *)(?:pub(?:\([^)]*\))? )?(?:const )?(?:extern \"C\" )?fn (\w+)")
IMPL = re.compile(r"^( *)impl\b(.*)")
TRAIT = re.compile(r"^( *)(?:pub(?:\([^)]*\))? )?trait (\w+)")
# what an impl says besides its functions: what its type always keeps, field by field, and what it writes
SAID = re.compile(r"^    ghost (invariant|output) = \{(.*?)\};$", re.M | re.S)


class Function(NamedTuple):
    """A function: its crate and file, the type and the trait that it is of, if any, and its clauses by their names; those without one have
    the empty name. What an impl says besides stands here as a function, too."""

    crate: str
    file: str
    type: str | None
    trait: str | None
    name: str
    is_public: bool
    clauses: tuple[tuple[str, str], ...]

    def __str__(self) -> str:
        return "::".join(it for it in (self.crate, self.type or self.trait, self.name) if it)

    def names(self) -> set[str]:
        return {name for name, _ in self.clauses}

    def meant(self, name: str) -> set[str]:
        """Its clauses of this name, or else those that cite this definition."""
        word = re.compile(rf"(?<![\w.]){re.escape(name)}(?!\w)")
        return {name} & self.names() or {clause for clause, text in self.clauses if is_defined(name) and word.search(text)}


def last_name(path: str) -> str:
    """The last name of a type or trait, without its parameters."""
    return re.sub(r"<.*", "", path.strip()).rpartition("::")[2].lstrip("&")


def without_parameters(text: str) -> str:
    """What stands behind the parameters `<..>` that a head begins with."""
    depth = 0
    for at, letter in enumerate(text):
        depth += (letter == "<") - (letter == ">")
        if depth == 0 and letter != "<":
            return text[at + 1:] if letter == ">" else text[at:]
    return ""


def end_of(lines: list[str], first: int, indent: str) -> int:
    """The line at which an item that begins at this line ends."""
    depth = 0
    for at in range(first, len(lines)):
        line = lines[at]
        if line in (f"{indent}}}", f"{indent}{{}}"):
            return at
        depth += line.count("{") - line.count("}")
        is_on_one_line = at == first and "{" in line and line.endswith("}")
        if depth == 0 and (line.endswith(";") or is_on_one_line):
            return at
    return len(lines) - 1


class Block(NamedTuple):
    """An impl or a trait: its lines, counted from 0, and its names."""

    first: int
    last: int
    type: str | None = None
    trait: str | None = None


def blocks(lines: list[str]) -> Iterator[Block]:
    for at, line in enumerate(lines):
        if made := IMPL.match(line):
            head = without_parameters(made[2].strip()).split(" {")[0].split(" where ")[0]
            trait, is_of, kind = head.partition(" for ")
            yield Block(at, end_of(lines, at, made[1]), last_name(kind or trait), last_name(trait) if is_of else None)
        elif made := TRAIT.match(line):
            yield Block(at, end_of(lines, at, made[1]), trait=made[2])


def head_of(lines: list[str], first: int, indent: str) -> str:
    """A function's signature and its clauses."""
    last = end_of(lines, first, indent)
    begins = re.compile(rf"{indent}(\{{\}}|\{{|\S.*[^ ] \{{)$")
    body = next((at for at in range(first, last + 1) if begins.match(lines[at])), first)
    return "\n".join(lines[first:last + 1 if lines[last].endswith(";") else body])


def clauses_in(head: str) -> tuple[tuple[str, str], ...]:
    """The clauses of a function's head."""
    _, *pieces = re.split(CLAUSE, re.sub(r"^ *(?:requires .*|//.*\n)", "", head, flags=re.M))
    return tuple((name or "", text) for name, text in zip(pieces[::2], pieces[1::2]))


def said(text: str) -> Iterator[tuple[str, tuple[tuple[str, str], ...]]]:
    """What an impl says besides its functions, as names and clauses."""
    for name, value in SAID.findall(text):
        fields = re.findall(r"^      (\w+) :", value, re.M) if name == "invariant" else [name]
        yield name, tuple((it, "") for it in fields)


@cache
def contracts(crate: str) -> tuple[Function, ...]:
    """All functions of a crate."""
    found = []
    for file in sorted((CRATES / crate / "src").rglob("*.rt")):
        path, text = str(file.relative_to(CRATES)), file.read_text(encoding="utf-8")
        lines = text.split("\n")
        around = [*blocks(lines)]
        for first, made in ((at, made) for at, line in enumerate(lines) if (made := FUNCTION.match(line))):
            of = next((it for it in around if it.first < first <= it.last), Block(first, first))
            is_public = of.trait is not None or lines[first].lstrip().startswith("pub ")
            clauses = clauses_in(head_of(lines, first, made[1]))
            found.append(Function(crate, path, of.type, of.trait, made[2], is_public, clauses))
        for of in around:
            rest = said("\n".join(lines[of.first:of.last]))
            found += [Function(crate, path, of.type, of.trait, name, False, clauses) for name, clauses in rest]
    return tuple(found)


@cache
def surface(crate: str) -> frozenset[str]:
    """The names that a library declares in its lib.rt or hands on from there: its types, traits and functions."""
    file = CRATES / crate / "src" / "lib.rt"
    text = file.read_text(encoding="utf-8") if file.exists() else ""
    names = set(re.findall(r"^pub (?:fn|struct|enum|trait) (\w+)", text, re.M))
    return frozenset(names.union(*(re.findall(r"\w+", it.partition("{")[2] or it.rpartition("::")[2]) for it in REEXPORT.findall(text))))


def is_on_surface(it: Function) -> bool:
    """Whether others can call it by a name that its crate hands on; or from C."""
    return it.is_public and (it.type or it.trait or it.name) in surface(it.crate) or it.name.startswith("hugepool_")


@cache
def definitions() -> frozenset[str]:
    """The names that specs define."""
    return frozenset(it for file in CRATES.glob("*/specs/**/*.antt") for it in DEFINITION.findall(file.read_text(encoding="utf-8")))


def is_defined(name: str) -> bool:
    return name.rpartition(".")[2] in definitions()


class Row(NamedTuple):
    crate: str
    promise: str
    groups: list[str]
    asides: list[str]


def rows(page: str) -> Iterator[Row]:
    """The rows below the headings of crates, and of the list of what isn't in them."""
    crate = None
    for line in page.splitlines():
        if line.startswith("## "):
            crate = line[3:] if line[3:] in crates_of() else "" if line[3:] == LIST else None
        cells = line.strip("| ").split(" | ")
        if crate is not None and line.startswith("| ") and len(cells) == 2 and not cells[0] == "Promise":
            yield Row(crate, cells[0], ASIDE.sub("", cells[1]).split("; "), ASIDE.findall(cells[1]))


def found(path: str, crate: str) -> list[Function]:
    """The functions of this name, in the crate that it begins with or else in the row's."""
    *above, name = path.replace("Display", "Display::output").split("::")
    if above and above[0] in crates_of():
        crate, *above = above
    owner = above[-1] if above else None
    if name == "..":
        return [it for it in contracts(crate) if is_on_surface(it) and it.clauses and owner in (None, it.type or it.trait)]
    named = [it for it in contracts(crate) if it.name == name] if crate else []
    of = [it for it in named if owner == it.type] or [it for it in named if owner and owner in (it.trait, Path(it.file).stem)]
    return [it for it in of if it.type is None] or of


def calls_of(calls: str, crate: str) -> Iterator[tuple[str, list[Function]]]:
    """The calls that a group names, each with the functions that it may be."""
    for span in SPAN.findall(calls):
        head, _, several = span.partition("{")
        for path in (head + it.strip() for it in several.rstrip("}").split(",")):
            yield path, found(path, crate)


def faults(row: Row, named: dict[Function, set[str]]) -> Iterator[str]:
    """What is wrong with a row. What it names of its calls is noted."""
    for group in row.groups:
        calls, colon, clauses = group.partition(": ")
        several, names = [*calls_of(calls, row.crate)], SPAN.findall(clauses)
        every = [it for _, functions in several for it in functions]
        yield from [] if several else [f"no call is named in {group}"]
        yield from (f"no call has a clause {name}" for name in names if not any(it.meant(name) for it in every))
        for path, functions in several:
            own = {clause for it in functions for name in names for clause in it.meant(name)}
            own |= {clause for it in functions for clause in it.names() if not colon}
            for it in functions:
                named.setdefault(it, set()).update(own)
            if not functions:
                yield f"there is no {path}"
            elif not own:
                yield f"no clause is named of {path}"
    yield from (f"the specs have no {it}" for aside in row.asides for it in SPAN.findall(aside) if not is_defined(it))


def inherited(page: str) -> Iterator[str]:
    """What is wrong with the theorems that no call of the core is said to be named after."""
    listed = set(SPAN.findall("".join(NO_CALL.findall(page))))
    theorems = {it.name for it in contracts("hp_laws") if is_on_surface(it)}
    own = {it.name for it in contracts("hp_core") if it.type == "Core" and it.is_public}
    yield from (f"hp_core: {it} is no theorem without a call of its name" for it in sorted(listed - (theorems - own)))
    yield from (f"hp_core: no call is named {it}, and the page doesn't say so" for it in sorted(theorems - own - listed))


def pool_faults(page: str) -> Iterator[str]:
    """The clauses that docs/POOL.md names behind a call, as (`Pool::advance`: `row`, ..), and that the call hasn't."""
    for path, clauses in POOL_CALL.findall(page):
        own = {name for it in contracts("hp_shared") if str(it).endswith(f"::{path}") for name in it.names()}
        yield from (f"docs/POOL.md: {path} has no clause {it}" for it in SPAN.findall(clauses) if it not in own)


def tries() -> Iterator[tuple[str, bool]]:
    """What is tried, and whether it went as it should."""
    page, pool = ((TOP / "docs" / it).read_text(encoding="utf-8") for it in ("PROVED.md", "POOL.md"))
    named: dict[Function, set[str]] = {}
    for row in rows(page):
        wrong = [*faults(row, named)]
        yield f"docs/PROVED.md: {row.crate or LIST}: {row.promise[:60]}: {'; '.join(wrong)}", not wrong
    public = [it for crate in crates_of() for it in contracts(crate) if is_on_surface(it)]
    missing = [f"no row names {it}, {clause or 'its contract'}" for it in public for clause in sorted(it.names() - named.get(it, set()))]
    yield from ((it, False) for it in [*missing, *inherited(page), *pool_faults(pool)])


if __name__ == "__main__":
    sys.exit(report("proved", tries()))
