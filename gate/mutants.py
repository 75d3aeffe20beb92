#!/usr/bin/env python3
"""Tries the mutants: the prover must refuse each wrong body for its own sake.

usage: ./check mutants [CRATE ..] [--all] [--minutes M]

Of crates that are named it tries all mutants. Without a name it tries those of each crate of which a commit since the time in
gate/tried.txt changed more than comments in src/, specs/, edits/, must-fail/ or must-not-compile/, or that has any change there
uncommitted. With --all it tries all. Where all of a crate are refused, and none of its files is changed, the time at which the trial
began stands in that file then: first that of all crates, and behind it those of crates that were tried later, as long as any is due.
What isn't tried within --minutes is left out, and stays due.

The mutants of a crate stand in its folders must-fail/ (those that the toolchain's gate tries too), edits/ and must-not-compile/
(those that the compiler refuses, with the error that they name). The toolchain tries each in its function's place (`rt must-fail`), in
copies of the crates, side by side.

Reported as faults: a mutant that is still proved; one that no longer applies, or that the prover can't read; one that is refused only
because a proof names what the mutant removed.
"""
from __future__ import annotations

import argparse
import os
import re
import shutil
import subprocess
import sys
import tempfile
import time
from concurrent.futures import ThreadPoolExecutor
from datetime import datetime, timezone
from itertools import product
from pathlib import Path
from typing import Callable, Iterable, NamedTuple

from programs import TOP, below, crates_of
import launch  # (of the launcher, which programs makes known)

PARTS = ("src", "specs", "proofs")
NOT_COMPILED = "must-not-compile"
FOLDERS = ("must-fail", "edits", NOT_COMPILED)
# what belongs to a mutant's crate: it is due where such a file changed
OWN = re.compile(r"crates/(\w+)/(?:src|specs|edits|must-fail|must-not-compile)/")
# a changed line that may change what the prover answers: no comment alone
SAYS = "^ *([^ /-]|/[^/]|-[^-])"
TRIED = TOP / "gate" / "tried.txt"
START = time.monotonic()
# what the toolchain says of a mutant that it tried, and how it begins where the mutant is refused for its own sake
TOLD = re.compile(r"^rt: must-fail (\w+)/([\w.-]+)\.edit: (.*)$", re.M)
REFUSED, BY_A_NAME = "refused, as it must be", "only because a proof file names"
NOT_BUILT = "check: the libraries below these crates aren't proved, so no mutant was tried"
# so many of a crate, at least, are tried one after another: the first of them costs a check of the whole crate
PART = 16


class Mutant(NamedTuple):
    """A mutant's file, its replacements (path, old text, new text) in their order, and the compiler's error that it must cause, if any."""

    file: Path
    pairs: tuple[tuple[str, str, str], ...]
    error: str | None

    @property
    def crate(self) -> Path:
        return self.file.parent.parent

    def texts(self) -> dict[str, str]:
        """The files that it changes, as it leaves them. Each old text stands once in its file, as those before it have left that."""
        after = {}
        for path, old, new in self.pairs:
            text = after[path] if path in after else (self.crate / path).read_text(encoding="utf-8")
            if text.count(old) != 1:
                raise ValueError(f"an old text stands {text.count(old)} times in {path}, and not once: {old.strip()[:80]}")
            after[path] = text.replace(old, new)
        return after


def read(file: Path) -> Mutant:
    """The mutant that a file spells, in the toolchain's format: lines `file: PATH`, and behind each pairs of lines `old: TEXT` and `new: TEXT`;
    before them `error: CODE` where it must not compile."""
    path = old = error = None
    pairs = []
    for line in file.read_text(encoding="utf-8").split("\n"):
        word, _, text = line.partition(":")
        if word == "file" and Path(text.strip()).parts[:1] in [(part,) for part in PARTS] and ".." not in text:
            path = text.strip()
        elif word == "error" and not pairs:
            error = text.strip()
        elif word == "old":
            old = text.removeprefix(" ")
        elif word == "new" and path and old:
            pairs.append((path, old, text.removeprefix(" ")))
            old = None
        elif line.strip():
            raise ValueError(f"a line stands where it can't, or names no file below {', '.join(PARTS)}: {line[:60]}")
    if old is not None or not pairs:
        raise ValueError("it lacks a line 'old:' or 'new:'")
    if bool(error) != (file.parent.name == NOT_COMPILED):
        raise ValueError(f"a line 'error: CODE' stands in the edits of {NOT_COMPILED}/, and only there")
    return Mutant(file, tuple(pairs), error)


def mutants_of(crate: Path) -> tuple[list[Mutant], dict[str, str]]:
    """The crate's mutants, and what is wrong with files that spell none or no longer apply."""
    found, bad = {}, {}
    for file in sorted(it for folder in FOLDERS for it in (crate / folder).glob("*") if it.suffix != ".md"):
        try:
            if file.suffix != ".edit" or file.stem in found:
                raise ValueError("its name ends neither in .edit nor, if it is only to be read, in .md, or another edit has it")
            mutant = read(file)
            mutant.texts()
            found[file.stem] = mutant
        except (OSError, ValueError) as error:
            bad[file.stem] = f"BAD EDIT: {error}"
    return [*found.values()], bad


def link_or_copy(source: str, to: str) -> None:
    """Libraries are only read, so a link to each file does; where there are none, a copy."""
    try:
        os.link(source, to)
    except OSError:
        shutil.copyfile(source, to)


def bring(source: Path, to: Path, copy: Callable[[str, str], object] = shutil.copy2) -> None:
    if source.is_dir():
        shutil.copytree(source, to, copy_function=copy, dirs_exist_ok=True)


def copy_crate(name: str, top: Path) -> Path:
    """Copies this crate and those below it, with what was proved of them, for the toolchain, and returns its folder."""
    crates = crates_of(TOP)
    every = {name, *below(name, crates)}
    (top / "crates.txt").write_text("".join(f"{it}: {' '.join(crates[it])}\n" for it in crates if it in every), encoding="utf-8")
    shutil.copyfile(TOP / "HANDLES", top / "HANDLES")
    for it, part in product(every, PARTS):
        bring(TOP / "crates" / it / part, top / "crates" / it / part)
    for it in every:
        bring(TOP / "crates" / it / "out" / "rlib", top / "crates" / it / "out" / "rlib", link_or_copy)
    return top / "crates" / name


def left_until(end: float) -> float | None:
    """The seconds that are left, if there is an end."""
    return None if end == float("inf") else max(0.0, end - time.monotonic())


def run(words: list[str], folder: Path, end: float) -> str:
    """What a command of the toolchain prints, if it ends by then."""
    how = {"stdin": subprocess.DEVNULL, "stdout": subprocess.PIPE, "stderr": subprocess.STDOUT, "text": True, "errors": "replace"}
    return subprocess.run(words, cwd=folder, timeout=left_until(end), **how).stdout


def try_to_compile(mutant: Mutant, folder: Path, end: float) -> str | None:
    """What is wrong with a mutant that must not compile, if anything is."""
    texts = mutant.texts()
    for path, text in texts.items():
        (folder / path).write_text(text, encoding="utf-8")
    codes = re.findall(r"^\S+:\d+:\d+: error\[([\w-]+)\]: ", run([*launch.RT, "check", "--only", ""], folder, end), re.M)
    for path in texts:
        shutil.copyfile(mutant.crate / path, folder / path)
    return None if mutant.error in codes else f"NOT REFUSED BY error[{mutant.error}], but by {', '.join(codes) or 'none'}"


def try_part(mutants: list[Mutant], room: str, end: float) -> dict[str, str] | None:
    """Tries mutants of one crate in a copy of it, one after another, and returns what is wrong with which; nothing where that takes longer
    than there is time."""
    try:
        return try_in_copy(mutants, room, end)
    except subprocess.TimeoutExpired:
        return None


def try_in_copy(mutants: list[Mutant], room: str, end: float) -> dict[str, str]:
    wrong, name = {}, mutants[0].crate.name
    with tempfile.TemporaryDirectory(dir=room) as top:
        folder = copy_crate(name, Path(top))
        (folder / "must-fail").mkdir()
        for it in mutants:
            if not it.error:
                shutil.copyfile(it.file, folder / "must-fail" / it.file.name)
        said = run([*launch.RT, "must-fail", name], Path(top), end)
        told = {edit: answer for of, edit, answer in TOLD.findall(said) if of == name}
        for it in mutants:
            answer = told.get(it.file.stem, f"NOT TOLD: rt must-fail says nothing of it, but {said.strip()[-200:]!r}")
            if it.error:
                wrong |= {it.file.stem: fault} if (fault := try_to_compile(it, folder, end)) else {}
            elif not answer.startswith(REFUSED) or BY_A_NAME in answer:
                wrong[it.file.stem] = f"NOT REFUSED FOR ITSELF: {answer}"
    return wrong


def lanes(names: list[str]) -> int:
    """How many parts are tried at once: one a processor, if the memory holds so many checks of the largest of these crates."""
    rt, known = launch.load(), launch.weights()
    largest = max((known[it][1] for it in names if it in known), default=0.0) or 4096.0 * launch.MIB
    return max(1, min(rt.processors(), int(launch.SHARE * rt.free() / largest)))


def build_libraries(names: Iterable[str], end: float) -> bool | None:
    """Has these crates and the libraries below them proved and built, where they aren't; nothing is said where there is no time for it."""
    words = [sys.executable, str(TOP / "launcher" / "launch.py"), "libraries", *names]
    try:
        return subprocess.run(words, stdin=subprocess.DEVNULL, timeout=left_until(end)).returncode == 0
    except subprocess.TimeoutExpired:
        return None


def git(top: Path, *words: str) -> str:
    # (also where the clone belongs to somebody else, as it may in a container)
    own = ["git", "-c", "safe.directory=*", "-C", str(top)]
    return subprocess.run([*own, *words], stdin=subprocess.DEVNULL, capture_output=True, text=True, check=True).stdout


def times_of(tried: str) -> tuple[datetime, dict[str, datetime]]:
    """The time at which all were refused, and those of crates that were tried later."""
    first, *others = tried.splitlines()
    named = (line.split() for line in others)
    return datetime.fromisoformat(first.strip()), {name: datetime.fromisoformat(time) for name, time in named}


def due(top: Path, tried: str, every: set[str]) -> set[str]:
    """The crates with own changes since their time. Where that can't be said (no repository, a part of its history, no time), all."""
    try:
        since, own = times_of(tried)
        if git(top, "rev-parse", "--is-shallow-repository").strip() == "true":
            return every
        # (a merge is shown as what it brought to the branch, at its own time)
        which = (f"-G{SAYS}", f"--since-as-filter={since.isoformat()}", "--", "crates")
        shown = ("log", "--first-parent", "-m", "--name-only", "--format=@%cI", *which)
        changed = {made[1] for made in OWN.finditer(git(top, "status", "--porcelain", "--untracked-files=all", "--", "crates"))}
        for commit in git(top, *shown).split("@")[1:]:
            time, _, files = commit.partition("\n")
            changed |= {made[1] for made in OWN.finditer(files) if datetime.fromisoformat(time) > own.get(made[1], since)}
    except (OSError, ValueError, subprocess.CalledProcessError):
        return every
    return changed & every


def note_tried(names: Iterable[str], began: datetime) -> None:
    """Notes that the mutants of these crates were refused by what is committed. Where none is due any more, one time says so."""
    since, own = times_of(TRIED.read_text(encoding="utf-8"))
    dirty = {made[1] for made in OWN.finditer(git(TOP, "status", "--porcelain", "--untracked-files=all", "--", "crates"))}
    own |= {it: began for it in names if it not in dirty}
    text = "\n".join([since.isoformat(timespec="seconds"), *(f"{name} {own[name].isoformat(timespec='seconds')}" for name in sorted(own)), ""])
    is_due = due(TOP, text, {*crates_of(TOP)})
    TRIED.write_text(text if is_due else f"{began.isoformat(timespec='seconds')}\n", encoding="utf-8")


def try_all(picked: list[str], end: float) -> int:
    """Tries the mutants of these crates, as far as there is time, and returns the status."""
    refused, faults, began = 0, [], datetime.now(timezone.utc)
    is_built = build_libraries(picked, end)
    if not is_built:
        print("left out: all mutants, for want of time; they stay due" if is_built is None else NOT_BUILT)
        return 0 if is_built is None else 1
    every, side_by_side = {it: mutants_of(TOP / "crates" / it) for it in picked}, lanes(picked)
    most = max(PART, sum(len(found) for found, _ in every.values()) // side_by_side)
    with tempfile.TemporaryDirectory(prefix="mutants-") as room, ThreadPoolExecutor(side_by_side) as pool:
        # (the crates with the most mutants come first)
        begun = {
            name: [pool.submit(try_part, found[at : at + most], room, end) for at in range(0, len(found), most)]
            for name, (found, _) in sorted(every.items(), key=lambda it: -len(it[1][0]))
        }
        for name, parts in begun.items():
            found, wrong = every[name]
            results = [it.result() for it in parts]
            for it in results:
                wrong |= it or {}
            lines, number = [f"  {name}/{it}: {why}" for it, why in wrong.items()], len(found) * (None not in results) - len(wrong)
            told = f"{name}: {number} of {len(found)} mutants refused, after {time.monotonic() - START:.0f} s"
            left = f"left out: of the {len(found)} mutants of {name} not all are tried, for want of time; they stay due"
            print("\n".join([left if None in results else told, *lines]), flush=True)
            refused, faults = refused + max(0, number), faults + lines
            note_tried([] if wrong or None in results else [name], began)
    # (once more, since the lines of other crates may stand behind them)
    print("\n".join([*faults, f"mutants: {refused} passed, {len(faults)} failed"]))
    return 1 if faults else 0


def main() -> int:
    words = argparse.ArgumentParser(prog="./check mutants", description=__doc__.split("\n")[0])
    words.add_argument("crates", nargs="*", metavar="CRATE", help="the crates whose mutants are tried; none: those that are due")
    words.add_argument("--all", action="store_true", help="try the mutants of all crates")
    words.add_argument("--minutes", type=float, default=float("inf"), metavar="M", help="leave out what isn't tried within so many")
    words.add_argument("--apply", action="store_true", help="try none, and say whether each applies")
    given = words.parse_args()
    every = {it: mutants_of(TOP / "crates" / it) for it in crates_of(TOP)}
    numbers = {name: len(found) for name, (found, _) in every.items() if found}
    if unknown := [it for it in given.crates if it not in every]:
        words.error(f"crates.txt has no crate {unknown[0]}")
    if given.apply:
        bad = [f"  {name}/{it}: {why}\n" for name, (_, wrong) in every.items() for it, why in wrong.items()]
        print(f"{''.join(bad)}mutants apply: {sum(numbers.values())} passed, {len(bad)} failed")
        return 1 if bad else 0
    picked = {*numbers} if given.all else {*given.crates} & {*numbers}
    picked = picked if given.all or given.crates else due(TOP, TRIED.read_text(encoding="utf-8"), {*numbers})
    few = sum(numbers[it] for it in picked)
    print(f"mutants: {few} of {sum(numbers.values())} are due, in {len(picked)} crates: {' '.join(sorted(picked))}", flush=True)
    return try_all(sorted(picked), START + 60 * given.minutes) if picked else 0


if __name__ == "__main__":
    sys.exit(main())
