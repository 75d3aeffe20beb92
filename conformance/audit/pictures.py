#!/usr/bin/env python3
"""Judges pictures (docs/AUDIT.md, "The state as text") by an auditor of its own, and compares a program's audit with it.

usage: pictures.py [--program P] [--count N] [--seed N]    N random pictures, right and damaged (1000); ./hugepool by default
       pictures.py --program P FILE ..                     these pictures
       pictures.py FILE ..                                 prints what this auditor says of them

A program is run with the word `audit` for each picture, on its standard input, and has to print the same findings, or name the bad line.
The last line is 'N passed, M failed'. Status: 0 all equal; 1 some differ.
"""
from __future__ import annotations

import argparse
import random
import re
import subprocess
import sys
from collections import Counter
from dataclasses import dataclass, field
from pathlib import Path

HUGEPOOL = Path(__file__).resolve().parents[2] / "hugepool"
MOST, INDICES = 2**32 - 1, 2**31
NUMBER = re.compile(r"0|[1-9][0-9]*")
SIGNED = re.compile(r"-?(?:0|[1-9][0-9]*)")
# of each line but the first how many numbers stand behind its word
NUMBERS = {"free": 1, "retired": 1, "hand": 1, "region": 3, "page": 3, "translation": 4}


class BadLine(Exception):
    """The number of the first line that isn't one of a picture."""


@dataclass
class Picture:
    """What a text says."""

    counts: tuple[int, ...] = ()
    quota: int | None = None
    frames: list[int] = field(default_factory=list)
    free: int = 0
    files: list[tuple[int, bool]] = field(default_factory=list)
    regions: list[tuple[int, ...]] = field(default_factory=list)
    pages: list[tuple[int, ...]] = field(default_factory=list)
    translations: list[tuple[int, ...]] = field(default_factory=list)


def number_of(word: str, pattern: re.Pattern[str] = NUMBER) -> int:
    if not pattern.fullmatch(word) or abs(int(word)) > MOST:
        raise ValueError(word)
    return int(word)


def read(text: bytes) -> Picture:
    """The picture that a text spells."""
    found, ended = Picture(), False
    lines = text.split(b"\n")
    lines = lines[:-1] if lines[-1] == b"" else lines
    for number, line in enumerate(lines, 1):
        try:
            if ended:
                raise ValueError("a line behind the end")
            ended = add(found, line.decode("ascii"), number == 1)
        except ValueError as why:
            raise BadLine(number) from why
    if not ended:
        raise BadLine(len(lines) + 1)
    return found


def add(to: Picture, line: str, is_first: bool) -> bool:
    """Adds what a line says, and returns whether it is the end."""
    word, *rest = line.split(" ")
    if is_first != (word == "picture"):
        raise ValueError(word)
    if word == "picture":
        if len(rest) not in (4, 5):
            raise ValueError(line)
        to.counts = tuple(number_of(it, SIGNED) for it in rest[:4])
        to.quota = number_of(rest[4]) if len(rest) == 5 else None
    elif line == "end":
        return True
    elif word == "file":
        if rest[1:] not in ([], ["locked"]):
            raise ValueError(line)
        to.files.append((number_of(rest[0]) if rest else number_of(""), len(rest) == 2))
    else:
        add_numbers(to, word, tuple(map(number_of, rest)))
    return False


def add_numbers(to: Picture, word: str, numbers: tuple[int, ...]) -> None:
    if NUMBERS.get(word) != len(numbers):
        raise ValueError(word)
    if word in ("free", "retired", "hand"):
        to.frames.append(numbers[0])
        to.free += word == "free"
    else:
        {"region": to.regions, "page": to.pages, "translation": to.translations}[word].append(numbers)


def out_of_order(it: Picture) -> list[str]:
    """The regions and pages that aren't right, or don't stand behind the one before them."""
    lines, before = [], None
    for number, (file, begin, end) in enumerate(it.regions):
        if file >= len(it.files) or not begin < end <= INDICES or before and not (file > before[0] or file == before[0] and begin > before[2]):
            lines.append(f"region {number}: of no file, empty, too long, or not behind the region before it")
        before = file, begin, end
    for number, (file, index, _) in enumerate(it.pages):
        if file >= len(it.files) or index >= INDICES or number and (file, index) <= it.pages[number - 1][:2]:
            lines.append(f"page {number}: of no file, or not behind the page before it")
    return lines


def astray(it: Picture) -> list[str]:
    """The translations that aren't right."""
    lines, pages = [], set(it.pages)
    for number, (_, file, index, frame) in enumerate(it.translations):
        size, is_locked = it.files[file] if file < len(it.files) else (0, True)
        if file >= len(it.files):
            lines.append(f"translation {number}: of no file")
        if (file, index, frame) not in pages:
            lines.append(f"translation {number}: not to its file's page at that index")
        if not is_locked and index >= size:
            lines.append(f"translation {number}: at or above the size of an unlocked file")
    return lines


def judge(it: Picture) -> list[str]:
    """All findings, as lines; a frame has one for each place but one."""
    wrong = out_of_order(it)
    lines = wrong + astray(it)
    for frame, times in Counter(it.frames + [frame for _, _, frame in it.pages]).items():
        lines += [f"frame {frame}: at two places"] * (times - 1)
    resv, owed, used, used_owed = it.counts
    reserved = sum(end - begin for _, begin, end in it.regions)
    marked = sum(any(file == its and begin <= index < end for its, begin, end in it.regions) for file, index, _ in it.pages)
    if not wrong and resv != reserved - marked + owed:
        lines.append(f"resv: should be {reserved - marked + owed}")
    if not wrong and used != reserved + used_owed:
        lines.append(f"used: should be {reserved + used_owed}")
    if not 0 <= resv <= it.free:
        lines.append("resv: below zero, or above the free frames")
    if used < 0 or it.quota is not None and used > it.quota:
        lines.append("used: below zero, or above the quota")
    return lines


def verdict(text: bytes) -> str:
    """What is told of a picture: its findings, sorted, and how many there are; or the bad line."""
    try:
        return told_of(judge(read(text)))
    except BadLine as why:
        return f"line {why}"


def told_of(lines: list[str]) -> str:
    return "\n".join([*sorted(lines), f"findings {len(lines)}"])


def drawn(chance: random.Random) -> list[str]:
    """The lines of a right picture."""
    frames = chance.sample(range(MOST if chance.random() < 0.1 else 64), chance.randrange(24))
    take = lambda most: [frames.pop() for _ in range(min(len(frames), chance.randrange(most)))]  # noqa: E731
    pages = [(file, index) for file in range(chance.randrange(4)) for index in sorted(chance.sample(range(12), chance.randrange(5)))]
    high = 2**31 - 20 if chance.random() < 0.2 else 0
    files = max([file for file, _ in pages], default=-1) + 1 + chance.randrange(2)
    lines, regions = [], []
    for file in range(files):
        size = chance.randrange(14)
        lines.append(f"file {size + high}{' locked' if chance.random() < 0.3 else ''}")
        cuts = sorted(chance.sample(range(16), 2 * chance.randrange(4)))
        regions += [(file, begin, end) for begin, end in zip(cuts[::2], cuts[1::2])]
    sizes = [int(line.split()[1]) - high if "locked" not in line else 99 for line in lines]
    placed = [(file, index, frames.pop()) for file, index in pages if frames]
    lines += [f"region {file} {begin + high} {end + high}" for file, begin, end in regions]
    lines += [f"page {file} {index + high} {frame}" for file, index, frame in placed]
    lines += [f"translation {chance.randrange(3)} {file} {index + high} {frame}" for file, index, frame in placed
              if index < sizes[file] for _ in range(chance.randrange(3))]
    free = take(8)
    lines += [f"free {it}" for it in free] + [f"retired {it}" for it in take(3)] + [f"hand {it}" for it in take(3)]
    reserved = sum(end - begin for _, begin, end in regions)
    vacant = reserved - sum(any(file == its and begin <= index < end for its, begin, end in regions) for file, index, _ in placed)
    resv, used = chance.randint(0, len(free)), reserved + chance.randint(-3, 3)
    quota = f" {max(0, used) + chance.randrange(3)}" if chance.random() < 0.5 else ""
    chance.shuffle(lines) if not regions and files < 2 else None
    return [f"picture {resv} {resv - vacant} {used} {used - reserved}{quota}", *lines, "end"]


def damaged(lines: list[str], chance: random.Random) -> list[str]:
    """The lines with one thing changed."""
    at = chance.randrange(len(lines))
    words = lines[at].split(" ")
    numbers = [k for k, word in enumerate(words) if SIGNED.fullmatch(word)]
    how = chance.choice(("number", "number", "number", "number", "drop", "twice", "swap", "word", "byte"))
    if how == "number" and numbers:
        k = chance.choice(numbers)
        words[k] = chance.choice((str(int(words[k]) + chance.choice((-1, 1))), "0", str(chance.randrange(64)), str(2**31), str(2**32), "-1", "007", ""))
        return [*lines[:at], " ".join(words), *lines[at + 1 :]]
    if how == "drop":
        return lines[:at] + lines[at + 1 :]
    if how == "twice":
        return [*lines[: at + 1], *lines[at:]]
    if how == "swap":
        other = chance.randrange(len(lines))
        lines[at], lines[other] = lines[other], lines[at]
        return lines
    if how == "word":
        words[0] = chance.choice(("free", "hand", "retired", "page", "region", "translation", "file", "end", "picture", "none", ""))
        return [*lines[:at], " ".join(words), *lines[at + 1 :]]
    k = chance.randrange(len(lines[at]) + 1)
    return [*lines[:at], lines[at][:k] + chance.choice((" ", "x", "-", "0", "\r", "")) + lines[at][k + 1 :], *lines[at + 1 :]]


def random_picture(chance: random.Random) -> bytes:
    lines = drawn(chance)
    for _ in range(chance.choice((0, 0, 1, 1, 1, 2))):
        lines = damaged(lines, chance)
    text = "\n".join(lines).encode() + (b"\n" if chance.random() < 0.9 else b"")
    return text[: chance.randrange(len(text) + 1)] if chance.random() < 0.05 else text


def asked(program: str, text: bytes) -> str:
    """What the program says of a picture, in this auditor's words."""
    ran = subprocess.run([program, "audit"], input=text, capture_output=True, check=False)
    *lines, last = ran.stdout.decode().splitlines() or [""]
    bad = re.fullmatch(r"hugepool: line (\d+) is not one of a picture\n", ran.stderr.decode())
    if ran.returncode == 2 and bad and not last:
        return f"line {bad[1]}"
    is_said = last == f"findings {len(lines)}" and ran.returncode == (1 if lines else 0) and not ran.stderr
    return told_of(lines) if is_said else f"status {ran.returncode}: {ran.stdout!r} {ran.stderr!r}"


def main() -> int:
    words = argparse.ArgumentParser(description=__doc__, formatter_class=argparse.RawDescriptionHelpFormatter)
    words.add_argument("files", nargs="*", type=Path, metavar="FILE")
    words.add_argument("--program")
    words.add_argument("--count", type=int, default=1000)
    words.add_argument("--seed", type=int, default=1)
    options = words.parse_args()
    if options.program is None and options.files:
        print("\n".join(f"{path}: {verdict(path.read_bytes())}" for path in options.files))
        return 0
    chance = random.Random(options.seed)
    texts = (path.read_bytes() for path in options.files) if options.files else (random_picture(chance) for _ in range(options.count))
    found: Counter[str] = Counter()
    failed = 0
    for number, text in enumerate(texts):
        own, its = verdict(text), asked(options.program or str(HUGEPOOL), text)
        found["with a bad line" if own.startswith("line") else "right" if own == told_of([]) else "wrong"] += 1
        if own != its:
            failed += 1
            print(f"picture {number}: this auditor says {own}, and the program {its}:\n{text.decode(errors='replace')}")
    print(", ".join(f"{count} {what}" for what, count in found.most_common()))
    print(f"pictures: {sum(found.values()) - failed} passed, {failed} failed")
    return 1 if failed else 0


if __name__ == "__main__":
    sys.exit(main())
