"""Smaller scripts than one: with calls left out, with smaller numbers, with calls that overlap made one after the other.

A unit is what can be left out alone: a call, or a call that is started or held together with its wait. Where calls are compared one by
one the last one, which differs, stays. Scripts whose calls overlap, or may be denied memory, are judged by their counts at the end, and
there each unit may go.
"""
from __future__ import annotations

import re
from itertools import combinations
from typing import Iterator

from compare import Script

# of so many units or scripts all pairs are tried
FEW = 12
# the lines of scripts that are judged by their counts, and of these the lines for which there is a wait
BY_COUNTS, AWAITED = ("start ", "hold ", "deny "), ("start ", "hold ")
# the lines of places in a script
Unit = tuple[int, ...]


def numbers_of(line: str) -> list[int]:
    return [int(it) for it in re.findall(r"\d+", line)]


def size(script: Script) -> tuple[int, int]:
    """How large a script is: fewer calls first, then smaller numbers."""
    return len(script.lines), sum(number for line in (script.header, *script.lines) for number in numbers_of(line))


def with_lines(script: Script, lines: list[str]) -> Script:
    return Script(script.name, script.header, lines)


def is_by_counts(script: Script) -> bool:
    """Whether a script is judged by its counts at the end, and not call by call."""
    return any(line.startswith(BY_COUNTS) for line in script.lines)


def task_at(words: list[str]) -> int:
    """Where in the words of a line its task stands; behind it stands the call."""
    if words[0] == "deny":
        return 2
    return (4 if words[2] == "deny" else 2) if words[0] == "hold" else 1


def task_of(line: str) -> str:
    """The task of a line, or nothing where it has none."""
    words = line.split()
    return "" if words[0] in ("resize", "race") else words[task_at(words)]


def units(script: Script) -> list[Unit]:
    """What can be left out of a script, in its order."""
    lines, found = script.lines, []
    awaiting: dict[str, int] = {}
    for at, line in enumerate(lines if is_by_counts(script) else lines[:-1]):
        if line.startswith("wait "):
            first = awaiting.pop(task_of(line), None)
            found.append((at,) if first is None else (first, at))
        elif line.startswith(AWAITED):
            awaiting[task_of(line)] = at
        else:
            found.append((at,))
    return sorted(found)


def without(script: Script, some: list[Unit]) -> Script:
    """The script without some units."""
    left_out = {at for unit in some for at in unit}
    return with_lines(script, [line for at, line in enumerate(script.lines) if at not in left_out])


def cuts(script: Script) -> Iterator[Script]:
    """The script without each run of units, of half its length, a quarter and so on."""
    all_of_them = units(script)
    length = len(all_of_them)
    while length:
        for first in range(0, len(all_of_them), length):
            yield without(script, all_of_them[first : first + length])
        length //= 2


def without_pairs(script: Script) -> Iterator[Script]:
    """The script without any two units, if there are few."""
    all_of_them = units(script)
    for pair in combinations(all_of_them, 2) if len(all_of_them) <= FEW else ():
        yield without(script, list(pair))


def unions(script: Script, dispensable: list[Unit]) -> Iterator[Script]:
    """The script without all units that could be left out alone, and without halves of them."""
    count = len(dispensable)
    lengths = [length for length in (count, count // 2, count // 4) if length > 1]
    parts = [dispensable[first : first + length] for length in lengths for first in range(0, count, length)]
    for part in [*parts, dispensable[::2], dispensable[1::2]]:
        yield without(script, part)


def in_sequence(script: Script) -> Iterator[Script]:
    """The script with one call that is started or held made to its end, where it begins or where it was waited for."""
    for unit in units(script):
        if len(unit) == 2:
            words = script.lines[unit[0]].split()
            at = task_at(words)
            call = f"begin {' '.join(words[at:])}" if "deny" not in words[:at] else f"deny {words[3]} {' '.join(words[at:])}"
            for place, other in (unit, unit[::-1]):
                lines = [call if k == place else line for k, line in enumerate(script.lines)]
                yield with_lines(script, [*lines[:other], *lines[other + 1 :]])


def smaller(number: int, least: int) -> list[int]:
    """Smaller numbers to try: the least, each that is a power of two above it, half, and one less."""
    above = [least + 2**power for power in range(number.bit_length())]
    return sorted({it for it in (least, *above, number // 2, number - 1) if least <= it < number})


def leasts(words: list[str]) -> list[int]:
    """The least of each word's number; -1 where the word isn't a number that can be made smaller."""
    if words[0] in ("pool", "resize", "wait"):
        return {"pool": [-1, 1, 1, 1, 1, 0], "resize": [-1, 1], "wait": []}[words[0]]
    at = task_at(words)
    # (the task of a call that is waited for stands in its wait, too)
    head = [*[-1] * at, -1 if words[0] in ("start", "hold") else 1, -1]
    return [*head, 0, 0, 1] if words[at + 1] in ("map", "mapn", "alloc", "allock", "punch") else [*head, 0, 0]


def with_smaller_numbers(line: str) -> Iterator[str]:
    """The line with one number smaller."""
    words = line.split()
    for at, (word, least) in enumerate(zip(words, leasts(words))):
        for number in smaller(int(word), least) if least >= 0 else ():
            yield " ".join([*words[:at], str(number), *words[at + 1 :]])


def shrunk(script: Script) -> Iterator[Script]:
    """The script with one number smaller, or with all calls by the first task or on the first file."""
    for header in with_smaller_numbers(script.header):
        yield Script(script.name, header, script.lines)
    for at, line in enumerate(script.lines):
        for other in with_smaller_numbers(line):
            yield with_lines(script, [*script.lines[:at], other, *script.lines[at + 1 :]])
    by_one = [re.sub(r"^begin \d+", "begin 1", line) for line in script.lines]
    yield with_lines(script, by_one)
    yield with_lines(script, [re.sub(r" (map|mapn|alloc|allock|punch|trunc) \d+", r" \1 0", line) for line in by_one])
    yield with_lines(script, [re.sub(r" (map|mapn|alloc|allock|punch) (\d+) \d+ \d+", r" \1 \2 0 1", line) for line in by_one])


def least_words(lines: list[str]) -> str:
    """Lines of the same words as one that has the least number of each place."""
    places = list(zip(*(line.split() for line in lines)))
    return " ".join(min(words, key=int) if words[0].isdecimal() else words[0] for words in places)


def merged(script: Script, alike: list[Script]) -> Script:
    """The script with each of its numbers as small as any script has it that differs in the same way."""
    shape = shape_of(script)
    same = [it for it in alike if shape_of(it) == shape]
    lines = [least_words(list(them)) for them in zip(*(it.lines for it in [script, *same]))]
    return Script(script.name, least_words([it.header for it in [script, *same]]), lines)


def merges(script: Script, alike: list[Script]) -> Iterator[Script]:
    """The script with the smaller numbers of all scripts that differ in the same way, and of any two of the smallest."""
    yield merged(script, alike)
    for pair in combinations(sorted(alike, key=size)[:FEW], 2):
        yield merged(script, list(pair))


def shape_of(script: Script) -> list[str]:
    """The script's words without its numbers."""
    return [re.sub(r"\d+", "0", line) for line in (script.header, *script.lines)]


def neighbours(script: Script) -> Iterator[Script]:
    """The scripts that are one change away."""
    yield from cuts(script)
    yield from in_sequence(script)
    yield from shrunk(script)


def is_readable(script: Script) -> bool:
    """Whether the recorder takes a script: one that it refuses would stop the whole boot.

    Each task is one of the pool's, has no call while it is at work, is at work where it is waited for, and not at the end.
    """
    tasks, at_work = int(script.header.split()[4]), set()
    for line in script.lines:
        word, task = line.split(" ", 1)[0], task_of(line)
        if task and (int(task) > tasks or (task in at_work) != (word == "wait")):
            return False
        if word == "wait":
            at_work.discard(task)
        elif f"{word} " in AWAITED:
            at_work.add(task)
    return not at_work


def moved(before: Script, after: Script, some: list[Unit]) -> list[Unit]:
    """Where these units of one script are in a script that was cut from it."""
    places: dict[int, int] = {}
    at = 0
    for old, line in enumerate(before.lines):
        if at < len(after.lines) and after.lines[at] == line:
            places[old] = at
            at += 1
    found = [tuple(places[it] for it in unit) for unit in some if all(it in places for it in unit)]
    return [unit for unit in found if unit in units(after)]
