#!/usr/bin/env python3
"""Makes random scripts of calls, for `record/` to make on a kernel.

usage: generate.py SEED COUNT [KIND]

  plain    pools of 1 to 8 frames, 1 or 2 files and 1 to 3 tasks, with 20 to 60 calls (this one unless told otherwise)
  big      pools of 9 to 40 frames, 1 to 5 files and 1 to 6 tasks, with 60 to 150 calls
  quota    as plain, each with a maximum of pages
  resize   as plain, and the number of frames changes
  mixed    as big, with a maximum of pages, and the number of frames changes
  race     tasks race: of two scripts one without truncations, and one with them

Script K of a seed is the same whatever the count, on every machine: each begins with a generator of its own, seeded by the
kind, the seed and K, of which only `random()` is drawn, whose numbers Python promises to keep.

Each script has its own taste for calls. A small model of the pool only aims: it says what is mapped, which resizes leave no
surplus, and which touches are of a page that is cached at or above its file's size. Those are left out, since this pool and
Linux differ there (README.md).
"""
from __future__ import annotations

import random
import signal
import sys
from dataclasses import dataclass, field
from typing import Callable, Iterator, Sequence, TypeVar

# the pages that a file may have
LIMIT = 4096
# the mappings that a script gives a task
MAPPINGS = 6
Item = TypeVar("Item")


class Dice:
    """What is drawn by chance."""

    def __init__(self, *seed: object) -> None:
        self.source = random.Random(" ".join(map(str, seed)))

    def between(self, least: int, most: int) -> int:
        return least + int(self.source.random() * (most - least + 1))

    def is_one_of(self, count: int) -> bool:
        return self.between(1, count) == 1

    def pick(self, items: Sequence[Item]) -> Item:
        return items[self.between(0, len(items) - 1)]

    def weighed(self, weights: dict[str, int]) -> str:
        """One of the words, by their weights."""
        return self.pick([word for word, weight in weights.items() for _ in range(weight)])


@dataclass(frozen=True)
class Sizes:
    """How large the pools of a kind are, each from the least to the most, and what else they have."""

    frames: tuple[int, int]
    files: tuple[int, int]
    tasks: tuple[int, int]
    calls: tuple[int, int]
    has_quota: bool = False
    resizes: bool = False


PLAIN = ((1, 8), (1, 2), (1, 3), (20, 60))
BIG = ((9, 40), (1, 5), (1, 6), (60, 150))
KINDS = {
    "plain": Sizes(*PLAIN),
    "big": Sizes(*BIG),
    "quota": Sizes(*PLAIN, has_quota=True),
    "resize": Sizes(*PLAIN, resizes=True),
    "mixed": Sizes(*BIG, has_quota=True, resizes=True),
}
RACE = "race"

# how often each call is drawn, before a script's taste
WEIGHTS = {
    "map": 12, "mapn": 8, "unmap": 6, "load": 14, "store": 16, "alloc": 8, "allock": 6, "punch": 10, "trunc": 9, "exit": 1,
    "odd": 2, "resize": 6,
}  # fmt: skip
# what a script's taste makes of a weight
TASTES = (1, 3, 3, 3, 9)


@dataclass
class File:
    """A file's size, and for each reserved index whether it has a page."""

    size: int = 0
    pages: dict[int, bool] = field(default_factory=dict)


@dataclass(frozen=True)
class Mapping:
    base: int
    file: int
    first: int
    length: int


@dataclass
class Pool:
    """A pool after some calls, one after another."""

    frames: int
    quota: int | None
    files: list[File]
    # of each task that lives, what it has mapped
    tasks: dict[int, list[Mapping]]

    def used(self) -> int:
        return sum(len(file.pages) for file in self.files)

    def room(self) -> int:
        """How many more indices may be reserved."""
        most = self.frames if self.quota is None else min(self.frames, self.quota)
        return most - self.used()

    def map(self, task: int, is_reserving: bool, number: int, first: int, length: int) -> None:
        file, indices = self.files[number], range(first, first + length)
        bare = [index for index in indices if index not in file.pages]
        if is_reserving and len(bare) > self.room():
            return
        if is_reserving:
            file.pages.update(dict.fromkeys(bare, False))
        file.size = max(file.size, first + length)
        self.tasks[task].append(Mapping(base_for(self.tasks[task], length), number, first, length))

    def place(self, task: int, page: int) -> tuple[File, int] | None:
        """The file and the index that a virtual page shows."""
        found = (it for it in self.tasks[task] if it.base <= page < it.base + it.length)
        return next(((self.files[it.file], it.first + page - it.base) for it in found), None)

    def differs(self, task: int, page: int) -> bool:
        """Whether a touch is of a page that is cached at or above its file's size."""
        place = self.place(task, page)
        return place is not None and place[1] >= place[0].size and place[0].pages.get(place[1], False)

    def touch(self, task: int, page: int) -> None:
        place = self.place(task, page)
        if place is not None and place[1] < place[0].size:
            self.bring(*place)

    def bring(self, file: File, index: int) -> bool:
        """Has an index have its page, where there is a frame for it."""
        is_there = index in file.pages or self.room() > 0
        if is_there:
            file.pages[index] = True
        return is_there

    def alloc(self, is_keeping: bool, number: int, first: int, length: int) -> None:
        file = self.files[number]
        if all(self.bring(file, index) for index in range(first, first + length)) and not is_keeping:
            file.size = max(file.size, first + length)

    def punch(self, number: int, first: int, length: int) -> None:
        pages = self.files[number].pages
        for index in [index for index, is_there in pages.items() if is_there and first <= index < first + length]:
            del pages[index]

    def truncate(self, number: int, size: int) -> None:
        pages = {index: is_there for index, is_there in self.files[number].pages.items() if index < size}
        self.files[number] = File(size, pages)

    def unmap(self, task: int, base: int) -> None:
        self.tasks[task] = [it for it in self.tasks[task] if it.base != base]


def base_for(mappings: list[Mapping], length: int) -> int:
    """The least virtual page from which on so many are free."""
    base = 0
    for it in sorted(mappings, key=lambda it: it.base):
        if base + length <= it.base:
            break
        base = it.base + it.length
    return base


@dataclass
class Maker:
    """What a script is made with: the pool as it will be, and where in the files its calls go."""

    dice: Dice
    pool: Pool
    # the calls are about so many indices, from this one on
    span: int
    begin: int

    def range(self) -> tuple[int, int, int]:
        """A file, and some of its indices: from which on, and how many."""
        length = self.dice.between(1, self.dice.between(1, self.span))
        file = self.dice.between(0, len(self.pool.files) - 1)
        return file, self.begin + self.dice.between(0, self.span - length), length

    def page(self, task: int) -> int:
        """A virtual page, mostly a mapped one."""
        mappings = self.pool.tasks[task]
        if not mappings or self.dice.is_one_of(30):
            return self.dice.between(0, 12)
        it = self.dice.pick(mappings)
        return it.base + self.dice.between(0, it.length - 1)

    def map(self, task: int, word: str) -> str | None:
        if len(self.pool.tasks[task]) == MAPPINGS:
            return None
        place = self.range()
        self.pool.map(task, word == "map", *place)
        return f"{word} {numbers(place)}"

    def unmap(self, task: int, _: str) -> str | None:
        if not self.pool.tasks[task]:
            return None
        base = self.dice.pick(self.pool.tasks[task]).base
        self.pool.unmap(task, base)
        return f"unmap {base}"

    def touch(self, task: int, word: str) -> str | None:
        page, wide, small = self.page(task), self.dice.between(0, 2**32 - 1) << 32, self.dice.between(0, 9)
        if self.pool.differs(task, page):
            return None
        self.pool.touch(task, page)
        return f"load {page}" if word == "load" else f"store {page} {self.dice.pick((small, wide + small))}"

    def alloc(self, _: int, word: str) -> str:
        place = self.range()
        self.pool.alloc(word == "allock", *place)
        return f"{word} {numbers(place)}"

    def punch(self, _: int, word: str) -> str:
        place = self.range()
        self.pool.punch(*place)
        return f"{word} {numbers(place)}"

    def trunc(self, _: int, word: str) -> str:
        size = self.dice.pick((0, self.begin + self.dice.between(0, self.span), self.begin + self.span))
        file = self.dice.between(0, len(self.pool.files) - 1)
        self.pool.truncate(file, size)
        return f"{word} {file} {size}"

    def exit(self, task: int, word: str) -> str:
        del self.pool.tasks[task]
        return word

    def odd(self, task: int, _: str) -> str:
        """A call at a limit or past it. What it changes, where it isn't refused, the model is told."""
        files = len(self.pool.files)
        file = self.dice.between(0, files - 1)
        word, *place = self.dice.pick((
            ("map", files, 0, 1), ("mapn", file, 0, 0), ("alloc", file, LIMIT - 6, 7), ("punch", file, LIMIT - 1, 1),
            ("punch", file, 0, LIMIT), ("alloc", file, 0, LIMIT), ("allock", file, 0, LIMIT), ("map", file, 0, LIMIT),
            ("trunc", file, LIMIT), ("trunc", file, LIMIT + 1), ("unmap", self.dice.between(100, 16500)),
            ("load", self.dice.between(100, 16500)), ("store", self.dice.between(100, 16500), 1),
        ))  # fmt: skip
        self.note(task, word, place)
        return f"{word} {numbers(place)}"

    def note(self, task: int, word: str, place: list[int]) -> None:
        """Tells the model of a call that the kernel may take."""
        if word == "trunc" and place[1] <= LIMIT:
            self.pool.truncate(*place)
        elif len(place) == 3 and place[0] < len(self.pool.files) and 0 < place[2] and place[1] + place[2] <= LIMIT:
            changes: dict[str, Callable[[], None]] = {
                "map": lambda: self.pool.map(task, True, *place),
                "alloc": lambda: self.pool.alloc(False, *place),
                "allock": lambda: self.pool.alloc(True, *place),
                "punch": lambda: self.pool.punch(*place),
            }
            changes[word]()

    def resize(self) -> str:
        self.pool.frames = self.dice.between(max(1, self.pool.used()), self.pool.frames + 3)
        return f"resize {self.pool.frames}"

    def line(self, kind: str) -> str | None:
        """A line of that kind, if it is possible now."""
        if kind == "resize":
            return self.resize()
        task = self.dice.pick(list(self.pool.tasks))
        op = CALLS[kind](self, task, kind)
        return None if op is None else f"begin {task} {op}"


CALLS: dict[str, Callable[[Maker, int, str], str | None]] = {
    "map": Maker.map, "mapn": Maker.map, "unmap": Maker.unmap, "load": Maker.touch, "store": Maker.touch, "alloc": Maker.alloc,
    "allock": Maker.alloc, "punch": Maker.punch, "trunc": Maker.trunc, "exit": Maker.exit, "odd": Maker.odd,
}  # fmt: skip


def numbers(all_of_them: Sequence[int]) -> str:
    return " ".join(map(str, all_of_them))


def maker_of(dice: Dice, sizes: Sizes) -> Maker:
    frames, files, tasks = (dice.between(*them) for them in (sizes.frames, sizes.files, sizes.tasks))
    quota = dice.between(0, frames + 2) if sizes.has_quota else None
    # few indices, which are shared much, or more of them than frames, which are refused much
    span = dice.pick((2, 3, frames, frames + 2, frames + 5))
    begin = LIMIT - span if dice.is_one_of(10) else 0
    pool = Pool(frames, quota, [File() for _ in range(files)], {task: [] for task in range(1, tasks + 1)})
    return Maker(dice, pool, span, begin)


def header_of(pool: Pool) -> str:
    quota = "" if pool.quota is None else f" {pool.quota}"
    return f"pool {pool.frames} {len(pool.files)} 4 {len(pool.tasks)}{quota}"


def closing(maker: Maker) -> Iterator[str]:
    """What a task that lives does last: it cuts each file somewhere, and then empties them."""
    for task in [*maker.pool.tasks][:1]:
        files = range(len(maker.pool.files))
        yield from (f"begin {task} trunc {file} {maker.begin + maker.dice.between(0, maker.span)}" for file in files)
        yield from (f"begin {task} trunc {file} 0" for file in files)


def script(kind: str, seed: int, number: int) -> list[str]:
    """The lines of a script of calls that run one after another."""
    dice, sizes = Dice(kind, seed, number), KINDS[kind]
    maker = maker_of(dice, sizes)
    lines = [f"script {kind}{seed}.{number}", header_of(maker.pool)]
    weights = {word: weight * dice.pick(TASTES) for word, weight in WEIGHTS.items() if word != "resize" or sizes.resizes}
    for _ in range(dice.between(*sizes.calls)):
        line = maker.line(dice.weighed(weights)) if maker.pool.tasks else None
        lines += [line] if line else []
    return [*lines, *closing(maker), "end"]


def races(seed: int, number: int) -> list[str]:
    """The lines of a script in which tasks race, four times."""
    dice, has_truncations = Dice(RACE, seed, number), number % 2 == 1
    span, tasks, kinds = dice.between(2, 4), dice.between(2, 4), "mnulsakpt" if has_truncations else "mnulsakp"
    name = f"race-with{'' if has_truncations else 'out'}-truncate.{seed}.{number}"
    header = f"pool {dice.between(span, 2 * span)} 1 4 {tasks}"
    lines = [f"race {dice.between(0, 2**31)} 300 {span} {kinds}" for _ in range(4)]
    return [f"script {name}", header, *lines, "begin 1 trunc 0 0", "end"]


def main(words: list[str]) -> int:
    if words[:1] in (["-h"], ["--help"]):
        print(__doc__, end="")
        return 0
    *counts, kind = words if len(words) == 3 else [*words, "plain"]
    if len(counts) != 2 or not all(it.isdecimal() for it in counts) or kind not in (*KINDS, RACE):
        print(__doc__.split("\n\n", 1)[1], end="", file=sys.stderr)
        return 2
    seed, count = map(int, counts)
    for number in range(count):
        print("\n".join(races(seed, number) if kind == RACE else script(kind, seed, number)))
    return 0


if __name__ == "__main__":
    signal.signal(signal.SIGPIPE, signal.SIG_DFL)
    sys.exit(main(sys.argv[1:]))
