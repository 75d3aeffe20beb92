"""A state as text (docs/AUDIT.md, "The state as text"): one picture for each pool and each mount with size=."""
from __future__ import annotations

from dataclasses import dataclass
from typing import Iterator

from kernel.audit.checks import check_reserve, check_used
from kernel.audit.owed import owed_by
from kernel.audit.state import File, Mapping, Mount, Pool, Regions, State, files_of, is_within, mounts_of, reserved_in

# what a line can say of a size, and which indices a picture may have
MOST_SIZE, INDICES = (1 << 32) - 1, 1 << 31


@dataclass(frozen=True)
class Picture:
    """A pool, or a mount of it with its used count: then pages of other mounts are in hands, and what they await is owed.

    Private memory is in nobody's file, so its frames are hands; what private mappings and minimum sizes have reserved is owed.
    """

    name: str
    state: State
    pool: Pool
    limited: Mount | None = None

    @property
    def mounts(self) -> list[Mount]:
        return mounts_of(self.state, self.pool)

    @property
    def files(self) -> list[File]:
        return files_of(self.mounts if self.limited is None else [self.limited])

    def regions(self) -> Iterator[tuple[File, int, int]]:
        """The regions in the order of their lines."""
        return ((file, begin, to) for file in self.files for begin, to in joined(file.map.regions))

    def translations(self) -> Iterator[tuple[File, Mapping, int, int]]:
        """The translations in the order of their lines, each with its index and frame."""
        return ((file, it, index, frame) for file in self.files for it in file.mappings if it.shared for index, frame in it.translations)

    def fits(self) -> bool:
        """Whether each index is one that a picture may have."""
        cached = (index for file in self.files for index in file.cache)
        return all(to <= INDICES for _, _, to in self.regions()) and all(index < INDICES for index in cached)

    def text(self) -> str:
        """Its lines."""
        lines = [self.head(), *(f"free {self.number(frame)}" for _, frame in self.pool.free), *(f"hand {self.number(frame)}" for frame in self.hands())]
        for number, file in enumerate(self.files):
            lines += [f"file {min(file.size, MOST_SIZE)}{' locked' if file.locked else ''}"]
            lines += [f"region {number} {begin} {to}" for begin, to in joined(file.map.regions)]
            lines += [f"page {number} {index} {self.number(frame)}" for index, frame in sorted(file.cache.items())]
        tasks: dict[int, int] = {}
        numbers = {file.address: number for number, file in enumerate(self.files)}
        lines += [f"translation {tasks.setdefault(it.space, len(tasks))} {numbers[file.address]} {index} {self.number(frame)}"
                  for file, it, index, frame in self.translations()]
        return "".join(f"{line}\n" for line in [*lines, "end"])

    def number(self, frame: int) -> int:
        return frame >> self.pool.order

    def hands(self) -> Iterator[int]:
        """A frame for each index of private memory, for each page of other mounts, and for what else is in use."""
        own = {file.address for file in self.files}
        private = {(file.address, index, frame) for file in files_of(self.mounts) for it in file.mappings if not it.shared
                   for index, frame in it.translations if file.cache.get(index) != frame}
        yield from sorted(frame for _, _, frame in private)
        placed = {frame for _, _, frame in private}
        for file in files_of(self.mounts):
            placed.update(file.cache.values())
            yield from (file.cache.values() if file.address not in own else ())
        yield from (frame for frame in self.pool.active if frame not in placed)

    def head(self) -> str:
        """The counts. What calls in flight may owe of a difference is owed."""
        owed, counts = owed_by(self.state.calls, self.pool, self.mounts), self.pool.counts
        addresses = {file.address for file in self.files}
        others = sum(file.vacant for file in files_of(self.mounts) if file.address not in addresses)
        reserved, own = reserved_in(self.mounts), sum(file.reserved for file in self.files)
        in_flight = sum(counts["resv"] - it.at[0] for it in check_reserve(self.pool, self.mounts, owed) if it.owed)
        resv = f"{counts['resv']} {reserved.private + reserved.minimum + others + in_flight}"
        if self.limited is None:
            return f"picture {resv} {own} 0"
        used = self.limited.subpool.used
        in_flight = sum(used - it.at[1] for it in check_used(self.limited, self.pool, owed) if it.owed)
        return f"picture {resv} {used} {self.beside(self.limited) + in_flight} {self.limited.subpool.max}"

    def beside(self, mount: Mount) -> int:
        """What a mount uses beside its files' reserved indices: of private mappings, and frames that name it less pages of those indices."""
        frames = sum(it.subpool == mount.subpool.address for it in self.pool.active.values())
        return reserved_in([mount]).private + frames - sum(is_within(file.map.regions, index) for file in mount.files for index in file.cache)


def joined(regions: Regions) -> Regions:
    """The regions, those that touch as one: Linux keeps them apart where control groups differ."""
    found: Regions = []
    for begin, to in regions:
        if found and found[-1][0] < found[-1][1] == begin < to:
            begin = found.pop()[0]
        found.append((begin, to))
    return found


def pictures(state: State) -> Iterator[Picture]:
    for pool in state.pools:
        mounts = mounts_of(state, pool)
        if not pool.counts["nr"] and not pool.counts["resv"] and not files_of(mounts):
            continue
        yield Picture(pool.name, state, pool)
        for number, mount in enumerate(it for it in mounts if it.subpool and it.subpool.max != -1):
            yield Picture(f"{pool.name}.mount{number}", state, pool, mount)
