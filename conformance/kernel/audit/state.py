"""The state of hugetlb's pools as plain data.

Nothing here knows the kernel's memory. Frames are page frame numbers, indices and sizes count huge pages. Names of Linux stand beside.
"""
from __future__ import annotations

from bisect import bisect_right
from dataclasses import dataclass, field

Regions = list[tuple[int, int]]


@dataclass
class Frame:
    """A huge page of the pool that isn't free: where its folio says that it belongs."""

    pfn: int
    references: int
    subpool: int
    anonymous: int  # the anon_vma of private pages, else 0
    gives_back: bool  # HPageRestoreReserve: freeing it raises the reserve count


@dataclass
class Pool:
    """A struct hstate."""

    number: int
    name: str
    order: int
    counts: dict[str, int]  # nr, free, resv, surplus
    nodes: dict[int, dict[str, int]]  # nr, free and surplus of each node
    free: list[tuple[int, int]]  # node, frame: hugepage_freelists
    active: dict[int, Frame]  # hugepage_activelist


@dataclass
class Subpool:
    """A struct hugepage_subpool: what a mount with size= or min_size= has. A limit that isn't set is -1."""

    address: int
    max: int
    used: int
    min: int
    rsv: int


@dataclass
class Mapping:
    """A struct vm_area_struct of a hugetlb file."""

    tasks: list[tuple[int, str]]
    space: int  # its struct mm_struct
    start: int
    first: int  # its first index in the file
    pages: int
    shared: bool
    noreserve: bool
    owner: bool  # a private one that has reserved its pages (HPAGE_RESV_OWNER)
    consumed: Regions  # of an owner: indices whose reservation is gone, the regions of its resv_map
    translations: list[tuple[int, int]]  # index, frame
    special: int  # entries that are neither empty nor present: migration, poison, markers

    @property
    def outstanding(self) -> int:
        """The reserved pages of a private mapping that it hasn't got yet: what hugetlb_vm_op_close() would give back."""
        return self.pages - overlap(self.consumed, self.first, self.first + self.pages) if self.owner else 0


@dataclass
class ReserveMap:
    """A struct resv_map."""

    regions: Regions
    in_progress: int
    spare: int  # region_cache_count, and what the list has
    spare_listed: int
    locked: bool


@dataclass
class File:
    """An inode of hugetlbfs."""

    address: int
    number: int
    name: str
    size: int  # in huge pages
    locked: bool  # i_rwsem is held by a writer, as of a truncation
    map: ReserveMap
    cache: dict[int, int]  # index: frame
    mappings: list[Mapping]

    @property
    def reserved(self) -> int:
        return sum(to - begin for begin, to in self.map.regions)

    @property
    def vacant(self) -> int:
        """The reserved indices without a page."""
        return self.reserved - sum(is_within(self.map.regions, index) for index in self.cache)

    @property
    def unmarked(self) -> list[int]:
        """The indices that have a page, and aren't in the reserve map."""
        return [index for index in sorted(self.cache) if not is_within(self.map.regions, index)]


@dataclass
class Mount:
    """A super block of hugetlbfs."""

    places: list[str]
    pool: int
    subpool: Subpool | None
    files: list[File]


@dataclass
class Call:
    """A call in flight: who makes it, what shows it, of which kind it may be, and of which file (0 if it isn't known)."""

    who: str
    sign: str
    kind: str
    file: int = 0


@dataclass
class State:
    release: str
    pools: list[Pool]
    mounts: list[Mount]
    calls: list[Call] = field(default_factory=list)


def is_within(regions: Regions, index: int) -> bool:
    at = bisect_right(regions, index, key=lambda region: region[0]) - 1
    return at >= 0 and index < regions[at][1]


def overlap(regions: Regions, first: int, end: int) -> int:
    return sum(max(0, min(to, end) - max(begin, first)) for begin, to in regions)


@dataclass
class Reserved:
    """What the reserve count of a pool should be, by those who have reserved."""

    files: int = 0
    private: int = 0
    minimum: int = 0

    @property
    def all(self) -> int:
        return self.files + self.private + self.minimum


def files_of(mounts: list[Mount]) -> list[File]:
    return [file for mount in mounts for file in mount.files]


def mounts_of(state: State, pool: Pool) -> list[Mount]:
    return [it for it in state.mounts if it.pool == pool.number]


def reserved_in(mounts: list[Mount]) -> Reserved:
    subpools = {mount.subpool.address: mount.subpool for mount in mounts if mount.subpool}
    return Reserved(sum(file.vacant for file in files_of(mounts)),
                    sum(it.outstanding for file in files_of(mounts) for it in file.mappings),
                    sum(it.rsv for it in subpools.values() if it.min != -1))


def used_in(mount: Mount, pool: Pool) -> int:
    """What used_hpages should be: all that is reserved and not there, and the pages that were taken by way of the subpool."""
    reserved = reserved_in([mount])
    return reserved.files + reserved.private + sum(it.subpool == mount.subpool.address for it in pool.active.values())


def who(mapping: Mapping) -> str:
    return ",".join(f"{pid} {name}" for pid, name in mapping.tasks[:3]) + (" .." if len(mapping.tasks) > 3 else "") or "an exiting process"
