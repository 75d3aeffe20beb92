"""What is wrong with a state, clause by clause, and what calls in flight may owe of it."""
from __future__ import annotations

from collections import defaultdict
from dataclasses import dataclass
from typing import Iterator

from kernel.audit.owed import Owed, owed_by
from kernel.audit.state import File, Mount, Pool, State, files_of, mounts_of, reserved_in, used_in, who


@dataclass(frozen=True)
class Finding:
    """Something that is wrong. `owed` says what calls in flight may owe of it: then it needs not be wrong.

    `at` names it in numbers, if pictures show it, too: by these it is compared with what `hugepool audit` finds.
    """

    clause: str
    text: str
    owed: str = ""
    at: tuple[int, ...] | None = None


CLAUSES = {
    "agree": "translations of one index name one frame, the file's page or private memory of that index",
    "place": "no frame is free and in use, or in two places",
    "size": "no translation lies beyond the size of an unlocked file",
    "reserve": "the reserve count is what files, private mappings and minimum sizes have reserved and not got",
    "enough": "the reserve count is at most the free frames",
    "used": "the used count of each mount is its reserved indices and pages, and at most its size",
    "pages": "free_huge_pages is what the free lists have, and nr_huge_pages that and the pages in use, on each node, too",
    "map": "regions of a reserve map are in order, apart and not empty, and its spare descriptors are as many as counted",
    "marked": "each page of a file has its index in the reserve map (removing another page raises the reserve count)",
}


def check(state: State) -> list[Finding]:
    """All that is wrong with a state or may be, in the order of the clauses."""
    return sorted((it for pool in state.pools for it in check_pool(state, pool)), key=lambda it: list(CLAUSES).index(it.clause))


def check_pool(state: State, pool: Pool) -> Iterator[Finding]:
    mounts = mounts_of(state, pool)
    owed = owed_by(state.calls, pool, mounts)
    yield from check_translations(mounts)
    yield from check_places(pool, mounts, owed)
    yield from check_reserve(pool, mounts, owed)
    yield from check_enough(pool, owed)
    yield from check_pages(pool, owed)
    for mount in mounts:
        yield from check_used(mount, pool, owed)
        yield from check_limits(mount)
        for file in mount.files:
            yield from check_file(file)


def wrong(found: list[Finding]) -> list[Finding]:
    """The findings that no call in flight may owe."""
    return [it for it in found if not it.owed]


def check_translations(mounts: list[Mount]) -> Iterator[Finding]:
    for file in files_of(mounts):
        for it in file.mappings:
            for index, frame in it.translations:
                page, at = file.cache.get(index), (file.address, it.space, index, frame)
                if it.shared and frame != page:
                    has = f"has its page in frame {page:#x}" if page is not None else "has no page"
                    yield Finding("agree", f"{who(it)} maps index {index} of {file.name} to frame {frame:#x}, and the file {has} there", at=at)
                if index >= file.size and not file.locked:
                    text = f"{who(it)} maps index {index} of {file.name} to frame {frame:#x}, and its size is {file.size}"
                    yield Finding("size", text, at=at if it.shared else None)


def check_places(pool: Pool, mounts: list[Mount], owed: Owed) -> Iterator[Finding]:
    for frame, its in places_in(pool, mounts).items():
        if len(its) > 1:
            yield Finding("place", f"frame {frame:#x} is at once {' and '.join(its)}", owed.moving, (frame,))
        elif frame not in pool.active and not its[0].startswith("free"):
            yield Finding("place", f"frame {frame:#x} is {its[0]}, and is on no list of its pool", owed.moving)
    for frame in {frame for _, frame in pool.free} & pool.active.keys():
        yield Finding("place", f"frame {frame:#x} is on a free list and on the list of those in use", owed.moving, (frame,))


def places_in(pool: Pool, mounts: list[Mount]) -> dict[int, list[str]]:
    """Where each frame is. Private memory that processes share after a fork is one place."""
    places: dict[int, list[str]] = defaultdict(list)
    for node, frame in pool.free:
        places[frame].append(f"free on node {node}")
    for file in files_of(mounts):
        for index, frame in file.cache.items():
            places[frame].append(f"the page of {file.name} at index {index}")
        add_private(file, places)
    return places


def add_private(file: File, places: dict[int, list[str]]) -> None:
    """The frames of a file's private mappings that aren't its pages."""
    for index, frame in private_places(file):
        places[frame].append(f"private memory at index {index} of {file.name}")


def private_places(file: File) -> set[tuple[int, int]]:
    """Of private memory over a file each index and frame once, whoever maps it."""
    return {(index, frame) for it in file.mappings if not it.shared for index, frame in it.translations if file.cache.get(index) != frame}


def check_reserve(pool: Pool, mounts: list[Mount], owed: Owed) -> Iterator[Finding]:
    has, should = pool.counts["resv"], reserved_in(mounts).all
    if has != should:
        word = "lost: a process that has reserved a page may get SIGBUS" if has < should else "leaked: nobody can use them"
        later = sum(len(file.unmarked) for file in files_of(mounts))
        back = sum(it.gives_back for it in pool.active.values())
        more = f"; {later} will come back with pages that the reserve maps don't have" if later else ""
        more += f"; {back} will come back if faults in flight fail" if back else ""
        text = f"resv_huge_pages of {pool.name} is {has} and should be {should}: {abs(has - should)} {word}{more}"
        yield Finding("reserve", text, owed.of_reserve(has - should), (should,))


def check_enough(pool: Pool, owed: Owed) -> Iterator[Finding]:
    has = pool.counts["resv"]
    if not 0 <= has <= len(pool.free):
        text = f"{has} pages of {pool.name} are reserved, and {len(pool.free)} are free"
        yield Finding("enough", text, owed.of_reserve(has) if has < 0 else "", ())


def check_pages(pool: Pool, owed: Owed) -> Iterator[Finding]:
    counts = pool.counts
    if counts["free"] != len(pool.free):
        yield Finding("pages", f"free_huge_pages of {pool.name} is {counts['free']}, and the free lists have {len(pool.free)}", owed.moving)
    if counts["nr"] != len(pool.free) + len(pool.active):
        text = f"nr_huge_pages of {pool.name} is {counts['nr']}, and {len(pool.free)} are free, {len(pool.active)} in use"
        yield Finding("pages", text, owed.moving)
    for name in ("nr", "free", "surplus"):
        if counts[name] != (of_nodes := sum(node[name] for node in pool.nodes.values())):
            yield Finding("pages", f"{name} of {pool.name} is {counts[name]}, and of its nodes together {of_nodes}", owed.moving)
    for number, node in pool.nodes.items():
        if node["free"] != (listed := sum(it == number for it, _ in pool.free)):
            yield Finding("pages", f"free of node {number} of {pool.name} is {node['free']}, and its free list has {listed}", owed.moving)
    if not 0 <= counts["surplus"] <= counts["nr"]:
        yield Finding("pages", f"{counts['surplus']} pages of {pool.name} are surplus, and it has {counts['nr']}", owed.moving)


def check_used(mount: Mount, pool: Pool, owed: Owed) -> Iterator[Finding]:
    it = mount.subpool
    if it is None:
        return
    if it.max != -1 and it.used != (should := used_in(mount, pool)):
        word = "used pages lost" if it.used < should else "used pages leaked: the mount refuses that many pages too early"
        text = f"used_hpages of {mount.places[0]} is {it.used} and should be {should}: {abs(it.used - should)} {word}"
        yield Finding("used", text, owed.of_used(it.used - should), (it.address, should))


def check_limits(mount: Mount) -> Iterator[Finding]:
    it = mount.subpool
    if it is None:
        return
    if it.max != -1 and not 0 <= it.used <= it.max:
        yield Finding("used", f"used_hpages of {mount.places[0]} is {it.used}, and its size is {it.max}", at=(it.address,))
    if it.min != -1 and not 0 <= it.rsv <= it.min:
        yield Finding("used", f"rsv_hpages of {mount.places[0]} is {it.rsv}, and its min_size is {it.min}")


def check_file(file: File) -> Iterator[Finding]:
    regions, it = file.map.regions, file.map
    locked = f"the reserve map of {file.name} is locked" if it.locked else ""
    if any(begin >= to for begin, to in regions) or any(one[1] > other[0] for one, other in zip(regions, regions[1:])):
        yield Finding("map", f"the reserve map of {file.name} has {regions}", locked, (file.address,))
    if it.spare != it.spare_listed or it.in_progress > it.spare:
        yield Finding("map", f"the reserve map of {file.name}: {it.in_progress} changes in progress, {it.spare} spare descriptors counted, "
                             f"{it.spare_listed} listed", locked)
    if outside := file.unmarked:
        yield Finding("marked", f"{file.name} has pages at {outside}, which its reserve map hasn't", locked)
