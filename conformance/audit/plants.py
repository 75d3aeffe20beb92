#!/usr/bin/python3
"""Plants errors into what is read of a dump or of the running kernel, one at a time, and prints what the audit makes of each.

usage: plants.py [--core DUMP] [--vmlinux FILE]     the machine is in the scene `scene pages 48 plain` (scene.c)

Bytes are laid over what is read: the dump, or the kernel, stays as it is. It runs in Debian's own Python, which has drgn.
Status: 0 each plant is found by its clause, as by hugepool audit where that is built, and each sign of a call in flight is seen;
1 one isn't; 2 it could not be read.
"""
from __future__ import annotations

import argparse
import sys
from pathlib import Path
from typing import Callable

from drgn import Object, Program, cast, sizeof
from drgn.helpers.linux.list import hlist_for_each_entry, list_for_each_entry, list_first_entry
from drgn.helpers.linux.rbtree import rbtree_inorder_for_each_entry

sys.path.insert(0, str(Path(__file__).resolve().parent.parent))

from kernel.audit import proved  # noqa: E402
from kernel.audit.checks import check, wrong  # noqa: E402
from kernel.audit.opened import opened  # noqa: E402
from kernel.audit.reader import VM_MAYSHARE, Reader, file_name  # noqa: E402
from kernel.problem import Problem  # noqa: E402


class Scene:
    """Finds things in a dump, and overlays bytes of it."""

    def __init__(self, core: Path | None, symbols: list[Path]) -> None:
        self.prog: Program = opened(core, symbols)
        self.reader = Reader(self.prog, core)
        self.pool = next(h for h in self.prog["hstates"] if h.order.value_() == 9)

    def put(self, at: Object, value: int) -> None:
        """Has a member read as another value."""
        self.overlay(at.address_, (value & ((1 << 8 * sizeof(at.type_)) - 1)).to_bytes(sizeof(at.type_), "little"), False)

    def overlay(self, address: int, data: bytes, physical: bool) -> None:
        self.prog.add_memory_segment(address, len(data), lambda _, count, offset, __: data[offset : offset + count], physical)

    def inode(self, name: str) -> Object:
        for block in hlist_for_each_entry("struct super_block", self.prog["hugetlbfs_fs_type"].fs_supers.address_of_(), "s_instances"):
            for inode in list_for_each_entry("struct inode", block.s_inodes.address_of_(), "i_sb_list"):
                if file_name(inode) == name:
                    return inode
        raise LookupError(name)

    def subpool(self, name: str) -> Object:
        return cast("struct hugetlbfs_sb_info *", self.inode(name).i_sb.s_fs_info).spool

    def first_region(self, name: str) -> Object:
        return list_first_entry(self.reader.map_of(self.inode(name)).regions.address_of_(), "struct file_region", "link")

    def slot(self, name: str, number: int) -> Object:
        """A slot of the page cache's node that has a file's first indices."""
        node = self.inode(name).i_data.i_pages.xa_head.value_() & ~3
        node = Object(self.prog, "struct xa_node *", value=node)
        while node.slots[0].value_() & 3 == 2:
            node = Object(self.prog, "struct xa_node *", value=node.slots[0].value_() & ~3)
        return node.slots[number if self.reader.counts_huge else number << 9 >> node.shift.value_()]

    def free_folio(self) -> int:
        return next(it for head in self.pool.hugepage_freelists if head.next.value_() != head.address_ for it in self.reader.folios(head)).value_()

    def entry(self, name: str, number: int, is_shared: bool) -> tuple[int, int]:
        """The physical address of an entry of the first mapping's page table, and the entry."""
        areas = rbtree_inorder_for_each_entry("struct vm_area_struct", self.inode(name).i_data.i_mmap.rb_root.address_of_(), "shared.rb")
        area = next(it for it in areas if bool(it.vm_flags.value_() & VM_MAYSHARE) == is_shared)
        at, shift = area.vm_mm.pgd.value_() - self.reader.direct_map, 12 + 9 * (self.reader.levels - 1)
        address = area.vm_start.value_() + number * (2 << 20)
        while shift > 21:
            at = self.reader.table(at)[(address >> shift) & 511] & self.reader.physical
            shift -= 9
        at += 8 * ((address >> shift) & 511)
        return at, int.from_bytes(self.prog.read(at, 8, True), "little")

    def retarget(self, name: str, number: int, to: Object, is_shared: bool = True) -> None:
        """Has an entry name the frame of a folio of a file."""
        at, entry = self.entry(name, number, is_shared)
        frame_bits = self.reader.physical & ~0x1FFFFF
        self.overlay(at, (entry & ~frame_bits | self.reader.frame_of(to.value_()) << 12).to_bytes(8, "little"), True)


PLANTS: list[tuple[str, str, Callable[[Scene], None]]] = [
    ("reserve", "two reservations leaked", lambda s: s.put(s.pool.resv_huge_pages, s.pool.resv_huge_pages.value_() + 2)),
    ("reserve", "one reservation lost", lambda s: s.put(s.pool.resv_huge_pages, s.pool.resv_huge_pages.value_() - 1)),
    ("reserve", "a region is longer", lambda s: s.put(s.first_region("one").to, 11)),
    ("enough", "more reserved than free", lambda s: s.put(s.pool.resv_huge_pages, s.pool.free_huge_pages.value_() + 1)),
    ("enough", "the count below zero", lambda s: s.put(s.pool.resv_huge_pages, -1)),
    ("pages", "the free count is one too many", lambda s: s.put(s.pool.free_huge_pages, s.pool.free_huge_pages.value_() + 1)),
    ("pages", "the pool's size of node 0", lambda s: s.put(s.pool.nr_huge_pages_node[0], 1)),
    ("used", "three used pages leaked", lambda s: s.put(s.subpool("one").used_hpages, s.subpool("one").used_hpages.value_() + 3)),
    ("used", "more of the minimum than it is", lambda s: s.put(s.subpool("four").rsv_hpages, 9)),
    ("map", "a spare descriptor that isn't there", lambda s: s.put(s.reader.map_of(s.inode("one")).region_cache_count, 7)),
    ("map", "an empty region", lambda s: s.put(s.first_region("left").to, 0)),
    ("marked", "a page outside of the map", lambda s: s.put(s.first_region("one").member_("from"), 1)),
    ("place", "a file has a free frame", lambda s: s.put(s.slot("one", 1), s.free_folio())),
    ("place", "a file has a page twice", lambda s: s.put(s.slot("one", 1), s.slot("one", 0).value_())),
    ("agree", "a translation names the next frame", lambda s: s.retarget("one", 1, s.slot("one", 2))),
    ("place", "private memory in a file's frame", lambda s: s.retarget("two", 3, s.slot("one", 2), False)),
    ("size", "a file is shorter than its translations", lambda s: s.put(s.inode("one").i_size, 2 << 20)),
]
BUSY: list[tuple[str, Callable[[Scene], None]]] = [
    ("a change is in progress", lambda s: s.put(s.reader.map_of(s.inode("one")).adds_in_progress, 1)),
    ("the lock is held", lambda s: s.put(s.prog["hugetlb_lock"], 1)),
    ("a fault mutex is held", lambda s: s.put(s.prog["hugetlb_fault_mutex_table"][3].owner, s.prog["init_task"].address_)),
    ("a truncation holds i_rwsem", lambda s: s.put(s.inode("one").i_rwsem.count, 1)),
]


def planted(options: argparse.Namespace) -> int:
    """Tries each plant, and returns how many were missed."""
    missed, program = 0, proved.program()
    print(proved.Compared(program).lines()[0] if not program else f"compared with {program}")
    for clause, what, plant in PLANTS:
        scene = Scene(options.core, options.vmlinux)
        plant(scene)
        state = scene.reader.state()
        found = wrong(check(state))
        its = [it for it in found if it.clause == clause]
        differences = proved.compared(state, program, proved.asking(program)).differences if program else []
        missed += not its or bool(differences)
        others = sorted({it.clause for it in found} - {clause})
        also = f" (also {', '.join(others)})" if others else ""
        print(f"{clause:8} {what}: {its[0].text if its else 'MISSED'}{also}", *differences, sep="\n  ", flush=True)
    for what, plant in BUSY:
        scene = Scene(options.core, options.vmlinux)
        plant(scene)
        calls = scene.reader.state().calls
        missed += not calls
        print(f"{'at rest':8} {what}: {'; '.join(f'{it.who} {it.sign}'.strip() for it in calls) or 'MISSED'}", flush=True)
    return missed


def main() -> int:
    words = argparse.ArgumentParser(description=__doc__, formatter_class=argparse.RawDescriptionHelpFormatter)
    words.add_argument("--core", type=Path)
    words.add_argument("--vmlinux", type=Path, action="append", default=[])
    options = words.parse_args()
    try:
        missed = planted(options)
    except Problem as why:
        print(f"plants: {why}", file=sys.stderr)
        return 2
    print(f"plants: {len(PLANTS) + len(BUSY) - missed} passed, {missed} failed")
    return 1 if missed else 0


if __name__ == "__main__":
    sys.exit(main())
