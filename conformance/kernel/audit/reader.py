"""Takes the state of hugetlb's pools out of the memory of a kernel, or of a dump of one, by drgn. x86-64 alone.

This file and tasks.py alone know Linux's structures; docs/AUDIT.md has them by version.
"""
from __future__ import annotations

import struct
from collections import defaultdict
from pathlib import Path
from typing import Any, Iterator

from drgn import Object, Program, cast, container_of, offsetof, sizeof
from drgn.helpers.linux.list import hlist_for_each_entry, list_for_each_entry
from drgn.helpers.linux.rbtree import rbtree_inorder_for_each_entry
from drgn.helpers.linux.xarray import xa_for_each

from kernel.audit.state import File, Frame, Mapping, Mount, Pool, ReserveMap, State, Subpool
from kernel.audit.tasks import Tasks, is_locked
from kernel.problem import Problem

# include/linux/mm.h, mm/hugetlb.c, include/linux/hugetlb.h
VM_MAYSHARE, VM_NORESERVE = 0x80, 0x200000
HPAGE_RESV_OWNER, HPAGE_RESV_MASK = 1, 3
HPG_RESTORE_RESERVE = 1
# arch/x86/include/asm/pgtable_types.h; bits that a hugetlb entry may have without _PAGE_PRESENT
PRESENT, PSE, PROTNONE = 1 << 0, 1 << 7, 1 << 8
PAGE_SHIFT, TABLE_BITS = 12, 9
# a list that has more members than any machine has huge pages is no list: it changed while it was read, or is broken
MOST = 1 << 24


class Reader:
    """Takes a state out of a kernel's memory. Each method names the function of Linux that it follows."""

    def __init__(self, prog: Program, core: Path | None = None) -> None:
        self.prog = prog
        self.threads = Tasks(prog, core)
        folio, page = prog.type("struct folio"), prog.type("struct page")
        self.page_size = sizeof(page)
        self.at_mapping, self.at_private, self.at_references = (offsetof(folio, it) for it in ("mapping", "private", "_refcount"))
        # (before 6.1 the subpool is in the second struct page)
        name = next((it for it in ("_hugetlb_subpool", "_private_1") if folio.has_member(it)), None)
        self.at_subpool = offsetof(folio, name) if name else self.page_size + offsetof(page, "private")
        self.memory_map = self.number("vmemmap_base", 0xFFFFEA0000000000)
        self.direct_map = self.number("page_offset_base", 0xFFFF888000000000)
        self.physical = self.number("physical_mask", (1 << 52) - 1) & ~((1 << PAGE_SHIFT) - 1)
        self.levels = 5 if self.number("pgdir_shift", 39) == 48 else 4
        # since 6.7 the page cache of hugetlb counts in base pages; before, hugetlb_basepage_index() translated
        self.counts_huge = self.has_function("hugetlb_basepage_index") or self.has_function("__basepage_index")
        self.tables: dict[int, tuple[int, ...]] = {}

    def number(self, name: str, default: int) -> int:
        """A variable of the kernel, which some configurations don't have."""
        try:
            return self.prog[name].value_()
        except KeyError:
            return default

    def has_function(self, name: str) -> bool:
        try:
            self.prog.symbol(name)
        except LookupError:
            return False
        return True

    def state(self) -> State:
        self.tables.clear()
        prog = self.prog
        tasks = self.tasks()
        pools = [self.pool(number, prog["hstates"][number]) for number in range(prog["hugetlb_max_hstate"].value_())]
        kind = prog["hugetlbfs_fs_type"]
        supers = hlist_for_each_entry("struct super_block", kind.fs_supers.address_of_(), "s_instances")
        mounts = [self.mount(block, pools, tasks) for block in bounded(supers)]
        return State(prog["init_uts_ns"].name.release.string_().decode(), pools, mounts, self.threads.calls(mounts))

    def tasks(self) -> dict[int, list[tuple[int, str]]]:
        """The processes of each address space."""
        found: dict[int, list[tuple[int, str]]] = defaultdict(list)
        for task in bounded(list_for_each_entry("struct task_struct", self.prog["init_task"].tasks.address_of_(), "tasks")):
            if space := task.mm.value_():
                found[space].append((task.pid.value_(), task.comm.string_().decode(errors="replace")))
        return found

    def pool(self, number: int, h: Object) -> Pool:
        order = h.order.value_()
        counts = {"nr": h.nr_huge_pages, "free": h.free_huge_pages, "resv": h.resv_huge_pages, "surplus": h.surplus_huge_pages}
        nodes, free = {}, []
        for node, head in enumerate(h.hugepage_freelists):
            of_node = {"nr": h.nr_huge_pages_node[node], "free": h.free_huge_pages_node[node], "surplus": h.surplus_huge_pages_node[node]}
            pages = [(node, self.frame_of(it.value_())) for it in self.folios(head)] if head.next.value_() != head.address_ else []
            free += pages
            if pages or of_node["nr"].value_():
                nodes[node] = {name: signed(value) for name, value in of_node.items()}
        active = {it.pfn: it for it in map(self.frame, self.folios(h.hugepage_activelist))}
        return Pool(number, f"{4 << order}kB", order, {name: signed(value) for name, value in counts.items()}, nodes, free, active)

    def folios(self, head: Object) -> Iterator[Object]:
        return bounded(list_for_each_entry("struct folio", head.address_of_(), "lru"))

    def frame_of(self, folio: int) -> int:
        """page_to_pfn(), with SPARSEMEM_VMEMMAP"""
        return (folio - self.memory_map) // self.page_size

    def frame(self, folio: Object) -> Frame:
        """folio_ref_count(), hugetlb_folio_subpool(), folio_test_anon(), folio_test_hugetlb_restore_reserve()"""
        at = folio.value_()
        data = self.prog.read(at, 4 * self.page_size)
        mapping = word(data, self.at_mapping)
        anonymous = mapping & ~3 if mapping & 1 else 0
        gives_back = bool(word(data, self.at_private) & HPG_RESTORE_RESERVE)
        return Frame(self.frame_of(at), struct.unpack_from("<i", data, self.at_references)[0], word(data, self.at_subpool), anonymous, gives_back)

    def mount(self, block: Object, pools: list[Pool], tasks: dict[int, list[tuple[int, str]]]) -> Mount:
        info = cast("struct hugetlbfs_sb_info *", block.s_fs_info)
        number = (info.hstate.value_() - self.prog["hstates"].address_) // sizeof(self.prog.type("struct hstate"))
        subpool = None
        if s := info.spool:
            subpool = Subpool(s.value_(), *(it.value_() for it in (s.max_hpages, s.used_hpages, s.min_hpages, s.rsv_hpages)))
        inodes = bounded(list_for_each_entry("struct inode", block.s_inodes.address_of_(), "i_sb_list"))
        files = [self.file(it, pools[number].order, tasks) for it in inodes if it.i_mode.value_() & 0o170000 == 0o100000]
        return Mount(self.places(block), number, subpool, files)

    def places(self, block: Object) -> list[str]:
        """Where a super block is mounted; the kernel's own mount, of memfds, System V and anonymous memory, is in no tree."""
        found = set()
        for it in self.mounts_of(block):
            parts = []
            while it.mnt_parent.value_() != it.value_():
                parts.append(dentry_path(it.mnt_mountpoint))
                it = it.mnt_parent
            if parts:
                found.add("/" + "/".join(part for part in reversed(parts) if part))
        return sorted(found) or ["(kernel)"]

    def mounts_of(self, block: Object) -> Iterator[Object]:
        """The struct mounts of a super block: a list_head before 6.18 or so, a chain of pointers since."""
        if hasattr(block.s_mounts, "next"):
            yield from bounded(list_for_each_entry("struct mount", block.s_mounts.address_of_(), "mnt_instance"))
            return
        at = block.s_mounts
        while at.value_():
            yield at
            at = at.mnt_next_for_sb

    def file(self, inode: Object, order: int, tasks: dict[int, list[tuple[int, str]]]) -> File:
        cache = {}
        for index, entry in bounded(xa_for_each(inode.i_data.i_pages.address_of_())):
            if not entry.value_() & 1:
                cache[index if self.counts_huge else index >> order] = self.frame_of(entry.value_())
        areas = rbtree_inorder_for_each_entry("struct vm_area_struct", inode.i_data.i_mmap.rb_root.address_of_(), "shared.rb")
        mappings = [self.mapping(area, order, tasks) for area in bounded(areas)]
        size = -(-inode.i_size.value_() >> (PAGE_SHIFT + order))
        locked = bool(inode.i_rwsem.count.counter.value_() & 1) if hasattr(inode.i_rwsem, "count") else False
        return File(inode.value_(), inode.i_ino.value_(), file_name(inode), size, locked,
                    self.reserve_map(self.map_of(inode)), cache, mappings)

    def map_of(self, inode: Object) -> Object:
        """inode_resv_map()"""
        info = container_of(inode, "struct hugetlbfs_inode_info", "vfs_inode")
        if hasattr(info, "resv_map"):
            return info.resv_map
        data = inode.i_data
        return cast("struct resv_map *", data.i_private_data if hasattr(data, "i_private_data") else data.private_data)

    def reserve_map(self, found: Object) -> ReserveMap:
        if not found.value_():
            return ReserveMap([], 0, 0, 0, False)
        regions = [(it.from_.value_(), it.to.value_()) for it in map(Region, self.regions(found.regions))]
        spare = sum(1 for _ in self.regions(found.region_cache))
        return ReserveMap(regions, found.adds_in_progress.value_(), found.region_cache_count.value_(), spare, is_locked(found.lock))

    def regions(self, head: Object) -> Iterator[Object]:
        return bounded(list_for_each_entry("struct file_region", head.address_of_(), "link"))

    def mapping(self, area: Object, order: int, tasks: dict[int, list[tuple[int, str]]]) -> Mapping:
        """vma_resv_map(), vma_hugecache_offset()"""
        start, end, flags, shift = area.vm_start.value_(), area.vm_end.value_(), area.vm_flags.value_(), PAGE_SHIFT + order
        is_shared = bool(flags & VM_MAYSHARE)
        first = area.vm_pgoff.value_() >> order
        private = 0 if is_shared else area.vm_private_data.value_()
        consumed = []
        if private & HPAGE_RESV_OWNER:
            consumed = self.reserve_map(Object(self.prog, "struct resv_map *", value=private & ~HPAGE_RESV_MASK)).regions
        space = area.vm_mm
        translations, special = [], 0
        for at, entry in self.entries(space.pgd.value_() - self.direct_map, start, end, shift):
            frame = self.frame_in(entry, shift)
            if frame is None:
                special += 1
            else:
                translations.append((first + ((at - start) >> shift), frame))
        return Mapping(tasks.get(space.value_(), []), space.value_(), start, first, (end - start) >> shift, is_shared, bool(flags & VM_NORESERVE),
                       bool(private & HPAGE_RESV_OWNER), consumed, translations, special)

    def entries(self, table: int, start: int, end: int, shift: int) -> Iterator[tuple[int, int]]:
        """The addresses of huge pages that have an entry, with it: huge_pte_offset() of each"""
        yield from self.entries_below(table, PAGE_SHIFT + TABLE_BITS * (self.levels - 1), start, end, shift)

    def entries_below(self, table: int, at_shift: int, start: int, end: int, shift: int) -> Iterator[tuple[int, int]]:
        read = self.table(table)
        at = start
        while at < end:
            after = min(end, ((at >> at_shift) + 1) << at_shift)
            entry = read[(at >> at_shift) & 511]
            if entry and at_shift == shift:
                yield at, entry
            elif entry & PRESENT and not entry & PSE and at_shift > shift:
                yield from self.entries_below(entry & self.physical, at_shift - TABLE_BITS, at, after, shift)
            at = after

    def table(self, at: int) -> tuple[int, ...]:
        if at not in self.tables:
            self.tables[at] = struct.unpack("<512Q", self.prog.read(at, 4096, True))
        return self.tables[at]

    def frame_in(self, entry: int, shift: int) -> int | None:
        """pte_pfn(), __pte_needs_invert() of PROT_NONE; None if the entry isn't present"""
        if not entry & PRESENT:
            if not entry & PROTNONE:
                return None
            entry = ~entry
        return (entry & self.physical & ~((1 << shift) - 1)) >> PAGE_SHIFT


def word(data: bytes, at: int) -> int:
    return struct.unpack_from("<Q", data, at)[0]


class Region:
    """A struct file_region; `from` is a word of Python's."""

    def __init__(self, of: Object) -> None:
        self.from_, self.to = of.member_("from"), of.to


def bounded(items: Iterator[Any]) -> Iterator[Any]:
    """The items, of which there can't be that many."""
    for number, it in enumerate(items):
        if number == MOST:
            raise Problem("a list of the kernel's doesn't end: it changes, or the dump is damaged")
        yield it


def signed(value: Object) -> int:
    """A count as it is shown: one that went below zero is negative."""
    bits = 8 * sizeof(value.type_)
    number = value.value_()
    return number - (1 << bits) if number >> (bits - 1) else number


def dentry_path(dentry: Object) -> str:
    parts = []
    while dentry.d_parent.value_() != dentry.value_():
        parts.append(dentry.d_name.name.string_().decode(errors="replace"))
        dentry = dentry.d_parent
    return "/".join(reversed(parts))


def file_name(inode: Object) -> str:
    """The file's path below its mount; of an unlinked one the name that it had."""
    first = inode.i_dentry.first
    if not first.value_():
        return f"inode {inode.i_ino.value_()}"
    member = "d_u.d_alias" if inode.prog_.type("struct dentry").has_member("d_u") else "d_alias"
    dentry = container_of(first, "struct dentry", member)
    name = dentry_path(dentry) or dentry.d_name.name.string_().decode(errors="replace")
    if name.startswith("SYSV"):
        return f"{name} shmid {inode.i_ino.value_()}"
    return name if inode.i_nlink.value_() else f"{name} (deleted)"
