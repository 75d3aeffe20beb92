#!/usr/bin/env python3
"""Puts log lines of ours into a source tree of Linux: mm/hugetlb.c and fs/hugetlbfs/inode.c of 6.1, 6.12 or 7.3.

usage: instrument.py TREE [REPAIR]

REPAIR puts a repair of the reserve count in, too: `accounting`, or `slots`, which has `accounting` in it (repair.py says what they do).

A line is put before or behind a statement that a short pattern finds in a named function. Each pattern has to be found just so often as
is said; one that isn't is printed with its function, and nothing is written. Nothing of the kernel's text is kept here. A tree can be
instrumented again: the files as they came are kept beside their copies, as NAME.orig.
"""
from __future__ import annotations

import re
import shutil
import sys
from pathlib import Path

import repair

HERE = Path(__file__).resolve().parent
LOCK = r"mutex_lock\(&hugetlb_fault_mutex_table\[hash\]\);"
UNLOCK = r"mutex_unlock\(&hugetlb_fault_mutex_table\[hash\]\);"


class Source:
    """A source file, and what is to be put into it."""

    def __init__(self, tree: Path, path: str) -> None:
        self.path, self.name, self.faults = tree / path, path, []
        original = self.path.with_name(f"{self.path.name}.orig")
        if not original.exists():
            shutil.copy(self.path, original)
        self.text = self.original = original.read_text(encoding="utf-8")

    def has(self, text: str) -> bool:
        return text in self.text

    @staticmethod
    def span(function: str, text: str) -> tuple[int, int] | None:
        """Where the function is defined: its name at a line's start or behind its type, its parameters, and a brace that begins a line."""
        for found in re.finditer(rf"(?m)^[^\n;#]*\b{function}\(", text):
            depth, at = 1, found.end()
            while depth and at < len(text):
                depth += {"(": 1, ")": -1}.get(text[at], 0)
                at += 1
            if re.match(r"(\s*__must_hold\([^)]*\))?\s*\n\{", text[at:]) and found[0][0] not in " \t":
                return found.start(), text.index("\n}", at)
        return None

    def line_of(self, function: str | None) -> int:
        """The line of the file, as it came, at which the function begins."""
        span = self.span(function, self.original) if function else None
        return self.original.count("\n", 0, span[0]) + 1 if span else 1

    def edit(self, function: str | None, pattern: str, new: str, times: int = 1) -> None:
        """Replaces each match in the function by new text, in which `\\g<0>` is the match."""
        span = self.span(function, self.text) if function else (0, len(self.text))
        if span is None:
            self.faults.append(f"{self.name}: there is no function {function}, for the line {new}")
            return
        part, number = re.subn(pattern, new, self.text[span[0] : span[1]])
        if number != times:
            where = f"{self.name}:{self.line_of(function)}: {function or 'the file'}"
            self.faults.append(f"{where}: {number} matches, and not {times}, of {pattern}, for the line {new}")
        self.text = self.text[: span[0]] + part + self.text[span[1] :]

    def behind(self, function: str | None, pattern: str, line: str, times: int = 1) -> None:
        self.edit(function, pattern, rf"\g<0> {line}", times)

    def before(self, function: str, pattern: str, line: str, times: int = 1) -> None:
        self.edit(function, pattern, rf"{line} \g<0>", times)


def region_map(file: Source) -> None:
    """The reserve map, logged under its lock."""
    file.behind("region_add", r"\tadd = add_reservation_in_range\([^;]*;", "hp_log(HP_ADD, (u64)resv, f, t, add);")
    file.behind("region_add", r"spin_unlock\(&resv->lock\);(?=\s*return add)", "hp_pause(1);")
    refuse = "if (hp_inject(1)) { hp_log(HP_CHGFAIL, (u64)resv, f, t, 0); spin_unlock(&resv->lock); return -ENOMEM; }"
    file.behind("region_chg", r"chg = add_reservation_in_range\([^;]*;", f"hp_log(HP_CHG, (u64)resv, f, t, chg);\n\t{refuse}")
    file.behind("region_chg", r"resv->adds_in_progress \+= [^;]*;", "hp_log(HP_CHGD, (u64)resv, f, t, resv->adds_in_progress);")
    file.behind("region_chg", r"spin_unlock\(&resv->lock\);(?=\s*return chg)", "hp_pause(2);")
    file.behind("region_abort", r"resv->adds_in_progress -= [^;]*;", "hp_log(HP_ABORT, (u64)resv, f, t, 0);")
    file.edit("region_del", r"spin_unlock\(&resv->lock\);(?=\s*kfree\(nrg\))", r"hp_log(HP_DEL, (u64)resv, f, t, del); \g<0> hp_pause(3);")
    # (refused where the lock is left for the allocation: what the deletion has seen is so at this moment)
    refuse = "if (hp_inject(3)) { hp_log(HP_DELFAIL, (u64)resv, f, t, 0); spin_unlock(&resv->lock); return -ENOMEM; }"
    file.before("region_del", r"spin_unlock\(&resv->lock\);(?=\s*nrg = kmalloc)", refuse)


def counts(file: Source) -> None:
    """The free and the reserve count, logged under hugetlb_lock."""
    file.edit("hugetlb_acct_memory", r"spin_unlock_irq\(&hugetlb_lock\);(?=\s*return ret)",
              r"if (delta > 0) hp_log(HP_ACCT, 0, delta, ret, 0); \g<0> hp_pause(4);")
    # (it leaves the lock before it comes back, so what is given back is logged where the count is lowered)
    file.behind("return_unused_surplus_pages", r"h->resv_huge_pages -= unused_resv_pages;", "hp_log(HP_UNUSED, 0, unused_resv_pages, 0, 0);")


def quotas(file: Source) -> None:
    """What a mount has used of its maximum, logged under the lock of its own that this count has."""
    file.edit("hugepage_subpool_get_pages", r"spin_unlock_irq\(&spool->lock\);",
              r"hp_log(HP_QUOTA, 0, delta, spool->used_hpages, ret < 0); \g<0> hp_pause(40);")
    file.edit("hugepage_subpool_put_pages", r"unlock_or_release_subpool\(spool, flags\);",
              r"hp_log(HP_QUOTA, 0, -delta, spool->used_hpages, 0); \g<0> hp_pause(41);")
    if file.has("spool->used_hpages -= gbl_reserve;"):
        # (a refused map of later versions gives its pages back by itself)
        file.edit("hugetlb_reserve_pages", r"unlock_or_release_subpool\(spool, flags\);",
                  r"hp_log(HP_QUOTA, 0, -gbl_reserve, spool->used_hpages, 0); \g<0> hp_pause(42);")


def resizes(file: Source, page: str) -> None:
    """A pool that grows page by page, shrinks at once, and gives up the pages that it had too many where they become free."""
    if file.has("void prep_and_add_allocated_folios("):
        file.behind("prep_and_add_allocated_folios", r"enqueue_hugetlb_folio\(h, folio\);", "hp_log(HP_GROW, 0, folio_pfn(folio), h->nr_huge_pages, 0);")
    free = "free_huge_page" if file.has("void free_huge_page(struct page") else "free_huge_folio"
    file.behind(free, r"remove_huge\w+\(h, (page|folio), true\);", f"hp_log(HP_SURPLUS, 0, {page}, restore_reserve, h->nr_huge_pages);")
    function = "set_max_huge_pages"
    file.before(function, r"spin_unlock_irq\(&hugetlb_lock\);(?=\s*update_and_free_pages_bulk)",
                "hp_log(HP_SHRINK, 0, count, h->nr_huge_pages, h->surplus_huge_pages);")
    file.before(function, r"h->max_huge_pages = persistent_huge_pages\(h\);", "hp_log(HP_RESIZED, 0, count, h->nr_huge_pages, h->surplus_huge_pages);")


def takes(file: Source, page: str) -> None:
    """Where a page is taken off the free list, and where it comes back to it."""
    if file.has("struct folio *hugetlb_alloc_folio("):
        # the list and the count are changed in one function, which doesn't know the index
        file.before("hugetlb_alloc_folio", r"if \(!folio\) \{(?=\s*spin_unlock_irq)", "if (!folio) hp_log(HP_TAKE, 0, -1, -1, 0);")
        file.before("hugetlb_alloc_folio", r"hugetlb_cgroup_commit_charge\(idx, nr_pages, h_cg, folio\);",
                    f"hp_log(HP_TAKE, 0, -1, {page}, use_global_reservation);")
    else:
        old = file.has("dequeue_huge_page_vma(")
        function, name = ("alloc_huge_page", "page") if old else ("alloc_hugetlb_folio", "folio")
        is_reserved = "HPageRestoreReserve(page)" if old else "folio_test_hugetlb_restore_reserve(folio)"
        file.behind(function, rf"{name} = dequeue_huge\w+_vma\([^;]*;",
                    f"hp_log(HP_TAKE, 0, vma_hugecache_offset(h, vma, addr), {name} ? {page} : -1, {name} && {is_reserved});")
    function = "alloc_huge_page" if file.has("struct page *alloc_huge_page(struct vm_area_struct") else "alloc_hugetlb_folio"
    file.before(function, r"hugetlb_set_(page|folio)_subpool\((page|folio), spool\);", "hp_pause(5);")
    free = "free_huge_page" if file.has("void free_huge_page(struct page") else "free_huge_folio"
    file.behind(free, r"enqueue_huge\w+\(h, (page|folio)\);", f"hp_log(HP_FREE, 0, {page}, restore_reserve, 0);")


def page_cache(file: Source, page: str, is_old: bool) -> None:
    at = "idx" if is_old else "idx >> huge_page_order(h)"
    is_reserved = "HPageRestoreReserve(page)" if is_old else "folio_test_hugetlb_restore_reserve(folio)"
    placed = r"ClearHPageRestoreReserve\(page\);" if is_old else r"folio_clear_hugetlb_restore_reserve\(folio\);"
    function = "hugetlb_add_to_page_cache"
    file.behind(function, placed, f"hp_log(HP_CACHE, inode->i_ino, {at}, {page}, 0);")
    refuse = f"if (hp_inject(2)) {{ hp_log(HP_CACHEFAIL, inode->i_ino, {at}, {page}, 0); return -ENOMEM; }}"
    file.before(function, r"__folio_set_locked\(folio\);", refuse)
    file.before("restore_reserve_on_error", rf"if \({re.escape(is_reserved)}\) \{{", f"hp_log(HP_RESTORE, 0, {page}, {is_reserved}, rc);")


def missing_pages(file: Source, page: str, is_old: bool) -> None:
    """The part of a fault that finds or makes its page."""
    function, inode, index = "hugetlb_no_page", "mapping->host->i_ino", "idx" if is_old else "vmf->pgoff"
    is_there = "page" if is_old else "!IS_ERR(folio)"
    look = r"page = find_lock_page\(mapping, idx\);" if is_old else r"folio = filemap_lock_hugetlb_folio\([^;]*;"
    file.behind(function, look, f"hp_log(HP_LOOK, {inode}, {index}, {is_there} ? {page} : -1, 0); if ({is_there}) hp_pause(6);")
    size = r"size = i_size_read\([^;]*;"
    file.edit(function, size, rf"hp_pause(7); hp_size_enter(); \g<0> hp_log(HP_SIZE, {inode}, {index}, size, 0); hp_size_leave(); hp_pause(8);")
    file.before(function, r"folio_zero_user\(folio|clear_huge_page\(page, address", "hp_pause(9);")
    if re.search(r"new_pagecache_(page|folio) = true;", file.text):
        file.behind(function, r"new_pagecache_(page|folio) = true;", "hp_pause(10);")
    else:
        file.before(function, r"\} else \{(?=\s*new_anon_folio = true;)", "hp_pause(10);")
    file.behind(function, r"set_huge_pte_at\(mm, [^;]*;", f"hp_log(HP_PTE, {inode}, {index}, {page}, 0);")
    file.before(function, r"spin_unlock\((vmf->)?ptl\);(?=\s*backout_unlocked:)", f"hp_log(HP_BACKOUT, {inode}, {index}, 0, 0);")
    file.before(function, UNLOCK, f"hp_log(HP_FU, {inode}, {index}, ret, 0);")


def faults(file: Source, is_old: bool) -> None:
    function, inode = "hugetlb_fault", "mapping->host->i_ino"
    index, address = ("idx", "haddr") if is_old else ("vmf.pgoff", "vmf.address")
    file.before(function, LOCK, f"hp_log(HP_FAULT, {inode}, {index}, {address}, flags & FAULT_FLAG_WRITE);")
    file.behind(function, LOCK, f"hp_log(HP_FL, {inode}, {index}, {address}, 0); hp_pause(11);")
    file.before(function, r"if \(!pte_present\((vmf\.orig_pte|entry)\)", f"hp_log(HP_PRESENT, {inode}, {index}, {address}, 0);\n\t")
    file.edit(function, rf"(?m)^\t{UNLOCK}", rf"hp_log(HP_FU, {inode}, {index}, ret, 1); \g<0>")


def removals(file: Source) -> None:
    file.before("hugetlb_unreserve_pages", r"if \(resv_map\) \{", "hp_pause(12); hp_log(HP_UNRES, inode->i_ino, start, end, freed);")
    file.behind("__unmap_hugepage_range", r"pte = huge_ptep_get_and_clear\([^;]*;",
                "hp_log(HP_CLR, (u64)mm, address, vma_hugecache_offset(h, vma, address), pte_pfn(pte));")


def hugetlb(tree: Path, repaired: str) -> Source:
    file = Source(tree, "mm/hugetlb.c")
    is_old = file.has("dequeue_huge_page_vma(")      # pages where later versions have folios
    page = "page_to_pfn(page)" if is_old else "folio_pfn(folio)"
    include = r"#include <linux/hugetlb\.h>" if file.has("#include <linux/hugetlb.h>") else r"#include \"hugetlb_internal\.h\""
    file.behind(None, include, "\n#include <linux/hplive.h>")
    if repaired:
        repair.accounting(file)
    region_map(file)
    counts(file)
    quotas(file)
    resizes(file, page)
    takes(file, page)
    page_cache(file, page, is_old)
    missing_pages(file, page, is_old)
    faults(file, is_old)
    removals(file)
    return file


def maps(file: Source) -> None:
    function = "hugetlbfs_file_mmap"
    file.behind(function, r"inode_lock\(inode\);", "hp_log(HP_IL, inode->i_ino, 'm', 0, 0); hp_pause(20);")
    file.before(function, r"if \((vma->vm_flags & VM_WRITE|vma_test\(vma, VMA_WRITE_BIT\)) && inode", "hp_log(HP_WAIT, inode->i_ino, 'm', 0, 0);")
    file.before(function, r"inode_unlock\(inode\);", "hp_pause(21); hp_log(HP_IU, inode->i_ino, 'm', ret, 0);")


def punches_and_truncations(file: Source, is_old: bool) -> None:
    file.edit("hugetlb_vmdelete_list", r"continue;", "{ hp_log(HP_SKIP, (u64)vma->vm_mm, vma->vm_start, start, end); continue; }")
    file.behind("remove_inode_single_folio", r"hugetlb_delete_from_page_cache\((&folio->page|folio)\);",
                "hp_log(HP_EVICT, inode->i_ino, index, folio_pfn(folio), truncate_op); hp_pause(22);")
    file.before("remove_inode_single_folio", r"folio_lock\(folio\);", "hp_pause(23);")
    function, first = "remove_inode_hugepages", f"fbatch.folios[0]->index{'' if is_old else ' >> huge_page_order(h)'}"
    file.behind(function, r"while \(filemap_get_folios\([^{]*\{",
                f"hp_log(HP_BATCH, inode->i_ino, folio_batch_count(&fbatch), {first}, lend == LLONG_MAX); hp_pause(24);")
    file.behind(function, LOCK, "hp_log(HP_FL, inode->i_ino, index, 0, 2);")
    file.before(function, UNLOCK, "hp_log(HP_FU, inode->i_ino, index, 0, 2);")
    file.before(function, r"folio_batch_release\(&fbatch\);", "hp_pause(25);")
    function = "hugetlb_vmtruncate"
    file.before(function, r"i_size_write\(inode, offset\);", "hp_log(HP_IL, inode->i_ino, 't', 0, 0); hp_pause(26);")
    file.before(function, r"i_mmap_lock_write\(mapping\);", "hp_pause(27);")
    file.edit(function, r"remove_inode_hugepages\([^;]*;", r"hp_pause(28); \g<0> hp_log(HP_IU, inode->i_ino, 't', 0, 0);")
    function = "hugetlbfs_punch_hole"
    file.behind(function, r"inode_lock\(inode\);", "hp_log(HP_IL, inode->i_ino, 'p', 0, 0); hp_pause(29);")
    file.edit(function, r"(?m)^\tinode_unlock\(inode\);", r"hp_log(HP_IU, inode->i_ino, 'p', 0, 0); \g<0>")
    file.before(function, r"(?m)^\t/\* Remove full pages from the file\. \*/", "hp_pause(30);\n")


def allocations(file: Source, is_old: bool) -> None:
    function = "hugetlbfs_fallocate"
    page, is_there = ("page_to_pfn(page)", "page") if is_old else ("folio_pfn(folio)", "!IS_ERR(folio)")
    look = r"page = find_get_page\(mapping, index\);" if is_old else r"folio = filemap_get_folio\([^;]*;"
    file.behind(function, r"inode_lock\(inode\);", "hp_log(HP_IL, inode->i_ino, 'a', 0, 0); hp_pause(31);")
    file.before(function, r"inode_unlock\(inode\);", "hp_pause(32); hp_log(HP_IU, inode->i_ino, 'a', error, 0);")
    file.behind(function, LOCK, "hp_log(HP_FL, inode->i_ino, index, 0, 3); hp_pause(33);")
    file.behind(function, look, f"hp_log(HP_LOOK, inode->i_ino, index, {is_there} ? {page} : -1, 3);")
    file.edit(function, UNLOCK, r"{ hp_log(HP_FU, inode->i_ino, index, error, 3); \g<0> hp_pause(34); }", 4)
    file.before(function, r"folio_zero_user\(folio, addr|clear_huge_page\(page, addr", "hp_pause(35);")


def hugetlbfs(tree: Path, repaired: str) -> Source:
    file = Source(tree, "fs/hugetlbfs/inode.c")
    is_old = file.has("find_get_page(mapping, index)")
    file.behind(None, r"#include <linux/hugetlb\.h>", "\n#define HP_WRAP_SIZE\n#include <linux/hplive.h>")
    if repaired == "slots":
        repair.slots(file, is_old)
    maps(file)
    punches_and_truncations(file, is_old)
    allocations(file, is_old)
    return file


def main() -> int:
    words = sys.argv[1:]
    repaired = words[1] if len(words) == 2 else ""
    if len(words) not in (1, 2) or repaired not in ("", *repair.REPAIRS) or not (Path(words[0]) / "mm/hugetlb.c").is_file():
        print(f"usage: instrument.py TREE [{'|'.join(repair.REPAIRS)}]    (TREE: the source of a Linux kernel)", file=sys.stderr)
        return 2
    tree = Path(words[0])
    makefile = Source(tree, "mm/Makefile")
    makefile.text += "\nobj-y += hplive.o\n"
    files = [hugetlb(tree, repaired), hugetlbfs(tree, repaired), makefile]
    if found := [fault for it in files for fault in it.faults]:
        print("instrument.py: this kernel isn't as it has to be, and nothing is written:", *found, sep="\n  ", file=sys.stderr)
        return 1
    for it in files:
        it.path.write_text(it.text, encoding="utf-8")
    shutil.copy(HERE / "hplive.h", tree / "include/linux/hplive.h")
    shutil.copy(HERE / "hplive.c", tree / "mm/hplive.c")
    return 0


if __name__ == "__main__":
    sys.exit(main())
