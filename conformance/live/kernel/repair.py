"""Repairs of the reserve count, put into a source tree of Linux beside the log lines. Everything that is inserted is written here.

`accounting`: what a change of a reserve map returns is accounted once. `region_add` may add more than `region_chg` said was missing, so the
count is raised by the difference; a raise that a removal owes asks for no free page; a page that is backed out leaves the map as it is, and
gives its reservation back.

`slots`: besides, a truncation takes each reserved index of its tail out of the map under that index's fault mutex, from the top down. So
no fault works at an index whose entry goes. That such rows keep the count exact is proved in hp_linux_laws (`a_repaired_count_is_exact`).
"""
from __future__ import annotations

from typing import Protocol

REPAIRS = ("accounting", "slots")
RAISE = """
/* Raises the reserve count for what a reserve map gained. It asks for no free page: the entry is there already. */
static void hp_raise(struct hstate *h, long number)
{
	spin_lock_irq(&hugetlb_lock);
	h->resv_huge_pages += number;
	hp_log(HP_ACCT, 0, number, 0, 0);
	spin_unlock_irq(&hugetlb_lock);
}

"""
LAST = """
/* The highest reserved index of a file that is not below `start`, or -1. */
long hp_last_reserved(struct inode *inode, long start)
{
	struct resv_map *resv = inode_resv_map(inode);
	long found = -1;

	if (!resv)
		return found;
	spin_lock(&resv->lock);
	if (!list_empty(&resv->regions))
		found = list_last_entry(&resv->regions, struct file_region, link)->to - 1;
	if (found < start)
		found = -1;
	hp_log(HP_LAST, (u64)resv, found, start, 0);
	spin_unlock(&resv->lock);
	return found;
}

"""
TAIL = """
long hp_last_reserved(struct inode *inode, long start);

/* Takes each reserved index from `start` on out of the reserve map, under its fault mutex. */
static void hp_remove_tail(struct hstate *h, struct inode *inode, struct address_space *mapping, long start)
{
	long last;

	while ((last = hp_last_reserved(inode, start)) >= 0) {
		u32 mutex = hugetlb_fault_mutex_hash(mapping, last);
		struct folio *folio;

		hp_pause(43);
		mutex_lock(&hugetlb_fault_mutex_table[mutex]);
		hp_log(HP_FL, inode->i_ino, last, 0, 2);
		folio = filemap_get_folio(mapping, PAGE_INDEX);
		if (IS_ERR_OR_NULL(folio)) {
			hugetlb_unreserve_pages(inode, last, last + 1, 0);
		} else {
			remove_inode_single_folio(h, inode, mapping, folio, last, false);
			folio_put(folio);
		}
		hp_log(HP_FU, inode->i_ino, last, 0, 2);
		mutex_unlock(&hugetlb_fault_mutex_table[mutex]);
		cond_resched();
	}
}

"""


class Source(Protocol):
    """A file of the kernel (instrument.py)."""

    def has(self, text: str) -> bool: ...
    def edit(self, function: str | None, pattern: str, new: str, times: int = 1) -> None: ...
    def behind(self, function: str | None, pattern: str, line: str, times: int = 1) -> None: ...


def account_commits(file: Source) -> None:
    """A fault's and a mapping's `region_add` that added more than `region_chg` missed."""
    if file.has("map_commit = vma_commit_reservation("):
        old = file.has("struct page *alloc_huge_page(struct vm_area_struct")
        file.behind("alloc_huge_page" if old else "alloc_hugetlb_folio", r"map_commit = vma_commit_reservation\([^;]*;",
                    "\n\tif (unlikely(map_commit > map_chg)) hp_raise(h, map_commit - map_chg);")
    else:
        file.behind("alloc_hugetlb_folio", r"retval = vma_commit_reservation\([^;]*;",
                    "\n\tif (unlikely(map_chg == MAP_CHG_REUSE && retval > 0)) hp_raise(h, retval);")
    file.behind("hugetlb_reserve_pages", r"add = region_add\([^;]*;", "\n\t\tif (unlikely(add > chg)) hp_raise(h, add - chg);")


def raise_unconditionally(file: Source) -> None:
    """What a removal owes to the count."""
    file.edit("hugetlb_unreserve_pages", r"hugetlb_acct_memory\(h, -gbl_reserve\);",
              "if (gbl_reserve < 0) hp_raise(h, -gbl_reserve); else hugetlb_acct_memory(h, -gbl_reserve);")
    file.edit("hugetlb_fix_reserve_counts", r"if \(!hugetlb_acct_memory\(h, 1\)\)\s*reserved = true;", "hp_raise(h, 1);\n\t\treserved = true;")


def leave_the_map(file: Source) -> None:
    """A page of a shared mapping that is backed out leaves the map as it is, and freeing it raises the count: so much its allocation owes."""
    page = "page" if file.has("HPageRestoreReserve(page)") else "folio"
    is_reserved, keep = {
        "page": (r"HPageRestoreReserve\(page\)", "SetHPageRestoreReserve(page);"),
        "folio": (r"folio_test_hugetlb_restore_reserve\(folio\)", "folio_set_hugetlb_restore_reserve(folio);"),
    }[page]
    log = f"hp_log(HP_RESTORE, 0, {page}_{'to_' if page == 'page' else ''}pfn({page}), 1, rc);"
    own = f"{log} if (rc >= 0) vma_end_reservation(h, vma, address); {keep} return;"
    file.edit("restore_reserve_on_error", rf"if \({is_reserved}\) \{{", rf"if (vma->vm_flags & VM_MAYSHARE) {{ {own} }}\n\t\g<0>")


def accounting(file: Source) -> None:
    """The repair of mm/hugetlb.c that both kinds have."""
    file.edit(None, r"(?m)^static int hugetlb_acct_memory\(struct hstate \*h, long delta\);", rf"\g<0>\n{RAISE}")
    file.edit("hugetlb_unreserve_pages", r"(?s)\A", LAST)
    account_commits(file)
    raise_unconditionally(file)
    leave_the_map(file)


def slots(file: Source, is_old: bool) -> None:
    """The repair of fs/hugetlbfs/inode.c."""
    tail = TAIL.replace("PAGE_INDEX", "last" if is_old else "last << huge_page_order(h)").replace("\\", r"\\")
    function = "remove_inode_hugepages"
    file.edit(function, r"(?s)\A", tail)
    file.edit(function, r"index, truncate_op\)", "index, false)")
    file.edit(function, r"\(void\)hugetlb_unreserve_pages\([^;]*;", "hp_remove_tail(h, inode, mapping, lstart >> huge_page_shift(h));")
