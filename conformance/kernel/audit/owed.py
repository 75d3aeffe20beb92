"""What calls in flight owe to the counts: between which numbers a count may differ from what files and mappings say.

The kernel's count and what it counts aren't changed in one step. docs/AUDIT.md has the steps by which the bounds go.
"""
from __future__ import annotations

from dataclasses import dataclass, field

from kernel.audit.state import Call, Mount, Pool, files_of

# one page is taken or removed at a time, so that each count may be one off: before its page or index is there, or after it has gone
ONE = "fault", "allocate", "punch", "mutex"
# a file's indices are removed page by page, and what was reserved for them is given back at the end
TRUNCATE = "truncate"
# pages are counted before their indices are in the reserve map, or given back after they have gone
AHEAD = "map", "unmap", "exit", "evict"
# frames are on no list, or on one that isn't counted yet
MOVING = "resize", "migrate", "lock"
# it may be any of these
ANY = "running", "locked"
KINDS = (*ONE, TRUNCATE, *AHEAD, *MOVING, *ANY)

# The functions of Linux that show of which kind a call is, the innermost first.
FUNCTIONS = {
    "hugetlb_fault": "fault", "hugetlb_no_page": "fault", "hugetlb_wp": "fault", "hugetlb_cow": "fault", "hugetlb_mfill_atomic_pte": "fault",
    "hugetlbfs_punch_hole": "punch", "hugetlbfs_fallocate": "allocate", "hugetlb_vmtruncate": TRUNCATE, "hugetlbfs_setattr": TRUNCATE,
    "remove_inode_hugepages": TRUNCATE, "hugetlbfs_evict_inode": "evict", "hugetlb_reserve_pages": "map", "hugetlbfs_file_mmap": "map",
    "hugetlbfs_file_mmap_prepare": "map", "hugetlb_file_setup": "map", "hugetlb_unreserve_pages": TRUNCATE,
    "hugetlb_vm_op_close": "unmap", "hugetlb_vm_op_split": "unmap", "__unmap_hugepage_range": "unmap", "unmap_hugepage_range": "unmap",
    "exit_mmap": "exit", "unmap_region": "unmap", "do_vmi_align_munmap": "unmap", "do_mas_align_munmap": "unmap", "__do_munmap": "unmap",
    "vms_complete_munmap_vmas": "unmap", "__nr_hugepages_store_common": "resize", "set_max_huge_pages": "resize",
    "hugetlb_sysctl_handler_common": "resize", "nr_overcommit_hugepages_store": "resize", "demote_store": "resize",
    "alloc_and_dissolve_hugetlb_folio": "migrate", "isolate_or_dissolve_huge_page": "migrate", "migrate_pages": "migrate",
    "dissolve_free_huge_page": "migrate", "dissolve_free_hugetlb_folio": "migrate", "free_hpage_workfn": "resize",
}  # fmt: skip
# of the functions in one stack: a punch removes as a truncation does, and is no more than a punch
ORDER = ("punch", "allocate", "evict", "fault", "map", "exit", "unmap", TRUNCATE, "resize", "migrate")


def kind_of(functions: set[str]) -> str | None:
    """Of which kind a call is whose stack has these functions."""
    kinds = {FUNCTIONS[it] for it in functions if it in FUNCTIONS}
    return next((it for it in ORDER if it in kinds), None)


@dataclass
class Owed:
    """Between which numbers the counts of a pool may differ from what they should be, and by whose calls."""

    reserve: tuple[int, int] = (0, 0)
    used: tuple[int, int] = (0, 0)
    moving: str = ""
    who: list[str] = field(default_factory=list)

    def of_reserve(self, difference: int) -> str:
        return self.text(difference, self.reserve)

    def of_used(self, difference: int) -> str:
        return self.text(difference, self.used)

    def text(self, difference: int, bounds: tuple[int, int]) -> str:
        low, high = bounds
        return f"calls in flight may owe {low:+} to {high:+}: {'; '.join(self.who[:4])}" if low <= difference <= high else ""


def owed_by(calls: list[Call], pool: Pool, mounts: list[Mount]) -> Owed:
    """What the calls in flight may owe together. What a call may have counted ahead is at most the whole count."""
    owed = Owed(who=[f"{it.who} {it.sign}".strip() for it in calls])
    ahead = max(0, pool.counts["resv"])
    used = max([0, *(it.subpool.used for it in mounts if it.subpool)])
    for it in calls:
        low, high = bounds_of(it, mounts, ahead)
        owed.reserve = owed.reserve[0] + low, owed.reserve[1] + high
        low, high = bounds_of(it, mounts, used)
        owed.used = owed.used[0] + low, owed.used[1] + high
        if it.kind in MOVING or it.kind == "running":
            owed.moving = owed.moving or f"a call in flight may move frames: {it.who} {it.sign}"
    return owed


def bounds_of(call: Call, mounts: list[Mount], ahead: int) -> tuple[int, int]:
    """At least and at most by how much a count may be above what it should be, for one call."""
    if call.kind in ONE:
        return -1, 1
    if call.kind in AHEAD:
        return 0, ahead
    if call.kind == TRUNCATE or call.kind in ANY:
        vacant = sum(it.vacant for it in files_of(mounts) if call.file in (0, it.address))
        return -max(1, vacant), max(1, ahead)
    return 0, 0
