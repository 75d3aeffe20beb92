"""Who holds the huge pages and reservations of this host, as far as /proc and /sys tell. It needs no symbols; as root it sees more.

For each file of hugetlbfs: pages that are there, pages that are mapped, and how many reservations may wait for a page. That isn't told
anywhere. A file keeps its reservations when the mapping goes that made them, so at most each index below its size without a page is
reserved. At least those are that are mapped without VM_NORESERVE, less the pages: unless a hole was punched there. Which private
mappings have reserved isn't told either (a forked child's hasn't): they count towards the most alone. Status: 0.
"""
from __future__ import annotations

import os
import re
from collections import defaultdict
from dataclasses import dataclass, field
from pathlib import Path
from typing import Iterable

from kernel.problem import Problem

POOLS = Path("/sys/kernel/mm/hugepages")
HEAD = re.compile(r"([0-9a-f]+)-([0-9a-f]+) (....) ([0-9a-f]+) ([0-9a-f]+):([0-9a-f]+) (\d+) *(.*)")


@dataclass
class File:
    """A file of hugetlbfs, as seen from outside."""
    page: int = 2048                                      # KiB of a page
    name: str = ""
    size: int = 0                                         # in pages; 0 if it couldn't be looked at
    pages: int | None = None                              # in the page cache; None if it couldn't be looked at
    wanted: list[tuple[int, int]] = field(default_factory=list)    # indices that shared mappings have reserved
    users: dict[str, list[int]] = field(default_factory=dict)      # process: pages mapped by it, of how many
    private: int = 0                                      # private pages that may wait, of mappings that may have reserved

    def bounds(self) -> tuple[int, int | None]:
        """Reservations that wait for a page: at least, at most."""
        if self.pages is None:
            return 0, None
        wanted, at = 0, 0
        for begin, end in sorted(self.wanted):
            end = min(end, self.size)
            wanted += max(0, end - max(begin, at))
            at = max(at, end)
        return max(0, wanted - self.pages), max(0, self.size - self.pages) + self.private


Files = dict[tuple[int, int], File]


def look(file: File, path: str, name: str) -> None:
    """What stat() tells: the size, and the pages of the cache by st_blocks."""
    try:
        told = os.stat(path)
    except OSError:
        return
    file.name, file.size, file.pages = name, -(-told.st_size // (file.page << 10)), told.st_blocks * 512 // (file.page << 10)


def is_of_hugetlbfs(path: str, devices: set[int]) -> os.stat_result | None:
    try:
        told = os.stat(path)
    except OSError:
        return None
    return told if told.st_dev in devices else None


def scan_mounts(files: Files, pages: dict[int, int]) -> list[tuple[str, int, int, int]]:
    """Each file below each mount of hugetlbfs; returns the mounts: where, which device, how many pages are used, of how many."""
    mounts = []
    for words in (line.split() for line in Path("/proc/self/mounts").read_text(encoding="utf-8").splitlines()):
        if words[2] != "hugetlbfs":
            continue
        try:
            told, device = os.statvfs(words[1]), os.stat(words[1]).st_dev
        except OSError:
            continue
        pages[device] = told.f_bsize >> 10
        mounts.append((words[1], device, told.f_blocks - told.f_bfree, told.f_blocks))
        for folder, _, names in os.walk(words[1]):
            for name in names:
                path = os.path.join(folder, name)
                if found := is_of_hugetlbfs(path, {device}):
                    look(files.setdefault((device, found.st_ino), File(pages[device])), path, path)
    return mounts


def mount_line(files: Files, mount: tuple[str, int, int, int]) -> str:
    """A mount. With size= its used pages are those of its files and what they have reserved: so the difference is all that is awaited."""
    place, device, used, size = mount
    its = sum(it.pages or 0 for (of, _), it in files.items() if of == device)
    return f"  {place}: " + (f"{used} of {size} used: {its} pages of the files above, {used - its} awaited, private or leaked" if size else "no size=")


def scan_process(pid: str, files: Files, pages: dict[int, int]) -> None:
    """The hugetlb mappings of a process by its smaps, and the files that it has open or mapped."""
    try:
        who = f"{pid} {Path(f'/proc/{pid}/comm').read_text().strip()}"
        with open(f"/proc/{pid}/smaps", encoding="utf-8", errors="replace") as text:
            areas = areas_of(text)
    except OSError:
        return
    for area in areas:
        begin, end, offset = area["begin"], area["end"], area["offset"]
        file = files.setdefault(area["file"], File(area["KernelPageSize"]))
        file.page = area["KernelPageSize"]
        pages[area["file"][0]] = file.page
        file.name = file.name or area["name"]
        if file.pages is None:
            look(file, f"/proc/{pid}/map_files/{begin:x}-{end:x}", file.name)
        first, size = offset // (file.page << 10), (end - begin) // (file.page << 10)
        there = (area["Shared_Hugetlb"] + area["Private_Hugetlb"]) // file.page
        seen = file.users.setdefault(who, [0, 0])
        seen[0] += there
        seen[1] += size
        if "nr" not in area["flags"] and "sh" not in area["flags"] and "ms" not in area["flags"]:
            # (a page of the file that is mapped privately takes no reservation)
            file.private += size if file.pages else size - there
        elif "nr" not in area["flags"]:
            file.wanted.append((first, first + size))


def areas_of(text: Iterable[str]) -> list[dict]:
    """The areas of an smaps that have huge pages of hugetlbfs: VmFlags has ht."""
    areas: list[dict] = []
    area: dict = {}
    for line in text:
        if head := HEAD.match(line):
            device = os.makedev(int(head[5], 16), int(head[6], 16))
            area = {"begin": int(head[1], 16), "end": int(head[2], 16), "offset": int(head[4], 16), "file": (device, int(head[7])), "name": head[8]}
        elif line.startswith("VmFlags:"):
            area["flags"] = line.split()[1:]
            if "ht" in area["flags"]:
                areas.append(area)
        else:
            name, _, value = line.partition(":")
            if value.endswith("kB\n"):
                area[name] = int(value.split()[0])
    return areas


def scan_descriptors(pid: str, files: Files, pages: dict[int, int]) -> None:
    """Files that a process has open: memfds, and unlinked ones that nobody maps."""
    try:
        names = os.listdir(f"/proc/{pid}/fd")
    except OSError:
        return
    for name in names:
        path = f"/proc/{pid}/fd/{name}"
        if (told := is_of_hugetlbfs(path, set(pages))) and (told.st_mode & 0o170000) == 0o100000:
            file = files.setdefault((told.st_dev, told.st_ino), File(pages[told.st_dev]))
            if file.pages is None:
                look(file, path, os.readlink(path))
            file.users.setdefault(f"{pid} {Path(f'/proc/{pid}/comm').read_text().strip()}", [0, 0])


def count(pool: Path, name: str) -> int:
    value = int((pool / name).read_text())
    return value - (1 << 64) if value >> 63 else value


def verdict(count_of_kernel: int, low: int, high: int | None) -> str:
    """What the bounds say of the kernel's count."""
    if count_of_kernel < 0:
        return "   <-- negative: reservations were lost"
    if count_of_kernel < low:
        return "   <-- fewer: reservations were lost, or holes punched"
    return "   <-- more: min_size=, files that aren't seen from here, or leaked" if high is not None and count_of_kernel > high else ""


def pool_text(pool: Path, files: Files) -> list[str]:
    """A pool with its files, those first for which most may wait."""
    kib = int(pool.name.removeprefix("hugepages-").removesuffix("kB"))
    its = [it for it in files.values() if it.page == kib]
    counts = {name: count(pool, f"{name}_hugepages") for name in ("nr", "free", "resv", "surplus")}
    if not its and not any(counts.values()):
        return []
    low = sum(it.bounds()[0] for it in its)
    high = None if any(it.bounds()[1] is None for it in its) else sum(it.bounds()[1] for it in its)
    resv = counts["resv"]
    lines = [f"pool {kib}kB: " + ", ".join(f"{name} {value}" for name, value in counts.items()),
             f"  reservations of the files below: {low} to {'?' if high is None else high}; the kernel has {resv}{verdict(resv, low, high)}"]
    return lines + [file_line(it) for it in sorted(its, key=lambda it: -(it.bounds()[1] or 0))]


def file_line(it: File) -> str:
    least, most = it.bounds()
    users = "; ".join(f"{who} {there} of {size}" for who, (there, size) in it.users.items()) or "-"
    upto = "" if least == most else f" to {'?' if most is None else most}"
    return f"  {it.name or '?'}: size {it.size or '?'}, pages {'?' if it.pages is None else it.pages}, awaited {least}{upto}; {users}"


UNSAID = """which indices of a file are reserved, and whether the reserve count is right (only that it is wrong if it is negative);
whether a used page of a mount is awaited or leaked; which private mappings have reserved; pages above a file's size"""
UNSEEN = "; as this user: System V segments that nobody maps, and what other users have mapped or open"


def lines() -> list[str]:
    """What can be said, and what can't."""
    files: Files = defaultdict(File)
    pages: dict[int, int] = {}
    mounts = scan_mounts(files, pages)
    processes = [it for it in os.listdir("/proc") if it.isdecimal()]
    for scan in (scan_process, scan_descriptors):
        for pid in processes:
            scan(pid, files, pages)
    found = [line for pool in sorted(POOLS.glob("hugepages-*")) for line in pool_text(pool, files)]
    if not POOLS.is_dir():
        raise Problem("this kernel has no hugetlbfs: there is no /sys/kernel/mm/hugepages")
    found += ["mounts", *(mount_line(files, it) for it in mounts)]
    return found + ["", f"Without symbols this can't be said: {UNSAID}{UNSEEN if os.geteuid() else ''}."]
