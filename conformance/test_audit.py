#!/usr/bin/env python3
"""Tests ./kernel audit as far as that needs no kernel, no dump and no drgn.

A state that is right has no finding, and each planted error has one of its clause; audit/plants.py does the like in the memory of a dump.
What calls in flight owe excuses so much and no more. Dumps that are torn, notes, symbols of another kernel and texts of /proc are made up.
"""
from __future__ import annotations

import copy
import json
import struct
import subprocess
import sys
import tempfile
from dataclasses import replace
from pathlib import Path
from types import SimpleNamespace
from typing import Callable, Iterator
from unittest.mock import ANY, patch

import packages
from audit import pictures, scenes
from compare import Script, tested
from kernel.audit import checks, elf, opened, picture, proved, report, who
from kernel.audit.behind import Audited, read
from kernel.audit.checks import CLAUSES, check, wrong
from kernel.audit.owed import FUNCTIONS, KINDS, ORDER, kind_of
from kernel.audit.state import Call, File, Frame, Mapping, Mount, Pool, ReserveMap, State, Subpool, reserved_in, used_in
from kernel.known import Known, known_issues
from kernel.problem import Problem
from kernel.testing import wrong_audits, wrong_counts


def healthy() -> State:
    """A pool of 12 pages; a mount with size=8 and min_size=6, whose file has reserved four indices and has two pages; private memory."""
    subpool = Subpool(0x5, 8, 5, 6, 1)
    shared = Mapping([(7, "one")], 0x70, 0, 0, 4, True, False, False, [], [(0, 10 << 9), (1, 11 << 9)], 0)
    file = File(1, 1, "file", 4, False, ReserveMap([(0, 4)], 0, 1, 1, False), {0: 10 << 9, 1: 11 << 9}, [shared])
    private = Mapping([(8, "two")], 0x80, 0, 0, 3, False, False, True, [(1, 2)], [(1, 12 << 9)], 0)
    own = File(2, 2, "anon_hugepage", 3, False, ReserveMap([], 0, 0, 0, False), {}, [private])
    child = copy.copy(private)
    child.tasks, child.space, child.owner, child.consumed = [(9, "child")], 0x90, False, []
    own.mappings.append(child)
    mounts = [Mount(["/m"], 0, subpool, [file]), Mount(["(kernel)"], 0, None, [own])]
    active = {pfn << 9: Frame(pfn << 9, 2, at, 0, False) for pfn, at in ((10, 5), (11, 5), (12, 0), (13, 5))}
    counts = {"nr": 12, "free": 8, "resv": 5, "surplus": 0}
    node = {"nr": 12, "free": 8, "surplus": 0}
    return State("6.1", [Pool(0, "2048kB", 9, counts, {0: node}, [(0, pfn << 9) for pfn in range(20, 28)], active)], mounts)


def file_of(state: State) -> File:
    return state.mounts[0].files[0]


def private_of(state: State) -> Mapping:
    return state.mounts[1].files[0].mappings[0]


def count(**numbers: int) -> Callable[[State], object]:
    return lambda s: s.pools[0].counts.update(numbers)


ERRORS: list[tuple[str, Callable[[State], object]]] = [
    ("reserve", count(resv=4)),
    ("reserve", lambda s: private_of(s).consumed.append((2, 3))),
    ("enough", count(resv=9)),
    ("enough", count(resv=-1)),
    ("pages", count(free=9)),
    ("pages", count(surplus=13)),
    ("pages", lambda s: s.pools[0].nodes[0].update(surplus=1)),
    ("pages", lambda s: s.pools[0].nodes.update({0: {"nr": 12, "free": 7, "surplus": 0}, 1: {"nr": 0, "free": 1, "surplus": 0}})),
    ("used", lambda s: setattr(s.mounts[0].subpool, "used", 6)),
    ("used", lambda s: setattr(s.mounts[0].subpool, "max", 4)),
    ("used", lambda s: setattr(s.mounts[0].subpool, "rsv", 7)),
    ("map", lambda s: file_of(s).map.regions.insert(0, (0, 2))),
    ("map", lambda s: setattr(file_of(s).map, "spare", 2)),
    ("map", lambda s: setattr(file_of(s).map, "in_progress", 2)),
    ("marked", lambda s: file_of(s).map.regions.__setitem__(0, (0, 1))),
    ("marked", lambda s: file_of(s).map.regions.__setitem__(0, (1, 4))),
    ("agree", lambda s: file_of(s).mappings[0].translations.append((2, 11 << 9))),
    ("agree", lambda s: file_of(s).cache.update({1: 13 << 9})),
    ("place", lambda s: s.pools[0].free.append((0, 10 << 9))),
    ("place", lambda s: file_of(s).cache.update({3: 10 << 9})),
    ("place", lambda s: file_of(s).cache.update({1: 99 << 9})),
    ("place", lambda s: private_of(s).translations.append((0, 10 << 9))),
    ("place", lambda s: private_of(s).translations.append((0, 12 << 9))),
    ("size", lambda s: setattr(file_of(s), "size", 1)),
    ("place", lambda s: s.mounts[1].files.append(replace(s.mounts[1].files[0], address=3, mappings=[replace(private_of(s), owner=False)]))),
    ("place", lambda s: s.pools[0].free.append((0, 13 << 9))),
]

# the clauses that a text has; errors of minimum sizes and beside the lists aren't in it
SEEN_IN_TEXT = {"reserve", "enough", "used", "agree", "place", "size"}
UNSEEN_IN_TEXT = {10, 20}

# a call in flight, a difference of a count that it may owe, and one that it may not
OWED = [
    ("fault", count(resv=4), count(resv=3)),
    ("fault", count(resv=6), count(resv=7)),
    ("punch", count(resv=6), count(resv=2)),
    ("mutex", count(resv=4), count(resv=3)),
    ("map", count(resv=8), count(resv=4)),
    ("exit", count(resv=6), count(resv=4)),
    ("truncate", count(resv=3), count(resv=2)),
    ("locked", count(resv=3), count(resv=2)),
    ("running", count(resv=3), count(resv=2)),
    ("fault", lambda s: setattr(s.mounts[0].subpool, "used", 6), lambda s: setattr(s.mounts[0].subpool, "used", 7)),
    ("resize", count(nr=11), count(resv=4)),
    ("lock", count(free=9), count(resv=6)),
]


def with_error(plant: Callable[[State], object], *calls: str) -> State:
    state = healthy()
    plant(state)
    state.calls = [Call(f"{number} task", "is in it", kind) for number, kind in enumerate(calls)]
    return state


def cases_of_checks() -> Iterator[tuple[str, bool]]:
    state = healthy()
    reserved = reserved_in(state.mounts)
    yield "a right state has no finding", check(state) == []
    yield "who has reserved", (reserved.files, reserved.private, reserved.minimum) == (2, 2, 1)
    yield "what is used", used_in(state.mounts[0], state.pools[0]) == 5
    yield "each clause has an error", {clause for clause, _ in ERRORS} == set(CLAUSES)
    for number, (clause, plant) in enumerate(ERRORS):
        yield f"error {number} is found by {clause}", clause in {it.clause for it in wrong(check(with_error(plant)))}
    locked = healthy()
    file_of(locked).size, file_of(locked).locked = 1, True
    yield "a locked file isn't measured", check(locked) == []
    file_of(locked).map.locked, file_of(locked).map.spare = True, 7
    yield "a locked reserve map isn't judged", wrong(check(locked)) == []
    plain = healthy()
    plain.mounts[0].subpool.min, plain.pools[0].counts["resv"] = -1, 4
    yield "a mount without a minimum reserves nothing for it", check(plain) == []


def cases_of_owed() -> Iterator[tuple[str, bool]]:
    yield "each kind owes something or moves frames", {kind for kind, _, _ in OWED} <= set(KINDS)
    yield "each function has a kind", set(FUNCTIONS.values()) <= set(KINDS) and set(FUNCTIONS.values()) == set(ORDER)
    for number, (kind, within, beyond) in enumerate(OWED):
        found = check(with_error(within, kind))
        yield f"{number}: a {kind} may owe it", bool(found) and not wrong(found)
        yield f"{number}: nobody may owe it at rest", bool(wrong(check(with_error(within))))
        yield f"{number}: a {kind} can't owe that", bool(wrong(check(with_error(beyond, kind))))
    yield "two faults owe two", not wrong(check(with_error(count(resv=3), "fault", "fault")))
    yield "a fault excuses no frame at two places", bool(wrong(check(with_error(ERRORS[18][1], "fault"))))
    yield "a punch that removes is a punch", kind_of({"hugetlbfs_fallocate", "hugetlbfs_punch_hole", "remove_inode_hugepages"}) == "punch"
    yield "a stack without a call is none", kind_of({"schedule"}) is None


def cases_of_report() -> Iterator[tuple[str, bool]]:
    state = with_error(count(resv=4))
    text = report.text(state, check(state))
    yield "the pool's line is wrong by", "the kernel has 4, recomputed 5 (2 of files, 2 of private mappings, 1 of min_size=)   <-- wrong by -1" in text
    yield "the clause is WRONG", "WRONG  the reserve count is" in text and "should be 5: 1 lost" in text
    yield "at rest", "The machine is at rest" in text
    state = with_error(count(resv=4), "fault")
    text = report.text(state, check(state))
    yield "the clause is owed", "owed   the reserve count is" in text and "WRONG" not in text and "The machine isn't at rest" in text
    file_of(state).mappings = []
    yield "the remedy is named", "after rm or truncate -s 0 of /m/file" in report.text(state, check(state))


def texts_of(state: State) -> dict[str, str]:
    return {it.name: it.text() for it in picture.pictures(state)}


def cases_of_pictures() -> Iterator[tuple[str, bool]]:
    texts = texts_of(healthy())
    yield "a picture of the pool and of the limited mount", set(texts) == {"2048kB", "2048kB.mount0"}
    lines = texts["2048kB"].splitlines()
    yield "its head has the counts and what is owed", lines[0] == "picture 5 3 4 0"
    yield "the mount's has its limit", texts["2048kB.mount0"].splitlines()[0] == "picture 5 3 5 1 8"
    yield "its lines", lines[1:10] == [*(f"free {it}" for it in range(20, 28)), "hand 12"] and lines[10:] == [
        "hand 13", "file 4", "region 0 0 4", "page 0 0 10", "page 0 1 11", "file 3", "translation 0 0 0 10", "translation 0 0 1 11", "end"]
    yield "the auditor of texts finds them right", {pictures.verdict(text.encode()) for text in texts.values()} == {"findings 0"}
    for number, (clause, plant) in enumerate(ERRORS):
        if clause in SEEN_IN_TEXT and number not in UNSEEN_IN_TEXT:
            found = {pictures.verdict(text.encode()) for text in texts_of(with_error(plant)).values()}
            yield f"error {number}, {clause}, shows in a text: {found}", found != {"findings 0"}
    locked = healthy()
    file_of(locked).locked = True
    yield "a locked file", "file 4 locked" in texts_of(locked)["2048kB"].splitlines()
    yield "a count below zero is written", texts_of(with_error(count(resv=-3)))["2048kB"].startswith("picture -3 3 ")
    yield "what a fault may owe is owed", texts_of(with_error(count(resv=4), "fault"))["2048kB"].startswith("picture 4 2 ")
    apart, far, long = healthy(), healthy(), healthy()
    file_of(apart).map.regions[:] = [(0, 2), (2, 4)]
    yield "regions that touch are one", texts_of(apart) == texts
    file_of(far).map.regions.append((2**31, 2**31 + 1))
    yield "an index that no picture has", [it.fits() for it in picture.pictures(far)] == [False, False]
    file_of(long).size = 2**42
    yield "a size that no number has", f"file {2**32 - 1}" in texts_of(long)["2048kB"].splitlines()


def asked(text: str) -> proved.Answer:
    """What the auditor of texts answers, as hugepool audit would."""
    told = pictures.verdict(text.encode())
    return (0 if told == "findings 0" else 1), told + "\n", ""


def with_mount() -> State:
    """The right state with a mount more, whose file awaits a page and has one."""
    state = healthy()
    state.mounts.append(Mount(["/n"], 0, None, [File(4, 4, "more", 2, False, ReserveMap([(0, 2)], 0, 0, 0, False), {0: 14 << 9}, [])]))
    state.pools[0].active[14 << 9] = Frame(14 << 9, 2, 0, 0, False)
    state.pools[0].counts.update(nr=13, resv=6)
    state.pools[0].nodes[0].update(nr=13)
    return state


def differences(state: State, ask: Callable[[str], proved.Answer] = asked) -> list[str]:
    return proved.compared(state, "program", ask).differences


# of a check that finds nothing the name, and an error that it misses
MISSED = {"check_translations": 16, "check_places": 18, "check_reserve": 0, "check_enough": 2, "check_used": 8, "check_limits": 9, "check_file": 11}
# programs that are wrong, and what they answer to each picture
WRONG_PROGRAMS: dict[str, Callable[[str], proved.Answer]] = {
    "finds nothing": lambda _: (0, "findings 0\n", ""),
    "finds a frame too much": lambda _: (1, "frame 99: at two places\nresv: should be 5\nfindings 2\n", ""),
    "fails": lambda _: (2, "", "hugepool: out of memory\n"),
    "refuses a line": lambda _: (2, "", "hugepool: line 3 is not one of a picture\n"),
    "prints something else": lambda _: (1, "page 0: of no file, or not behind the page before it\nfindings 1\n", ""),
    "names a translation that isn't there": lambda _: (1, "translation 9: at or above the size of an unlocked file\nfindings 1\n", ""),
    "ends with the status of a right picture": lambda text: (0, asked(text)[1], ""),
}


def cases_of_compared() -> Iterator[tuple[str, bool]]:
    """What is found here and by hugepool audit is compared, and a difference is told."""
    ask = proved.asking(str(tested()))
    found = proved.compared(healthy(), "program", ask)
    yield "a right state is right to both", (found.pictures, found.findings, found.differences) == (2, 0, [])
    for number, (_, plant) in enumerate(ERRORS):
        yield f"error {number} is found by both", differences(with_error(plant), ask) == differences(with_error(plant)) == []
    for number, (kind, within, beyond) in enumerate(OWED):
        yield f"{number}: what a {kind} may owe, and what not", not differences(with_error(within, kind)) + differences(with_error(beyond, kind))
    yield "so is what another mount has", differences(with_mount()) == [] and check(with_mount()) == []
    free = with_mount()
    free.pools[0].free.append((0, 14 << 9))
    yield "and what is wrong with it", differences(free) == [] and wrong(check(free)) != []
    for name, number in MISSED.items():
        with patch.object(checks, name, lambda *_: iter(())):
            yield f"{name} misses an error", any("hugepool audit alone finds: " in it for it in differences(with_error(ERRORS[number][1])))
    for what, wrong_one in ("vacant", 3), ("reserved", 3):
        with patch.object(File, what, wrong_one):
            yield f"{what} is wrong here", differences(healthy()) != []
    for name, program in WRONG_PROGRAMS.items():
        yield f"a program that {name}", differences(with_error(ERRORS[0][1]), program) != []
    with patch.object(proved, "LAUNCHER", Path("/none")):
        yield "where there is no ./hugepool, no program is there", proved.program() == ""
    yield "a program that can't be started", differences(healthy(), proved.asking("/none")) != []
    far = healthy()
    file_of(far).map.regions.append((2**31, 2**31 + 1))
    yield "a picture that doesn't fit isn't judged", "didn't judge 2048kB: a file" in "\n".join(proved.compared(far, "program", asked).lines())
    lines = [it.lines()[0] for it in (found, proved.Compared("out/unproved", 1), proved.Compared(), proved.Compared("p", 1, 0, [], ["2048kB: .."]))]
    yield "what is said", [" ".join(it.split()[:5]) for it in lines] == [
        "hugepool audit finds the same:", "hugepool audit, compiled without proof,", "hugepool audit didn't judge this:", "DIFFERS 2048kB: .."]
    at_once = read_of(with_error(count(resv=4)), compared={"differences": ["2048kB: .."]})
    yield "behind a race a difference is a problem", raises(lambda: read(at_once), Problem)


def note(name: bytes, kind: int, data: bytes) -> bytes:
    padded = name + b"\0" * (4 - len(name) % 4)
    return struct.pack("<III", len(name) + 1, len(data), kind) + padded[: len(name) + 1 + 3 & ~3] + data + b"\0" * (-len(data) % 4)


def dump(notes: bytes, memory: bytes) -> bytes:
    """An ELF dump: a header, two program headers, the notes, and some memory."""
    head = b"\x7fELF\x02\x01\x01" + bytes(9) + struct.pack("<HHIQQQIHHHHHH", 4, 62, 1, 0, 64, 0, 0, 64, 56, 2, 0, 0, 0)
    at = 64 + 2 * 56
    parts = struct.pack("<IIQQQQQQ", 4, 0, at, 0, 0, len(notes), len(notes), 0)
    parts += struct.pack("<IIQQQQQQ", 1, 0, at + len(notes), 0, 0, len(memory), len(memory), 0)
    return head + parts + notes + memory


def prstatus(rip: int, cs: int, rsp: int) -> bytes:
    words = [0] * 27
    words[elf.RIP], words[elf.CS], words[elf.RSP] = rip, cs, rsp
    return bytes(elf.REGISTERS) + struct.pack("<27Q", *words) + bytes(8)


def cases_of_dumps(room: Path) -> Iterator[tuple[str, bool]]:
    core = room / "core"
    info = b"OSRELEASE=6.1.0\nBUILD-ID=abcd\nNUMBER(phys_base)=16777216\n"
    memory = bytes(64) + note(b"VMCOREINFO", 0, info) + bytes(64)
    core.write_bytes(dump(note(b"CORE", 1, prstatus(5, 16, 9)), memory))
    yield "no VMCOREINFO is found in notes", elf.vmcoreinfo(core) == {}
    elf.check_whole(core)
    elf.add_vmcoreinfo(core)
    yield "it is added from the memory", elf.vmcoreinfo(core).get("NUMBER(phys_base)") == "16777216" and elf.registers(core) == {0: (5, 16, 9)}
    whole = core.read_bytes()
    core.write_bytes(whole[:-40])
    yield "a dump that lacks bytes is torn", raises(lambda: elf.check_whole(core), elf.Torn)
    core.write_bytes(whole[:90])
    yield "so is one that ends in its headers", raises(lambda: elf.check_whole(core), elf.Torn)
    core.write_bytes(dump(b"", bytes(64)))
    yield "memory without VMCOREINFO", raises(lambda: elf.add_vmcoreinfo(core), elf.Torn)
    yield "a text is no ELF file", elf.notes(Path(__file__)) == [] and elf.build_id(Path(__file__)) is None


def cases_of_symbols(room: Path) -> Iterator[tuple[str, bool]]:
    vmlinux, core = room / "vmlinux-1", room / "core"
    data = note(b"GNU", 3, bytes.fromhex("1234"))
    head = b"\x7fELF\x02\x01\x01" + bytes(9) + struct.pack("<HHIQQQIHHHHHH", 2, 62, 1, 0, 0, 64 + len(data), 0, 64, 0, 0, 64, 1, 0)
    vmlinux.write_bytes(head + data + struct.pack("<IIQQQQIIQQ", 0, 7, 0, 0, 64, len(data), 0, 0, 4, 0))
    yield "the build ID of a kernel's file", elf.build_id(vmlinux) == "1234"
    for found, is_right in ((b"1234", True), (b"5678", False)):
        core.write_bytes(dump(note(b"VMCOREINFO", 0, b"OSRELEASE=6.1\nBUILD-ID=" + found + b"\n"), bytes(8)))
        refused = raises(lambda: opened.check_build(core, [vmlinux], "6.1"), Problem)
        yield f"symbols {'of the kernel are taken' if is_right else 'of another one are refused'}", refused != is_right
    yield "a file that isn't there is one line", raises(lambda: opened.check_readable(room / "none", "no dump that can be read"), Problem)


MEMBERS = {
    "./usr/lib/debug/boot/vmlinux-6.1.0-56-cloud-amd64": "vmlinux-6.1.0-56-cloud-amd64",
    "./usr/lib/debug/lib/modules/7.3-cloud-amd64/vmlinux": "vmlinux-7.3-cloud-amd64",
    "./usr/lib/debug/usr/lib/modules/7.3-cloud-amd64/vmlinux": "vmlinux-7.3-cloud-amd64",
    "./usr/lib/debug/lib/modules/7.3-cloud-amd64/kernel/fs/fuse/fuse.ko": None,
    "./boot/vmlinuz-6.1.0-56-cloud-amd64": None,
}
SYMBOLS = {
    ("linux-image-6.1.0-56-cloud-amd64", "6.1.192-2"): "linux-image-6.1.0-56-cloud-amd64-dbg=6.1.192-2",
    ("linux-binary-7.3-amd64=7.3~rc7-1~exp1", "7.3~rc7-1~exp1"): "linux-image-7.3-amd64-dbg=7.3~rc7-1~exp1",
    ("linux-image-6.1.0-56-amd64-unsigned", "6.1.192-2"): "linux-image-6.1.0-56-amd64-dbg=6.1.192-2",
}


def cases_of_packages() -> Iterator[tuple[str, bool]]:
    for name, kept in MEMBERS.items():
        yield name, packages.symbols_member(name) == kept
    for (image, version), symbols in SYMBOLS.items():
        yield image, packages.symbols_of(image, version) == symbols


SMAPS = """7f0000000000-7f0000800000 rw-s 00000000 00:15 77                          /huge/one
Size:               8192 kB
KernelPageSize:     2048 kB
Shared_Hugetlb:        0 kB
Private_Hugetlb:    4096 kB
VmFlags: rd wr sh mr mw me ms de ht
7f0000a00000-7f0000a01000 rw-p 00000000 00:00 0
KernelPageSize:        4 kB
VmFlags: rd wr mr mw me ac
"""


def cases_of_who() -> Iterator[tuple[str, bool]]:
    areas = who.areas_of(SMAPS.splitlines(True))
    yield "the huge area alone", [it["name"] for it in areas] == ["/huge/one"] and areas[0]["Private_Hugetlb"] == 4096
    file = who.File(2048, "one", 4, 2, [(0, 4)])
    yield "what is awaited is bounded", file.bounds() == (2, 2)
    yield "a file that can't be looked at has no most", who.File(2048, "one").bounds() == (0, None)
    said = [who.verdict(it, 2, 4) for it in (-1, 1, 3, 5)]
    yield "the verdicts", ["negative" in said[0], "fewer" in said[1], said[2] == "", "more" in said[3]] == [True] * 4


AUDIT = Audited([("reserve", "1 lost")], -1, 0, 0, [])
# what is changed of a race with a truncation at whose end one reservation is lost, and of its audit, and whether it is known then
RACES = (
    ("one is lost, as the audit says", "mst", (-1, -1), AUDIT, True),
    ("a page outside of the map brings one back", "mst", (-1, 0), replace(AUDIT, unmarked=1), True),
    ("a page outside of the map, and its clause", "mst", (0, 0), replace(AUDIT, findings=[("marked", "..")], has=0, should=1, unmarked=1), True),
    ("a race without truncations", "ms", (-1, -1), AUDIT, False),
    ("one more is lost than the audit says", "mst", (-1, -2), AUDIT, False),
    ("one less is lost than the audit says", "mst", (-1, 0), AUDIT, False),
    ("one is leaked", "mst", (1, 1), replace(AUDIT, has=1), False),
    ("another clause is wrong, too", "mst", (-1, -1), replace(AUDIT, findings=[("reserve", ".."), ("place", "..")]), False),
    ("more is reserved than free", "mst", (5, 0), replace(AUDIT, findings=[("enough", "..")], has=5, should=5), False),
    ("used pages leak", "mst", (0, 0), replace(AUDIT, findings=[("used", "..")], has=0), False),
)


def cases_of_races() -> Iterator[tuple[str, bool]]:
    """What of a race's counts and audits is known, and what is new."""
    known = known_issues()
    for what, kinds, (raced, end), audit, is_known in RACES:
        lines = [f"race 1 9 4 {kinds} = rest | 4 {raced} | 0 0 | 0", f"begin 1 trunc 0 0 = done | 4 {end} | 0 0 | 0"]
        found = wrong_audits([Script("r", "pool 4 1 4 1", lines)], known, [audit])
        yield f"race: {what}", len(found) == 1 and (found[0].known is not None) == is_known
    fine = Script("r", "pool 4 1 4 1", ["race 1 9 4 mst = rest | 4 0 | 0 0 | 0", "begin 1 trunc 0 0 = done | 4 0 | 0 0 | 0"])
    yield "race: right", wrong_audits([fine], known, [replace(AUDIT, findings=[], has=0)]) == []
    yield "race: a finding where the counts look right", [it.known for it in wrong_audits([fine], known, [AUDIT])] == [None]
    twice = Script("r", "pool 4 1 4 1", [fine.lines[0], *fine.lines])
    leaked = [replace(AUDIT, has=1), replace(AUDIT, findings=[], has=0)]
    yield "race: a leak that is gone behind the next race", [it.known for it in wrong_audits([twice], known, leaked)] == [None]
    yield "race: an audit is missing", raises(lambda: wrong_audits([fine], known, []), Problem)
    yield from cases_of_forced(fine, known)
    yield "what is owed is no finding", read(read_of(with_error(count(resv=4), "fault"))).findings == []
    yield "an audit is read", read(read_of(with_error(count(resv=4)))) == Audited([("reserve", ANY)], 4, 5, 0, [])
    giant = healthy()
    giant.pools[0].name = "1048576kB"
    yield "an audit of pages of 1 GiB is read", read(read_of(giant), 1 << 20) == Audited([], 5, 5, 0, [])
    yield "a pool that isn't there is one line", raises(lambda: read(read_of(giant)), Problem)


def cases_of_forced(raced: Script, known: list[Known]) -> Iterator[tuple[str, bool]]:
    """Scripts whose calls are forced: with audits behind races, too, each is judged by its counts and answers."""
    end = "begin 1 trunc 0 0 = done | 4 0 | 0 0 | 0"
    right = Script("f", "pool 4 1 4 2", ["hold region_add 1 store 0 5 = held", "wait 1 = done | 3 0 | 1 1 | 1", end])
    odd = replace(right, lines=[right.lines[0], "wait 1 = noframe | 4 0 | 1 0 | 0", end])
    lost = replace(right, lines=[*right.lines[:2], end.replace("4 0", "4 -1")])
    both = replace(odd, lines=[raced.lines[0].replace("4 0", "4 -1"), *odd.lines[:2], end.replace("4 0", "4 -1")])
    yield "forced: right", wrong_audits([right], known, []) == []
    yield "forced: an answer that no kernel may give", [it.known for it in wrong_audits([odd], known, [])] == [None]
    yield "forced: a wrong count", [it.known for it in wrong_audits([lost], known, [])] == [None]
    yield "forced: an odd answer beside a race that lost one", [it.known for it in wrong_audits([both], known, [AUDIT])] == [None]
    yield "forced: the same without audits", [it.known for it in wrong_counts([both], known)] == [None]


def read_of(state: State, **more: object) -> dict:
    """A state's JSON."""
    return {**json.loads(report.json_text(state, check(state), 0, proved.Compared())), **more}


def raises(act: Callable[[], object], kind: type[BaseException]) -> bool:
    try:
        act()
    except kind as why:
        return "\n" not in str(why)
    return False


class Named:
    """What drgn finds in the memory of a kernel 6.1 by its symbols, of which these are there."""

    def __init__(self, *names: str) -> None:
        self.names = names

    def __getitem__(self, name: str) -> object:
        if name == "init_uts_ns":
            return SimpleNamespace(name=SimpleNamespace(release=SimpleNamespace(string_=lambda: b"6.1")))
        if name not in self.names:
            raise KeyError(name)
        return self


def cases_of_drgn() -> Iterator[tuple[str, bool]]:
    hugetlbfs = ("hugetlbfs_fs_type", "hstates")
    opened.check_symbols(Named(*hugetlbfs), "6.1")
    yield "a kernel without hugetlbfs is one line", raises(lambda: opened.check_symbols(Named(), "6.1"), Problem)
    yield "so is one of another name", raises(lambda: opened.check_symbols(Named(*hugetlbfs), "6.2"), Problem)
    missing = {"drgn": None}
    with patch.dict(sys.modules, missing), patch.dict("os.environ", {"KERNEL_AUDIT_AGAIN": "1"}):
        yield "no drgn is one line", raises(opened.need_drgn, Problem)


def cases_of_guests(room: Path) -> Iterator[tuple[str, bool]]:
    """What audit/live.py takes into a guest is all that an audit imports there."""
    scenes.add_sources(room)
    words = [sys.executable, "-B", "-m", "kernel", "audit", "--core", "none", "--without-symbols"]
    at = room / "kirvessa"
    ran = subprocess.run(words, cwd=at, env={"PATH": "/bin", "PYTHONPATH": str(at / "conformance")}, capture_output=True, text=True, check=False)
    said = "kernel: --without-symbols looks at this machine's /proc and /sys, and not at a dump\n"
    yield "an audit begins in a guest", (ran.returncode, ran.stdout, ran.stderr) == (2, "", said)


def all_cases(room: Path) -> Iterator[tuple[str, bool]]:
    yield from cases_of_checks()
    yield from cases_of_owed()
    yield from cases_of_report()
    yield from cases_of_pictures()
    yield from cases_of_compared()
    yield from cases_of_dumps(room)
    yield from cases_of_symbols(room)
    yield from cases_of_packages()
    yield from cases_of_who()
    yield from cases_of_races()
    yield from cases_of_drgn()
    yield from cases_of_guests(room)


def main() -> int:
    with tempfile.TemporaryDirectory(prefix="audit-") as room:
        found = list(all_cases(Path(room)))
    failed = [what for what, is_right in found if not is_right]
    print("".join(f"  {what}\n" for what in failed), end="")
    print(f"audit: {len(found) - len(failed)} passed, {len(failed)} failed")
    return 1 if failed else 0


if __name__ == "__main__":
    sys.exit(main())
