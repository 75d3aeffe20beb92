"""What an audit found, as text and as JSON."""
from __future__ import annotations

import json
from dataclasses import asdict
from typing import Any

from kernel.audit.checks import CLAUSES, Finding, places_in, wrong
from kernel.audit.proved import Compared
from kernel.audit.state import File, Mount, Pool, State, files_of, mounts_of, reserved_in, used_in, who

# so many findings of a clause, and frames that nobody has, are printed
MOST, MOST_FRAMES = 5, 10


def table(rows: list[tuple[Any, ...]]) -> list[str]:
    """Columns of equal width, numbers to the right."""
    text = [[str(it) for it in row] for row in rows]
    widths = [max(len(row[k]) for row in text) for k in range(len(rows[0]))]
    right = [isinstance(it, int) for it in rows[-1]]
    return ["  " + "  ".join(it.rjust(w) if is_right else it.ljust(w) for it, w, is_right in zip(row, widths, right)).rstrip() for row in text]


def mapped_by(file: File) -> str:
    """Who maps a file, how, and how many of the mapped pages have a translation."""
    users = []
    for it in file.mappings:
        kind = "shared" if it.shared else "private"
        without = it.noreserve if it.shared else not it.owner
        special = f"{it.special} special" if it.special else ""
        users.append(" ".join(word for word in (who(it), kind, "norsv" if without else "", f"{len(it.translations)} of {it.pages}", special) if word))
    return "; ".join(users) or "-"


def wrong_by(has: int, should: int) -> str:
    return "" if has == should else f"   <-- wrong by {has - should:+}"


def pool_lines(state: State, pool: Pool) -> list[str]:
    """A pool's counts, its mounts with a limit, and its files, those with the most reserved first."""
    mounts, counts = mounts_of(state, pool), pool.counts
    reserved = reserved_in(mounts)
    lines = [f"pool {pool.name}: {counts['nr']} pages, {counts['surplus']} of them surplus; {counts['free']} free",
             f"  reserve count: the kernel has {counts['resv']}, recomputed {reserved.all}"
             f" ({reserved.files} of files, {reserved.private} of private mappings, {reserved.minimum} of min_size=)"
             + wrong_by(counts["resv"], reserved.all)]
    lines += [f"  node {number}: {it['nr']} pages, {it['surplus']} of them surplus; {it['free']} free" for number, it in pool.nodes.items() if len(pool.nodes) > 1]
    lines += [mount_line(it, pool) for it in mounts if it.subpool]
    rows = [(mount.places[0], file.name, file.size, file.reserved, len(file.cache), file.vacant, sum(it.outstanding for it in file.mappings), mapped_by(file))
            for mount in mounts for file in mount.files]
    rows.sort(key=lambda row: -row[5] - row[6])
    if rows:
        lines += ["", *table([("mount", "file", "size", "reserved", "pages", "awaited", "private", "mapped by (translations of pages)"), *rows])]
    noted = notes(pool, mounts)
    return lines + ([""] if noted else []) + noted


def mount_line(mount: Mount, pool: Pool) -> str:
    it, should = mount.subpool, used_in(mount, pool)
    limits = ", ".join(f"{name}={value}" for name, value in (("size", it.max), ("min_size", it.min)) if value != -1)
    used = f"; used: the kernel has {it.used}, recomputed {should}{wrong_by(it.used, should)}" if it.max != -1 else ""
    return f"  mount {mount.places[0]} ({limits}): {it.rsv if it.min != -1 else 0} reserved{used}"


def notes(pool: Pool, mounts: list[Mount]) -> list[str]:
    """What isn't wrong, and explains where pages and reservations are."""
    lines = []
    for mount in mounts:
        for file in mount.files:
            if file.vacant and not file.mappings:
                lines.append(f"  {file.vacant} reserved pages are of {file.name}, which nobody maps: they are free again after {remedy(mount, file)}")
            if above := [index for index in sorted(file.cache) if index >= file.size]:
                lines.append(f"  {file.name} has pages at {above}, at or above its size of {file.size}")
    places = places_in(pool, mounts)
    loose = [it for it in pool.active.values() if it.pfn not in places]
    lines += [f"  frame {it.pfn:#x} is in use, and no file or process has it: by a call in flight or by who pinned it ({it.references} references"
              f"{', gives its reservation back' if it.gives_back else ''})" for it in loose[:MOST_FRAMES]]
    return lines + ([f"  .. and {len(loose) - MOST_FRAMES} more frames"] if len(loose) > MOST_FRAMES else [])


def remedy(mount: Mount, file: File) -> str:
    """What frees the reservations of a file that nobody maps."""
    if file.name.startswith("SYSV"):
        return f"ipcrm -m {file.number}"
    if mount.places == ["(kernel)"] or file.name.endswith("(deleted)"):
        return "whoever has it open closes it (fuser, or --without-symbols as root, names them)"
    return f"rm or truncate -s 0 of {mount.places[0].rstrip('/')}/{file.name}"


def clause_lines(found: list[Finding]) -> list[str]:
    """Each clause: ok, WRONG with what contradicts it, or what calls in flight may owe."""
    lines = []
    for clause, words in CLAUSES.items():
        its = [it for it in found if it.clause == clause]
        verdict = "WRONG" if wrong(its) else "owed" if its else "ok"
        lines += [f"{verdict:5}  {words}", *(f"         {it.text}{f' ({it.owed})' if it.owed else ''}" for it in its[:MOST])]
        lines += [f"         .. and {len(its) - MOST} more"] if len(its) > MOST else []
    return lines


def rest_lines(state: State) -> list[str]:
    if not state.calls:
        return ["The machine is at rest: no call is seen in flight that could owe something."]
    return ["The machine isn't at rest; each clause is judged by what these calls may owe:", *(f"  {it.who} {it.sign}".replace("   ", "  ") for it in state.calls)]


def text(state: State, found: list[Finding], moved: int = 0) -> str:
    lines = [f"hugetlb of Linux {state.release}"]
    for pool in state.pools:
        if pool.counts["nr"] or pool.counts["resv"] or any(it.files for it in mounts_of(state, pool)):
            lines += ["", *pool_lines(state, pool)]
    lines += ["", *clause_lines(found), "", *rest_lines(state)]
    return "\n".join(lines + ([f"{moved} findings were in one reading and not in another, and are left out."] if moved else []))


def json_text(state: State, found: list[Finding], moved: int, beside: Compared) -> str:
    """All that was read, the findings, for each pool what its counts should be, and how far the proved audit finds the same."""
    recomputed = {pool.name: {**asdict(reserved_in(mounts_of(state, pool))), "all": reserved_in(mounts_of(state, pool)).all} for pool in state.pools}
    data = {"state": asdict(state), "recomputed": recomputed, "findings": [asdict(it) for it in found], "left_out": moved,
            "files": len(files_of(state.mounts)), "compared": asdict(beside)}
    return json.dumps(data, indent=1) + "\n"
