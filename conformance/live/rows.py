"""The machine's rows by their phases and outcomes, and how often recordings make each.

A row is a table's phase and what one step there comes to: `touch.changed: moved abort noframe`. An answer stands beside an outcome where the
step decides it. test_check.py holds this list to what random traces do.
"""
from __future__ import annotations

from collections import Counter
from typing import Iterator

from machine import Call, Outcome

# rows that every operation with such a phase has
REFUSED = ("moved leave nomemory",)
MAKES = {
    "missing": ("moved changed",),
    "taken": ("moved committed", "moved settle"),
    "settle": ("moved committed",),
}
REMOVES = {
    "want": ("moved locked", "blocked"),
    "locked": ("moved unmap", "moved unslot"),
    "unmap": ("moved unmap", "moved evict"),
    "free": ("moved unslot",),
    "leave": ("ended done",),
}
BEGINS = ("ended badfile", "ended badrange", "blocked")
TABLES: dict[str, dict[str, tuple[str, ...]]] = {
    "touch": {
        "look": ("ended segv", "ended word", "ended done", "moved want"),
        "want": ("ended killed", "blocked", "moved locked"),
        "locked": ("moved leave beyond", "moved found", "moved missing"),
        **MAKES,
        "missing": ("moved changed", *REFUSED),
        "changed": ("moved taken", "moved abort noframe", "moved abort noquota", "moved abort killed"),
        "abort": ("moved leave",),
        "committed": ("moved found", "moved restore beyond", "moved restore nomemory"),
        "restore": ("moved leave",),
        "found": ("moved leave beyond", "moved leave nomemory", "moved leave word", "moved leave done"),
        "leave": ("ended beyond", "ended noframe", "ended noquota", "ended killed", "ended nomemory", "ended word", "ended done"),
    },
    "map": {
        "start": (*BEGINS, "ended killed", "moved room"),
        "room": ("moved leave noaddress", *REFUSED, "moved missing", "moved enter"),
        "missing": ("moved changed", *REFUSED),
        "changed": ("moved abort killed", "moved abort noquota", "moved abort noframe", "moved accounted"),
        "abort": ("moved leave",),
        "accounted": ("moved settle", "moved enter"),
        "settle": ("moved enter",),
        "enter": ("moved leave mapped",),
        "leave": ("ended noaddress", "ended nomemory", "ended killed", "ended noquota", "ended noframe", "ended mapped"),
    },
    "alloc": {
        "start": (*BEGINS, "ended interrupted", "moved head"),
        "head": ("moved leave interrupted", "moved want"),
        "want": ("moved leave interrupted", "blocked", "moved locked"),
        "locked": ("moved unslot", "moved missing"),
        **MAKES,
        "missing": ("moved changed", "moved unslot nomemory"),
        "changed": ("moved taken", "moved abort noframe", "moved abort noquota", "moved abort interrupted"),
        "abort": ("moved unslot",),
        "committed": ("moved unslot", "moved restore nomemory"),
        "restore": ("moved unslot",),
        "unslot": ("moved leave", "moved head", "moved leave done", "moved extend"),
        "extend": ("moved leave done",),
        "leave": ("ended interrupted", "ended nomemory", "ended noframe", "ended noquota", "ended done"),
    },
    "punch": {
        "start": (*BEGINS, "ended killed", "moved want"),
        **REMOVES,
        "evict": ("moved delete",),
        "delete": ("moved free", "moved free denied"),
        "unslot": ("moved want", "moved leave done"),
    },
    "truncate": {
        "start": (*BEGINS, "ended killed", "moved size"),
        "size": ("moved want", "moved tail"),
        **REMOVES,
        "evict": ("moved free",),
        "unslot": ("moved want", "moved tail"),
        "tail": ("moved settle",),
        "settle": ("moved leave done",),
    },
    "unmap": {"start": ("ended notmapped", "moved clear"), "clear": ("moved drop",), "drop": ("ended done",)},
    "exit": {"start": ("moved clear", "moved leave"), "clear": ("moved drop",), "drop": ("moved clear", "moved leave"), "leave": ("ended done",)},
}
ROWS = tuple((f"{table}.{phase}", outcome) for table, phases in TABLES.items() for phase, outcomes in phases.items() for outcome in outcomes)
# the one row that no run reaches, which hp_laws proves: docs/LINUX.md, "The row that no run reaches"
UNREACHABLE = (("alloc.taken", "moved settle"), ("alloc.settle", "moved committed"))


def outcome_of(where: str, call: Call, answer: str, outcome: Outcome) -> str:
    """What a step came to, in a row's words. `where` and `answer` are the call's before the step."""
    words = [outcome.kind]
    if outcome.kind != "blocked":
        words.append(outcome.value.split(" ")[0])
    if outcome.kind == "moved" and call.answer != answer:
        words.append(call.answer.split(" ")[0])
    if where == "punch.delete" and call.is_denied:
        words.append("denied")
    return " ".join(words)


def table_of(visited: Counter[tuple[str, str]]) -> Iterator[str]:
    """One line a row, and behind them a summary."""
    for where, outcome in ROWS:
        yield f"{visited[where, outcome]:8} {where}: {outcome}"
    for (where, outcome), number in sorted(visited.items()):
        if (where, outcome) not in ROWS:
            yield f"{number:8} {where}: {outcome}"
    yield f"rows {len(ROWS)}, met {sum(visited[it] > 0 for it in ROWS)}"


def meetings(met: Counter[tuple[str, str]], most: int) -> Iterator[str]:
    """The pairs of phases that met, the most frequent first."""
    for (first, second), number in met.most_common(most):
        yield f"{number:8} {first} meets {second}"
    rest = len(met) - most
    if rest > 0:
        yield f"         and {rest} kinds of pairs more"
