"""Known issues, read from conformance/known/*.toml, and which differences they explain.

A file has one or more rules. A difference is explained only if all that its rule says is so; README.md of that folder lists the keys.
"""
from __future__ import annotations

import re
import tomllib
from dataclasses import dataclass, field
from pathlib import Path
from typing import Any, Callable

import compare
from compare import Pool, Told
from kernel.problem import Problem

FOLDER = Path(__file__).resolve().parent.parent / "known"
TEXTS = ("title", "cause")
# what a file says of its smallest script, unless it has a recording instead
SCRIPT = ("script", "kernel", "machine")
LISTS = ("versions", "functions", "links")
RULES = {
    "difference": {"calls", "fields", "kernel", "machine", "rise", "since", "before", "condition"},
    "end": {"call", "surplus"},
    "translation": {"machine", "kernel", "quota"},
    "race": {"kind", "clauses"},
    "recording": {"rule", "letters", "file"},
}


@dataclass(frozen=True)
class Known:
    """One known issue: what it is in words, and the rules by which a difference is recognized."""

    name: str
    title: str
    versions: list[str]
    # the smallest script, and what kernel and machine answer to its last call; empty where only a recording of a race shows it
    script: str
    kernel: str
    machine: str
    rules: dict[str, list[dict[str, Any]]] = field(default_factory=dict)

    def __str__(self) -> str:
        return self.name

    def was_seen_on(self, version: str) -> bool:
        """Whether it was seen on a kernel of the same numbers: one that is built anew, as 6.18.44-own, is what it was built from."""
        return release(version) in {release(it) for it in self.versions}

    @property
    def recordings(self) -> list[dict[str, Any]]:
        """The recordings of races that show it, each with the letters of the rules (live/check.py) that make it whole."""
        return self.rules.get("recording", [])


@dataclass(frozen=True)
class Seen:
    """A call that differs: what the kernel answered, what the machine answers, and what came before."""

    call: str
    kernel: Told
    machine: Told
    # the machine's answer in its own words, which may be finer than Linux's
    own_answer: str
    version: str
    lines: list[str]
    pool: Pool

    @property
    def kind(self) -> str:
        words = self.call.split()
        return words[2] if words[0] == "begin" else words[0]

    def fields(self) -> list[str]:
        """The fields that differ."""
        kernel, machine = parts_of(self.kernel), parts_of(self.machine)
        return [name for name in kernel if kernel[name] != machine[name]]


def parts_of(told: Told) -> dict[str, str]:
    """The fields of an answer by name, the free frames and the reserve count each for itself."""
    free, reserved = told.counts.split()
    parts = {"answer": told.answer, "free": free, "reserved": reserved, "files": told.files, "entries": told.entries}
    return parts | {"used": told.used.removeprefix("used "), "total": told.total}


def release(version: str) -> tuple[int, ...]:
    """The numbers of a version, for comparing: 6.16 is below 6.16.12, and that below 7.3."""
    found = re.match(r"\d+(\.\d+)*", version)
    return tuple(int(it) for it in found[0].split(".")) if found else ()


def is_cached_above_size(seen: Seen) -> bool:
    """Whether the touch is of a page that is cached at or above the file's size, which the machine's own rows show."""
    return compare.is_known(seen.pool, seen.lines, seen.call, seen.kernel)


CONDITIONS: dict[str, Callable[[Seen], bool]] = {"cached-page-above-size": is_cached_above_size}


def is_in_release(rule: dict[str, Any], version: str) -> bool:
    """Whether a rule is about this kernel; one whose version can't be read is in no range."""
    if "since" not in rule and "before" not in rule:
        return True
    numbers = release(version)
    is_below = "before" not in rule or numbers < release(rule["before"])
    return bool(numbers) and release(rule.get("since", "0")) <= numbers and is_below


def rises(rule: dict[str, Any], seen: Seen) -> bool:
    """Whether each number of the kernel is above the machine's by as much as the rule allows; `length` is the call's pages."""
    kernel, machine = parts_of(seen.kernel), parts_of(seen.machine)
    for name, (least, most) in rule.get("rise", {}).items():
        top = int(seen.call.split()[-1]) if most == "length" else most
        if not (kernel[name].isdecimal() and machine[name].isdecimal() and least <= int(kernel[name]) - int(machine[name]) <= top):
            return False
    return True


def explains(rule: dict[str, Any], seen: Seen) -> bool:
    """Whether a rule is about this very difference."""
    return (
        seen.kind in rule["calls"]
        and seen.fields() == rule["fields"]
        and re.fullmatch(rule["kernel"], seen.kernel.answer) is not None
        and re.fullmatch(rule["machine"], seen.own_answer) is not None
        and is_in_release(rule, seen.version)
        and rises(rule, seen)
        and ("condition" not in rule or CONDITIONS[rule["condition"]](seen))
    )


def matching(known: list[Known], seen: Seen) -> Known | None:
    """The known issue that explains a difference."""
    return next((it for it in known if any(explains(rule, seen) for rule in it.rules.get("difference", []))), None)


def end_before(known: list[Known], call: str) -> Known | None:
    """The known issue because of which a script is compared only up to this call."""
    return next((it for it in known if any(rule.get("call") == call for rule in it.rules.get("end", []))), None)


def ends_behind(known: list[Known], surplus: int) -> Known | None:
    """The known issue because of which nothing is compared behind a call that leaves a surplus."""
    return next((it for it in known if surplus and any(rule.get("surplus") for rule in it.rules.get("end", []))), None)


def translated(known: list[Known], answer: str, has_quota: bool) -> str:
    """An answer of the machine in Linux's words."""
    rules = (rule for it in known for rule in it.rules.get("translation", []))
    return next((rule["kernel"] for rule in rules if rule["machine"] == answer and rule["quota"] == has_quota), answer)


def race_rule(known: list[Known], kinds: str, clauses: frozenset[str] = frozenset()) -> Known | None:
    """The known issue because of which a race with these kinds of calls may end with wrong counts, and with findings of these clauses."""
    return next((it for it in known for rule in it.rules.get("race", []) if rule["kind"] in kinds and clauses <= set(rule["clauses"])), None)


def faults(told: dict[str, Any]) -> list[str]:
    """What a file of a known issue lacks or has too much of."""
    texts = TEXTS if told.get("recording") and not any(key in told for key in SCRIPT) else (*TEXTS, *SCRIPT)
    found = [f"{key} has to be a text" for key in texts if not isinstance(told.get(key), str)]
    found += [f"{key} has to be a list" for key in LISTS if not isinstance(told.get(key), list)]
    found += [f"{key} is no key" for key in told if key not in (*TEXTS, *SCRIPT, *LISTS, *RULES)]
    kinds = [(kind, rule) for kind in RULES for rule in told.get(kind, [])]
    found += [] if kinds else ["there is no rule"]
    found += [f"{key} is no key of a rule '{kind}'" for kind, rule in kinds for key in rule if key not in RULES[kind]]
    least = {"difference": {"calls", "fields", "kernel", "machine"}, "translation": RULES["translation"], "race": {"kind", "clauses"}, "recording": RULES["recording"]}
    return found + [f"a rule '{kind}' has no {key}" for kind, rule in kinds for key in sorted(least.get(kind, set()) - set(rule))]


def read_known(path: Path) -> Known:
    try:
        told = tomllib.loads(path.read_text(encoding="utf-8"))
    except (OSError, UnicodeDecodeError, tomllib.TOMLDecodeError) as why:
        raise Problem(f"{path}: {why}") from why
    if wrong := faults(told):
        raise Problem(f"{path}: {'; '.join(wrong)}")
    texts = [told.get(key, "").strip() for key in SCRIPT]
    return Known(path.stem, told["title"], told["versions"], *texts, {kind: told[kind] for kind in RULES if kind in told})


def known_issues(folder: Path = FOLDER, without: tuple[str, ...] = ()) -> list[Known]:
    """The known issues of a folder, but those named."""
    found = [read_known(path) for path in sorted(folder.glob("*.toml"))]
    if missing := sorted(set(without) - {it.name for it in found}):
        raise Problem(f"there is no known issue {missing[0]}: there are {', '.join(it.name for it in found)}")
    return [it for it in found if it.name not in without]
