"""What a test showed, as text, as JSON and as JUnit's XML."""
from __future__ import annotations

import json
from collections import Counter
from pathlib import Path
from textwrap import wrap
from xml.etree import ElementTree

from compare import Told
from kernel.differences import Difference
from kernel.known import Known
from kernel.peers import Broken, Cause, grouped
from kernel.problem import Problem
from kernel.suites import NOWHERE, lacks
from kernel.testing import Stopped, Tested, WrongCount

HEADS = ("suite", "scripts", "calls", "agree", "as recorded", "not compared", "differ", "known rule", "new", "seconds")
RACE_HEADS = ("races", "audited", "scripts", "right", "known rule", "new", "races of all", "calls of a task", "as written", "seconds")
FORCED_HEADS = ("forced", "scripts", "as asked", "right", "new", "seconds")
COVERED = ("suite", "calls", "new", "known")
LEGEND = (
    "as recorded: calls from the first difference, byte call or end of a known rule on that are as 6.1.192 answered; differ: scripts,",
    "each known or new; not compared: other calls behind these, or calls that overlap;",
    "known rule: scripts that end at one, with a difference or without",
)
RACE_LEGEND = (
    "right: scripts whose counts are right at rest, and whose audits, if there are some, find nothing; no more is compared; calls of a",
    "task: in each race, at most; as written: in the scripts. How a race ends is by chance, and one with fewer calls shows less.",
)
FORCED_LEGEND = (
    "as asked: scripts in which a call came to where it is held, or might be denied memory, which takes a kernel built for that; right:",
    "scripts with right counts at rest, and no call that found an ample pool empty.",
)
WIDTH = 120
# so many new differences are printed in full, and so many spoiled calls of each
MOST, SPOILED = 20, 5


def row(it: Tested) -> tuple[str, ...]:
    calls = (it.calls, it.agreed, it.as_recorded, it.calls - it.agreed - it.as_recorded)
    return (it.name, *map(str, (len(it.results), *calls, it.differ, it.known, it.new)), f"{it.seconds:.0f}")


def total(all_of_them: list[Tested]) -> Tested:
    """All suites as one."""
    results, wrong = [it for one in all_of_them for it in one.results], [it for one in all_of_them for it in one.wrong]
    stopped, left = [it for one in all_of_them for it in one.stopped], sum(it.left for it in all_of_them)
    return Tested("all", all_of_them[0].version, results, wrong, sum(it.seconds for it in all_of_them), stopped=stopped, left=left)


def race_row(it: Tested) -> tuple[str, ...]:
    """A suite of races in numbers: of its calls only the counts at rest are compared."""
    audited = "no" if it.audits is None else it.audits
    numbers = (audited, len(it.results), len(it.results) - len(it.wrong), it.known, it.new, it.rounds.races, it.rounds.calls, it.rounds.written)
    return (it.name, *map(str, numbers), f"{it.seconds:.0f}")


def forced_row(it: Tested) -> tuple[str, ...]:
    """A suite whose calls are held or denied memory, in numbers."""
    return (it.name, *map(str, (len(it.results), it.forced, len(it.results) - len(it.wrong), it.new)), f"{it.seconds:.0f}")


def table(all_of_them: list[Tested]) -> list[str]:
    """A line for each suite whose calls are compared, and one for all of these."""
    return aligned([HEADS, *map(row, all_of_them)] + ([row(total(all_of_them))] if len(all_of_them) > 1 else []))


def tables(all_of_them: list[Tested]) -> list[str]:
    """The suites whose calls are compared, then those whose calls are forced, then those of races."""
    calls = [it for it in all_of_them if it.rounds is None]
    held = [it for it in all_of_them if it.forced is not None]
    raced = [it for it in all_of_them if it.rounds is not None and it.forced is None]
    parts = [[*table(calls), *LEGEND]] if calls else []
    parts += [[*aligned([FORCED_HEADS, *map(forced_row, held)]), *FORCED_LEGEND]] if held else []
    parts += [[*aligned([RACE_HEADS, *map(race_row, raced)]), *RACE_LEGEND]] if raced else []
    return [line for part in parts for line in (*part, "")][:-1]


def aligned(rows: list[tuple[str, ...]]) -> list[str]:
    widths = [max(len(cells[k]) for cells in rows) for k in range(len(rows[0]))]
    return ["  ".join([cells[0].ljust(widths[0]), *(it.rjust(width) for it, width in zip(cells[1:], widths[1:]))]) for cells in rows]


def answer_text(told: Told) -> str:
    """An answer as a script spells it."""
    total = f"total {told.total}" if told.total else ""
    return " | ".join(it for it in (told.answer, told.counts, told.files, told.entries, told.used, total) if it)


def script_text(it: Difference) -> list[str]:
    return [f"script {it.script.name}", it.script.header, *it.script.lines, "end"]


def spoiled_text(it: Difference) -> str:
    """The later calls that differ too."""
    if not it.spoiled:
        return "no later call of the script"
    more = f", and {len(it.spoiled) - SPOILED} more" if len(it.spoiled) > SPOILED else ""
    return ", ".join(f"{number} ({call.removeprefix('begin ')})" for number, call in it.spoiled[:SPOILED]) + more


def answers_of(it: Difference) -> tuple[str, str]:
    """The kernel's answer, and the one that it differs from."""
    return it.answers or (answer_text(it.seen.kernel), answer_text(it.seen.machine))


def difference_text(it: Difference) -> list[str]:
    """A new difference: where, in which fields, both answers, what it spoils, and its script."""
    seen, (kernel, other) = it.seen, answers_of(it)
    return [
        f"{it.script.name}, call {it.number}: {seen.call}: {', '.join(seen.fields())}",
        f"  kernel:  {kernel}",
        f"  {it.other}: {other}",
        f"  spoils:  {spoiled_text(it)}",
        *(f"    {line}" for line in script_text(it)),
    ]


def stopped_text(suite: str, it: Stopped) -> list[str]:
    """What ended a suite: what the kernel did, the call in flight, the lines that say it, and the script up to there."""
    script = [f"script {it.script.name}", it.script.header, *it.script.lines, "end"] if it.script else []
    name = f"{it.script.name}, call {len(it.script.lines)}: " if it.script else ""
    return [
        f"{it.ended.kind}: {it.ended.what}",
        f"  in flight: suite {suite}, {name}{it.call}",
        *(f"  | {line}" for line in it.ended.lines),
        *(f"    {line}" for line in script),
    ]


def new_differences(all_of_them: list[Tested]) -> list[Difference]:
    """The new differences, those with the fewest calls first."""
    found = [it.difference for one in all_of_them for it in one.results if it.difference and it.difference.known is None]
    return sorted(found, key=lambda it: (it.number, it.script.name))


def new_wrong_counts(all_of_them: list[Tested]) -> list[WrongCount]:
    return [it for one in all_of_them for it in one.wrong if it.known is None]


def new_broken(all_of_them: list[Tested]) -> list[Broken]:
    """The assertions of peers that don't hold."""
    return [it.broken for one in all_of_them for result in one.results for it in result.broken if it.known is None]


def new_causes(all_of_them: list[Tested]) -> frozenset[Cause]:
    """The causes by which peers' assertions are broken, each of which is told once."""
    return frozenset(it.cause for it in grouped(new_broken(all_of_them)))


def known_of(all_of_them: list[Tested]) -> list[tuple[Known, int]]:
    """The known issues that were seen, each with the number of scripts."""
    results = (it for one in all_of_them for it in one.results)
    found = [it.ended or (it.difference and it.difference.known) for it in results] + [it.known for one in all_of_them for it in one.wrong]
    counts = Counter(it.name for it in found if it)
    return [(next(it for it in found if it and it.name == name), count) for name, count in sorted(counts.items())]


def out_of_time(all_of_them: list[Tested]) -> list[str]:
    """The scripts that show nothing, since each time that they were made a hold ended before the other call had ended or waited."""
    found = [f"  {it.name}: {name}" for it in all_of_them for name in it.ran_out]
    return ["not judged, since their holds ran out at each try:", *found, ""] if found else []


def known_text(known: Known, count: int, version: str) -> str:
    """A known issue that was seen, and whether it was seen on this version before."""
    first = "" if known.was_seen_on(version) or not version else f" (not yet listed for {version})"
    return f"  {known.name}: {count} script{'s' if count > 1 else ''}: {known.title}{first}"


def text(all_of_them: list[Tested], basis: str, is_told: bool = False) -> str:
    """The whole report; what is new stands in it in full unless it was printed before."""
    version = all_of_them[0].version
    lines = [f"kernel {version}; the machine's answers: {basis}", "", *tables(all_of_them), ""]
    if known := known_of(all_of_them):
        lines += ["known:", *(known_text(it, count, version) for it, count in known), ""]
    lines += out_of_time(all_of_them)
    lines += brief_news(all_of_them) if is_told else news(all_of_them)
    return "\n".join([*lines, *covered(all_of_them)])


def covered(all_of_them: list[Tested]) -> list[str]:
    """The last table: what each suite found, and what it doesn't cover; then what none of them does."""
    rows = [(it.name, str(it.made), str(it.new), str(it.known), lacks(it.name, it.rounds is not None), it.left) for it in all_of_them]
    numbers = aligned([COVERED, *(row[:4] for row in rows)])
    texts = ["not covered", *(f"{text}; the last {left} scripts, which were not made" if left else text for *_, text, left in rows)]
    return [*(f"{row}  {text}" for row, text in zip(numbers, texts)), *wrap(f"covered by no suite: {NOWHERE}", WIDTH), ""]


def wrong_text(it: WrongCount) -> list[str]:
    """A script of races that leaves a wrong count: what is right, what was found and behind which call, and the script."""
    lines = [f"{it.name}: wrong {'counts' if it.first else 'answers'} that no known issue explains: {it.rests if it.first else ''}".rstrip(": ")]
    if it.first:
        lines += [f"  expected: {it.first.expected}", f"  found:    {it.first.found.free} free, {it.first.found.resv} reserved"]
        lines += [f"  behind:   call {it.first.number}: {it.first.call}"]
    lines += [f"  {text}" for text in it.findings]
    return [*lines, *(f"    {line}" for line in (f"script {it.name}", it.script.header, *it.script.lines, "end"))] if it.script else lines


def news(all_of_them: list[Tested], told: frozenset[Cause] = frozenset()) -> list[str]:
    """All that no known issue explains, in full, but peers' assertions that are broken by a cause told before."""
    lines, new = [], new_differences(all_of_them)
    for suite, it in ((one.name, it) for one in all_of_them for it in one.stopped):
        lines += ["new:", *stopped_text(suite, it), ""]
    for it in new_wrong_counts(all_of_them):
        lines += ["new:", *wrong_text(it), ""]
    lines += [f"new: {it}" for it in grouped(new_broken(all_of_them)) if it.cause not in told]
    for it in new[:MOST]:
        lines += ["new:", *difference_text(it), ""]
    return lines + ([f"{len(new) - MOST} more new differences: --json FILE has them all", ""] if len(new) > MOST else [])


def brief_news(all_of_them: list[Tested]) -> list[str]:
    """The same in a line each, where it was printed in full before."""
    lines = [f"  suite {one.name}: {it.ended.kind}: {it.ended.what}" for one in all_of_them for it in one.stopped]
    lines += [f"  {it.name}: wrong counts" for it in new_wrong_counts(all_of_them)]
    lines += [f"  {it}" for it in grouped(new_broken(all_of_them))]
    lines += [f"  {it.script.name}, call {it.number}: {it.seen.call}: {', '.join(it.seen.fields())}" for it in new_differences(all_of_them)]
    more = [f"  {len(lines) - MOST} more: --json FILE has them all"] if len(lines) > MOST else []
    return ["new, printed in full above:", *lines[:MOST], *more, ""] if lines else []


def difference_data(it: Difference) -> dict[str, object]:
    return {
        "script": "\n".join(script_text(it)), "call": it.seen.call, "number": it.number, "fields": it.seen.fields(),
        "kernel": answers_of(it)[0], it.other: answers_of(it)[1], "known": it.known and it.known.name,
        "spoiled": [{"number": number, "call": call} for number, call in it.spoiled],
    }  # fmt: skip


def stopped_data(it: Stopped) -> dict[str, object]:
    script = it.script and "\n".join([f"script {it.script.name}", it.script.header, *it.script.lines, "end"])
    return {"kind": it.ended.kind, "what": it.ended.what, "call": it.call, "script": script, "console": list(it.ended.lines)}


def suite_data(it: Tested) -> dict[str, object]:
    differences = [difference_data(one.difference) for one in it.results if one.difference]
    counts = [{"script": one.name, "rests": one.rests, "known": one.known and one.known.name, "findings": list(one.findings)} for one in it.wrong]
    broken = [{"script": one.broken.script, "assertion": str(one.broken), "known": one.known and one.known.name} for result in it.results for one in result.broken]
    raced = {"races": it.rounds.races, "race_calls": it.rounds.calls, "race_calls_written": it.rounds.written, "audits": it.audits} if it.rounds else {}
    return raced | {
        "suite": it.name, "scripts": len(it.results), "calls": it.calls, "agree": it.agreed, "as_recorded": it.as_recorded, "differ": it.differ, "known": it.known,
        "new": it.new, "seconds": round(it.seconds, 1), "differences": differences, "wrong_counts": counts,
        "broken_assertions": broken, "ran_out": list(it.ran_out), "stopped": [stopped_data(one) for one in it.stopped], "not_made": it.left,
    }  # fmt: skip


def json_text(all_of_them: list[Tested], basis: str) -> str:
    told = {"kernel": all_of_them[0].version, "machine": basis, "suites": [suite_data(it) for it in all_of_them]}
    return json.dumps(told, indent=2) + "\n"


def junit_text(all_of_them: list[Tested]) -> str:
    """A test case for each script; one with a new difference is a failure."""
    top = ElementTree.Element("testsuites")
    for suite in all_of_them:
        counts = {it.name: it for it in suite.wrong if it.known is None}
        broken = {it.script: it for it in reversed(new_broken([suite]))}
        numbers = {"tests": str(len(suite.results) + len(suite.stopped)), "failures": str(suite.new), "time": f"{suite.seconds:.1f}"}
        node = ElementTree.SubElement(top, "testsuite", {"name": suite.name, **numbers})
        for it in suite.results:
            case = ElementTree.SubElement(node, "testcase", classname=suite.name, name=it.name)
            if it.difference and it.difference.known is None:
                ElementTree.SubElement(case, "failure", message=it.difference.seen.call).text = "\n".join(difference_text(it.difference))
            elif it.name in counts:
                ElementTree.SubElement(case, "failure", message="wrong counts at rest").text = counts[it.name].rests
            elif it.name in broken:
                ElementTree.SubElement(case, "failure", message="an assertion of a peer doesn't hold").text = str(broken[it.name])
            elif it.name in suite.ran_out:
                ElementTree.SubElement(case, "skipped", message="its hold ran out")
        for one in suite.stopped:
            case = ElementTree.SubElement(node, "testcase", classname=suite.name, name=one.script.name if one.script else "the end")
            ElementTree.SubElement(case, "failure", message=one.ended.what).text = "\n".join(stopped_text(suite.name, one))
    return ElementTree.tostring(top, encoding="unicode", xml_declaration=True) + "\n"


def write(path: str | None, content: str) -> None:
    """Writes a file whole, or not at all."""
    if path is None:
        return
    to = Path(path)
    part = to.with_name(f".{to.name}.part")
    try:
        part.write_text(content, encoding="utf-8")
        part.rename(to)
    except OSError as why:
        part.unlink(missing_ok=True)
        raise Problem(f"{path}: {why.strerror}") from why
