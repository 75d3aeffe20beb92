"""Adds up tables of `explore --summary` of runs that follow each other, which stand one behind the other on standard input, and writes
the table of all of them. Its words are the seed of the first run, and a file with the turns of each run, a line each.

Ways to end beyond the first 256 that were seen count as others, as in one table. Which these are isn't known where a table has others
itself: then it is refused.
"""
import re
import sys
from collections import Counter
from graphlib import TopologicalSorter
from itertools import pairwise
from pathlib import Path

MOST = 256
RUNS = re.compile(r"runs (\d+) finished (\d+) limit (\d+)")
ENDING = re.compile(r"ending (\d+) run (\d+) seed (\d+) (\|.*)")
HELD_UP = re.compile(r"held-up (any|\d+) (\d+)")
MET = re.compile(r"met (\w+) (\w+) (\d+)")


def in_order(tables: list[list[tuple[str, str]]]) -> list[tuple[str, str]]:
    """The pairs of phases that met, in the order of the table of phases. Each table shows some of it: it goes up from line to line, and in a
    line from the one phase to the other."""
    order = TopologicalSorter()
    for met in tables:
        for one, other in met:
            order.add(other, *({one} - {other}))
        for (one, other), (next_one, next_other) in pairwise(met):
            order.add(*((next_other, other) if one == next_one else (next_one, one)))
    places = {phase: place for place, phase in enumerate(order.static_order())}
    return sorted({it for met in tables for it in met}, key=lambda it: (places[it[0]], places[it[1]]))


def main(seed: int, turns: list[int]) -> None:
    whole, held_up, met, endings, first, tables = Counter(), Counter(), Counter(), {}, 0, []
    for line in sys.stdin.read().splitlines():
        if found := RUNS.fullmatch(line):
            # (the runs of a table are counted from 0 on)
            first = whole["runs"]
            tables.append([])
            whole += Counter(dict(zip(("runs", "finished", "limit"), map(int, found.groups()))))
        elif found := HELD_UP.fullmatch(line):
            held_up[found[1]] += int(found[2])
        elif found := MET.fullmatch(line):
            tables[-1].append(found.groups()[:2])
            met[found.groups()[:2]] += int(found[3])
        elif found := ENDING.fullmatch(line):
            was, run = endings.get(found[4], (0, first + int(found[2])))
            endings[found[4]] = was + int(found[1]), run
        elif not line.startswith("turns "):
            sys.exit(f"summaries: this can't be added: {line}")
    turns.sort()
    print(f"runs {whole['runs']} finished {whole['finished']} limit {whole['limit']}")
    print(f"turns least {turns[0]} median {turns[(len(turns) - 1) // 2]} most {turns[-1]}")
    for task in sorted(held_up, key=lambda it: -1 if it == "any" else int(it)):
        print(f"held-up {task} {held_up[task]}")
    for one, other in in_order(tables):
        print(f"met {one} {other} {met[one, other]}")
    seen = sorted(endings.items(), key=lambda it: it[1][1])
    for answers, (runs, run) in sorted(seen[:MOST], key=lambda it: (-it[1][0], it[1][1])):
        print(f"ending {runs} run {run} seed {(seed + run) % 2**64} {answers}")
    if others := sum(runs for _, (runs, _) in seen[MOST:]):
        print(f"ending {others} other")


if __name__ == "__main__":
    main(int(sys.argv[1]), [int(it) for it in Path(sys.argv[2]).read_text(encoding="utf-8").split()])
