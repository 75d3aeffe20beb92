#!/usr/bin/env python3
"""Compares `find`, `explore` and `schedule` with `--every` with a search written apart (schedules.py), on small scripts.

usage: every.py [--scripts N] [--seed N] [--states N] [--program PATH]

A few scripts are fixed, and N are random. Each is searched with no denial and no kill, with one denial, and with one
kill. Asked is for each answer that some call may give, some that none gives, final counts, each task that waits, some
phases that meet, counts at answers, pairs of these, alternatives, and what is not to be found. Both have to say the same:
whether a schedule meets them, and in how many events. The trace has to be a schedule of the search, and no random run
that `find` finds may be shorter. Tables of endings have to be the same, with how many schedules end so and the fewest
events; the numbers in answers are left out, since the search knows no words of pages. The trace of each line of a table has
to be a schedule of the search, with that ending and as many events. The status is 1 after a difference.
"""
import argparse
import random
import subprocess
import sys
from collections import Counter
from itertools import product

from compare import tested
from schedules import asked_of, counted_of, ending_at, endings, facts_of, holds, opening, read_script, search, turns, with_answer

# denials and kills
BUDGETS = ((0, 0), (1, 0), (0, 1))
WORDS = ("mapped", "word", "done", "segv", "beyond", "noframe", "nomemory", "interrupted", "killed", "badfile", "badrange")
WORDS += ("notmapped", "noaddress", "noquota")

# a delete that wants memory; begins that are refused; a task that is held up; a call that waits; quota and frames lack both;
# pages beyond the size
FIXED = (
    "pool 5 1 4 1\nbegin 1 map 0 0 3\nbegin 1 store 1 1\nbegin 1 map 0 6 1\nbegin 1 punch 0 1 1\n",
    "pool 4 1 4 1\nbegin 1 map 0 0 2\nbegin 1 load 0\nbegin 1 exit\nbegin 1 load 1\n",
    "pool 2 1 1 2\nbegin 1 map 0 0 1\nbegin 2 map 0 0 1\n",
    "script 2 1 1 2\nbegin 1 map 0 0 1\nafter 1\nbegin 2 trunc 0 0\n",
    "pool 1 1 1 1 1\nbegin 1 map 0 0 2\n",
    "pool 2 1 1 1\nbegin 1 allock 0 0 1\nbegin 1 trunc 0 0\n",
)


def random_call(dice, files):
    file, first, length, page = dice.randrange(files), dice.randint(0, 1), dice.randint(1, 2), dice.randint(0, 2)
    pages = f"{file} {first} {length}"
    return dice.choice((
        *[f"map {pages}"] * 4, f"mapn {pages}", *[f"load {page}"] * 2, *[f"store {page} {dice.randint(1, 2)}"] * 4,
        f"alloc {pages}", f"allock {pages}", f"punch {pages}", f"punch {file} {first} 3", f"trunc {file} {dice.randint(0, 2)}",
        f"unmap {dice.randint(0, 1)}", "exit", f"map {dice.choice((file, 7))} 4095 {length}",
    ))


def random_script(dice):
    tasks, files, waits = dice.choice((2, 2, 2, 3, 3, 4)), dice.choice((1, 1, 2)), dice.random() < 0.3
    quota = f" {dice.randint(1, 4)}" if dice.random() < 0.3 else ""
    lines = [f"{'script' if waits else 'pool'} {dice.randint(1, 4)} {files} {dice.choice((1, 2, 4))} {tasks}{quota}"]
    mapped = set()
    for _ in range(dice.randint(2, {2: 8, 3: 6, 4: 4}[tasks])):
        task = dice.randint(1, tasks)
        if waits and dice.random() < 0.4:
            lines.append(f"after {dice.choice([it for it in range(1, tasks + 1) if it != task])}")
        maps = task not in mapped and dice.random() < 0.6
        mapped.add(task)
        call = f"map {dice.randrange(files)} 0 {dice.randint(2, 3)}" if maps else random_call(dice, files)
        lines.append(f"begin {task} {call}")
    return "\n".join(lines) + "\n"


def value(fact):
    """A fact as the value of its option."""
    match fact:
        case "answer", task, call, word:
            return f"{task}:{call}={word}"
        case "at", answer, count:
            return f"{value(answer)} {count}"
        case "final", count:
            return count
        case "blocked", task:
            return str(task)
        case "meet", (task, phase), (other, second):
            return f"{task}:{phase},{other}:{second}"
        case "not", other:
            return f"not {value(other)}"


def option(alternatives):
    """Alternatives of one kind as an option."""
    kind = alternatives[0][1][0] if alternatives[0][0] == "not" else alternatives[0][0]
    return [f"--{kind}", "|".join(map(value, alternatives))]


def find(program, text, words):
    """The events of the trace that is written, or None."""
    done = subprocess.run([program, "find", *words], input=text, capture_output=True, text=True)
    if done.returncode not in (0, 1) or (done.returncode == 1) != (done.stdout == ""):
        sys.exit(f"{' '.join(words)}: status {done.returncode}\n{done.stderr}{text}")
    return done.stdout.splitlines()[1:] if done.returncode == 0 else None


def meets(script, budget, events, question):
    """The events are turns of one schedule, which meets all of these."""
    place, met, asked = opening(script, *budget), set(), asked_of(question)
    for event in events:
        there = [(following, answer) for line, following, answer in turns(script, place) if line == event]
        if len(there) != 1:
            return False
        ((place, answer),) = there
        met |= facts_of(script, place, answer) | counted_of(script, place, answer, asked)
    return holds(question, met | facts_of(script, place, ends=not list(turns(script, place))))


def options(names, budget, chance=None):
    """An option for each of these that isn't 0."""
    return [word for name, n in zip(names, budget) if n for word in (name, str(chance or n))]


def difference(program, text, budget, question, least):
    """What differs, or None."""
    script = read_script(text)
    words = [word for alternatives in question for word in option(alternatives)]
    events = find(program, text, ["--every", *options(("--denials", "--kills"), budget), *words])
    if (None if events is None else len(events)) != least:
        return f"the search has {least} events, the program {events and len(events)}"
    if events is not None and not meets(script, budget, events, question):
        return "the trace is no schedule that meets them: " + "; ".join(events)
    run = find(program, text, ["--limit", "100", *options(("--deny", "--kill"), budget, 60), *words])
    spent = Counter(line.split()[0] for line in run or ())
    if run is not None and spent["deny"] <= budget[0] and spent["kill"] <= budget[1] and (least is None or len(run) < least):
        return f"a random run has {len(run)} events, the shortest schedule {least}"
    return None


def plain(dice, script, least):
    """What is asked by itself: of what is met somewhere, and of what isn't."""
    calls = [(task + 1, call + 1) for task, queue in enumerate(script.queues) for call in range(len(queue) + 1)]
    answers = [("answer", *call, word) for call, word in product(calls, WORDS)]
    never = [it for it in answers if it not in least]
    met = sorted((it for it in least if it[0] == "answer" and it not in answers), key=str)
    names = ("resv", "free") if script.quota is None else ("resv", "free", "used")
    counts = [("final", f"{name}={n}") for name in names for n in range(script.frames + 2)]
    signs = [("final", count(dice, script)) for _ in range(5)]
    blocked = [("blocked", task) for task in (*range(1, script.tasks + 1), "*")]
    meeting = sorted(it for it in least if it[0] == "meet")
    yield from (it for it in answers if it in least)
    yield from dice.sample(never, k=6)
    yield from (*some(dice, met, 6), *counts, *signs, *blocked, *some(dice, meeting, 3))


def count(dice, script):
    """A count and how it compares."""
    name = dice.choice(("resv", "free", "used", f"reserved:{dice.randrange(script.files)}", f"pages:{dice.randrange(script.files)}"))
    # (no count is below 0)
    return f"{name}{dice.choice(('=', '<=', '>', '>='))}{dice.randrange(script.frames + 2)}"


def some(dice, those, most):
    return dice.sample(those, k=min(most, len(those)))


def questions(dice, script, least):
    """Conditions: one by one, counts at answers, two of them, alternatives, and what is not to be found."""
    ones = list(plain(dice, script, least))
    met = sorted((it for it in ones if it in least), key=str)
    answers = sorted((it for it in least if it[0] == "answer"), key=str)
    counted = [("at", it, count(dice, script)) for it in some(dice, answers, 5)]
    yield from ([(it,)] for it in (*ones, *counted))
    yield from ([(it,) for it in some(dice, met, 2)] for _ in range(5))
    yield from ([tuple(some(dice, [it for it in ones if it[0] == "answer"], 2))] for _ in range(2))
    yield from ([(("not", it),)] for it in some(dice, met, 3))
    yield from ([(("not", it),), (other,)] for it, other in zip(some(dice, met, 3), some(dice, met, 3)))
    # (a denied delete: the store succeeded, and its index stays reserved)
    yield [(("answer", 1, 2, "done"),), (("final", f"resv={script.frames - 1}"),)]


def followed(script, budget, events):
    """The place to which these events lead as turns of one schedule, and the answers on the way; or None."""
    place, ended = opening(script, *budget), ()
    for event in events:
        there = [(following, answer) for line, following, answer in turns(script, place) if line == event]
        if len(there) != 1:
            return None
        ((place, answer),) = there
        ended = with_answer(ended, answer)
    return place, ended


def table(program, text, budget):
    """The lines of the program's table, as endings with the numbers in answers left out: how many schedules end so, and the fewest events."""
    words = ["explore", "--every", *options(("--denials", "--kills"), budget)]
    done = subprocess.run([program, *words], input=text, capture_output=True, text=True)
    head, *lines = done.stdout.splitlines() or [""]
    if done.returncode != 0 or head != f"endings {len(lines)}":
        sys.exit(f"{' '.join(words)}: status {done.returncode}\n{done.stderr}{text}")
    for line in lines:
        counts, *calls = [part.split() for part in line.split(" | ")]
        _, schedules, _, turns_made, _, free, _, resv, _, used = counts
        ending = (tuple((int(task), name, word) for task, name, word, *_ in calls), int(free), int(resv), int(used))
        yield ending, int(schedules), int(turns_made)


def wrong_trace(program, text, budget, rows):
    """What is wrong with the trace of a line, or None: of the first, the last, and the number behind it."""
    script = read_script(text)
    for number in {0, len(rows) - 1, len(rows)}:
        words = ["schedule", "--every", "--run", str(number), *options(("--denials", "--kills"), budget)]
        done = subprocess.run([program, *words], input=text, capture_output=True, text=True)
        if number == len(rows):
            if (done.returncode, done.stdout) != (1, ""):
                return f"{' '.join(words)}: status {done.returncode} behind the last line"
            continue
        events, (ending, _, least) = done.stdout.splitlines()[1:], rows[number]
        there = followed(script, budget, events)
        if done.returncode != 0 or len(events) != least or not there or ending_at(script, *there) != ending:
            return f"{' '.join(words)}: status {done.returncode}, not {ending} in {least} events: {'; '.join(events)}"
    return None


def other_endings(program, text, budget, most):
    """What differs between the tables of endings, or None; and how many there are, None where they are too many to look at."""
    wanted = endings(read_script(text), budget, most)
    if wanted is None:
        return None, None
    rows, found = list(table(program, text, budget)), {}
    for ending, schedules, turns_made in rows:
        before, least = found.get(ending, (0, turns_made))
        found[ending] = (before + schedules, min(least, turns_made))
    if what := wrong_trace(program, text, budget, rows):
        return what, len(wanted)
    differs = [it for it in wanted.keys() | found.keys() if wanted.get(it) != found.get(it)]
    return differs and f"ending {differs[0]}: {wanted.get(differs[0])}, the program {found.get(differs[0])}", len(wanted)


def kind_of(question):
    if len(question) > 1:
        return "two"
    return "one of two" if len(question[0]) > 1 else question[0][0][0]


def compare(program, text, dice, most, asked):
    """The differences on one script. Counts what was asked."""
    script = read_script(text)
    for budget in BUDGETS:
        known = {}
        least, states = search(script, budget, most, known=known)
        if least is None:
            asked["searches left out, too large"] += 1
            continue
        asked["states"] += states
        what, rows = other_endings(program, text, budget, 10 * most)
        asked["endings" if rows else "tables of endings left out, too large"] += rows or 1
        if what:
            yield f"denials and kills {budget}: {what}"
        for question in questions(dice, script, least):
            ((first, *_), *_) = question
            alone = kind_of(question) in ("answer", "final", "blocked", "meet")
            events = least.get(first) if alone else search(script, budget, 100 * most, question, known)[0].get(None)
            asked[f"{kind_of(question)}, {'never' if events is None else 'met'}"] += 1
            if what := difference(program, text, budget, question, events):
                yield f"denials and kills {budget}, {' '.join(word for it in question for word in option(it))}: {what}"


def main():
    parser = argparse.ArgumentParser(description=__doc__.splitlines()[0])
    parser.add_argument("--scripts", type=int, default=75)
    parser.add_argument("--seed", type=int, default=1)
    parser.add_argument("--states", type=int, default=20_000, help="searches of more are left out")
    parser.add_argument("--program", help="by default that of this repository")
    given = parser.parse_args()
    program, asked, differences = given.program or tested(), Counter(), 0
    for seed in range(given.seed - len(FIXED), given.seed + given.scripts):
        dice = random.Random(seed)
        text = random_script(dice) if seed >= given.seed else FIXED[seed - given.seed]
        for what in compare(program, text, dice, given.states, asked):
            differences += 1
            print(f"seed {seed}: {what}\n{text}", flush=True)
    counts = [f"{name}: {n}" for name, n in sorted(asked.items())]
    print(f"scripts {len(FIXED) + given.scripts}", *counts, f"differences {differences}", sep="\n")
    return differences > 0


if __name__ == "__main__":
    sys.exit(main())
