#!/usr/bin/env python3
"""What no one output shows: that lines come as they are told, at terminals too, and that a picture holds all that is drawn.

A socket that keeps messages apart stands for the output, so that each write of the program is seen by itself. A replay tells what came
of the lines that it has, while more may come. The most runs and races that may be asked for are made, and runs in shards
(bench/explore-many.sh, with a stand-in for GNU parallel) are those of one exploration, as is the sum of their tables. Outcomes are coloured
at a terminal, and nowhere else unless that is asked for. `hugepool step` reads and writes files, and asks for lines at a terminal. And what
is said of each wrong field of a line is held to what is to be said (reasons.py).
"""
from __future__ import annotations

import contextlib
import os
import pty
import re
import socket
import subprocess
import sys
import tempfile
import termios
from itertools import pairwise
from pathlib import Path
from typing import Iterator

import reasons
from programs import TOP, example, is_proved, report, run, tested

BOX = re.compile(r"<rect class='([^']*)' x='(\d+)' y='(\d+)' width='(\d+)' height='(\d+)'/>")
NUMBER = re.compile(r"<text class='at' x='(\d+)' y='\d+'>(\d+)</text>")
# what begins and ends a colour
COLOUR = re.compile(r"\x1b\[[0-9]*m")
# how wide a letter is
LETTER = 6
# a picture of few events is no wider than this, and one of very many has two places for each; and what stands beside the events
WIDE, BESIDE = 28_000, 112
EMPTY = "pool 1 1 1 1\n"
# a run of these calls has so many turns that behind 1,024 of them the next part has no more, in a pool of 4 tasks: each has two
CALLS = "begin 1 load 0\n" * 3_907
# what `step` is told, and says: a truncation takes the file's lock, and a second one is blocked by the first (docs/MACHINE.md)
POOL = "pool 4 1 4 2\n"
SHORT = POOL + "begin 1 trunc 0 0\n"
LONG = SHORT + "step 1\n"
UNSAVED = "the events so far are in no file: save FILE keeps them, the line again drops them\n"


def output(words: str, read: str) -> str:
    ran = run(tested(), words, read)
    return ran.out if ran.status == 0 else f"status {ran.status}: {ran.err}"


def writes(words: str, read: str) -> list[int]:
    """How many lines each write of the program has."""
    ours, its = socket.socketpair(socket.AF_UNIX, socket.SOCK_SEQPACKET)
    with ours, subprocess.Popen(["hugepool", *words.split()], executable=tested(), stdin=subprocess.PIPE, stdout=its) as ran:
        its.close()
        ran.stdin.write(read.encode())
        ran.stdin.close()
        return [piece.count(b"\n") for piece in iter(lambda: ours.recv(1 << 20), b"")]


def is_told_so_far(read: str, enough: int) -> bool:
    """Whether a replay writes so many bytes of these lines while more may come, which is for five minutes."""
    with tempfile.TemporaryFile() as lines:
        lines.write(read.encode())
        lines.seek(0)
        feeds = subprocess.Popen(["sh", "-c", "cat; exec sleep 300"], stdin=lines, stdout=subprocess.PIPE)
        replays = subprocess.Popen(["hugepool", "replay"], executable=tested(), stdin=feeds.stdout, stdout=subprocess.PIPE)
        with feeds, replays:
            told, may_come = len(replays.stdout.read(enough)), feeds.poll() is None
            feeds.terminate()
    return told == enough and may_come


# does one after the other what GNU parallel does at once
PARALLEL = """#!/bin/bash
[ "$1,$2,$3" = "--keep-order,--colsep, " ] || exit 9
shift 3
while read -r one two; do line=${*//'{1}'/$one}; bash -c "${line//'{2}'/$two}" < /dev/null || exit 8; done
"""


def in_shards(*words: str) -> str:
    """What bench/explore-many.sh writes."""
    with tempfile.TemporaryDirectory(prefix="parallel-") as name:
        stand_in = Path(name) / "parallel"
        stand_in.write_text(PARALLEL, encoding="utf-8")
        stand_in.chmod(0o755)
        own = {**os.environ, "PATH": f"{name}:{os.environ['PATH']}", "HUGEPOOL": "now"}
        how = {"stdin": subprocess.DEVNULL, "stdout": subprocess.PIPE, "text": True, "env": own}
        return subprocess.run([TOP / "bench" / "explore-many.sh", *words], **how).stdout


def at_terminal(streams: tuple[str, ...], words: str, read: str, folder: str = ".", **variables: str) -> tuple[str, str]:
    """What a terminal gets that is these streams of the program, and what the others have. (It doesn't show what is typed.)"""
    ours, theirs = pty.openpty()
    quiet = termios.tcgetattr(theirs)
    quiet[1] &= ~termios.OPOST
    quiet[3] &= ~termios.ECHO
    termios.tcsetattr(theirs, termios.TCSANOW, quiet)
    own = {name: value for name, value in os.environ.items() if name != "NO_COLOR"} | {"TERM": "xterm"} | variables
    with tempfile.TemporaryFile() as given, tempfile.TemporaryFile() as rest:
        given.write(read.encode())
        given.seek(0)
        how = {"stdin": given, "stdout": rest, "stderr": rest} | dict.fromkeys(streams, theirs)
        with subprocess.Popen(["hugepool", *words.split()], executable=tested(), cwd=folder, env=own, **how):
            os.close(theirs)
            os.write(ours, read.encode() if "stdin" in streams else b"")
            shown = b""
            with contextlib.suppress(OSError):  # (the program has closed its end)
                while piece := os.read(ours, 65_536):
                    shown += piece
        os.close(ours)
        rest.seek(0)
        return shown.decode(), rest.read().decode()


def colours() -> Iterator[tuple[str, bool]]:
    """When words are coloured. (Which words are, and by what the environment forbids it, is proved, and rows have some.)"""
    trace = example("calls-in-flight.trace")
    shown = lambda words, **variables: at_terminal(("stdout",), words, trace, **variables)[0]
    for command in ("replay", "explain", "explain --compact"):
        plain, coloured = output(command, trace), output(f"{command} --color always", trace)
        yield f"{command} in colours says the same", COLOUR.sub("", coloured) == plain != coloured
        yield f"{command} is coloured at a terminal", shown(command) == shown(command, NO_COLOR="") == coloured
        for name, value in (("NO_COLOR", "1"), ("NO_COLOR", "0"), ("TERM", "dumb")):
            yield f"but not with {name}={value}", shown(command, **{name: value}) == plain
        yield "nor if that is asked for", shown(f"{command} --color never") == plain
        yield "and everywhere if that is asked for", shown(f"{command} --color always", NO_COLOR="1", TERM="dumb") == coloured
    for command in ("race --help", "replay --json", "explain --json", "draw", "check"):
        yield f"{command} isn't coloured", shown(command) == output(command, trace)


def progress(words: str, read: str, last: str, line: str) -> list[int]:
    """The numbers in the lines by which a search says at a terminal how far it is, each in place of the one before. There are none where it
    doesn't erase the last, or says something of it anywhere else."""
    shown, out = at_terminal(("stderr",), words, read)
    alone = run(tested(), words, read)
    is_right = re.fullmatch(rf"(\r\x1b\[Khugepool: {line})+\r\x1b\[K{re.escape(last)}", shown) and (alone.out, alone.err) == (out, last)
    return [*map(int, re.findall(r"hugepool: (\d+)", shown.removesuffix(last)))] if is_right else []


def steps(folder: Path) -> Iterator[tuple[str, bool]]:
    """What `hugepool step` does with files, and at a terminal; examples/commands/step.toml has the rest."""
    one, two = folder / "one.trace", folder / "two.trace"
    stepped = lambda words, lines: run(tested(), f"step {words}", lines, cwd=folder).out.splitlines()
    told = stepped("", SHORT + "save\nsave one.trace\nstep 1\nsave\nload one.trace\nundo\nsave two.trace\nload none\n")
    wanted = [POOL.strip(), "begun", "there is no file yet: save FILE", "saved: one.trace", "moved size", "saved: one.trace"]
    wanted += ["loaded: one.trace, events 2", "undone: step 1", "saved: two.trace", "none: No such file or directory (os error 2)"]
    yield "files are written, and read again", told == wanted
    yield "each has the events so far", [it.read_text() if it.exists() else "" for it in (one, two)] == [LONG, SHORT]
    two.write_text(SHORT.strip() + "  # the lock\r\nstep 1 *x\n")
    told = stepped("", "load two.trace\nstep 1\n")
    yield "of a wrong line of a file nothing is loaded", told[0] == "two.trace: line 3 is not an event" and "pool first" in told[1]
    two.write_text(SHORT.strip())
    told = stepped("two.trace", "step 1\nsave\n")
    yield "a file's lines come first, and save writes it", told == [POOL.strip(), "begun", "moved size", "saved: two.trace"]
    yield "with the events behind it", two.read_text() == LONG
    ran = run(tested(), "step none.trace", "", cwd=folder)
    yield "a file that isn't there", (ran.status, ran.err) == (1, "hugepool: none.trace: No such file or directory (os error 2)\n")

    typed = lambda words, lines: at_terminal(("stdin", "stdout"), f"step --color never {words}", lines, str(folder))[0]
    told = typed("", LONG + "begin 2 trunc 0 0\npool 1 1 1 1\nundo\npool 1 1 1 1\npool 2 1 1 1\nquit\n")
    wanted = ["> ", f"{POOL}free 4 resv 0 calls 0> ", "begun\nfree 4 resv 0 calls 1> ", "moved size\nfree 4 resv 0 calls 1> "]
    wanted += ["begun\nfree 4 resv 0 calls 2, 2 waits for 1> ", f"{UNSAVED}free 4 resv 0 calls 2, 2 waits for 1> "]
    wanted += ["undone: begin 2 trunc 0 0\nfree 4 resv 0 calls 1> ", f"{UNSAVED}free 4 resv 0 calls 1> "]
    wanted += ["pool 2 1 1 1\nfree 2 resv 0 calls 0> "]
    yield "lines are asked for by the counts and the waits, and events aren't dropped at once", told == "".join(wanted)
    wanted = [f"{POOL}begun\nmoved size\nfree 4 resv 0 calls 1> ", "moved tail\nfree 4 resv 0 calls 1> "]
    yield "behind a file's lines the next is asked for", typed("one.trace", "step 1\nquit\n") == "".join(wanted)


def fits(options: str, script: str, columns: int) -> bool:
    """Whether the explanations of some schedules of a script have no more columns with these options."""
    traces = [output(f"schedule --seed {seed}", script) for seed in range(1, 6)]
    return all(len(line) <= columns for trace in traces for line in output(f"explain {options}", trace).split("\n"))


def picture_faults(picture: str, events: int) -> str:
    """What is wrong with where things stand in a picture of so many events. (That each has its own place is proved.)"""
    (_, _, _, wide, high), *boxes = [(kind, *map(int, at)) for kind, *at in BOX.findall(picture)]
    lanes = {width for kind, _, _, width, _ in boxes if kind == "lane"}
    step = min(lanes) / events
    numbers = [(int(x), len(number)) for x, number in NUMBER.findall(picture)]
    faults = {
        f"it is {wide} wide": wide > max(WIDE, 2 * events) + BESIDE,
        f"lanes are {lanes} wide": len(lanes) > 1,
        f"an event is {step} wide": not (14 if events <= 2_000 else 2) <= step <= 60,
        f"{len(numbers)} lines have their numbers": len(numbers) * 50 < events,
        "two numbers touch": any(after - before < LETTER * (one + other) / 2 for (before, one), (after, other) in pairwise(numbers)),
        "a box lies outside": any(x + width > wide or y + height > high for _, x, y, width, height in boxes),
        "a mark lies outside": any(int(x) > wide for x in re.findall(r" (?:c?x='|d='M)(\d+)", picture)),
    }
    return ", ".join(fault for fault, is_so in faults.items() if is_so)


def looks() -> Iterator[tuple[str, bool]]:
    """How wide explanations and pictures are."""
    yield "64 tasks are explained in 120 columns", fits("--compact", example("64-backends-one-segment.script"), 120)
    yield "with Linux's functions, too", fits("--compact --linux", example("64-backends-one-segment.script"), 120)
    pictures = {
        "of 300 events": EMPTY + "step 1\n" * 300,
        "of 3,000 events": "pool 4 1 4 2\nbegin 2 map 0 0 4\n" + "step 1\nstep 2\n" * 1500,
        "of 20,000 events": EMPTY + "begin 1 map 0 0 1\n" + "step 1\n" * 20_000,
        "of 64 tasks": "pool 1 1 1 64\n" + "".join(f"begin {task} exit\n" for task in range(1, 65)),
        "of calls in flight": example("calls-in-flight.trace"),
    }
    for name, trace in pictures.items():
        faults = picture_faults(output("draw", trace), trace.count("\n") - 1)
        yield f"a picture {name} holds all of it: {faults}", not faults


def proved(program: Path) -> Iterator[tuple[str, bool]]:
    """What takes the program without proof too long."""
    yield "where runs are long a part has as many", writes("explore --runs 2385", f"pool 1 1 1 4\n{CALLS}") == [16, 64, 256, 1024, 1024, 1]
    yield "of fewer tasks they may be longer", writes("explore --runs 2385", EMPTY + CALLS) == [16, 64, 256, 1024, 1025]
    for words in ("explore --runs 65536", "race --times 65536"):
        yield f"{words} may be asked for", output(words, EMPTY).count("\n") == 65_536
    searched = (1, "", "hugepool: no run meets all conditions (runs explored: 65537)\n")
    yield "a search makes more runs", run(program, "find --limit 65537 --blocked 1", EMPTY) == searched


def tries(program: Path) -> Iterator[tuple[str, bool]]:
    """What is tried, and whether it went as it should."""
    yield "runs are written a part at a time, of 16 first and then of four times as many", writes("explore --runs 81", EMPTY) == [16, 64, 1]
    yield "a race is written before the next begins", writes("race --times 3", EMPTY) == [1, 1, 1]
    # (what the program's buffer holds, and the lines of a piece that is read, may be to come)
    enough = len("refused idle\n") * 50_000 - 32_768
    yield "a replay doesn't wait for the end of its trace", is_told_so_far(EMPTY + "step 1\n" * 50_000, enough)
    name, options = "truncate-against-store.script", ("--deny", "100", "--kill", "20")
    for runs, shards, *more in (("10", "3"), ("2", "5"), ("40", "3", "--summary")):
        at_once = output(f"explore --seed 7 --runs {runs} {' '.join([*more, *options])}", example(name))
        is_same = in_shards(f"{TOP}/examples/{name}", "7", runs, shards, *more, *options) == at_once
        yield f"{runs} runs in {shards} shards are those of one exploration {more}", is_same
    # (long enough for lines of progress on any machine)
    crowd, limit, calls = example("64-backends-one-segment.script"), *((20_000, 3_000) if is_proved() else (200, 60))
    never = f"hugepool: no run meets all conditions (runs explored: {limit})\n"
    for words, last in (f"explore --summary --runs {limit}", ""), (f"find --answer 64:2=noframe --limit {limit}", never):
        told = progress(words, crowd, last, rf"\d+ of {limit} runs, \d+ a second, \d+ (?:s|min) left")
        yield f"{words} says at a terminal how far it is", bool(told) and told == sorted(told)
    # (of three events of a call two are needed: the others go one by one)
    told = progress(f"minimize --answer 1:{calls}=segv", EMPTY + "begin 1 load 0\nstep 1\nstep 1\n" * calls, "", r"\d+ events left, \d{1,3} s")
    yield f"so does minimize: {told}", len(told) > 1 and 3 * calls >= told[0] > told[-1] >= 2 * calls and told == sorted(told, reverse=True)
    yield "by ./hugepool help has its name, too", run(TOP / "hugepool", "race --help").out == output("race --help", "")
    yield from colours()
    yield from looks()
    with tempfile.TemporaryDirectory() as room:
        yield from steps(Path(room))
    yield from reasons.tries(program)
    if is_proved():
        yield from proved(program)
    else:
        print("left out: long runs, 65,536 runs and races: they need the proved program")


if __name__ == "__main__":
    sys.exit(report("showing", tries(tested())))
