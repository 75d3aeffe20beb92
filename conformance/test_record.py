#!/usr/bin/env python3
"""Tests what makes scripts and what reads them, as far as that needs no kernel of one's own: generate.py and record/.

The recorder is compiled, for which a C compiler has to be there. That lines of scripts that are no good are told, each by its
number, stands in `BAD`; that the scripts of this folder's records and those that are made can be read, `GOOD` and the rest say.
Files that are no records, `NO_RECORDS`, are told by what reads records.
"""
from __future__ import annotations

import io
import os
import re
import shutil
import subprocess
import sys
import tempfile
from contextlib import redirect_stdout
from pathlib import Path
from typing import Iterator
from unittest.mock import patch

import generate
import races

FOLDER = Path(__file__).resolve().parent
POOL = "script a\npool 4 1 4 2\n"

# a text that isn't scripts, the line that is no good, and some words of why
BAD = [
    ("pool 4 1 4 1\n", 1, "begins with 'script NAME'"),
    ("script a\nend\n", 2, "has no pool"),
    ("script a\nbegin 1 exit\n", 2, "has no pool yet"),
    ("script a\nscript b\n", 2, "has no 'end'"),
    ("script a b\n", 1, "begins with 'script NAME'"),
    ("script a\npool 0 1 4 1\nend\n", 2, "0 is too small"),
    ("script a\npool 4097 1 4 1\nend\n", 2, "4097 is too large"),
    ("script a\npool 4 17 4 1\nend\n", 2, "17 is too large"),
    ("script a\npool 4 1 65 1\nend\n", 2, "65 is too large"),
    ("script a\npool 4 1 4 65\nend\n", 2, "65 is too large"),
    ("script a\npool 4 1 4 1 65537\nend\n", 2, "65537 is too large"),
    ("script a\npool 4 1 4\nend\n", 2, "a pool is"),
    (POOL + "pool 4 1 4 1\n", 3, "has its pool already"),
    (POOL, 2, "has no 'end'"),
    (POOL + "end now\n", 3, "ends with 'end'"),
    (POOL + "begin 1 exit\nbegin 3 exit\nend\n", 4, "3 is too large"),
    (POOL + "begin 0 exit\nend\n", 3, "0 is too small"),
    (POOL + "begin 1\nend\n", 3, "a call is"),
    (POOL + "begin 1 fly 3\nend\n", 3, "'fly' is no call"),
    (POOL + "begin 1 load 01\nend\n", 3, "'01' is not a number"),
    (POOL + "begin 1 load -1\nend\n", 3, "'-1' is not a number"),
    (POOL + "begin 1 load\nend\n", 3, "'load' has 1 numbers, and here 0"),
    (POOL + "begin 1 trunc 0 1 2\nend\n", 3, "'trunc' has 2 numbers, and here 3"),
    (POOL + "begin 1 load 1048576\nend\n", 3, "1048576 is too large"),
    (POOL + "begin 1 store 0 18446744073709551616\nend\n", 3, "is too large"),
    (POOL + "begin 1 xftruncate 1 0\nend\n", 3, "the pool has no file 1"),
    (POOL + "begin 1  load 0\nend\n", 3, "parted by one space"),
    (POOL + "begin 1 load 0 \nend\n", 3, "parted by one space"),
    (POOL + "\nend\n", 3, "parted by one space"),
    (POOL + "begin 1 load 0\r\nend\n", 3, "a byte 13"),
    (POOL + "begin 1 load 0\0\nend\n", 3, "a byte 0"),
    (POOL + "a b c d e f g h i j k\nend\n", 3, "too many words"),
    (POOL + "resize 4097\nend\n", 3, "4097 is too large"),
    (POOL + "resize\nend\n", 3, "a resize is"),
    (POOL + "overcommit\nend\n", 3, "an overcommit is"),
    (POOL + "overcommit 4097\nend\n", 3, "4097 is too large"),
    (POOL + "begin 1 xprivate 1 0 2097152\nend\n", 3, "the pool has no file 1"),
    (POOL + "begin 1 xfork 0\nend\n", 3, "'xfork' has 2 numbers, and here 1"),
    (POOL + "race 1 2 0\nend\n", 3, "0 is too small"),
    (POOL + "race 1 2 3 mz\nend\n", 3, "'z' is no kind of call"),
    (POOL + "race 1 2\nend\n", 3, "a race is"),
    (POOL + "walk 1\nend\n", 3, "begins with 'walk'"),
    (POOL + "start 1\nend\n", 3, "a call is 'start TASK CALL ..'"),
    (POOL + "start 3 load 0\nwait 3\nend\n", 3, "3 is too large"),
    (POOL + "start 1 exit\nwait 1\nend\n", 3, "an exit can be begun, and not started"),
    (POOL + "start 1 load 0\nstart 1 load 0\nwait 1\nend\n", 4, "task 1 is at work: 'wait 1' has to come first"),
    (POOL + "start 1 load 0\nbegin 1 exit\nwait 1\nend\n", 4, "task 1 is at work: 'wait 1' has to come first"),
    (POOL + "start 1 load 0\nwait 2\nend\n", 4, "task 2 isn't at work"),
    (POOL + "start 1 load 0\nwait 1\nwait 1\nend\n", 5, "task 1 isn't at work"),
    (POOL + "start 1 load 0\nwait\nend\n", 4, "a wait is 'wait TASK'"),
    (POOL + "start 1 load 0\nwait 1 held\nend\n", 4, "or 'wait TASK blocked'"),
    (POOL + "start 2 load 0\nrace 1 2 3\nwait 2\nend\n", 4, "task 2 is at work still: 'wait 2' has to come first"),
    (POOL + "hold region_add 1\nend\n", 3, "a call that is held is 'hold FUNCTION [deny FIRST-LAST|charged] TASK CALL ..'"),
    (POOL + "hold region_add 3 load 0\nwait 3\nend\n", 3, "3 is too large"),
    (POOL + "hold region_add 1 load 0\nend\n", 4, "task 1 is at work still: 'wait 1' has to come first"),
    (POOL + "hold region_add deny 2-1 1 load 0\nwait 1\nend\n", 3, "1 is too small"),
    (POOL + "deny 1\nend\n", 3, "a call that is denied memory is 'deny FIRST[-LAST]|charged TASK CALL ..'"),
    (POOL + "deny charged-2 1 load 0\nend\n", 3, "'charged'"),
    (POOL + "deny 0 1 load 0\nend\n", 3, "0 is too small"),
    (POOL + "deny 1-1001 1 load 0\nend\n", 3, "1001 is too large"),
    (POOL + "start 2 load 0\nend\n", 4, "task 2 is at work still: 'wait 2' has to come first"),
]
# a text that is scripts, and how many scripts and lines there are: with comments, answers, no last line feed
GOOD = [
    (POOL + "end", (1, 0)),
    ("# a kernel\n" + POOL + "begin 1 exit = done | 4 0 | 0 0 | 0 0\nend total 4 free 4 resv 0 surp 0\n", (1, 1)),
    (POOL + "start 2 load 0 = started\nbegin 1 exit\nresize 3\nstart 1 load 0 = refused notalive\nwait 2\nwait 1\nend\n", (1, 6)),
    (POOL + "hold a|b 1 load 0\nstart 2 load 0\nwait 2 blocked = unblocked\nwait 1\nend", (1, 4)),
    (POOL + "hold a|b 1 load 0\nwait 1\nhold a deny 1-2 2 load 0\nwait 2\ndeny 3 1 load 0\ndeny charged 1 load 0\nend\n", (1, 6)),
    (POOL + "overcommit 2\nbegin 1 xprivate 0 0 9\nbegin 1 xprivaten 0 0 9\nbegin 1 xdontneed 0 9\nbegin 2 xfork 0 9\nend\n", (1, 5)),
    (POOL + "resize 0\nend\n" + POOL + "race 1 2 3\nbegin 2 load 1048575\nbegin 1 store 0 18446744073709551615\nend\n", (2, 4)),
]
# words, and the status and some words that they end with
MISUSES = [
    ([], 2, "which scripts"),
    (["--fly", "x"], 2, "no such option"),
    (["--from", "x", "y"], 2, "--from wants a number"),
    (["--check", "/nonexistent"], 1, "No such file"),
    (["--check", os.devnull], 2, "there is no script"),
    (["--check", "--from", "33", str(FOLDER / "calls-fixed.txt")], 2, "there are 33 scripts, of which 33"),
    ([str(FOLDER / "races.txt")], 2, "which --race allows"),
]
KINDS = (*generate.KINDS, generate.RACE)


def made(*words: object) -> bytes:
    """What generate.py writes."""
    return subprocess.run([sys.executable, FOLDER / "generate.py", *map(str, words)], capture_output=True, check=True).stdout


class Recorder:
    """The recorder, compiled."""

    def __init__(self, room: Path) -> None:
        self.program, self.text = room / "record", room / "text"
        built = subprocess.run([FOLDER / "record" / "build.sh", room], capture_output=True, text=True, check=False)
        self.warnings = built.stderr
        self.is_built = built.returncode == 0

    def run(self, *words: str) -> tuple[int, str]:
        """How it ends, and what it tells."""
        ran = subprocess.run([self.program, *words], stdin=subprocess.DEVNULL, capture_output=True, text=True, check=False)
        return ran.returncode, ran.stdout + ran.stderr

    def check(self, text: bytes) -> tuple[int, str]:
        """How a text is read."""
        self.text.write_bytes(text)
        return self.run("--check", str(self.text))


def faults_of_reading(recorder: Recorder) -> Iterator[tuple[object, object]]:
    """What is to be told, beside what is: of bad texts, good ones, wrong words, and the records of this folder."""
    for text, line, why in BAD:
        status, said = recorder.check(text.encode())
        yield text, (status, f":{line}: " in said, why in said) == (2, True, True) or said
    for text, (scripts, lines) in GOOD:
        yield text, recorder.check(text.encode()) == (0, f"{scripts} scripts, {lines} calls\n")
    for words, status, why in MISUSES:
        ended, said = recorder.run(*words)
        yield words, (ended, why in said) == (status, True) or said
    recorder.text.write_text(POOL + "start 1 trunc 0 0\nwait 1\nend\n", encoding="utf-8")
    ended, said = recorder.run(str(recorder.text))
    yield "a started truncation", (ended, "which --race allows" in said) == (2, True) or said
    for file in sorted([*FOLDER.glob("calls-*.txt"), FOLDER / "private.txt", *FOLDER.glob("races*.txt"), *FOLDER.glob("peers/*.txt")]):
        text = file.read_text()
        scripts, lines = (len(re.findall(pattern, text, re.MULTILINE)) for pattern in (r"^script ", r"^(begin|start|wait|resize|overcommit|race) "))
        yield file.name, recorder.run("--check", str(file)) == (0, f"{scripts} scripts, {lines} calls\n")


def faults_of_making(recorder: Recorder) -> Iterator[tuple[object, object]]:
    """The same of scripts that are made: the seed says what they are, whatever the count, and the recorder reads them."""
    for kind in KINDS:
        some = made(5, 20, kind)
        status, said = recorder.check(some)
        yield f"{kind} is read", (status, said.startswith("20 scripts, ")) == (0, True) or said
        yield f"{kind} is the same once more", some == made(5, 20, kind)
        yield f"{kind} begins with the scripts of a smaller count", some.startswith(made(5, 7, kind))
        others = {re.sub(rb"^script .*", b"", made(seed, 1, kind)) for seed in range(9)}
        yield f"{kind} of other seeds are others", len(others) == 9
    yield "the kind is plain unless told otherwise", made(5, 3) == made(5, 3, "plain")
    for words in ([], ["1"], ["a", "1"], ["1", "-1"], ["1", "1", "odd"], ["1", "1", "big", "x"]):
        ran = subprocess.run([sys.executable, FOLDER / "generate.py", *words], capture_output=True, check=False)
        yield f"generate.py {words}", (ran.returncode, ran.stdout, ran.stderr.startswith(b"usage: ")) == (2, b"", True)


def faults_of_kinds() -> Iterator[tuple[object, object]]:
    """The same of what each kind has: a maximum, resizes, races with truncations and without."""
    for kind, sizes in generate.KINDS.items():
        text = made(3, 30, kind).decode()
        pools = [list(map(int, line.split()[1:])) for line in text.splitlines() if line.startswith("pool ")]
        yield f"{kind}: a maximum", {len(pool) for pool in pools} == {5 if sizes.has_quota else 4}
        yield f"{kind}: resizes", ("\nresize " in text) == sizes.resizes
        yield f"{kind}: frames", {pool[0] for pool in pools} <= {*range(sizes.frames[0], sizes.frames[1] + 1)}
        yield f"{kind}: calls", all(f" {word} " in text for word in generate.CALLS if word not in ("odd", "exit"))
    for lines in made(3, 10, generate.RACE).decode().split("end\n")[:-1]:
        yield lines, ("race-with-truncate." in lines) == ("mnulsakpt" in lines) and lines.count("\nrace ") == 4


# files that are no records, and what is said of each by compare.py and by races.py
NO_RECORDS = [
    (b"\xff\xfe", "no text", "no text"),
    (b"", "there is no script in it", "no script of it"),
    (b"script a\nfoo\n", "line 2: ", "line 2: "),
    (b"script a\npool 4 1 4 1\n", "has no 'end'", "has no 'end'"),
    (b"script a\npool 4 1 4 1\nbegin 1 load = done\nend\n", "is no call with an answer", "no script of it"),
    (b"script a\npool 4 1 4 1\nrace 1 2 3 = rest\nend\n", "", "no script of it"),
]

# scripts of races, each with its kinds and the counts at its end; and what races.py says of them, with its status
RACED = [
    ([("mns", "4 0")], 0, "wrong in 0 of 1 scripts without truncations, in 0 of 0 with them\n"),
    ([("mns", "4 0"), ("mns", "4 1")], 1, "wrong in 1 of 2 scripts without truncations, in 0 of 0 with them\n  file: 2: the counts are wrong: "),
    ([("mns", "3 0")], 1, "wrong in 1 of 1 scripts without truncations"),
    ([("mst", "4 -1"), ("mns", "4 0"), ("", "4 0")], 0, "wrong in 0 of 1 scripts without truncations, in 1 of 2 with them\n"),
]
# in how many scripts of each record of races the count is wrong (docs/NEEDED.md)
WRONG = {"races.txt": 1, "races-by-chance.txt": 21, "races-by-kind.txt": 2}


def raced_text(raced: list[tuple[str, str]]) -> str:
    """A file with a script of one race for each of these kinds and counts at its end."""
    return "".join(
        f"script {number}\npool 4 1 4 2\nrace {' '.join(['1', '9', '4', *kinds.split()])} = rest | 4 0 | 0 0 | 0 0\n"
        f"begin 1 trunc 0 0 = done | {counts} | 0 0 | 0 0\nend x\n"
        for number, (kinds, counts) in enumerate(raced, 1)
    )


def faults_of_races() -> Iterator[tuple[object, object]]:
    """That a wrong count is told in scripts without truncations, and counted in the others."""
    with tempfile.TemporaryDirectory(prefix="races-") as name:
        file = Path(name, "file")
        for raced, status, said in RACED:
            file.write_text(raced_text(raced))
            ended, out, err = outcome("races.py", file)
            yield raced, (ended, out.startswith(f"file: {said}"), err) == (status, True, "") or (ended, out, err)


def faults_of_counts() -> Iterator[tuple[object, object]]:
    """That as many scripts of this folder's records are wrong as the documents tell, and neither one more nor one fewer."""
    for name in (None, *WRONG):
        for more in (-1, 1) if name else (0,):
            status, out = told_of_records({it: number + more * (it == name) for it, number in WRONG.items()})
            fault = f"  {name}: the count is to be wrong in {WRONG[name]}\nraces: 5 passed, 1 failed\n" if name else ""
            said = fault or "\nraces: 6 passed, 0 failed\n"
            yield f"{more} in {name}", (status, out.endswith(said)) == (int(more != 0), True) or (status, out)


def told_of_records(wrong: dict[str, int]) -> tuple[int, str]:
    """What races.py says, and its status, where so many scripts with truncations are wrong in each of its records."""
    said = io.StringIO()
    with tempfile.TemporaryDirectory(prefix="records-") as name, patch.object(races, "FOLDER", Path(name)), redirect_stdout(said):
        for record, number in wrong.items():
            Path(name, record).write_text(raced_text([("mst", "4 -1")] * number + [("mst", "4 0"), ("mns", "4 0")]))
        return races.main([]), said.getvalue()


def faults_of_files() -> Iterator[tuple[object, object]]:
    """That what is no record is told in a line, and so is what can't be read; and that a reader who is gone is no fault."""
    with tempfile.TemporaryDirectory(prefix="records-") as name:
        file = Path(name, "file")
        for content, by_compare, by_races in NO_RECORDS:
            file.write_bytes(content)
            for program, said in (("compare.py", by_compare), ("races.py", by_races)):
                if said:
                    status, out, err = outcome(program, file)
                    yield (program, content), (status, said in out + err, "Traceback" in err) == (1, True, False) or (status, out, err)
        for program in ("compare.py", "races.py", "live/lost.py"):
            status, out, err = outcome(program, Path(name, "none"))
            yield f"{program} of no file", (status, out, err.count("\n")) == (2 if "lost" in program else 1, "", 1) or (status, out, err)
    for words in (("generate.py", "1", "5000"), ("races.py", "--help"), ("compare.py", "--help"), ("packages.py", "--help")):
        ran = subprocess.Popen([sys.executable, FOLDER / words[0], *words[1:]], stdout=subprocess.PIPE, stderr=subprocess.PIPE)
        ran.stdout.close()
        yield f"{words} with no reader", ran.stderr.read() == b"" and ran.wait() != 1


def faults_of_accounts(room: Path) -> Iterator[tuple[object, object]]:
    """That a race counts as lost by Linux's rules what made-up calls may lose, and no more (test_race.c)."""
    words = [os.environ.get("CC", "cc"), "-std=gnu11", "-D_GNU_SOURCE", "-O2", "-Wall", "-Wextra", "-Wshadow", "-o", room / "race", FOLDER / "test_race.c"]
    built = subprocess.run(words, capture_output=True, text=True, check=False)
    yield "test_race.c compiles with no warning", built.stderr == "" or built.stderr
    ran = subprocess.run([room / "race"], capture_output=True, text=True, check=False)
    yield "what a race counts as lost", (ran.returncode, ran.stdout) == (0, "race: 19 passed, 0 failed\n") or ran.stdout


def outcome(program: str, file: Path) -> tuple[int, str, str]:
    """The status of a program that reads a file, and what it writes."""
    ran = subprocess.run([sys.executable, FOLDER / program, file], capture_output=True, text=True, check=False)
    return ran.returncode, ran.stdout, ran.stderr


def main() -> int:
    compiler = os.environ.get("CC", "cc")
    if shutil.which(compiler) is None:
        print(f"  '{compiler}', a C compiler (Debian's build-essential has one), is not on the PATH: the recorder wasn't tested")
        print("recorder: 0 passed, 1 failed")
        return 1
    with tempfile.TemporaryDirectory(prefix="recorder-") as name:
        recorder = Recorder(Path(name))
        tried = [("it compiles with no warning", recorder.is_built and not recorder.warnings or recorder.warnings)]
        if recorder.is_built:
            tried += [*faults_of_reading(recorder), *faults_of_making(recorder), *faults_of_kinds()]
            tried += [*faults_of_races(), *faults_of_counts(), *faults_of_files(), *faults_of_accounts(Path(name))]
    wrong = [(what, found) for what, found in tried if found is not True]
    print("".join(f"  {what!r}: {found}\n" for what, found in wrong), end="")
    print(f"recorder: {len(tried) - len(wrong)} passed, {len(wrong)} failed")
    return 1 if wrong else 0


if __name__ == "__main__":
    sys.exit(main())
