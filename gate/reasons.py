"""What is said to be wrong with each field of each line of a trace, in all ways in which it may be; gate/showing.py tries it."""
from __future__ import annotations

from pathlib import Path
from typing import Iterator

from programs import Ran, run

HEADER = "pool 1 1 1 1"
MOST, MOST_WORD = 2**32 - 1, 2**64 - 1
# what there is of a pool, and the least and the most of it
SIZES = [("frames", 1, 4096), ("files", 1, 16), ("slots", 1, 64), ("tasks", 1, 64), ("quota pages", 0, 65_536)]
# each kind of line
CALLS = ("map 0 0 1", "mapn 0 0 1", "alloc 0 0 1", "allock 0 0 1", "punch 0 0 1", "trunc 0 1", "store 0 1", "load 0", "unmap 0", "exit")
LINES = ("step 1", "deny 1", "kill 1", "resize 1", *(f"begin 1 {it}" for it in CALLS))


def words_said(count: int) -> str:
    return f"the line has {count} word{'' if count == 1 else 's'}"


def called(line: str) -> str:
    """What a kind of line is called."""
    word = line.removeprefix("begin 1 ").split()[0]
    return f"{'an' if word[0] in 'aeu' else 'a'} {word}"


def wrong_fields(line: str) -> Iterator[tuple[str, str]]:
    """The line with one field wrong, or one too many or too few, and what is to be said of it."""
    words, what = line.split(), called(line)
    for at, _ in (it for it in enumerate(words) if it[1].isdigit()):
        most = MOST_WORD if what == "a store" and at == 4 else MOST
        said = {"x": "is not a number", "-1": "is not a number", "01": "begins with a zero", str(most + 1): f"is above {most}"}
        for word, why in said.items():
            yield " ".join([*words[:at], word, *words[at + 1 :]]), f"{word} {why}"
    yield f"{line} 1", f"{words_said(len(words) + 1)}; {what} has {len(words)}"
    if words[-1].isdigit():
        yield " ".join(words[:-1]), f"{words_said(len(words) - 1)}; {what} has {len(words)}"


def wrong_headers() -> Iterator[tuple[str, str]]:
    """Headers with one number wrong, and what is to be said of them."""
    right = [*HEADER.split(), "1"]
    for at, (what, least, most) in enumerate(SIZES, 1):
        changed = lambda word: " ".join([*right[:at], word, *right[at + 1 :]])
        for number in [*([0] if least else []), most + 1]:
            yield changed(str(number)), f"the header gives {number} {what}; a pool has {least} to {most}"
        yield changed("x"), "x is not a number"
        yield changed("01"), "01 begins with a zero"
        yield changed(str(MOST + 1)), f"{MOST + 1} is above {MOST}"
    for many in (" ".join(right[:4]), " ".join([*right, "1"])):
        yield many, f"{words_said(len(many.split()))}; a header has 5, or 6 with a quota"


def said_of(number: int, line: str, why: str) -> Ran:
    """What comes of a trace whose line of this number is wrong."""
    where = "line 1 is not a pool header" if number == 1 else f"line {number} is not allowed here"
    return Ran(1, "", f'hugepool: {where}\nhugepool: {why}: "{line}"\n')


def tries(program: Path) -> Iterator[tuple[str, bool]]:
    """What is tried, and whether it went as it should."""
    wrong_lines: list[tuple[str, str]] = []
    for line in LINES:
        yield f"{line!r} is right", run(program, "check", f"{HEADER}\n{line}\n") == Ran(0, "events 1\n", "")
        wrong_lines += wrong_fields(line)
        if not line.startswith("begin"):
            script = run(program, "schedule", f"{HEADER}\n{line}\n")
            yield f"{called(line)} stands in no script", script == said_of(2, line, "every event of a script must be a begin")
    for number, front, several in ((2, f"{HEADER}\n", wrong_lines), (1, "", wrong_headers())):
        for wrong, why in several:
            said = run(program, "check", f"{front}{wrong}\n")
            yield f"of {wrong!r} it is said that {why}", said == said_of(number, wrong, why)
    for byte in (0, 9, 31, 127, 128, 255):
        shown = {9: "\\t"}.get(byte, f"\\x{byte:02x}")
        said = run(program, "check", f"{HEADER}\nstep ".encode() + bytes([byte]) + b"\n")
        yield f"byte {byte} is shown", said == said_of(2, f"step {shown}", f"byte {byte} is not allowed in a line")
