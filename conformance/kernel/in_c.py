"""A difference as a program in C that needs libc alone: it makes the script's calls, and judges the last one."""
from __future__ import annotations

from dataclasses import dataclass, field
from pathlib import Path

from kernel.differences import Difference
from kernel.endings import Wrong
from kernel.problem import Problem

PARTS = Path(__file__).with_name("reproducer.c")
HEAD = """/* Makes the calls of a script in which this kernel differed from what is right: {what}.
 *
 *   cc -o reproducer THIS.c && sudo ./reproducer
 *
 * Wants that no huge page of 2 MiB is in use; their number is put back. Status: 0 right; 1 wrong; 2 it could not run.
 */
"""
MODES = {"alloc": "0", "allock": "FALLOC_FL_KEEP_SIZE", "punch": "FALLOC_FL_PUNCH_HOLE | FALLOC_FL_KEEP_SIZE"}


@dataclass
class Tasks:
    """Where the tasks of a script have mapped how many pages: each mapping lies where there is room first."""

    mapped: dict[str, dict[int, int]] = field(default_factory=dict)

    def room(self, task: str, pages: int) -> int:
        at = 0
        for base, length in sorted(self.mapped.setdefault(task, {}).items()):
            if base < at + pages and at < base + length:
                at = base + length
        return at

    def map(self, task: str, pages: int, is_mapped: bool) -> int:
        at = self.room(task, pages)
        if is_mapped:
            self.mapped[task][at] = pages
        return at


def call_text(tasks: Tasks, call: str, answer: str) -> str:
    """The expression of a call, which has the kernel's answer as its value."""
    words = call.split()
    if words[0] == "resize":
        return f'(resize({words[1]}), "resized")'
    if words[0] != "begin" or len(words) < 3 or words[2].startswith("x"):
        raise Problem(f"'{call}' has no reproducer in C: only calls that run to their end, on whole pages")
    task, kind, numbers = words[1], words[2], words[3:]
    match kind:
        case "map" | "mapn":
            at = tasks.map(task, int(numbers[2]), answer.startswith("mapped"))
            return f"map({task}, {at}, {', '.join(numbers)}, {'MAP_NORESERVE' if kind == 'mapn' else 0})"
        case "unmap":
            return f"unmap({task}, {numbers[0]}, {tasks.mapped.get(task, {}).pop(int(numbers[0]), 1)})"
        case "load" | "store":
            word = numbers[1] if kind == "store" else "0"
            return f"touch({task}, {numbers[0]}, {int(kind == 'store')}, {word}UL, {int(answer == 'beyond')})"
        case "alloc" | "allock" | "punch":
            return f"allocate({numbers[0]}, {MODES[kind]}, {numbers[1]}, {numbers[2]})"
        case "exit":
            all_of_them = tasks.mapped.pop(task, {}).items()
            return "(" + "".join(f"unmap({task}, {at}, {pages}), " for at, pages in all_of_them) + '"done")'
        case "trunc":
            return f"truncate_to({', '.join(numbers)})"
    raise Problem(f"'{call}' has no reproducer in C")


def program(it: Difference | Wrong) -> str:
    """The program of a difference."""
    if isinstance(it, Wrong):
        raise Problem("a script whose calls overlap, or are denied memory, has no reproducer in C")
    _, frames, files, _, _, *quota = it.script.header.split()
    answers = [line.split(" = ", 1)[1].split(" | ")[0] for line in it.seen.lines] + [it.seen.kernel.answer]
    tasks, machine = Tasks(), it.seen.machine
    words = f"{files}, {int(bool(quota))}"
    pairs = zip(it.script.lines, answers, strict=True)
    lines = [f'tell("{call}", {call_text(tasks, call, answer)}, {words})' for call, answer in pairs]
    right = " | ".join([machine.answer, machine.counts, machine.files, *([machine.used] if quota else [])])
    body = [f"open_pool({frames}, {files}, {quota[0] if quota else -1});", *(f"{line};" for line in lines[:-1])]
    body += [f'expect({lines[-1]}, "{right}");', f"return close_pool({files});"]
    main = "int main(void)\n{\n" + "".join(f"\t{line}\n" for line in body) + "}\n"
    what = f"{it.seen.call} differs in {', '.join(it.seen.fields())}"
    return HEAD.format(what=what) + PARTS.read_text(encoding="utf-8") + main
