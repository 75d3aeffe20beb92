"""What is raised."""
from __future__ import annotations

from ctypes import Array
from typing import Any, Sequence


class Error(Exception):
    """The library refused a call; then nothing has changed, but for events of a `Pool.run` that happened before.

    `done` is how many did, and `outcomes` has what came of them."""

    done: int = 0
    outcomes: Array[Any] | Sequence[Any] = ()


class Closed(Error):
    """The pool is closed."""


class OutOfMemory(Error, MemoryError):
    """There was no memory."""


class NoSuch(Error, ValueError):
    """No config, event, file or task has these numbers."""


class InFlight(Error):
    """A call of a task is in flight, so there is no copy."""


class BadTrace(Error, ValueError):
    """A line isn't allowed in a trace: its number, counted from 1, and what is wrong with it."""

    def __init__(self, line: int, reason: str) -> None:
        super().__init__(line, reason)
        self.line, self.reason = line, reason

    def __str__(self) -> str:
        return f"line {self.line} is not allowed here: {self.reason}"


# a text of conditions has no more lines
MOST_CONDITIONS = 65_536


class BadCondition(Error, ValueError):
    """A line is no condition: its number, counted from 1, and the line; or no line says a condition, at line 0."""

    def __init__(self, line: int, text: str) -> None:
        super().__init__(line, text)
        self.line, self.text = line, text

    def __str__(self) -> str:
        if self.line > MOST_CONDITIONS:
            return f"there are more than {MOST_CONDITIONS:,} lines of conditions"
        return f"line {self.line} is no condition: {self.text!r}" if self.line else "no line says a condition"


class LimitReached(Error):
    """A search of all schedules came to its bound of states: in schedules of so many turns."""

    def __init__(self, turns: int) -> None:
        super().__init__(turns)
        self.turns = turns

    def __str__(self) -> str:
        return f"the bound of states was reached at schedules of {self.turns} turns"


OK, IS_CLOSED, NO_MEMORY, NO_SUCH, IN_FLIGHT, BAD_LINE, BAD_HEADER, TOO_SMALL, BAD_CONDITION, NONE_MEETS, LIMIT_REACHED = range(11)
_ERRORS: dict[int, type[Error]] = {IS_CLOSED: Closed, NO_MEMORY: OutOfMemory, NO_SUCH: NoSuch, IN_FLIGHT: InFlight}


def error_of(code: int) -> Error:
    """The error of a code that isn't OK."""
    error = _ERRORS[code]
    return error((error.__doc__ or "").rstrip("."))
