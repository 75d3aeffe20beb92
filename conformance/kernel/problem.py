"""Why a command can't run."""
from __future__ import annotations


class Problem(Exception):
    """One line for the user; the status is 2."""
