"""The arguments of these scripts, read as those of tools/ are: a fault is one line.

Whoever imports this module first may import `tcdlib` after it.
"""
import math
import pathlib
import sys

sys.path.insert(0, str(pathlib.Path(__file__).resolve().parents[1] / "tools"))

from tcdlib.program import found


def program_of(word):
    """The absolute path of a program."""
    return str(pathlib.Path(found(word)).resolve())


def times(word):
    """How many times as large an input is made."""
    number = float(word)
    if not math.isfinite(number) or number <= 0:
        raise ValueError(word)
    return number


def between(least, most):
    """Reads a whole number between two numbers."""

    def number(word):
        if not least <= int(word) <= most:
            raise ValueError(word)
        return int(word)

    return number
