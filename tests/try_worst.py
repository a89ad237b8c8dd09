#!/usr/bin/env python3
"""Lets worst_run.py look at the examples: python3 tests/try_worst.py PROGRAM [EXAMPLE ..]

PROGRAM is the built tcd (crates/tcd/out/tcd). Each example is copied and built, and worst_run.py
has up to a minute to find a script that comes to the certificate's number. A row is printed for
each: the example, N, what was reached, the seconds. Of tasks each is played alone, in its view.

Exit status: 0 each reached N, 1 one didn't, 2 no such program or example, 5 wrong words.
"""
import pathlib
import re
import sys
import tempfile
import time

import scratch
from tcdlib.program import of_words

#: what the author of an example knows of its devices, and what is special about its certificate
KNOWN = {"protocol": "--in 0 90 97", "cells": "--cells modes.cells"}
TASKS = {"measure.cert": "--tasks board.tasks 0", "show.cert": "--tasks board.tasks 1"}


def names():
    """The examples."""
    return sorted(path.parent.name for path in scratch.EXAMPLES.glob("*/expected"))


def certificates(example):
    """The certificates of an example, each with further words for worst_run.py."""
    if (scratch.EXAMPLES / example / "board.tasks").exists():
        return TASKS
    return {"firmware.cert": KNOWN.get(example, "")}


def tried(program, example, cert, more):
    """A row of the table, and whether N was reached."""
    began, title = time.monotonic(), f"`{example}` {more}".strip()
    with tempfile.TemporaryDirectory() as room:
        scratch.built(program, example, pathlib.Path(room))
        script = str(scratch.TOP / "tools" / "worst_run.py")
        words = [sys.executable, script, "firmware.elf", "board.json", cert, *more.split()]
        out, err, status = scratch.run([*words, "-o", "worst.script", "--tcd", program], room)
    found = re.fullmatch(r"reached (\d+) of (\d+)\n", out)
    if not found or "Traceback" in err:
        return f"| {title} | | {(err or out).strip().splitlines()[-1:]} | |", False
    return f"| {title} | {found[2]} | {found[1]} | {time.monotonic() - began:.1f} |", status == 0


def main(words):
    program, chosen, tries, wrong = of_words(words, __doc__), words[1:] or names(), 0, 0
    for example in chosen:
        if example not in names():
            print(f"{example}: no such example", file=sys.stderr)
            return 2
    print("| Example | N | Reached | Seconds |\n|---|---|---|---|")
    for example in chosen:
        for cert, more in certificates(example).items():
            row, is_reached = tried(program, example, cert, more)
            tries, wrong = tries + 1, wrong + (not is_reached)
            print(row, flush=True)
    print(f"{tries} certificates tried, {wrong} wrong")
    return 1 if wrong else 0


if __name__ == "__main__":
    sys.exit(main(sys.argv[1:]))
