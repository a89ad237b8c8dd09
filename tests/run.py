#!/usr/bin/env python3
"""Tries all that isn't proved: scripts, examples, documents, the program on broken inputs.

    python3 tests/run.py PROGRAM [PART ..]       PROGRAM is the built tcd (crates/tcd/out/tcd)

For each part a line is printed with what was tried and the seconds it took, before it what was
wrong; with names of parts those alone are done. The last line is `N passed, M failed`. It needs
Python 3.9 or newer and its standard library alone; what else isn't installed (Make, CMake) isn't
tried, which is printed. On four idle processors it takes some three minutes.

Exit status: 0 nothing failed, 1 something did, 2 no such program, 5 wrong words.
"""
import os
import re
import subprocess
import sys
import time

if sys.version_info < (3, 9):
    sys.exit("run.py needs Python 3.9 or newer; nothing was tried")
sys.dont_write_bytecode = True

import scratch
from tcdlib import arguments, progress
from tcdlib.program import of_words

TESTS = scratch.TOP / "tests"
#: a part, and the words of the script that does it; P is the program
PARTS = {
    "units": ["-m", "unittest", "discover", "-s", "unit"],
    "cases": ["try_cases.py", "P"],
    "controls": ["try_cases.py", "P", "controls"],
    "examples": ["try_examples.py", "P"],
    "names": ["try_names.py"],
    "pages": ["try_pages.py", "P"],
    "schema": ["try_schema.py", "P"],
    "scripts": ["try_scripts.py", "P"],
    "page": ["try_page.py", "P"],
    "builds": ["try_builds.py", "P"],
    "release": ["try_release.py", "P"],
    "worst": ["try_worst.py", "P", "nested_interrupts", "misaligned", "start_up"],
    "second": ["try_second.py", "P"],
    "hostile": ["try_hostile.py", "--quick", "P"],
    "largest": ["try_largest.py", "P"],
}
#: the line with which a script ends, and what unittest prints
COUNTED = re.compile(r"^(\d+) (?:\w+ )?tried, (\d+) (?:differ|wrong)", re.M)
UNITS = re.compile(r"^Ran (\d+) tests?.*\n\n(?:OK|FAILED \((.*)\))", re.M)


def counts(printed, status):
    """How many cases passed and failed, by what a script printed and its status."""
    if found := UNITS.findall(printed):
        tried, wrong = found[-1]
        kinds = r"(?:failures|errors|unexpected successes)=(\d+)"
        tried, failed = int(tried), sum(int(n) for n in re.findall(kinds, wrong))
    elif found := COUNTED.findall(printed):
        tried, failed = map(int, found[-1])
    else:
        return 0, 1
    # a script that ends badly without a count has failed all the same
    return max(0, tried - failed), max(failed, int(status != 0), int(tried == 0))


def done(part, program):
    """Does a part: what it printed, how many passed and failed."""
    words = [program if word == "P" else word for word in PARTS[part]]
    # the unit tests take the program from TCD
    settings = {"cwd": TESTS, "env": {**os.environ, "PYTHONDONTWRITEBYTECODE": "1", "TCD": program}}
    settings |= {"stdout": subprocess.PIPE, "stderr": subprocess.STDOUT}
    ran = subprocess.run([sys.executable, *words], text=True, errors="replace", **settings)
    return ran.stdout, *counts(ran.stdout, ran.returncode)


def missing(part):
    """What a part needs and this checkout doesn't have, or nothing."""
    needed = "unit" if part == "units" else PARTS[part][0]
    return "" if (TESTS / needed).exists() else f"tests/{needed}"


def main(words):
    program, parts = of_words(words, __doc__), words[1:] or list(PARTS)
    if unknown := [part for part in parts if part not in PARTS]:
        print(f"run.py: no part {unknown[0]}: {', '.join(PARTS)}", file=sys.stderr)
        return 5
    passed = failed = 0
    for number, part in enumerate(parts, 1):
        if missing(part):
            print(f"{part}: 0 passed, 1 failed: {missing(part)} isn't there", flush=True)
            failed += 1
            continue
        began = time.monotonic()
        with progress.of(f"{part}, part {number} of {len(parts)}"):
            printed, good, bad = done(part, program)
        if bad:
            print(printed[-20000:].rstrip())
        print(f"{part}: {good} passed, {bad} failed, {time.monotonic() - began:.0f} s", flush=True)
        passed, failed = passed + good, failed + bad
    print(f"{passed} passed, {failed} failed")
    return 1 if failed else 0


if __name__ == "__main__":
    arguments.ended(__doc__, main)
