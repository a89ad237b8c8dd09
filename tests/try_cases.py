#!/usr/bin/env python3
"""Plays the cases of crates/tcd_tool_tests on the program: python3 tests/try_cases.py PROGRAM

    tests/try_cases.py PROGRAM             each command of the cases, on real files
    tests/try_cases.py PROGRAM controls    the cases on programs that are wrong on purpose: each one
                                           has to be found

PROGRAM is the built tcd (crates/tcd/out/tcd). tools/tcdlib/cases.py says how a case is played.

Exit status: 0 nothing was wrong, 1 something was, 2 no such program, 5 wrong words.
"""
import sys

import scratch  # so that tools/ is on the path
from tcdlib import cases
from tcdlib.program import BAD_FILE, of_words
from tcdlib.sources import Unusable


def main(words):
    is_right = words[1:] in ([], ["controls"])
    start = cases.starter(of_words(words if is_right else [], __doc__))
    if words[1:]:
        counts = cases.controlled(start)
        wrong = [f"nothing found this wrong program: {name}" for name, n in counts.items() if not n]
        tried = f"{len(counts)} controls"
    else:
        results = cases.all_played(start)
        wrong, tried = [*cases.wrong_lines(results)], f"{len(results)} commands"
    print("\n".join([*wrong, f"{tried} tried, {len(wrong)} wrong"]))
    return 1 if wrong else 0


if __name__ == "__main__":
    try:
        sys.exit(main(sys.argv[1:]))
    except Unusable as e:
        print(e, file=sys.stderr)
        sys.exit(BAD_FILE)
