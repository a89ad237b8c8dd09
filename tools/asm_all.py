#!/usr/bin/env python3
"""All faults of sources at once: `asm` prints the first one alone.

    asm_all.py SOURCE .. [--most 50] [--tcd PROGRAM]

After each fault its line is taken out of a copy, except its label, and the copy is assembled again,
until it has no fault or --most were found. A later fault may come from an earlier one, as when a
label or a `.section` is gone: mend the first one first.

Exit status: 0 no fault, 1 faults, 2 a file or a program that can't be used, 5 wrong arguments.
"""
import pathlib
import re
import tempfile

import explain
import names
from tcdlib import arguments
from tcdlib import program as tcd
from tcdlib import sources
from tcdlib.sources import Unusable, shown

FAULT = re.compile(r"bad source (\d+) at 0 (\d+)")
#: the faults of a label itself: it is there twice, or before any section
OF_LABEL = ("7", "8")
LABEL = re.compile(rb"[ \t]*[A-Za-z_.$][A-Za-z0-9_.$]*[ \t]*:")


def faults(program, path, most):
    """The faults of a source, in the order in which `asm` finds them: the rule and the line."""
    lines = sources.bytes_of(path).split(b"\n")
    with tempfile.TemporaryDirectory() as folder:
        copy = pathlib.Path(folder, "copy.s")
        for _ in range(most):
            copy.write_bytes(b"\n".join(lines))
            words = ("asm", str(copy), f"{folder}/copy.o")
            done = tcd.run(program, *words)
            if done.returncode == tcd.DONE:
                return
            found = FAULT.fullmatch(done.stdout.strip())
            at = int(found[2]) - 1 if found else len(lines)
            if at >= len(lines) or not lines[at]:
                raise Unusable(f"{shown(path)}: `asm` prints: {tcd.why(done, words)}")
            yield found[1], found[2]
            label = LABEL.match(lines[at])
            kept = label[0] if label and found[1] not in OF_LABEL else b""
            lines[at] = kept if kept != lines[at] else b""


def main(given):
    """Prints the faults of the sources, and gives the exit status."""
    parser = arguments.Parser()
    parser.add_argument("source", nargs="+", metavar="SOURCE")
    parser.add_argument("--most", type=int, default=50)
    parser.add_argument("--tcd", default="tcd")
    given = parser.parsed(given)
    if given.most < 1:
        parser.error("--most is a number of faults")
    program, count = tcd.found(given.tcd), 0
    for path in given.source:
        explainer = explain.Explainer([program, "asm", path, "copy.o"], names.Map())
        for rule, line in faults(program, path, given.most):
            print("\n".join(explain.lines_of(explainer.source(rule, "0", line))))
            count += 1
    print(f"{count} faults")
    return tcd.REFUSED if count else tcd.DONE


if __name__ == "__main__":
    arguments.ended(__doc__, main)
