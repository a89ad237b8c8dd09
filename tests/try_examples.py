#!/usr/bin/env python3
"""Tries the examples: python3 tests/try_examples.py PROGRAM [EXAMPLE ..]

PROGRAM is tcd (crates/tcd/out/tcd, or `tcd` if it is on the path). Each folder of examples/ with a
file `expected` is copied into a new folder, and each line `WORDS => LINE` of that file is run
there: the program gets the words, and it has to print the line, end with the status that such a
line has, and print nothing on standard error. Then each folder `broken*` in it is tried the same
way: the example's files, those of the broken folder over them, and the lines of its own `expected`.

A text of several lines is expected as `N lines`. A listing is assembled and linked again at its own
addresses as well, and has to give the same executable.

Exit status: 0 all lines as expected, 1 a line differs or none was tried, 2 no such program, 5 wrong
words.
"""
import pathlib
import re
import sys
import tempfile

from scratch import EXAMPLES, as_line, copied, run
from tcdlib import program as programs


def status_of(line):
    """The exit status that goes with a printed line."""
    if line == "bad words":
        return 5
    return 2 if line.startswith("bad ") else 1 if line.startswith("refused ") else 0


def reassembled(program, elf, listing, folder):
    """Whether the listing, its sections at their addresses, gives `elf`; and what `link` prints."""
    sections = re.findall(r"^\.section (\S+) # ([0-9A-F]{8})$", listing, re.M)
    parts = re.split(r"^\.section .*$", listing, flags=re.M)[1:]
    sizes = [
        sum(len(code) // 2 for code in re.findall(r"# [0-9A-F]{8} ([0-9A-F]+)$", part, re.M))
        for part in parts
    ]
    entry = int.from_bytes((folder / elf).read_bytes()[24:28], "little")
    # the entry is a label without bytes at its own place, which shares no byte with the others
    places = [f"place {name} {at} {size:08X}\n" for (name, at), size in zip(sections, sizes)]
    (folder / "again.layout").write_text(
        "".join(["entry begin\n", f"place at_entry {entry:08X} 00000000\n", *places])
    )
    (folder / "again.s").write_text(listing)
    (folder / "entry.s").write_text(".section at_entry\n.global begin\nbegin:\n")
    for name in ("again", "entry"):
        run([program, "asm", f"{name}.s", f"{name}.o"], folder)
    printed = run([program, "link", "again.layout", "again.elf", "again.o", "entry.o"], folder)[0]
    again = folder / "again.elf"
    return again.exists() and again.read_bytes() == (folder / elf).read_bytes(), printed.strip()


def fault(program, line, folder):
    """What differs in one line, or None."""
    words, _, expected = line.partition(" => ")
    words = words.split(" ")
    out, err, status = run([program, *words], folder)
    got = as_line(out) if out else ""
    if got != expected or err or status != status_of(expected):
        return f"{got!r} with status {status}" + (f" and {err!r}" if err else "")
    if words[0] == "dis":
        same, printed = reassembled(program, words[1], out, folder)
        if not same:
            return f"the listing links to another executable: {printed}"
    return None


def tried(program, sources):
    """All lines of the `expected` of the last of these folders, over the files of all: what differs
    in each, or None."""
    with tempfile.TemporaryDirectory() as name:
        folder = pathlib.Path(name)
        for source in sources:
            copied(source, folder)
        for line in (sources[-1] / "expected").read_text().splitlines():
            if line and not line.startswith("#"):
                why = fault(program, line, folder)
                if why:
                    print(f"{sources[-1].relative_to(EXAMPLES)}: {line}\n    printed {why}")
                yield why


def main():
    program = programs.of_words(sys.argv[1:], __doc__)
    faults = []
    for example in sorted(path.parent for path in EXAMPLES.glob("*/expected")):
        if len(sys.argv) > 2 and example.name not in sys.argv[2:]:
            continue
        faults += tried(program, [example])
        for broken in sorted(path.parent for path in example.glob("broken*/expected")):
            faults += tried(program, [example, broken])
    print(f"{len(faults)} lines tried, {len([*filter(None, faults)])} differ")
    sys.exit(1 if any(faults) or not faults else 0)


if __name__ == "__main__":
    main()
