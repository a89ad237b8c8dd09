#!/usr/bin/env python3
"""Counts `ship` of sources of so many lines, and `asm`, `link`, `cert` and `check` of the same.

    ship.py PROGRAM

PROGRAM is a built tcd. Prints for each shape and size the machine instructions under callgrind, and
the most memory that `ship` had. Shapes of sources, both of the same functions of 39 lines (sums,
loads, stores, branches, a call, data):

idle   main has a nop for each function and calls none: the certificate has one frame
all    main calls each function, so that each has a frame, and each instruction a point
"""
import json
import os
import tempfile

import usage
from cert import PLAN, instructions, most_memory
from tcdlib import arguments

# Half a function: labels, jumps, calls, loads and stores, halves of symbols, and comments.
HALF = """\
{x}{n}:  mov d1, {k}            # a constant
    movh.a a15, hi:words
    lea.l a15, [a15]lo:words
    ld.w d2, [a15]4
    add d3, d1, d2
    jeq d3, 0, .+8
    st.w [a15]4, d3
    jne d2, 3, {x}{n}
    call g
    mov16 d4, 1
    add16 d4, d2
    jz16 d4, l{x}{n}

# a comment
l{x}{n}: sh d4, d4, -2
    and d4, d4, 255
"""
DATA = """\
    ret16
.section data
w{n}:  .word f{n}, {k}
    .half {k}, -1
    .byte 1, 2, 3
    .space 1
.section text
"""
LAYOUT = "entry main\nplace text 80000000 000E0000\nplace data 800E0000 00010000\nplace ram D0010000 00000008\n"


def source(lines, reached):
    """A source of so many lines: each function has 39, and one more for its call or a nop."""
    functions = (lines - 8) // 40
    head = ".section ram\nwords:\n.section text\n.global main\nmain:\n"
    calls = (
        "".join(f"    call f{n}\n" for n in range(functions))
        if reached
        else "    nop\n" * functions
    )
    bodies = (
        HALF.format(x="f", n=n, k=n % 32768)
        + HALF.format(x="h", n=n, k=n % 100)
        + DATA.format(n=n, k=n)
        for n in range(functions)
    )
    return head + calls + "    j .+0\ng:  ret16\n\n" + "".join(bodies)


def counted(program, lines, reached):
    """The counts of all commands of one source."""
    text = source(lines, reached)
    files = {"main.s": text, "board.layout": LAYOUT, "board.json": json.dumps(PLAN)}
    for name, held in files.items():
        with open(name, "w", encoding="utf-8") as file:
            file.write(held)
    commands = {
        "asm": ["asm", "main.s", "main.o"], "link": ["link", "board.layout", "made.elf", "main.o"], "cert": ["cert", "made.elf", "board.json", "made.cert"],
        "check": ["check", "made.elf", "board.json", "made.cert"], "ship": ["ship", "board.json", "board.layout", "firmware.elf", "firmware.cert", "main.s"],
    }  # fmt: skip
    counts = {name: instructions([program, *words]) for name, words in commands.items()}
    memory = most_memory([program, *commands["ship"]])
    for made in ("elf", "cert"):
        with open(f"made.{made}", "rb") as one, open(f"firmware.{made}", "rb") as other:
            assert one.read() == other.read(), made
    return text.count("\n"), counts, memory


def main(given):
    program = usage.program_of(arguments.Parser("program").parsed(given).program)
    with tempfile.TemporaryDirectory() as folder:
        os.chdir(folder)
        for shape in ("idle", "all"):
            for size in (25008, 50008):
                lines, counts, memory = counted(program, size, shape == "all")
                parts = ", ".join(f"{name} {count}" for name, count in counts.items())
                two, three = (
                    counts["asm"] + counts["link"],
                    counts["asm"] + counts["link"] + counts["cert"],
                )
                print(
                    f"{shape} {lines} lines: {parts}, {memory:.0f} MB; {counts['ship'] / two:.3f} times asm and link, {counts['ship'] / three:.3f} times asm, link and cert",
                    flush=True,
                )


if __name__ == "__main__":
    arguments.ended(__doc__, main)
