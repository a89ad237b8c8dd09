"""Counts `asm`, `link` and `dis` of sources, objects, and an image of every instruction.

    texts.py PROGRAM DIRECTORY
"""
import os
import struct

import usage
from check import executable
from counting import instructions
from tcdlib import arguments

# A function of 20 lines: labels, jumps, calls, loads, stores, halves of symbols, data, comments.
FUNCTION = """\
f{n}:  mov d1, {k}            # a constant
    movh.a a15, hi:table
    lea.l a15, [a15]lo:table
    ld.w d2, [a15]4
    add d3, d1, d2
    jeq d3, 0, .+8
    st.w [a15+]4, d3
    jne d2, 3, f{n}
    call g
    mov16 d4, 1
    add16 d4, d2
    jz16 d4, l{n}
l{n}: ret16
.section data
w{n}:  .word f{n}, {k}
    .half {k}, -1
    .byte 1, 2, 3
    .space 1
.section text

"""


def source(lines):
    """A source of so many lines."""
    functions = (lines - 4) // 20
    text = ".section text\n.global g\ng:  ret16\ntable: .word 0\n"
    return text + "".join(FUNCTION.format(n=n, k=n % 32768) for n in range(functions))


def image(size):
    """An executable of so many bytes, of all rows over and over."""
    with open(
        os.path.join(os.path.dirname(__file__), "instructions.hex"), encoding="utf-8"
    ) as file:
        code = b"".join(bytes.fromhex(line.split()[0]) for line in file if not line.startswith("#"))
    return executable([(0x80000000, (code * (size // len(code) + 1))[:size])])


LAYOUT = "entry global_0_0\nplace text 80000000 00F00000\nplace data D0000000 00080000\n"


def named(text):
    return bytes([len(text)]) + text.encode()


def linkable(number, count, symbols, relocations, undefined):
    """An object among so many: of its symbols so many are global ones of the next objects, the
    others global and local in turn; its relocations write words, each of another symbol."""
    defined = symbols - undefined
    place = 4 * (relocations + 1)
    known = [
        (f"global_{number}_{i}" if i % 2 == 0 else f"local_{i}", 2 - i % 2, 4 * i % place)
        for i in range(defined)
    ]
    used = [
        (f"global_{(number + 1 + i) % count}_{2 * i % max(1, defined) & ~1}", 0, 0)
        for i in range(undefined)
    ]
    names = {}
    for symbol in known + used:
        names.setdefault(symbol[0], symbol)
    listed = list(names.values())
    text = bytes(7 * i % 251 for i in range(4 * relocations + 64))
    parts = [b"TCO1", struct.pack("<HHH", 2, len(listed), relocations)]
    for name, content in (("text", text), ("data", bytes(64))):
        parts.append(named(name) + struct.pack("<I", len(content)) + content)
    parts += [named(name) + struct.pack("<BHI", kind, 0, offset) for name, kind, offset in listed]
    parts += [
        struct.pack("<HIBHI", 0, 4 * i, 7, 13 * i % len(listed), i) for i in range(relocations)
    ]
    return b"".join(parts)


def counted(label, sizes, given):
    """Counts a command for both sizes, and prints their growth."""
    counts = []
    for size in sizes:
        command, front = given(size)
        total, printed, tops = instructions(command, top=8, short_copies=True)
        assert printed.startswith(front), printed[:200]
        counts.append(total)
    one = (counts[1] - counts[0]) / (sizes[1] - sizes[0])
    print(
        f"{label}: {sizes[0]}: {counts[0]}, {sizes[1]}: {counts[1]}, growth {counts[1] / counts[0]:.3f}, each one more {one:.1f}; most instructions:",
        flush=True,
    )
    for row in tops:
        print("   ", row)


def main(program, work):
    def path(name, content):
        with open(f"{work}/{name}", "wb") as file:
            file.write(content)
        return f"{work}/{name}"

    def assembled(lines):
        return [
            program,
            "asm",
            path(f"{lines}.s", source(lines).encode()),
            f"{work}/{lines}.o",
        ], "object "

    def listed(size):
        return [program, "dis", path(f"{size}.elf", image(size))], ".section s0 # 80000000\n"

    def linked(count, symbols, relocations, undefined):
        layout = path("board.layout", LAYOUT.encode())
        objects = [
            path(f"{n}.o", linkable(n, count, symbols, relocations, undefined))
            for n in range(count)
        ]
        return [program, "link", layout, f"{work}/linked.elf", *objects], "image "

    counted("asm, lines", (25004, 50004), assembled)
    counted("link, objects of 500 symbols", (32, 64), lambda count: linked(count, 500, 1500, 100))
    counted("link, objects of 30 symbols", (500, 1000), lambda count: linked(count, 30, 40, 8))
    counted("link, symbols of one object", (8000, 16000), lambda count: linked(1, count, count, 0))
    counted("dis, bytes", (524288, 1048576), listed)


def of_words(given):
    """Reads the words, and counts."""
    given = arguments.Parser("program", "directory").parsed(given)
    main(usage.program_of(given.program), given.directory)


if __name__ == "__main__":
    arguments.ended(__doc__, of_words)
