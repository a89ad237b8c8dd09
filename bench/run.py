#!/usr/bin/env python3
"""Makes an executable, a plan and two scripts for `run`.

    run.py DIRECTORY DEPTH [ROM]

writes image.elf, plan.json, and the scripts 50000 and 100000 of so many turns into the directory;
the plan's rom has ROM bytes (1,048,576). The program calls DEPTH functions, each from the one
before, and then goes round without an end: a call, a load of a word, a sum, a store of a word, a
return and a jump. So DEPTH or DEPTH + 1 areas are in use.
"""
import usage
from check import RAM, RET, ROM, call, executable, half, movh_a, plan
from tcdlib import arguments


def program(depth):
    leaf = ROM + 0x1000
    code = movh_a(15, RAM >> 16)
    for _ in range(depth):
        code += call(ROM + len(code), ROM + len(code) + 4)
    code += call(ROM + len(code), leaf) + bytes((0x3C, 0xFE))  # j16 .-4
    body = half(0x54, 15, 1) + half(0xC2, 1, 1) + half(0x74, 15, 1) + RET
    return [(ROM, code), (leaf, body)]


def main(directory, depth, rom=0x100000):
    files = {
        "image.elf": executable(program(int(depth))),
        "plan.json": plan(0xD0018000, [], int(rom)).encode(),
        "50000": b"step 50000\n",
        "100000": b"step 100000\n",
    }
    for name, content in files.items():
        with open(f"{directory}/{name}", "wb") as file:
            file.write(content)


def of_words(given):
    """Reads the words, and writes the files."""
    parser = arguments.Parser("directory")
    parser.add_argument("depth", type=usage.between(0, 1000))
    parser.add_argument("rom", nargs="?", type=usage.between(0x2000, 0x400000), default=0x100000)
    main(**vars(parser.parsed(given)))


if __name__ == "__main__":
    arguments.ended(__doc__, of_words)
