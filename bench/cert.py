#!/usr/bin/env python3
"""Counts `cert` and `check` on images of so many points, and `gen`.

    cert.py PROGRAM

PROGRAM is a built tcd. Prints for each shape the machine instructions under callgrind, in all and a
point, of `cert` and of `check` of what it wrote, and the most memory that `cert` had. Shapes, each
one frame that ends in a jump to itself:

line   nop16
moves  mov16 of another register at each point
chain  j to the next instruction
"""
import json
import os
import subprocess
import tempfile

import usage
import counting
from check import ROM, executable
from tcdlib import arguments

PLAN = {
    "rom": [{"at": "0x80000000", "len": "0x100000"}],
    "ram": [{"at": "0xD0010000", "len": "0x8000"}],
    "devices": [],
    "csa": {"at": "0xD0000000", "areas": 8, "reserve": 2},
    "sp": "0xD0018000",
    "isp": "0xD0014000",
    "biv": "0x800F0000",
    "btv": "0x800F8000",
    "irqs": [],
    "traps": [],
    "start": {"ie": 0, "ccpn": 0, "is": 0},
    "globals": {"a0": 0, "a1": 0, "a8": 0, "a9": 0},
}
CODES = {
    "line": lambda place: b"\0\0",
    "moves": lambda place: bytes((0x82, place // 15 % 8 << 4 | place % 15)),
    "chain": lambda place: bytes((0x1D, 0, 2, 0)),
}


def instructions(words):
    """Under callgrind."""
    return counting.instructions(words, short_copies=True)[0]


def most_memory(words):
    """In megabytes, as the system counts."""
    process = subprocess.Popen(words, stdout=subprocess.DEVNULL)
    return os.wait4(process.pid, 0)[2].ru_maxrss / 1024


def main(given):
    program = usage.program_of(arguments.Parser("program").parsed(given).program)
    with tempfile.TemporaryDirectory() as folder:
        os.chdir(folder)
        with open("plan.json", "w", encoding="utf-8") as file:
            json.dump(PLAN, file)
        for shape, counts in (
            ("line", (8192, 16384)),
            ("moves", (8192, 16384)),
            ("chain", (4096, 8192)),
        ):
            for count in counts:
                with open("image.elf", "wb") as file:
                    code = b"".join(map(CODES[shape], range(count - 1))) + b"\x3c\0"
                    file.write(executable([(ROM, code)]))
                words = [program, "cert", "image.elf", "plan.json", "x.cert"]
                memory, cert = most_memory(words), instructions(words)
                check = instructions([program, "check", *words[2:]])
                print(
                    f"{shape} {count}: cert {cert}, {cert // count} a point, {memory:.0f} MB; check {check}, {check // count} a point"
                )
        for functions in (250, 500):
            print(f"gen {functions}: {instructions([program, 'gen', str(functions)])}")


if __name__ == "__main__":
    arguments.ended(__doc__, main)
