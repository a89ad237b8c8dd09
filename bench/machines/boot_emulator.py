#!/usr/bin/env python3
"""Runs a boot sequence in QEMU, and compares registers and areas with the plan's start state.

    boot_emulator.py PROGRAM [SEED]

PROGRAM is a built tcd; qemu-system-tricore has to be installed (Debian: qemu-system-misc).
`bootgen` writes the sequence for a plan, `asm` and `link` make an executable that begins at code
which puts random words into the areas, the core registers and all others, goes through the
sequence, and ends in a main that reads BIV, BTV and ISP and then jumps to itself. The same sources
with `main` as entry, and a sequence at the same address, are what `boot` says yes to. Of PSW, IO
and IS are compared; PSW and ICR aren't made random, since in the emulator they decide what code may
do. Ends with 1 where anything differs.
"""
import json
import pathlib
import random
import re
import socket
import subprocess
import sys
import tempfile
import time

from boots import CORE, Bench, board, scrambler, sequence
from tcdlib.machine import link_of
from tcdlib.program import of_words

ENTRY, AT, START = 0x80000000, 0x80000800, 0x80001000
END = ENTRY + 12  # where main goes round
# The board has 48 KB of memory from D0000000 on, and rom at 80000000.
PLAN = board(
    rom=[(0x80000000, 0x4000)],
    ram=[(0xD0000000, 0x4000)],
    csa=(0xD0004000, 64, 7),
    sp=0xD0002000,
    isp=0xD0003FF8,
    biv=0x80002000,
    btv=0x80003000,
    start=(0, 5, 1),
    globals=(0xD0000100, 0xD0008000, 0xFFFF8000, 0x7FFF),
)
# The code after the sequence reads what can't be seen from outside.
MAIN = """\
.section text
.global main
main:
    mfcr d8, 0xFE20
    mfcr d9, 0xFE24
    mfcr d10, 0xFE28
end:
    j end
"""


class Emulator:
    """QEMU over its control socket."""

    def __init__(self, folder, elf):
        path = str(folder / "control")
        self.process = subprocess.Popen(
            [
                "qemu-system-tricore",
                "-M",
                "tricore_testboard",
                "-display",
                "none",
                "-serial",
                "none",
                "-monitor",
                "none",
                "-kernel",
                elf,
                "-qmp",
                f"unix:{path},server=on,wait=off",
            ],
            cwd=folder,
            stdin=subprocess.DEVNULL,
        )
        self.socket = socket.socket(socket.AF_UNIX)
        for _ in range(100):
            try:
                self.socket.connect(path)
                break
            except OSError:
                time.sleep(0.1)
        self.lines = self.socket.makefile("r", encoding="utf-8")
        self.lines.readline()
        self.asked("qmp_capabilities")

    def asked(self, command, **given):
        """What a command of the control socket returns."""
        self.socket.sendall(json.dumps({"execute": command, "arguments": given}).encode())
        while True:
            answer = json.loads(self.lines.readline())
            if "return" in answer:
                return answer["return"]
            if "error" in answer:
                raise OSError(answer["error"])

    def told(self, line):
        return self.asked("human-monitor-command", **{"command-line": line})

    def registers(self):
        """PC, PSW, ICR, PCXI, FCX, LCX and all D and A."""
        found, text = {}, self.told("info registers")
        for name, values in re.findall(
            r"(PC|PSW|ICR|PCXI|FCX|LCX|GPR A\d\d|GPR D\d\d):((?: ?[0-9a-f]{8})+)", text
        ):
            numbers = [int(word, 16) for word in values.split()]
            if name.startswith("GPR"):
                found.update(
                    {f"{name[4]}{int(name[5:]) + i}": value for i, value in enumerate(numbers)}
                )
            else:
                found[name] = numbers[0]
        return found

    def words(self, at, count):
        text = self.told(f"xp /{count}xw {at:#x}")
        return [int(word, 16) for word in re.findall(r"0x([0-9a-f]{8})\b", text)]

    def close(self):
        self.process.kill()
        self.process.wait()


def wanted(plan, end):
    """Of a start state, the registers that can be seen; BIV, BTV and ISP are in D8 to D10."""
    areas, first = plan["csa"], link_of(plan["csa"]["at"])
    out = {
        "PC": end,
        "PCXI": 0,
        "FCX": first,
        "LCX": first + areas["areas"] - areas["reserve"],
        "ICR": plan["start"]["ccpn"],
    }
    out.update({f"A{name[1:]}": value for name, value in plan["globals"].items()})
    return {**out, "A10": plan["sp"], "D8": plan["biv"], "D9": plan["btv"], "D10": plan["isp"]}


def main():
    program, seed = of_words(sys.argv[1:], __doc__), int(sys.argv[2]) if len(sys.argv) > 2 else 1
    draw, areas = random.Random(seed), PLAN["csa"]
    with tempfile.TemporaryDirectory() as name:
        bench = Bench(program, pathlib.Path(name))
        bench.put("board.json", json.dumps(PLAN))
        boot = sequence(bench, ENTRY, AT)
        bench.linked("firmware.elf", "main", [("text", MAIN, ENTRY), ("s0", boot, AT)])
        bench.says("certified 0 of 57 areas", "cert", "firmware.elf", "board.json", "firmware.cert")
        bench.says(
            f"boot {53 + 3 * areas['areas']} events certified 0 of 57 areas",
            "boot",
            "firmware.elf",
            "board.json",
            "firmware.cert",
            f"{AT:08X}",
        )
        core = [name for name in CORE if name not in ("psw", "icr")]
        parts = [
            ("text", MAIN, ENTRY),
            ("s0", boot, AT),
            ("scramble", scrambler(PLAN, draw, core), START),
        ]
        bench.linked("tried.elf", "scramble", parts)
        emulator = Emulator(bench.folder, str(bench.folder / "tried.elf"))
        seen = emulator.registers()
        for _ in range(100):
            if seen["PC"] == END:
                break
            time.sleep(0.1)
            seen = emulator.registers()
        words = emulator.words(areas["at"], 16 * areas["areas"])
        emulator.close()
    for name, value in wanted(PLAN, END).items():
        if seen.get(name) != value:
            bench.fault(f"{name} is {seen.get(name, -1):08X} in place of {value:08X}")
    if seen["PSW"] >> 9 & 7 != 4 + PLAN["start"]["is"]:
        bench.fault(f"PSW is {seen['PSW']:08X}")
    first, links = link_of(areas["at"]), words[::16]
    if links != [*range(first + 1, first + areas["areas"]), 0]:
        bench.fault(f"the areas hold {links}")
    if len(set(words)) < 900:
        bench.fault("the areas weren't made random before")
    compared = len(wanted(PLAN, 0)) + 1
    print(
        f"{compared} registers and the links of {areas['areas']} areas compared: {bench.wrong} wrong"
    )
    sys.exit(1 if bench.wrong else 0)


if __name__ == "__main__":
    main()
