#!/usr/bin/env python3
"""Makes firmware.elf of this example by GNU ld: python3 make_elf.py TCD

Only a TriCore assembler makes TriCore objects, and none is needed here: `tcd` assembles main.s, and
the machine's own GNU `as` gets the finished bytes of each section, with the labels. The machine's
own GNU `ld` links them by board.ld (as i386, also a little-endian ELF32), and the machine number is
set to 44. So the file has what GNU ld writes: load addresses, a section table, symbols, a segment
without bytes. Relocations of TriCore are not tried.

Exit status: 0 firmware.elf is written, 2 a program or a file can't be used, 5 wrong words.
"""
import pathlib
import shutil
import subprocess
import sys
import tempfile

HERE = pathlib.Path(__file__).resolve().parent
sys.path.insert(0, str(HERE.parent.parent / "tools"))

import names

#: a section of main.s, and where board.layout puts it
SECTIONS = {"text": 0x80000000, "vector_20": 0x80002280, "data": 0x80001000}


class Unusable(Exception):
    """A program or a file that can't be used, and why."""


def printed(*words, folder):
    """Runs a program, which has to end with status 0."""
    if not shutil.which(words[0]):
        raise Unusable(f"{words[0]}: no such program")
    done = subprocess.run(words, cwd=folder, capture_output=True, text=True)
    if done.returncode:
        raise Unusable(f"{words[0]}: {done.stdout.strip()} {done.stderr.strip()}")


def segments(elf):
    """The bytes of an executable, by load address."""
    number = lambda at, size: int.from_bytes(elf[at : at + size], "little")
    heads = [52 + 32 * i for i in range(number(44, 2))]
    return {number(h + 12, 4): elf[number(h + 4, 4) :][: number(h + 16, 4)] for h in heads}


def host_source(held, labels):
    """The sections as a source of the machine's own assembler: bytes, and labels as symbols."""
    lines = []
    for section, begin in SECTIONS.items():
        lines.append(f'.section .{section}, "{"aw" if section == "data" else "ax"}", @progbits')
        for offset, byte in enumerate(held[begin]):
            for name in labels.get(begin + offset, []):
                kind = "object" if section == "data" else "function"
                # data_load is a symbol of board.ld; what stands at its load address is `level`
                name = "level" if name == "data_load" else name
                lines += [f".global {name}", f".type {name}, @{kind}", f"{name}:"]
            lines.append(f".byte {byte}")
    return "\n".join([*lines, '.section .bss, "aw", @nobits', ".skip 64", ""])


def make(tcd, folder):
    """Writes firmware.elf into a folder."""
    printed(tcd, "asm", str(HERE / "main.s"), "main.o", folder=folder)
    printed(tcd, "link", str(HERE / "board.layout"), "own.elf", "main.o", folder=folder)
    labels = {}
    for address, name, *_ in names.read(HERE / "board.layout", [HERE / "main.s"]).labels:
        if name not in SECTIONS:
            labels.setdefault(address, []).append(name)
    held = segments((folder / "own.elf").read_bytes())
    (folder / "host.s").write_text(host_source(held, labels))
    printed("as", "--32", "host.s", "-o", "host.o", folder=folder)
    script = ["-T", str(HERE / "board.ld"), "-z", "max-page-size=0x100"]
    printed("ld", "-m", "elf_i386", *script, "-o", "firmware.elf", "host.o", folder=folder)
    linked = bytearray((folder / "firmware.elf").read_bytes())
    linked[18:20] = (44).to_bytes(2, "little")
    (HERE / "firmware.elf").write_bytes(linked)


def main(words):
    if len(words) != 1 or words[0] in ("-h", "--help"):
        print(__doc__, file=sys.stdout if words else sys.stderr)
        return 0 if words in (["-h"], ["--help"]) else 5
    try:
        with tempfile.TemporaryDirectory() as folder:
            make(str(pathlib.Path(words[0]).resolve()), pathlib.Path(folder))
    except (Unusable, names.Unusable, OSError) as error:
        print(f"make_elf.py: {error}", file=sys.stderr)
        return 2
    return 0


if __name__ == "__main__":
    sys.exit(main(sys.argv[1:]))
