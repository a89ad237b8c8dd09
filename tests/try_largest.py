#!/usr/bin/env python3
"""Tries each command with the largest of each kind that the limits allow.

    python3 tests/try_largest.py PROGRAM [PART ..]

PROGRAM is the built tcd (crates/tcd/out/tcd). The files are at their limits: 16,777,216 bytes,
65,536 points, 2,048 frames, 4,096 areas, 64 segments and sections, 65,535 symbols, relocations and
arguments, two to seven tasks, both cores, certificates of both formats (423 and 842 megabytes). No
name of a file is ASCII. What has to be printed and written is worked out from the rules
(tests/largest.py). It takes a gigabyte of memory, one of disk, and some 60 seconds.

A line is printed for each case, with its seconds. Exit status: 0 all are as they have to be, 1 one
isn't, 2 no such program, 5 wrong arguments.
"""
import json
import pathlib
import subprocess
import sys
import tempfile
import time

import scratch  # so that tools/ is on the path
from tcdlib import arguments, progress
from tcdlib import formats as readers
import largest
from tcdlib import program as tcd
from largest import CODE, FILE, SEGMENTS

CORES, MOST = ("1.3", "1.6"), 65535
N = f"certified {largest.CERTIFIED} of {largest.CERTIFIED} areas"
#: by part: commands and what they print. Files are in capitals; lists of files, and texts that are
#: worked out, in braces.
CASES = {
    "certificates": (
        ("cert ELF PLAN CERT", N),
        ("check ELF PLAN CERT", N),
        ("report ELF PLAN CERT", "{report}"),
        ("cfg ELF PLAN", "{graph}"),
        (f"boot ELF PLAN CERT {largest.BOOT:08X}", f"boot {53 + 3 * largest.AREAS} events {N}"),
        ("run ELF PLAN NESTED", "events 65 peak 64 running"),
        ("run ELF PLAN TURNS", f"events 100000 peak {largest.CERTIFIED} running"),
        ("run ELF LESS WHOLE", "{dead}"),
        ("check ELF LESS CERT", f"refused K14 at {CODE:08X} in start {CODE:08X} prio 0 is 0"),
        ("cert FRAMES PLAN NONE", "{frames}"),
        ("cert POINTS PLAN NONE", "{points}"),
        (f"bootgen PLAN {CODE:08X} {largest.BOOT:08X} BOOT", "boot 56 instructions"),
        ("ship PLAN LAYOUT IMAGE CERT {sources}", N),
        ("check IMAGE PLAN CERT", N),
    ),
    "cells": (
        ("cellcert ELF PLAN CELLS CERT", f"{N} with 15 cells"),
        ("cells ELF PLAN CELLS CERT", f"{N} with 15 cells"),
    ),
    "tasks": (
        ("taskcert ELF PLAN TASKS {certs}", f"{N} in {{count}} tasks"),
        ("tasks ELF PLAN TASKS {certs}", f"{N} in {{count}} tasks"),
        ("tasks ELF PLAN TASKS {many}", "bad tasks 7"),
        ("tasks ELF PLAN TASKS {many} CERT", "bad words"),
    ),
    "objects": (
        ("asm SRC OBJ", "object {size} bytes"),
        ("link LAYOUT IMAGE OBJ DATA {objects}", f"image {FILE + 52 + 32 * SEGMENTS} bytes"),
        ("link LAYOUT IMAGE OBJ DATA {objects} DATA", "bad words"),
        ("link ONE OTHER BIG", "image {image} bytes"),
    ),
    "listing": (("dis ELF", "{listing}"),),
    "gen": tuple(
        (
            f"gen {n}",
            f"functions {n} nodes {n + 34} points {4 * n + 120} "
            f"certified {48 + n.bit_length()} of 240 areas",
        )
        for n in range(1, 501)
    ),
}
STATUS = {"refused": 1, "bad words": 5, "bad": 2}


class Room:
    """A folder with the files of a part, and what has to be printed and written there."""

    def __init__(self, program, folder):
        self.program, self.folder = program, pathlib.Path(folder)
        #: by name: texts of the table, lists of files, and what commands write
        self.texts, self.lists, self.written = {}, {}, {}

    def name(self, role):
        """The name of a file."""
        return f"{role.lower()}é字😀"

    def put(self, **files):
        for role, data in files.items():
            (self.folder / self.name(role)).write_bytes(data)

    def words(self, text):
        for word in text.split(" "):
            if word[0] == "{":
                yield from self.lists[word[1:-1]]
            else:
                yield self.name(word) if word.isalpha() and word.isupper() else word

    def fault(self, text, wanted):
        """Tries a case: what is wrong with it, or None."""
        printed = (wanted if wanted.endswith("\n") else wanted + "\n").encode()
        status = next((n for start, n in STATUS.items() if wanted.startswith(start)), 0)
        words = [self.program, *self.words(text)]
        done = subprocess.run(words, cwd=self.folder, capture_output=True)
        if (done.returncode, done.stdout, done.stderr) != (status, printed, b""):
            return f"status {done.returncode}, {len(done.stdout)} bytes: {done.stdout[:200]!r}"
        for role in set(text.split(" ")) & set(self.written) if status == 0 else ():
            if (self.folder / self.name(role)).read_bytes() != self.written[role]:
                return f"{role} isn't what it has to be"
        return None


# What the parts have


def plan_text(plan):
    """A plan of 16,777,216 bytes."""
    text = json.dumps(plan)
    return largest.filled(text[:-1], text[-1], " ")


def lines(*rows):
    """A text of 16,777,216 bytes, its last line at the end."""
    return largest.filled("\n".join(rows[:-1]), "\n" + rows[-1])


def boot(plan):
    return readers.boot_code(readers.plan(json.dumps(plan).encode()), CODE)


def elf(firmware, plan):
    """An executable with the boot sequence of a plan."""
    return largest.elf(CODE, [*firmware.segments().values(), (largest.BOOT, boot(plan))])


def certificates(room, form, core):
    """The largest firmware of a format, one frame more, one point more, one area less."""
    firmware, plan = largest.firmware(form), largest.plan(core, largest.WORDS[form])
    frames = largest.firmware(form, nodes=largest.NODES + 1)
    points = largest.firmware(form, points=largest.POINTS + 1)
    less = {**plan, "csa": {**plan["csa"], "reserve": 2}}
    room.put(ELF=elf(firmware, plan), FRAMES=elf(frames, plan), POINTS=elf(points, plan))
    room.put(PLAN=plan_text(plan), LESS=plan_text(less), WHOLE=b"step 100000")
    nested = largest.nested()
    room.put(NESTED=lines("in 15 0 1", *nested))
    room.put(TURNS=lines(*nested, f"step {100000 - len(nested)}"))
    events, at = firmware.last_save()
    last, end = frames.chain[-1], points.main
    room.texts.update(
        report=firmware.report(),
        graph=firmware.graph(),
        dead=f"events {events} peak {largest.CERTIFIED} dead fcd at {at:08X}",
        frames=f"refused K15 at {last.entry:08X} in {last.title}",
        points=f"refused K15 at {end.at - 4:08X} in {end.title}",
    )
    room.written["BOOT"] = readers.listing([(largest.BOOT, boot(plan))]).encode()
    shipped(room, firmware)


def shipped(room, firmware):
    """A source for each frame, and as many empty ones as a command may have."""
    segments = firmware.segments()
    places = [f"place {name} {at:08X} {len(held):08X}" for name, (at, held) in segments.items()]
    sources = {f"S{n}": text for n, text in enumerate(firmware.sources())}
    names = [*map(room.name, sources)]
    room.put(LAYOUT=lines(*places, "entry main"), EMPTY=b"", **sources)
    room.lists["sources"] = names + [room.name("EMPTY")] * (MOST - 5 - len(names))
    room.written["IMAGE"] = readers.elf_bytes(CODE, list(segments.values()))


def cells(room, core):
    """The index of the firmware in the first of 15 cells, which part the RAM into 16 ranges."""
    plan = largest.plan(core, ram=largest.WHOLE, devices=1)
    room.put(ELF=elf(largest.firmware(2, largest.CELL), plan), PLAN=plan_text(plan))
    at, high = largest.CELL, largest.WORDS[2] - 1
    room.put(CELLS=lines(*(f"cell {at + 8 * n:08X} 00000000 {high:08X}" for n in range(15))))


def tasks(room, core, count):
    """Tasks of 2,048 frames and 65,536 points each, whose views have 16 ranges of devices."""
    plan = largest.plan(core, ram=largest.WHOLE, devices=14)
    each = [largest.task(n, count) for n in range(count)]
    segments = [segment for task in each for segment in task.segments().values()]
    routine = readers.code(readers.routine_lines(count, largest.BLOCK))
    room.put(ELF=largest.elf(CODE, [*segments, (largest.SWITCH, routine)]), PLAN=plan_text(plan))
    rows = [f"task {t.main.entry:08X} {plan['sp'] + 64 * n:08X}" for n, t in enumerate(each)]
    room.put(TASKS=lines(f"switch {largest.SWITCH:08X} {largest.BLOCK:08X}", *rows))
    room.texts["count"] = count
    room.lists["certs"] = [room.name(f"CERT{n}") for n in range(count)]
    room.lists["many"] = [room.name("CERT0")] * (MOST - 4)


def objects(room):
    """64 sections with 65,535 labels, each in a word; 65,530 other words; data up to the limit."""
    first = [f"n{n:063}" for n in range(MOST)]
    parts = [first[at : at + 1024] for at in range(0, MOST, 1024)]
    source = [f".global {first[0]}"]
    for n, part in enumerate(parts):
        source += [f".section s{n}", *(f"{name}: .word {name}" for name in part)]
    places = [divmod(4 * n, 4096) for n in range(MOST)]
    symbols = [(name.encode(), 1 + (name == first[0]), *at) for name, at in zip(first, places)]
    room.written["OBJ"] = readers.object_bytes(
        [(b"s%d" % n, bytes(4 * len(part))) for n, part in enumerate(parts)],
        symbols,
        [(*at, 7, n, 0) for n, at in enumerate(places)],
    )
    room.texts["size"] = len(room.written["OBJ"])
    others = MOST - 5
    data, name = bytes(FILE - 4 * (MOST + others)), symbols[0][0]
    each = readers.object_bytes([(b"s63", bytes(4))], [(name, 0, 0, 0)], [(0, 0, 7, 0, 0)])
    room.lists["objects"] = [room.name("EACH")] * others
    at = [0x90000000, *(CODE + 0x10000 * n for n in range(1, SEGMENTS))]
    most = [FILE, *[0x10000] * (SEGMENTS - 2), FILE]
    places = [f"place s{n} {at[n]:08X} {most[n]:08X}" for n in range(SEGMENTS)]
    room.put(SRC=lines(*source), LAYOUT=lines(*places, f"entry {first[0]}"), EACH=each)
    room.put(DATA=readers.object_bytes([(b"s0", data)], [], []))
    held = [readers.le32(*range(a, a + 4 * len(part), 4)) for a, part in zip(at, parts)]
    held[0], held[-1] = held[0] + data, held[-1] + readers.le32(at[0]) * others
    room.written["IMAGE"] = readers.elf_bytes(at[0], list(zip(at, held)))
    alone(room)


def alone(room):
    """An object of 16,777,216 bytes."""
    made = lambda length: readers.object_bytes([(b"s", bytes(length))], [(b"main", 2, 0, 0)], [])
    length = FILE - len(made(0))
    room.put(ONE=b"place s 80000000 01000000\nentry main", BIG=made(length))
    room.texts["image"] = 52 + 32 + length
    room.written["OTHER"] = readers.elf_bytes(CODE, [(CODE, bytes(length))])


def listing(room):
    """An executable of 64 segments and 16,777,216 bytes, all of one instruction."""
    count = (FILE - 52 - 32 * SEGMENTS) // 4
    counts = [count // SEGMENTS] * (SEGMENTS - 1)
    counts.append(count - sum(counts))
    places = [(0x1000000 * n, each) for n, each in enumerate(counts, 1)]
    held = largest.code("mov d0, 1")
    room.put(ELF=readers.elf_bytes(0, [(at, held * each) for at, each in places]))
    line = "mov d0, 1 # {:08X} 3B100000\n".format
    room.texts["listing"] = "".join(
        f".section s{n} # {at:08X}\n" + "".join(map(line, range(at, at + 4 * each, 4)))
        for n, (at, each) in enumerate(places)
    )


#: the parts, and the numbers with which each is tried
PARTS = {
    "certificates": (certificates, [(form, core) for form in (1, 2) for core in CORES]),
    "cells": (cells, [(core,) for core in CORES]),
    "tasks": (tasks, [(core, count) for core in CORES for count in range(2, 8)]),
    "objects": (objects, [()]),
    "listing": (listing, [()]),
    "gen": (lambda room: None, [()]),
}


def tried(program, part, numbers):
    """Tries the cases of a part: how many there are, and how many are wrong."""
    wrong, title = 0, " ".join(map(str, (part, *numbers)))
    with tempfile.TemporaryDirectory() as folder:
        room = Room(program, folder)
        with progress.of(f"{title}: its files"):
            PARTS[part][0](room, *numbers)
        for text, wanted in CASES[part]:
            wanted, began = wanted.format_map(room.texts), time.monotonic()
            with progress.of(f"{title}: {text}"):
                fault = room.fault(text, wanted)
            took = time.monotonic() - began
            ends = fault or wanted.splitlines()[0][:80]
            print(f"{took:6.2f} s  {title}: {text}: {ends}", flush=True)
            wrong += bool(fault)
    return len(CASES[part]), wrong


def main(words):
    program, parts = tcd.of_words(words, __doc__), words[1:] or list(PARTS)
    if unknown := [part for part in parts if part not in PARTS]:
        print(f"try_largest.py: no part {unknown[0]}: {', '.join(PARTS)}", file=sys.stderr)
        return tcd.BAD_WORDS
    counts = [tried(program, part, numbers) for part in parts for numbers in PARTS[part][1]]
    count, wrong = map(sum, zip(*counts))
    print(f"{count} cases tried, {wrong} wrong")
    return 1 if wrong else 0


if __name__ == "__main__":
    arguments.ended(__doc__, main)
