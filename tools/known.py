#!/usr/bin/env python3
"""Counts what of an executable's code tcd doesn't know: is tcd for this firmware?

    known.py ELF [PLAN | --vectors BIV BTV] [--all] [--json]

The code is followed from the entry, from the vectors (those that PLAN states, or with --vectors
those whose first four bytes aren't all zero), and from each function symbol. An instruction that
isn't in tcd's table is taken to go on after itself: bit 0 of its first byte tells its length. The
counts rest on that and on tcd's own table alone. Targets of calls and jumps through registers
aren't known: with --all each word of data that names an address after a return or a jump is
followed, too, which is a guess.

Apart from the counts, what isn't known is listed by name. **The names, and where unknown jumps go,
are from memory of the manual** (tools/tcdlib/known_rows.py) and were not compared with it.

That all instructions are known makes no certificate: `tcd cert` also asks for known targets,
bounded stores and no recursion (docs/code.md).

Exit status: 0 all instructions reached are known, 1 some aren't, 2 a file that can't be used, 5
wrong arguments.
"""
import collections
import json

import names
from tcdlib import arguments
from tcdlib import formats as readers
from tcdlib import judged
from tcdlib import known_rows
from tcdlib import machine
from tcdlib import progress

CLASSES = {"sys": 6, "aln": 2}
#: what a word of data may name: an address after one of these
LEAVES = ("ret", "rfe", "j", "ji", "ja")
FROM_MEMORY = "from memory of the manual, not compared with it"


class Found:
    """An instruction: its name or None if tcd doesn't know it, its operands, length and word."""

    def __init__(self, name, operands, length, word):
        self.name, self.operands, self.length, self.word = name, operands, length, word

    @property
    def kind(self):
        return self.name.replace("16", "", 1).split(".")[0] if self.name else ""


class Image:
    """The bytes of an executable."""

    def __init__(self, segments):
        self.segments = sorted(segments)

    def bytes(self, at, count):
        for begin, held in self.segments:
            if begin <= at < begin + len(held):
                return bytes(held[at - begin : at - begin + count])
        return b""

    def at(self, pc):
        """The instruction at an address, or None if there are no bytes for it."""
        held = self.bytes(pc, 4)
        length = 4 if held and held[0] & 1 else 2
        if pc & 1 or len(held) < length:
            return None
        word = int.from_bytes(held[:length], "little")
        try:
            name, operands, length = machine.DECODER.decode(held)
        except machine.Dies:
            return Found(None, [], length, word)
        return Found(name, operands, length, word)


# Following code


def ways(pc, found):
    """Where a known instruction goes on, what it calls, and whether that is through a register."""
    after, kind = pc + found.length, found.kind
    last = found.operands[-1] if found.operands else ("", 0)
    goes = pc + last[1] & machine.WORD if last[0] == "t" else last[1] if last[0] == "u" else None
    if kind in ("ret", "rfe", "ji"):
        return [], kind == "ji"
    if kind in ("j", "ja"):
        return [goes], False
    if kind in ("call", "calla", "calli"):
        return [after] + [goes] * (goes is not None), goes is None
    return [after] + [goes] * (last[0] == "t"), False


def unknown_ways(pc, found):
    """The same of an unknown instruction, by its name and form from memory."""
    after, name = pc + found.length, known_rows.name_of(found.word, found.length)
    through = name.startswith(known_rows.THROUGH)
    if name.startswith(known_rows.ENDS):
        return [], through
    jump = known_rows.target(pc, found.word)
    return [after] if jump is None else [after, jump], through


class Reached:
    """The instructions that are reached, the calls through registers, the targets without bytes."""

    def __init__(self, image, starts, by_memory=False):
        self.found, self.through, self.lost, work = {}, [], set(), list(starts)
        while work:
            pc = work.pop()
            if pc in self.found:
                continue
            found = image.at(pc)
            if found is None:
                self.lost.add(pc)
                continue
            self.found[pc] = found
            if found.name:
                on, through = ways(pc, found)
            elif by_memory:
                on, through = unknown_ways(pc, found)
            else:
                on, through = [pc + found.length], False
            self.through += [pc] * through
            work += on

    @property
    def unknown(self):
        return sorted(pc for pc, found in self.found.items() if not found.name)

    @property
    def size(self):
        return sum(found.length for found in self.found.values())


# Where code begins


def vectors(image, board, given):
    """The entries of handlers."""
    if board:
        traps = [board["btv"] | CLASSES[trap] << 5 for trap in board["traps"]]
        return [board["biv"] | p << 5 for p in board["irqs"]] + traps
    if given:
        every = [given[0] | p << 5 for p in range(1, 256)] + [given[1] | c << 5 for c in range(8)]
        return [at for at in every if any(image.bytes(at, 4))]
    return []


def pointed(image, found):
    """Words of what isn't reached that name an address after a return or a jump."""
    ends = {pc + f.length for pc, f in found.items() if f.kind in LEAVES}
    out = set()
    for begin, held in image.segments:
        for at in range(begin + -begin % 4, begin + len(held) - 3, 4):
            word = readers.number(held, at - begin, 4)
            if at in found or word in found or word & 1 or not image.bytes(word, 2):
                continue
            if word in ends or image.at(word - 2) and image.at(word - 2).kind in ("ret", "rfe"):
                out.add(word)
    return out


def with_tables(image, starts):
    """The starts, and all words of data that look like functions of what is reached from them."""
    guessed = set()
    while True:
        more = pointed(image, Reached(image, [*starts, *guessed]).found) - guessed
        if not more:
            return guessed
        guessed |= more


# What is printed


def counts(reached):
    total, bad = len(reached.found), len(reached.unknown)
    share = f" ({100 * bad / total:.1f} %)" if bad else ""
    return f"{total} instructions reached: {total - bad} known, {bad} not known{share}"


def by_name(reached):
    """The unknown instructions by name: lists of addresses, the longest first."""
    kinds = collections.defaultdict(list)
    for pc in reached.unknown:
        found = reached.found[pc]
        kinds[known_rows.name_of(found.word, found.length)].append(pc)
    return sorted(kinds.items(), key=lambda item: (-len(item[1]), item[0]))


def verdict(reached):
    """One sentence on what the share of unknown instructions means."""
    bad, total = len(reached.unknown), len(reached.found)
    if not bad:
        return "All instructions that are reached are in tcd's table."
    if 50 * bad < total:
        few = "Few aren't known: they may be written otherwise, by hand or by switches"
        return f"{few} of the compiler."
    return "tcd isn't for this firmware as it is; parts of it in assembler may be."


def report(given, image, starts, guessed, name):
    """Prints the counts, then what isn't known by name. Gives the status."""
    every = [*starts, *sorted(guessed)]
    with progress.of("following the code"):
        reached, further = Reached(image, every), Reached(image, every, by_memory=True)
    whole = sum(len(held) for _, held in image.segments)
    guesses = f" and {len(guessed)} words of data" if guessed else ""
    print(f"Counts, from {len(starts)} entries{guesses}")
    print(f"  {counts(reached)}")
    print(f"  {reached.size} of {whole} bytes are code that is reached; the rest is data, or isn't")
    if reached.through:
        first = name(min(reached.through))
        hint = "" if given.all else "; --all guesses them here"
        count = len(reached.through)
        print(f"  {count} calls and jumps go through registers, the first at {first}:")
        print(f"  tcd has to find their targets in tables (K5){hint}")
    if reached.lost:
        first = f"{min(reached.lost):08X}"
        print(f"  {len(reached.lost)} targets are outside of the executable, the first at {first}")
    print(f"  {verdict(reached)}")
    if further.unknown:
        print(f"\nNames of what isn't known, {FROM_MEMORY}")
        print(f"  {'count':>6}  {'instruction':30} first at")
        for kind, at in by_name(further):
            print(f"  {len(at):6}  {kind:30} {name(at[0])}" + wider(kind))
        if further.found.keys() != reached.found.keys():
            print(f"  By where such jumps go: {counts(further)}")
    return 1 if reached.unknown else 0


def wider(kind):
    """A note where tcd knows the 32-bit form of a 16-bit instruction."""
    known = kind.endswith("(16 bits)") and kind.split(" ")[0] in {row.name for row in readers.ROWS}
    return ", its form of 32 bits is known" if known else ""


def as_json(image, every):
    """The same as one JSON object."""
    with progress.of("following the code"):
        reached, further = Reached(image, every), Reached(image, every, by_memory=True)
    kinds = {kind: {"count": len(at), "first": f"{at[0]:08X}"} for kind, at in by_name(further)}
    found = {"instructions": len(reached.found), "unknown": len(reached.unknown)}
    found |= {"reached": reached.size, "bytes": sum(len(held) for _, held in image.segments)}
    found |= {"through": len(reached.through)}
    found["from memory"] = {"instructions": len(further.found), "unknown": len(further.unknown)}
    found["from memory"]["kinds"] = kinds
    print(json.dumps(found))
    return 1 if reached.unknown else 0


# The arguments


def name_of(path):
    """A function that names an address by the executable's symbols."""
    known = names.of(None, path, [])
    return lambda at: f"{at:08X} {known.name(at)}" if known else f"{at:08X}"


def parsed(given):
    """The arguments."""
    parser = arguments.Parser("elf")
    parser.add_argument("plan", nargs="?")
    parser.add_argument("--vectors", nargs=2, type=names.address)
    parser.add_argument("--all", action="store_true")
    parser.add_argument("--json", action="store_true")
    return parser.parsed(given)


def main(given):
    """Counts, prints, and gives the exit status."""
    given = parsed(given)
    entry, segments = judged.image_of(given.elf)
    board = judged.board_of(given.plan) if given.plan else None
    symbols = names.functions(given.elf)
    image = Image(segments)
    starts = {entry, *vectors(image, board, given.vectors)}
    starts |= {at for at in symbols if image.bytes(at, 2)}
    with progress.of("following the code"):
        guessed = with_tables(image, starts) if given.all else set()
    if given.json:
        return as_json(image, [*starts, *guessed])
    return report(given, image, sorted(starts), guessed, name_of(given.elf))


if __name__ == "__main__":
    arguments.ended(__doc__, main)
