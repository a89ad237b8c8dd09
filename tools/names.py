#!/usr/bin/env python3
"""Names of functions and lines of sources by address, which `tcd link` doesn't write into a file.

    names.py ELF LAYOUT SOURCE.. [--tcd PROGRAM]  prints the map, a line for each label:
                                                  ADDRESS NAME FILE:LINE
    names.py ELF                                  the same from the symbols (.symtab) of an
                                                  executable that another linker wrote
    names.py .. --at 80000034 --at 8000004E       prints what is at each address:
                                                  ADDRESS NAME+OFFSET FILE:LINE

Name all sources, in the order in which their objects were linked. tcd links them again in a scratch
folder: if that doesn't give ELF, no name is printed. Only 64 bytes of data may differ, of lines
`.byte`, `.half` or `.word`: a checksum may be written into ELF after the link. Standard error names
these lines. A section that begins without a label, as vectors mostly do, is called by its own name.

Exit status: 0 done, 2 a file or a program that can't be used, 5 wrong arguments.
"""
import bisect
import re
import sys
import tempfile

from tcdlib import arguments
from tcdlib import program as tcd
from tcdlib import sources
from tcdlib.formats.binary import Bad, elf as read_image
from tcdlib.sources import Unusable, shown

#: a label farther before an address than this says nothing about it
NEAR = 1 << 20
#: so many bytes may be written into an executable after the link: checksums, numbers, a signature
MOST_PATCHED = 64
#: names may be parts of one another, so they may be so many times as long as the file
MOST_TEXTS = 4
ELF_HEADER, SECTION_HEADER, SYMBOL = 52, 40, 16
SYMBOL_TABLE, FIRST_RESERVED, ABSOLUTE = 2, 0xFF00, 0xFFF1
#: a section of the file's bytes, and flags: it is in memory, and it is code
PROGRAM_BITS, CODE_FLAGS = 1, 2 | 4
NO_TYPE, OBJECT, FUNCTION = 0, 1, 2
GLOBAL = 1
NO_PROGRAM = "only tcd can show that these are the executable's sources; name it with --tcd"


class Map:
    """Names and lines by address.

    `labels` are (address, name, file, line), `rows` are (address, size, file, line).
    """

    def __init__(self, labels=(), rows=()):
        # of several labels at one address the first of the source comes first
        self.labels = sorted(labels, key=lambda row: row[0])
        self.rows = sorted(rows)
        self.at = {}
        for row in self.labels:
            self.at.setdefault(row[0], []).append(row[1])

    def __bool__(self):
        return bool(self.labels)

    def label(self, address):
        """The label at or before an address and the distance to it, or None if none is near."""
        found = bisect.bisect_right(self.labels, (address, "\U0010ffff")) - 1
        if found < 0 or address - self.labels[found][0] > NEAR:
            return None
        base = self.labels[found][0]
        return self.at[base][0], address - base

    def name(self, address, entry=None):
        """`speed_loop`, `speed_loop+12`, or the address if no label is known.

        In a function that begins at `entry`, a label inside it is shown as `speed_loop (again+4)`.
        """
        found = self.label(address)
        if not found:
            return f"{address:08X}"
        label, distance = found
        text = label + (f"+{distance}" if distance else "")
        is_inside = entry in self.at and address - distance != entry
        return f"{self.at[entry][0]} ({text})" if is_inside else text

    def line(self, address):
        """The file and the line of the statement that covers an address, or None."""
        found = bisect.bisect_right(self.rows, (address, 1 << 33)) - 1
        if found >= 0 and address < self.rows[found][0] + self.rows[found][1]:
            return self.rows[found][2:4]
        return None

    def place(self, address):
        """`speed.s:12`, or an empty text."""
        found = self.line(address)
        return f"{found[0]}:{found[1]}" if found else ""


def read(layout, paths):
    """The map of an executable of `tcd link`, from its layout and its sources."""
    places, ends, labels, rows, unnamed = sources.read_places(layout), {}, [], [], []
    for path in paths:
        source = sources.read_source(path)
        bases = {
            name: places[name].at + sources.rounded_up(ends.get(name, 0))
            for name in source.sizes
            if name in places
        }
        labels += [
            (bases[each.section] + each.offset, each.name, path, each.line)
            for each in source.labels
            if each.section in bases
        ]
        rows += [
            (bases[each.section] + each.offset, each.size, path, each.line)
            for each in source.statements
            if each.section in bases
        ]
        unnamed += [(at, name, path, source.first_lines[name]) for name, at in bases.items()]
        ends.update({name: at - places[name].at + source.sizes[name] for name, at in bases.items()})
    known = {row[0] for row in labels}
    return Map(labels + [row for row in unnamed if row[0] not in known], rows)


def made(program, *command):
    """Runs a command of tcd that writes a file."""
    done = tcd.run(program, *command)
    if done.returncode:
        why = tcd.why(done, command)
        raise Unusable(f"{shown(command[1])}: no names, as `{command[0]}` prints: {why}")


def assembled(program, paths, folder):
    """Assembles sources in a folder: the paths of their objects."""
    objects = [f"{folder}/{number}.o" for number in range(len(paths))]
    for path, to in zip(paths, objects):
        made(program, "asm", path, to)
    return objects


def linked(program, layout, paths, folder):
    """Links sources in a folder: the path of the executable."""
    elf = f"{folder}/linked.elf"
    made(program, "link", layout, elf, *assembled(program, paths, folder))
    return elf


def differences(again, elf):
    """The addresses of the bytes in which two executables differ; None if it is more than bytes."""
    try:
        entry, segments = read_image(sources.bytes_of(again))
        other, held = read_image(sources.bytes_of(elf))
    except Bad:
        return None
    if entry != other or [(at, len(b)) for at, b in segments] != [(at, len(b)) for at, b in held]:
        return None
    return (
        at + place
        for (at, ours), (_, theirs) in zip(segments, held)
        for place in (range(len(ours)) if ours != theirs else ())
        if ours[place] != theirs[place]
    )


def patched(again, elf, layout, paths):
    """The lines of data that were written after the link; None if more differs than such lines."""
    found = differences(again, elf)
    if found is None:
        return None
    known, lines = read(layout, paths), {}
    for count, at in enumerate(found):
        line = known.line(at)
        text = sources.statement_of(*line) if line else ""
        word = sources.LABEL.sub("", text, count=1).split()[:1]
        if not word or word[0] not in sources.DATA_SIZES:
            return None
        if count == MOST_PATCHED:
            raise Unusable(
                f"{shown(elf)}: more than {MOST_PATCHED} bytes of data differ from what "
                f"{listed(layout, paths)} link to, so names could be wrong: name all sources in "
                "linked order, or build it again"
            )
        lines[line] = None
    return list(lines)


def listed(layout, paths):
    """A layout and its sources in a sentence."""
    return f"{shown(layout)} and {shown(' '.join(map(str, paths)))}"


def demand(program, elf, layout, paths):
    """Raises Unusable unless the layout and the sources link to an executable.

    Data may have been written into it after the link: its lines are said on standard error.
    """
    with tempfile.TemporaryDirectory() as folder:
        again = linked(program, layout, paths, folder)
        is_same = sources.bytes_of(again) == sources.bytes_of(elf)
        lines = None if is_same else patched(again, elf, layout, paths)
    if lines:
        places = ", ".join(f"{shown(path)}:{line}" for path, line in lines[:4])
        more = f" and {len(lines) - 4} more" if len(lines) > 4 else ""
        print(f"{shown(elf)}: other data than in {places}{more}", file=sys.stderr)
        return
    if not is_same:
        raise Unusable(
            f"{shown(elf)}: {listed(layout, paths)} don't link to it, so names would be wrong: "
            "name all sources in linked order, or build it again"
        )


def demand_objects(program, objects, paths):
    """Raises Unusable unless sources assemble to these objects."""
    with tempfile.TemporaryDirectory() as folder:
        again = [sources.bytes_of(path) for path in assembled(program, paths, folder)]
    if again != [sources.bytes_of(path) for path in objects]:
        raise Unusable(
            f"{shown(' '.join(paths))}: these aren't the sources of {shown(' '.join(objects))} in "
            "their order, so lines would be wrong"
        )


def of(program, elf, names_from):
    """The names of an executable: from LAYOUT SOURCE.. that link to it, or from its symbols."""
    if names_from:
        demand(program, elf, names_from[0], names_from[1:])
        return read(names_from[0], names_from[1:])
    try:
        return read_elf(elf)
    except Unusable:
        return Map()


def number(data, at, size):
    """A little-endian number of a file's bytes."""
    return int.from_bytes(data[at : at + size], "little")


def section_headers(path, data):
    """The section headers of an ELF32 file, each as its ten words."""
    if len(data) < ELF_HEADER or data[:6] != b"\x7fELF\x01\x01":
        raise Unusable(f"{shown(path)}: not a little-endian ELF32 file")
    at, size, count = number(data, 32, 4), number(data, 46, 2), number(data, 48, 2)
    if not at or not count:
        raise Unusable(
            f"{shown(path)}: it has no section table, so no symbols; `tcd link` writes none: "
            "give the layout and the sources"
        )
    if size < SECTION_HEADER or at + size * count > len(data):
        raise Unusable(f"{shown(path)}: its section table passes the end of the file")
    return [[number(data, at + size * i + 4 * f, 4) for f in range(10)] for i in range(count)]


class Texts:
    """The texts in string tables of an ELF file, which together are as long as the file allows."""

    def __init__(self, path, data):
        self.path, self.data, self.left = path, data, MOST_TEXTS * len(data)

    def at(self, table, place):
        """The text that begins at a place of a string table."""
        begin, end = table[4] + place, table[4] + table[5]
        stop = self.data.find(b"\0", begin, end)
        text = self.data[begin : stop if stop >= 0 else end]
        self.left -= len(text)
        if self.left < 0:
            raise Unusable(f"{shown(self.path)}: its names share bytes, and are longer than it")
        return text.decode("utf-8", "replace")


def symbol_tables(path, headers, data):
    """The symbol tables that lie in the file: the offsets of their entries, and their texts."""
    left = len(data)
    for header in headers:
        kind, at, length, link, size = (header[field] for field in (1, 4, 5, 6, 9))
        if kind != SYMBOL_TABLE or size < SYMBOL or link >= len(headers):
            continue
        if at + length <= len(data):
            left -= length
            if left < 0:
                raise Unusable(f"{shown(path)}: its symbol tables share bytes")
            yield range(at, at + length - SYMBOL + 1, size), headers[link]


def code_sections(path):
    """The address and the name of each section of an executable that has code, as vectors have."""
    data = sources.bytes_of(path)
    headers, last, texts = section_headers(path, data), number(data, 50, 2), Texts(path, data)
    if last >= len(headers):
        return []
    code = [h for h in headers if h[1] == PROGRAM_BITS and h[2] & CODE_FLAGS == CODE_FLAGS]
    named = [(h[3], texts.at(headers[last], h[0])) for h in code]
    return [(at, name) for at, name in named if name]


def sections_if_any(path):
    """The same, and none if the section table can't be read: `tcd link` writes none."""
    try:
        return code_sections(path)
    except Unusable:
        return []


def functions(path):
    """The addresses of an executable's function symbols; none if it has no section table."""
    data = sources.bytes_of(path)
    try:
        headers = section_headers(path, data)
    except Unusable:
        return set()
    entries = (at for table, _ in symbol_tables(path, headers, data) for at in table)
    return {number(data, at + 4, 4) for at in entries if data[at + 12] & 15 == FUNCTION}


def symbol(data, at, name):
    """The address, the rank and the name of a symbol, or None if it names no place.

    If several symbols have one address, functions come first, then global names.
    """
    section, info = number(data, at + 14, 2), data[at + 12]
    is_placed = section and (section < FIRST_RESERVED or section == ABSOLUTE)
    if not name or not is_placed or info & 15 not in (NO_TYPE, OBJECT, FUNCTION):
        return None
    return number(data, at + 4, 4), (info & 15 != FUNCTION, info >> 4 != GLOBAL), name


def read_elf(path):
    """The map from the symbols of a little-endian ELF32 file; it has no lines.

    A section of code that begins without a symbol, as vectors mostly do, is called by its own name.
    """
    data = sources.bytes_of(path)
    found, texts = set(), Texts(path, data)
    for entries, table in symbol_tables(path, section_headers(path, data), data):
        names_at = ((at, texts.at(table, number(data, at, 4))) for at in entries)
        found |= {each for at, name in names_at if (each := symbol(data, at, name))}
    if not found:
        raise Unusable(
            f"{shown(path)}: it has no symbols: link it without -s, "
            "or give the layout and the sources"
        )
    named = {address for address, _, _ in found}
    rows = [(address, text) for address, _, text in sorted(found)]
    rows += [row for row in code_sections(path) if row[0] not in named]
    return Map((address, text, "", 0) for address, text in rows)


def print_map(known, asked):
    """The whole map, or what is at the addresses that were asked for."""
    rows = [(at, label, source, line) for at, label, source, line in known.labels]
    if asked:
        rows = [(at, known.name(at), *(known.line(at) or ("", 0))) for at in asked]
    for at, label, source, line in rows:
        place = f" {shown(source)}:{line}" if source else ""
        print(f"{at:08X} {shown(label)}{place}")


def address(word):
    """An address of the words."""
    if not re.fullmatch("(0x)?[0-9A-Fa-f]{1,8}", word):
        raise ValueError(word)
    return int(word, 16)


def main(given):
    """Prints what is asked for, and gives the exit status."""
    parser = arguments.Parser("elf")
    parser.add_names()
    parser.add_argument("--at", action="append", type=address)
    parser.add_argument("--tcd", default="tcd")
    given = parser.parsed(given)
    if given.names:
        known = of(tcd.found(given.tcd, NO_PROGRAM), given.elf, given.names)
    else:
        known = read_elf(given.elf)
    print_map(known, given.at)
    return tcd.DONE


if __name__ == "__main__":
    arguments.ended(__doc__, main)
