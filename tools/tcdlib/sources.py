"""Sources and layouts as text: the one reader of them that names.py, explain.py and view.py share.

It reads what docs/formats.md calls a source and a layout, as far as addresses need it: sections,
labels, and how many bytes each statement takes. It doesn't judge operands: if `asm` refuses a
source, the offsets after the refused line mean nothing.
"""
import codecs
import dataclasses
import hashlib
import pathlib
import re

LABEL = re.compile(r"([A-Za-z_.$][A-Za-z0-9_.$]*)[ \t]*:")
NUMBER = re.compile(r"-?(0x[0-9A-Fa-f]+|[0-9]+)")
PLACE = re.compile(r"place (\S+) ([0-9A-F]{8}) ([0-9A-F]{8})")
DATA_SIZES = {".byte": 1, ".half": 2, ".word": 4}
#: what some editors put before a text
MARKS = codecs.BOM_UTF8, codecs.BOM_UTF16_LE, codecs.BOM_UTF16_BE
#: the linker places each section at a multiple of this
ALIGNMENT = 4


class Unusable(Exception):
    """A file that can't be used, and why, in one line."""


@dataclasses.dataclass(frozen=True)
class Label:
    """A label: its section, its offset there, its name and its line."""

    section: str
    offset: int
    name: str
    line: int


@dataclasses.dataclass(frozen=True)
class Statement:
    """A statement that has bytes: its section, its offset there, its size and its line."""

    section: str
    offset: int
    size: int
    line: int


@dataclasses.dataclass
class Source:
    """A source. `sizes` and `first_lines` are by section, in the order of the object's sections."""

    path: str
    labels: list
    statements: list
    sizes: dict
    first_lines: dict


@dataclasses.dataclass(frozen=True)
class Place:
    """A line `place` of a layout: the address, the most bytes, and the line."""

    at: int
    most: int
    line: int


def shown(text):
    """A text from a file for a terminal, with what could move the cursor or colour it escaped."""
    text = str(text)
    if text.isprintable():
        return text
    return "".join(c if c.isprintable() else c.encode("unicode_escape").decode() for c in text)


def bytes_of(path):
    """The bytes of a file."""
    try:
        return pathlib.Path(path).read_bytes()
    except OSError as e:
        raise Unusable(f"{shown(path)}: {e.strerror}") from None
    except ValueError:  # a name with a zero byte
        raise Unusable(f"{shown(path)}: no name of a file") from None


def checksum(path):
    """The SHA-256 of a file's bytes, in hex digits."""
    return hashlib.sha256(bytes_of(path)).hexdigest()


def has_mark(path):
    """Whether a file begins with a byte order mark."""
    try:
        return bytes_of(path).startswith(MARKS)
    except (Unusable, TypeError):
        return False


def lines_of(path):
    """The lines of a text file. Only a line feed ends a line, and any byte is a character."""
    return bytes_of(path).decode("latin-1").split("\n")


def raw_line(path, number):
    """Line `number` of a file, from 1, as it is, or an empty text if there is none."""
    try:
        lines = lines_of(path)
    except (Unusable, TypeError):
        return ""
    return lines[number - 1] if 1 <= number <= len(lines) else ""


def line_of(path, number):
    """Line `number` of a file for a reader: without blanks around it; UTF-8, if that is what it is."""
    line = raw_line(path, number).strip()
    try:
        return line.encode("latin-1").decode()
    except UnicodeDecodeError:
        return line


def statement_of(path, number):
    """Line `number` of a source without its comment, or an empty text if there is none."""
    return line_of(path, number).split("#")[0].strip()


def rounded_up(offset):
    """The next offset at which a section may begin."""
    return -(-offset // ALIGNMENT) * ALIGNMENT


def parsed_number(text):
    """A number of a source: decimal or `0x..`, perhaps with a `-`."""
    if not NUMBER.fullmatch(text):
        raise ValueError(text)
    return int(text, 16 if "x" in text else 10)


def size_of(word, operands):
    """How many bytes a statement takes."""
    if word in DATA_SIZES:
        return DATA_SIZES[word] * (operands.count(",") + 1)
    if word == ".space":
        return parsed_number(operands)
    return 2 if "16" in word else 4


def read_source(path):
    """The labels, statements and sections of a source."""
    source, section = Source(path, [], [], {}, {}), None
    for number, line in enumerate(lines_of(path), 1):
        line = line.split("#")[0].strip()
        if found := LABEL.match(line):
            label = Label(section, source.sizes.get(section, 0), found[1], number)
            source.labels.append(label)
            line = line[found.end() :].strip()
        word, _, operands = line.replace("\t", " ").partition(" ")
        operands = operands.strip()
        if word == ".section":
            section = operands
            source.sizes.setdefault(section, 0)
            source.first_lines.setdefault(section, number)
        elif word and word != ".global":
            add_statement(source, section, number, (word, operands))
    return source


def add_statement(source, section, number, statement):
    """Puts a statement at the end of its section."""
    place = f"{shown(source.path)}:{number}"
    if section is None:
        raise Unusable(f"{place}: a statement before any .section")
    try:
        size = size_of(*statement)
    except ValueError:
        raise Unusable(f"{place}: not a number: {shown(statement[1])}") from None
    source.statements.append(Statement(section, source.sizes[section], size, number))
    source.sizes[section] += size


def read_places(path):
    """The places of a layout by section."""
    places = {}
    for number, line in enumerate(lines_of(path), 1):
        found = PLACE.fullmatch(line)
        if found:
            places[found[1]] = Place(int(found[2], 16), int(found[3], 16), number)
        elif line and not re.fullmatch(r"entry \S+", line):
            raise Unusable(f"{shown(path)}:{number}: not a line of a layout: {shown(line)}")
    return places


def linked_size(sources, section):
    """How many bytes the sections of one name take together, as the linker places them."""
    size = 0
    for source in sources:
        if section in source.sizes:
            size = rounded_up(size) + source.sizes[section]
    return size


def uses(path, name):
    """The numbers of the lines that have a name outside of comments."""
    word = re.compile(rf"(?<![\w.$]){re.escape(name)}(?![\w.$])")
    return [n for n, line in enumerate(lines_of(path), 1) if word.search(line.split("#")[0])]


def line_at(path, section, offset):
    """The line of the statement at an offset of the section with this number, or None."""
    try:
        source = read_source(path)
        name = list(source.sizes)[int(section)]
    except (Unusable, IndexError):
        return None
    for row in source.statements:
        if row.section == name and row.offset == int(offset):
            return row.line
    return None
