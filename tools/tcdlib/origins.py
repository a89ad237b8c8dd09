"""Where the address of a store, a load or a call comes from: the instructions before it.

It is read from the listing alone, backwards from the instruction. Of branches it knows only those
that go back into the lines it has read, as loops do: what it finds is what a reader of the source
would look at first, and no proof of anything.
"""
import collections
import re

REGISTER = re.compile(r"\b[ad]\d{1,2}\b")
BASE = re.compile(r"\[(a\d+)(\+?)\]")
#: behind these another path has come here
ENDS = ("ret", "ret16", "rfe", "rfe16", "j", "j16", "ja", "ji", "ji16")
CALLS = ("call", "call16", "calla", "calli", "syscall")
#: what a call and `rslcx` don't bring back
LOWER = {f"d{n}" for n in range(8)} | {f"a{n}" for n in range(2, 8)}
#: 16-bit instructions that read the register that they write
BOTH = re.compile(r"(add|sub|and|or|xor)16(\.a)?")
LOOK_BACK, MOST = 24, 6

#: a register, and the point of the instruction that wrote it last
Origin = collections.namedtuple("Origin", "register point")


def parts(text):
    """The mnemonic and the operands of an instruction."""
    word, _, operands = text.partition(" ")
    return word, operands.split(", ") if operands else []


def written(text):
    """The register that an instruction writes, or None; a call is asked apart."""
    word, operands = parts(text)
    if word == "mov16.d15":
        return "d15"
    if not operands or word.startswith(("st", "j", "call", "sys", "bisr", "mtcr")):
        return None
    return operands[0]


def is_kept(listing, at, register):
    """Whether the function that is called at an address plainly leaves a register as it is."""
    target = listing.target(at)
    for text, _, _ in listing.around(target, 0, LOOK_BACK) if target else []:
        word = text.split(" ")[0]
        if word in ("ret", "ret16"):
            return True
        if word in CALLS or word in ENDS or word == "rslcx" or written(text) == register:
            return False
    return False


def last_writer(listing, lines, place, register):
    """The place of the instruction that wrote a register last, or None."""
    for back in range(place - 1, max(-1, place - 1 - LOOK_BACK), -1):
        text, at, _ = lines[back]
        word = text.split(" ")[0]
        if word in ENDS:
            return None
        is_lost = register in LOWER and (word in CALLS or word == "rslcx")
        if (is_lost and not is_kept(listing, at, register)) or written(text) == register:
            return back
    return None


def read_before(text, is_table):
    """The registers to look at before an instruction that wrote one, the likeliest first."""
    word, operands = parts(text)
    if word in CALLS or word == "rslcx":
        return []
    if word.startswith("ld"):
        base = BASE.search(text)
        return [base[1]] if is_table and base else []
    if word == "addsc.a":
        return [operands[2], operands[1]]
    read = [each for operand in operands[1:] for each in REGISTER.findall(operand)]
    read += operands[:1] if BOTH.fullmatch(word) else []
    return sorted(read, key=lambda register: register[0] == "a")


def asked(text):
    """The register that holds the address of an access, or the target of a call, or None."""
    word, operands = parts(text)
    if word in ("calli", "ji", "ji16"):
        return operands[0]
    base = BASE.search(text)
    return base[1] if base and not base[2] else None


def loop_writers(listing, lines, span, register):
    """The places at which a loop writes a register again, before it comes back into a span.

    The span is from the last writer before an instruction to that instruction.
    """
    first, last = span
    inside = {lines[place].at for place in range(first + 1, last + 1)}
    found, since = [], []
    for place in range(last + 1, len(lines)):
        text, at, _ = lines[place]
        if written(text) == register:
            since.append(place)
        if text.startswith(("j", "loop")) and listing.target(at) in inside:
            found, since = found + since, []
    return found


def origins(listing, at):
    """The instructions from which an address comes, the last one first."""
    lines, found = listing.around(at, LOOK_BACK * MOST, LOOK_BACK), []
    place = next((place for place, line in enumerate(lines) if line.at == at), None)
    if place is None:
        return found
    is_table = lines[place].text.startswith(("calli", "ji"))
    registers = [register] if (register := asked(lines[place].text)) else []
    while len(found) < MOST:
        writers = ((each, last_writer(listing, lines, place, each)) for each in registers)
        register, back = next((pair for pair in writers if pair[1] is not None), (None, None))
        if register is None:
            break
        for writer in (back, *loop_writers(listing, lines, (back, place), register)):
            found.append(Origin(register, lines[writer].at))
        registers, is_table, place = read_before(lines[back].text, is_table), False, back
    return found
