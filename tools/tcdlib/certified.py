"""An accepted certificate: its frames, and what A10 may be at each of their points.

A point of a certificate lists the values that A10 may have before its instruction. What is taken
from them is help: tcd claims nothing of stacks.
"""
import collections
import contextlib
import tempfile

from tcdlib import arguments
from tcdlib import formats as readers
from tcdlib import judged
from tcdlib import program as tcd
from tcdlib import progress
from tcdlib.frames import WORD
from tcdlib.machine import DECODER

NO_CLAIM = "This is help, no claim: tcd claims nothing of stacks (docs/safety.md, L2)."
#: the registers whose values a point has, in their order
REGISTERS = [f"d{n}" for n in range(16)] + [f"a{n}" for n in (*range(2, 8), 10, *range(12, 16))]
A10 = REGISTERS.index("a10")
KINDS = ("start", "call", "irq", "sys", "aln")

#: a frame: its kind, entry address and priority, PSW.IS, its need, its points
Frame = collections.namedtuple("Frame", "kind entry prio stack need points")
#: a point: its address, its instruction's bytes, the least and the greatest value of A10 (None if it
#: may be any word), and the lowest address of the stack there, which a store may have below A10
Point = collections.namedtuple("Point", "at size least most lowest")


def parser():
    """The arguments of a script that reads an accepted certificate."""
    made = arguments.Parser("elf", "plan", "cert")
    made.add_names("--names")
    judged.add_to(made)
    made.add_argument("--json", action="store_true")
    made.add_argument("--tcd", default="tcd")
    return made


@contextlib.contextmanager
def accepted(given):
    """What is judged, and its report, if the certificate of the arguments is accepted."""
    with tempfile.TemporaryDirectory() as folder, progress.of("reading the certificate"):
        program = tcd.found(given.tcd)
        asked = judged.Judged(program, given.elf, given.plan, folder, given.cells, given.tasks)
        yield asked, asked.accepted(given.cert)


def bounds(value):
    """The least and the greatest member of a value, or two None if it may be any word."""
    if value == "any":
        return None, None
    return (value[0], value[-1]) if isinstance(value, list) else value[1:]


class Reader(readers.Certificate):
    """Reads of a certificate's points the address and A10 alone: the largest have 800 megabytes."""

    def point(self, points):
        address, _ = self.take(4)
        self.take(3)  # interrupts, the priority, the kind of the latest context
        self.take(self.take(1)[0])
        values = [self.value() if n == A10 else self.skip() for n in range(len(REGISTERS))]
        return address, values[A10]

    def skip(self):
        """Skips a value."""
        kind, _ = self.take(1)
        self.at += 8 if kind >= 0xF0 else 4 * kind


def point_of(at, value, segments):
    """What is at a point of a certificate."""
    held = [readers.byte_at(segments, at + n) for n in range(4)]
    name, operands, size = DECODER.decode(bytes(byte for byte in held if byte is not None))
    least, most = bounds(value)
    offsets = [each[2] for each in operands if each[:2] == ("m", 10) and not each[3]]
    if least is None or not offsets or not name.startswith("st"):
        return Point(at, size, least, most, least)
    return Point(at, size, least, most, min(least, least + offsets[0] & WORD))


def frames_of(cert, image):
    """The frames of an accepted certificate of an executable."""
    nodes = judged.read(cert, lambda data: Reader(data).read()[1])
    for (kind, entry, prio, stack), need, _, points in nodes:
        read = [point_of(*point, image[1]) for point in points]
        yield Frame(KINDS[kind], entry, prio, stack, need, read)


def begun(frame):
    """The least A10 with which a frame begins, or None."""
    return next((point.least for point in frame.points if point.at == frame.entry), None)
