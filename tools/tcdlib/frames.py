"""The listing of an executable, and the frames of a certificate with the ways between them.

`Listing` reads what `dis` prints; `Graph` reads what `report` and `cfg` print (docs/formats.md).
Addresses are texts of eight hex digits, as tcd prints them.
"""
import collections
import dataclasses
import json
import re

from tcdlib.sources import Unusable, shown

KEY = re.compile(r"(start|call|irq|sys|aln) ([0-9A-F]{8}) prio (\d+) is ([01])")
EDGE = re.compile(r"(.*): ([0-9A-F]{8}) (to|call|back|sys|aln|irq|ret|rfe)(?: ([0-9A-F]{8}))?")
CODE = re.compile(r"(.*) # ([0-9A-F]{8}) ([0-9A-F]+)")
SECTION = re.compile(r"\.section (\S+) # ([0-9A-F]{8})")
TARGET = re.compile(r"(\.[+-]\d+|0x[0-9A-F]{8})$")
MOVH_A = re.compile(r"movh\.a (a\d+), (-?\d+)")
BASE = re.compile(r"\[(a\d+)\](-?\d+)")
#: how far after `movh.a` the second half of an address is looked for, in bytes
HALVES = 16
#: the ways by which a frame takes an area and enters another frame
ENTRIES = ("call", "sys", "aln", "irq")
#: what each of these does to the number of lower contexts that a frame holds
SAVES = {"svlcx": 1, "bisr": 1, "bisr16": 1, "rslcx": -1}
WORD = 0xFFFFFFFF

#: an instruction of the listing: its text, its address, its bytes in hex digits
Instruction = collections.namedtuple("Instruction", "text at code")
#: an entry on a chain: the frame, the point, the lower contexts it holds there, the way, the frame
#: that is entered
Step = collections.namedtuple("Step", "frame point saved way into")


def hex8(address):
    """An address as tcd prints it."""
    return f"{address & WORD:08X}"


def built_addresses(lines):
    """By instruction: the address whose two halves `movh.a` and this instruction hold."""
    halves, found = {}, {}
    for text, at, _ in lines:
        if upper := MOVH_A.match(text):
            halves[upper[1]] = int(upper[2]) << 16, int(at, 16)
        elif (lower := BASE.search(text)) and lower[1] in halves:
            half, begun = halves[lower[1]]
            if int(at, 16) - begun <= HALVES:
                found[at] = half + int(lower[2]) & WORD
            if text.startswith(("lea", "ld.a")):
                halves.pop(text.split(" ")[1].rstrip(","), None)
    return found


class Listing:
    """What `dis` prints: sections, each a list of instructions in the order of their addresses."""

    def __init__(self, text):
        self.sections, self.texts = [], {}
        for line in text.splitlines():
            if found := SECTION.fullmatch(line):
                self.sections.append((found[2], []))
            elif (found := CODE.fullmatch(line)) and self.sections:
                self.sections[-1][1].append(Instruction(*found.groups()))
                self.texts[found[2]] = found[1]
            else:
                raise Unusable(f"not a line of a listing: {shown(line)[:80]}")

    def word(self, at):
        """The mnemonic at an address, or an empty text."""
        return self.texts.get(at, "").split(" ")[0]

    def target(self, at):
        """The address that the instruction at an address names, or None."""
        found = TARGET.search(self.texts.get(at, ""))
        if not found:
            return None
        base = int(at, 16) if found[1][0] == "." else 0
        return hex8(base + int(found[1].lstrip("."), 0))

    def around(self, at, before, after):
        """The instructions around an address, or none if the executable has none there."""
        for _, lines in self.sections:
            for place, line in enumerate(lines):
                if line.at == at:
                    return lines[max(0, place - before) : place + after + 1]
        return []


@dataclasses.dataclass(frozen=True)
class Key:
    """The kind of a frame: `call 80000020 prio 10 is 1`."""

    kind: str
    entry: str
    prio: int
    stack: int

    def __str__(self):
        return f"{self.kind} {self.entry} prio {self.prio} is {self.stack}"


def key_of(text):
    """The key that a printed text is."""
    found = KEY.fullmatch(text)
    if not found:
        raise Unusable(f"not a kind of frame: {shown(text)[:80]}")
    return Key(found[1], found[2], int(found[3]), int(found[4]))


class Frame:
    """A kind of frame: its key, its need, and the ways out of each of its points."""

    def __init__(self, number, key, need, points):
        self.place, self.key, self.need, self.points = f"f{number}", key, need, points
        #: by point: the ways out, each with the address to which it leads (None for a return)
        self.ways = {}
        #: by point: the lower contexts that the frame saved and holds there
        self.saved = {}

    @property
    def who(self):
        """The part of the firmware to which the frame belongs, by priority."""
        return f"interrupt {self.key.prio}" if self.key.prio else "background"


class Graph:
    """The frames of a certificate by their keys' texts, the start's first."""

    def __init__(self, report, edges, listing):
        self.listing, self.frames = listing, {}
        try:
            self.report = json.loads(report)
            for number, node in enumerate(self.report["nodes"]):
                key = key_of(node["key"])
                self.frames[node["key"]] = Frame(number, key, node["need"], node["points"])
            self.certified = self.report["certified"]
            self.areas, self.reserve = self.report["areas"], self.report["reserve"]
        except (ValueError, KeyError, TypeError):
            raise Unusable("`report` didn't print what docs/formats.md says") from None
        self.read_edges(edges)
        self.handlers = collections.defaultdict(list)
        for frame in self.frames.values():
            if frame.key.kind == "irq":
                self.handlers[frame.key.entry].append(frame)
            self.count_saved(frame)

    def read_edges(self, text):
        """Gives each frame its ways."""
        for line in text.splitlines():
            found = EDGE.fullmatch(line)
            if not found or found[1] not in self.frames:
                raise Unusable(f"`cfg` didn't print a way: {shown(line)[:80]}")
            self.frames[found[1]].ways.setdefault(found[2], []).append((found[3], found[4]))

    @property
    def usable(self):
        """How many areas there are without the reserve."""
        return self.areas - self.reserve

    @property
    def start(self):
        """The frame of the background."""
        return next(iter(self.frames.values()))

    def count_saved(self, frame):
        """At each point the lower contexts that the frame saved and hasn't restored."""
        work = [(frame.key.entry, 0)]
        while work:
            point, saved = work.pop()
            if point in frame.saved or point not in frame.ways:
                continue
            frame.saved[point] = saved
            after = saved + SAVES.get(self.listing.word(point), 0)
            work += [(to, after) for way, to in frame.ways[point] if way in ("to", "back")]

    def entered(self, frame, way, to):
        """The frame that a way enters; of two interrupts with one handler the needier one."""
        if way == "irq":
            return max(self.handlers[to], key=lambda handler: handler.need, default=None)
        stack = frame.key.stack if way == "call" else 1
        return self.frames.get(str(Key(way, to, frame.key.prio, stack)))

    def entries(self, frame):
        """All entries into other frames from a frame."""
        for point, ways in frame.ways.items():
            for way, to in ways:
                if way in ENTRIES and (into := self.entered(frame, way, to)):
                    yield Step(frame, point, frame.saved.get(point, 0), way, into)

    def saved_after(self, frame, point):
        """The most lower contexts that a frame holds at a point, before it or after."""
        return frame.saved[point] + max(SAVES.get(self.listing.word(point), 0), 0)

    def most_saved(self, frame):
        """The most lower contexts that a frame holds at once."""
        return max((self.saved_after(frame, point) for point in frame.saved), default=0)

    def deepest(self):
        """The chain of entries that takes the most areas.

        Gives its steps, its last frame, and the lower contexts that this one holds at most.
        """
        chain, frame = [], self.start
        while len(chain) <= len(self.frames):
            held = self.most_saved(frame)
            depth = lambda step: step.saved + 1 + step.into.need
            step = max(self.entries(frame), key=depth, default=None)
            if step is None or held >= depth(step):
                break
            chain.append(step)
            frame = step.into
        return chain, frame, self.most_saved(frame)

    def shares(self):
        """How many areas of the longest chain each priority takes."""
        chain, last, held = self.deepest()
        shares = collections.Counter()
        for step in chain:
            shares[step.frame.who] += step.saved
            shares[step.into.who] += 1
        shares[last.who] += held
        return {who: count for who, count in shares.items() if count}
