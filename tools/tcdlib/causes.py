"""Why rule 14 is broken: the ring of frames by which a frame leads back to itself, or how many
areas would be enough.

The ring is read from the listing alone: it follows each path without values, so it may pass a
branch that is never taken. Targets of calls through registers are the words of the table whose
address stands in the instructions before the call.
"""
import collections
import json
import pathlib
import re
import tempfile

from tcdlib import origins
from tcdlib import plans
from tcdlib import program as tcd
from tcdlib.frames import TARGET, WORD, Key, Listing, Step, built_addresses, hex8, key_of
from tcdlib.sources import Unusable, bytes_of

RETURNS = ("ret", "ret16", "rfe", "rfe16")
CALLS = ("call", "call16", "calla", "calli")
JUMPS = ("j", "j16", "ja", "ji", "ji16")
ACCESS = re.compile(r"(ld|st)(16)?\.(h|hu|w|a)(\.l)?")
MEMORY = re.compile(r"\[(a\d+)\+?\](-?\d*)")
SYSTEM_CALL, MISALIGNED = 0xC0, 0x40
VECTOR_SHIFT = 5
#: how far before a call through a register its table's address is looked for, and how many
#: words the table has at most
LOOK_BACK, TABLE = 24, 128


class Tables:
    """The targets of calls and jumps through registers, from tables in the listing."""

    def __init__(self, listing):
        self.listing, self.where, self.memory = listing, {}, []
        #: addresses that code builds: where a table begins, the one before it ends
        self.begins = set()
        for number, (at, lines) in enumerate(listing.sections):
            self.memory.append((int(at, 16), bytes.fromhex("".join(line.code for line in lines))))
            self.where.update({line.at: (number, place) for place, line in enumerate(lines)})
            self.begins.update(built_addresses(lines).values())

    def word(self, address):
        """The word of the executable at an address, or None."""
        for begin, held in self.memory:
            if begin <= address <= begin + len(held) - 4:
                return int.from_bytes(held[address - begin : address - begin + 4], "little")
        return None

    def targets(self, at):
        """The addresses that an indirect call or jump may reach."""
        register = self.listing.texts[at].split(" ")[-1]
        kind, address = self.value(register, *self.where[at])
        if kind == "address":
            return [hex8(address & ~1)]
        found, stride = [], self.stride(*self.where[at])
        while kind == "table" and len(found) < TABLE:
            at = address + stride * len(found)
            word = self.word(at)
            is_next = bool(found) and at in self.begins
            if is_next or word is None or hex8(word & ~1) not in self.listing.texts:
                break
            found.append(hex8(word & ~1))
        return list(dict.fromkeys(found))

    def entries(self, at, devices):
        """The addresses and the words of the table of an indirect call, as far as its index goes.

        The index may be bounded by an `and` before the call or by a device from which it is loaded.
        If neither is found, the table goes on to the next address that code builds.
        """
        section, place = self.where[at]
        kind, address = self.value(self.listing.texts[at].split(" ")[-1], section, place)
        bound, stride = self.bound(section, place, devices) or TABLE, self.stride(section, place)
        for number in range(bound if kind == "table" else 0):
            entry = address + stride * number
            word = self.word(entry)
            if word is None or (number and bound == TABLE and entry in self.begins):
                return
            yield entry, word

    def scaled(self, section, place):
        """The place of the `addsc.a` before an indirect call, or None."""
        lines = self.listing.sections[section][1]
        return next(
            (back for back in range(place - 1, max(-1, place - 1 - LOOK_BACK), -1)
             if lines[back].text.startswith("addsc.a")), None,
        )  # fmt: skip

    def stride(self, section, place):
        """How many bytes a record of the table takes before an indirect call: 4 for plain words."""
        scaled = self.scaled(section, place)
        if scaled is None:
            return 4
        operands = origins.parts(self.listing.sections[section][1][scaled].text)[1]
        return max(4, 1 << int(operands[3]))

    def bound(self, section, place, devices):
        """How many words the index before an indirect call may name, or None."""
        lines = self.listing.sections[section][1]
        scaled = self.scaled(section, place)
        if scaled is None:
            return 1
        index = origins.parts(lines[scaled].text)[1][2]
        writer = origins.last_writer(self.listing, lines, scaled, index)
        if writer is None:
            return None
        word, operands = origins.parts(lines[writer].text)
        if word == "and" and operands[-1].isdecimal():
            return int(operands[-1]) + 1
        if word.startswith("ld.w") and (base := MEMORY.search(operands[-1])):
            kind, address = self.value(base[1], section, writer)
            for device in devices if kind == "address" else ():
                if plans.number(device["at"]) == address + int(base[2] or 0) & WORD:
                    return plans.number(device["hi"]) + 1
        return None

    def value(self, register, section, place):
        """What a register holds before an instruction: an address, or a word of a table there."""
        lines = self.listing.sections[section][1]
        for back in range(place - 1, max(-1, place - 1 - LOOK_BACK), -1):
            word, _, operands = lines[back].text.partition(" ")
            operands = operands.split(", ")
            if operands[0] == register and not word.startswith(("st", "j", "call")):
                return self.result(word, operands, section, back)
        return None, 0

    def result(self, word, operands, section, place):
        """What an instruction leaves in the address register that it writes."""
        if word == "movh.a":
            return "address", int(operands[1]) << 16
        if word in ("mov.aa", "mov16.aa", "addsc.a"):
            return self.value(operands[1], section, place)
        base = MEMORY.search(operands[-1])
        if not base:
            return None, 0
        kind, address = self.value(base[1], section, place)
        if kind != "address":
            return None, 0
        loaded = "table" if word.startswith("ld") else "address"
        return loaded, address + int(base[2] or 0) & WORD


class Walk:
    """Follows the listing from the start: which frames enter which, by docs/rules.md's states.

    A point knows whether interrupts may be on and the least priority that may be current.
    """

    def __init__(self, listing, plan, entry):
        self.listing, self.tables, self.plan = listing, Tables(listing), plan
        self.biv, self.btv = plans.number(plan["biv"]), plans.number(plan["btv"])
        self.irqs = [plans.number(p) for p in plan["irqs"]]
        start = {name: plans.number(value) for name, value in plan["start"].items()}
        self.states, self.exits, self.steps = {}, {}, collections.defaultdict(dict)
        self.returns = collections.defaultdict(set)
        self.work = collections.deque()
        self.begin = Key("start", entry, 0, start["is"])
        self.reach(self.begin, entry, (start["ie"], start["ccpn"]))
        self.after = {
            line.at: hex8(int(line.at, 16) + len(line.code) // 2)
            for _, lines in listing.sections
            for line in lines
        }
        while self.work:
            self.step(*self.work.popleft())

    def reach(self, key, point, state):
        """Joins a state to those of a point."""
        if point not in self.listing.texts:
            return
        old = self.states.get((key, point))
        new = state if old is None else (max(old[0], state[0]), min(old[1], state[1]))
        if new != old:
            self.states[key, point] = new
            self.work.append((key, point))

    def enter(self, key, point, way, into, state):
        """An entry into a frame, which begins with this state."""
        self.steps[key][point, way, into] = None
        self.reach(into, into.entry, state)

    def step(self, key, point):
        """One instruction, and the interrupts and traps that may come at it."""
        ie, ccpn = self.states[key, point]
        for prio in self.irqs:
            if ie and prio > ccpn:
                vector = hex8(self.biv | prio << VECTOR_SHIFT)
                self.enter(key, point, "irq", Key("irq", vector, prio, 1), (0, prio))
        word = self.listing.word(point)
        if "aln" in self.plan["traps"] and ACCESS.fullmatch(word):
            into = Key("aln", hex8(self.btv | MISALIGNED), key.prio, 1)
            self.enter(key, point, "aln", into, (0, ccpn))
        if word in RETURNS:
            self.leave(key, (ie, ccpn))
        elif word in CALLS:
            for to in self.callees(point, word):
                self.call(key, point, "call", Key("call", to, key.prio, key.stack), (ie, ccpn))
        elif word == "syscall" and "sys" in self.plan["traps"]:
            into = Key("sys", hex8(self.btv | SYSTEM_CALL), key.prio, 1)
            self.call(key, point, "sys", into, (0, ccpn))
        else:
            self.go_on(key, point, word)

    def callees(self, point, word):
        """The addresses of the functions that an instruction may call."""
        return self.tables.targets(point) if word == "calli" else [self.listing.target(point)]

    def call(self, key, point, way, into, state):
        """A call or system call, after which the caller goes on if what it enters returns."""
        self.enter(key, point, way, into, state)
        self.returns[into].add((key, point))
        if into in self.exits:
            self.come_back(key, point, into)

    def leave(self, key, state):
        """A return: those who entered this frame go on."""
        old = self.exits.get(key)
        new = state if old is None else (max(old[0], state[0]), min(old[1], state[1]))
        if new != old:
            self.exits[key] = new
            for caller, point in list(self.returns[key]):
                self.come_back(caller, point, key)

    def come_back(self, key, point, callee):
        """Behind a call: `rfe` brings the caller's state back, `ret` keeps the callee's."""
        state = self.exits[callee] if callee.kind == "call" else self.states[key, point]
        self.reach(key, self.after[point], state)

    def go_on(self, key, point, word):
        """An instruction that stays in the frame."""
        ie, ccpn = self.states[key, point]
        if word.startswith("bisr"):
            ie, ccpn = 1, int(self.listing.texts[point].split(" ")[1]) & 255
        elif word in ("enable", "disable"):
            ie = int(word == "enable")
        targets = []
        if word in ("ji", "ji16"):
            targets = self.tables.targets(point)
        elif word.startswith(("j", "loop")) and TARGET.search(self.listing.texts[point]):
            targets = [self.listing.target(point)]
        if word not in JUMPS:
            targets = [*targets, self.after[point]]
        for to in targets:
            self.reach(key, to, (ie, ccpn))

    def back_to(self, key, address):
        """The shortest row of steps from a point of a frame back to this frame, or none.

        Misaligned accesses are taken only if there is no ring without them.
        """
        for ways in (("call", "sys", "irq"), ("call", "sys", "irq", "aln")):
            if found := self.shortest(key, address, ways):
                return found
        return []

    def shortest(self, key, address, ways):
        """As `back_to`, by these ways alone."""
        work = collections.deque(
            [Step(key, point, 0, way, into)]
            for point, way, into in self.steps[key]
            if point == address and way in ways
        )
        seen = set()
        while work:
            path = work.popleft()
            into = path[-1].into
            if into == key:
                return path
            if into not in seen:
                seen.add(into)
                work += [
                    [*path, Step(into, point, 0, way, to)]
                    for point, way, to in self.steps[into]
                    if way in ways
                ]
        return []

    def lowering(self, steps):
        """The first point at which a handler of these steps lowers CCPN below its own priority."""
        prios = {step.frame.prio for step in steps}
        lowers = (
            point
            for key, point in self.states
            if key.prio in prios
            and self.listing.word(point).startswith("bisr")
            and int(self.listing.texts[point].split(" ")[1]) & 255 < key.prio
        )
        return min(lowers, default=None)


#: a call or a jump that may come to an address, and the word of its table that is it, or None
Caller = collections.namedtuple("Caller", "point entry")


def callers(listing, plan, entry, key, address=None):
    """The calls of a frame's priority that may enter it by the listing; no `call` twice.

    With an address: the `ji` of the frame that may come to it.
    """
    try:
        walk = Walk(listing, plan, entry)
    except (KeyError, ValueError, TypeError, AttributeError):
        return []
    found, through = {}, ("ji", "ji16") if address else ("calli",)
    for frame, point in walk.states:
        word = listing.word(point)
        is_asked = frame == key if address else frame.prio == key.prio
        if is_asked and word in through:
            for at, held in walk.tables.entries(point, plan["devices"]):
                if hex8(held & ~1) == (address or key.entry):
                    found.setdefault(point, at)
        elif is_asked and not address and word in CALLS and listing.target(point) == key.entry:
            found[point] = None
    return [Caller(*each) for each in sorted(found.items())]


#: the steps by which a frame leads back to itself, and the point that lowers a priority, or None
Ring = collections.namedtuple("Ring", "steps lowering", defaults=((), None))


def ring(listing, plan, entry, key, address):
    """The ring of the frame `key` from an address; it has no steps if none was found."""
    try:
        walk = Walk(listing, plan, entry)
    except (KeyError, ValueError, TypeError, AttributeError):
        return Ring()  # a plan of another form: `cert` says what it is
    steps = walk.back_to(key_of(key), address)
    has_interrupt = any(step.way == "irq" for step in steps)
    return Ring(steps, walk.lowering(steps) if has_interrupt else None)


def entry_of(elf):
    """The entry of an executable, as an address."""
    return hex8(int.from_bytes(bytes_of(elf)[24:28], "little"))


def callers_of(program, elf, plan, key, address=None):
    """The calls that may enter a frame, or the jumps to an address, from the command's files."""
    listing = Listing(tcd.printed(program, "dis", elf)[0])
    return callers(listing, plans.read(plan), entry_of(elf), key, address)


def ring_of(program, elf, plan, key, address):
    """The ring of a refusal of rule 14, from the files of the command."""
    listing = Listing(tcd.printed(program, "dis", elf)[0])
    return ring(listing, plans.read(plan), entry_of(elf), key, address)


def needed(program, elf, plan):
    """What `report` and `cfg` print of an executable if there are areas enough, or None."""
    try:
        roomy = plans.with_room(plans.read(plan))
    except (Unusable, KeyError, ValueError, TypeError):
        return None
    if not roomy:
        return None
    with tempfile.TemporaryDirectory() as folder:
        board, cert = f"{folder}/board.json", f"{folder}/firmware.cert"
        pathlib.Path(board).write_text(json.dumps(roomy))
        if tcd.printed(program, "cert", elf, board, cert)[1]:
            return None
        report = tcd.printed(program, "report", elf, board, cert)[0]
        return report, tcd.printed(program, "cfg", elf, board)[0]
