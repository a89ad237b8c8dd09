"""Rules K1 to K14, K16 and K17 of docs/rules.md, asked of a certificate, for second_check.py.

This was written from docs/rules.md, formats.md and machine.md alone, never from the crates. Names
of frames are (kind, entry address, prio, is), with the kind as a number.
"""
import collections

from tcdlib import formats as readers
from tcdlib import machine
from tcdlib.values import ANY, TOP, Span, Values, bounds, includes, meets, up, value_of

START, CALL, IRQ, SYS, ALN = range(5)
KINDS = ("start", "call", "irq", "sys", "aln")
#: the registers of a state, in their order, and the lower ones
NAMES = [("d", n) for n in range(16)] + [("a", n) for n in (2, 3, 4, 5, 6, 7, 10, 12, 13, 14, 15)]
LOWER = [("d", n) for n in range(8)] + [("a", n) for n in range(2, 8)]
AT = {name: place for place, name in enumerate(NAMES)}
#: what the plan gives, and no instruction may write; nor may it write A11
GLOBALS = {0: "a0", 1: "a1", 8: "a8", 9: "a9"}
UNWRITABLE = (*GLOBALS, 11)
#: the most saved lower contexts, by the format of a certificate
DEEPEST = {1: 4, 2: 8}
#: the condition of a branch, and the side on which it jumps
BRANCHES = {
    "jeq": ("eq", True),
    "jne": ("eq", False),
    "jlt": ("lt", True),
    "jge": ("lt", False),
    "jlt.u": ("lt.u", True),
    "jge.u": ("lt.u", False),
}
#: branches that compare with 0, by the side on which they jump; `loop` lowers its register too
ZEROS = {"jz": True, "jnz": False, "loop": False}
#: core registers that name areas (K17)
LINKS = (machine.PCXI, machine.FCX, machine.LCX)
#: the bytes of the switch routine
ROUTINE = 72

State = collections.namedtuple("State", "values ie ccpn lower saved")
Node = collections.namedtuple("Node", "key need exit points")


class Fails(Exception):
    """The rule that an instruction itself breaks."""


def state_of(ie, ccpn, lower, saved, values):
    """A state as a certificate has it."""
    values = tuple(map(value_of, values))
    return State(values, bool(ie), ccpn, bool(lower), tuple(map(bool, saved)))


def at_entry(known, **more):
    """The state at the entry of a handler or the start: all registers any, except the known."""
    values = tuple(known.get(name, ANY) for name in NAMES)
    return State(values, **{"ie": False, "lower": False, "saved": (), **more})


def covers(one, other):
    """Whether a state permits whatever another one does."""
    if len(one.saved) != len(other.saved) or other.ie and not one.ie or one.ccpn > other.ccpn:
        return False
    promised = zip((one.lower, *one.saved), (other.lower, *other.saved))
    if any(mine and not its for mine, its in promised):
        return False
    return all(map(includes, one.values, other.values))


def key_text(key):
    """A frame name as it is printed."""
    kind, entry, prio, stack = key
    return f"{KINDS[kind]} {entry:08X} prio {prio} is {stack}"


def line_of(rule, key, address):
    """The line of a violation."""
    return f"refused K{rule} at {address:08X} in {key_text(key)}"


class Judge:
    """An executable, a plan and a certificate, as their readers give them.

    `watch` is called at each point that is judged.
    """

    def __init__(self, image, board, cert, watch=lambda: None):
        self.image, self.board, self.watch = image, board, watch
        version, nodes = cert
        self.values, self.deepest = Values(board, version), DEEPEST[version]
        self.nodes = {}
        for key, need, leaving, points in nodes:
            states = {point[0]: state_of(*point[1:]) for point in points}
            leaving = leaving and state_of(*leaving[:2], False, (), leaving[2])
            self.nodes[key] = Node(key, need, leaving, states)
        self.start = START, image[0], 0, board["start"]["is"]
        self.spare = board["csa"]["areas"] - board["csa"]["reserve"]
        self.stores = sorted((r["at"], r["at"] + r["len"]) for r in board["ram"] + board["devices"])

    def need(self):
        """N: the need of the start."""
        return self.nodes[self.start].need

    def points(self):
        """The points in order, each as a frame name and an address; entries without one too."""
        for key in sorted(self.nodes):
            for address in sorted({*self.nodes[key].points, key[1]}):
                self.watch()
                yield key, address

    def fault(self):
        """The first violation of K1 to K14 (the rule, the frame name, the address), or None."""
        start, known = self.board["start"], {("a", 10): (self.board["sp"],)}
        state = at_entry(known, ie=bool(start["ie"]), ccpn=start["ccpn"])
        if not self.enters(self.start, state):
            return 1, self.start, self.start[1]
        for key, address in self.points():
            rule = self.rule_at(self.nodes[key], address)
            if rule:
                return rule, key, address
        return None

    def fault_beside(self, rule, holds):
        """The first point at which a further rule doesn't hold, as a violation, or None."""
        for key, address in self.points():
            if not holds(Point(self, self.nodes[key], address)):
                return rule, key, address
        return None

    def rule_at(self, node, address):
        """The least rule that doesn't hold at a point, or None."""
        state = node.points.get(address)
        held = [*state.values] if state else []
        if address == node.key[1] and node.exit:
            held += node.exit.values
        if state is None or not all(map(self.values.is_of_plan, held)):
            return 2
        try:
            return Duties(self, node, address).broken_rule()
        except Fails as e:
            return e.args[0]

    def enters(self, key, state):
        """Whether there is a node whose point at its entry covers a state."""
        node = self.nodes.get(key)
        point = node and node.points.get(key[1])
        return bool(point) and covers(point, state)

    # Code and memory

    def instruction(self, address):
        """The name without `16`, the operands and the length; None if there is no such code."""
        held = [readers.byte_at(self.image[1], address + place) for place in range(4)]
        known = bytes(held[: held.index(None)] if None in held else held)
        try:
            name, operands, length = machine.DECODER.decode(known)
        except machine.Dies:
            return None
        if address % 2 or not readers.in_one(self.board["rom"], address, length):
            return None
        return name.replace("16", "", 1), operands, length

    def end_of_range(self, address, size):
        """The end of the range of ram or of a peripheral that an access is in, or None."""
        ends = (end for at, end in self.stores if at <= address and address + size <= end)
        return next(ends, None)

    def is_stored_inside(self, value, size):
        """Whether each access is wholly in one range of ram or of a peripheral."""
        if not isinstance(value, Span):
            return all(self.end_of_range(address, size) for address in value)
        address, last, step = bounds(value)
        while address <= last:
            end = self.end_of_range(address, size)
            if end is None:
                return False
            address = up(end - size + 1, step)  # the first one that isn't wholly in this range
        return True

    def peripheral(self, first, last, size):
        """The bounds of the peripheral in which accesses of whole words are, or None."""
        for each in self.board["devices"] if size == 4 else ():
            if each["at"] <= first and last + size <= each["at"] + each["len"]:
                return [(each["lo"], each["hi"], 1)]
        return None

    def loaded(self, value, size, has_sign):
        """What a load from these addresses may give."""
        # with a sign the words are at both ends of all words, so their cover is any
        whole = [(0, TOP if has_sign else (1 << 8 * size) - 1, 1)]
        if isinstance(value, Span):
            first, last, _ = bounds(value)
            return self.values.cover((), self.peripheral(first, last, size) or whole)
        words, parts = [], []
        for address in value:
            held = [readers.byte_at(self.image[1], address + place) for place in range(size)]
            if None not in held and readers.in_one(self.board["rom"], address, size):
                word = int.from_bytes(bytes(held), "little", signed=has_sign)
                words.append(word & TOP)
            else:
                parts += self.peripheral(address, address, size) or whole
        return self.values.cover(words, parts)


class Point:
    """A point with its instruction: what its operands may be."""

    def __init__(self, judge, node, address):
        self.judge, self.node, self.address = judge, node, address
        self.values, self.board = judge.values, judge.board
        self.state = node.points[address]
        self.name, self.operands, length = judge.instruction(address) or (None, [], 0)
        self.after = (address + length) & TOP

    def value(self, operand):
        """The value of a register or a constant."""
        kind, number = operand
        if kind in "ku":
            return (number & TOP,)
        if kind == "a" and number in GLOBALS:
            return (self.board["globals"][GLOBALS[number]],)
        return self.state.values[AT[kind, number]] if (kind, number) in AT else ANY

    def does(self, kind):
        """Whether it is a load (`ld`) or a store (`st`)."""
        return self.name.split(".")[0] == kind

    def size(self):
        """The bytes of an access, and whether a load extends the sign."""
        return machine.SIZES[self.name.split(".")[1]]

    def base(self):
        """The operand of an access, or of `lea`, with the address."""
        return next(operand for operand in self.operands if operand[0] in "mu")

    def is_raised(self):
        """Whether the base becomes the sum after the access."""
        return self.base()[0] == "m" and self.base()[3]

    def sum(self):
        """The values of base plus offset."""
        where = self.base()
        if where[0] == "u":
            return (where[1],)
        return self.values.result("add", self.value(("a", where[1])), (where[2] & TOP,))

    def addresses(self):
        """The possible addresses of an access."""
        return self.value(("a", self.base()[1])) if self.is_raised() else self.sum()


class Duties(Point):
    """What a point owes: to its instruction, to the next points, to the frames that it enters."""

    def __init__(self, judge, node, address):
        super().__init__(judge, node, address)
        self.broken, self.next, self.entered = set(), [], []

    def broken_rule(self):
        """The least rule that doesn't hold, or None; Fails if it is one of the instruction."""
        if self.name is None:
            raise Fails(3)
        self.follow()
        self.interrupts()
        points = self.node.points
        if any(q not in points or not covers(points[q], state) for q, state in self.next):
            self.broken.add(4)
        if self.node.need < self.least_need() or self.is_short():
            self.broken.add(14)
        return min(self.broken, default=None)

    def least_need(self):
        """What K14 asks of the need of the node here."""
        saved = len(self.state.saved)
        return max([saved, *(saved + 1 + node.need for node in self.entered)])

    def is_short(self):
        """Whether it is the start, and its need is more than there are areas."""
        judge = self.judge
        is_start = self.node.key == judge.start and self.address == judge.start[1]
        return is_start and self.node.need > judge.spare

    def follow(self):
        """Asks the rules of the instruction itself, and notes where it leads."""
        if self.does("ld") or self.does("st"):
            self.access()
        elif self.name in ("call", "calla", "calli"):
            for target in self.targets():
                state = self.state._replace(lower=False, saved=())
                self.enter(5, (CALL, target, *self.node.key[2:]), state)
                self.resume((CALL, target, *self.node.key[2:]), True)
        elif self.name in ("j", "ja", "ji"):
            self.next += [(target, self.state) for target in self.targets()]
        elif self.name in ("ret", "rfe"):
            self.leave()
        elif not (self.branches() or self.system() or self.contexts()):
            self.compute()

    def with_values(self, changes):
        """The state in which registers have these values."""
        values, lower = list(self.state.values), self.state.lower
        for register, value in changes.items():
            values[AT[register]] = value
            lower = lower and register not in LOWER
        return self.state._replace(values=tuple(values), lower=lower)

    def demand_writable(self, *registers):
        """K13 of registers that an instruction writes."""
        if any(kind == "a" and number in UNWRITABLE for kind, number in registers):
            raise Fails(13)

    def stack(self):
        """A10 at the entry of a handler."""
        return self.value(("a", 10)) if self.node.key[3] else (self.board["isp"],)

    def enter(self, rule, key, state):
        """Enters a frame, which has to have a node."""
        if not self.judge.enters(key, state):
            self.broken.add(rule)
        if key in self.judge.nodes:
            self.entered.append(self.judge.nodes[key])

    def resume(self, key, is_call):
        """Goes on after a call or a system call, if the entered node has an exit."""
        node = self.judge.nodes.get(key)
        if not node or not node.exit:
            return
        state = self.with_values(dict(zip(LOWER, node.exit.values)))._replace(lower=False)
        if is_call:
            state = state._replace(ie=node.exit.ie, ccpn=node.exit.ccpn)
        self.next.append((self.after, state))

    # Instructions

    def targets(self):
        """Where a call or a jump leads."""
        (operand,) = self.operands
        if operand[0] == "t":
            return [(self.address + operand[1]) & TOP]
        value = self.value(operand)
        if isinstance(value, Span):
            raise Fails(5)
        return sorted({word & ~1 for word in value})

    def access(self):
        """Loads and stores."""
        size, has_sign = self.size()
        addresses, is_load = self.addresses(), self.does("ld")
        written = [("a", self.base()[1])] if self.is_raised() else []
        written += [self.operands[0]] if is_load else []
        if not is_load and not self.judge.is_stored_inside(addresses, size):
            raise Fails(9)
        may_trap = bounds(addresses)[2] < size
        if may_trap and "aln" not in self.board["traps"]:
            raise Fails(10)
        self.demand_writable(*written)
        if may_trap:
            known = {("a", 10): self.stack(), ("d", 15): (4,)}
            key = ALN, self.board["btv"] | 0x40, self.node.key[2], 1
            self.enter(10, key, at_entry(known, ccpn=self.state.ccpn, lower=True))
        changes = {written[0]: self.sum()} if self.is_raised() else {}
        if is_load:
            changes[written[-1]] = self.judge.loaded(addresses, size, has_sign)
        self.next.append((self.after, self.with_values(changes)))

    def branches(self):
        """Branches: whether it is one."""
        kind = self.name.removesuffix(".a").removesuffix(".d15")
        if kind not in BRANCHES and kind not in ZEROS:
            return False
        one = ("d", 15) if self.name.endswith(".d15") else self.operands[0]
        other = self.operands[1] if kind in BRANCHES else ("k", 0)
        op, jumps = BRANCHES.get(kind) or ("eq", ZEROS[kind])
        if kind == "loop":
            self.demand_writable(one)
        target = (self.address + self.operands[-1][1]) & TOP
        for side, place in ((jumps, target), (not jumps, self.after)):
            if one == other:  # against itself a word is equal, and never below
                kept = (self.value(one), self.value(one)) if (op == "eq") == side else None
            else:
                kept = self.values.sides(op, self.value(one), self.value(other), side)
            if kept:
                self.next.append((place, self.kept_state((one, other), kept, kind == "loop")))
        return True

    def kept_state(self, operands, kept, is_loop):
        """The state on a side of a branch."""
        values = list(self.state.values)
        for operand, value in zip(operands, kept):
            if operand in AT:
                values[AT[operand]] = value
        state = self.state._replace(values=tuple(values))
        if not is_loop:
            return state
        lowered = {AT[operands[0]]: self.values.result("sub", kept[0], (1,))}
        values = tuple(lowered.get(place, value) for place, value in enumerate(values))
        return state._replace(values=values, lower=state.lower and operands[0] not in LOWER)

    def leave(self):
        """`ret` and `rfe`."""
        kind, rule = self.node.key[0], 6 if self.name == "ret" else 7
        if self.state.saved or kind not in ((CALL,) if rule == 6 else (IRQ, ALN, SYS)):
            raise Fails(rule)
        if kind in (IRQ, ALN):
            if not self.state.lower:
                raise Fails(7)
            return
        values = tuple(self.state.values[AT[name]] for name in LOWER)
        leaving = State(values, self.state.ie, self.state.ccpn, False, ())
        if not self.node.exit or not covers(self.node.exit, leaving):
            self.broken.add(rule)

    def system(self):
        """`mtcr` and `syscall`: whether it is one."""
        if self.name == "mtcr":
            raise Fails(13)
        if self.name != "syscall":
            return False
        if "sys" not in self.board["traps"]:
            raise Fails(12)
        known = {("a", 10): self.stack(), ("d", 15): (self.byte(),)}
        values = self.with_values(known).values
        key = SYS, self.board["btv"] | 0xC0, self.node.key[2], 1
        self.enter(12, key, State(values, False, self.state.ccpn, False, ()))
        self.resume(key, False)
        return True

    def contexts(self):
        """Saved lower contexts, interrupts on and off, and what does nothing: whether it is one."""
        state, saved = self.state, self.state.saved
        if self.name in ("svlcx", "bisr"):
            if len(saved) >= self.judge.deepest:
                raise Fails(8)
            state = state._replace(saved=(*saved, state.lower))
            if self.name == "bisr":
                state = state._replace(ie=True, ccpn=self.byte())
        elif self.name == "rslcx":
            if not saved:
                raise Fails(8)
            state = self.with_values(dict.fromkeys(LOWER, ANY))
            state = state._replace(lower=saved[-1], saved=saved[:-1])
        elif self.name in ("enable", "disable"):
            state = state._replace(ie=self.name == "enable")
        elif self.name not in ("nop", "dsync", "isync"):
            return False
        self.next.append((self.after, state))
        return True

    def compute(self):
        """Arithmetic and moves, which write one register."""
        target, *rest = self.operands
        if self.name == "mov.d15":
            target, rest = ("d", 15), self.operands
        self.demand_writable(target)
        self.next.append((self.after, self.with_values({target: self.computed(target, rest)})))

    def computed(self, target, rest):
        """The value that is written to the target from the other operands."""
        kind, result = self.name.split(".")[0], self.values.result
        if self.name == "mfcr":
            return ANY
        if kind == "lea":
            return self.sum()
        if kind in ("addih", "movh"):
            rest = [*rest[:-1], ("k", rest[-1][1] << 16)]
        one, *other = map(self.value, rest)
        if kind == "addsc":
            return result("add", one, result("sh", *other))
        if kind in ("mov", "movh"):
            return one
        op = {"addi": "add", "addih": "add"}.get(kind, self.name.removesuffix(".a"))
        if not other:  # of two operands the first one is the target too
            one, other = self.value(target), [one]
        return result(op, one, *other)

    def byte(self):
        """The only operand, a constant, modulo 256."""
        ((_, number),) = self.operands
        return number & 255

    def interrupts(self):
        """Enters each interrupt that may come here."""
        if self.state.ie:
            for prio in self.board["irqs"]:
                if prio > self.state.ccpn:
                    key = IRQ, self.board["biv"] | prio << 5, prio, 1
                    known = {("a", 10): self.stack()}
                    self.enter(11, key, at_entry(known, ccpn=prio, lower=True))


# The rules beside those of certificates


def keeps_cells(point, cells):
    """K16 at a point, for cells (at, lo, hi)."""
    if not point.does("st"):
        return True
    size, addresses = point.size()[0], point.addresses()
    low, high, _ = bounds(point.value(point.operands[1]))
    for at, least, most in cells:
        touching = [x for x in range(at - size + 1, at + 4) if meets(addresses, x, x)]
        if touching and not (size == 4 and touching == [at] and least <= low and high <= most):
            return False
    return True


def stays_apart(point, switch):
    """K17 at a point of a task's view; `switch` is the address of the routine."""
    key, areas, distance = point.node.key, point.board["csa"], point.address - switch
    is_inside = 0 <= distance < ROUTINE
    if key == (CALL, switch, 0, 0):
        if not is_inside or distance % 4:
            return False
    elif is_inside:
        return False
    if point.does("ld"):
        addresses, before = point.addresses(), point.size()[0] - 1
        spots = (areas["at"], 64 * areas["areas"]), (switch, ROUTINE)
        return not any(meets(addresses, at - before, at + length - 1) for at, length in spots)
    if point.name == "mfcr":
        return point.operands[1][1] not in LINKS
    return not (point.name == "bisr" and key[2:] == (0, 0))


def cells_fault(judge, cells):
    """The first violation of K16; the judge has the plan with cells."""
    return judge.fault_beside(16, lambda point: keeps_cells(point, cells))


def task_fault(judge, switch):
    """The first violation of K17; the judge has the view of a task."""
    return judge.fault_beside(17, lambda point: stays_apart(point, switch))
