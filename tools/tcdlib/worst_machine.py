"""A machine that is fast and can be copied often, for worst_run.py.

It does what tools/tcdlib/machine.py does, for certified code alone: each instruction is made into a Python
function (worst_code.py), areas are a linked list of what was saved, and the links in them aren't
kept. A peak that differs from that of `tcd run` is a fault of this machine, which worst_run.py
reports.
"""

import collections

from tcdlib import machine as slow
from tcdlib import worst_code

WORD = slow.WORD
SYS, ALN = 6, 2
#: numbers below this are states, say, of a protocol; larger ones are told apart by their length
SMALL = 16


class Reached(Exception):
    """N areas are in use."""


class Ends(Exception):
    """The machine can't go on."""


class Machine:
    """The state: registers, status, what was saved, ram, and the frame that it is in.

    `saves` is the last saved context, which holds the one before; `used` counts them. `node` is the
    kind of frame, `base` the areas that were in use when it began, `via` the address from which it
    was entered, `held` the areas of its own saves. `t` counts events, `done` is the list of
    interrupts so far, the last first, and `goals` is what leads on to N.
    """

    __slots__ = ("r", "pc", "psw", "ccpn", "ie", "saves", "used", "node", "base", "via", "held")
    __slots__ += ("ram", "t", "answers", "done", "goals")

    def copy(self):
        m = Machine.__new__(Machine)
        m.r, m.pc, m.psw, m.ccpn, m.ie = self.r[:], self.pc, self.psw, self.ccpn, self.ie
        m.saves, m.used, m.node, m.base = self.saves, self.used, self.node, self.base
        m.via, m.held = self.via, self.held
        m.ram, m.t, m.answers = [bytearray(part) for part in self.ram], self.t, self.answers
        m.done, m.goals = self.done, self.goals
        return m


class Learned:
    """What the runs have shown that helps to choose the next ones."""

    def __init__(self):
        #: what was met: branches taken, classes of numbers in words of ram; `news` counts them
        self.covered, self.news = set(), 0
        #: words of ram that held a small number, devices that were read, constants of the code
        self.small, self.read, self.constants = set(), set(), set()
        #: what branches wanted of each device; and lately, of which device, how long after an entry
        self.likely = collections.defaultdict(collections.Counter)
        self.wanted = collections.deque(maxlen=48)
        #: each frame that was entered: its kind, with how many areas in use, from which address;
        #: and each entry that was made from such a frame
        self.frames, self.entries = set(), set()
        self.forget()
        self.fired = self.prio = 0

    def forget(self):
        """What a device has last given is no more of interest."""
        self.given, self.device, self.after = -1, None, 0

    def met(self, what):
        if what in self.covered:
            return False
        self.covered.add(what)
        self.news += 1
        return True


class World:
    """The image, the plan and the certificate's graph, and what instructions do with them."""

    ends = Ends()

    def __init__(self, image, board):
        self.board, self.graph, self.learned = board, None, Learned()
        self.started = slow.Machine.start(image, board)
        parts = self.started.memory.parts[: len(board["rom"])]
        self.rom = [(begin, end, bytes(held)) for begin, end, held in parts]
        self.ram = [(r["at"], r["at"] + r["len"]) for r in board["ram"]]
        self.devices = [(d["at"], d["at"] + d["len"]) for d in board["devices"]]
        self.first, self.code = slow.link_of(board["csa"]["at"]), {}
        #: the most areas in use in any run, and that run: its events, interrupts, answers
        self.peak, self.best = 0, None

    def begin(self, answers):
        """The machine at the start, with these answers of the devices."""
        m, s = Machine.__new__(Machine), self.started
        m.r, m.pc, m.psw, m.ccpn, m.ie = s.d[:] + s.a[:], s.pc, s.psw, s.ccpn, bool(s.ie)
        m.saves, m.used, m.node, m.base, m.via, m.held = None, 0, self.graph.start, 0, None, 0
        m.ram, m.t, m.answers = [bytearray(e - b) for b, e in self.ram], 0, answers
        m.done = None
        self.turn(m)
        return m

    def turn(self, m):
        """Looks up the goals of the frame that the machine has come to."""
        m.goals = self.graph.goals(m.node, m.base)

    # Instructions

    def decoded(self, pc):
        """The instruction at an address: its name, operands, length."""
        for begin, end, held in self.rom:
            if begin <= pc < end:
                try:
                    return slow.DECODER.decode(held[pc - begin : pc - begin + 4])
                except slow.Dies:
                    break
        raise Ends

    def name_at(self, pc):
        return self.decoded(pc)[0].replace("16", "")

    def function(self, pc):
        """What the instruction at an address does, and whether it is a branch."""
        if pc & 1:
            raise Ends
        name, operands, length = self.decoded(pc)
        name = name.replace("16", "", 1)
        lines, branch = worst_code.lines(name, operands, pc, (pc + length) & WORD)
        space = {"w": self, "shifted": slow.shifted}
        exec("def f(m):\n r = m.r\n " + "\n ".join(lines), space)
        self.learned.constants.update(o[1] & WORD for o in operands if o[0] == "k")
        self.code[pc] = space["f"], branch
        return self.code[pc]

    def step(self, m):
        """One instruction."""
        pc = m.pc
        f, branch = self.code.get(pc) or self.function(pc)
        m.pc = to = f(m)
        m.t += 1
        if branch:
            self.learned.met((m.node, pc, to))

    # Memory

    def load(self, m, x, size, extends):
        found = self.held(m, x, size)
        value = self.answer(m, x, size) if found is None else int.from_bytes(found, "little")
        if extends and value >> 8 * size - 1:
            value -= 1 << 8 * size
        return value & WORD

    def held(self, m, x, size):
        """The bytes of ram or rom, or None."""
        for n, (begin, end) in enumerate(self.ram):
            if begin <= x and x + size <= end:
                return m.ram[n][x - begin : x - begin + size]
        for begin, end, held in self.rom:
            if begin <= x and x + size <= end:
                return held[x - begin : x - begin + size]
        return None

    def answer(self, m, x, size):
        """What a device answers, as a script's line `in` says; 0 where there is none."""
        for n, (begin, end) in enumerate(self.devices):
            if begin <= x and x + size <= end:
                learned, (low, high) = self.learned, m.answers[n]
                learned.read.add(n)
                learned.given = given = low + m.t % (high - low + 1)
                learned.device, learned.after = n, m.t - learned.fired
                return given & (1 << 8 * size) - 1
        return 0

    def compare(self, x, y):
        """A branch compares two words that differ: where one is what a device has just given, the
        other is wanted of it."""
        learned = self.learned
        given, n = learned.given, learned.device
        if n is None or learned.after <= 0:
            return
        if given in (x, y):
            wanted = y if x == given else x
        elif x == given & 255 and y < 256:
            wanted = given & ~255 | y
        else:
            return
        if self.board["devices"][n]["lo"] <= wanted <= self.board["devices"][n]["hi"]:
            learned.wanted.append((n, wanted, learned.after, learned.prio))
            if wanted in learned.likely[n] or len(learned.likely[n]) < 500:
                learned.likely[n][wanted] += 1

    def store(self, m, x, size, value):
        for n, (begin, end) in enumerate(self.ram):
            if begin <= x and x + size <= end:
                value &= (1 << 8 * size) - 1
                m.ram[n][x - begin : x - begin + size] = value.to_bytes(size, "little")
                learned, is_small = self.learned, value < SMALL
                if learned.met((x, value if is_small else SMALL + value.bit_length())):
                    if is_small and len(learned.small) < 64:
                        learned.small.add((n, x - begin & ~3))
                return

    # Frames

    def took(self, m):
        """An area was taken."""
        m.used += 1
        if m.used > self.peak:
            self.peak, self.best = m.used, (m.t + 1, m.done, m.answers)
            if self.peak >= self.graph.areas:
                raise Reached

    def enter(self, m, kind, to, back, prio=None):
        """Enters a frame: saves the upper context."""
        r, node = m.r, m.node.callee(self.graph, kind, to, prio)
        if node is None:  # no certificate lets it come here
            raise Ends
        self.learned.entries.add((m.node, m.via, kind, to))
        frame = m.node, m.base, m.via, m.held
        m.saves = (m.saves, True, m.ie, m.ccpn, m.psw, r[8:16], r[26:32], frame)
        r[27] = back
        self.took(m)
        m.node, m.base, m.via, m.held = node, m.used, m.pc, 0
        self.learned.frames.add((node, m.base, m.via))
        self.turn(m)
        return to

    def entered(self, m):
        """What interrupts and traps do alike once the context is saved."""
        if not m.psw >> 9 & 1:
            m.r[26] = self.board["isp"]
        m.ie, m.psw = False, m.psw & ~0x3F00 | 2 << 10 | 1 << 9

    def trap(self, m, kind, number, back):
        vector = self.board["btv"] | (SYS if kind == "sys" else ALN) << 5
        m.pc = self.enter(m, kind, vector, back)
        m.r[15] = number
        self.entered(m)

    def interrupt(self, m, prio):
        """The event at which an interrupt is taken."""
        m.done = (m.done, m.t, prio)
        self.learned.fired, self.learned.prio = m.t, prio
        m.pc = self.enter(m, "irq", self.board["biv"] | prio << 5, m.pc, prio)
        self.entered(m)
        m.ccpn = prio
        m.t += 1

    def misaligned(self, m):
        """The trap, if the instruction makes a misaligned access. Whether it did."""
        name, operands, _ = self.decoded(m.pc)
        if name[:2] not in ("ld", "st"):
            return False
        where = next(o for o in operands if o[0] in "mu")
        x = where[1] if where[0] == "u" else m.r[16 + where[1]] + (0 if where[3] else where[2])
        if x % slow.SIZES[name.replace("16", "", 1).split(".")[1]][0] == 0:
            return False
        m.done = m.done, m.t, "aln"
        self.trap(m, "aln", 4, m.pc)
        m.t += 1
        return True

    def leave(self, m, rfe):
        if not m.saves or not m.saves[1]:
            raise Ends
        r, to = m.r, m.r[27] & ~1
        m.saves, _, ie, ccpn, m.psw, r[8:16], r[26:32], frame = m.saves
        m.node, m.base, m.via, m.held = frame
        if rfe:
            m.ie, m.ccpn = ie, ccpn
        m.used -= 1
        self.turn(m)
        return to

    def save_lower(self, m):
        r = m.r
        m.saves = (m.saves, False, m.ie, m.ccpn, r[27], r[0:8], r[18:24])
        m.held += 1
        self.took(m)

    def restore_lower(self, m):
        if not m.saves or m.saves[1]:
            raise Ends
        r = m.r
        m.saves, _, _, _, r[27], r[0:8], r[18:24] = m.saves
        m.held -= 1
        m.used -= 1

    def core(self, m, number):
        """What `mfcr` gives. Areas are taken and given back like a stack: links follow from it."""
        pcpn, pie, ul = slow.LAYOUTS[self.board["core"]]
        link = self.first + m.used - 1 if m.used else 0
        if m.saves:
            link |= m.saves[3] << pcpn | m.saves[2] << pie | m.saves[1] << ul
        areas, reserve = self.board["csa"]["areas"], self.board["csa"]["reserve"]
        known = {
            slow.PCXI: link,
            slow.PSW: m.psw,
            slow.BIV: self.board["biv"],
            slow.BTV: self.board["btv"],
            slow.ISP: self.board["isp"],
            slow.ICR: m.ccpn | m.ie << 8,
            slow.FCX: self.first + m.used if m.used < areas else 0,
            slow.LCX: self.first + areas - reserve,
        }
        return known.get(number, 0)
