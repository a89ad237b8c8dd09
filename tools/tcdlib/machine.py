"""The reference machine in Python, written from docs/machine.md, formats.md and plan.md alone.

It shares nothing with the product except the table of instructions, which tcdlib/formats/sources.py reads.
"""

from tcdlib import formats as readers

WORD = 0xFFFFFFFF
PCXI, PSW, BIV, BTV, ISP, ICR, FCX, LCX = (
    0xFE00,
    0xFE04,
    0xFE20,
    0xFE24,
    0xFE28,
    0xFE2C,
    0xFE38,
    0xFE3C,
)
# The registers of a context in the order of its words, behind the words that it begins with.
UPPER = (
    "a10",
    "a11",
    "d8",
    "d9",
    "d10",
    "d11",
    "a12",
    "a13",
    "a14",
    "a15",
    "d12",
    "d13",
    "d14",
    "d15",
)
LOWER = ("a11", "a2", "a3", "d0", "d1", "d2", "d3", "a4", "a5", "a6", "a7", "d4", "d5", "d6", "d7")
# Of a layout of PCXI, the lowest bits of PCPN, PIE and UL.
LAYOUTS = {"1.3": (24, 23, 22), "1.6": (22, 21, 20)}


class Dies(Exception):
    """The machine dies, and nothing but its end changes."""


def signed(x):
    return x - (1 << 32) if x >> 31 else x


def shifted(x, y, arithmetic):
    count = (y & 63) - (64 if y & 32 else 0)
    x = signed(x) if arithmetic else x
    return (x << count if count >= 0 else x >> -count) & WORD


ALU = {
    "add": lambda x, y: x + y, "sub": lambda x, y: x - y, "rsub": lambda x, y: y - x,
    "and": lambda x, y: x & y, "nand": lambda x, y: ~(x & y), "or": lambda x, y: x | y, "nor": lambda x, y: ~(x | y),
    "xor": lambda x, y: x ^ y, "xnor": lambda x, y: ~(x ^ y), "andn": lambda x, y: x & ~y, "orn": lambda x, y: x | ~y,
    "eq": lambda x, y: x == y, "ne": lambda x, y: x != y, "lt": lambda x, y: signed(x) < signed(y),
    "ge": lambda x, y: signed(x) >= signed(y), "lt.u": lambda x, y: x < y, "ge.u": lambda x, y: x >= y,
    "sh": lambda x, y: shifted(x, y, False), "sha": lambda x, y: shifted(x, y, True),
}  # fmt: skip


class Memory:
    """Mapped ranges with their bytes."""

    def __init__(self, ranges):
        self.parts = [(at, at + length, bytearray(length)) for at, length in ranges]

    def part(self, x):
        for begin, end, held in self.parts:
            if begin <= x < end:
                return begin, end, held
        return None

    def get(self, x):
        """The byte, or None."""
        found = self.part(x)
        return found[2][x - found[0]] if found else None

    def set(self, x, byte):
        found = self.part(x)
        if found:
            found[2][x - found[0]] = byte

    def bytes(self, x, count):
        """So many bytes from x on, or None where one isn't mapped."""
        found = self.part(x)
        if found and x + count <= found[1]:
            return bytes(found[2][x - found[0] : x - found[0] + count])
        out = [self.get((x + i) & WORD) for i in range(count)]
        return None if None in out else bytes(out)

    def write(self, x, data):
        """The mapped ones of these bytes."""
        found = self.part(x)
        if found and x + len(data) <= found[1]:
            found[2][x - found[0] : x - found[0] + len(data)] = data
            return
        for i, byte in enumerate(data):
            self.set((x + i) & WORD, byte)

    def word(self, x):
        data = self.bytes(x, 4)
        return None if data is None else int.from_bytes(data, "little")

    def put_word(self, x, value):
        self.write(x, (value & WORD).to_bytes(4, "little"))


def address_of(link):
    """The address that a link names."""
    return (link >> 16 & 15) << 28 | (link & 0xFFFF) << 6


def link_of(address):
    return (address >> 28) << 16 | (address & 0xFFFFFFF) >> 6


def chain(memory, word):
    """The links from this word on, or None if they don't end within 4,096 or one isn't mapped."""
    out, link = [], word & 0xFFFFF
    while link:
        if len(out) == 4096:
            return None
        data = memory.bytes(address_of(link), 64)
        if data is None:
            return None
        out.append(link)
        link = int.from_bytes(data[:4], "little") & 0xFFFFF
    return out


class Decoder:
    """Words as instructions: a name and operands, which are ("d", n), ("a", n), ("k", number),
    ("t", distance), ("u", address) and ("m", base, offset, whether it is added afterwards)."""

    def __init__(self):
        self.known = {}

    def decode(self, held):
        """The instruction with which these bytes begin, and its length. Dies if they begin none."""
        if held in self.known:
            return self.known[held]
        for row in readers.BY_CODE.get(held[0], ()) if held else ():
            if row.length <= len(held) and row.spelled(
                int.from_bytes(held[: row.length], "little")
            ):
                word = int.from_bytes(held[: row.length], "little")
                found = (row.name, [operand(row, text, word) for text in row.operands], row.length)
                self.known[held] = found
                return found
        raise Dies("nocode" if begins_a_row(held) else "notlisted")


def begins_a_row(held):
    """Whether these bytes are the front of an instruction."""
    word = int.from_bytes(held, "little")
    for row in readers.ROWS:
        mask = row.mask & ((1 << 8 * len(held)) - 1)
        if len(held) < row.length and word & mask == row.code & mask:
            if not (len(held) > 1 and row.same_registers() and word >> 8 & 15 == word >> 12 & 15):
                return True
    return False


def operand(row, text, word):
    values = [readers.taken(word, field) for field in row.fields(text)]
    if text == "a10":
        return "a", 10
    if text == "T":
        return "t", 2 * (values[0] if row.form == "Sbr" else readers.signed(values[0], row.width))
    if text == "U":
        k = values[0]
        return (
            "u",
            (k >> 14) << 28 | k & 0x3FFF
            if row.form == "Abs"
            else (k >> 20) << 28 | (k & 0xFFFFF) << 1,
        )
    if text.startswith("["):
        offset = readers.signed(values[1], row.width) if text.endswith("sk") else 0
        return "m", values[0], offset, "+" in text
    if text[0] in "DA":
        return text[0].lower(), values[0]
    width = {"sk4": 4, "uk4": 4, "n": 2}.get(text, row.width)
    return "k", readers.signed(values[0], width) if text[0] == "s" else values[0]


DECODER = Decoder()
SIZES = {
    "b": (1, True),
    "bu": (1, False),
    "h": (2, True),
    "hu": (2, False),
    "w": (4, False),
    "a": (4, False),
}


class Event:
    """What one event brings."""

    def __init__(self, irq=0, given=0, status=0, aln=False):
        self.irq, self.input, self.status, self.aln = irq, given, status, aln


class Machine:
    """A machine. `board` is a plan of formats.plan; `end` is None, or why it died."""

    def __init__(self, board):
        areas = board["csa"]
        ranges = [(r["at"], r["len"]) for key in ("rom", "ram") for r in board[key]]
        self.memory = Memory([*ranges, (areas["at"], 64 * areas["areas"])])
        self.core, self.end, self.stored = board["core"], None, None
        self.d, self.a = [0] * 16, [0] * 16
        self.pc = (
            self.psw
        ) = self.pcxi = self.fcx = self.lcx = self.ccpn = self.biv = self.btv = self.isp = 0
        self.ie = False

    @staticmethod
    def start(image, board):
        """The state that starts the image, with all that a plan leaves open 0."""
        m, (entry, _) = Machine(board), image
        m.put_rom(image, board)
        at, areas = board["csa"]["at"], board["csa"]["areas"]
        first = link_of(at)
        for i in range(areas):
            m.memory.put_word(at + 64 * i, first + i + 1 if i + 1 < areas else 0)
        m.fcx, m.lcx, m.pc = first, first + areas - board["csa"]["reserve"], entry
        m.a[10] = board["sp"]
        for n, name in ((0, "a0"), (1, "a1"), (8, "a8"), (9, "a9")):
            m.a[n] = board["globals"][name]
        m.biv, m.btv, m.isp = board["biv"], board["btv"], board["isp"]
        m.ie, m.ccpn, m.psw = (
            bool(board["start"]["ie"]),
            board["start"]["ccpn"],
            2 << 10 | board["start"]["is"] << 9,
        )
        return m

    def put_rom(self, image, board):
        """The image's bytes, where they lie in rom."""
        for at, held in image[1]:
            for r in board["rom"]:
                low, high = max(at, r["at"]), min(at + len(held), r["at"] + r["len"])
                if low < high:
                    self.memory.write(low, held[low - at : high - at])

    # Contexts

    def named(self, name):
        return (self.d if name[0] == "d" else self.a)[int(name[1:])]

    def put_named(self, name, value):
        (self.d if name[0] == "d" else self.a)[int(name[1:])] = value

    def save(self, upper):
        """Saves a context. Whether the machine may go on: it dies at the areas' end."""
        link = self.fcx & 0xFFFFF
        if link == 0:
            raise Dies("fcu")
        at = address_of(link)
        held = self.memory.bytes(at, 64)
        if held is None:
            raise Dies("noarea")
        words = [self.pcxi, self.psw] if upper else [self.pcxi]
        words += [self.named(name) for name in (UPPER if upper else LOWER)]
        self.memory.write(at, b"".join(w.to_bytes(4, "little") for w in words))
        pcpn, pie, ul = LAYOUTS[self.core]
        self.pcxi = self.ccpn << pcpn | self.ie << pie | upper << ul | link
        self.fcx = self.fcx & ~0xFFFFF | int.from_bytes(held[:4], "little") & 0xFFFFF
        if link == self.lcx & 0xFFFFF:
            self.end = "fcd"
            return False
        return True

    def restore(self, upper):
        link, old = self.pcxi & 0xFFFFF, self.pcxi
        if link == 0:
            raise Dies("csu")
        if old >> LAYOUTS[self.core][2] & 1 != upper:
            raise Dies("ctyp")
        at = address_of(link)
        held = self.memory.bytes(at, 64)
        if held is None:
            raise Dies("noarea")
        words = [int.from_bytes(held[i : i + 4], "little") for i in range(0, 64, 4)]
        for name, value in zip(UPPER if upper else LOWER, words[2 if upper else 1 :]):
            self.put_named(name, value)
        if upper:
            self.psw = words[1]
        self.memory.put_word(at, self.fcx)
        self.fcx = self.fcx & ~0xFFFFF | link
        self.pcxi = words[0]

    def entered(self):
        """What interrupts and traps do alike once the context is saved."""
        if not self.psw >> 9 & 1:
            self.a[10] = self.isp
        self.ie = False
        self.psw = self.psw & ~0x3F00 | 2 << 10 | 1 << 9

    def trap(self, kind, number, back):
        if self.save(1):
            self.a[11], self.d[15] = back, number
            self.entered()
            self.pc = self.btv | kind << 5

    # Events

    def is_taken(self, event):
        return self.ie and event.irq > self.ccpn

    def step(self, event):
        if self.end:
            return
        self.stored = None
        try:
            if self.is_taken(event):
                if self.save(1):
                    self.a[11] = self.pc
                    self.entered()
                    self.ccpn, self.pc = event.irq, self.biv | event.irq << 5
            else:
                self.instruction(event)
        except Dies as e:
            self.end = e.args[0]
        if not self.end:
            self.psw = self.psw & 0xFFFFFF | event.status << 24

    def fetched(self):
        held = self.memory.bytes(self.pc, 4)
        if held is None:
            held = b""
            while len(held) < 4 and self.memory.get((self.pc + len(held)) & WORD) is not None:
                held += bytes([self.memory.get((self.pc + len(held)) & WORD)])
        if self.pc & 1 or not held:
            raise Dies("nocode")
        return DECODER.decode(held)

    def value(self, given):
        return (
            self.d[given[1]]
            if given[0] == "d"
            else self.a[given[1]]
            if given[0] == "a"
            else given[1] & WORD
        )

    def put(self, given, value):
        (self.d if given[0] == "d" else self.a)[given[1]] = value & WORD

    def instruction(self, event):
        name, operands, length = self.fetched()
        after = (self.pc + length) & WORD
        plain = name.replace("16", "", 1)
        kind = plain.split(".")[0]
        if kind in ("ld", "st"):
            self.access(plain, operands, after, event)
        elif not (self.moves(plain, operands, after) or self.jumps(plain, operands, after)):
            self.others(plain, operands, after, event)

    def accessed(self, operands):
        """The address of an access."""
        where = next(o for o in operands if o[0] in "mu")
        if where[0] == "u":
            return where[1], None
        base = self.a[where[1]]
        total = (base + where[2]) & WORD
        return (base, (where[1], total)) if where[3] else (total, None)

    def access(self, name, operands, after, event):
        size, extends = SIZES[name.split(".")[1]]
        x, raised = self.accessed(operands)
        if event.aln and x % size:
            self.trap(2, 4, self.pc)
            return
        if name.startswith("st"):
            register = operands[1]
            data = self.value(register).to_bytes(4, "little")[:size]
            self.stored = x, size
            self.memory.write(x, data)
        else:
            data = event.input.to_bytes(4, "little")
            held = [self.memory.get((x + i) & WORD) for i in range(size)]
            value = int.from_bytes(
                bytes(data[i] if b is None else b for i, b in enumerate(held)), "little"
            )
            if extends and value >> 8 * size - 1:
                value -= 1 << 8 * size
        if raised:
            self.a[raised[0]] = raised[1]
        if name.startswith("ld"):
            self.put(operands[0], value)
        self.pc = after

    def moves(self, name, operands, after):
        """Arithmetic and moves: whether it is one."""
        plain, values = name.removesuffix(".a").removesuffix(".aa").removesuffix(".d"), operands[1:]
        if plain in ALU and name != "ld.a":
            x, y = operands if len(operands) == 2 else values
            self.put(operands[0], int(ALU[plain](self.value(x), self.value(y))))
        elif plain in ("addi", "addih"):
            self.put(
                operands[0],
                self.value(values[0]) + (values[1][1] << (16 if plain == "addih" else 0)),
            )
        elif plain in ("mov", "mov.u"):
            self.put(operands[0], self.value(values[0]))
        elif plain == "movh":
            self.put(operands[0], values[0][1] << 16)
        elif name == "mov.d15":
            self.d[15] = operands[0][1]
        elif name == "addsc.a":
            self.put(operands[0], self.value(values[0]) + (self.value(values[1]) << values[2][1]))
        elif name in ("lea", "lea.l"):
            self.put(operands[0], self.accessed(operands)[0])
        else:
            return False
        self.pc = after
        return True

    def jumps(self, name, operands, after):
        """Branches and jumps: whether it is one."""
        conditions = {
            "jeq": "eq",
            "jne": "ne",
            "jlt": "lt",
            "jge": "ge",
            "jlt.u": "lt.u",
            "jge.u": "ge.u",
            "jeq.a": "eq",
            "jne.a": "ne",
        }
        target = self.target(operands[-1]) if operands and operands[-1][0] in "tu" else None
        if name in ("jz.d15", "jnz.d15"):
            taken = (self.d[15] == 0) == (name == "jz.d15")
        elif name in ("jz.a", "jnz.a", "jz", "jnz"):
            taken = (self.value(operands[0]) == 0) == name.startswith("jz")
        elif name == "loop":
            taken = self.value(operands[0]) != 0
            self.put(operands[0], self.value(operands[0]) - 1)
        elif name in conditions:
            taken = ALU[conditions[name]](self.value(operands[0]), self.value(operands[1]))
        elif name in ("j", "ja", "ji"):
            taken, target = True, target if target is not None else self.value(operands[0]) & ~1
        elif name in ("call", "calla", "calli"):
            target = target if target is not None else self.value(operands[0]) & ~1
            if self.save(1):
                self.a[11], self.pc = after, target
            return True
        else:
            return False
        self.pc = target if taken else after
        return True

    def target(self, given):
        return (self.pc + given[1]) & WORD if given[0] == "t" else given[1]

    def others(self, name, operands, after, event):
        """Contexts, core registers, and what does nothing."""
        if name in ("ret", "rfe"):
            target, old = self.a[11] & ~1, self.pcxi
            self.restore(1)
            self.pc = target
            if name == "rfe":
                pcpn, pie, _ = LAYOUTS[self.core]
                self.ie, self.ccpn = bool(old >> pie & 1), old >> pcpn & 255
            return
        if name == "syscall":
            self.trap(6, operands[0][1] & 255, after)
            return
        if name in ("svlcx", "bisr"):
            if not self.save(0):
                return
            if name == "bisr":
                self.ccpn, self.ie = operands[0][1] & 255, True
        elif name == "rslcx":
            self.restore(0)
        elif name in ("enable", "disable"):
            self.ie = name == "enable"
        elif name == "mfcr":
            self.put(operands[0], self.core_register(operands[1][1], event.input))
        elif name == "mtcr":
            self.put_core_register(operands[0][1], self.value(operands[1]))
        elif name not in ("nop", "dsync", "isync"):
            raise AssertionError(name)
        self.pc = after

    def core_register(self, number, given):
        if number == ICR:
            return self.ccpn | self.ie << 8 | given & ~0x1FF
        known = {
            PCXI: self.pcxi,
            PSW: self.psw,
            BIV: self.biv,
            BTV: self.btv,
            ISP: self.isp,
            FCX: self.fcx,
            LCX: self.lcx,
        }
        return known.get(number, given)

    def put_core_register(self, number, value):
        names = {PCXI: "pcxi", PSW: "psw", ISP: "isp", FCX: "fcx", LCX: "lcx"}
        if number in names:
            setattr(self, names[number], value)
        elif number in (BIV, BTV):
            setattr(self, "biv" if number == BIV else "btv", value & ~1)
        elif number == ICR:
            self.ccpn, self.ie = value & 255, bool(value >> 8 & 1)

    # What it would do, and what is in use

    def next_load(self):
        """Address and size of the load that the instruction at pc would do, or None."""
        try:
            name, operands, _ = self.fetched()
        except Dies:
            return None
        if self.end or not name.startswith("ld"):
            return None
        return self.accessed(operands)[0], SIZES[name.replace("16", "", 1).split(".")[1]][0]

    def used(self):
        links = chain(self.memory, self.pcxi)
        return None if links is None else len(links)


def device_of(board, load):
    """The number of the device in which an access lies wholly, or None."""
    for n, device in enumerate(board["devices"]):
        if load and device["at"] <= load[0] and load[0] + load[1] <= device["at"] + device["len"]:
            return n
    return None


def turns_of(text, board):
    """The turns of a script that keeps its format, each an interrupt and whether misaligned
    accesses trap, and the answers (lo, hi) of each device."""
    turns, aln, answers = [], False, [(d["lo"], d["lo"]) for d in board["devices"]]
    for line in text.split(b"\n"):
        words = line.split()
        numbers = [int(w) for w in words[1:]]
        if words and words[0] == b"step":
            turns += [(0, aln)] * numbers[0]
        elif words and words[0] == b"irq":
            turns.append((numbers[0], aln))
        elif words and words[0] == b"aln":
            aln = numbers[0] == 1
        elif words:
            answers[numbers[0]] = numbers[1], numbers[2]
    return turns, answers


def drive(machine, board, text, seen=None):
    """Does the turns of a script, and gives the line that `run` prints. `seen` is called on each
    state between events, the first and the last too."""
    turns, answers = turns_of(text, board)
    events, peak = 0, machine.used() or 0
    if seen:
        seen(machine)
    for irq, aln in turns:
        device, given = device_of(board, machine.next_load()), 0
        if device is not None:
            low, high = answers[device]
            given = low + events % (high - low + 1)
        machine.step(Event(irq, given, 0, aln))
        events += 1
        peak = max(peak, machine.used() or 0)
        if seen:
            seen(machine)
        if machine.end:
            break
    return f"events {events} peak {peak} " + (
        f"dead {machine.end} at {machine.pc:08X}" if machine.end else "running"
    )


def line_of_run(elf, plan, text):
    """What `run` prints of files that keep their formats."""
    board = readers.plan(plan)
    return drive(Machine.start(readers.elf(elf), board), board, text)
