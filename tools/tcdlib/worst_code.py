"""Instructions as Python: for worst_machine.py each instruction becomes a function of the machine.

`lines(name, operands, pc, after)` gives the body of that function, and whether it is a branch. `r`
are the registers (D0 to D15, then A0 to A15), `m` the machine, `w` the world (worst_machine.World);
what it returns is the next address. Names and operands are those of machine.Decoder, without `16`.
"""

from tcdlib.machine import SIZES, WORD

ARITHMETIC = {
    "add": "({0} + {1})",
    "sub": "({0} - {1})",
    "rsub": "({1} - {0})",
    "and": "({0} & {1})",
    "nand": "~({0} & {1})",
    "or": "({0} | {1})",
    "nor": "~({0} | {1})",
    "xor": "({0} ^ {1})",
    "xnor": "~({0} ^ {1})",
    "andn": "({0} & ~{1})",
    "orn": "({0} | ~{1})",
    "eq": "({0} == {1})",
    "ne": "({0} != {1})",
    "lt": "(({0} ^ 2147483648) < ({1} ^ 2147483648))",
    "ge": "(({0} ^ 2147483648) >= ({1} ^ 2147483648))",
    "lt.u": "({0} < {1})",
    "ge.u": "({0} >= {1})",
    "sh": "shifted({0}, {1}, False)",
    "sha": "shifted({0}, {1}, True)",
}
COMPARES = {"jeq": "eq", "jne": "ne", "jlt": "lt", "jge": "ge", "jlt.u": "lt.u", "jge.u": "ge.u"}
COMPARES |= {"jeq.a": "eq", "jne.a": "ne"}
FIRST_A = 16


def slot(operand):
    """The place of a register."""
    return f"r[{operand[1] + (FIRST_A if operand[0] == 'a' else 0)}]"


def value(operand):
    """A register or a constant."""
    return slot(operand) if operand[0] in "da" else str(operand[1] & WORD)


def target(operand, pc):
    """Where a jump goes, by a distance or an address."""
    return (pc + operand[1]) & WORD if operand[0] == "t" else operand[1]


def place(operands):
    """The address of an access, and the lines that raise its base afterwards."""
    where = next(o for o in operands if o[0] in "mu")
    if where[0] == "u":
        return str(where[1]), []
    base = f"r[{FIRST_A + where[1]}]"
    if where[3]:
        return base, [f"{base} = ({base} + {where[2]}) & {WORD}"]
    return f"({base} + {where[2]}) & {WORD}", []


def access(name, operands):
    """Loads, stores and `lea`."""
    kind, *form = name.split(".")
    if kind not in ("ld", "st", "lea"):
        return None
    x, raised = place(operands)
    if kind == "lea":
        return [f"{slot(operands[0])} = {x}"]
    size, extends = SIZES[form[0]]
    if kind == "st":
        return [f"w.store(m, {x}, {size}, {slot(operands[1])})", *raised]
    return [f"v = w.load(m, {x}, {size}, {extends})", *raised, f"{slot(operands[0])} = v"]


def arithmetic(name, operands):
    """Arithmetic and moves."""
    plain = name.removesuffix(".a").removesuffix(".aa").removesuffix(".d")
    if plain in ARITHMETIC:
        x, y = operands if len(operands) == 2 else operands[1:]
        text = ARITHMETIC[plain].format(value(x), value(y))
        return [f"{slot(operands[0])} = int({text}) & {WORD}"]
    if plain in ("addi", "addih"):
        k = operands[2][1] << (16 if plain == "addih" else 0)
        return [f"{slot(operands[0])} = ({value(operands[1])} + {k}) & {WORD}"]
    if plain in ("mov", "mov.u"):
        return [f"{slot(operands[0])} = {value(operands[1])}"]
    if plain == "movh":
        return [f"{slot(operands[0])} = {operands[1][1] << 16 & WORD}"]
    if name == "mov.d15":
        return [f"r[15] = {operands[0][1]}"]
    if name == "addsc.a":
        base, index, shift = operands[1:]
        return [f"{slot(operands[0])} = ({value(base)} + ({value(index)} << {shift[1]})) & {WORD}"]
    return None


def branch(name, operands, pc, after):
    """Branches, and jumps through a register."""
    if name in COMPARES:
        x, y = value(operands[0]), value(operands[1])
        test = ARITHMETIC[COMPARES[name]].format(x, y)
        ways = f"return {target(operands[2], pc)} if {test} else {after}"
        return [f"if {x} != {y}: w.compare({x}, {y})", ways]
    if name in ("jz", "jnz", "jz.a", "jnz.a", "jz.d15", "jnz.d15"):
        x = "r[15]" if name.endswith("d15") else value(operands[0])
        sign = "==" if name.startswith("jz") else "!="
        return [f"return {target(operands[-1], pc)} if {x} {sign} 0 else {after}"]
    if name == "loop":
        x = slot(operands[0])
        goes = f"n = {target(operands[1], pc)} if {x} else {after}"
        return [goes, f"{x} = ({x} - 1) & {WORD}", "return n"]
    if name == "ji":
        return [f"return {value(operands[0])} & ~1"]
    if name == "calli":
        return [f"return w.enter(m, 'call', {value(operands[0])} & ~1, {after})"]
    return None


def leaving(name, operands, pc, after):
    """What goes on elsewhere without a choice."""
    if name in ("j", "ja"):
        return [f"return {target(operands[0], pc)}"]
    if name in ("call", "calla"):
        return [f"return w.enter(m, 'call', {target(operands[0], pc)}, {after})"]
    if name == "syscall":
        return [f"w.trap(m, 'sys', {operands[0][1] & 255}, {after})", "return m.pc"]
    if name in ("ret", "rfe"):
        return [f"return w.leave(m, {name == 'rfe'})"]
    return None


def context(name, operands):
    """Contexts of the lower registers, interrupts on and off, core registers."""
    if name == "svlcx":
        return ["w.save_lower(m)"]
    if name == "bisr":
        return ["w.save_lower(m)", f"m.ccpn, m.ie = {operands[0][1] & 255}, True"]
    if name == "rslcx":
        return ["w.restore_lower(m)"]
    if name in ("enable", "disable"):
        return [f"m.ie = {name == 'enable'}"]
    if name == "mfcr":
        return [f"{slot(operands[0])} = w.core(m, {operands[1][1]}) & {WORD}"]
    if name in ("nop", "dsync", "isync"):
        return []
    return None


def lines(name, operands, pc, after):
    """The body of an instruction's function, and whether it is a branch."""
    for translate in (access, arithmetic, context):
        found = translate(name, operands)
        if found is not None:
            return [*found, f"return {after}"], False
    if found := branch(name, operands, pc, after):
        return found, True
    # no certified code has what is left, `mtcr`
    return leaving(name, operands, pc, after) or ["raise w.ends"], False
