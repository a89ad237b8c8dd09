#!/usr/bin/env python3
"""Runs cooperative tasks with interrupts at every instruction, and looks at all chains after each.

    tasks.py PROGRAM [SEED]

PROGRAM is a built tcd. Each case below is a firmware of two to seven tasks, with the line that
`taskcert` has to print of it, worked out by hand. Of an accepted one `tasks` has to print the same,
and the needs of its certificates have to be those of the line. Its image begins at start-up code
that puts the contexts of the other tasks aside; so `run`, which begins with no task that waits,
gets to the start of the tasks. Then for each case

- `run` is done for scripts of every length, with each interrupt at every instruction from the start
  of the tasks on (those of the switch routine in turn among them), and with random turns. Each
  printed line has to be that of tools/tcdlib/machine.py.
- at each boundary of these runs, and of others from random states in which the tasks start under
  random events, the machine of tools/tcdlib/machine.py is looked at: the chains of all tasks and the free
  ones hold each area once; together the tasks hold no more than `tasks` printed, each no more than
  its need; FCX is at the limit exactly where all areas but the reserve are in use; and each store
  lies in a range of ram or of devices, and misses the block but for the routine's own.

For each case the most that was seen is printed. Ends with 1 where anything was wrong.
"""
import json
import pathlib
import random
import sys
import tempfile

sys.path.insert(0, str(pathlib.Path(__file__).resolve().parents[2] / "tools"))
from tcdlib import formats as readers
from tcdlib import machine
from boots import Bench, board
from tcdlib.machine import Event, Machine, address_of, chain, link_of
from tcdlib.program import of_words

EXAMPLE = pathlib.Path(__file__).resolve().parents[2] / "examples" / "two_tasks"
START_UP, SWITCH, TEXT, FIRST_TASK = 0x80006000, 0x80000040, 0x80000400, 0x80001000
RANDOM_SCRIPTS, RANDOM_STARTS, EVENTS = 30, 10, 3000


# Sources


def address(register, x):
    """Two instructions by which an address register becomes x."""
    return f"    movh.a {register}, {readers.high(x)}\n    lea.l {register}, [{register}]{readers.low(x)}\n"


def start_up(case):
    """Code that puts the contexts of the other tasks aside as the routine does; the first runs."""
    out = [".section start_up\n.global start_up\nstart_up:\n    disable\n"]
    for u, (entry, sp) in enumerate(case.tasks[1:], 1):
        out += [
            address("a10", sp),
            f"    call next{u}\nnext{u}:\n",
            address("a11", entry),
            "    svlcx\n    mfcr d0, 0xFE00\n",
        ]
        out += [
            "    movh d1, 16\n    addi d1, d1, -1\n    and d0, d0, d1\n",
            address("a15", case.block + 4 * u),
            "    st.w [a15]0, d0\n",
        ]
        out += ["    mov d0, 0\n    mtcr 0xFE00, d0\n    isync\n"]
    out += [
        "    mov d0, 0\n",
        address("a15", case.block + 4 * len(case.tasks)),
        "    st.w [a15]0, d0\n",
        address("a10", case.tasks[0][1]),
    ]
    out += [
        address("a15", case.tasks[0][0]),
        "    enable\n" if case.plan["start"]["ie"] else "",
        "    ji a15\n",
    ]
    return "".join(out)


# Cases


class Case:
    """Tasks (their code, one after another), what they share, and what is printed of them."""

    def __init__(
        self,
        name,
        line,
        codes,
        text="",
        vectors=None,
        block=0xD0008100,
        entries=None,
        spare=6,
        reserve=2,
        gives_way=True,
        **plan,
    ):
        self.name, self.line, self.block, self.needs = name, line, block, None
        self.gives_way = gives_way  # whether all tasks give way
        plan = {
            "rom": [(0x80000000, 0x8000)],
            "ram": [(0xD0008000, 0x1000)],
            "biv": 0x80004000,
            "btv": 0x80003000,
            "irqs": [],
            "traps": [],
            **plan,
        }
        self.plan = board(
            sp=0xD0009000, isp=0xD0008800, csa=(0xD0000000, spare + reserve, reserve), **plan
        )
        entries = entries or range(len(codes))
        self.tasks = [
            (FIRST_TASK + 0x100 * n, 0xD0009000 - 0x40 * u) for u, n in enumerate(entries)
        ]
        self.sections = [
            (f"task_{u}", code, FIRST_TASK + 0x100 * u) for u, code in enumerate(codes)
        ]
        self.sections += [("text", text or "nop", TEXT)]
        self.sections += [(f"vector_{at:X}", code, at) for at, code in (vectors or {}).items()]
        self.switch = SWITCH

    def link(self, bench):
        places = [(name, f".section {name}\n{code}\n", at) for name, code, at in self.sections]
        lines = [
            ".section switch",
            ".global switch",
            "switch:",
            *readers.routine_lines(len(self.tasks), self.block),
        ]
        places += [
            ("switch", "\n".join(lines), self.switch),
            ("start_up", start_up(self), START_UP),
        ]
        bench.linked("firmware.elf", "start_up", places)


class ExampleCase(Case):
    """examples/two_tasks as it stands, with start-up code."""

    def __init__(self):
        super().__init__("examples/two_tasks", "certified 8 of 8 areas in 2 tasks", [])
        self.plan = readers.plan((EXAMPLE / "board.json").read_bytes())
        lines = [line.split() for line in (EXAMPLE / "board.tasks").read_text().splitlines()]
        self.switch, self.block = (int(word, 16) for word in lines[0][1:])
        self.tasks = [(int(line[1], 16), int(line[2], 16)) for line in lines[1:]]

    def link(self, bench):
        bench.put("start_up.s", start_up(self))
        layout = (EXAMPLE / "board.layout").read_text().replace(
            "entry main", "entry start_up"
        ) + "place start_up 80000800 00000400\n"
        bench.put("board.layout", layout)
        for name in ("main", "show", "switch"):
            bench.put(f"{name}.s", (EXAMPLE / f"{name}.s").read_text())
        for name in ("main", "show", "switch", "start_up"):
            bench.tcd("asm", f"{name}.s", f"{name}.o")
        printed = bench.tcd(
            "link", "board.layout", "firmware.elf", "main.o", "show.o", "switch.o", "start_up.o"
        )
        if not printed.startswith("image "):
            bench.fault(f"link: {printed}")


GIVES_WAY = "call switch\nj .-4"
ENABLED = "enable\ncall switch\nj .-8"
TICK = "svlcx\ncall tick\nrslcx\nrfe16"
FUNCTIONS = ".global tick\ntick: ret16\n.global work\nwork: call deep\nret16\n.global deep\ndeep: nop\nret16\n.global later\nlater: call switch\nret16\n"
FUNCTIONS += ".global far\nfar: call farther\nret16\nfarther: svlcx\ncall switch\nrslcx\nret16\n"
NESTS = {0x80004000 | p << 5: f"bisr16 {p}\ncall tick\nrslcx\nrfe16" for p in (10, 20)}


def cases():
    yield ExampleCase()
    # a call and the routine's own saved context: 2 areas each
    yield Case("two that only give way", "certified 4 of 6 areas in 2 tasks", [GIVES_WAY] * 2)
    yield Case("one area too few", "refused sum 4 of 3 areas", [GIVES_WAY] * 2, spare=3)
    yield Case(
        "just enough, core 1.6",
        "certified 4 of 4 areas in 2 tasks",
        [GIVES_WAY] * 2,
        spare=4,
        reserve=1,
        core="1.6",
    )
    yield Case(
        "two tasks of one code",
        "certified 4 of 4 areas in 2 tasks",
        [GIVES_WAY],
        spare=4,
        entries=(0, 0),
    )
    # the second has begun and holds its two areas, though it needs none
    yield Case(
        "one never gives way",
        "certified 4 of 4 areas in 2 tasks",
        [GIVES_WAY, "j .+0"],
        spare=4,
        gives_way=False,
    )
    # interrupt 20: its entry, `bisr`, a call: 3. Interrupt 10: the same, and 20 in the call: 6. In
    # the task two calls below: 8
    nested = ["enable\ncall work\ncall switch\nj .-12", GIVES_WAY, "call later\nj .-4"]
    for core in ("1.3", "1.6"):
        yield Case(
            f"three, interrupts nest in the first, core {core}",
            "certified 13 of 14 areas in 3 tasks",
            nested,
            FUNCTIONS,
            NESTS,
            spare=14,
            irqs=[10, 20],
            core=core,
        )
    # interrupt 10: entry, `svlcx`, call: 3; on top of the call of the routine, at its first
    # instruction, 4; so in both tasks
    yield Case(
        "interrupts in both",
        "certified 8 of 8 areas in 2 tasks",
        [ENABLED] * 2,
        FUNCTIONS,
        {0x80004140: TICK},
        spare=8,
        irqs=[10],
    )
    yield Case(
        "interrupts in both, one area too few",
        "refused sum 8 of 7 areas",
        [ENABLED] * 2,
        FUNCTIONS,
        {0x80004140: TICK},
        spare=7,
        irqs=[10],
    )
    for name, block in (("end", 0xD0008FE0), ("beginning", 0xD0008000), ("middle", 0xD0008400)):
        yield Case(
            f"seven, the block at the {name} of ram",
            "certified 14 of 14 areas in 7 tasks",
            [GIVES_WAY] * 7,
            spare=14,
            reserve=1,
            block=block,
        )
    some = {"spare": 16, "reserve": 1, "irqs": [10], "core": "1.6"}
    yield Case(
        "seven, interrupts in the first",
        "certified 16 of 16 areas in 7 tasks",
        [ENABLED] + [GIVES_WAY] * 6,
        FUNCTIONS,
        {0x80004140: TICK},
        **some,
    )
    # `svlcx`, two calls, `svlcx`, and the 2 of giving way
    yield Case(
        "gives way in a function's function",
        "certified 8 of 10 areas in 2 tasks",
        ["svlcx\ncall far\nrslcx\nj .-12", GIVES_WAY],
        FUNCTIONS,
        spare=10,
    )
    # CCPN is 5, so interrupt 3 never comes and needs no vector
    yield Case(
        "interrupts on at the start, CCPN 5",
        "certified 4 of 4 areas in 2 tasks",
        [ENABLED] * 2,
        "",
        {0x80004140: "rfe16"},
        spare=4,
        irqs=[3, 10],
        start=(1, 5, 0),
    )
    uses = (
        "syscall 3\n"
        + address("a15", 0xD0008200)
        + "ld.w d0, [a15]2\nst.w [a15]2, d0\ncall switch\nj .-24"
    )
    yield Case(
        "system calls and misaligned accesses",
        "certified 4 of 4 areas in 2 tasks",
        [uses] * 2,
        "",
        {0x800030C0: "rfe16", 0x80003040: "rfe16"},
        spare=4,
        traps=["sys", "aln"],
    )
    read = (
        address("a15", 0xF0000000)
        + "ld.w d0, [a15]0\n"
        + address("a14", 0xD0008000)
        + "addsc.a a14, a14, d0, 2\nst.w [a14]0, d0\ncall switch\nj .-32"
    )
    thirteen = [(0xF0000000 + 64 * i, 4, 0, 15) for i in range(13)]
    yield Case(
        "13 devices, two ranges of ram",
        "certified 4 of 4 areas in 2 tasks",
        [read] * 2,
        spare=4,
        devices=thirteen,
        ram=[(0xD0008000, 0x1000), (0xD0009000, 64)],
    )
    yield Case(
        "14 devices, two ranges of ram",
        "bad tasks 5",
        [read] * 2,
        devices=thirteen + [(0xF0001000, 4, 0, 0)],
        ram=[(0xD0008000, 0x1000), (0xD0009000, 64)],
    )
    yield from refused_cases()


def refused_cases():
    """What rule 17 is against: nothing is run."""
    at = (
        lambda u, place: f"refused K17 at {FIRST_TASK + 0x100 * u + place:08X} in start {FIRST_TASK + 0x100 * u:08X} prio 0 is 0 of task {u}"
    )
    yield Case("BISR at the base", at(0, 0), ["bisr16 0\nj .+0", GIVES_WAY])
    yield Case("PCXI is read", at(1, 0), [GIVES_WAY, "mfcr d0, 0xFE00\n" + GIVES_WAY])
    yield Case(
        "an area is read",
        at(0, 8),
        [address("a15", 0xD0000000) + "ld.bu d0, [a15]7\n" + GIVES_WAY, GIVES_WAY],
    )
    yield Case(
        "the routine is read",
        at(1, 8),
        [GIVES_WAY, address("a15", SWITCH) + "ld.w d0, [a15]16\n" + GIVES_WAY],
    )
    calls = {0x80004140: "svlcx\ncall switch\nrslcx\nrfe16"}
    yield Case(
        "a handler gives way",
        f"refused K17 at {SWITCH:08X} in call {SWITCH:08X} prio 10 is 1 of task 0",
        [ENABLED, GIVES_WAY],
        "",
        calls,
        irqs=[10],
    )
    line = f"refused K17 at {SWITCH:08X} in call {SWITCH:08X} prio 0 is 1 of task 1"
    yield Case(
        "a system call gives way",
        line,
        [GIVES_WAY, "syscall 1\n" + GIVES_WAY],
        "",
        {0x800030C0: "call switch\nrfe16"},
        traps=["sys"],
    )


# What has to hold


def owner(m, case):
    """The task whose chain begins in PCXI."""
    count, now = len(case.tasks), m.memory.word(case.block + 4 * len(case.tasks))
    return (now - 1) % count if m.pc - case.switch in (48, 52, 56) and now < count else now


def lengths(m, case):
    """How many areas each task holds, or what is wrong with the chains."""
    areas, count = case.plan["csa"], len(case.tasks)
    at = owner(m, case)
    if at >= count:
        return f"task {at} of {count} is current"
    chains = [
        chain(m.memory, m.pcxi if u == at else m.memory.word(case.block + 4 * u))
        for u in range(count)
    ]
    free = chain(m.memory, m.fcx)
    if None in chains or free is None:
        return "a chain doesn't end"
    first = link_of(areas["at"])
    if sorted(sum(chains, free)) != list(range(first, first + areas["areas"])):
        return "an area isn't on one chain"
    return [len(links) for links in chains]


class Watch:
    """Looks at each state of a run, from the start of the tasks on."""

    def __init__(self, case, begin):
        self.case, self.begin, self.at, self.pc = case, begin, 0, None
        self.faults, self.most, self.sum = [], [0] * len(case.tasks), 0

    def seen(self, m):
        if self.at == self.begin:
            self.faults += [f"at the start: {fault}" for fault in not_started(m, self.case)]
        if self.at >= self.begin:
            self.faults += [f"event {self.at}, pc {m.pc:08X}: {fault}" for fault in self.wrong(m)]
        self.at, self.pc = self.at + 1, m.pc

    def wrong(self, m):
        """What doesn't hold in this state, and in the event before it."""
        plan, case = self.case.plan, self.case
        if m.end:
            return [f"died of {m.end}"]
        held = lengths(m, case)
        if isinstance(held, str):
            return [held]
        self.most, self.sum = list(map(max, self.most, held)), max(self.sum, sum(held))
        spare = plan["csa"]["areas"] - plan["csa"]["reserve"]
        out = [f"task {u} holds {n}" for u, n in enumerate(held) if n > case.needs[u]] + [
            "more than the sum"
        ] * (sum(held) > sum(case.needs))
        out += (
            ["FCX and the limit"] * ((m.fcx ^ m.lcx) & 0xFFFFF == 0)
            if sum(held) != spare
            else ["FCX isn't at the limit"] * ((m.fcx ^ m.lcx) & 0xFFFFF != 0)
        )
        if m.stored and self.at > self.begin:
            x, size = m.stored
            ranges = plan["ram"] + plan["devices"]
            out += ["a store elsewhere"] * (
                not any(r["at"] <= x and x + size <= r["at"] + r["len"] for r in ranges)
            )
            inside = 0 <= self.pc - case.switch < 72
            out += ["a store to the block"] * (
                not inside and x < case.block + 4 * len(case.tasks) + 4 and case.block < x + size
            )
        return out


def not_started(m, case):
    """What of a state in which the tasks start isn't so."""
    plan, areas, first = case.plan, case.plan["csa"], link_of(case.plan["csa"]["at"])
    held, word = 2 * (len(case.tasks) - 1), lambda area, n: m.memory.word(
        address_of(first + area) + 4 * n
    )
    link = lambda i: first + i if i < areas["areas"] else 0
    wanted = {
        "end": None, "pc": case.tasks[0][0], "fcx": link(held), "lcx": first + areas["areas"] - areas["reserve"], "pcxi": 0, "biv": plan["biv"],
        "btv": plan["btv"], "isp": plan["isp"], "ie": bool(plan["start"]["ie"]), "ccpn": plan["start"]["ccpn"], "core": plan["core"],
    }  # fmt: skip
    out = [name for name, value in wanted.items() if getattr(m, name) != value]
    out += ["sp"] * (m.a[10] != case.tasks[0][1]) + [
        name
        for n, name in ((0, "a0"), (1, "a1"), (8, "a8"), (9, "a9"))
        if m.a[n] != plan["globals"][name]
    ]
    out += ["PSW"] * (m.psw >> 9 & 7 != 4) + ["current"] * (
        m.memory.word(case.block + 4 * len(case.tasks)) != 0
    )
    out += ["free links"] * any(
        word(i, 0) & 0xFFFFFFFF != link(i + 1) for i in range(held, areas["areas"])
    )
    for u, (entry, sp) in enumerate(case.tasks[1:], 1):
        upper, lower = 2 * (u - 1), 2 * (u - 1) + 1
        good = (
            word(upper, 0) == 0
            and word(upper, 1) >> 9 & 7 == 4
            and word(upper, 2) == sp
            and word(lower, 1) == entry
        )
        good = (
            good
            and word(lower, 0) & 0xFFFFF == first + upper
            and word(lower, 0) >> machine.LAYOUTS[plan["core"]][2] & 1
        )
        out += [f"task {u}"] * (not good or m.memory.word(case.block + 4 * u) != first + lower)
    return out


# Runs


def count_events(image, case):
    """How many events the start-up code takes, how many from there on until each task gave way
    twice more, and at how many places of the routine, by the task whose chain it is, these events
    are."""
    m, events, begin, turns, places = Machine.start(image, case.plan), 0, None, 0, set()
    while (
        events < 2000
        and turns < 2 * len(case.tasks) + 1
        and (begin is None or events < begin + 400)
    ):
        if m.pc == case.tasks[0][0] and begin is None:
            begin = events
        if 0 <= m.pc - case.switch < 72:
            places.add((owner(m, case), m.pc))
        turns += m.pc == case.switch + 68
        m.step(Event())
        events += 1
    return begin, events - begin, len(places)


def scripts(begin, length, case, draw):
    """Scripts of all lengths, with each interrupt at each place, and random ones."""
    step = lambda n: [f"step {n}"] if n else []
    for n in range(length + 1):
        yield step(begin + n)
    for irq in case.plan["irqs"]:
        for n in range(length):
            yield step(begin + n) + [f"irq {irq}"] + step(60)
        for n in range(0, length, 3):
            yield step(begin + n) + [f"irq {irq}"] * 4 + step(60)
    for _ in range(RANDOM_SCRIPTS):
        lines = [
            f"in {n} {d['lo']} {draw.randint(d['lo'], d['hi'])}"
            for n, d in enumerate(case.plan["devices"])
        ]
        lines += step(begin)
        for _ in range(100):
            kinds = [
                f"step {draw.choice([1, 1, 2, 7, 18, 40])}",
                f"aln {draw.randrange(2)}",
                *[f"irq {irq}" for irq in case.plan["irqs"]],
            ]
            lines.append(draw.choice(kinds))
        yield lines


def drawn_start(image, case, draw):
    """A state in which the tasks start, all that may be random is."""
    m, plan = Machine.start(image, case.plan), case.plan
    for begin, end, held in m.memory.parts:
        if all(begin != r["at"] for r in plan["rom"]):
            held[:] = draw.randbytes(end - begin)
    areas, first, count = plan["csa"], link_of(plan["csa"]["at"]), len(case.tasks)
    held = 2 * (count - 1)
    link = lambda i: first + i if i < areas["areas"] else 0
    put = lambda area, n, value: m.memory.put_word(address_of(first + area) + 4 * n, value)
    for i in range(held, areas["areas"]):
        put(i, 0, link(i + 1))
    keep = [n for n in range(16) if n not in (0, 1, 8, 9, 10)]
    m.d, m.a = [draw.getrandbits(32) for _ in range(16)], [
        draw.getrandbits(32) if n in keep else m.a[n] for n in range(16)
    ]
    m.a[10], m.pc, m.fcx = case.tasks[0][1], case.tasks[0][0], link(held)
    m.psw = draw.getrandbits(32) & ~0xE00 | 0x800
    ul = machine.LAYOUTS[plan["core"]][2]
    for u, (entry, sp) in enumerate(case.tasks[1:], 1):
        upper, lower = 2 * (u - 1), 2 * (u - 1) + 1
        put(upper, 0, 0)
        put(upper, 1, draw.getrandbits(32) & ~0xE00 | 0x800)
        put(upper, 2, sp)
        put(lower, 0, draw.getrandbits(32) & ~0xFFFFF | 1 << ul | first + upper)
        put(lower, 1, entry)
        m.memory.put_word(case.block + 4 * u, first + lower)
    m.memory.put_word(case.block + 4 * count, 0)
    return m


def fitting(m, plan, draw):
    """A random event that fits."""
    load = m.next_load()
    device = machine.device_of(plan, load) if load and load[1] == 4 else None
    given = (
        draw.getrandbits(32)
        if device is None
        else draw.randint(plan["devices"][device]["lo"], plan["devices"][device]["hi"])
    )
    irq = draw.choice([0, 0, 0, *plan["irqs"]]) if draw.random() < 0.5 else 0
    return Event(irq, given, draw.getrandbits(8), draw.random() < 0.3)


def explored(bench, case, draw):
    """All runs of an accepted case: scripts, events, places of the routine, and the most seen."""
    plan_text, elf = (bench.folder / "board.json").read_bytes(), (
        bench.folder / "firmware.elf"
    ).read_bytes()
    image = readers.elf(elf)
    begin, length, places = count_events(image, case)
    # `mov d0, 0` is passed over but by the last task
    if places != (17 * len(case.tasks) + 1 if case.gives_way else 17):
        bench.fault(f"{places} places of the routine")
    most, total, tried, events = [0] * len(case.tasks), 0, 0, 0
    watches = []
    for lines in scripts(begin, length, case, draw):
        text, watch = "".join(f"{line}\n" for line in lines), Watch(case, begin)
        wanted = machine.drive(
            Machine.start(image, readers.plan(plan_text)), case.plan, text.encode(), watch.seen
        )
        bench.put("turns.script", text)
        bench.says(wanted, "run", "firmware.elf", "board.json", "turns.script")
        tried += 1
        watches.append(watch)
    for _ in range(RANDOM_STARTS):
        m, watch = drawn_start(image, case, draw), Watch(case, 0)
        watch.seen(m)
        for _ in range(EVENTS):
            m.step(fitting(m, case.plan, draw))
            watch.seen(m)
            if m.end:
                break
        watches.append(watch)
    for watch in watches:
        for fault in watch.faults[:3]:
            bench.fault(fault)
        most, total, events = (
            list(map(max, most, watch.most)),
            max(total, watch.sum),
            events + watch.at - 1,
        )
    return tried, events, places, total, most


def tried(bench, case, draw):
    """One case; its line and, where it is accepted, its runs."""
    bench.put("board.json", json.dumps(case.plan))
    case.link(bench)
    lines = [
        f"switch {case.switch:08X} {case.block:08X}",
        *[f"task {entry:08X} {sp:08X}" for entry, sp in case.tasks],
    ]
    bench.put("board.tasks", "\n".join(lines) + "\n")
    words = [
        "firmware.elf",
        "board.json",
        "board.tasks",
        *[f"{u}.cert" for u in range(len(case.tasks))],
    ]
    bench.says(case.line, "taskcert", *words)
    if not case.line.startswith("certified"):
        print(f"{case.name}: {case.line}", flush=True)
        return 0, 0
    bench.says(case.line, "tasks", *words)
    certs = [
        readers.Certificate((bench.folder / f"{u}.cert").read_bytes()).read()[1]
        for u in range(len(case.tasks))
    ]
    case.needs = [next(n[1] for n in nodes if n[0][0] == 0) for nodes in certs]
    case.needs = case.needs[:1] + [max(need, 2) for need in case.needs[1:]]
    if sum(case.needs) != int(case.line.split()[1]):
        bench.fault(f"the needs are {case.needs}")
    count, events, places, total, most = explored(bench, case, draw)
    chains = ", ".join(f"{n} of {need}" for n, need in zip(most, case.needs))
    print(
        f"{case.name}: {case.line}; {count} scripts, {events} events, {places} places of the routine; at most {total} in use, by task {chains}",
        flush=True,
    )
    return count, events


def main():
    program, seed = of_words(sys.argv[1:], __doc__), int(sys.argv[2]) if len(sys.argv) > 2 else 1
    draw, count, runs, events = random.Random(seed), 0, 0, 0
    with tempfile.TemporaryDirectory() as folder:
        bench = Bench(program, pathlib.Path(folder))
        for case in cases():
            more = tried(bench, case, draw)
            count, runs, events = count + 1, runs + more[0], events + more[1]
    print(f"{count} cases, {runs} scripts, {events} events looked at: {bench.wrong} wrong")
    sys.exit(1 if bench.wrong else 0)


if __name__ == "__main__":
    main()
