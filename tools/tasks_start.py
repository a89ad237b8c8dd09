#!/usr/bin/env python3
"""The start-up code of tasks: writes it, and plays that of an executable (premise A16).

    tasks_start.py write PLAN TASKS SOURCE          writes `start_up`, in a section `start`: a boot
                                                    sequence of `bootgen` jumps to it
    tasks_start.py check ELF PLAN TASKS ADDRESS     plays the code at ADDRESS from the plan's start
                                                    state to the entry address of the first task

`check` compares the state there with "The start of tasks" of docs/formats.md, and prints what
differs: core registers, A10, the contexts of each other task, PSW.CDC (premise A8; it begins as the
boot sequence leaves it), the block, and the free list.

It plays the code three times by tcdlib/machine.py: with RAM of zeros, of ones, and of random bytes.
Peripherals answer at random within the plan's bounds, and no interrupt comes. Code that doesn't
branch on RAM or a peripheral does the same each time.

This is help for a review and no claim: `tasks` takes the start for granted. SOURCE is replaced only
if it is a file that this script wrote.

Exit status: 0 done, 1 another state, 2 a file that can't be used, 5 wrong arguments.
"""
import pathlib
import random

import names
from tcdlib import arguments
from tcdlib import formats as readers
from tcdlib import judged
from tcdlib import machine
from tcdlib import program as tcd
from tcdlib import progress
from tcdlib.arguments import Refused, WrongArguments
from tcdlib.frames import WORD, hex8
from tcdlib.sources import Unusable, bytes_of, shown

MOST_EVENTS = 20000
HEAD = "# By tools/tasks_start.py, for after the boot sequence: interrupts off, no area in use.\n"
#: PSW.IO and PSW.IS of a task: supervisor mode, the user stack
IO_IS, OF_TASKS = 7 << 9, 2 << 10
#: the link of a word 0
LINK = 0xFFFFF
BOUNDS = ("lo", "hi")
#: PSW.CDC as the boot sequence leaves it: calls aren't counted
UNCOUNTED = 0x7F


# Writing


def load(register, value):
    """The two instructions that put an address into a register."""
    high, low = readers.high(value), readers.low(value)
    return [f"movh.a {register}, 0x{high:04X}", f"lea.l  {register}, [{register}]{low}"]


def contexts(number, entry, stack, block):
    """The lines that put the two areas of a task aside."""
    return [
        *load("a10", stack),
        f"call   task_{number} # its upper context, with A10",
        f"task_{number}:",
        *load("a11", entry),
        "svlcx # its lower context, with A11",
        "mfcr   d0, 0xFE00 # PCXI, which names that area",
        "movh   d1, 16",
        "addi   d1, d1, -1 # FFFFF",
        "and    d0, d0, d1 # the link alone",
        *load("a15", block),
        f"st.w   [a15]{4 * number}, d0",
        "mov    d0, 0",
        "mtcr   0xFE00, d0 # no context is saved",
        "isync",
    ]


def laid_out(line):
    """A line with its comment in its column."""
    code, _, comment = line.partition(" # ")
    code = code if code.endswith(":") else f"    {code}"
    return f"{code:28}# {comment}" if comment else code


def source(board, found):
    """The start-up code."""
    _, block, tasks = found
    lines = []
    for number, (entry, stack) in enumerate(tasks[1:], 1):
        lines += contexts(number, entry, stack, block)
    entry, stack = tasks[0]
    lines += [*load("a15", block), "mov    d0, 0"]
    lines += [f"st.w   [a15]{4 * len(tasks)}, d0 # the first task is the current one"]
    lines += load("a10", stack) + load("a15", entry)
    lines += ["enable"] * board["start"]["ie"] + ["ji     a15"]
    text = [".section start", ".global start_up", "start_up:", *map(laid_out, lines)]
    return HEAD + "\n".join(text) + "\n"


def write(plan, tasks, path):
    """Writes the start-up code of a plan and tasks."""
    board = judged.board_of(plan)
    found = judged.read(tasks, lambda data: readers.tasks(data, board))
    arguments.demand_apart([path], [plan, tasks])
    file = pathlib.Path(path)
    if file.is_file() and not bytes_of(file).startswith(HEAD.encode()):
        raise Unusable(f"{shown(path)}: it is there and isn't by this script, so it isn't replaced")
    text = source(board, found)
    arguments.written(path, text)
    count = sum(line.startswith("    ") for line in text.splitlines())
    print(f"start of {len(found[2])} tasks, {count} instructions")


# Playing


def played(image, board, found, at, fill):
    """The machine at the first task's entry, and how many events lead there."""
    state, rnd, events = machine.Machine.start(image, board), random.Random(1), 0
    state.psw |= UNCOUNTED
    for each in board["ram"]:
        state.memory.write(each["at"], fill(each["len"]))
    state.pc, entry = at, found[2][0][0]
    while state.pc != entry:
        device = machine.device_of(board, state.next_load())
        low, high = (0, WORD) if device is None else [board["devices"][device][k] for k in BOUNDS]
        state.step(machine.Event(given=rnd.randint(low, high)))
        events += 1
        if state.end:
            raise Refused(f"it dies: {state.end} at {hex8(state.pc)} after {events} events")
        if events == MOST_EVENTS:
            raise Refused(f"it isn't at {hex8(entry)} after {events} events")
    return state, events


def registers(state, board, found):
    """The registers: what each is called, what it is, what it should be."""
    at, areas, reserve = (board["csa"][key] for key in ("at", "areas", "reserve"))
    first, used = machine.link_of(at), 2 * len(found[2]) - 2
    yield "A10", state.a[10], found[2][0][1]
    yield "PCXI", state.pcxi, 0
    yield "FCX", state.fcx, first + used if used < areas else 0
    yield "LCX", state.lcx, first + areas - reserve
    yield "PSW.IO, PSW.IS", state.psw & IO_IS, OF_TASKS
    yield "PSW.CDC", *counted(state.psw)
    for key in ("ie", "ccpn"):
        yield f"ICR.{key.upper()}", int(getattr(state, key)), board["start"][key]
    for key in ("isp", "biv", "btv"):
        yield key.upper(), getattr(state, key), board[key]
    for key, value in board["globals"].items():
        yield key.upper(), state.a[int(key[1:])], value


def counted(psw):
    """PSW.CDE and PSW.CDC, and what they should be: no count, or one that begins."""
    held = psw & 0xFF
    return held, held if held & UNCOUNTED == UNCOUNTED or held == 0x80 else UNCOUNTED


def memory(state, board, found):
    """The block, the contexts and the free list, as `registers` has them."""
    at, areas = board["csa"]["at"], board["csa"]["areas"]
    _, block, tasks = found
    word = state.memory.word
    link = lambda area: machine.link_of(at) + area
    for u, (entry, stack) in enumerate(tasks[1:], 1):
        upper, lower = at + 64 * (2 * u - 2), at + 64 * (2 * u - 1)
        task, word_0 = f"of task {u} at ", word(lower)
        yield f"the word {task}{hex8(block + 4 * u)}", word(block + 4 * u), link(2 * u - 1)
        yield f"word 0 of the upper context {task}{hex8(upper)}", word(upper), 0
        yield f"PSW.IO, PSW.IS {task}{hex8(upper + 4)}", word(upper + 4) & IO_IS, OF_TASKS
        yield f"PSW.CDC {task}{hex8(upper + 4)}", *counted(word(upper + 4))
        yield f"A10 {task}{hex8(upper + 8)}", word(upper + 8), stack
        yield f"the link of the lower context {task}{hex8(lower)}", word_0 & LINK, link(2 * u - 2)
        ul = machine.LAYOUTS[board["core"]][2]
        yield f"UL of the lower context {task}{hex8(lower)}", word_0 >> ul & 1, 1
        yield f"the entry address {task}{hex8(lower + 4)}", word(lower + 4), entry
    current = block + 4 * len(tasks)
    yield f"the number of the current task at {hex8(current)}", word(current), 0
    for area in range(2 * len(tasks) - 2, areas):
        place, after = at + 64 * area, link(area + 1) if area + 1 < areas else 0
        yield f"the link in the free area at {hex8(place)}", word(place) & LINK, after


def check(elf, plan, tasks, at):
    """Plays the start-up code of an executable, and compares the states to which it leads."""
    image, board = judged.image_of(elf), judged.board_of(plan)
    found = judged.read(tasks, lambda data: readers.tasks(data, board))
    most = 0
    for fill in (bytes, lambda count: b"\xff" * count, random.Random(1).randbytes):
        with progress.of("playing the code"):
            state, events = played(image, board, found, at, fill)
        rows = [*registers(state, board, found), *memory(state, board, found)]
        wrong = [
            f"{what} is {hex8(held)}, not {hex8(good)}" for what, held, good in rows if held != good
        ]
        if wrong:
            raise Refused("\n".join(wrong))
        most = max(most, events)
    print(f"start of {len(found[2])} tasks, {most} events")


def main(given):
    """Does what the first word says, and gives the exit status."""
    if given[:1] == ["write"]:
        given = arguments.Parser("plan", "tasks", "source").parsed(given[1:])
        write(given.plan, given.tasks, given.source)
    elif given[:1] == ["check"]:
        parser = arguments.Parser("elf", "plan", "tasks")
        parser.add_argument("address", metavar="ADDRESS", type=names.address)
        given = parser.parsed(given[1:])
        check(given.elf, given.plan, given.tasks, given.address)
    else:
        raise WrongArguments("the first word is `write` or `check`")
    return tcd.DONE


if __name__ == "__main__":
    arguments.ended(__doc__, main)
