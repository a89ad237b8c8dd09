#!/usr/bin/env python3
"""How many bytes each stack takes at most, read out of an accepted certificate.

    stack.py ELF PLAN CERT [--names LAYOUT SOURCE ..] [--cells FILE | --tasks FILE TASK]
             [--most BYTES] [--json] [--tcd PROGRAM]

A certificate lists, for each instruction of each frame, which values A10 may have. The least one, or
the address of a store `[a10]-N` below it, is how deep the stack goes in any run: contexts are in
areas, not on stacks. Each stack is compared with what is below it: a place of LAYOUT, bytes of the
executable, a cell, another stack, or the begin of RAM. A place without bytes that ends where a
stack begins is that stack's own.

Not looked at: stores below A10 through other registers; buffers that are passed to a function, which
may write more than they hold; without LAYOUT, variables that have no bytes in the executable. With
--tasks the stacks are those that this task uses: ask for each task.

The certificate is judged first (`report`, and with cells `cells`; `tasks` is left to you). All
this is help and no claim: tcd claims nothing of stacks (L2 in docs/safety.md).

Exit status: 0 done, 1 a stack reaches what is below it, takes more than BYTES, or isn't bounded, or
the certificate is refused, 2 a file or a program that can't be used, 5 wrong arguments.
"""
import json

import names
from tcdlib import arguments
from tcdlib import certified
from tcdlib import formats as readers
from tcdlib import judged
from tcdlib import program as tcd
from tcdlib import sources
from tcdlib.frames import hex8
from tcdlib.sources import shown

#: so many places are printed at which A10 isn't known
MOST_PLACES = 3


class Stack:
    """One stack: its top, the frames that run on it, the deepest point, what is below it."""

    def __init__(self, name, top, frames):
        self.name, self.top, self.frames = name, top, frames
        self.low, self.at, self.floor, self.below = top, None, 0, ""
        self.unknown, self.above = [], []
        deepest = None
        for frame in frames:
            first = certified.begun(frame)
            for point in frame.points:
                if point.least is None:
                    self.unknown.append(point.at)
                    continue
                if point.most > top:
                    self.above.append(point.at)
                # of equal points one where the frame itself went down
                is_own = first is not None and point.lowest < first
                key = point.lowest, not is_own, point.at
                deepest = min(deepest or key, key)
        if deepest and deepest[0] < top:
            self.low, self.at = deepest[0], deepest[2]

    @property
    def size(self):
        """How many bytes it takes at most, as far as A10 is known."""
        return self.top - self.low

    def put_on(self, marks):
        """Finds what is below it among ranges of memory: begin, end, and how the end is called."""
        ends = [(min(end, self.top), name) for begin, end, name in marks if begin < self.top]
        self.floor, self.below = max(ends, key=lambda each: each[0])

    def faults(self, most, known):
        """Why it is too deep, each with the address of its code."""
        stack = f"the {self.name} stack"
        for at in list(dict.fromkeys(self.unknown))[:MOST_PLACES]:
            yield at, f"{stack} isn't bounded: A10 isn't known at {known.name(at)}"
        for at in list(dict.fromkeys(self.above))[:MOST_PLACES]:
            top = hex8(self.top)
            yield at, f"A10 may be above {top}, the top of {stack}, at {known.name(at)}"
        if self.low < self.floor:
            yield self.at, f"{stack} goes {self.floor - self.low} bytes below {self.below}"
        if most is not None and self.size > most:
            yield self.at, f"{stack} takes {self.size} bytes; the budget is {most}"


def stacks_of(board, frames, task):
    """The stacks on which frames run."""
    user = "user" if task is None else f"task {task}"
    if board["start"]["is"]:
        rows = [("user and interrupt", "sp", (0, 1))]
    else:
        rows = [(user, "sp", (0,)), ("interrupt", "isp", (1,))]
    for name, key, kinds in rows:
        if mine := [frame for frame in frames if frame.stack in kinds]:
            yield Stack(name, board[key], mine)


# What is below a stack


def ram_below(ram, top):
    """Where the RAM begins that ends at a stack's top or holds it: ranges that touch are one."""
    at = top
    while each := next((r for r in ram if r["at"] < at <= r["at"] + r["len"]), None):
        at = each["at"]
    if at == top:
        return -1, top, "its top, and no range of `ram` is there"
    return -1, at, f"the begin of `ram` at {hex8(at)}"


def placed(layout, image, tops):
    """The places of a layout."""
    segments = dict(image[1])
    for name, place in sources.read_places(layout).items():
        size, end = len(segments.get(place.at, b"")), place.at + place.most
        if size:
            yield place.at, place.at + size, f"the end of place {name}"
        elif place.most and end in tops:
            yield place.at, place.at, f"the begin of place {name}"
        elif place.most:
            yield place.at, end, f"the end of place {name}"


def marks_of(given, board, image, tops):
    """What is in memory besides the stacks: begin, end, and how the end is called."""
    if given.names:
        yield from placed(given.names[0], image, tops)
    for at, held in image[1]:
        yield at, at + len(held), f"the end of the segment at {hex8(at)}"
    if given.cells:
        for at, _, _ in judged.read(given.cells, lambda data: readers.cells(data, board)):
            yield at, at + 4, f"the end of the cell at {hex8(at)}"
    if given.tasks:
        path, mine = given.tasks
        _, block, tasks = judged.read(path, lambda data: readers.tasks(data, board))
        yield block, block + 4 * len(tasks) + 4, "the end of the switch routine's block"
        for number, (_, top) in enumerate(tasks):
            if number != int(mine):
                yield top, top, f"the top of the stack of task {number}"


def lay(stacks, given, image):
    """Gives each stack what is below it."""
    board = judged.board_of(given.plan)
    marks = list(marks_of(given, board, image, {stack.top for stack in stacks}))
    for stack in stacks:
        others = [each for each in stacks if each is not stack]
        tops = [(each.low, each.top, f"the top of the {each.name} stack") for each in others]
        stack.put_on([ram_below(board["ram"], stack.top), *marks, *tops])


# What is printed


def row_of(stack, most, known):
    """What is known of a stack."""
    faults = [
        {"message": text, "at": hex8(at), "place": known.place(at)}
        for at, text in stack.faults(most, known)
    ]
    is_used = stack.at is not None
    return {
        "stack": stack.name,
        "bytes": stack.size,
        "top": hex8(stack.top),
        "lowest": hex8(stack.low),
        "deepest": known.name(stack.at) if is_used else None,
        "place": known.place(stack.at) if is_used else None,
        "free": stack.low - stack.floor,
        "below": stack.below,
        "faults": faults,
    }


def lines_of(row):
    """A stack as it is printed."""
    yield (
        f"{row['stack']} stack from {row['top']}: at most {row['bytes']} of "
        f"{row['bytes'] + row['free']} bytes above {row['below']}"
    )
    if row["deepest"]:
        yield f"    {row['lowest']} in {row['deepest']} {row['place']}".rstrip()
    for each in row["faults"]:
        yield f"{each['place'] or each['at']}: error: {each['message']}"


def main(given):
    """Judges the certificate, prints the stacks, and gives the exit status."""
    parser = certified.parser()
    parser.add_argument("--most", type=int)
    given = parser.parsed(given)
    if given.most is not None and given.most < 0:
        parser.error("--most is a number of bytes")
    with certified.accepted(given) as (asked, _):
        known = names.of(asked.program, given.elf, given.names)
        image, task = asked.image(), asked.tasks[1] if asked.tasks else None
        frames = list(certified.frames_of(given.cert, image))
        stacks = list(stacks_of(asked.board(), frames, task))
        lay(stacks, given, image)
    rows = [row_of(stack, given.most, known) for stack in stacks]
    if given.json:
        print(json.dumps({"stacks": rows, "note": certified.NO_CLAIM}))
    else:
        for row in rows:
            print("\n".join(map(shown, lines_of(row))))
        print(certified.NO_CLAIM)
    return tcd.REFUSED if any(row["faults"] for row in rows) else tcd.DONE


if __name__ == "__main__":
    arguments.ended(__doc__, main)
