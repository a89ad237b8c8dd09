#!/usr/bin/env python3
"""The call chain that takes the most areas, as text: for a terminal, a log, a review.

    chain.py ELF PLAN CERT [--names LAYOUT SOURCE ..] [--cells FILE | --tasks FILE TASK]
             [--markdown | --json] [--tcd PROGRAM]

A line is a frame: the areas that it holds (one for its entry, one for each lower context that it
saved before the next entry), its need besides those in use when it begins, and where it enters the
next frame. Of several longest chains one is shown. --markdown prints a table, for a comment on a
change.

Exit status: 0 done, 1 the certificate is refused, 2 a file or a program that can't be used, 5 wrong
arguments.
"""
import json

import names
from tcdlib import arguments
from tcdlib import certified
from tcdlib import program as tcd
from tcdlib.frames import SAVES, Graph
from tcdlib.sources import shown


def title(step, frame, graph, known):
    """What a frame of the chain is called, by the entry into it."""
    if step is None:
        return f"start {known.name(int(frame.key.entry, 16))}"
    if step.way == "call":
        return f"call {known.name(int(frame.key.entry, 16))}"
    if step.way == "irq":
        return f"irq {frame.key.prio}"
    return graph.listing.texts[step.point] if step.way == "sys" else "misaligned access"


def saves(frame, count, listing):
    """The instructions by which a frame saves its first lower contexts."""
    for held in range(count):
        words = [listing.word(point) for point, saved in frame.saved.items() if saved == held]
        yield next((word for word in words if SAVES.get(word, 0) > 0), "saved")


def rows_of(graph, known):
    """The frames of the longest chain."""
    steps, _, held = graph.deepest()
    frames = [(None, graph.start), *((step, step.into) for step in steps)]
    for (step, frame), left in zip(frames, [*steps, None]):
        saved = list(saves(frame, left.saved if left else held, graph.listing))
        at = int(left.point, 16) if left else None
        yield {
            "frame": title(step, frame, graph, known) + (f" ({', '.join(saved)})" if saved else ""),
            "areas": len(saved) + (step is not None),
            "need": frame.need,
            "left": known.place(at) or known.name(at) if left else "",
        }


def text_of(rows):
    """The chain as a tree."""
    marks = ["  " * (depth - 1) + "└ " * (depth > 0) for depth in range(len(rows))]
    tree = [mark + row["frame"] for mark, row in zip(marks, rows)]
    wide = max(map(len, [*tree, "frame"]))
    yield f"{'frame':{wide}}  areas  need  left at"
    for name, row in zip(tree, rows):
        yield f"{name:{wide}}  {row['areas']:5}  {row['need']:4}  {row['left']}".rstrip()
    yield f"{'in all':{wide}}  {sum(row['areas'] for row in rows):5}"


def cell(text):
    """A text as a cell of a table shows it, whatever its marks mean in Markdown."""
    return "".join(c if c.isalnum() or c in " .:+_/-()" else f"&#{ord(c)};" for c in shown(text))


def markdown_of(rows):
    """The chain as a table."""
    yield "| Frame | Areas | Need | Left at |\n|---|--:|--:|---|"
    for depth, row in enumerate(rows):
        name = "&nbsp;" * 2 * depth + cell(row["frame"])
        yield f"| {name} | {row['areas']} | {row['need']} | {cell(row['left'])} |"
    yield f"| in all | {sum(row['areas'] for row in rows)} | | |"


def main(given):
    """Judges the certificate, prints the chain, and gives the exit status."""
    parser = certified.parser()
    parser.add_argument("--markdown", action="store_true")
    given = parser.parsed(given)
    if given.markdown and given.json:
        parser.error("--markdown or --json, not both")
    with certified.accepted(given) as (asked, report):
        known = names.of(asked.program, given.elf, given.names)
        rows = list(rows_of(Graph(report, asked.edges(), asked.listing()), known))
    if given.json:
        print(json.dumps({"chain": rows}))
    else:
        print("\n".join(markdown_of(rows) if given.markdown else map(shown, text_of(rows))))
    return tcd.DONE


if __name__ == "__main__":
    arguments.ended(__doc__, main)
