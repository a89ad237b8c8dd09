#!/usr/bin/env python3
"""Draws the pictures of docs/ from pages of view.py: python3 tests/picture.py PROGRAM

PROGRAM is the built tcd (crates/tcd/out/tcd). docs/chain.svg is what the page on
examples/nested_interrupts shows first: the areas by priority, and the longest chain.
tests/try_pages.py tries whether the picture is today's, and trees of frames that documents show.

Exit status: 0 written, 2 there is no such program, 5 wrong words.
"""
import html
import pathlib
import re
import sys
import tempfile

import scratch
from tcdlib import program as programs

EXAMPLE, PICTURE = "nested_interrupts", "docs/chain.svg"
#: what view.py is given after the program, before the sources
FILES = ("firmware.elf", "board.json", "firmware.cert", "page.html", "board.layout")
ROW = re.compile(r"<tr class=(p\d)><td><b>(\d+)</b><td>(.*?)<td>(.*?)<td>(.*)")
PART = re.compile(r"<span class=(p\d) style=\"flex:(\d+)\" title=\"(.*?): \d+\">")
COLOURS = {"p0": "#4b5a6b", "p1": "#1f66b0", "p2": "#9a5200", "p3": "#a8233c"}
START = re.compile(r">([^<>]*) \(start\)<")
HEADS = ("in use", "enters", "by", "from")
COLUMNS = (20, 90, 240, 370)
WIDTH, LINE, BAR, TOP = 640, 25, 36, 130


def plain(piece):
    """The text of a piece of HTML, as SVG shows it."""
    return html.escape(" ".join(html.unescape(re.sub("<[^>]*>", "", piece)).split()))


def svg(page):
    """The number, the bar and the chain of a page of view.py."""
    number = plain(re.search("<p class=head>(.*?)</p>", page)[1])
    rows, parts = ROW.findall(page), PART.findall(page)
    height = TOP + LINE * len(rows)
    out = [
        f'<svg xmlns="http://www.w3.org/2000/svg" viewBox="0 0 {WIDTH} {height}" '
        'font-family="sans-serif" font-size="14" fill="#1d2329">',
        f'<rect width="{WIDTH}" height="{height}" fill="#fff"/>',
        f'<text x="20" y="32" font-size="20">{number}</text>',
    ]
    left, unit = 20, (WIDTH - 40) / sum(int(count) for _, count, _ in parts)
    for look, count, who in parts:
        wide = int(count) * unit
        out.append(
            f'<rect x="{left:.0f}" y="48" width="{wide - 2:.0f}" height="{BAR}" '
            f'fill="{COLOURS[look]}"/><text x="{left + 8:.0f}" y="71" font-size="13" '
            f'fill="#fff">{plain(who)}: {count}</text>'
        )
        left += wide
    for x, head in zip(COLUMNS, HEADS):
        out.append(f'<text x="{x}" y="{TOP - 18}" fill="#5b6670">{head}</text>')
    for place, (look, *cells) in enumerate(rows):
        y = TOP + LINE * place + 8
        out.append(f'<rect x="20" y="{y - 15}" width="34" height="20" fill="{COLOURS[look]}"/>')
        for column, (x, cell) in enumerate(zip(COLUMNS, cells)):
            look = ' fill="#fff" dx="9"' if column == 0 else ""
            out.append(f'<text x="{x}" y="{y}"{look}>{plain(cell)}</text>')
    return "\n".join([*out, "</svg>", ""])


def tree(page):
    """The longest chain as lines: each frame, the areas that it holds, its need; and their sum."""
    frames = [[f"start {START.search(page)[1]}", 0, []]]
    for _, _, into, how, _ in ROW.findall(page):
        into, how = plain(into), plain(how)
        if into == "its lower context":
            frames[-1][2].append(how)
        else:
            name = into.replace("interrupt", "irq") if how == "interrupt" else f"{how} {into}"
            frames.append([name, 1, []])
    needed = total = sum(entry + len(saved) for _, entry, saved in frames)
    lines = ["frame areas need"]
    for name, entry, saved in frames:
        needed -= entry
        saves = f" ({', '.join(saved)})" if saved else ""
        lines.append(f"{name}{saves} {entry + len(saved)} {needed}")
        needed -= len(saved)
    return [*lines, f"in all {total}"]


def page_on(program, example):
    """The page of view.py on an example."""
    with tempfile.TemporaryDirectory() as name:
        folder = pathlib.Path(name)
        scratch.built(program, example, folder)
        words = [sys.executable, str(scratch.TOP / "tools" / "view.py"), program, *FILES]
        scratch.run([*words, *scratch.sources_of(example)], folder)
        return (folder / "page.html").read_text()


def drawn(program):
    """The picture."""
    return svg(page_on(program, EXAMPLE))


def main(words):
    (scratch.TOP / PICTURE).write_text(drawn(programs.of_words(words, __doc__)))


if __name__ == "__main__":
    main(sys.argv[1:])
