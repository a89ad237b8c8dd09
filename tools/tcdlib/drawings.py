"""Drawings of frames by Graphviz: a box for each row of instructions, an arrow for each way."""
import collections
import html
import re
import shutil
import subprocess

from tcdlib.sources import shown

#: a frame of more points than this is only listed
MOST_POINTS = 120
SECONDS = 20
#: the drawings of a page have at most so many characters together; later frames are only listed
MOST_CHARACTERS = 300_000
HEAD = (
    "digraph { bgcolor=transparent; node [shape=box, fontname=monospace, fontsize=10, "
    'margin="0.08,0.04"]; edge [fontname=monospace, fontsize=9];'
)
#: what a drawing has and the page's style gives, or that the page doesn't need
NEEDLESS = re.compile(r'<!--.*?-->|<title>.*?</title>|<g id="a_[^>]*>(?=<a )', re.S)
ATTRIBUTE = re.compile(
    r' (?:id|xlink:title|font-family|font-size|fill|stroke|xmlns(?::xlink)?)="[^"]*"'
)


def blocks(frame):
    """The frame's points in rows: each but the last has one way on, to the next, which has no
    other way in."""
    inward = collections.Counter(
        to for ways in frame.ways.values() for way, to in ways if way in ("to", "back")
    )
    after = {}
    for point, ways in frame.ways.items():
        way, to = ways[0]
        goes_on = way == "to" and all(other == "irq" for other, _ in ways[1:])
        if goes_on and inward[to] == 1 and to not in (point, frame.key.entry):
            after[point] = to
    behind = set(after.values())
    rows = [[point] for point in frame.ways if point not in behind]
    for row in rows:
        while row[-1] in after:
            row.append(after[row[-1]])
    return rows


def quoted(text):
    """A text as Graphviz reads it, which knows `&amp;` and the like; no control character is in it."""
    text = shown(text).replace("&", "&amp;").replace("\\", "\\\\")
    text = text.replace('"', '\\"')
    return f'"{text}"'


def plain(text):
    """The text of a piece of HTML."""
    return html.unescape(re.sub("<[^>]*>", "", text))


def graph_of(frame, page):
    """The frame's ways as Graphviz reads them."""
    lines = [HEAD]
    for row in blocks(frame):
        texts = (quoted(f"{point} {plain(page.code(point, False))}")[1:-1] for point in row)
        label = "".join(f"{text}\\l" for text in texts)
        lines.append(f'"{row[0]}" [label="{label}", URL="#a{row[0]}"];')
        for way, to in frame.ways[row[-1]]:
            if way in ("to", "back"):
                style = " [style=dotted]" if way == "back" else ""
                lines.append(f'"{row[0]}" -> "{to}"{style};')
            elif way != "irq" and (into := page.graph.entered(frame, way, to)):
                name = quoted(page.frame_name(into.key))
                look = f'label={name}, shape=ellipse, URL="#{into.place}"'
                lines.append(f'"{way} {to}" [{look}]; "{row[0]}" -> "{way} {to}" [style=dashed];')
    return "\n".join([*lines, "}"])


def made_small(svg):
    """A drawing without numbers of its own, titles and colours: the page's style has these."""
    svg = NEEDLESS.sub("", svg).replace("</a>\n</g>\n</g>", "</a>\n</g>")
    svg = ATTRIBUTE.sub("", svg)
    svg = svg.replace(' text-anchor="middle"', " class=m").replace(' text-anchor="start"', "")
    svg = re.sub(r"(?<=\d)\.\d+(?=[\s,\"CL])", "", svg)  # tenths of a point
    svg = svg.replace("&#45;", "-").replace("&#160;", " ")
    return svg.replace("xlink:href", "href").replace("\n", "")


def drawn(page, frames):
    """The drawings of these frames by key, from one process; none without Graphviz."""
    dot = shutil.which("dot")
    frames = [each for each in dict.fromkeys(frames) if 1 < len(each.ways) <= MOST_POINTS]
    if not dot or not frames:
        return {}
    text = "\n".join(graph_of(frame, page) for frame in frames)
    try:
        done = subprocess.run(
            [dot, "-Tsvg"], input=text, capture_output=True, text=True, timeout=SECONDS
        )
    except (subprocess.TimeoutExpired, OSError):
        return {}
    found = re.findall(r"<svg.*?</svg>", done.stdout, re.S)
    if done.returncode or len(found) != len(frames):
        return {}
    kept, size = {}, 0
    for frame, svg in zip(frames, map(made_small, found)):
        size += len(svg)
        if size <= MOST_CHARACTERS:
            kept[frame.key] = svg
    return kept
