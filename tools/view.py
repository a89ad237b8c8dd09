#!/usr/bin/env python3
"""One page on an executable and its certificate.

    view.py PROGRAM ELF PLAN CERT PAGE [LAYOUT SOURCE..] [--cells FILE | --tasks FILE TASK]

PROGRAM is tcd (`tcd` if it is on the path). PAGE is an HTML file that needs no network. It shows
how many areas each priority takes, the chain of entries that takes the most, the frames by
priority, the ways of each frame, and the listing; under the title the checksums (SHA-256) of the
files that were judged. Names of functions and lines of sources come from LAYOUT and the SOURCEs, in
the order in which they were linked, or from the symbols of an executable that another linker wrote.
Sources that don't link to ELF are refused. If Graphviz (`dot`) is installed, frames are drawn: all
of them, or those of the longest chain if there are more than 100.

With --cells the certificate is one of `cellcert`, with --tasks that of one task, from 0, of
`taskcert`. What `report` can't say of these is left out, and the page says what that is.

If the certificate is refused or isn't there, `cert` is asked again: the page says what stands
against a certificate now, with the code around it, and for K14 the loop of frames, or the
chain that needs more areas than there are.

The page is a picture and proves nothing: `check` of the certificate does.
Exit status: 0 written, also if it shows a refusal; 2 a file or a program that can't be used, 5
wrong arguments.
"""
import pathlib
import tempfile

import explain
import names
from tcdlib import arguments
from tcdlib import judged
from tcdlib import plans
from tcdlib import progress
from tcdlib import program as tcd
from tcdlib.frames import Graph
from tcdlib.page import Page, esc
from tcdlib.sources import Unusable, bytes_of, checksum, shown

HERE = pathlib.Path(__file__).resolve().parent


NOT_OF_CELLS = (
    "`report` knows no cells, so this page shows the plan in which each cell is a peripheral with "
    "the cell's bounds. It doesn't show the stores by which `cells` judged these bounds (rule 16)."
)
NOT_OF_TASKS = (
    "This page shows task {} alone, in its view: each word of RAM may hold anything when it is "
    "read, and the listing has other instructions in the switch routine. The areas of all {} tasks "
    "together, the routine's bytes and rule 17 aren't on it: `tasks` judges them."
)
MAYBE_OF_OTHERS = (
    " If that is a certificate of `cellcert` or `taskcert`, add `--cells FILE` or "
    "`--tasks FILE TASK`."
)


class View:
    """The page of one executable, from the files of the command. `judged` names them."""

    def __init__(self, judged, cert, names_from):
        self.judged, self.cert, self.paths = judged, cert, names_from[1:]
        known = names.of(judged.program, judged.given[0], names_from)
        self.page = Page(known, judged.listing())

    def body(self):
        """The parts of the page, and the ids and names of those that the top links to."""
        if not pathlib.Path(self.cert).exists():
            return self.refused(None)
        report, is_refused = self.judged.report(self.cert)
        if is_refused:
            return self.refused(report.strip())
        self.page.graph = Graph(report, self.judged.edges(), self.page.listing)
        return self.certified()

    def certified(self):
        """The parts of a page on a certificate."""
        page, task = self.page, self.judged.tasks
        page.has_frames = True
        if task:
            page.rest = "not used by this task"
            head = page.headline("tasks", f"by task {task[1]}")
            head.append(page.note(NOT_OF_TASKS.format(*task[1:])))
        elif self.judged.cells:
            head = page.headline("cells")
            head.append(page.note(f"It prints `{self.judged.line}`. {NOT_OF_CELLS}"))
        else:
            head = page.headline()
        chain, frames = page.chain()
        parts = {"chain": "Longest chain", "frames": "Frames", "each": "Each frame"}
        return head + chain + page.tables() + page.each(frames), parts

    def refused(self, older):
        """The parts of a page on a refusal. `older` is the refusal of the certificate."""
        command, line, still = self.judged.made_again(self.cert)
        if not still and older is None:
            words = shown(" ".join(["tcd", *command[1:]]))
            raise Unusable(f"{shown(self.cert)}: not there; `{words}` makes it")
        if not still:
            return [self.of_others(line, older)], {}
        note = "There is no older certificate."
        if older is not None:
            is_plain = not self.judged.cells and not self.judged.tasks
            note = f"The certificate that was given is refused: `{older}`."
            note += MAYBE_OF_OTHERS if is_plain else ""
        return self.explained(command, line, note)

    def explained(self, command, line, note):
        """The refusal of a command in words, with its code, the ring, or the chain too long."""
        page, explainer = self.page, explain.Explainer(command, self.page.known, self.paths)
        found = explainer.find(line, tcd.REFUSED)
        if explainer.roomy:
            page.graph = Graph(*explainer.roomy, page.listing)
            page.graph.areas, page.graph.reserve = plans.areas_of(self.judged.plan)
            return page.refusal(line, found, note) + page.chain()[0], {"chain": "Longest chain"}
        body = page.refusal(line, found, note)
        if found and found["address"]:
            body.append(page.refused_code(found["address"]))
        if explainer.ring.steps:
            return body + page.ring(explainer.ring), {"ring": "The loop"}
        if found and found["notes"]:
            body += page.origins(found["notes"])
        return body, {}

    def of_others(self, line, older):
        """A page on a certificate that isn't one of this executable and plan."""
        return "<p class='head bad'>The certificate isn't this executable's</p>" + self.page.note(
            f"It is refused: `{older}`. A new one would be accepted: `{line}`. The one that "
            f"was given is of other files.{MAYBE_OF_OTHERS}"
        )

    def sums(self):
        """The checksums of the files, so that a printed page belongs to a release."""
        judged, rows = self.judged, []
        more = judged.cells or (judged.tasks and judged.tasks[0])
        for path in [*judged.given, self.cert, *([more] if more else [])]:
            try:
                told = checksum(path)
            except Unusable:
                told = "not there"
            rows.append(f"<li>{esc(pathlib.Path(path).name)} <code>{told}</code></li>")
        return f"<ul class=sums title=SHA-256>{''.join(rows)}</ul>"

    def text(self):
        """The page."""
        body, parts = self.body()
        title = esc(pathlib.Path(self.judged.given[0]).name)
        parts = {**parts, "listing": "Listing"}
        nav = "".join(f"<a href=#{place}>{name}</a>" for place, name in parts.items())
        style = (HERE / "tcdlib" / "view.css").read_text(encoding="utf-8")
        script = (HERE / "tcdlib" / "view.js").read_text(encoding="utf-8")
        return (
            "<!doctype html><html lang=en><meta charset=utf-8>"
            "<meta name=viewport content='width=device-width,initial-scale=1'>"
            f"<title>{title}</title><style>{style}</style><script>{script}</script>"
            f"<h1>{title}</h1>{self.sums()}<nav>{nav}</nav>"
            + "\n".join(body + self.page.listed())
            + "</html>\n"
        )


def demand_page(path):
    """Raises Unusable if PAGE is there and is no page: a forgotten word would replace that file."""
    file = pathlib.Path(path)
    if file.is_file() and not bytes_of(file).lower().startswith(b"<!doctype html"):
        raise Unusable(f"{shown(path)}: it is there and is no page, so it isn't replaced")


def main(given):
    """Reads the words, writes the page, and gives the exit status."""
    parser = arguments.Parser("program", "elf", "plan", "cert", "page")
    parser.add_names()
    judged.add_to(parser)
    given = parser.parsed(given)
    more = [given.cells, *(given.tasks or [])[:1], *given.names]
    arguments.demand_apart([given.page], [given.elf, given.plan, given.cert, *more])
    demand_page(given.page)
    with tempfile.TemporaryDirectory() as folder:
        program = tcd.found(given.program)
        asked = judged.Judged(program, given.elf, given.plan, folder, given.cells, given.tasks)
        with progress.of("the page"):
            text = View(asked, given.cert, given.names).text()
        arguments.written(given.page, text)
    return tcd.DONE


if __name__ == "__main__":
    arguments.ended(__doc__, main)
