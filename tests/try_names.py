#!/usr/bin/env python3
"""Looks whether what the documents name is there, and at their form: python3 tests/try_names.py

Read are README.md, CONTRIBUTING.md, CHANGELOG.md, docs/*.md, and README.md of examples/, bench/ and
tools/.

Names  What is between backquotes and is a path (with `/`) whose first part is a folder of the
       repository, or ends with `.md`, `.py` or `.sh`. It has to be there from the top, from its
       document's folder, or, without `/`, in docs/, tools/, tests/unit/ or bench/. `*` and `..`
       stand for anything; what `out/` holds is made by a build.
Links  A link has to lead to a file, from its document's folder, and to one of its headings.
Form   No line is longer than 100 columns, except rows of tables; no cell has more than 200
       characters. A page of docs/ says first whom it is for, and one of more than 1,500 words links
       to its headings before the second one.

Exit status: 0 all is so, 1 something isn't, 5 wrong words.
"""
import glob
import pathlib
import re
import sys

TOP = pathlib.Path(__file__).resolve().parent.parent
PAGES = [TOP / name for name in ("README.md", "CONTRIBUTING.md", "CHANGELOG.md")]
PAGES += [*sorted((TOP / "docs").glob("*.md")), *sorted(TOP.glob("*/README.md"))]
NAME = re.compile(r"`([\w.*/-]+?)/?`")
LINK = re.compile(r"\]\(([^)\s]+)\)")
FENCED = re.compile(r"^```.*?^```$", re.M | re.S)
HEADING = re.compile(r"^#+ (.*)$", re.M)
#: where a name without a folder is looked for, too
SEARCHED = ("docs", "tools", "tools/tcdlib", "tests", "tests/unit", "maintain", "bench", "bench/machines")
COLUMNS, CELL, WORDS = 100, 200, 1500


def headings(text):
    """The names by which links lead to the headings of a document."""
    found = HEADING.findall(FENCED.sub("", text))
    return {re.sub(r"[^\w -]", "", each.lower()).replace(" ", "-") for each in found}


def is_there(name, page):
    """Whether a name between backquotes is that of a file, or no name of one."""
    is_path = "/" in name and (TOP / name.split("/")[0]).is_dir()
    if "/out" in name or not (is_path or name.endswith((".md", ".py", ".sh"))):
        return True
    folders = [TOP, page.parent, *([] if "/" in name else map(TOP.joinpath, SEARCHED))]
    return any(glob.glob(str(folder / name.replace("..", "*"))) for folder in folders)


def leads(link, page):
    """Whether a link leads somewhere in the repository."""
    name, _, heading = link.partition("#")
    path = (page.parent / name).resolve() if name else page
    return path.exists() and (not heading or heading in headings(path.read_text()))


def form_faults(page, text):
    """What is wrong with the form of a page."""
    for number, line in enumerate(text.splitlines(), 1):
        if line.startswith("|"):
            if any(len(cell.strip()) > CELL for cell in line.split(" | ")):
                yield f"{number}: a cell of more than {CELL} characters"
        elif len(line) > COLUMNS:
            yield f"{number}: {len(line)} columns"
    if page.parent.name == "docs":
        _, first, *_ = text.split("\n\n", 2)
        if not re.search(r"\b[Ff]or\b", first):
            yield "1: it doesn't say whom it is for"
        if len(text.split()) > WORDS and "](#" not in text.partition("\n## ")[0]:
            yield f"1: {len(text.split())} words without a table of contents"


def main():
    if sys.argv[1:]:
        print(__doc__)
        sys.exit(0 if sys.argv[1] in ("-h", "--help") else 5)
    tried, faults = 0, []
    for page in PAGES:
        text = page.read_text()
        named = [name for name in NAME.findall(text) if not is_there(name, page)]
        links = [link for link in LINK.findall(text) if not leads(link, page)]
        tried += 1 + len(NAME.findall(text)) + len(LINK.findall(text))
        wrong = [f" {name} isn't there" for name in named + links]
        wrong += form_faults(page, text)
        faults += [f"{page.relative_to(TOP)}:{each}" for each in wrong]
    print("\n".join([*faults, f"{tried} tried, {len(faults)} wrong"]))
    sys.exit(1 if faults else 0)


if __name__ == "__main__":
    main()
