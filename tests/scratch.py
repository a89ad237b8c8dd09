"""An example of this repository in a folder of its own, for scripts that try it.

Whoever imports this module first may import from tools/ after it.
"""

import pathlib
import shutil
import subprocess
import sys

TOP = pathlib.Path(__file__).resolve().parent.parent
EXAMPLES = TOP / "examples"
sys.path.insert(0, str(TOP / "tools"))
#: the commands that make an example's files, in the order of its `expected`
MAKES = ("asm", "bootgen", "link", "cert", "cellcert", "taskcert")


def run(words, folder):
    """Runs a program: what it printed, its errors, its status."""
    done = subprocess.run(words, cwd=folder, capture_output=True, text=True, errors="replace")
    return done.stdout, done.stderr, done.returncode


def as_line(text):
    """A text as one line: itself, or how many lines it has."""
    lines = text.splitlines()
    return lines[0] if len(lines) == 1 else f"{len(lines)} lines"


def copied(example, folder):
    """Copies the files of an example, without its broken variants."""
    for path in (EXAMPLES / example).iterdir():
        if path.is_file():
            shutil.copy(path, folder)


def built(program, example, folder):
    """Copies an example and makes its files by the commands of its `expected`."""
    copied(example, folder)
    for line in (EXAMPLES / example / "expected").read_text().splitlines():
        words = line.partition(" => ")[0].split(" ")
        if words[0] in MAKES:
            run([program, *words], folder)


def sources_of(example):
    """The sources of an example, in the order in which they are linked."""
    for line in (EXAMPLES / example / "expected").read_text().splitlines():
        words = line.partition(" => ")[0].split(" ")
        if words[0] == "link":
            return [f"{word[:-2]}.s" for word in words[3:]]
    return []
