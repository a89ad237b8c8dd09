"""What the tests of this folder share: tools/, tests/ and maintain/ on the path, the program if there is one, files."""
import os
import pathlib
import shutil
import subprocess
import sys
import tempfile
import unittest

HERE = pathlib.Path(__file__).resolve().parent
TESTS = HERE.parent
TOOLS = TESTS.parent / "tools"
RECORDED = HERE / "recorded"
sys.path[:0] = map(str, (TOOLS, TESTS, TESTS.parent / "maintain"))

import scratch
from scratch import EXAMPLES, TOP


def program():
    """The path of tcd: what TCD names, or the gate's, or the one on the path; None without one."""
    named = os.environ.get("TCD") or str(TOP / "crates/tcd/out/tcd")
    found = shutil.which(named) or shutil.which("tcd")
    return str(pathlib.Path(found).resolve()) if found else None


needs_program = unittest.skipUnless(program(), "no tcd: name it with TCD")


def recorded(name):
    """A text that tcd printed for an example: NAME.dis, NAME.report or NAME.cfg."""
    return (RECORDED / name).read_text()


class InFolder(unittest.TestCase):
    """A test with a folder of its own, in which it runs."""

    def setUp(self):
        folder = tempfile.TemporaryDirectory()
        self.addCleanup(folder.cleanup)
        self.folder = pathlib.Path(folder.name)
        before = os.getcwd()
        self.addCleanup(os.chdir, before)
        os.chdir(self.folder)

    def put(self, name, text):
        """Writes a file and gives its name."""
        (self.folder / name).write_bytes(text if isinstance(text, bytes) else text.encode())
        return name

    def example(self, name, *variants):
        """Copies an example, and variants of it over it; gives the sources in linked order."""
        for part in (name, *(f"{name}/{variant}" for variant in variants)):
            scratch.copied(part, self.folder)
        return scratch.sources_of(name)

    def tcd(self, *words):
        """What a command of the program prints."""
        done = subprocess.run([program(), *words], capture_output=True, text=True)
        return done.stdout.strip()

    def linked(self, sources):
        """Assembles and links the sources of an example."""
        for source in sources:
            self.tcd("asm", source, source[:-2] + ".o")
        objects = [source[:-2] + ".o" for source in sources]
        return self.tcd("link", "board.layout", "firmware.elf", *objects)

    def script(self, name, *words, env=None):
        """Runs a script of tools/: its status, standard output and standard error."""
        return subprocess.run(
            [sys.executable, str(TOOLS / name), *words],
            capture_output=True,
            text=True,
            errors="surrogateescape",
            env={**os.environ, **(env or {})},
        )
