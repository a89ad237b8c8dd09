#!/usr/bin/env python3
"""Takes over libraries that `rt ci` proved in another checkout of this machine.

    maintain/take.py CHECKOUT              copies them into this checkout

`rt check` in a fresh clone proves all crates below first, for up to an hour: it doesn't take what
`rt ci` has kept. This copies the libraries of the crates whose text, and that of all crates below
them, is the same here and there, and marks them as built. Then `rt check` in a crate proves that
crate alone. It is for work on a change: the gate looks at none of these files.

Exit status: 0 done, 2 CHECKOUT has no built libraries or `rt` isn't on the path, 5 wrong arguments.
"""
import importlib.machinery
import importlib.util
import os
import pathlib
import shutil
import subprocess
import sys

sys.path.insert(0, str(pathlib.Path(__file__).resolve().parent.parent / "tools"))

from tcdlib import arguments
from tcdlib.sources import Unusable, shown

TOP = pathlib.Path(__file__).resolve().parent.parent


def kit_module():
    """The kit's own module, which knows when a library counts as built."""
    try:
        page = subprocess.run(["rt", "doc"], capture_output=True, text=True, check=True).stdout
    except (OSError, subprocess.CalledProcessError):
        raise Unusable("rt: it isn't on the path") from None
    path = str(pathlib.Path(page.strip()).parent / "bin" / "rtlib.py")
    loader = importlib.machinery.SourceFileLoader("rtlib", path)
    module = importlib.util.module_from_spec(importlib.util.spec_from_loader("rtlib", loader))
    sys.modules["rtlib"] = module
    loader.exec_module(module)
    return module


def uses():
    """For each crate of crates.txt, in any order, the crates of this repository that it uses."""
    lines = (TOP / "crates.txt").read_text(encoding="utf-8").splitlines()
    pairs = [line.partition(":") for line in lines if ":" in line and not line.startswith("#")]
    found = {name.split()[0]: used.split() for name, _, used in pairs}
    return {name: [it for it in used if it in found] for name, used in found.items()}


class Takeover:
    """The crates of two checkouts."""

    def __init__(self, kit, other):
        self.kit, self.other, self.uses, self.same = kit, other, uses(), {}

    def texts(self, top, name):
        """The texts of a crate by their names."""
        folder = f"{top}/crates/{name}"
        files = self.kit.files_of(folder)
        return {it[len(folder) :]: pathlib.Path(it).read_bytes() for it in files}

    def is_same(self, name):
        """A crate and all below it have the same text in both checkouts."""
        if name not in self.same:
            try:
                is_same = self.texts(TOP, name) == self.texts(self.other, name)
            except OSError:
                is_same = False
            self.same[name] = is_same and all(map(self.is_same, self.uses[name]))
        return self.same[name]

    def take(self, name):
        """Copies a crate's library and marks it as built; false if there is none to take."""
        built = self.other / "crates" / name / "out" / "rlib" / f"{name}.rlib"
        if not self.is_same(name) or not built.is_dir():
            return False
        here = TOP / "crates" / name
        os.chdir(here)
        crate = self.kit.Crate(str(here), str(TOP), {}, name=None)
        if not crate.is_built():
            shutil.rmtree(here / "out" / "rlib", ignore_errors=True)
            shutil.copytree(built, here / "out" / "rlib" / built.name, symlinks=True)
            (here / "out" / "rlib" / "stamp").write_text(crate.stamp(), encoding="utf-8")
        return True


def main(given):
    """Takes all that can be taken, and gives the exit status."""
    parser = arguments.Parser("checkout")
    other = pathlib.Path(parser.parsed(given).checkout).resolve()
    work = Takeover(kit_module(), other)
    left = [name for name in work.uses if not work.take(name)]
    if len(left) == len(work.uses):
        raise Unusable(f"{shown(other)}: no library of it can be taken")
    print(f"{len(work.uses) - len(left)} libraries; not these, which differ or aren't built there:")
    print(*left)
    return 0


if __name__ == "__main__":
    arguments.ended(__doc__, main)
