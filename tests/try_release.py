#!/usr/bin/env python3
"""Makes an archive and uses it without the repository: python3 tests/try_release.py PROGRAM

PROGRAM is the built tcd (crates/tcd/out/tcd). maintain/release.py makes an archive of it twice: the
same bytes. It is unpacked and installed into an empty folder, and what is unpacked goes away.
There, README's first firmware and each script of tools/ run as they do in the repository, with no
variable that names one, and each script of tests/ begins. Links between pages lead somewhere, no
file names this checkout, each changed byte is refused by `make check`, and `make uninstall` leaves
no file.

Exit status: 0 all is well, 1 something isn't, 2 no such program, 5 wrong words.
"""
import json
import os
import pathlib
import re
import shutil
import subprocess
import sys
import tempfile

import scratch
import try_names
import try_pages
from tcdlib.program import of_words

FILES = "firmware.elf board.json firmware.cert"
NAMES = "board.layout main.s handlers.s"
#: for each script: words in the folder of the first firmware, and a line that is printed
SCRIPTS = {
    "claim.py": (2, "check", "claim.py needs the repository"),
    "evidence.py": (0, f"tcd case {FILES} --names {NAMES}", "certified 11 of 11 areas"),
    "explain.py": (0, f"{NAMES} -- tcd cert {FILES}", "certified 11 of 11 areas"),
    "first_plan.py": (0, "firmware.elf board.layout -o first.json", ""),
    "growth.py": (0, f"tcd {FILES} {NAMES} --most 11", "11 of 11 areas"),
    "known.py": (0, "firmware.elf board.json", "instructions"),
    "names.py": (0, f"firmware.elf {NAMES} --tcd tcd", "main"),
    "plan_check.py": (0, "firmware.elf board.json board.layout", "no warning, which"),
    "qualify.py": (0, "tcd report --only examples", "0 failed: report/report.md"),
    "sarif.py": (0, f"{NAMES} -- tcd cert {FILES}", '"version": "2.1.0"'),
    "view.py": (0, f"tcd {FILES} page.html {NAMES}", ""),
    "worst_run.py": (0, f"{FILES} --tcd tcd --names {NAMES}", "reached 11 of 11"),
}
#: files in which a changed byte has to be refused
CHANGED = ("bin/tcd", "tools/tcdlib/judged.py", "docs/safety.md", "VERSION", "SHA256SUMS")


class Bench:
    """A folder, what was tried in it and what was wrong."""

    def __init__(self, program, room):
        self.program, self.room, self.tried, self.wrong = program, room, 0, []
        self.unpacked, self.root = room / "unpacked", room / "root"
        self.installed = self.root / "usr" / "lib" / "tcd"
        named = ("PYTHONPATH", "TOOLS", "TCD", "PREFIX", "DESTDIR", "MAKEFLAGS")
        self.settings = {key: text for key, text in os.environ.items() if key not in named}
        self.settings["PYTHONDONTWRITEBYTECODE"] = "1"

    def holds(self, what, is_so, printed=""):
        """Counts one thing that has to be so."""
        self.tried += 1
        if not is_so:
            self.wrong.append(f"{what}: {printed.strip()[-300:]!r}")

    def ran(self, words, folder):
        """What a command prints, and its status."""
        settings = {"cwd": folder, "env": self.settings, "text": True, "errors": "replace"}
        settings |= {"stdout": subprocess.PIPE, "stderr": subprocess.STDOUT}
        done = subprocess.run(words, **settings)
        return done.stdout, done.returncode

    def does(self, what, words, folder, status=0, line=""):
        """A command has to end so, and to print a text."""
        printed, got = self.ran(words, folder)
        self.holds(what, got == status and line in printed and "Traceback" not in printed, printed)
        return printed

    def make(self, target):
        return ["make", target, "PREFIX=/usr", f"DESTDIR={self.root}"]


def archived(bench):
    """Makes the archive twice, and unpacks it."""
    script = str(scratch.TOP / "maintain" / "release.py")
    more = ["--version", "0", "--kit", "a kit that isn't here"]  # so that no file of it is read
    for name in ("one.tar.gz", "two.tar.gz"):
        words = [sys.executable, script, bench.program, name, *more]
        bench.does(f"making {name}", words, bench.room, line="SHA256SUMS")
    one, two = ((bench.room / name).read_bytes() for name in ("one.tar.gz", "two.tar.gz"))
    bench.holds("the same files give the same archive", one == two)
    bench.does("tar", ["tar", "xzf", "one.tar.gz"], bench.room)
    (bench.room / "tcd-0").rename(bench.unpacked)


def contents(bench):
    """What the archive holds."""
    top = os.fsencode(scratch.TOP) + b"/"
    for path in filter(pathlib.Path.is_file, bench.unpacked.rglob("*")):
        bench.holds(f"{path}: a path of the checkout", top not in path.read_bytes())
    for page in bench.unpacked.rglob("*.md"):
        for link in try_names.LINK.findall(page.read_text()):
            is_there = "://" in link or try_names.leads(link, page)
            bench.holds(f"{page.relative_to(bench.unpacked)}: {link}", is_there)
    listed = (bench.unpacked / "SHA256SUMS").read_text().splitlines()
    files = {str(p.relative_to(bench.unpacked)) for p in bench.unpacked.rglob("*") if p.is_file()}
    bench.holds("all files are listed", {line[66:] for line in listed} | {"SHA256SUMS"} == files)

    bill = json.loads((bench.unpacked / "tcd.spdx.json").read_text())
    names = [part["SPDXID"] for part in bill["packages"]]
    ends = [
        row[key] for row in bill["relationships"] for key in ("spdxElementId", "relatedSpdxElement")
    ]
    bench.holds("each part has one name", len(names) == len({*names}))
    bench.holds("each end is a part", {*ends} == {*names, bill["SPDXID"]}, str({*ends} ^ {*names}))
    crates = (scratch.TOP / "crates.txt").read_text()
    wanted = {name.replace("_", "-") for name in re.findall(r"\w+", re.sub("#.*", "", crates))}
    bench.holds("all crates are parts", {f"SPDXRef-{name}" for name in wanted} <= {*names})


def checked(bench):
    """`make check`, and a changed byte."""
    bench.does("make check", bench.make("check"), bench.unpacked, line="commit: ")
    for name in CHANGED:
        path, data = bench.unpacked / name, (bench.unpacked / name).read_bytes()
        path.write_bytes(data[:40] + bytes([data[40] ^ 1]) + data[41:])
        bench.does(f"make check with another {name}", bench.make("check"), bench.unpacked, 2)
        path.write_bytes(data)


def used(bench):
    """README's first firmware and the scripts, where they are installed."""
    bench.does("make install", bench.make("install"), bench.unpacked)
    bench.does("make check where it is installed", bench.make("check"), bench.installed)
    bench.does("make install there", bench.make("install"), bench.installed, 2, "installed one")
    shutil.rmtree(bench.unpacked)
    bench.settings["PATH"] = f"{bench.root}/usr/bin:{os.environ['PATH']}"
    folder = first_firmware(bench)
    for path in sorted((bench.installed / "tools").glob("*.py")):
        words = [sys.executable, str(path)]
        bench.does(f"{path.name} --help", [*words, "--help"], bench.room, line=path.name)
        if path.name in SCRIPTS:
            status, text, line = SCRIPTS[path.name]
            bench.does(path.name, [*words, *text.split()], folder, status, line)


def tests(bench):
    """Each script of tests/ finds the modules that it imports."""
    for path in sorted((bench.installed / "tests").glob("try_*.py")):
        words = [sys.executable, str(path), "--help"]
        bench.does(f"{path.name} --help", words, bench.room, line=path.name)


def first_firmware(bench):
    """Runs README's first firmware; gives its folder."""
    text = (bench.installed / "README.md").read_text()
    blocks = (lines for _, lines, _ in try_pages.blocks(text))
    lines = next(lines for lines in blocks if lines[0].startswith(try_pages.COPY))
    (copy, _), *commands = try_pages.shells(lines)
    folder = bench.room / "nested"
    copy = copy.partition(" && ")[0].replace("/tmp/nested", str(folder))
    bench.does("README's copy", ["sh", "-c", copy], bench.installed)
    for shell, wanted in commands:
        printed = bench.does(f"README's {shell}", shell.split(), folder)
        bench.holds(f"{shell} prints", printed.strip() == wanted.strip(), printed)
    return folder


def removed(bench):
    """`make uninstall`."""
    bench.does("make uninstall", bench.make("uninstall"), bench.installed)
    left = [str(path) for path in bench.root.rglob("*") if not path.is_dir()]
    bench.holds(
        "make uninstall leaves no file", not left and not bench.installed.exists(), str(left)
    )


def main(words):
    program = of_words(words, __doc__, 1)
    if not (shutil.which("make") and shutil.which("tar") and shutil.which("git")):
        print("nothing is tried: make, tar or git isn't installed")
        return 1
    with tempfile.TemporaryDirectory() as room:
        bench = Bench(program, pathlib.Path(room).resolve())
        for part in (archived, contents, checked, used, tests, removed):
            part(bench)
    print("\n".join([*bench.wrong, f"{bench.tried} steps tried, {len(bench.wrong)} wrong"]))
    return 1 if bench.wrong else 0


if __name__ == "__main__":
    sys.exit(main(sys.argv[1:]))
