#!/usr/bin/env python3
"""An archive of a built tcd, for people without the kit.

    maintain/release.py PROGRAM ARCHIVE.tar.gz [--version TEXT] [--kit TEXT]

PROGRAM is the built tcd (crates/tcd/out/tcd). In the archive is one folder, tcd-VERSION. It has
files of this repository at the same paths, and

    bin/tcd         PROGRAM
    VERSION         the version, the commit, the kit, the checksum of PROGRAM, what it needs
    tcd.spdx.json   the bill of materials: what is in PROGRAM, and what built it
    Makefile        `make check`; `make install PREFIX=/usr/local DESTDIR=`; `make uninstall`
    SHA256SUMS      of all of these

The files are those that git tracks: tools/, docs/, examples/, all pages, plan.schema.json, and what
tools/qualify.py plays (tests/ without those that build or prove, and the texts of cases).
The same files give the same archive to the byte: times, owners and order are fixed.

VERSION is `git describe --always --dirty` if --version doesn't say it. --kit is what `rt version`
says where PROGRAM was built; without it, it is asked here, if `rt` is on the path. If it is the kit
on the path, the bill has the checksums of its files. A file that holds a path of this checkout, of
the home folder or of the kit is refused. Printed are the checksums of ARCHIVE and of SHA256SUMS:
the second one is also the same if another zlib packs the files.

Exit status: 0 done, 1 PROGRAM answers wrongly or a path is in a file, 2 a file or a program that
can't be used, 5 wrong arguments.
"""
import gzip
import io
import os
import pathlib
import re
import sys
import tarfile

sys.path.insert(0, str(pathlib.Path(__file__).resolve().parent.parent / "tools"))

import bill
from tcdlib import arguments
from tcdlib import program as tcd
from tcdlib.arguments import Refused, WrongArguments
from tcdlib.sources import Unusable, bytes_of, shown

TOP = pathlib.Path(__file__).resolve().parent.parent
#: what users get of the tracked files
FOR_USERS = re.compile(
    r"(?:tools|docs|examples|tests/hostile|tests/second)/.*|tests/.*\.cases"
    r"|plan\.schema\.json|(?!crates/).*\.md"
    r"|tests/(?:scratch|schema|picture|largest)\.py"
    r"|tests/try_(?:examples|hostile|second|pages|schema|largest|memory)\.py"
    r"|crates/tcd/data/.*|crates/tcd_tool_tests/src/.*\.rt"
)
#: the first thing that has to run, and its answer
FIRST = [f"crates/tcd/data/{name}" for name in ("i1.elf", "p0.json", "c0.cert")]
ANSWER = "certified 1 of 2 areas"
MAKEFILE = f"""\
# make check      the checksums of all files, and the first answer of bin/tcd
# make install    puts this folder into PREFIX/lib/tcd, which is tcd's alone, and tcd on the path
# make uninstall  removes both
PREFIX ?= /usr/local
HELD    = $(DESTDIR)$(PREFIX)/lib/tcd
PROGRAM = $(DESTDIR)$(PREFIX)/bin/tcd

check:
\tsha256sum --strict --quiet -c SHA256SUMS
\ttest "`bin/tcd check {' '.join(FIRST)}`" = "{ANSWER}"
\t@cat VERSION

install: check
\t@! test . -ef $(HELD) || {{ echo "this folder is the installed one"; exit 1; }}
\trm -rf $(HELD)
\tinstall -d $(HELD) $(dir $(PROGRAM))
\tcp -R * $(HELD)
\tchmod -R u+w,a+rX $(HELD)
\tln -sf ../lib/tcd/bin/tcd $(PROGRAM)

uninstall:
\trm -rf $(HELD) $(PROGRAM)

.PHONY: check install uninstall
"""


def printed(*words):
    """What a command prints in this repository, or nothing if it fails."""
    try:
        done = tcd.run(*words, folder=TOP)
    except Unusable:
        return ""
    return done.stdout.strip() if done.returncode == tcd.DONE else ""


def tracked():
    """The tracked files: whether each is a program, by its name."""
    rows = printed("git", "ls-files", "-s", "-z").split("\0")
    if not (found := dict(row.split("\t")[::-1] for row in rows if row)):
        raise Unusable(f"{shown(TOP)}: no git repository; an archive is made of its tracked files")
    return {name: mode.startswith("100755") for name, mode in sorted(found.items())}


def record_of(program, version, kit):
    """What is known of the program."""
    version = version or printed("git", "describe", "--always", "--dirty", "--abbrev=12")
    if not re.fullmatch(r"[A-Za-z0-9][A-Za-z0-9._+-]*", version):
        raise WrongArguments("a version has letters, digits and . _ + - only")
    if not kit.isprintable():
        raise WrongArguments("the text for --kit has to be one line")
    needed = {tuple(map(int, n.split(b"."))) for n in re.findall(rb"GLIBC_(\d+\.\d+)", program)}
    return {
        "version": version,
        "commit": printed("git", "rev-parse", "HEAD"),
        "time": int(printed("git", "show", "-s", "--format=%ct")),
        "kit": kit or "unknown",
        "glibc": ".".join(map(str, max(needed, default=("unknown",)))),
    }


def version_file(record, program):
    """The text of VERSION."""
    rows = {name: record[name] for name in ("version", "commit", "kit")}
    rows["sha256 of bin/tcd"] = bill.sha256(program)
    rows["needs"] = f"Linux on x86-64, glibc {record['glibc']}; for scripts Python 3.9 (or newer)"
    return "".join(f"{name}: {text}\n" for name, text in rows.items())


def contents(program, record, kit):
    """By name: the bytes of each file of the archive, and whether it is a program."""
    files = tracked()
    held = {
        name: (bytes_of(TOP / name), files[name]) for name in files if FOR_USERS.fullmatch(name)
    }
    uses = bill.uses_of((TOP / "crates.txt").read_text())
    crates = {crate: {} for crate in uses}
    for name in files:
        folder, _, rest = name.partition("/")
        if folder == "crates":
            crates[rest.partition("/")[0]][name] = bytes_of(TOP / name)
    texts = {
        "VERSION": version_file(record, program),
        "Makefile": MAKEFILE,
        "tcd.spdx.json": bill.bill(record, program, uses, crates, kit),
    }
    held |= {name: (text.encode(), False) for name, text in texts.items()}
    held["bin/tcd"] = program, True
    sums = bill.sums({name: data for name, (data, _) in held.items()})
    return held | {"SHA256SUMS": (sums.encode(), False)}


def demand_no_path(held, kit):
    """Raises Refused if a file holds a path of this machine."""
    for folder in filter(None, (TOP, kit, pathlib.Path.home())):
        if folder == pathlib.Path("/"):
            continue
        path = re.compile(rb"(?<![\w.-])" + re.escape(os.fsencode(folder)) + rb"(?![\w.-])")
        for name, (data, _) in held.items():
            if path.search(data):
                raise Refused(f"{shown(name)}: it holds the path {shown(folder)}")


def packed(folder, held):
    """The bytes of the archive."""
    tar_bytes, out = io.BytesIO(), io.BytesIO()
    with tarfile.open(fileobj=tar_bytes, mode="w", format=tarfile.USTAR_FORMAT) as tar:
        for name, (data, is_program) in sorted(held.items()):
            each = tarfile.TarInfo(f"{folder}/{name}")
            each.size, each.mode = len(data), 0o755 if is_program else 0o644
            tar.addfile(each, io.BytesIO(data))
    with gzip.GzipFile(filename="", fileobj=out, mode="wb", mtime=0) as file:
        file.write(tar_bytes.getvalue())
    return out.getvalue()


def main(words):
    parser = arguments.Parser("program", "archive")
    parser.add_argument("--version")
    parser.add_argument("--kit")
    given = parser.parsed(words)
    path = tcd.found(given.program)
    arguments.demand_apart([given.archive], [path])

    answer = tcd.run(os.path.abspath(path), "check", *FIRST, folder=TOP).stdout.strip()
    if answer != ANSWER:
        raise Refused(f"{shown(path)}: it prints `{shown(answer)}`, not `{ANSWER}`")
    program, here = bytes_of(path), printed("rt", "version")
    record = record_of(program, given.version, given.kit or here)
    page = printed("rt", "doc") if here == record["kit"] else ""
    kit = pathlib.Path(page).parent if os.path.isfile(page) else None
    held = contents(program, record, kit)
    demand_no_path(held, kit)

    data = packed(f"tcd-{record['version']}", held)
    pathlib.Path(given.archive).write_bytes(data)
    print(f"{bill.sha256(data)}  {shown(given.archive)}")
    print(f"{bill.sha256(held['SHA256SUMS'][0])}  SHA256SUMS")
    print(f"tcd-{record['version']}: {len(held)} files, {len(data)} bytes")
    return tcd.DONE


if __name__ == "__main__":
    arguments.ended(__doc__, main)
