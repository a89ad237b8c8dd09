#!/usr/bin/env python3
"""Builds an optimised tcd without proofs, to count or to try a change: in some two minutes.

    bench/unproved.py PROGRAM [CHECKOUT]

PROGRAM is written; CHECKOUT is this one if it isn't named. `rt try` compiles the program with the
checks of clang's address sanitizer and runs it once. This takes the module that it hands to clang,
and compiles and links it as `rt` does, optimised and without those checks. Other checks stay: such
a program takes some five times the instructions of the gate's. So compare two of them with each
other. It answers as the proved one does, but is no evidence of anything.

Exit status: 0 done, 2 `rt` isn't on the path or the build failed (its last lines are printed), 5
wrong arguments.
"""
import os
import pathlib
import shutil
import subprocess
import sys
import tempfile

sys.path.insert(0, str(pathlib.Path(__file__).resolve().parent.parent / "tools"))

from tcdlib import arguments
from tcdlib.sources import Unusable, shown

TOP = pathlib.Path(__file__).resolve().parent.parent
FIRST = ["check", "data/i1.elf", "data/p0.json", "data/c0.cert"]
TARGET = "x86_64-unknown-linux-gnu"
#: in place of clang: it keeps the module of the program, and refuses to go on with it
KEEPING = """#!/bin/sh
case "$*" in *-fsanitize=address*)
    for word in "$@"; do case "$word" in *.bc) cp "$word" "{0}"; exit 1;; esac; done;;
esac
exec "{1}" "$@"
"""
CLANG = (
    f"--target={TARGET} --sysroot={{0}} -march=x86-64 -mllvm -no-trap-after-noreturn "
    "-ffunction-sections -fdata-sections -mllvm -trap-unreachable -mllvm -no-x86-call-frame-opt "
    "-mllvm -disable-machine-licm -mllvm -disable-postra-machine-licm --no-default-config "
    "-no-canonical-prefixes -fintegrated-cc1 -w -fPIE -O2 -c -x ir"
)


def kit_folder():
    """Where the kit is."""
    try:
        page = subprocess.run(["rt", "doc"], capture_output=True, text=True, check=True).stdout
    except (OSError, subprocess.CalledProcessError):
        raise Unusable("rt: it isn't on the path") from None
    return pathlib.Path(page.strip()).parent


def shadow(kit, room):
    """A kit of links to this one's files, but with another clang."""
    for part, kept in ((".", ("bin", "toolchain")), ("toolchain", ("bin",)), ("toolchain/bin", ())):
        (room / part).mkdir()
        for each in (kit / part).iterdir():
            if each.name not in kept and each.name != "clang":
                (room / part / each.name).symlink_to(each)
    (room / "bin").mkdir()
    for each in (kit / "bin").iterdir():
        if each.name in ("rt", "rtlib.py"):  # they look for the kit beside themselves
            shutil.copy(each, room / "bin")
        else:
            (room / "bin" / each.name).symlink_to(each)
    clang = room / "toolchain" / "bin" / "clang"
    module = room / "program.bc"
    clang.write_text(KEEPING.format(module, kit / "toolchain" / "bin" / "clang"), encoding="utf-8")
    clang.chmod(0o755)
    return module


def called(words, **how):
    """Runs a step of the build; if it fails, says how it ended."""
    done = subprocess.run(words, capture_output=True, text=True, errors="replace", **how)
    if done.returncode:
        raise Unusable("\n".join(map(shown, (done.stdout + done.stderr).splitlines()[-5:])))


def main(given):
    """Builds, and gives the exit status."""
    parser = arguments.Parser("program")
    parser.add_argument("checkout", nargs="?", default=TOP)
    given = parser.parsed(given)
    kit, crate = kit_folder(), pathlib.Path(given.checkout).resolve() / "crates" / "tcd"
    if not crate.is_dir():
        raise Unusable(f"{shown(given.checkout)}: it has no crates/tcd")
    with tempfile.TemporaryDirectory() as folder:
        room = pathlib.Path(folder)
        module = shadow(kit, room / "kit")
        words = [sys.executable, str(room / "kit" / "bin" / "rt"), "try", "--", *FIRST]
        tried = subprocess.run(words, cwd=crate, capture_output=True, text=True, errors="replace")
        if not module.is_file():
            raise Unusable("\n".join(map(shown, tried.stderr.splitlines()[-5:])))
        toolchain = str(kit / "toolchain")
        clang = [f"{toolchain}/bin/clang", *CLANG.format(toolchain).split(), str(module)]
        called([*clang, "-o", str(room / "tcd.o")])
        link = [str(kit / "bin" / "rattle-link"), "--target", TARGET, "--toolchain", toolchain]
        libraries = [str(kit / "c" / name) for name in ("libos_c.a", "liblibc_c.a")]
        called([*link, "-o", os.path.abspath(given.program), str(room / "tcd.o"), *libraries])
    return 0


if __name__ == "__main__":
    arguments.ended(__doc__, main)
