#!/usr/bin/env python3
"""Gives the scripts wrong words and files that can't be used: python3 tests/try_scripts.py PROGRAM

PROGRAM is the built tcd (crates/tcd/out/tcd). `--help` has to end with status 0. For all else a
script has to end with the status that the case names, to print one line on standard error, never a
traceback, and to leave all files as they were. If nobody reads its output, it ends with 2 without a
word.

Exit status: 0 all do so, 1 one doesn't, 2 no such program, 5 wrong words.
"""
import os
import pathlib
import subprocess
import sys
import tempfile

import scratch
from tcdlib import formats as readers
from tcdlib.program import of_words

#: words that worst_run.py and lower.py can use; P is the program
FILES = "firmware.elf board.json firmware.cert --tcd P"
PAIR = "firmware.elf board.json --tcd P"
BUILD = "P firmware.elf board.json firmware.cert"
CASE = "P case firmware.elf board.json firmware.cert"
#: where the scripts are
FOLDERS = ("tools", "tests", "maintain", "bench", ".")
#: for each script and status the words that end with it
CASES = {
    "names.py": {
        5: [
            "",
            "firmware.elf board.layout",
            "--at 80000000",
            "firmware.elf --at xyz",
            "firmware.elf --at",
            "--at 80000000 80000004 firmware.elf",
        ],
        2: [
            "firmware.elf none.layout main.s sum.s --tcd P",
            "firmware.elf board.layout none.s --tcd P",
            "firmware.elf board.layout sum.s main.s --tcd P",
            "firmware.elf board.layout main.s sum.s --tcd none",
            "none.elf",
            "firmware.elf",
            "cut.elf",
        ],
    },
    "explain.py": {
        5: ["", "board.layout main.s", "board.layout main.s --"],
        2: [
            "board.layout main.s -- none cert firmware.elf board.json x.cert",
            "-- P cert firmware.elf board.json firmware.elf",
            "-- P check firmware.elf twice.json firmware.cert",
        ],
    },
    "view.py": {
        5: ["", "P firmware.elf"],
        2: [
            "none firmware.elf board.json firmware.cert page.html",
            "P none.elf board.json firmware.cert page.html",
            "P firmware.elf board.json firmware.cert page.html board.layout sum.s main.s",
            "P firmware.elf board.json firmware.cert firmware.cert",
            "P firmware.elf board.json firmware.cert board.layout",
            "P firmware.elf twice.json firmware.cert page.html",
            "P shared.elf board.json firmware.cert page.html",
            "P firmware.elf board.json firmware.cert .",
            "P firmware.elf board.json firmware.cert none/page.html",
            "P firmware.elf nan.json firmware.cert page.html",
        ],
    },
    "worst_run.py": {
        5: ["", "firmware.elf", f"{FILES} --seconds x", f"{FILES} --bogus"],
        2: [
            "firmware.elf board.json firmware.cert --tcd none",
            "none.elf board.json firmware.cert --tcd P",
            "cut.elf board.json firmware.cert --tcd P",
            "firmware.elf none.json firmware.cert --tcd P",
            "firmware.elf cut.json firmware.cert --tcd P",
            "firmware.elf twice.json firmware.cert --tcd P",
            "shared.elf board.json firmware.cert --tcd P",
            f"{FILES} -o .",
            "firmware.elf nan.json firmware.cert --tcd P",
            "firmware.elf board.json none.cert --tcd P",
            "firmware.elf board.json cut.cert --tcd P",
            f"{FILES} --in 7 0 0",
            f"{FILES} --cells none.cells",
            f"{FILES} --cells board.layout",
            f"{FILES} --names none.layout main.s",
            f"{FILES} --names board.layout sum.s main.s",
            f"{FILES} -o none/worst.script",
            f"{FILES} -o board.json",
        ],
    },
    "evidence.py": {
        5: ["", "P case a", "--again P case a", "P case a b c --boot 0 --cells c"],
        2: [
            "none case firmware.elf board.json firmware.cert",
            "P case firmware.elf twice.json firmware.cert",
            "P case shared.elf board.json firmware.cert",
            "P main.s firmware.elf board.json firmware.cert",
            "P main.s/case firmware.elf board.json firmware.cert",
            f"{CASE} --names board.layout 7_main.s main.s sum.s other/main.s",
            f"{CASE} --names board.layout sum.s main.s",
            "P case firmware.elf nan.json firmware.cert",
            "P case none.elf board.json firmware.cert",
            "P case firmware.elf cut.json firmware.cert",
            "P case firmware.elf board.json firmware.cert --cells none.cells",
            "--again P none",
            "--again P .",
        ],
    },
    "second_check.py": {
        5: ["", "f.elf p.json", "f.elf p.json a b", "f.elf p.json c --boot 0", "a b c --bogus"],
        3: ["none.elf board.json firmware.cert", "firmware.elf board.json none.cert"],
    },
    "growth.py": {
        5: ["", BUILD, f"{BUILD} --most x", f"{BUILD} --save a --against b", f"{BUILD} l --most 9"],
        2: [
            f"{BUILD} --against none.json",
            f"{BUILD} --against board.json",
            f"{BUILD} --against cut.json",
            f"{BUILD} --save firmware.cert",
            f"{BUILD} --save none/needs.json",
            f"{BUILD} board.layout sum.s main.s --most 9",
            f"{BUILD} --most 9 --tasks board.layout 0",
            "none firmware.elf board.json firmware.cert --most 9",
            "P firmware.elf twice.json firmware.cert --most 9",
            "P shared.elf board.json firmware.cert --most 9",
            f"{BUILD} --save .",
            "P firmware.elf nan.json firmware.cert --most 9",
            "P firmware.elf board.json cut.cert --most 9",
        ],
    },
    "stack.py": {
        5: ["", "firmware.elf", f"{FILES} --most x", f"{FILES} --most -1", f"{FILES} --by name"],
        2: [
            "firmware.elf board.json firmware.cert --tcd none",
            "none.elf board.json firmware.cert --tcd P",
            "cut.elf board.json firmware.cert --tcd P",
            "firmware.elf cut.json firmware.cert --tcd P",
            "firmware.elf board.json cut.cert --tcd P",
            f"{FILES} --cells board.layout",
            f"{FILES} --tasks board.layout 0",
            f"{FILES} --names board.layout sum.s main.s",
        ],
    },
    "functions.py": {
        5: ["", "firmware.elf", f"{FILES} --by size", f"{FILES} --names board.layout"],
        2: [
            "none.elf board.json firmware.cert --tcd P",
            "firmware.elf board.json cut.cert --tcd P",
            "firmware.elf board.json board.json --tcd P",
            f"{FILES} --cells none.cells",
            f"{FILES} --names none.layout main.s",
        ],
    },
    "tasks_start.py": {
        5: [
            "",
            "start board.json board.layout x.s",
            "write board.json board.layout",
            "check firmware.elf board.json board.layout",
            "check firmware.elf board.json board.layout xyz",
            "check firmware.elf board.json board.layout 80000000 x",
        ],
        2: [
            "write none.json board.layout x.s",
            "write board.json none.tasks x.s",
            "write board.json board.layout x.s",
            "check none.elf board.json board.layout 80000000",
            "check cut.elf board.json board.layout 80000000",
            "check firmware.elf cut.json board.layout 80000000",
            "check firmware.elf board.json firmware.elf 80000000",
        ],
    },
    "lower.py": {
        5: [
            "",
            "firmware.elf",
            f"{PAIR} --to x",
            f"{PAIR} --bogus",
            f"{PAIR} --names board.layout",
        ],
        2: [
            "firmware.elf board.json --tcd none",
            "none.elf board.json --tcd P",
            "cut.elf board.json --tcd P",
            "firmware.elf none.json --tcd P",
            "firmware.elf cut.json --tcd P",
            "firmware.elf twice.json --tcd P",
            "firmware.elf nan.json --tcd P",
            "shared.elf board.json --tcd P",
            f"{PAIR} --names board.layout sum.s main.s",
            f"{PAIR} --cells none.cells",
            f"{PAIR} --tasks board.layout 0",
        ],
    },
    "first_plan.py": {
        5: ["", "firmware.elf --bogus", "firmware.elf board.layout x"],
        2: [
            "none.elf",
            "cut.elf",
            "shared.elf",
            "firmware.elf main.s",
            "firmware.elf -o board.json",
            "firmware.elf -o .",
        ],
    },
    "plan_check.py": {
        5: ["", "firmware.elf", "a b c d", "firmware.elf board.json --bogus"],
        2: [
            "none.elf board.json",
            "cut.elf board.json",
            "shared.elf board.json",
            "firmware.elf none.json",
            "firmware.elf cut.json",
            "firmware.elf nan.json",
            "firmware.elf board.json none.layout",
            "firmware.elf board.json main.s",
        ],
    },
    "sarif.py": {
        5: ["", "board.layout main.s", "--json -- P cert firmware.elf board.json x.cert"],
        2: [
            "-- none cert firmware.elf board.json x.cert",
            "-- P cert firmware.elf board.json board.json",
            "-- P cert firmware.elf twice.json x.cert",
        ],
    },
    "review.py": {
        5: ["", "github", "svg -- P check", "github --json -- P check", "junit board.layout main.s"],
        2: [
            "github -- none cert firmware.elf board.json x.cert",
            "gitlab -- P cert firmware.elf board.json board.json",
            "junit board.layout main.s -- none check",
        ],
    },
    "chain.py": {
        5: ["", "firmware.elf", f"{FILES} --markdown --json", f"{FILES} --names board.layout"],
        2: [
            "none.elf board.json firmware.cert --tcd P",
            "firmware.elf cut.json firmware.cert --tcd P",
            "firmware.elf board.json cut.cert --tcd P",
            f"{FILES} --cells none.cells",
            f"{FILES} --names board.layout sum.s main.s",
        ],
    },
    "asm_all.py": {
        5: ["", "main.s --most 0", "main.s --most x", "--tcd P"],
        2: ["none.s --tcd P", "main.s --tcd none", ". --tcd P"],
    },
    "known.py": {
        5: ["", "firmware.elf --bogus", "firmware.elf --vectors x y"],
        2: [
            "none.elf",
            "cut.elf",
            "firmware.elf none.json",
            "firmware.elf cut.json",
            "shared.elf",
            "firmware.elf twice.json",
            "firmware.elf nan.json",
            "board.json",
        ],
    },
    "qualify.py": {5: ["", "P", "P new --only none"], 2: ["none new", "P ."]},
    "try_cases.py": {5: ["", "P P"], 2: ["none", "none controls"]},
    "try_worst.py": {5: [""], 2: ["none", "P none"]},
    "try_pages.py": {5: ["", "P P"], 2: ["none"]},
    "try_schema.py": {5: ["", "P P"], 2: ["none"]},
    "try_second.py": {5: ["", "P P"], 2: ["none"]},
    "try_page.py": {5: ["", "P P"], 2: ["none"]},
    "try_builds.py": {5: ["", "P P"], 2: ["none"]},
    "try_largest.py": {5: ["", "P P"], 2: ["none"]},
    "run.py": {5: [""], 2: ["none"]},
    "try_examples.py": {5: [""], 2: ["none"]},
    "try_memory.py": {5: [""], 2: ["none"]},
    "picture.py": {5: [""], 2: ["none"]},
    "try_hostile.py": {5: ["", "P P", "--jobs x P", "--jobs 0 P"], 2: ["none"]},
    "try_names.py": {5: ["x"]},
    "try_release.py": {5: ["", "P P"], 2: ["none"]},
    "release.py": {5: ["", "P", "P a.tar.gz --version a/b"], 2: ["none a.tar.gz"]},
    "rows.py": {5: ["--chek"]},
    "map.py": {5: ["none"]},
    "claim.py": {5: ["none", "--bogus"]},
    "chains.py": {2: ["none"]},
    "weight.py": {5: ["--bogus"], 2: ["none"]},
    "shapes.py": {5: ["", "calls64", "none 1", "calls64 x", "calls64 nan", "calls64 -1"]},
    "cert.py": {5: ["", "P P", "--bogus"], 2: ["none"]},
    "check.py": {
        5: ["", ".", ". none 400", ". line x", ". line 1", ". line 400 900"],
        2: ["none line 400"],
    },
    "bench/run.py": {5: ["", ".", ". x", ". -1", ". 1 0"], 2: ["none 1"]},
    "ship.py": {5: ["", "P P", "--bogus"], 2: ["none"]},
    "texts.py": {5: ["", "P", "P . ."], 2: ["none .", "P none"]},
    "hazards.py": {
        5: ["", "P none", "P --times nan", "P --tries 0"],
        2: ["none", "P --beside none"],
    },
}


#: scripts whose output nobody reads, with words
UNREAD = (
    ("try_hostile.py", "--quick --only words_of P"),
    ("try_hostile.py", "--help"),
    ("names.py", "firmware.elf board.layout main.s sum.s --tcd P"),
    ("first_plan.py", "firmware.elf"),
    ("known.py", "firmware.elf"),
    ("growth.py", f"{BUILD} --most 9"),
    ("sarif.py", "-- P check firmware.elf board.json firmware.cert"),
    ("explain.py", "-- P check firmware.elf board.json firmware.cert"),
    ("run.py", "P names"),
    ("shapes.py", "--help"),
)


def shared(elf):
    """An executable of 64 segments that all have the bytes of the first one."""
    at, length = (int.from_bytes(elf[56 + 4 * n : 60 + 4 * n], "little") for n in (0, 3))
    held = elf[at : at + length]
    heads = (
        readers.le32(1, 52 + 32 * 64, base, base, length, length, 5, 1)
        for base in range(0x80000000, 0x80400000, 0x10000)
    )
    header = elf[:44] + readers.le(64, 2) + elf[46:52]
    return header + b"".join(heads) + held


def prepared(program, folder):
    """An example that is built, and cut files beside it."""
    scratch.built(program, "one_call", folder)
    for name in ("firmware.elf", "board.json", "firmware.cert"):
        data = (folder / name).read_bytes()
        (folder / f"cut.{name.split('.')[1]}").write_bytes(data[: len(data) // 2])
    (folder / "shared.elf").write_bytes(shared((folder / "firmware.elf").read_bytes()))
    (folder / "other").mkdir()
    for name in ("7_main.s", "other/main.s"):
        (folder / name).write_text("# no code\n")
    plan = (folder / "board.json").read_text()
    (folder / "twice.json").write_text(plan.replace('"irqs": []', '"irqs": [10], "irqs": []'))
    (folder / "nan.json").write_text(plan.replace('"areas": 4', '"areas": NaN'))


def words_of(program, text):
    """The words of a case."""
    return [program if word == "P" else word for word in text.split()]


def place_of(script):
    """The path of a script."""
    return next(str(each) for name in FOLDERS if (each := scratch.TOP / name / script).exists())


def fault_of(program, script, text, wanted, folder):
    """What is wrong with how a script ends, or None."""
    words, path = words_of(program, text), place_of(script)
    before = files_of(folder)
    out, err, status = scratch.run([sys.executable, "-B", path, *words], folder)
    if (after := files_of(folder)) != before:
        changed = [name for name in {**before, **after} if before.get(name) != after.get(name)]
        return f"it changed {', '.join(sorted(changed))}"
    if "Traceback" in out + err:
        return f"a traceback: {err.strip().splitlines()[-1]}"
    if status != wanted:
        return f"status {status} in place of {wanted}: {(err or out)[:200]!r}"
    lines = len(err.splitlines())
    if wanted == 0 and (lines or not out):
        return f"nothing is printed, or {err[:200]!r}"
    if wanted == 2 and (lines != 1 or out):
        return f"{lines} lines of errors: {err[:200]!r}"
    if wanted == 5 and lines > 1:
        return f"{lines} lines of errors: {err[:200]!r}"
    return None


def files_of(folder):
    """The files of a folder with their bytes."""
    paths = [path for path in pathlib.Path(folder).rglob("*") if path.is_file()]
    return {str(path.relative_to(folder)): path.read_bytes() for path in paths}


def fault_unread(program, script, text, folder):
    """What is wrong with how a script ends if nobody reads its output, or None."""
    words = [sys.executable, "-B", place_of(script), *words_of(program, text)]
    ours, theirs = os.pipe()
    os.close(ours)
    settings = {"cwd": folder, "stdout": theirs, "stderr": subprocess.PIPE, "text": True}
    done = subprocess.run(words, **settings)
    os.close(theirs)
    if done.returncode != 2 or done.stderr:
        return f"nobody reads: status {done.returncode}, {done.stderr.strip()[-200:]!r}"
    return None


def main(words):
    program, tried, wrong = of_words(words, __doc__, 1), 0, 0
    with tempfile.TemporaryDirectory() as room:
        prepared(program, pathlib.Path(room))
        for script, cases in CASES.items():
            for wanted, texts in [*cases.items(), (0, ["--help"])]:
                for text in texts:
                    tried += 1
                    if fault := fault_of(program, script, text, wanted, room):
                        wrong += 1
                        print(f"{script} {text}: {fault}")
        for script, text in UNREAD:
            tried += 1
            if fault := fault_unread(program, script, text, room):
                wrong += 1
                print(f"{script} {text}: {fault}")
    print(f"{tried} cases tried, {wrong} wrong")
    return 1 if wrong else 0


if __name__ == "__main__":
    sys.exit(main(sys.argv[1:]))
