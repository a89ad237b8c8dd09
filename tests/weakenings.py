#!/usr/bin/env python3
"""Tries every weakening of tests/weakenings/: an edit that the prover has to refuse.

    tests/weakenings.py                    all of them, in a copy of the repository
    tests/weakenings.py NAME ..            those of crates or weakenings with these names
    tests/weakenings.py --since COMMIT     those that are new or whose crate changed since then, or a
                                           crate below it: before a change lands
    tests/weakenings.py --list             what each one turns, without trying it

A weakening is a file CRATE/NAME.edit in the form of the crates' own must-fail edits. It turns a
definition that the claim of a command or of a public function stands on, or code whose contract
says otherwise. Some mend the proofs too, so that only a law refuses them. The gate tries the ones
in crates/*/must-fail; these are tried when their crate changes, and all of them before a release.
One takes 10 to 60 seconds, and its crate is proved twice. What `rt ci` proved on this machine isn't
proved again.

Some turn a record of which only a law of a crate above says more. They name that crate in a line
`guard: CRATE`, and mend the proofs of their own, which is still proved: the check of the guard has
to refuse them. In these a line `in: NAME` after `file:` says that the next old texts are those of
the definition of that name. One takes two to five minutes.

The table says of each what it turns and what refused it. Status 0: all refused. 1: one is proved,
so a contract or a law is too weak. 2: one isn't there, doesn't apply, or wasn't tried.
"""
import argparse
import re
import shutil
import subprocess
import sys
import tempfile
import time
from pathlib import Path

import scratch  # so that tools/ is on the path
from tcdlib import progress

TOP = Path(__file__).resolve().parent.parent
FOLDER = TOP / "tests" / "weakenings"
RESULT = re.compile(r"rt: must-fail (\w+)/(\w+)\.edit: (.*)")


def weakenings(names):
    """All (crate, name) in order, or those whose crate, name or guard is among the names."""
    all_of_them = [(it.parent.name, it.stem) for it in sorted(FOLDER.glob("*/*.edit"))]
    return [it for it in all_of_them if not names or {*it, parts(*it)[0]} & set(names)]


def changed_since(commit):
    """The files under crates/ and tests/weakenings/ that differ from a commit, and their crates."""
    told = subprocess.run(
        ["git", "diff", "--name-only", commit, "--", "crates", "tests/weakenings"],
        cwd=TOP,
        capture_output=True,
        text=True,
        check=True,
    )
    files = {Path(line) for line in told.stdout.splitlines()}
    return files, {
        it.parts[1] for it in files if it.parts[2:3] in (("src",), ("specs",), ("proofs",))
    }


def touched(wanted, commit):
    """Those of the weakenings that a change since a commit may have let through."""
    files, changed = changed_since(commit)
    below = {}
    for line in (TOP / "crates.txt").read_text(encoding="utf-8").splitlines():
        name, colon, uses = line.partition(":")
        if colon and not line.startswith("#"):
            below[name.split()[0]] = {name.split()[0], *uses.split()}
    return [
        (crate, name)
        for crate, name in wanted
        if below[parts(crate, name)[0] or crate] & changed
        or Path("tests/weakenings", crate, f"{name}.edit") in files
    ]


def parts(crate, name):
    """A weakening's guard, if it names one, and its turns: file, definition, old text, new text."""
    guard, turns, file, definition, old = None, [], None, None, None
    for line in (FOLDER / crate / f"{name}.edit").read_text(encoding="utf-8").split("\n"):
        if line.startswith("guard: "):
            guard = line[7:]
        elif line.startswith("file: "):
            file, definition = line[6:], None
        elif line.startswith("in: "):
            definition = line[4:]
        elif line.startswith("old: "):
            old = line[5:]
        elif line.startswith("new:"):
            turns.append((file, definition, old, line[5:]))
    return guard, turns


def turned(text, definition, old, new):
    """The text with the old one turned, or nothing unless it is once in it, or in the definition."""
    blocks = text.split("\n\n") if definition else [text]
    begins = r"^ *(pub )?((record|data) {0}\b|(abbrev |unfoldable )?(pub )?{0} :)"
    begins = begins.format(re.escape(definition or ""))
    at = [i for i, it in enumerate(blocks) if not definition or re.search(begins, it, re.M)]
    if len(at) != 1 or blocks[at[0]].count(old) != 1:
        return None
    blocks[at[0]] = blocks[at[0]].replace(old, new)
    return "\n\n".join(blocks)


def turned_texts(crate, name):
    """The files of a crate that a weakening turns, with their new texts, or why it can't be."""
    texts = {}
    for file, definition, old, new in parts(crate, name)[1]:
        path = TOP / "crates" / crate / file
        if file not in texts and not path.is_file():
            return None, f"no file {file}"
        text = texts.get(file) or path.read_text(encoding="utf-8")
        texts[file] = turned(text, definition, old, new)
        if texts[file] is None:
            return None, f"its text isn't there once: {old.strip()[:60]}"
    return texts, None


def results(wanted):
    """What `rt` says of each weakening: first of those without a guard, all by one run."""
    guarded = [it for it in wanted if parts(*it)[0]]
    return {**refused_at_once([it for it in wanted if it not in guarded]), **refused_above(guarded)}


def copied(room, left_out):
    """Copies what `rt` needs of the repository into a folder."""
    for part in ("crates.txt", "HANDLES"):
        shutil.copy(TOP / part, room)
    shutil.copytree(TOP / "crates", f"{room}/crates", ignore=left_out)


def refused_at_once(wanted):
    """What `rt ci` says of each weakening without a guard, tried in a copy of the repository."""
    with tempfile.TemporaryDirectory(prefix="weakenings-") as room:
        copied(room, shutil.ignore_patterns("out", "must-fail"))
        for crate, name in wanted:
            edits = Path(room, "crates", crate, "must-fail")
            edits.mkdir(exist_ok=True)
            shutil.copy(FOLDER / crate / f"{name}.edit", edits)
        crates = sorted({crate for crate, _ in wanted})
        with progress.of(f"{len(wanted)} weakenings: rt ci {' '.join(crates)}"):
            said = rt(room, "ci", *crates).stdout if wanted else ""
        return {(it[1], it[2]): it[3] for it in RESULT.finditer(said)}


def refused_above(wanted):
    """What the guard of each weakening says, in a copy with the libraries that are proved here."""

    def left_out(folder, names):
        return [it for it in names if Path(folder).name == "out" and it != "rlib"]

    with tempfile.TemporaryDirectory(prefix="weakenings-") as room:
        if wanted:
            copied(room, left_out)
        return {it: said_above(Path(room, "crates"), *it) for it in wanted}


def said_above(crates, crate, name):
    """Turns a weakening in the copy, and says what its crate and its guard say to it."""
    guard, texts = parts(crate, name)[0], turned_texts(crate, name)[0]
    for file, text in texts.items():
        (crates / crate / file).write_text(text, encoding="utf-8")
    own = rt(crates / crate, "lib")
    above = rt(crates / guard, "check") if own.returncode == 0 else own
    for file in texts:
        shutil.copy(TOP / "crates" / crate / file, crates / crate / file)
    lines = (above.stdout + above.stderr).strip().split("\n")
    why = next((it for it in lines if "error" in it), lines[-1]).strip()
    if own.returncode:
        return f"NOT TRIED: {crate} isn't proved with it: {why}"
    return f"refused by {guard}: {why}" if above.returncode else "NOT REFUSED"


def rt(folder, *words):
    """A run of `rt` in a folder."""
    return subprocess.run(["rt", *words], cwd=folder, capture_output=True, text=True)


def main():
    parser = argparse.ArgumentParser(description=__doc__.split("\n")[0])
    parser.add_argument("names", nargs="*", help="crates or weakenings")
    parser.add_argument("--list", action="store_true", help="print what each one turns")
    parser.add_argument("--since", metavar="COMMIT", help="only what changed since then may touch")
    words = parser.parse_args()
    wanted = weakenings(words.names)
    if unknown := set(words.names) - {name for it in wanted for name in (*it, parts(*it)[0])}:
        parser.error(f"no weakening and no crate with one is named {min(unknown)}")
    try:
        wanted = touched(wanted, words.since) if words.since else wanted
    except subprocess.CalledProcessError:
        parser.error(f"git knows no commit {words.since!a}")
    bad = {it: why for it in wanted if (why := turned_texts(*it)[1])}
    for (crate, name), why in bad.items():
        print(f"{crate} {name}: doesn't apply: {why}")
    wanted = [it for it in wanted if it not in bad]
    started = time.monotonic()
    said = {} if words.list else results(wanted)
    proved = lost = 0
    for crate, name in wanted:
        turns = parts(crate, name)[1]
        files = ", ".join(dict.fromkeys(turn[0] for turn in turns))
        print(f"{crate} {name}: {files}: {turns[0][2].strip()} > {turns[0][3].strip()}")
        if not words.list:
            answer = said.get((crate, name), "NOT TRIED")
            proved += answer.startswith("NOT REFUSED")
            lost += not answer.startswith(("refused", "NOT REFUSED"))
            print(f"    {answer}")
    minutes = round((time.monotonic() - started) / 60)
    told = f", {len(wanted) - proved - lost} refused, {proved} proved, {lost} not tried, in {minutes} minutes"
    print(f"{len(wanted)} weakenings{'' if words.list else told}")
    return 1 if proved else 2 if bad or lost else 0


if __name__ == "__main__":
    sys.exit(main())
