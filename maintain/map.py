#!/usr/bin/env python3
"""Prints which file of a crate holds what: one table a crate, one line a file.

    maintain/map.py [CRATE ..]        of these crates alone, by name

What a file holds is the first sentence of the comment at its top, or its part before a colon if it
is long. A file of src/ and a file of specs/ with the same name share a line.

Ends with 0, with 2 if a file can't be read, and with 5 if there is no such crate.
"""
import pathlib
import re
import sys

TOP = pathlib.Path(__file__).resolve().parent.parent
#: What a table has of a comment, in characters, if it can be parted at a colon.
MOST = 120


def first_sentence(path):
    """The first sentence of the comment at the top of a file."""
    words = []
    for line in path.read_text(encoding="utf-8").split("\n"):
        found = re.match(r"(?://!?|--) ?(?! ?--)(.*)", line)
        if not found:
            break
        words += found[1].split()
    text = re.sub(r"(?<=\w)\. .*", "", " ".join(words)).rstrip(".").replace("|", "\\|")
    return text.split(": ")[0] if len(text) > MOST else text


def files_of(crate):
    """The files of a crate's code and definitions, those of one name together."""
    rows = {}
    for folder, end in (("src", ".rt"), ("specs", ".antt")):
        base = crate / folder
        for path in sorted(base.rglob("*" + end)):
            if path.stem not in ("Lib", "lib"):
                name = path.relative_to(base).with_suffix("").as_posix()
                rows.setdefault(name.replace("_", "").lower(), []).append((path, base))
    return [rows[name] for name in sorted(rows)]


def table_of(crate):
    lines = [f"## `{crate.name}`", "", "| File | Holds |", "|---|---|"]
    for paths in files_of(crate):
        names = ", ".join(f"`{path.relative_to(base).as_posix()}`" for path, base in paths)
        lines.append(f"| {names} | {first_sentence(paths[0][0])} |")
    return "\n".join(lines)


def main(words):
    if words in (["-h"], ["--help"]):
        print(__doc__)
        return 0
    crates = {it.name: it for it in sorted((TOP / "crates").iterdir()) if (it / "src").is_dir()}
    if unknown := [word for word in words if word not in crates]:
        print(f"map.py: {unknown[0]}: no such crate", file=sys.stderr)
        return 5
    try:
        print("\n\n".join(table_of(crates[name]) for name in words or crates))
    except OSError as fault:
        print(f"map.py: {fault.filename}: {fault.strerror}", file=sys.stderr)
        return 2
    return 0


if __name__ == "__main__":
    sys.exit(main(sys.argv[1:]))
