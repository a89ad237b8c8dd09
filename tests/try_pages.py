#!/usr/bin/env python3
"""Tries what the pages for users show: python3 tests/try_pages.py PROGRAM

PROGRAM is the built tcd (crates/tcd/out/tcd). Read are README.md, docs/*.md and examples/README.md.

Commands  A block of lines `COMMAND  # LINE`, or of `$ COMMAND` before what each prints, is run line
          by line, or as a whole if it is fenced as `sh`. What is printed has to be as shown,
          blanks aside; `..` at the end stands for the rest. What isn't shown to print anything has
          to end with status 0. A folder is kept from one block of a page to the next; the first one
          holds examples/nested_interrupts, built. `cp -rT examples/..` begins at the top of the
          repository, /tmp is a scratch folder, and $TOOLS is tools/. What follows `#` is printed
          only after commands of tcd. Commands of the kit (`rt`) and tools that write or try the
          repository aren't run.
Files     A block after "`NAME` of `examples/EXAMPLE`:" has to be that file, comments aside.
Pairs     A block that begins with two comments, `# LINE  # LINE`, has a broken and a mended program
          side by side. `cert`, or else `asm` or `link`, has to print the line above each.
          docs/code.md says what is added to each program.
Rows      In a row of a table, the text before `bad ..` or `events ..` has to give that line, and
          the text after it must not be bad. `;` parts lines, ` // ` sources. By the line the text
          is a change of the plan of the pairs (`without KEY`, or else a whole document), a turn
          script, a layout, or a source. Before `certified ..` it is a change of the plan that the
          page shows.
Trees     A block that begins `frame areas need` has to be the longest chain of lower_context or
          nested_interrupts, and docs/chain.svg what tests/picture.py draws.

Exit status: 0 all is as shown, 1 something differs, 2 there is no such program, 5 wrong words.
"""
import json
import pathlib
import re
import subprocess
import sys
import tempfile

import scratch
import picture
from tcdlib.program import of_words

TOP = scratch.TOP
PAGES = [TOP / "README.md", *sorted((TOP / "docs").glob("*.md")), TOP / "examples" / "README.md"]
COPY = "cp -rT examples/"
COMMAND = re.compile(r"(?:\$ |tcd |python3 |cp )")
NOT_RUN = re.compile(r"^\W*(?:cd \S+ && )?rt |bench/|tests/|maintain/|qualify\.py", re.M)
SHOWN_FILE = re.compile(r"`([\w.]+)` of `(examples/\w+)`:$")
PAIR = re.compile(r"(# (?:refused|bad) .*?\S) {2,}(# .*)")
TREE_HEAD, TREES = ["frame", "areas", "need"], ("lower_context", "nested_interrupts")
#: the board of the pairs, as docs/code.md describes it
LAYOUT = """entry main
place t 80000000 00000200
place tables 80000200 00000200
place vector_10 80000540 00000020
place buffer D0008000 00000800
"""
PLAN = """{
"rom": [{"at": "0x80000000", "len": "0x1000"}],
"ram": [{"at": "0xD0008000", "len": "0x1000"}],
"devices": [{"at": "0xF0000000", "len": 4, "lo": 0, "hi": 3}],
"csa": {"at": "0xD0000000", "areas": 6, "reserve": 2},
"sp": "0xD0009000", "isp": "0xD0008800", "biv": "0x80000400", "btv": "0x80000100",
"irqs": [10], "traps": [], "start": {"ie": 0, "ccpn": 0, "is": 0},
"globals": {"a0": 0, "a1": 0, "a8": 0, "a9": 0}}
"""
CODE = re.compile("`[^`]+`")
BEGIN = ".section t\n.global main\nmain:\n"
STAYS = BEGIN + "j main\n"


def blocks(text):
    """Each block of code, indented or fenced: the paragraph before it, its lines, and what its
    fence says (None without one)."""
    before, held, ended, fence = "", [], True, None
    for line in [*text.split("\n"), "end"]:
        opens = re.fullmatch("```(.*)", line)
        if fence is not None and not opens:
            held.append(line)
            continue
        if fence is None and not opens and (line.startswith("    ") or (held and not line.strip())):
            held.append(line[4:])
            continue
        if held:
            yield before, [line for line in held if line.strip()], fence
        if line.strip() and not opens:
            before = line.strip() if held or ended else f"{before} {line.strip()}"
        ended, held = not line.strip(), []
        fence = opens[1] if opens and fence is None else None


def code(lines):
    """The statements of a file, comments and blanks aside."""
    plain = [" ".join(line.split("#")[0].split()) for line in lines]
    return [line for line in plain if line]


def shells(lines):
    """Each command of a block, and what it prints."""
    text = re.sub(r"\\\n\s*", "", "\n".join(lines))
    if text.startswith("$ "):
        for part in text[2:].split("\n$ "):
            yield part.partition("\n")[::2]
        return
    for line in text.split("\n"):
        shell, _, wanted = line.partition("  # ")
        yield shell.strip(), wanted if shell.startswith("tcd ") else ""


def lines_of(text):
    """The lines of a text in a table."""
    return "".join(f"{line.strip()}\n" for line in text.split(";"))


def changed_plan(text, plan=PLAN):
    """A plan with a change, or a whole document."""
    plan = json.loads(plan)
    if text.startswith("without "):
        del plan[text.split()[1].strip('"')]
    elif text.startswith('"'):
        plan.update(json.loads("{" + text + "}"))
    else:
        return text
    return json.dumps(plan)


def prints(program, command, sources, layout=LAYOUT, plan=PLAN, script="step 20\n"):
    """What a command prints of sources, or `asm` or `link` if they refuse them."""
    with tempfile.TemporaryDirectory() as name:
        names = [f"{number}.s" for number in range(len(sources))]
        files = {"board.json": plan, "board.layout": layout, "turns.script": script}
        for file, held in {**files, **dict(zip(names, sources))}.items():
            pathlib.Path(name, file).write_text(held)
        makes = [f"asm {source} {source}.o" for source in names]
        makes.append(f"link board.layout f.elf {' '.join(f'{each}.o' for each in names)}")
        for words in [*makes, command]:
            printed = scratch.run([program, *words.split()], name)[0].strip()
            if printed.startswith("bad "):
                break
        return printed


def prints_of_row(program, text, line, example):
    """What is printed for the text of a row, by the line that is shown."""
    kind, command = " ".join(line.split()[:2]), "run f.elf board.json turns.script"
    if kind.startswith("certified"):
        return prints_of_plan(program, example, text)
    if kind == "bad plan":
        return prints(program, command, [STAYS], plan=changed_plan(text))
    if kind == "bad script":
        return prints(program, command, [STAYS], script=lines_of(text))
    if kind == "bad layout":
        return prints(program, command, [STAYS], layout=lines_of(text))
    first, *others = text.split(" // ")
    layout = lines_of(others.pop()) if others and others[-1].startswith("entry") else LAYOUT
    return prints(program, command, [BEGIN + lines_of(first), *map(lines_of, others)], layout)


def prints_of_plan(program, example, change):
    """What `cert` prints of an example with a changed plan."""
    with tempfile.TemporaryDirectory() as folder:
        scratch.built(program, example, pathlib.Path(folder))
        plan = pathlib.Path(folder, "board.json")
        plan.write_text(changed_plan(change, plan.read_text()))
        words = [program, "cert", "firmware.elf", "board.json", "changed.cert"]
        return scratch.run(words, folder)[0].strip()


class Page:
    """One page, tried in a folder of its own."""

    def __init__(self, path, program, scratch_folder):
        self.path, self.program, self.scratch = path, program, scratch_folder
        self.folder, self.tail = scratch_folder / "first", ""
        #: the example of which the page shows a file
        self.example = None
        self.tried, self.faults = 0, []

    def compare(self, what, got, wanted):
        self.tried += 1
        if got != wanted:
            page = self.path.relative_to(TOP)
            self.faults.append(f"{page}: {what}\n    shown {wanted!r}\n    is    {got!r}")

    def command(self, shell, wanted):
        """Runs a command, and goes to the folder that it leaves."""
        start = TOP if shell.startswith(COPY) else self.folder
        shell = re.sub(r"(?<![\w/])tools/", "$TOOLS/", shell.replace("/tmp/", f"{self.scratch}/"))
        text = f'export PATH="{self.scratch}/bin:$PATH" TOOLS="{TOP}/tools"; cd "{start}"\n'
        text += f'{shell}\nstatus=$?; pwd > "{self.scratch}/left"; exit $status'
        done = subprocess.run(["bash", "-c", text], capture_output=True, text=True)
        if (left := self.scratch / "left").exists():
            self.folder = pathlib.Path(left.read_text().strip())
        printed, wanted = (" ".join(text.split()) for text in (done.stdout + done.stderr, wanted))
        if wanted.endswith(" ..") and printed.startswith(wanted[:-2]):
            wanted = printed
        status = done.returncode if not wanted else 0
        self.compare(shell, (status, printed), (0, wanted or printed))

    def pair(self, found, lines):
        """A block of two programs side by side."""
        split = found.start(2)
        for wanted, part in (found[1], slice(split)), (found[2], slice(split, None)):
            program = "".join(f"{line[part].rstrip()}\n" for line in lines if line[part].strip())
            tail = self.tail if "dispatch" in program else ""
            source = BEGIN + program + tail
            printed = prints(self.program, "cert f.elf board.json f.cert", [source])
            self.compare("; ".join(code(program.split("\n"))), printed, wanted[2:])

    def row(self, cells):
        """A row of a table: a text, the line that it gives, and perhaps a text that is right."""
        for text, line, right in zip(cells, cells[1:], [*cells[2:], ""]):
            if not re.fullmatch("`(?:bad|events|certified) .*`", line) or not CODE.fullmatch(text):
                continue
            text, line, is_mended = text[1:-1], line[1:-1], CODE.fullmatch(right)
            self.compare(text, prints_of_row(self.program, text, line, self.example), line)
            if is_mended and line.startswith("bad "):
                printed = prints_of_row(self.program, right[1:-1], line, self.example)
                self.compare(right, printed.startswith("bad "), False)

    def shown_file(self, found, lines):
        """A block that is a file of an example."""
        path = TOP / found[2] / found[1]
        held = code(path.read_text().split("\n")) if path.exists() else "no such file"
        self.example = path.parent.name
        self.compare(f"{found[1]} of {found[2]}", held, code(lines))

    def run(self):
        text = self.path.read_text()
        for before, lines, fence in blocks(text):
            if found := SHOWN_FILE.search(before):
                self.shown_file(found, lines)
            elif found := PAIR.fullmatch(lines[0]):
                self.pair(found, lines[1:])
            elif lines[0].startswith("dispatch:"):
                self.tail = "".join(f"{line}\n" for line in lines)
            elif lines[0].split() == TREE_HEAD:
                shown = [" ".join(line.replace("└", "").split()) for line in lines]
                trees = (picture.page_on(self.program, name) for name in TREES)
                self.compare(shown[1], shown in map(picture.tree, trees), True)
            elif NOT_RUN.search("\n".join(lines)):
                continue
            elif fence == "sh":
                self.command("\n".join(lines), "")
            elif any(map(COMMAND.match, lines)):
                for shell, wanted in shells(lines):
                    self.command(shell, wanted)
        for row in re.findall(r"^\| (.*) \|$", text, re.M):
            self.row([cell.strip() for cell in row.split(" | ")])


def main(words):
    program = of_words(words, __doc__, 1)
    tried, faults = 0, []
    for path in PAGES:
        with tempfile.TemporaryDirectory() as name:
            folder = pathlib.Path(name).resolve()
            for inner in ("bin", "first"):
                (folder / inner).mkdir()
            (folder / "bin" / "tcd").symlink_to(program)
            scratch.built(program, "nested_interrupts", folder / "first")
            page = Page(path, program, folder)
            page.run()
            tried, faults = tried + page.tried, faults + page.faults
    if (TOP / picture.PICTURE).read_text() != picture.drawn(program):
        faults.append(f"{picture.PICTURE}: not what tests/picture.py draws")
    tried += 1
    print("\n".join([*faults, f"{tried} tried, {len(faults)} differ"]))
    return 1 if faults or not tried else 0


if __name__ == "__main__":
    sys.exit(main(sys.argv[1:]))
