#!/usr/bin/env python3
"""Looks at a page of view.py as an HTML parser does: python3 tests/try_page.py PROGRAM

PROGRAM is the built tcd (crates/tcd/out/tcd). Three pages are made: of examples/motor_control with
names from its sources, of the same with a refused certificate, and of examples/gnu_ld, in whose
symbols and file names are characters that HTML gives a meaning. Each has to be nested rightly, to
ask for nothing from outside, to hold no element that a name has brought in, and to show that name.

Exit status: 0 all is well, 1 something isn't, 2 no such program, 5 wrong words.
"""
import html.parser
import pathlib
import re
import sys
import tempfile

import scratch
from tcdlib.program import of_words

#: elements without an end tag
EMPTY = set("area base br col embed hr img input link meta source track wbr".split())
#: elements whose end tag may be left out, and those at whose begin they end
ENDED_BY = {
    "thead": {"tbody"},
    "tbody": {"tbody"},
    "tr": {"tr", "tbody"},
    "td": {"td", "th", "tr", "tbody"},
    "th": {"td", "th", "tr", "tbody"},
    "li": {"li"},
    "p": {"p", "div", "table", "ul", "ol", "pre", "h1", "h2", "h3"},
    "dt": {"dt", "dd"},
    "dd": {"dt", "dd"},
}
#: what loads something, and the attributes that name it
LOADS = {"src", "href", "xlink:href", "srcset", "data", "action", "poster"}
OUTSIDE = re.compile(r"@import|url\(\s*['\"]?(?:https?:|//)")
#: a name that would be an element if it weren't escaped; as long as `copy_data`, which it replaces
NAME = "<xy>&\"'\\z"


class Page(html.parser.HTMLParser):
    """Collects what is wrong with a page, and the text that it shows."""

    def __init__(self):
        super().__init__(convert_charrefs=True)
        self.open, self.wrong, self.shown = [], [], []

    def handle_starttag(self, tag, attributes):
        self.look_at(tag, attributes)
        while self.open and tag in ENDED_BY.get(self.open[-1], ()):
            self.open.pop()
        if tag not in EMPTY:
            self.open.append(tag)

    def handle_startendtag(self, tag, attributes):
        self.look_at(tag, attributes)

    def handle_endtag(self, tag):
        while self.open and self.open[-1] != tag and self.open[-1] in ENDED_BY:
            self.open.pop()
        if not self.open or self.open[-1] != tag:
            self.fault(f"</{tag}> ends {self.open[-1:] or 'nothing'}")
        if tag in self.open:
            while self.open.pop() != tag:
                pass

    def handle_data(self, data):
        self.shown.append(data)
        if self.open[-1:] == ["style"] and OUTSIDE.search(data):
            self.fault("a style from outside")

    def look_at(self, tag, attributes):
        if tag == "xy":
            self.fault("a name is not escaped")
        for name, value in attributes:
            inside = (value or "").startswith(("#", "data:"))
            if name in LOADS and not inside and not (tag == "a" and name == "href"):
                self.fault(f"<{tag} {name}={value}> is from outside")
            if tag == "a" and name == "href" and not inside:
                self.fault(f"a link to {value}")

    def fault(self, text):
        self.wrong.append(f"line {self.getpos()[0]}: {text}")

    def close(self):
        super().close()
        if left := [tag for tag in self.open if tag not in ENDED_BY]:
            self.fault(f"not ended: {' '.join(left)}")


def faults_of(text, names):
    """What is wrong with a page that has to show these names."""
    page = Page()
    page.feed(text)
    page.close()
    shown = "".join(page.shown)
    return page.wrong + [f"the page doesn't show {name!r}" for name in names if name not in shown]


def made(program, folder, elf, cert, names):
    """Lets view.py make a page: its text, or what is wrong."""
    view = str(scratch.TOP / "tools" / "view.py")
    words = [sys.executable, view, program, elf, "board.json", cert, "page.html", *names]
    out, err, status = scratch.run(words, folder)
    page = folder / "page.html"
    if not page.exists() or "Traceback" in err:
        return None, f"status {status}, {(err or out).strip().splitlines()[-1:]}"
    return page.read_text(errors="replace"), None


def motor_control(program, folder):
    scratch.built(program, "motor_control", folder)
    names = ["board.layout", *scratch.sources_of("motor_control")]
    return made(program, folder, "firmware.elf", "firmware.cert", names), ["speed_loop"]


def refused(program, folder):
    """The certificate is an older one: the current loop was changed after it was made."""
    motor_control(program, folder)
    (folder / "page.html").unlink(missing_ok=True)
    source = folder / "current.s"
    source.write_text(source.read_text().replace("ret16", "nop16\n    ret16", 1))
    names = scratch.sources_of("motor_control")
    scratch.run([program, "asm", "current.s", "current.o"], folder)
    objects = [f"{name[:-2]}.o" for name in names]
    scratch.run([program, "link", "board.layout", "firmware.elf", *objects], folder)
    pair = made(program, folder, "firmware.elf", "firmware.cert", ["board.layout", *names])
    return pair, ["refused"]


def hostile_names(program, folder):
    scratch.built(program, "gnu_ld", folder)
    elf = (folder / "firmware.elf").read_bytes()
    changed = elf.replace(b"copy_data\0", NAME.encode() + b"\0")
    (folder / f"{NAME}.elf").write_bytes(changed)
    return made(program, folder, f"{NAME}.elf", "firmware.cert", []), [NAME]


def main(words):
    program, wrong = of_words(words, __doc__, 1), 0
    tried = (motor_control, refused, hostile_names)
    for make in tried:
        with tempfile.TemporaryDirectory() as room:
            (text, fault), names = make(program, pathlib.Path(room))
        found = [fault] if fault else faults_of(text, names)
        wrong += bool(found)
        for line in found[:10]:
            print(f"{make.__name__}: {line}")
    print(f"{len(tried)} pages tried, {wrong} wrong")
    return 1 if wrong else 0


if __name__ == "__main__":
    sys.exit(main(sys.argv[1:]))
