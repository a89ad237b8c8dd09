"""The map from addresses to names and lines."""
import re
import struct
import unittest

import beside
from tcdlib import formats
from tcdlib import frames
import names
from tcdlib.sources import Unusable

LAYOUT = """entry main
place t 80000000 00000100
place v 80000200 00000020
place r D0008000 00000100
"""
ONE = ".section t\nmain: call f\n ret16\n.section v\n rfe16\n"
TWO = ".section t\nf: inner: nop\n.section r\ncount:\n.section nowhere\nlost:\n"


class Read(beside.InFolder):
    """The map of what `tcd link` writes."""

    def setUp(self):
        super().setUp()
        files = [self.put("one.s", ONE), self.put("two.s", TWO)]
        self.known = names.read(self.put("l", LAYOUT), files)

    def test_labels(self):
        self.assertEqual(
            [row[:2] for row in self.known.labels],
            [(0x80000000, "main"), (0x80000008, "f"), (0x80000200, "v"), (0xD0008000, "count")],
        )

    def test_names(self):
        for at, name, place in (
            (0x80000000, "main", "one.s:2"),
            (0x80000004, "main+4", "one.s:3"),
            (0x80000006, "main+6", ""),
            (0x8000000A, "f+2", "two.s:2"),
            (0x80000200, "v", "one.s:5"),
            (0x7FFFFFFE, "7FFFFFFE", ""),
            (0xF0000000, "F0000000", ""),
        ):
            self.assertEqual((self.known.name(at), self.known.place(at)), (name, place))

    def test_an_empty_map(self):
        empty = names.Map()
        self.assertFalse(empty)
        self.assertEqual((empty.name(16), empty.line(16), empty.place(16)), ("00000010", None, ""))

    def test_the_first_label_of_an_address_names_it(self):
        path = self.put("s.s", ".section t\nzeta:\nalpha: nop\n")
        self.assertEqual(names.read("l", [path]).name(0x80000004), "zeta+4")

    def test_a_label_inside_of_a_function(self):
        path = self.put("s.s", ".section t\ndiagnose: nop\nnext: nop\n nop\nother: nop\n")
        known = names.read("l", [path])
        begin = 0x80000000
        for at, entry, name in (
            (begin, begin, "diagnose"),
            (begin + 4, begin, "diagnose (next)"),
            (begin + 8, begin, "diagnose (next+4)"),
            (begin + 8, begin + 4, "next+4"),
            (begin + 8, None, "next+4"),
            (begin + 8, 0x70000000, "next+4"),
            (0x10, begin, "00000010"),
        ):
            self.assertEqual(known.name(at, entry), name)

    def test_faults_of_the_script(self):
        for words, status in (
            (["--help"], 0),
            ([], 5),
            (["f.elf", "l"], 5),
            (["f.elf", "--at"], 5),
            (["f.elf", "--at", "main"], 5),
            (["f.elf", "--wrong"], 5),
            (["l"], 2),
            (["none"], 2),
            (["f.elf", "l", "one.s", "--tcd", "./none"], 2),
        ):
            done = self.script("names.py", *words)
            self.assertEqual(done.returncode, status, words)
            self.assertEqual(len(done.stderr.splitlines()), int(status != 0), words)


@beside.needs_program
class OfTheExecutable(beside.InFolder):
    """Names come only from the sources that link to the executable."""

    files = ("firmware.elf", "board.json", "firmware.cert")

    def setUp(self):
        super().setUp()
        self.sources = self.example("nested_interrupts")
        self.linked(self.sources)
        self.tcd("cert", "firmware.elf", "board.json", "firmware.cert")
        self.names_from = ["board.layout", *self.sources]
        self.put("other.s", ".section text\nf: nop nop\n")

    def printed(self, *names_from, at=("80000034", "0x8000000a")):
        words = ["firmware.elf", *names_from, "--tcd", beside.program()]
        return self.script("names.py", *words, *(word for each in at for word in ("--at", each)))

    def test_the_script(self):
        found = self.printed(*self.names_from).stdout
        self.assertEqual(found, "80000034 count handlers.s:35\n8000000A work+2 main.s:10\n")
        words = ["--tcd", beside.program(), "--at", "80000034", "firmware.elf", *self.names_from]
        before = self.script("names.py", *words).stdout
        self.assertEqual(before, "80000034 count handlers.s:35\n")
        first = self.printed(*self.names_from, at=()).stdout.splitlines()[0]
        self.assertEqual(first, "80000000 main main.s:6")

    def test_other_sources(self):
        layout, *paths = self.names_from
        for words, told in (
            ([layout, *reversed(paths)], "don't link to it"),
            ([layout, paths[0]], "don't link to it"),
            ([layout, *paths, paths[0]], "`link` prints: bad link 1 name main"),
            ([layout, "other.s"], "other.s: no names, as `asm` prints: bad source 3 at 0 2"),
            ([layout, "none.s"], "none.s: no names"),
            (["none.layout", *paths], "none.layout: no names"),
            ([".", *paths], ".: no names"),
        ):
            done = self.printed(*words)
            self.assertEqual((done.returncode, done.stdout), (2, ""), words)
            self.assertIn(told, done.stderr)
            self.assertEqual(len(done.stderr.splitlines()), 1, words)

    def test_each_script_asks_the_same(self):
        swapped, files = ["board.layout", *reversed(self.sources)], self.files
        for script, words in (
            ("explain.py", [*swapped, "--", beside.program(), "check", *files]),
            ("view.py", [beside.program(), *files, "page.html", *swapped]),
            ("worst_run.py", [*files, "--tcd", beside.program(), "--names", *swapped]),
        ):
            done = self.script(script, *words)
            self.assertEqual(done.returncode, 2, script)
            self.assertIn("don't link to it", done.stderr)
            self.assertEqual(len(done.stderr.splitlines()), 1, script)
            self.assertFalse((self.folder / "page.html").exists())
            self.assertFalse((self.folder / "worst.script").exists())

    def test_ship_names_its_own_sources(self):
        plan = (self.folder / "board.json").read_text()
        self.put("few.json", plan.replace('"areas": 12', '"areas": 5'))
        swapped = ["board.layout", *reversed(self.sources)]
        ship = [beside.program(), "ship", "few.json", "board.layout", "f.elf", "f.cert"]
        done = self.script("explain.py", *swapped, "--", *ship, *self.sources)
        self.assertEqual(done.returncode, 1)
        self.assertIn("main.s:7: error: K14 at main", done.stderr)

    def test_objects_of_other_sources(self):
        objects = [f"{path[:-2]}.o" for path in self.sources]
        link = ["--", beside.program(), "link", "board.layout", "f.elf"]
        for words, status in ((objects, 0), (objects[::-1], 2), (objects[:1], 2)):
            done = self.script("explain.py", *self.names_from, *link, *words)
            self.assertEqual((done.returncode, bool(done.stderr)), (status, status != 0), words)

    def test_an_output_that_is_an_input(self):
        for script, words in (
            ("view.py", [beside.program(), *self.files, "./board.json"]),
            ("view.py", [beside.program(), *self.files, "main.s", *self.names_from]),
            ("worst_run.py", [*self.files, "--tcd", beside.program(), "-o", "firmware.cert"]),
            ("explain.py", ["--", beside.program(), "asm", "main.s", "main.s"]),
            ("explain.py", ["--", beside.program(), "cert", *self.files[:2], "board.json"]),
        ):
            done = self.script(script, *words)
            self.assertEqual((done.returncode, done.stdout), (2, ""), words)
            self.assertIn("the output is also an input", done.stderr)
            self.assertEqual(len(done.stderr.splitlines()), 1, words)


PATCHED = """.section text
.global main
main: nop
      j main
.section data
sum:	.word	0, 0
number: .half 1, 2  # of the board
key:  .byte 0, 0, 0, 0
room: .space 4
many: .word 0, 0, 0, 0, 0, 0, 0, 0, 0, 0, 0, 0, 0, 0, 0, 0
"""
#: where this is linked, and the layout
TEXT, DATA = 0x80000000, 0x80000100
PLACES = "entry main\nplace text 80000000 00000100\nplace data 80000100 00000100\n"


@beside.needs_program
class Patched(beside.InFolder):
    """Executables that data was written into after the link."""

    def setUp(self):
        super().setUp()
        self.put("main.s", PATCHED)
        self.put("board.layout", PLACES)
        self.linked(["main.s"])

    def printed(self, changes, flip=0, sources=("main.s",)):
        """What names.py prints of firmware.elf with these bytes at addresses, and another entry."""
        entry, segments = formats.elf((self.folder / "firmware.elf").read_bytes())
        held = {at: bytearray(data) for at, data in segments}
        for at, data in changes:
            base = max(begin for begin in held if begin <= at)
            held[base][at - base : at - base + len(data)] = data
        segments = [(at, bytes(data)) for at, data in held.items()]
        self.put("patched.elf", formats.elf_bytes(entry ^ flip, segments))
        words = ["patched.elf", "board.layout", *sources, "--tcd", beside.program()]
        done = self.script("names.py", *words)
        self.assertLessEqual(len(done.stderr.splitlines()), 1, done.stderr)
        self.assertEqual(done.returncode, 0 if done.stdout else 2)
        return done

    def test_data(self):
        for changes, lines in (
            ([], ""),
            ([(DATA, b"\1\2\3\4")], "main.s:6"),
            ([(DATA + 7, b"\1")], "main.s:6"),
            ([(DATA + 8, b"\7\7")], "main.s:7"),
            (
                [(DATA, b"\1"), (DATA + 8, b"\7"), (DATA + 12, b"\7")],
                "main.s:6, main.s:7, main.s:8",
            ),
            ([(DATA + 20, b"\1" * 64)], "main.s:10"),
        ):
            done = self.printed(changes)
            self.assertIn("80000100 sum main.s:6", done.stdout, changes)
            told = f"patched.elf: other data than in {lines}\n" if lines else ""
            self.assertEqual(done.stderr, told)

    def test_what_is_no_data(self):
        for changes, flip in (
            ([(TEXT, b"\1")], 0),
            ([(TEXT + 5, b"\1")], 0),
            ([(DATA + 16, b"\1")], 0),
            ([(DATA, b"\1"), (TEXT, b"\1")], 0),
            ([], 4),
            ([(DATA, b"\1")], 4),
        ):
            done = self.printed(changes, flip)
            self.assertIn("don't link to it, so names would be wrong", done.stderr, (changes, flip))

    def test_more_bytes_than_a_checksum_or_a_signature_has(self):
        done = self.printed([(DATA, b"\1"), (DATA + 20, b"\1" * 64)])
        told = (
            "patched.elf: more than 64 bytes of data differ from what board.layout and main.s link"
        )
        self.assertIn(told, done.stderr)

    def test_sources_in_another_order(self):
        for name, data in (("a.s", "one: .word 1\n"), ("b.s", "two: .word 2\n"), ("c.s", " nop\n")):
            self.put(name, f".section data\n{data}")
        self.linked(["main.s", "a.s", "b.s", "c.s"])
        swapped = self.printed([], sources=["main.s", "b.s", "a.s", "c.s"])
        self.assertEqual(swapped.stderr, "patched.elf: other data than in b.s:2, a.s:2\n")
        moved = self.printed([], sources=["main.s", "a.s", "c.s", "b.s"])
        self.assertIn("don't link to it", moved.stderr)

    def test_each_script_says_it(self):
        self.example("nested_interrupts")
        self.put("main.s", (self.folder / "main.s").read_text() + "\n.section text\nsum: .word 0\n")
        sources = ["main.s", "handlers.s"]
        self.linked(sources)
        data = (self.folder / "firmware.elf").read_bytes()
        place = names.read("board.layout", sources)
        at = next(row[0] for row in place.labels if row[1] == "sum") - 0x80000000
        base = data.index(struct.pack("<I", 0x80000000), 52) - 8 + 4
        offset = struct.unpack_from("<I", data, base)[0] + at
        self.put("firmware.elf", data[:offset] + b"\1" + data[offset + 1 :])
        files = ("firmware.elf", "board.json", "firmware.cert")
        self.tcd("cert", *files)
        names_from, program = ["board.layout", *sources], beside.program()
        told = "firmware.elf: other data than in main.s:"
        for script, words in (
            ("explain.py", [*names_from, "--", program, "check", *files]),
            ("view.py", [program, *files, "page.html", *names_from]),
            ("worst_run.py", [*files, "--tcd", program, "--names", *names_from]),
            ("growth.py", [program, *files, *names_from, "--most", "99"]),
            ("evidence.py", [program, "case", *files, "--names", *names_from]),
        ):
            done = self.script(script, *words)
            self.assertEqual(done.returncode, 0, (script, done.stderr))
            self.assertIn(told, done.stderr, script)


def elf_with(symbols):
    """A little-endian ELF32 with a symbol table: (name, value, info, section) each."""
    texts, entries = b"\0", b"\0" * 16
    for name, value, info, section in symbols:
        entries += struct.pack("<IIIBBH", len(texts), value, 0, info, 0, section)
        texts += name + b"\0"
    header = b"\x7fELF\x01\x01\x01" + b"\0" * 9
    sections_at = 52 + len(entries) + len(texts)
    header += struct.pack("<HHIIIIIHHHHHH", 2, 44, 1, 0, 0, sections_at, 0, 52, 32, 0, 40, 3, 0)
    table = struct.pack("<10I", *[0] * 10)
    table += struct.pack("<10I", 0, 2, 0, 0, 52, len(entries), 2, 0, 4, 16)
    table += struct.pack("<10I", 0, 3, 0, 0, 52 + len(entries), len(texts), 0, 0, 1, 0)
    return header + entries + texts + table


FUNCTION, NO_TYPE, GLOBAL_FUNCTION, SECTION, FILE = 2, 0, 0x12, 3, 4


class ReadElf(beside.InFolder):
    """The map from the symbols of another linker."""

    def test_functions_come_first(self):
        symbols = [
            (b"label", 0x80000000, NO_TYPE, 1),
            (b"local", 0x80000000, FUNCTION, 1),
            (b"main", 0x80000000, GLOBAL_FUNCTION, 1),
            (b"", 0x80000004, FUNCTION, 1),
            (b"undefined", 0, GLOBAL_FUNCTION, 0),
            (b"file.c", 0, FILE, 0xFFF1),
            (b".text", 0x80000000, SECTION, 1),
            (b"device", 0xF0000000, NO_TYPE, 0xFFF1),
        ]
        known = names.read_elf(self.put("a.elf", elf_with(symbols)))
        self.assertEqual(known.at[0x80000000], ["main", "local", "label"])
        self.assertEqual(known.name(0xF0000004), "device+4")
        self.assertEqual(known.place(0x80000000), "")

    @beside.needs_program
    def test_vectors_are_called_by_their_sections(self):
        self.example("gnu_ld")
        known = names.read_elf("firmware.elf")
        self.assertEqual(known.name(0x80002280), ".vector_20")
        self.assertEqual(known.at[0x80000000], ["main"])

    def test_cut_files(self):
        whole = elf_with([(b"main", 0x80000000, FUNCTION, 1)])
        for length in range(len(whole)):
            with self.assertRaises(Unusable):
                names.read_elf(self.put("a.elf", whole[:length]))

    def test_changed_bytes_give_a_map_or_one_line(self):
        whole = elf_with([(b"main", 0x80000000, FUNCTION, 1), (b"f", 0x80000010, FUNCTION, 1)])
        for place in range(len(whole)):
            for byte in (0, 1, 0x7F, 0xFF):
                path = self.put("a.elf", whole[:place] + bytes([byte]) + whole[place + 1 :])
                try:
                    names.read_elf(path)
                except Unusable as e:
                    self.assertNotIn("\n", str(e))


class Bounded(beside.InFolder):
    """A small file whose parts share bytes takes no minutes, and prints no megabytes."""

    def elf(self, tables, entries, length):
        """Symbol tables of so many entries, all at one place, each with a name of so many bytes."""
        texts = b"\0" + b"x" * length + b"\0"
        symbols = struct.pack("<IIIBBH", 1, 0x80000000, 0, FUNCTION, 0, 1) * entries
        at = 52 + len(texts) + len(symbols)
        header = b"\x7fELF\x01\x01\x01" + b"\0" * 9
        sizes = (2, 44, 1, 0, 0, at, 0, 52, 32, 0, 40, tables + 1, 0)
        header += struct.pack("<HHIIIIIHHHHHH", *sizes)
        table = struct.pack("<10I", 0, 3, 0, 0, 52, len(texts), 0, 0, 1, 0)
        each = struct.pack("<10I", 0, 2, 0, 0, 52 + len(texts), len(symbols), 0, 0, 4, 16)
        return self.put("a.elf", header + texts + symbols + table + each * tables)

    def test_symbol_tables(self):
        self.assertEqual(names.read_elf(self.elf(1, 1000, 40)).at[0x80000000], ["x" * 40])
        for read in (names.read_elf, names.functions):
            with self.assertRaisesRegex(Unusable, "^a.elf: its symbol tables share bytes$"):
                read(self.elf(1000, 1000, 4))

    def test_names(self):
        told = "^a.elf: its names share bytes, and are longer than it$"
        with self.assertRaisesRegex(Unusable, told):
            names.read_elf(self.elf(1, 3000, 50000))
        self.assertEqual(names.functions("a.elf"), {0x80000000})

    def test_names_of_sections(self):
        count, texts = 1000, b"x" * 50000
        header = b"\x7fELF\x01\x01\x01" + b"\0" * 9
        sizes = (2, 44, 1, 0, 0, 52 + len(texts), 0, 52, 32, 0, 40, count + 1, 0)
        header += struct.pack("<HHIIIIIHHHHHH", *sizes)
        table = struct.pack("<10I", 0, 3, 0, 0, 52, len(texts), 0, 0, 1, 0)
        each = struct.pack("<10I", 0, 1, 6, 0x80000000, 52, 4, 0, 0, 4, 0)
        path = self.put("a.elf", header + texts + table + each * count)
        with self.assertRaisesRegex(Unusable, "its names share bytes"):
            names.code_sections(path)

    @beside.needs_program
    def test_segments(self):
        self.example("one_call")
        held = formats.code(["mov d0, 1"]) * 512 + formats.code(["j .+0"])
        heads = 64
        header = bytearray(formats.elf_bytes(0x80000000, [(0x80000000, held)])[:52])
        struct.pack_into("<H", header, 44, heads)
        each = lambda n: formats.le32(1, 52 + 32 * heads, *[0x80000000 + 0x10000 * n] * 2)
        each_size = formats.le32(len(held), len(held), 5, 1)
        data = bytes(header) + b"".join(each(n) + each_size for n in range(heads)) + held
        self.assertEqual(len(formats.elf(data)[1]), heads)
        self.put("a.elf", data)
        files = ("a.elf", "board.json", "a.cert")
        self.assertTrue(self.tcd("cert", *files).startswith("certified"))
        for script, words in (
            ("known.py", ["a.elf"]),
            ("first_plan.py", ["a.elf"]),
            ("view.py", [beside.program(), *files, "p.html"]),
            ("growth.py", [beside.program(), *files, "--most", "9"]),
            ("evidence.py", [beside.program(), "case", *files]),
            ("worst_run.py", [*files, "--tcd", beside.program()]),
        ):
            done = self.script(script, *words)
            self.assertEqual((done.returncode, done.stdout), (2, ""), script)
            self.assertRegex(done.stderr, "^[^\n]*a.elf: its segments share bytes of the file\n$")


@beside.needs_program
class AgainstListings(beside.InFolder):
    """Each statement lies where the program's own listing has its instruction."""

    def test_examples(self):
        tried = 0
        for path in sorted(beside.EXAMPLES.glob("*/expected")):
            paths = self.example(path.parent.name)
            if any(not (self.folder / name).exists() for name in paths):
                continue  # a source that a command of `expected` writes
            self.linked(paths)
            listing = frames.Listing(self.tcd("dis", "firmware.elf"))
            known = names.read("board.layout", paths)
            tried += len([self.looked_at(row, listing) for row in known.rows])
        self.assertGreater(tried, 500)

    def looked_at(self, row, listing):
        """Compares the mnemonic of a statement's line with that of the listing."""
        at, size, file, number = row
        line = (self.folder / file).read_text().split("\n")[number - 1].split("#")[0]
        word = re.sub(r"^\s*[\w.$]+\s*:", "", line).split()[0]
        if not word.startswith("."):
            found = listing.texts.get(frames.hex8(at), "")
            self.assertEqual(found.split(" ")[0], word, f"{file}:{number}")


if __name__ == "__main__":
    unittest.main()
