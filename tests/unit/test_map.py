"""Tests of maintain/map.py. At the top of the repository:

    python3 -m unittest discover -s tests/unit
"""
import pathlib
import tempfile
import unittest

import beside  # noqa: F401 (it puts tools/ on the path)
import map as crate_map

FILES = {
    "crates/a/src/lib.rt": "//! A crate.\n",
    "crates/a/src/two_words.rt": "// Words of 2.5 parts | or\n// more. And others.\nuse x;\n",
    "crates/a/specs/TwoWords.antt": "-- Not this.\n",
    "crates/a/specs/Lib.antt": "-- Nor this.\n",
    "crates/a/specs/Alone.antt": "-- A definition alone\nuse X\n",
}
TABLE = """## `a`

| File | Holds |
|---|---|
| `Alone.antt` | A definition alone |
| `two_words.rt`, `TwoWords.antt` | Words of 2.5 parts \\| or more |"""


class Tables(unittest.TestCase):
    def setUp(self):
        folder = tempfile.TemporaryDirectory()
        self.addCleanup(folder.cleanup)
        self.top = pathlib.Path(folder.name)
        for name, text in FILES.items():
            (self.top / name).parent.mkdir(parents=True, exist_ok=True)
            (self.top / name).write_text(text, encoding="utf-8")

    def test_a_table_has_a_line_for_each_name(self):
        self.assertEqual(crate_map.table_of(self.top / "crates" / "a"), TABLE)

    def test_a_long_comment_ends_at_its_colon(self):
        path = self.top / "crates/a/src/two_words.rt"
        path.write_text("// What it holds: " + "and more " * 20 + "\n", encoding="utf-8")
        self.assertEqual(crate_map.first_sentence(path), "What it holds")


if __name__ == "__main__":
    unittest.main()
