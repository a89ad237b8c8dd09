"""Unit tests of the second readers: corners of JSON, as docs/formats.md has plans."""
import unittest

import beside

from tcdlib.formats.texts import Bad, json_value, plan_number


class Json(unittest.TestCase):
    def test_what_is_no_json(self):
        for text in (
            b"", b"{", b"[1 2]", b"{'a': 1}", b'{"a": 1,}', b"01", b"+1", b".5", b"NaN",
            b"[Infinity]", b"1e400", b"1" + b"0" * 400, b'"\xff"', b"\xef\xbb\xbf{}", b"{}\0",
            b'"\t"', b'"\\x"', b'"\\ud800"', b'{"\\udc00": 1, "\\udc00": 2}',
            b'"\\ud800\\\\udc00"', b"[" * 128 + b"]" * 128,
        ):  # fmt: skip
            with self.assertRaises(Bad, msg=text):
                json_value(text)

    def test_what_is(self):
        for text, value in (
            (b'{"a": 1, "a": 2}', {"a": 2}),
            (b'"\\ud83d\\ude00"', "\U0001f600"),
            (b'"\\\\ud800"', "\\ud800"),
            (b'"[[["', "[[["),
            (b"18446744073709551615", (1 << 64) - 1),
            (b"[18446744073709551616, 1.0, 1e2, -0]", [None] * 4),
        ):
            self.assertEqual(json_value(text), value)
        json_value(b"[" * 127 + b"]" * 127)

    def test_numbers_of_plans(self):
        for value, number in (
            (7, 7), ("0xfF", 255), (1 << 32, None), ("0X1", None), ("0x123456789", None),
            (True, None), (None, None), ([], None),
        ):  # fmt: skip
            self.assertEqual(plan_number(value), number, value)


if __name__ == "__main__":
    unittest.main()
