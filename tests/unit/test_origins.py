"""Where an address comes from, by the instructions before it."""
import unittest

import beside  # noqa: F401 (it puts tools/ on the path)
from tcdlib import origins
from test_causes import listing


class Origins(unittest.TestCase):
    """Rows of instructions, the last of which is asked."""

    def asked(self, *texts):
        """The registers and the texts from which the address of the last instruction comes."""
        found = listing((0x80000000, *texts))
        _, lines = found.sections[0]
        rows = origins.origins(found, lines[len(texts) - 1].at)
        return [f"{register} {found.texts[point].split(' ')[0]}" for register, point in rows]

    def test_a_table_with_an_index_from_ram(self):
        told = self.asked(
            "ld.w d0, [a12]0", "movh.a a14, 32768", "lea.l a14, [a14]4096",
            "addsc.a a14, a14, d0, 2", "ld.a a14, [a14]0", "calli a14",
        )  # fmt: skip
        self.assertEqual(told, ["a14 ld.a", "a14 addsc.a", "d0 ld.w"])

    def test_an_index_that_is_computed(self):
        told = self.asked(
            "ld.w d2, [a6]0", "add d3, d2, 1", "add16 d3, d4", "mov16 d4, d3",
            "addsc.a a5, a5, d4, 0", "st.b [a5]0, d0",
        )  # fmt: skip
        self.assertEqual(told, ["a5 addsc.a", "d4 mov16", "d3 add16", "d3 add", "d2 ld.w"])

    def test_an_address_that_is_built(self):
        told = self.asked("movh.a a4, 61520", "lea a4, [a4]4", "st.w [a4]0, d0")
        self.assertEqual(told, ["a4 lea", "a4 movh.a"])

    def test_a_pointer_that_a_loop_raises_has_no_origin(self):
        self.assertEqual(self.asked("lea.l a5, [a5]0", "st.w [a5+]4, d0"), [])

    def test_an_index_that_a_loop_counts(self):
        texts = ["mov d1, 0", "addsc.a a5, a4, d1, 2", "st.w [a5]0, d0", "add d1, d1, 1"]
        found = listing((0x80000000, *texts, "jlt d1, d2, .-12", "add d1, d1, 2", "ret16"))
        told = [(each.register, each.point) for each in origins.origins(found, "80000008")]
        self.assertEqual(told, [("a5", "80000004"), ("d1", "80000000"), ("d1", "8000000C")])

    def test_what_a_call_leaves(self):
        self.assertEqual(self.asked("call .+100", "st.w [a4]0, d0"), ["a4 call"])
        told = self.asked("movh.a a12, 1", "call .+100", "st.w [a12]0, d0")
        self.assertEqual(told, ["a12 movh.a"])

    def test_a_function_that_leaves_a_register(self):
        keeps = ["movh.a a4, 1", "call .+8", "st.w [a4]0, d0", "mov d2, 1", "ret16"]
        found = listing((0x80000000, *keeps))
        self.assertEqual([each.point for each in origins.origins(found, "80000008")], ["80000000"])
        found = listing((0x80000000, *keeps[:3], "movh.a a4, 2", "ret16"))
        self.assertEqual([each.point for each in origins.origins(found, "80000008")], ["80000004"])

    def test_another_path_ends_it(self):
        for word in ("ret16", "rfe", "j .+0", "ji a3"):
            self.assertEqual(self.asked("movh.a a4, 1", word, "st.w [a4]0, d0"), [], word)

    def test_lower_contexts_that_are_restored(self):
        self.assertEqual(self.asked("movh.a a4, 1", "rslcx", "st.w [a4]0, d0"), ["a4 rslcx"])

    def test_instructions_without_an_address(self):
        for text in ("nop", "rfe16", "mov d0, 1", "st.w 0xF0000000, d0", "mfcr d0, 65024"):
            self.assertEqual(self.asked("movh.a a4, 1", "nop", text), [])

    def test_no_instruction_there(self):
        self.assertEqual(origins.origins(listing((0x80000000, "nop")), "90000000"), [])


if __name__ == "__main__":
    unittest.main()
