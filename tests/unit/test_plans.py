"""Plans: numbers, places of keys, room for areas."""
import unittest

import beside
from tcdlib import plans
from tcdlib.sources import Unusable
from test_causes import PLAN


class Reading(beside.InFolder):
    """Plans of files, in their form or not."""

    def test_a_plan(self):
        path = self.put("p", '{"csa": {"at": "0xD0000000", "areas": "0x10", "reserve": 2}}')
        self.assertEqual(plans.areas_of(path), (16, 2))

    def test_no_plans(self):
        for text in (b"", b"[]", b"{", b"\xff", b'"x"'):
            with self.assertRaises(Unusable, msg=text):
                plans.read(self.put("p", text))

    def test_a_key_twice(self):
        for text, key in (
            ('{"irqs": [], "irqs": []}', "irqs"),
            ('{"csa": {"at": 1, "areas": 2, "at": 1}}', "at"),
            ('{"rom": [{"len": 4, "len": 8}], "x": 1, "x": 2}', "len"),
            ('{"a\\u001b": 1, "a\\u001b": 1}', "a\\x1b"),
        ):
            with self.assertRaises(plans.Twice) as caught:
                plans.read(self.put("p", text))
            self.assertEqual(str(caught.exception), f"p: a key is there twice: {key}")

    def test_numbers_that_json_has_not(self):
        for word in (
            "NaN",
            "Infinity",
            "-Infinity",
            "1e999",
            "-1e999",
            "1." + "9" * 5000 + "e9999",
        ):
            with self.assertRaises(Unusable) as caught:
                plans.read(self.put("p", f'{{"csa": {{"areas": {word}}}}}'))
            told = str(caught.exception)
            self.assertTrue(told.startswith(f"p: not JSON: {word[:20]} is "), told)
            self.assertLess(len(told), 80)


class Room(unittest.TestCase):
    """Plans with as many areas as there can be."""

    def test_the_areas_touch_nothing(self):
        roomy = plans.with_room(PLAN)["csa"]
        self.assertEqual((roomy["areas"], roomy["reserve"]), (4096, 2))
        self.assertNotEqual(roomy["at"], 0)
        self.assertEqual(roomy["at"] % 64, 0)
        self.assertLessEqual(roomy["at"] % (1 << 28) + 4096 * 64, 1 << 22)
        for begin, end in plans.ranges(PLAN):
            self.assertTrue(roomy["at"] + 4096 * 64 <= begin or end <= roomy["at"])

    def test_a_full_memory(self):
        full = {**PLAN, "ram": [{"at": 0, "len": 1 << 32}]}
        self.assertIsNone(plans.with_room(full))


if __name__ == "__main__":
    unittest.main()
