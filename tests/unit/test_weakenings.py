"""The weakenings of tests/weakenings fit the code of today."""
import sys
import unittest

import beside

sys.path.insert(0, str(beside.TOP / "tests"))
import weakenings


class Weakenings(unittest.TestCase):
    def test_each_applies(self):
        all_of_them = weakenings.weakenings([])
        misfits = [(*it, why) for it in all_of_them if (why := weakenings.turned_texts(*it)[1])]
        self.assertEqual(misfits, [])
        self.assertGreater(len(all_of_them), 200)


if __name__ == "__main__":
    unittest.main()
