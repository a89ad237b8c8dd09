"""Unit tests of largest.py: its firmwares and plans are at the limits, by the second readers."""
import json
import unittest

import beside

import largest
from tcdlib import formats as readers


class Limits(unittest.TestCase):
    def counted(self, firmware, frames=0, points=0):
        held = firmware.frames()
        self.assertEqual(len(held) + frames, largest.NODES)
        self.assertEqual(sum(len(frame.lines) for frame in held) + points, largest.POINTS)

    def test_firmwares(self):
        for form in (1, 2):
            self.counted(largest.firmware(form))
        for count in (2, 7):
            tasks = [largest.task(number, count) for number in range(count)]
            for task in tasks:
                self.counted(task, 1, 18)  # and the switch routine
            self.assertEqual(sum(task.main.need for task in tasks), largest.CERTIFIED)

    def test_an_executable(self):
        segments = list(largest.firmware(1).segments().values())
        data = largest.elf(largest.CODE, segments)
        entry, found = readers.elf(data)
        self.assertEqual((entry, len(found), len(data)), (largest.CODE, 64, 1 << 24))
        self.assertEqual(found[: len(segments)], segments)

    def test_plans(self):
        whole = largest.WHOLE
        for plan in (largest.plan("1.6", 128), largest.plan("1.3", ram=whole, devices=1)):
            board = readers.plan(json.dumps(plan).encode())
            for key in ("rom", "ram"):
                self.assertEqual(sum(each["len"] for each in board[key]), 1 << 22)
        counts = {key: len(largest.plan("1.3")[key]) for key in ("rom", "ram", "devices", "irqs")}
        self.assertEqual(counts, {"rom": 16, "ram": 16, "devices": 16, "irqs": 32})


if __name__ == "__main__":
    unittest.main()
