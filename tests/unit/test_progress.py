"""The line of progress: at a terminal alone, gone at the end, without control characters."""
import os
import pty
import subprocess
import sys
import unittest

import beside

SLOW = """
import sys, time
sys.path.insert(0, {tools!r})
from tcdlib import progress
progress.PATIENCE = 0.05
with progress.of("the whole"):
    with progress.of("a\\x1b[31m " + "b" * 500):
        time.sleep(0.6)
    progress.says("part 2")
    time.sleep(0.6)
    progress.printed("a line")
    time.sleep(0.6)
print("done", flush=True)
"""


def at_terminal(words, **more):
    """What a command writes to standard output and to a terminal that is its standard error."""
    ours, theirs = pty.openpty()
    with subprocess.Popen(words, stdout=subprocess.PIPE, stderr=theirs, text=True, **more) as child:
        os.close(theirs)
        written = b""
        try:
            while data := os.read(ours, 4096):
                written += data
        except OSError:
            pass  # the terminal is closed
        os.close(ours)
        return child.stdout.read(), written.decode(errors="replace")


class Lines(beside.InFolder):
    def words(self):
        path = self.put("slow.py", SLOW.format(tools=str(beside.TOOLS)))
        return [sys.executable, "-B", path]

    def test_a_terminal(self):
        printed, line = at_terminal(self.words())
        self.assertEqual(printed, "a line\ndone\n")
        self.assertIn("a\\x1b[31m bbbb", line)
        self.assertNotIn("\x1b", line)
        self.assertRegex(line, r"\rpart 2 \(\d s\)")
        self.assertNotIn("\n", line)
        for text in line.split("\r"):
            self.assertLess(len(text), 80)
        # the last text is blanks over the one before
        self.assertEqual(line.split("\r")[-2].strip(), "")

    def test_a_pipe(self):
        done = subprocess.run(self.words(), capture_output=True, text=True)
        self.assertEqual((done.stdout, done.stderr), ("a line\ndone\n", ""))

    def test_nothing_is_shown_of_what_is_quick(self):
        _, line = at_terminal([sys.executable, str(beside.TOOLS / "explain.py"), "--", "true"])
        self.assertEqual(line, "")

    def test_a_slow_command_of_a_script(self):
        path = self.folder / self.put("slow", "#!/bin/sh\nsleep 2\nexit 5\n")
        path.chmod(0o755)
        words = [sys.executable, str(beside.TOOLS / "explain.py"), "--", "./slow", "cert", "f.elf"]
        self.assertRegex(at_terminal(words)[1], r"\rtcd cert f.elf \(\d s\)")
        self.assertEqual(subprocess.run(words, capture_output=True).stderr, b"")


@beside.needs_program
class Scripts(beside.InFolder):
    def test_a_search(self):
        self.linked(self.example("nested_interrupts"))
        files = ("firmware.elf", "board.json", "firmware.cert")
        self.tcd("cert", *files)
        plan = (self.folder / "board.json").read_text()
        self.assertIn('"irqs": [10, 20, 30]', plan)
        script = str(beside.TOOLS / "worst_run.py")
        words = [sys.executable, script, *files, "--tcd", beside.program(), "--seconds", "2.5"]
        printed, line = at_terminal(words)
        self.assertRegex(printed, r"^reached \d+ of 11\n$")
        self.assertEqual(line.count("\n"), 1)  # the script that was written, and its seconds


if __name__ == "__main__":
    unittest.main()
