"""A line that says what is being done, and for how long: for a person at a terminal.

    with progress.of("report"):
        ..
        progress.says("report, part 2")

The line is on standard error, is written once a second, and is gone at the end. If standard error
is no terminal, nothing is written. A text within another one replaces it until it ends.
"""
import contextlib
import shutil
import sys
import threading
import time

from tcdlib.sources import shown

#: seconds before the first line, and between two
PATIENCE = 1


class Line:
    """The texts that are shown, the innermost last, each with the time at which it began."""

    def __init__(self):
        self.texts, self.width = [], 0
        self.lock, self.ended, self.thread = threading.RLock(), None, None

    def begin(self, text):
        self.texts.append((text, time.monotonic()))
        if self.thread is None and sys.stderr.isatty():
            self.ended = threading.Event()
            self.thread = threading.Thread(target=self.watch, args=(self.ended,), daemon=True)
            self.thread.start()

    def end(self):
        self.texts.pop()
        if not self.texts and self.thread is not None:
            self.ended.set()
            self.thread.join()
            self.thread = None
            self.clear()

    def watch(self, ended):
        """Writes the line until it ends, or nobody has the terminal any more."""
        with contextlib.suppress(OSError):
            while not ended.wait(PATIENCE):
                for text, began in self.texts[-1:]:
                    self.write(f"{text} ({time.monotonic() - began:.0f} s)")

    def write(self, text):
        """Writes a text over the one before."""
        text = shown(text)[: shutil.get_terminal_size().columns - 1]
        with self.lock:
            print(f"\r{text:{self.width}}\r", end="", file=sys.stderr, flush=True)
            self.width = len(text)

    def clear(self):
        with self.lock:
            if self.width:
                self.write("")


LINE = Line()


@contextlib.contextmanager
def of(text):
    """Shows a text while something is done."""
    LINE.begin(text)
    try:
        yield
    finally:
        LINE.end()


def says(text):
    """Shows another text in place of the innermost one."""
    if LINE.texts:
        LINE.texts[-1] = text, LINE.texts[-1][1]


def printed(text):
    """Prints lines on standard output, where the line may be."""
    with LINE.lock:
        LINE.clear()
        print(text, flush=True)
