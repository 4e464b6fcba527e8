"""What is said on the way: a line on standard error for each step of a program, with the minutes and seconds since the first."""
import sys
import threading
import time

PARTS = 10


class Teller:
    """Says the steps of a program, and of a long one how far it is."""

    def __init__(self, name):
        self.name, self.began, self.lock = name, time.monotonic(), threading.Lock()
        self.what, self.total, self.done = "", 0, 0

    def step(self, what, total=0):
        """A step begins; with a total it is told about ten times how much of it is done."""
        self.what, self.total, self.done = what, total, 0
        self._say(what)

    def one_more(self):
        """One more of the step is done."""
        with self.lock:
            before, self.done = self.done, self.done + 1
        if before * PARTS // self.total < self.done * PARTS // self.total:
            self._say(f"{self.what}: {self.done} of {self.total}")

    def _say(self, text):
        """Writes a line."""
        seconds = int(time.monotonic() - self.began)
        print(f"{self.name}: {seconds // 60}:{seconds % 60:02} {text}", file=sys.stderr, flush=True)
