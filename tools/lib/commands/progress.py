"""One line on a terminal that says how far the work is."""
import sys
import threading


class Progress:
    """Counts what is done of one step. It writes on standard error where that is a terminal, and else nothing."""

    def __init__(self, what, total):
        self.what, self.total, self.done = what, total, 0
        self.shown = total > 0 and sys.stderr.isatty()
        self.lock = threading.Lock()

    def step(self):
        """One more is done."""
        with self.lock:
            self.done += 1
            if self.shown:
                sys.stderr.write(f"\r\033[Kcheck_commands: {self.what} {self.done} of {self.total}")
                sys.stderr.flush()

    def end(self):
        """Takes the line away."""
        if self.shown:
            sys.stderr.write("\r\033[K")
            sys.stderr.flush()


def each(pool, what, work, items):
    """What the work gives for each of the items, in their order, with a line of progress."""
    progress = Progress(what, len(items))

    def one(item):
        result = work(item)
        progress.step()
        return result

    try:
        return list(pool.map(one, items))
    finally:
        progress.end()
