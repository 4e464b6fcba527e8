"""Takes out of the reports of a run those that comments in the sources silence."""
from explain.names import path_of
from silenced.silencer import Silencer, checker_names, with_reason


class Silenced:
    """The lines of a run: those that are written, and those among them that count as reports."""

    def __init__(self, lines, checkers, sources, as_json):
        self.silencer = Silencer(checker_names(checkers), [one for source in sources for one in source.commented])
        self.written, self.reports = [], []
        for line in lines:
            reason = self.silencer.reason(line.decode("latin-1"))
            if reason is None:
                self.reports.append(line)
                self.written.append(line)
            elif as_json:
                self.written.append((with_reason(line.decode("latin-1"), reason) + "\n").encode("ascii"))

    def told(self):
        """The lines that tell of comments, with the names of files as the system has them."""
        return [path_of(line) for line in self.silencer.told()]

    def counted(self):
        """What the last line says of silenced reports."""
        return self.silencer.counted()
