"""A C file as metalcheck gets it: its rows, and which presumed line of which file each of them is."""
import re

from .names import shown_name

MARKER = re.compile(r'[ \t]*#[ \t]*(?:line[ \t]+)?(\d+)(?:[ \t]*"((?:\\.|[^"\\])*)")?[^\n]*', re.A)


class Source:
    """The text of a C file. A row is a line of that text, by its number from 1; a line is a presumed one."""

    def __init__(self, path):
        self.path, self.name = path, shown_name(path)
        with open(path, encoding="latin-1", newline="") as file:
            self.text = file.read()
        self.rows = self.text.split("\n")
        self.starts = None

    def row(self, number):
        """The text of a row."""
        return self.rows[number - 1] if 0 < number <= len(self.rows) else ""

    def offset(self, number, column=1):
        """The offset of a column of a row."""
        if self.starts is None:
            self.starts, at = [0], 0
            for row in self.rows:
                at += len(row) + 1
                self.starts.append(at)
        return self.starts[number - 1] + column - 1

    def presumed(self):
        """The file and line of each row, in order; of a marker line None."""
        file, line, found = self.name, 1, []
        for row in self.rows:
            marker = MARKER.match(row) if "#" in row else None
            if marker:
                line = int(marker[1])
                file = re.sub(r"\\(.)", r"\1", marker[2]) if marker[2] is not None else file
                found.append(None)
            else:
                found.append((file, line))
                line += 1
        return found

    def rows_of(self, file, line):
        """The rows that are this line of this file."""
        return [number for number, where in enumerate(self.presumed(), 1) if where == (file, line)]

    def plain(self):
        """The text with marker lines left empty, so that a line's number is its row's, and with bytes above 127 as question marks."""
        return re.sub(r"[^\x00-\x7f]", "?", re.sub(r"(?m)^[ \t]*#[^\n]*", "", self.text))
