"""What reports were called by those who read them, and the table of that."""
import re

LINE = re.compile(r"(right|false)\s+(\S+)\s+(\S+)\s+(.+?:\d+)(?:\s+(.*\S))?\s*")
ENDS = re.compile(r"ends\s+(\S+)((?:\s+[A-Za-z_]\w*)+)\s*", re.A)
HEAD = "| Checker | Program | Reports | Right | False | Not read | What is false |\n|---|---|---|---|---|---|---|"


class BadLine(Exception):
    """A line is no judgement; the text has its number, and how one is written."""


def judgements(text):
    """The word and the remark for each report that was read, by its program, checker and place; and the functions of each program that don't
    come back. `#` begins a comment."""
    found, ends = {}, {}
    for number, line in enumerate(text.split("\n"), 1):
        read, last = LINE.fullmatch(line), ENDS.fullmatch(line)
        if read:
            found[read[2], read[3], read[4]] = read[1], read[5] or ""
        elif last:
            ends.setdefault(last[1], []).extend(last[2].split())
        elif line.strip() and not line.startswith("#"):
            raise BadLine(f"{number}: a line is `right PROGRAM CHECKER FILE:LINE REMARK`, `false ..`, or `ends PROGRAM FUNCTION ..`")
    return found, ends


class Row:
    """What was said of the reports of a checker on a program."""

    def __init__(self):
        self.right = self.false = self.unread = 0
        self.remarks = {}

    def add(self, word, remark):
        """Counts a report."""
        self.right += word == "right"
        self.false += word == "false"
        self.unread += word is None
        if word == "false" and remark:
            self.remarks[remark] = self.remarks.get(remark, 0) + 1

    def cells(self):
        """The cells of the table behind the names."""
        why = "; ".join(remark + (f" ({count})" if count > 1 else "") for remark, count in self.remarks.items())
        return f"{self.right + self.false + self.unread} | {self.right} | {self.false} | {self.unread} | {why} |"


def rows_of(reports, judged):
    """The rows by checker and program, and a line for each report that nobody has read. A report that several files share counts once."""
    rows, unread = {}, []
    for program, checker, place, message in sorted(set(reports)):
        word, remark = judged.get((program, checker, place), (None, ""))
        rows.setdefault((checker, program), Row()).add(word, remark)
        if word is None:
            unread.append(f"?     {program} {checker} {place} {message}")
    return rows, unread


def table(rows):
    """The lines of the table."""
    return [HEAD, *(f"| `{checker}` | {program} | {row.cells()}" for (checker, program), row in sorted(rows.items()))]


def doubtful(rows):
    """The checkers of which more reports are false than right."""
    balance = {}
    for (checker, _), row in rows.items():
        balance[checker] = balance.get(checker, 0) + row.right - row.false
    return sorted(checker for checker, left in balance.items() if left < 0)
