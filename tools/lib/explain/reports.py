"""Shows behind a report its line in the source, with a caret where the report stands."""
import os
import re
from difflib import SequenceMatcher
from functools import lru_cache

from report_lines import report_of

from .lexer import PIECE, Token
from .names import path_of
from .shown import marked
from .sources import Source

MOST_TOKENS = 2000
AS_CALLS = re.compile(r"\b(__builtin_\w*object_size|__alignof(?:__)?|_Alignof|typeof|__typeof(?:__)?|_Static_assert)\s*\(")


@lru_cache(maxsize=64)
def rows_of_file(path):
    """The rows of a file of the source, or None where it can't be read."""
    try:
        with open(path, encoding="latin-1", newline="") as file:
            return file.read().split("\n")
    except OSError:
        return None


class Places:
    """The places of reports in the C files of a run. `folders` is where presumed names may begin."""

    def __init__(self, paths, reports, folders=("",)):
        self.folders = folders
        self.found = {(it.file, it.line): [] for it in filter(None, map(report_of, reports))}
        for path in paths if self.found else ():
            self.look_through(Source(path))

    def look_through(self, source):
        """Takes the preprocessed rows at the places of the reports, each once."""
        for number, where in enumerate(source.presumed(), 1):
            row = source.row(number)
            if where in self.found and row.strip() and row not in self.found[where]:
                self.found[where].append(row)

    def source_row(self, file, line):
        """The line in the source itself, or None."""
        for folder in self.folders:
            rows = rows_of_file(os.path.join(folder, path_of(file)))
            if rows is not None and line <= len(rows):
                return rows[line - 1]
        return None

    def shown(self, report):
        """The lines that stand behind a report."""
        place = report_of(report)
        if place is None:
            return []
        file, line, column, _ = place
        own = self.source_row(file, line)
        read = [row for row in self.found.get((file, line), []) if len(row) >= column]
        if own is None and not read:
            return []
        return with_caret(own, read, line, column) + as_calls(read)


def with_caret(own, read, line, column):
    """The source's line with a caret; where macros changed it, and the place isn't sure, the preprocessed line too."""
    if own is None:
        return marked(line, read[0], column)
    for row in read:
        found = same_place(own, row, column)
        if found:
            return marked(line, own, found)
    return marked(line, own) + (marked("read", read[0], column) if read else [])


def same_place(own, row, column):
    """The column of the source's line that is this column of the preprocessed one, or 0 where that isn't sure."""
    if own[:column] == row[:column]:
        return column
    here, there = tokens_of_row(own), tokens_of_row(row)
    number = next((number for number, token in enumerate(there) if token.at == column - 1), None)
    if number is None or len(there) > MOST_TOKENS:
        return 0
    pairs = SequenceMatcher(None, [token.text for token in here], [token.text for token in there], autojunk=False)
    for _, first, last, begin, end in pairs.get_opcodes():
        # a name that a macro replaced by one other stands in its place
        if begin <= number < end and last - first == end - begin:
            return here[first + number - begin].at + 1
    return 0


def tokens_of_row(row):
    """The tokens of a line, as far as they can be told without the lines around it."""
    return [Token(piece.group(), piece.start()) for piece in PIECE.finditer(row) if piece.lastgroup != "blank"]


def as_calls(read):
    """A note where a line has a word that is read as a call, though nothing is evaluated there."""
    found = next((it for row in read for it in AS_CALLS.finditer(row)), None)
    if not found:
        return []
    return [f"        | {found[1]}(..) on this line is read as a call: what stands in it counts as evaluated"]
