"""Finds the comments that silence, `/* metalcheck: CHECKER -- reason */` or the same behind `//`, in the sources of a preprocessed file."""
import os
import re
from functools import lru_cache
from typing import NamedTuple

PIECE = re.compile(r'"(?:\\.|[^"\\\n])*"|\'(?:\\.|[^\'\\\n])*\'|//[^\n]*|/\*.*?\*/', re.S)
MEANT = re.compile(r"(?:/\*+|//+)\s*metalcheck\s*:")
FORM = re.compile(r"\s*metalcheck\s*:\s*([A-Za-z_]\w*)\s+--\s*(\S.*?)\s*\Z", re.A | re.S)
ENDS = re.compile(r"\A/[*/]+|\*+/\Z")
FILE_OF_MARKER = re.compile(rb'(?m)^[ \t]*#[ \t]*(?:line[ \t]+)?\d+[ \t]*"((?:\\.|[^"\\\n])+)"([^\n]*)')


class Comment(NamedTuple):
    """A comment: its first and last line, the checker that it silences, and the reason. One that is written wrong has no checker."""

    first: int
    last: int
    checker: str = ""
    reason: str = ""

    def covers(self, line):
        """Whether it stands on this line or on the one above."""
        return self.first <= line <= self.last + 1


class Commented(NamedTuple):
    """A source by its presumed name and its place in the system, with its comments that silence."""

    name: str
    path: str
    comments: tuple


def comments_of(text):
    """The comments of a source that silence, or begin as such and are written wrong."""
    if "metalcheck" not in text:
        return ()
    return tuple(comment_of(text, piece) for piece in PIECE.finditer(text) if MEANT.match(piece.group()))


def comment_of(text, piece):
    """What a comment says that begins as one that silences."""
    first = text.count("\n", 0, piece.start()) + 1
    last = first + piece.group().count("\n")
    found = FORM.match(ENDS.sub("", piece.group()))
    return Comment(first, last, found[1], re.sub(r"\s*\n[\s*]*", " ", found[2])) if found else Comment(first, last)


@lru_cache(maxsize=None)
def comments_in(path):
    """The comments of a source file; none where it can't be read."""
    try:
        with open(path, encoding="latin-1") as file:
            return comments_of(file.read())
    except OSError:
        return ()


def own_files(preprocessed):
    """The names of the files that went into a preprocessed one, without those of the system and of the compiler.

    Of one without markers it is its own name.
    """
    with open(preprocessed, "rb") as file:
        text = file.read()
    found = {}
    for name, flags in FILE_OF_MARKER.findall(text):
        name = re.sub(rb"\\(.)", rb"\1", name)
        system = b"3" in flags.split() or name.startswith(b"<")
        found[name] = found.get(name, False) or not system
    names = [name for name, own in found.items() if own] if found else [os.fsencode(preprocessed)]
    return [name.decode("latin-1") for name in names]


def commented_files(preprocessed, folder=""):
    """The sources of a preprocessed file whose names begin in this folder, with their comments that silence; those without any too."""
    found = []
    for name in own_files(preprocessed):
        path = os.path.realpath(os.path.join(folder, os.fsdecode(name.encode("latin-1"))))
        if os.path.isfile(path):
            found.append(Commented(name, path, comments_in(path)))
    return found


def from_json(commented):
    """The sources with their comments, of which this was written as JSON."""
    return [Commented(name, path, tuple(Comment(*comment) for comment in comments)) for name, path, comments in commented]
