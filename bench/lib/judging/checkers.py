"""The checkers that are judged, by the depth at which each is run."""
import hashlib
import os
import re
from typing import NamedTuple

from commands import kept

MOST = 16  # so many checkers take part in one run at most
DEPTH = re.compile(r"(?m)^//.*--depth ([0-8])\b")
EXIT = "{ exit(how) }"


class Checker(NamedTuple):
    """A checker: its file, the words that set its depth, and a number for its text and depth."""

    path: str
    depth: tuple
    key: str


def checker(path):
    """The checker of a file, which runs at the depth that a comment in it names."""
    with open(path, encoding="utf-8") as file:
        text = file.read()
    named = DEPTH.search(text)
    depth = ("--depth", named[1]) if named else ()
    return Checker(path, depth, hashlib.sha256("\0".join([*depth, text]).encode()).hexdigest()[:16])


def told_of(path, functions, folder):
    """The checker of a file, told of functions that don't come back, in each rule with `exit`: with them it is another file, in this folder."""
    with open(path, encoding="utf-8") as file:
        text = file.read()
    if not functions or EXIT not in text:
        return checker(path)
    os.makedirs(folder, exist_ok=True)
    copy = os.path.join(folder, os.path.basename(path))
    kept.write(copy, text.replace(EXIT, " || ".join([EXIT, *(f"{{ {name}(how) }}" for name in functions)])).encode())
    return checker(copy)


def runs_of(checkers):
    """The checkers in lists for a run each: those of one depth together."""
    lists = {}
    for one in checkers:
        lists.setdefault(one.depth, []).append(one)
    return [some[at:at + MOST] for some in lists.values() for at in range(0, len(some), MOST)]
