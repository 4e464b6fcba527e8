"""Reads the lines that metalcheck writes for reports, in each of its styles.

Names are read as Latin-1: a character stands for a byte, as in the style `json`.
"""
import json
import re
from typing import NamedTuple

LINE = re.compile(r"(?P<file>.+?):(?P<line>\d+):(?P<column>\d+): (?P<checker>\w+): ", re.A)
TABLE = re.compile(r" *(?P<line>\d+):(?P<column>\d+) +(?P<checker>\w+) +(?P<file>.+?): ", re.A)


class Report(NamedTuple):
    """Where a report stands, and which checker it is of."""

    file: str
    line: int
    column: int
    checker: str


def report_of(text):
    """The report of a line, or None where it is none."""
    if text.startswith("{"):
        return of_json(text)
    found = LINE.match(text) or TABLE.match(text)
    return Report(found["file"], int(found["line"]), int(found["column"]), found["checker"]) if found else None


def of_json(text):
    """The report of a line of JSON, or None."""
    try:
        it = json.loads(text)
        return Report(it["file"], int(it["line"]), int(it["col"]), it["checker"])
    except (ValueError, KeyError, TypeError):
        return None
