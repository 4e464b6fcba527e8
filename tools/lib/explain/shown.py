"""How a place in a text is shown: its line, and a caret under it."""
import re
import textwrap

WIDEST = 110


def row_at(text, at):
    """The number of the line of an offset, the line itself, and the column in it, all from 1."""
    start = text.rfind("\n", 0, at) + 1
    end = text.find("\n", start)
    return text.count("\n", 0, at) + 1, text[start:end if end >= 0 else len(text)], at - start + 1


def window(row, column):
    """The part of a long line around a column, and the column in it."""
    row = row.rstrip("\r")
    if len(row) <= WIDEST:
        return row, column
    start = max(0, min((column or 1) - 1 - WIDEST // 2, len(row) - WIDEST))
    cut = ("..." if start else "") + row[start:start + WIDEST] + ("..." if start + WIDEST < len(row) else "")
    return cut, (column and column - start + (3 if start else 0))


def marked(number, row, column=None):
    """A line with its number or another short word, and a caret under the column if there is one."""
    row, column = window(row, column)
    lines = [f"  {number:>5} | {row}"]
    if column:
        lines.append("        | " + re.sub(r"[^\t]", " ", row[:column - 1]).ljust(column - 1) + "^")
    return lines


def place(name, text, at, says):
    """What is said of a place of a text, with its line marked."""
    number, row, column = row_at(text, at)
    return [f"  {name}:{number}:{column}: {says}", *marked(number, row, column)]


def way_round(way):
    """The way round of a table, in lines."""
    return textwrap.wrap("way round: " + way, 116, initial_indent="  ", subsequent_indent="    ", break_long_words=False,
                         break_on_hyphens=False)
