"""Says of a refused C file where it stops being C that is read, what is wrong there, and the way round."""
import re

from . import compiler
from .chunks import chunks_of, name_of, stripped
from .forms import ALIGNMENT, WORDS, found_forms
from .lexer import tokens_of
from .names import shown_name
from .shown import marked, place, row_at, way_round
from .sources import Source
from .ways import FORMS, OF_C

OF_TOKENS = ("BadByte", "OpenText", "BadNumber", "BadMarker")
MOST_TOLD = 4


class Finding:
    """A place of a file: its offset, what is wrong there, and the way round."""

    def __init__(self, at, says, way):
        self.at, self.says, self.way = at, says, way


def explained(paths, file, line, name, kept=True):
    """The lines that explain the refusal of this name at this presumed line, the C files of the run being these.

    Where they aren't kept, no line of theirs is named beside the presumed one.
    """
    what, way = OF_C.get(name, OF_C["Syntax"])
    if name == "TooLarge":
        return too_large(paths, file, what, way)
    sources = [Source(path) for path in paths]
    for source, found in findings(sources, file, line, name):
        if found:
            return told(source, found, kept)
    return line_alone(sources, file, line, what, way)


def findings(sources, file, line, name):
    """Of each file that may be the refused one, in order, what was found in it."""
    if name == "DuplicateFunction":
        yield from second_bodies(sources, file, line)
        return
    for source in sources:
        if name in OF_TOKENS:
            bad = tokens_of(source.text)[1]
            yield source, [Finding(bad.at, bad.says, OF_C[name][1])] if bad and bad.name == name else []
            continue
        rows = source.rows_of(file, line)
        if rows:
            yield source, of_syntax(source, rows) if name == "Syntax" else of_types(source, rows, name)


def told(source, found, kept):
    """The lines for what was found in a file: each place, and each way round once."""
    lines = []
    for number, one in enumerate(found):
        lines += presumed_place(source, one, kept)
        if number + 1 == len(found) or found[number + 1].way != one.way:
            lines += way_round(one.way)
    return lines


def presumed_place(source, finding, kept):
    """What is said of a place, by its presumed line; of a preprocessed file that is kept the line there is told too."""
    number, row, column = row_at(source.text, finding.at)
    where = source.presumed()[number - 1] or (source.name, number)
    if where == (source.name, number):
        return place(source.name, source.text, finding.at, finding.says)
    also = f" (line {number} of {source.name})" if kept else ""
    return [f"  {where[0]}:{where[1]}: {finding.says}{also}", *marked(where[1], row, column)]


def line_alone(sources, file, line, what, way):
    """The lines where nothing was found but the line: it, and the way round of this refusal."""
    lines = [f"  {file}:{line}: {what}"]
    for source in sources:
        rows = source.rows_of(file, line)
        if rows:
            return lines + marked(line, source.row(rows[0])) + way_round(way)
    return lines + way_round(way)


def too_large(paths, file, what, way):
    """The lines for a file that is too large: its first one, and how large it is."""
    sizes = []
    for path in paths:
        with open(path, "rb") as it:
            head = it.readline(200)
            sizes.append((shown_name(path), it.seek(0, 2), head.decode("latin-1").rstrip("\n")))
    own = next((one for one in sizes if one[0] == file), None)
    so_far = sum(size for _, size, _ in sizes)
    says = f"{own[1]:,} bytes, and the C files of this run have {so_far:,}" if own else f"the C files of this run have {so_far:,} bytes"
    return [f"  {file}: {what}: {says}", *marked(1, own[2] if own else ""), *way_round(way)]


def of_syntax(source, rows):
    """What isn't read in the declarations that begin on these rows."""
    tokens = tokens_of(source.text)[0]
    starts = [(source.offset(row), source.offset(row) + len(source.row(row))) for row in rows]
    begun = [chunk for chunk in chunks_of(stripped(tokens)) if any(first <= chunk.at <= last for first, last in starts)]
    if not begun:
        return at_end(source, tokens, starts)
    found = [of_form(token, form) for chunk in begun for token, form in found_forms(chunk)]
    for one in compiler.of_syntax(compiler.complaints(source.plain())):
        at = source.offset(one.row, one.column)
        if any(chunk.at <= at <= chunk.end + 1 for chunk in begun) and not near(found, one, source):
            found.append(Finding(label(source, one, at), one.text, FORMS[one.form][1] if one.form else OF_C["Syntax"][1]))
    if not found and not begun[-1].ended:
        last = begun[-1].tokens[-1]
        found.append(Finding(last.at, "the file ends before this declaration does", "write the missing `;` or bracket"))
    return sorted(found, key=lambda one: one.at)[:MOST_TOLD]


def of_form(token, form):
    """What is said of a form that isn't read: its word, or how the form looks."""
    what, way = FORMS[form]
    named = token.text in WORDS or token.text in ALIGNMENT
    return Finding(token.at, f"{token.text} isn't read" if named else f"this isn't read: {what}", way)


def at_end(source, tokens, starts):
    """What is said where no declaration begins on the line: the file ends in one that isn't complete."""
    if tokens and any(first <= tokens[-1].at <= last for first, last in starts):
        return [Finding(tokens[-1].at, "this isn't complete", OF_C["Syntax"][1])]
    return []


def near(found, said, source):
    """Whether a form that was found stands on the row of a complaint, which is then most likely about it."""
    first = source.offset(said.row)
    return any(first <= one.at <= first + len(source.row(said.row)) for one in found)


def label(source, said, at):
    """The place of a complaint; of a label that isn't there that of the `goto`, since compilers name the function's."""
    missing = re.search(r"label '(\w+)' used but not defined", said.text)
    jump = missing and re.compile(rf"\bgoto\s+{missing[1]}\b").search(source.text, at)
    return jump.start() if jump else at


def of_types(source, rows, name):
    """The place of a fault of names and types on these rows, as the compiler has it."""
    said = [one for one in compiler.complaints(source.plain()) if one.row in rows]
    return [Finding(source.offset(one.row, one.column), one.text, OF_C[name][1]) for one in compiler.of_fault(said, name)[:1]]


def second_bodies(sources, file, line):
    """The second body of a function, and where the first one stands."""
    bodies = {}
    for source in sources:
        rows = set(source.rows_of(file, line))
        for chunk in chunks_of(stripped(tokens_of(source.text)[0])):
            token = name_of(chunk) if chunk.is_function() else None
            if token is None:
                continue
            row = source.text.count("\n", 0, token.at) + 1
            if row in rows and token.text in bodies:
                first, number = bodies[token.text]
                where = first.presumed()[number - 1] or (first.name, number)
                says = f"{token.text} has a body in {where[0]}:{where[1]} already"
                yield source, [Finding(token.at, says, OF_C["DuplicateFunction"][1])]
                return
            bodies.setdefault(token.text, (source, row))
