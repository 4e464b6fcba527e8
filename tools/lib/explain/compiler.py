"""What a C compiler says of the rows of a file: `cc`, or what CC names. Where there is none, nothing."""
import os
import re
import subprocess
from typing import NamedTuple

import c_compiler

WORDS = ["-fsyntax-only", "-std=gnu89", "-pedantic", "-Wdeclaration-after-statement", "-Wimplicit-int", "-Wold-style-definition",
         "-ftabstop=1", "-fno-diagnostics-show-option", "-x", "cpp-output", "-"]
LINE = re.compile(r"(?m)^<stdin>:(\d+):(\d+): (?:fatal )?(error|warning): (.*)$")
FORMS = [
    (r"'for' loop initial declaration|variable declaration in for loop", "declaration in for"),
    (r"mix(ed|ing) declarations and code|a label can only be part of a statement|expected expression before '?(int|char|struct)",
     "declaration behind a statement"),
    (r"specifying subobject|designated initializer", "designated initial value"),
    (r"compound literal", "compound literal"),
    (r"nested function|function definition is not allowed here", "nested function"),
    (r"type defaults to 'int'|no type or storage class|type specifier missing", "no type"),
    (r"unknown type name", "unknown type"),
    (r"statement not (with)?in|label not within|not within a (loop|switch)|multiple default labels|duplicate label|redefinition of label|"
     r"used but not defined|use of undeclared label", "break, case or label"),
]
OF_TYPES = {
    "Undeclared": r"undeclared",
    "NoField": r"has no member|no member named",
    "Redeclared": r"redecl|redefin|duplicate|wrong kind of tag|conflicting|linkage|does not match previous",
    "NotPointer": r"invalid type argument|subscripted value|is not a pointer|indirection requires|dereferenc",
    "NotStruct": r"not a structure or union|incomplete|undefined type|invalid use|invalid type argument|not a member",
    "NotFunction": r"not a function",
    "NotLvalue": r"lvalue|not assignable|cannot take the address|rvalue",
}
OTHERS = r"incompatible|makes (pointer|integer)|too (few|many) arguments|invalid operands|void value"
TYPES = re.compile("|".join([*OF_TYPES.values(), OTHERS]))


class Said(NamedTuple):
    """A complaint: its row and column, whether it is an error, and its text."""

    row: int
    column: int
    error: bool
    text: str

    @property
    def form(self):
        """The key of the table of ways round for the form that is complained of, or nothing."""
        return next((form for pattern, form in FORMS if re.search(pattern, self.text)), "")

    def of_types(self):
        """Whether it is about names and types."""
        return not self.form and bool(TYPES.search(self.text))


def complaints(plain):
    """What the compiler says of a text without marker lines, in its order."""
    try:
        run = subprocess.run(c_compiler.words() + WORDS, input=plain.encode("ascii", "replace"), capture_output=True, timeout=60, check=False,
                             env={**os.environ, "LC_ALL": "C"})
    except (OSError, subprocess.TimeoutExpired):
        return []
    return [Said(int(row), int(column), kind == "error", text)
            for row, column, kind, text in LINE.findall(run.stderr.decode("ascii", "replace"))]


def of_syntax(said):
    """Of complaints those for which a declaration may not be read: errors, and warnings of forms that aren't."""
    wanted = [one for one in said if one.error or one.form]
    return [one for one in wanted if not one.of_types()] or wanted


def of_fault(said, name):
    """Of complaints those about this fault of names and types."""
    errors = [one for one in said if one.error]
    return [one for one in errors if re.search(OF_TYPES.get(name, ""), one.text)] or errors
