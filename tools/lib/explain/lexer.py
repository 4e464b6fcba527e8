"""Cuts C files and checkers into tokens as metalcheck does, and says where a text has none.

A text is read as Latin-1 everywhere in this package: a character stands for a byte, so offsets and columns count bytes.
"""
import re
from typing import NamedTuple

NUMBER = re.compile(
    r"(?P<whole>0[xX][0-9a-fA-F]+|0[0-7]*|[1-9][0-9]*)(?:[uU](?:ll|LL|[lL])?|(?:ll|LL|[lL])[uU]?)?(?![\w.])"
    r"|(?:[0-9]+[eE][+-]?[0-9]+|(?:[0-9]*\.[0-9]+|[0-9]+\.)(?:[eE][+-]?[0-9]+)?)[fFlL]?(?![\w.])", re.A)
LINE_MARKER = re.compile(r'#[ \t]*(?:line[ \t]+)?0*([0-9]{1,10})(?:[ \t]*"(?:\\.|[^"\\\n])*"(?:[ \t]+[1-4])*)?[ \t]*(?=\n|\Z)')
BLANK_LINE = re.compile(r"#[ \t]*(?:pragma|ident)\b[^\n]*", re.A)
PIECE = re.compile(
    r"(?P<blank>[ \t\v\f\r\n]+|//[^\n]*|/\*.*?\*/)"
    r"|(?P<literal>L?\"(?:\\[^\n]|[^\"\\\n])*\"|L?'(?:\\[^\n]|[^'\\\n])+')"
    r"|(?P<open>/\*|L?[\"'])"
    r"|(?P<word>[A-Za-z_]\w*)"
    r"|(?P<number>\.?[0-9])"
    r"|(?P<arrow>==>|\$)"
    r"|(?P<operator><<=|>>=|\.\.\.|->|\+\+|--|&&|\|\||<<|>>|[<>=!+\-*/%&|^]=|[-+*/%&|^~!=<>?:;,.(){}\[\]])"
    r"|(?P<other>.)", re.A | re.S)


class Token(NamedTuple):
    """A token: its spelling, and the offset of its first byte."""

    text: str
    at: int

    @property
    def end(self):
        """The offset behind its last byte."""
        return self.at + len(self.text)


class BadToken(NamedTuple):
    """A place without a token: the name of the fault, its offset, and what is wrong there."""

    name: str
    at: int
    says: str


def number_at(text, at):
    """The constant that begins here, or what is wrong with it."""
    found = NUMBER.match(text, at)
    if not found:
        spelled = re.compile(r"(?:[eE][+-]|[\w.])+", re.A).match(text, at).group()
        return BadToken("BadNumber", at, f"{spelled} is no constant that is read")
    if found["whole"] and int(found["whole"], 16 if found["whole"][:2] in ("0x", "0X") else 10) > 2**64 - 1:
        return BadToken("BadNumber", at, f"{found.group()} is above 2^64 - 1")
    return Token(found.group(), at)


def line_at(text, at):
    """The end of the line of the preprocessor that begins here, or what is wrong with it."""
    blank = BLANK_LINE.match(text, at)
    if blank:
        return blank.end()
    marker = LINE_MARKER.match(text, at)
    if marker and int(marker[1]) <= 2147483647:
        return marker.end()
    row = text[at:].split("\n", 1)[0] if at + 200 > len(text) else text[at:at + 200].split("\n", 1)[0]
    if row.endswith("\r"):
        return BadToken("BadMarker", at, "this line ends in CR LF")
    word = re.match(r"#[ \t]*(\w*)", row, re.A)[1]
    says = f"#{word} is a line for the preprocessor" if word and not word[0].isdigit() else "this is no line marker"
    return BadToken("BadMarker", at, says)


def begins_line(text, at):
    """Whether only spaces and tabs stand before this place on its line."""
    return not text[text.rfind("\n", 0, at) + 1:at].strip(" \t")


def open_text(text, at):
    """What isn't closed here."""
    if text.startswith("/*", at):
        return BadToken("OpenText", at, "this comment isn't closed")
    at += text[at] == "L"
    if text.startswith("''", at):
        return BadToken("OpenText", at, "a character constant is empty")
    return BadToken("OpenText", at, "this isn't closed on its line")


def bad_byte(text, at):
    """What is said of a byte that begins no token."""
    spelled = text[at] if " " < text[at] < "\x7f" else f"the byte {ord(text[at])}"
    return BadToken("BadByte", at, f"no token begins with {spelled}")


def tokens_of(text, checker=False):
    """The tokens of a text up to its first bad one, and that one or None. A checker has `$` and `==>`, and no preprocessor."""
    found, at = [], 0
    while at < len(text):
        piece = PIECE.match(text, at)
        kind, end = piece.lastgroup, piece.end()
        if kind == "number":
            token = number_at(text, at)
            if isinstance(token, BadToken):
                return found, token
            found.append(token)
            end = token.end
        elif kind == "open":
            return found, open_text(text, at)
        elif kind == "arrow" and not checker:
            if text[at] == "$":
                return found, bad_byte(text, at)
            end = at + 2
            found.append(Token("==", at))
        elif kind == "other":
            if text[at] != "#" or checker or not begins_line(text, at):
                return found, bad_byte(text, at)
            end = line_at(text, at)
            if isinstance(end, BadToken):
                return found, end
        elif kind != "blank":
            found.append(Token(piece.group(), at))
        at = end
    return found, None
