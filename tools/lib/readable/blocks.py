"""Declarations that stand behind statements of their block, which C has since 1999."""
from .words import CONTROL, QUALIFIERS, STORAGE, TYPE_WORDS, TYPEOF, WORD

BEFORE_BLOCK = {")", ";", "{", "}", "else", "do", ":", "("}
BEHIND_OPERAND = {"=", "(", ".", "->", "[", "++", "--", ",", ";"}


def late_declarations(tokens, partner, names):
    """The declarations behind a statement, as pairs of their index and that of the `{` of their block."""
    walk = Walk(tokens, partner, names)
    while walk.i < len(tokens):
        walk.step()
    return walk.found


class Walk:
    """A walk over the tokens of a function. `seen` has for each open brace whether a statement was seen in it, or None for no block."""

    def __init__(self, tokens, partner, names):
        self.texts = [token.text for token in tokens]
        self.partner, self.names = partner, names
        self.seen, self.opens, self.found = [], [], []
        self.i, self.begins = 0, False

    def text(self, k):
        """The spelling at an index, or nothing outside the list."""
        return self.texts[k] if 0 <= k < len(self.texts) else ""

    def in_block(self):
        """Whether the innermost open brace begins a block."""
        return bool(self.seen) and self.seen[-1] is not None

    def step(self):
        """Goes over one token, or over a group."""
        text = self.texts[self.i]
        if text == "{":
            self._open()
        elif text == "}":
            self._close()
        elif text == "(" and self.seen and self.i in self.partner and self.text(self.i + 1) != "{":
            self._parentheses()
        elif self.begins and self.in_block() and text != ";":
            self._first_word(text)
        else:
            self._behind(text)

    def _open(self):
        """Goes into a brace."""
        block = self._is_block()
        if block and self.in_block():
            self.seen[-1] = True
        self.seen.append(False if block else None)
        self.opens.append(self.i)
        self.begins = block
        self.i += 1

    def _is_block(self):
        """Whether the `{` here begins a block, not a list of values or the body of a type."""
        before = self.text(self.i - 1)
        if before not in BEFORE_BLOCK or before == "{" and not self.in_block():
            return False
        if before == ")" and self.seen and self.i - 1 in self.partner:
            return self.text(self.partner[self.i - 1] - 1) in CONTROL
        return True

    def _close(self):
        """Goes out of a brace."""
        self.begins = bool(self.seen) and self.seen.pop() is not None
        if self.opens:
            self.opens.pop()
        self.i += 1

    def _parentheses(self):
        """Goes past a group, or into it where a brace stands in it."""
        behind = self.partner[self.i] + 1
        if self.begins and self.in_block():
            self.seen[-1] = True
        self.begins = False
        self.i = self.i + 1 if "{" in self.texts[self.i:behind] else behind

    def _first_word(self, text):
        """The first token of a statement or a declaration."""
        if self._declares(text):
            if self.seen[-1]:
                self.found.append((self.i, self.opens[-1]))
            self.seen[-1] = False
        else:
            self.seen[-1] = True
        self.begins = False
        if text in ("case", "default") or self.text(self.i + 1) == ":" and WORD.match(text):
            self._label()
        else:
            self._behind(text)

    def _declares(self, text):
        """Whether the token here, where a statement begins, begins a declaration."""
        following = self.text(self.i + 1)
        if following == ":":
            return False
        if text in TYPE_WORDS or text in QUALIFIERS or text in STORAGE or text in TYPEOF or text == "__auto_type":
            return True
        return self.names.is_type(text) and following not in BEHIND_OPERAND

    def _label(self):
        """Goes behind the colon of a label."""
        open_questions = 0
        while self.i < len(self.texts) and not (self.texts[self.i] == ":" and open_questions == 0):
            open_questions += (self.texts[self.i] == "?") - (self.texts[self.i] == ":")
            self.i += 1
        self.begins = True
        self.i += 1

    def _behind(self, text):
        """What a token means for the next one."""
        if text == ";" and self.in_block():
            if self.begins:
                self.seen[-1] = True
            self.begins = True
        elif text in ("else", "do"):
            self.begins = True
        self.i += 1
