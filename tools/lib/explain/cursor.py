"""A place among the tokens of a checker, from which its readers go on."""
import re


class Unread(Exception):
    """A text stops being a checker at the token of this number, where something else is wanted."""

    def __init__(self, at, wanted):
        super().__init__(wanted)
        self.at, self.wanted = at, wanted


class Cursor:
    """The tokens of a text, and the number of the one that is next."""

    def __init__(self, tokens):
        self.tokens, self.at = tokens, 0

    def here(self, ahead=0):
        """The spelling of the next token, or of one behind it; nothing at the end."""
        number = self.at + ahead
        return self.tokens[number].text if number < len(self.tokens) else ""

    def fail(self, wanted, at=None):
        """Ends the reading at the next token, or at the one of that number."""
        raise Unread(self.at if at is None else at, wanted)

    def step(self):
        """Goes over the next token, and gives its spelling."""
        self.at += 1
        return self.tokens[self.at - 1].text

    def skip(self, word):
        """Goes over this word if it is next, and says whether it was."""
        if self.here() != word:
            return False
        self.at += 1
        return True

    def take(self, word, wanted=None):
        """Goes over this word, which has to be next."""
        if not self.skip(word):
            self.fail(wanted or f"`{word}` is wanted here")

    def at_word(self):
        """Whether a word is next."""
        return bool(re.match(r"[A-Za-z_]", self.here())) and not self.at_literal()

    def at_literal(self):
        """Whether a string or a character constant is next."""
        return self.here()[-1:] in ("'", '"')

    def word(self, wanted):
        """Goes over a word that is no keyword of C, and gives it."""
        if not self.at_word():
            self.fail(wanted)
        if self.here() in KEYWORDS:
            self.fail(f"{self.here()} is a keyword of C and no name; {wanted}")
        return self.step()


KEYWORDS = frozenset("""
    auto break case char const continue default do double else enum extern float for goto if int long register return short signed sizeof
    static struct switch typedef union unsigned void volatile while inline restrict _Bool __int128 _Float32 _Float32x _Float64 _Float64x
    _Float128 __float128 __builtin_va_list __builtin_va_arg __builtin_offsetof""".split())
BASIC = frozenset("""
    void char short int long float double signed unsigned _Bool __int128 _Float32 _Float32x _Float64 _Float64x _Float128 __float128
    __builtin_va_list""".split())
