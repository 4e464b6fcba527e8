"""What a text declares at file scope, read from the shape of its declarations: names of types, and the types of plain variables."""
from .chunks import DECLARATION
from .members import Members
from .words import CLOSING, OPENING, QUALIFIERS, STORAGE, TAGGED, TYPE_WORDS, WORD, is_name

BUILT_IN = {"__builtin_va_list", "__int128_t", "__uint128_t"}
LONGEST_VARIABLE = 60


class Names:
    """The names that are types, those that are numbers among them, and for plain variables of the file the words and stars of their types,
    and whether they are arrays."""

    def __init__(self, source):
        self.source = source
        self.types, self.numbers, self.variables = set(BUILT_IN), set(), {}
        self._members = self._chunks = None

    def member(self, words, name):
        """The same of a member of the struct or union with these words, or None."""
        if self._members is None:
            self._members = Members(self.source, self)
        return self._members.of(words, name)

    def returned(self, name):
        """The same of what a function gives back, or None."""
        if self._chunks is None:
            self._chunks = {}
            for chunk in self.source.chunks:
                self._chunks.setdefault(chunk.name, []).append(chunk)
        found = (self._returned(self.source.own_texts(chunk), name) for chunk in self._chunks.get(name, []))
        return next((one for one in found if one is not None), None)

    def _returned(self, texts, name):
        """The same of a declaration or definition with these spellings, or None where it isn't that of a function of this name."""
        k, words = 0, []
        while k < len(texts) and (texts[k] in STORAGE or self.is_specifier(texts, k)):
            words += [texts[k]] if texts[k] not in STORAGE and texts[k] not in QUALIFIERS else []
            k += 1
        named = behind_stars(texts, k)
        return (words, texts[k:named].count("*"), False) if words and texts[named:named + 2] == [name, "("] else None

    def is_type(self, text):
        """Whether a word begins or continues a type name, `typeof` and the like apart."""
        return text in TYPE_WORDS or text in QUALIFIERS or text in self.types

    def is_specifier(self, texts, k):
        """Whether the word at k is one of a type name, tags among them."""
        return self.is_type(texts[k]) or (k > 0 and texts[k - 1] in TAGGED and WORD.match(texts[k]) is not None)


def names_of(source):
    """What the chunks of a text declare."""
    found = Names(source)
    for chunk in source.chunks:
        if source.texts[chunk.first] == "typedef":
            texts = source.own_texts(chunk)
            found.types |= typedef_names(texts)
            if is_of_number(texts[1:-2], found.numbers):
                found.numbers.add(texts[-2])
    for chunk in source.chunks:
        if chunk.kind == DECLARATION and chunk.behind - chunk.first <= LONGEST_VARIABLE:
            variable = plain_variable(source.own_texts(chunk), found)
            if variable is not None:
                found.variables[variable[0]] = variable[1:]
    return found


def is_of_number(texts, numbers):
    """Whether the words between `typedef` and its one name are those of a number."""
    if not texts or texts == ["void"]:
        return False
    return all(text in TYPE_WORDS and text not in TAGGED or text in QUALIFIERS or text in numbers for text in texts)


def typedef_names(texts):
    """The names that a typedef declares: those before `,`, `;`, `[` and `(` in no bracket, and those in `( * NAME`."""
    found, depth = set(), 0
    for k in range(1, len(texts)):
        text, before = texts[k], texts[k - 1]
        if depth == 0 and is_name(before) and (text in (",", ";") or text in ("(", "[") and k > 1):
            found.add(before)
        if depth == 0 and text == "(" and k + 2 < len(texts) and texts[k + 1] == "*":
            named = behind_stars(texts, k + 1)
            if named < len(texts) and WORD.match(texts[named]):
                found.add(texts[named])
        depth += (text in OPENING) - (text in CLOSING)
    return found


def behind_stars(texts, k):
    """The index behind stars and qualifiers."""
    while k < len(texts) and (texts[k] == "*" or texts[k] in QUALIFIERS):
        k += 1
    return k


def plain_variable(texts, names):
    """The name and what `Names` keeps of it, of a declaration of one variable by words, stars and its name, or None."""
    if texts[0] == "typedef" or not {"(", "{", ","}.isdisjoint(texts):
        return None
    k, words = 0, []
    while k < len(texts) and (texts[k] in STORAGE or is_type_word(texts, k, words, names)):
        if texts[k] not in STORAGE and texts[k] not in QUALIFIERS:
            words.append(texts[k])
        k += 1
    name = behind_stars(texts, k)
    if not words or name + 1 >= len(texts) or not WORD.match(texts[name]) or texts[name + 1] not in (";", "=", "["):
        return None
    return texts[name], words, texts[k:name].count("*"), texts[name + 1] == "["


def is_type_word(texts, k, words, names):
    """Whether the word at k belongs to a type of which these words stand already."""
    text = texts[k]
    if k and texts[k - 1] in TAGGED:
        return True
    return text in QUALIFIERS or text in TYPE_WORDS or (not words and text in names.types)
