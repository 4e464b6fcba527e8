"""The types of the members of structs and unions, read from their declarations in the file."""
from .tokens import NOWHERE
from .words import CLOSING, OPENING, QUALIFIERS, WORD

COMPOUND = {"struct", "union"}


class Members:
    """The structs and unions of a text, by tag or by the name of a typedef. Their members are read once they are asked for."""

    def __init__(self, source, names):
        self.texts, self.names = source.texts, names
        self.bodies = {}
        self.read = {}
        for chunk in source.chunks:
            if self.texts[chunk.first] == "typedef" and self.texts[chunk.first + 1] in COMPOUND:
                self._typedef(chunk)
        for k in [k for k, text in enumerate(self.texts) if text in COMPOUND]:
            if self.texts[k + 2:k + 3] == ["{"]:
                self.bodies.setdefault(self.texts[k + 1], k + 2)

    def _typedef(self, chunk):
        """`typedef struct { .. } NAME;` and `typedef struct TAG NAME;`."""
        name = self.texts[chunk.behind - 2]
        body = next((k for k in (chunk.first + 2, chunk.first + 3) if self.texts[k] == "{"), None)
        if body is not None or chunk.behind == chunk.first + 5:
            self.bodies[name] = body if body is not None else self.texts[chunk.first + 2]

    def of(self, words, member):
        """The words, the stars, and whether it is an array, of a member of the type with these words; or None."""
        body = self.bodies.get(words[-1]) if len(words) == 1 or words[0] in COMPOUND else None
        body = self.bodies.get(body) if isinstance(body, str) else body
        if body is None:
            return None
        if body not in self.read:
            self.read[body] = {}
            self._read(body + 1, self.read[body])
        return self.read[body].get(member)

    def _read(self, k, found):
        """Reads the declarations from k on, up to the brace that ends them."""
        while self.texts[k] != "}":
            k += self.texts[k] in QUALIFIERS and self.texts[k + 1] in COMPOUND
            behind = self._end(k, ";")
            inner = next((at for at in (k + 1, k + 2) if self.texts[at] == "{"), None) if self.texts[k] in COMPOUND else None
            if inner is None:
                self._declaration(self.texts[k:behind], found)
            elif self.texts[behind - 1] == "}":
                self._read(inner + 1, found)
            elif inner == k + 2:
                self._declaration(self.texts[k:inner] + self.texts[self._end(inner + 1, "}") + 1:behind], found)
            k = behind + 1

    def _end(self, k, wanted):
        """The index of the first token from k on that has a spelling and stands in no bracket."""
        depth = 0
        while depth or self.texts[k] != wanted:
            depth += (self.texts[k] in OPENING) - (self.texts[k] in CLOSING)
            k += 1
        return k

    def _declaration(self, texts, found):
        """Reads the plain declarators of a declaration."""
        k = 0
        while k < len(texts) and self.names.is_specifier(texts, k):
            k += 1
        words = [text for text in texts[:k] if text not in QUALIFIERS]
        for declarator in divided(texts[k:]):
            name = next((at for at, text in enumerate(declarator) if text != "*" and text not in QUALIFIERS), NOWHERE)
            following = declarator[name + 1:name + 2] if name != NOWHERE else None
            if words and name != NOWHERE and WORD.match(declarator[name]) and following in ([], [":"], ["["]) \
                    and declarator.count("[") < 2:
                found[declarator[name]] = words, declarator[:name].count("*"), following == ["["]


def divided(texts):
    """The declarators between commas that stand in no bracket."""
    found, depth = [[]], 0
    for text in texts:
        depth += (text in OPENING) - (text in CLOSING)
        if text == "," and depth == 0:
            found.append([])
        else:
            found[-1].append(text)
    return found
