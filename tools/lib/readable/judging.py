"""The second step: metalcheck is asked about the text, and what it refuses is cut, until it reads all that is left.

The question is the text that is to be written. Mostly the place of a refusal says which chunk is refused. Where several stand there, or
refusals are many, each chunk gets a presumed file of its own, so that a refusal names it."""
import os

from .chunks import GONE, TRIMMED, WHOLE
from .cutting import cut, names_that_are_lost, prototype, trim_those_that_name
from .losing import cut_what_rests
from .tokens import spellings
from .writing import Writer

# faults that come before any fault of types, wherever they stand: what stands in front of them may still have one
EARLY_FAULTS = {"BadByte", "OpenText", "BadNumber", "BadMarker", "Syntax", "TooLarge"}
DUPLICATE = "DuplicateFunction"
MOST_PLACES = 3


class NotRead(Exception):
    """No text can be made of a file, for the reason that is given."""


class Judge:
    """What is asked about a text."""

    def __init__(self, source, names, program, folder):
        self.source, self.names, self.program, self.folder = source, names, program, folder
        self.writer = Writer(source)
        self.by_place = 0

    def settled(self):
        """The text, after cutting until the program reads it."""
        cut_what_rests(self.source, self.names)
        while not self.source.chunks or any(chunk.state != GONE for chunk in self.source.chunks):
            text = self.writer.text()
            refusal = self._refusal("written.i", text)
            if refusal is None:
                return text
            if not self._mended(refusal) and not self._mended_by_chunk():
                raise NotRead(f"what can be made of it is refused at {refusal.file}:{refusal.line}: {refusal.fault}")
        raise NotRead("nothing in it is read; is it preprocessed C?")

    def _refusal(self, name, text):
        """What the program says of a text."""
        path = os.path.join(self.folder, name)
        with open(path, "w", encoding="latin-1", newline="") as file:
            file.write(text)
        return self.program.refusal(path)

    def _mended(self, refusal):
        """Cuts what is refused, where its place says what that is. Says whether it does."""
        if refusal.fault == DUPLICATE and self._cut_duplicates():
            return True
        found = self.source.standing_at(refusal.file, refusal.line) if self.by_place < MOST_PLACES else []
        self.by_place += 1
        if len(found) == 1:
            self._cut(found[0], refusal.fault)
        return len(found) == 1

    def _cut_duplicates(self):
        """Leaves one body of each name, where no body has a fault of its own. Says whether one was cut."""
        by_name, found = {}, False
        for chunk in self.source.chunks:
            if chunk.is_function():
                by_name.setdefault(chunk.name, []).append(chunk)
        for same in by_name.values():
            while len(whole := [chunk for chunk in same if chunk.state == WHOLE]) > 1:
                self._cut(self._least_wanted(whole), DUPLICATE)
                found = True
        return found

    def _least_wanted(self, same):
        """Of functions of one name the second, if it is a header's; else the first of a header, or the second where there is none."""
        of_headers = [one for one in same if not self.source.in_main(one)]
        return same[1] if same[1] in of_headers or not of_headers else of_headers[0]

    def _cut(self, chunk, fault):
        """Cuts one step what is refused, and what rests on it."""
        cut(self.source, self.names, chunk, fault)
        if chunk.state == TRIMMED:
            trim_those_that_name(self.source, self.names, names_that_are_lost(self.source))
        cut_what_rests(self.source, self.names)

    def _mended_by_chunk(self):
        """Asks about chunks and cuts what is refused: one at first, and all of it where that was often. Says whether anything was."""
        read, cut_any = 0, False
        while (asked := self._asked(read)) is not None:
            k, fault = asked
            if fault != DUPLICATE or not self._cut_duplicates():
                self._cut(self.source.chunks[k], fault)
            if self.by_place < MOST_PLACES:
                return True
            read, cut_any = read if fault in EARLY_FAULTS | {DUPLICATE} else k, True
        return cut_any

    def _asked(self, read):
        """The index of the chunk that is refused and the fault, or None. What stands in front of an index was read."""
        pieces = [f'# 1 "{k}"\n{self._spelled(chunk, k < read)}\n' for k, chunk in enumerate(self.source.chunks) if chunk.state != GONE]
        refusal = self._refusal("asked.i", "".join(pieces))
        if refusal is None:
            return None
        if not refusal.file.isdigit():
            raise NotRead(f"refused as a whole: {refusal.fault}")
        return int(refusal.file), refusal.fault

    def _spelled(self, chunk, was_read):
        """The spellings of a chunk, of a function that was read without its body."""
        if was_read and chunk.is_function() and chunk.state == WHOLE and (head := prototype(self.source, chunk)) is not None:
            return " ".join(spellings(head))
        return self.source.spelled(chunk)
