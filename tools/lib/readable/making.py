"""One file from its bytes to a text that is read, with a record of what became of it."""
import gc
import os
import tempfile
from collections import Counter

from .asking import Program
from .chunks import GONE, TRIMMED, WHOLE, Source
from .judging import Judge, NotRead
from .names import names_of
from .places import unescaped
from .preparing import keep_plain_loops, prepare
from .rewriting.classes import APPROXIMATION

MOST_BYTES = 16777216
STATEMENT_EXPRESSION = "({"


class Options:
    """What is asked for."""

    def __init__(self, prune=False, rewrite=True, plain_loops=False, always=False):
        self.prune, self.rewrite, self.plain_loops, self.always = prune, rewrite, plain_loops, always


class Unread:
    """A function or declaration that isn't read: its presumed file and line, its name, and the reasons."""

    def __init__(self, source, chunk, path):
        file, self.line = source.places.line(source.body_at(chunk))
        self.file = path if file is None else unescaped(file)
        self.name, self.reasons = chunk.name, chunk.reasons()


class Record:
    """What became of a file. Where `fault` says why there is no text, nothing else counts."""

    def __init__(self, path):
        self.path = path
        self.text = self.fault = None
        self.as_it_is = False
        self.functions = self.header_functions = self.header_unread = self.pruned = self.trimmed = self.header_declarations = 0
        self.unread, self.declarations, self.cleanups = [], [], []
        self.classes = Counter()
        self.runs = 0

    def approximations(self):
        """The classes that are approximations, with their numbers."""
        return {name: number for name, number in sorted(self.classes.items()) if name in APPROXIMATION}

    def reasons(self):
        """How many functions of the main file aren't read for each reason."""
        return Counter(reason for one in self.unread for reason in one.reasons)

    def status(self):
        """The status of the command for this file."""
        return 3 if self.text is None else 1 if self.unread else 0


def make_readable(path, options=None, program=None):
    """The record of a file. The program is asked whether it reads the text, and there is none that it doesn't read."""
    options, program = options or Options(), program or Program()
    record, before = Record(path), program.runs
    collects = gc.isenabled()
    gc.disable()    # what is made of a text has no cycles, and looking for them takes a fifth of the time
    try:
        with tempfile.TemporaryDirectory(prefix="readable") as folder:
            make(record, options, program, folder)
    except (NotRead, OSError) as fault:
        record.text = None
        record.fault = getattr(fault, "strerror", None) or str(fault)
    finally:
        if collects:
            gc.enable()
    record.runs = program.runs - before
    return record


def make(record, options, program, folder):
    """Fills a record."""
    text = contents(record.path)
    # what surely isn't read is looked at without a question
    leaves_out = options.prune and not options.plain_loops
    source = Source(text, leaves_out) if options.always or STATEMENT_EXPRESSION in text else None
    asks = not options.always and not (source and source.has_statement_expression)
    record.as_it_is = asks and program.refusal(record.path) is None
    if record.as_it_is and not options.plain_loops:
        record.text = text
        return
    source = source or Source(text, leaves_out)
    if source.fault:
        raise NotRead(source.fault)
    names = names_of(source)
    if record.as_it_is:
        make_loops_plain(source, names)
    else:
        prepare(source, names, options)
    # mostly what surely isn't read is all that isn't, so that one question is enough
    record.text = Judge(source, names, program, folder).settled()
    note(record, source)


def contents(path):
    """The bytes of a file, each as a character."""
    if os.path.getsize(path) > MOST_BYTES:
        raise NotRead(f"larger than {MOST_BYTES} bytes, the most that is read; leave headers out, or divide it")
    with open(path, encoding="latin-1", newline="") as file:
        text = file.read()
    if not text:
        raise NotRead("empty; was it preprocessed?")
    if "\0" in text:
        raise NotRead("no text: it has bytes that are 0")
    return text


def make_loops_plain(source, names):
    """Rewrites the loops that run once in a file that is read as it is."""
    for chunk in source.chunks:
        if chunk.is_function() and "do" in source.own_texts(chunk):
            keep_plain_loops(source, names, chunk)


def note(record, source):
    """Notes what became of each chunk."""
    for chunk in source.chunks:
        if chunk.state in (WHOLE, TRIMMED):
            record.classes.update(chunk.classes)
        if chunk.state == TRIMMED:
            record.trimmed += 1
        if chunk.is_function():
            note_function(record, source, chunk)
        elif chunk.state == GONE and source.in_main(chunk):
            record.declarations.append(Unread(source, chunk, record.path))
        elif chunk.state == GONE:
            record.header_declarations += 1


def note_function(record, source, chunk):
    """Notes what became of a function."""
    main = source.in_main(chunk)
    record.functions += main
    record.header_functions += not main
    if chunk.pruned:
        record.pruned += 1
    elif chunk.state != WHOLE and main:
        record.unread.append(Unread(source, chunk, record.path))
    elif chunk.state != WHOLE:
        record.header_unread += 1
    elif chunk.cleanup and main:
        record.cleanups.append(Unread(source, chunk, record.path))
