"""A run of `tools/check_commands` as a list of steps, each of which takes the run a little further."""
import concurrent.futures
import os
import sys

from . import explaining, groups, program, telling, unread
from .entries import base_name, entries
from .progress import each
from .silencing import Silenced
from .sources import Source
from .words import program_options, readable_options


class Run:
    """What a run was asked for, and what it has found so far."""

    def __init__(self, words, folder):
        self.words = words
        self.entries = entries(words.commands, words.only)
        self.sources = [Source(entry["file"], os.path.join(folder, base_name(entry, f"{number:04}") + ".i"))
                        for number, entry in enumerate(self.entries)]
        self.known = unread.known_functions(words.known_unread)
        self.groups = []
        self.silenced = None
        self.pool = None

    def good(self):
        """The files that can be checked."""
        return [source for source in self.sources if source.why is None]


def preprocess(run):
    """Each file by its own compiler and options."""
    each(run.pool, "preprocessed", lambda pair: pair[0].preprocess(pair[1]), list(zip(run.sources, run.entries)))


def read(run):
    """Which files metalcheck reads; with --readable texts that it reads, made of those that it refuses."""
    if run.words.readable:
        options = readable_options(run.words)
        each(run.pool, "made readable", lambda source: source.make_readable(options, source.readable_path()), run.good())
    else:
        each(run.pool, "read", Source.accept, run.good())


def tell_files(run):
    """What was left out, before the work that takes long."""
    say(telling.file_lines(run.sources, run.known, explaining.refusal_lines if run.words.explain else None))


def group(run):
    """Which files go into one run."""
    if run.words.together:
        run.groups, repeating = groups.groups(run.good())
        say(telling.repeating_lines(source.name for source in repeating))
    else:
        run.groups = [[source] for source in run.good()]


def check(run):
    """The reports of all groups, each once."""
    words = [*program_options(run.words), *run.words.checkers]
    found = each(run.pool, "checked", lambda group: program.reports(words, [source.text for source in group]), run.groups)
    run.silenced = Silenced(telling.distinct(found), run.words.checkers, run.sources, run.words.json)


def tell_reports(run):
    """The reports, and the counts."""
    if run.words.explain:
        explaining.show(run.silenced.written, run.good(), run.entries, run.words.checkers)
    else:
        sys.stdout.buffer.writelines(run.silenced.written)
        sys.stdout.flush()
    say(run.silenced.told() + telling.count_lines(run.sources, run.silenced.reports, run.known, run.silenced.counted()))


def say(lines):
    """Lines on standard error."""
    for line in lines:
        print(line, file=sys.stderr)


STEPS = [preprocess, read, tell_files, group, check, tell_reports]


def check_commands(words, folder):
    """Takes all steps with this folder for the files in between, and gives the status."""
    run = Run(words, folder)
    with concurrent.futures.ThreadPoolExecutor(words.jobs) as run.pool:
        for step in STEPS:
            step(run)
    return telling.status(run.sources, run.silenced.reports, run.known)
