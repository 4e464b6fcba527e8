"""A preprocessed file of a program: the text of it that is read, and what checkers report there. Both are kept from call to call."""
import json
import os
import subprocess

from commands import kept
from metalcheck import ANSWERS, NoProgram, run_proved
from readable.asking import ProgramFailed
from readable.making import Options, make_readable
from silenced.silencer import checker_names

from .checkers import runs_of

AS_IT_IS, READABLE, NOT_READ = "as it is", "readable", "not read"


class Failed(Exception):
    """The program gave no answer; the text says to what."""


class File:
    """A preprocessed file with what is known of it, in the folder of its program: `how` it is read, and reports by the keys of checkers.

    `tools` is a number for the programs that made what is kept, `prune` an option of tools/readable. `unended` are the checkers that didn't
    end in their time; of them nothing is kept.
    """

    def __init__(self, path, folder, tools, prune=False):
        self.path, self.prune, self.unended = path, prune, []
        self.program = program_of(path)
        own = os.path.join(folder, self.program)
        os.makedirs(own, exist_ok=True)
        self.made = os.path.join(own, os.path.basename(path))
        self.record = self.made[:-len(".i")] + ".json"
        self.known = self.kept(kept.digest(path) + tools + (" pruned" if prune else ""))

    def kept(self, key):
        """What an earlier call has found out of this file by these programs; else nothing yet."""
        try:
            known = kept.read_json(self.record)
        except (OSError, ValueError):
            known = {}
        return known if known.get("key") == key else {"key": key, "how": None, "why": None, "reports": {}}

    def read(self):
        """Finds out how the file is read, and makes a readable text of one that isn't read as it is."""
        if self.known["how"]:
            return
        try:
            record = make_readable(self.path, Options(self.prune))
        except ProgramFailed as fault:
            raise Failed(f"{self.path}: {fault}") from fault
        self.known["how"] = AS_IT_IS if record.as_it_is else NOT_READ if record.text is None else READABLE
        self.known["why"] = record.fault
        if self.known["how"] == READABLE:
            kept.write(self.made, record.text.encode("latin-1"))

    def check(self, checkers, seconds):
        """Runs those of the checkers whose reports aren't known yet, and keeps what is found."""
        self.read()
        if self.known["how"] != NOT_READ:
            for some in runs_of([one for one in checkers if one.key not in self.known["reports"]]):
                self.known["reports"].update(self.run(some, seconds))
        kept.write_json(self.record, self.known)

    def run(self, checkers, seconds):
        """The reports of checkers of one depth, by their keys: in one run, or, where that doesn't end in its time, in a run for each."""
        try:
            return self.reports_of(checkers, seconds)
        except subprocess.TimeoutExpired:
            if len(checkers) > 1:
                return {key: value for one in checkers for key, value in self.run([one], seconds).items()}
            self.unended.append(os.path.basename(checkers[0].path)[:-len(".metal")])
            return {}

    def reports_of(self, checkers, seconds):
        """One run of checkers of one depth: the reports of each, by its key."""
        text = self.path if self.known["how"] == AS_IT_IS else self.made
        words = ["--format", "json", *checkers[0].depth, *(one.path for one in checkers), text]
        found = [json.loads(line) for line in answer(words, seconds)]
        names = checker_names([one.path for one in checkers])
        return {one.key: [(name, f"{it['file']}:{it['line']}", it["message"]) for it in found if it["checker"] == name]
                for one, name in zip(checkers, names)}

    def reports(self, checkers):
        """The reports of the checkers, each with the program, the checker, the place and the message."""
        return [(self.program, *it) for one in checkers for it in self.known["reports"].get(one.key, [])]


def program_of(path):
    """The program to which a preprocessed file belongs."""
    return os.path.basename(os.path.dirname(os.path.dirname(os.path.abspath(path))))


def answer(words, seconds):
    """The lines of a run of metalcheck over a text that it reads; subprocess.TimeoutExpired where it doesn't end in its time."""
    try:
        done = run_proved(words, seconds=seconds)
    except NoProgram as fault:
        raise Failed(str(fault)) from fault
    if done.returncode not in ANSWERS:
        said = done.stderr.decode("utf-8", "replace").strip()
        raise Failed(f"metalcheck ended with status {done.returncode} on {words[-1]}" + (f": {said}" if said else ""))
    return done.stdout.decode().splitlines()


def judged_file(path, folder, tools, checkers, prune=False, seconds=None):
    """What the checkers report of a file, how it is read, with the reason where it isn't, and which checkers didn't end in their time. It
    runs in a process of its own."""
    file = File(path, folder, tools, prune)
    file.check(checkers, seconds)
    return file.reports(checkers), file.known["how"], file.known["why"], file.unended
