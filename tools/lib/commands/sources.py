"""A C file of the list on its way: preprocessed, read by metalcheck as it is or made readable, or left out with a reason."""
import re
import subprocess

from silenced.comments import commented_files, from_json

from . import program, unread
from .entries import preprocessing

FIRST_MARKER = re.compile(r'# \d+ "((?:\\.|[^"\\])*)"')


class Source:
    """A C file: its name, its preprocessed file, the text that is checked, why there is none, if so, and what was said on the way."""

    def __init__(self, name, path):
        self.name = name
        self.path = path
        self.text = path
        self.why = None
        self.said = []
        self.commented = []

    def preprocess(self, entry, more=()):
        """Preprocesses the file by the command of its entry, with these words more."""
        command = preprocessing(entry) + list(more)
        try:
            done = subprocess.run(command, cwd=entry.get("directory") or ".", capture_output=True)
        except OSError as fault:
            self.why = f"not preprocessed: {fault}"
            return
        if done.returncode != 0:
            lines = program.text(done.stderr).splitlines()
            self.why = "not preprocessed: " + (lines[0] if lines else f"status {done.returncode}")
            return
        with open(self.path, "wb") as file:
            file.write(done.stdout)
        self.commented = commented_files(self.path, entry.get("directory") or "")

    def accept(self):
        """Asks metalcheck without a checker whether it reads the file."""
        done = program.run([self.path])
        if done.returncode != 0:
            self.why = program.text(done.stderr)

    def make_readable(self, options, out):
        """Has tools/readable write a text that metalcheck reads. One that it reads already stays as it is."""
        lines, made = program.run_readable(options, self.path, out)
        if made:
            self.text, self.said = out, unread.worth_saying(lines, self.path, self.name)
        else:
            self.why = "not readable: " + unread.fault(lines, self.path)

    def readable_path(self):
        """Where a text goes that is made of the file."""
        return self.path[:-len(".i")] + ".readable.i"

    def main_file(self):
        """The name of the file as reports and tools/readable have it: the one in the first line of the preprocessed file."""
        with open(self.path, encoding="utf-8", errors="replace") as file:
            found = FIRST_MARKER.match(file.readline())
        return found[1] if found else self.name

    def unread_functions(self):
        """The functions of the file that aren't read, as pairs of file and function."""
        return [pair for pair in map(unread.named, self.said) if pair]

    def kept(self):
        """What is kept of the file in a form that can be written as JSON."""
        return {"name": self.name, "path": self.path, "text": self.text, "why": self.why, "said": self.said,
                "commented": self.commented}


def from_kept(kept):
    """The file of which this was kept."""
    source = Source(kept["name"], kept["path"])
    source.text, source.why, source.said = kept["text"], kept["why"], kept["said"]
    source.commented = from_json(kept["commented"])
    return source
