"""Runs metalcheck, hands on what it writes and its status, and says more on standard error."""
import os
import re
import sys

from metalcheck import ANSWERS, NoProgram, run_awaited

from . import c_files, checkers, words as command_words
from .graphs import graph_of, rules_of
from .hints import hints_of
from .machine import Machine
from .names import path_of, shown_name
from .reports import Places
from .shown import place

REFUSED = re.compile(r"(.*):(\d+): refused: (\w+)\Z", re.S)
NOT_READ = re.compile(r"(.*): not read\Z", re.S)
ENDS = {5: "not all could be written: is standard output closed, or the disk full?",
        6: "there was no memory: run fewer files or checkers at a time, or with a smaller --depth (docs/COMMAND.md, Which depth)"}


def as_bytes(lines):
    """Lines as they are written: each character is a byte."""
    return b"".join(line.encode("latin-1", "replace") + b"\n" for line in lines)


def write(lines, out):
    """Writes lines to a stream of bytes."""
    out.write(as_bytes(lines))
    out.flush()


def files_among(words):
    """The checkers and the C files among the words of a command."""
    files, _ = command_words.files_of(words)
    if isinstance(files, str):
        return [], []
    return [word for word in files if word.endswith(".metal")], [word for word in files if not word.endswith(".metal")]


def readable(paths):
    """Those of these files that are there."""
    return [path for path in paths if os.path.isfile(path) and os.access(path, os.R_OK)]


def refusal(line, checker_paths, c_paths, kept=True):
    """The lines that explain a line of refusal; none for any other line. The C files may be some that aren't kept."""
    found = REFUSED.match(line)
    if not found:
        return []
    file, number, name = found[1], int(found[2]), found[3]
    if path_of(file) in checker_paths:
        return checkers.explained(path_of(file), number, name)
    return c_files.explained(readable(c_paths), file, number, name, kept)


def not_read(line):
    """Why the system may have given no contents for the file that a line names."""
    found = NOT_READ.match(line)
    if not found:
        return []
    path = path_of(found[1])
    if os.path.isdir(path):
        return [f"  {found[1]} is a folder: name the files in it"]
    if not os.path.exists(path):
        return [f"  there is no file {found[1]}: mind the folder you are in"]
    return [f"  {found[1]} is there and can't be read: look at its rights"]


def hints(checker_paths, c_paths):
    """The lines of the hints on checkers that were accepted."""
    texts, lines = [], []
    for path in readable(c_paths):
        with open(path, encoding="latin-1", newline="") as file:
            texts.append(file.read())
    for path in checker_paths:
        with open(path, encoding="latin-1", newline="") as file:
            machine = Machine(file.read())
        for at, says in hints_of(machine, texts, len(checker_paths) == 1):
            lines += place(shown_name(path), machine.text, machine.tokens[at].at, "hint: " + says)
    return lines


def why(status, errors, words, kept=True):
    """The lines that explain a run that gave no answer."""
    checker_paths, c_paths = files_among(words)
    if status == 2:
        return ["  " + shown_name(command_words.explained(words))]
    if status == 3:
        return refusal(errors, checker_paths, c_paths, kept)
    if status == 4:
        return not_read(errors)
    return ["  " + ENDS[status]] if status in ENDS else []


def show_reports(lines, paths, folders=("",)):
    """Writes these lines of output, with the line of the source behind each report of these preprocessed files."""
    places = Places(readable(paths), [plain(line) for line in lines], folders)
    for line in lines:
        sys.stdout.buffer.write(line)
        sys.stdout.buffer.flush()
        write(places.shown(plain(line)), sys.stderr.buffer)


def plain(line):
    """A line of output as text, without its end."""
    return line.decode("latin-1").rstrip("\n")


def explanation(done, words, kept=True):
    """The lines that explain how a run of these words ended: hints on its checkers, or why there is no answer."""
    if done.returncode in ANSWERS:
        return hints(*files_among(words))
    return why(done.returncode, done.stderr.decode("latin-1").rstrip("\n"), words, kept)


def run_program(words):
    """A run of metalcheck; where there is none, the end of this program with status 5."""
    try:
        return run_awaited(words)
    except NoProgram as fault:
        print(fault, file=sys.stderr)
        raise SystemExit(5) from fault


def explain(words):
    """Runs metalcheck with these words, and gives its status."""
    done = run_program(words)
    show_reports(done.stdout.splitlines(keepends=True), files_among(words)[1])
    sys.stderr.buffer.write(done.stderr)
    write(explanation(done, words), sys.stderr.buffer)
    return done.returncode


def drawn(path, draw):
    """Prints what `draw` makes of a checker, and gives the status."""
    try:
        with open(path, encoding="latin-1", newline="") as file:
            machine = Machine(file.read())
    except OSError as fault:
        print(f"explain: {path}: {fault.strerror}: name a checker, as examples/free.metal", file=sys.stderr)
        return 2
    if machine.bad_token or machine.fault:
        name = machine.bad_token.name if machine.bad_token else "Syntax"
        write([f"explain: {shown_name(path)} is no checker", *checkers.explained(path, None, name)], sys.stderr.buffer)
        return 2
    write(draw(machine), sys.stdout.buffer)
    return 0


def main(usage):
    """The command: `--rules` and `--dot` with a checker, else words of metalcheck."""
    words = sys.argv[1:]
    if not words or words in (["-h"], ["--help"]):
        print(usage.strip(), file=sys.stdout if words else sys.stderr)
        return 0 if words else 2
    if words[0] in ("--rules", "--dot"):
        if len(words) != 2:
            print(f"explain: {words[0]} wants one checker behind it, and nothing else", file=sys.stderr)
            return 2
        return drawn(words[1], rules_of if words[0] == "--rules" else graph_of)
    return explain(words)
