"""Copies of the crates in which a piece of the engine is another, tried over the cases that judge files of their own in one run. `rt try` builds
and runs such a copy, without a proof; it has to write what those cases want, which checks/cases wants of the program itself. The folders of
cases for large files and for what stands before the engine are left out, and so are cases whose files name themselves by line markers, since
all cases are run in one folder, under other names."""
import os
import re
import shutil
import subprocess
import sys
import tempfile

from scripts import cases as script

from program import ROOT

CASES = script()
BESIDE = {"large", "generated", "links", "usage", "words", "writing", "formats", "syntax", "strange", "shared", "types", "tokens", "reading"}
DEEP = {"checkers/pattern_height", "checkers/pattern_too_high"}  # more stack than the checks of `rt try` leave
MARKER = re.compile(rb'^#[ \t]*(line[ \t]+)?[0-9]+[ \t]+"', re.MULTILINE)


def replaced(text, old, new):
    """A text with another piece in place of one that stands in it once."""
    if text.count(old) != 1:
        raise ValueError(f"this stands there {text.count(old)} times, not once: {old}")
    return text.replace(old, new)


def edit(path, old, new):
    """The same of a file."""
    with open(path, encoding="utf-8") as file:
        text = file.read()
    with open(path, "w", encoding="utf-8") as file:
        file.write(replaced(text, old, new))


def copy(scratch):
    """A copy of the crates."""
    for name in ("crates.txt", "HANDLES"):
        shutil.copy(os.path.join(ROOT, name), scratch)
    for name in os.listdir(os.path.join(ROOT, "crates")):
        for part in ("src", "specs", "proofs"):
            one = os.path.join("crates", name, part)
            if os.path.isdir(os.path.join(ROOT, one)):
                shutil.copytree(os.path.join(ROOT, one), os.path.join(scratch, one))


def numbered(name, folder, files):
    """A word or a text with the names of a case's files behind their folder's."""
    for file in sorted(files, key=len, reverse=True):
        name = re.sub(r"(?<![\w/.])" + re.escape(file) + r"(?=[:\s]|$)", f"{folder}/{file}", name)
    return name


def has_marker(path):
    """Whether a file has a line marker that names a file."""
    with open(path, "rb") as file:
        return MARKER.search(file.read()) is not None


def add(name, folder, data, tried):
    """Adds a case to those that are tried, and says which files it has; none where it isn't one run over files of its own."""
    os.makedirs(data)
    try:
        words, (out, errs, _), rows, rooms = CASES.read(os.path.join(CASES.CASES, name + ".case"), data)
    except (OSError, ValueError):
        return []
    files = os.listdir(data)
    if rows or rooms or errs or not any(word in files for word in words) or any("/" in word for word in words):
        return []
    if any(has_marker(os.path.join(data, file)) for file in files):
        return []
    at = os.path.join(tried, name.replace("/", "__"))
    for end, text in (("", ""), (".args", "".join(numbered(word, folder, files) + "\n" for word in words)), (".stdout", numbered(out.decode(), folder, files))):
        with open(at + end, "w", encoding="utf-8") as file:
            file.write(text)
    return [(f"{folder}/{file}", os.path.join(data, file)) for file in files]


def compare(name, change):
    """Changes a copy of the crates, tries it over the cases that are named, or all, and says under this name how many agree. The exit status."""
    names = sys.argv[1:] or [it for it in CASES.all_cases() if it.split("/")[0] not in BESIDE and it not in DEEP]
    with tempfile.TemporaryDirectory() as scratch:
        copy(scratch)
        change(scratch)
        tried = os.path.join(scratch, "tried")
        os.makedirs(tried)
        data = []
        for number, case in enumerate(names):
            data += add(case, f"c{number}", os.path.join(scratch, "data", f"c{number}"), tried)
        count = sum(it.endswith(".stdout") for it in os.listdir(tried))
        if not count:
            print(f"{name}: none of these cases is one run over files of its own", file=sys.stderr)
            return 2
        words = [word for one, path in data for word in ("--data", f"{one}={path}")]
        done = subprocess.run(["rt", "try", "--cases", tried, *words], cwd=os.path.join(scratch, "crates", "metalcheck"),
                              capture_output=True, text=True, check=False)
    print(done.stdout, end="")
    print(done.stderr, end="", file=sys.stderr)
    print(f"{name}: {count} cases, " + ("the same reports" if done.returncode == 0 else f"rt try ends with {done.returncode}"))
    return 1 if done.returncode else 0
