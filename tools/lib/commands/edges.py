"""What the commands of a written build file do: `python3 -m commands.edges STEP ..`, in the folder of the build.

The files there: entries/N.json is an entry of the list of commands; files/N.made says what became of preprocessing it, and files/N.i
has the text; files/N.read says whether it is checked and by which text; programs/K lists the groups of files of a run (--together);
found/N or found/K has reports; run.json says what all of it was asked for.
"""
import os
import sys

from . import depfile, groups, kept, program, telling, unread
from .silencing import Silenced
from .sources import Source, from_kept

NEVER = "files/never"


def preprocess(entry_path, made):
    """Preprocesses the file of an entry, and tells ninja on which files that depends."""
    entry = kept.read_json(entry_path)
    path = os.path.splitext(made)[0] + ".i"
    source = Source(entry["file"], path + ".new")
    found = os.path.abspath(made + ".found")
    source.preprocess(entry, ["-MD", "-MF", found, "-MT", "text"])
    with open(made + ".d", "w", encoding="utf-8", errors="surrogateescape") as file:
        file.write(depfile.written(made, depends_on(source, entry, found)))
    kept.write(path, taken(source.path) if source.why is None else b"")
    source.path = source.text = path
    kept.write_json(made, source.kept())


def depends_on(source, entry, found):
    """The files that were read. Where the compiler failed, one that is never there too, so that it is tried again in each build."""
    folder = os.path.abspath(entry.get("directory") or ".")
    text = taken(found).decode("utf-8", "surrogateescape") if os.path.exists(found) else ""
    if source.why is not None:
        return [os.path.join(folder, source.name), NEVER]
    return depfile.dependencies(text, folder) if text else [os.path.join(folder, source.name)]


def accept(made, out):
    """Asks whether a file is read."""
    source = from_kept(kept.read_json(made))
    if source.why is None:
        source.accept()
    kept.write_json(out, source.kept())


def make_readable(made, out, *options):
    """Has a text made that is read. Where there is none, an empty file stands for it."""
    source = from_kept(kept.read_json(made))
    text = source.readable_path()
    if source.why is None:
        source.make_readable(options, text + ".new")
    kept.write(text, taken(source.text) if source.why is None else b"")
    source.text = text
    kept.write_json(out, source.kept())


def taken(path):
    """The contents of a file, which is gone then."""
    data = read_bytes(path)
    os.remove(path)
    return data


def group(run_path):
    """Puts the files into groups, and the groups into lists of programs. The last list has all for which there is no list of their own."""
    asked = kept.read_json(run_path)
    good = [source for source in read_sources(asked) if source.why is None]
    found, repeating = groups.groups(good)
    kept.write_json("programs/repeating", [source.name for source in repeating])
    lists = asked["programs"]
    for number in range(lists):
        mine = found[number:] if number == lists - 1 else found[number:number + 1]
        kept.write_json(f"programs/{number}", [[[source.text, kept.digest(source.text)] for source in group] for group in mine])


def check(read, out, *words):
    """The reports of a file by itself."""
    source = from_kept(kept.read_json(read))
    write_reports(out, [program.reports(words, [source.text])] if source.why is None else [])


def check_programs(listed, out, *words):
    """The reports of the groups of a list."""
    write_reports(out, [program.reports(words, [text for text, _ in group]) for group in kept.read_json(listed)])


def write_reports(out, texts):
    """The lines of these texts, each once."""
    kept.write(out, b"".join(telling.distinct(texts)))


def collect(run_path):
    """All reports in the order of the files, what wasn't checked, and the status that both come to."""
    asked = kept.read_json(run_path)
    sources, known = read_sources(asked), unread.known_functions(asked["known"])
    silenced = Silenced(telling.distinct(read_bytes(path) for path in asked["found"]), asked["checkers"], sources, asked["json"])
    reports = silenced.reports
    repeating = kept.read_json("programs/repeating") if asked["programs"] else []
    said = telling.file_lines(sources, known) + telling.repeating_lines(repeating) + silenced.told()
    said += telling.count_lines(sources, reports, known, silenced.counted())
    kept.write("unchecked.txt", "".join(line + "\n" for line in said).encode("utf-8", "replace"))
    kept.write("reports.txt", b"".join(silenced.written))
    kept.write("status", f"{telling.status(sources, reports, known)}\n".encode())


def read_sources(asked):
    """All files, as they were read."""
    return [from_kept(kept.read_json(f"files/{name}.read")) for name in asked["names"]]


def read_bytes(path):
    """The contents of a file."""
    with open(path, "rb") as file:
        return file.read()


STEPS = {"preprocess": preprocess, "accept": accept, "readable": make_readable, "group": group, "check": check,
         "programs": check_programs, "collect": collect}


if __name__ == "__main__":
    STEPS[sys.argv[1]](*sys.argv[2:])
