"""The words of the command, and where its texts go."""
import argparse
import concurrent.futures
import os
import sys

from .asking import ProgramFailed
from .making import Options, make_readable
from .summary import lines, total

WRONG_WORDS, NO_PROGRAM = 2, 5


def arguments(words, text):
    """The words, as fields."""
    parser = argparse.ArgumentParser(prog="readable", description=text, formatter_class=argparse.RawDescriptionHelpFormatter)
    parser.add_argument("-o", dest="out", required=True, metavar="OUT")
    parser.add_argument("--prune", action="store_true")
    parser.add_argument("--no-rewrite", action="store_true")
    parser.add_argument("--plain-loops", action="store_true")
    parser.add_argument("--always", action="store_true")
    parser.add_argument("--quiet", action="store_true")
    parser.add_argument("--jobs", type=int, default=os.cpu_count() or 1, metavar="N")
    parser.add_argument("files", nargs="+", metavar="FILE.i")
    return parser.parse_args(words)


def targets(files, out):
    """Where the text of each file goes. In a folder it keeps its name; a second one of that name gets a number."""
    if len(files) == 1 and not out.endswith(os.sep) and not os.path.isdir(out):
        return [out]
    own = [os.path.basename(os.path.normpath(file)) for file in files]
    given, found = set(own), []
    for k, name in enumerate(own):
        if name in own[:k]:
            stem, dot, rest = name.partition(".")
            name = next(one for n in range(2, len(files) + 2) if (one := f"{stem}_{n}{dot}{rest}") not in given)
            given.add(name)
        found.append(os.path.join(out, name))
    return found


def clash(files, places, out):
    """Why the texts can't go there, or nothing."""
    if len(files) > 1 and os.path.exists(out) and not os.path.isdir(out):
        return f"{out} is no folder, and {len(files)} files go there"
    inputs = {os.path.realpath(file) for file in files}
    over = next((place for place in places if os.path.realpath(place) in inputs), None)
    odd = next((place for place in places if os.path.exists(place) and not os.path.isfile(place)), None)
    if odd:
        return f"{odd} is no file, and a text would take its place; name another one behind -o"
    return f"{over} is one of the files that are read; name another place behind -o" if over else None


def make_one(file, options):
    """The record of a file, or what the program failed with. It runs in a process of its own."""
    try:
        return make_readable(file, options)
    except ProgramFailed as fault:
        return fault


def keep(record, place):
    """Writes the text of a record in one piece, or takes away what an earlier run left there."""
    if record.text is None:
        if os.path.isfile(place):
            os.remove(place)
        return
    part = f"{place}.part"
    try:
        with open(part, "w", encoding="latin-1", newline="") as file:
            file.write(record.text)
        os.replace(part, place)
    except OSError as fault:
        record.text, record.fault = None, f"{place}: {fault.strerror}"
        if os.path.exists(part):
            os.remove(part)


def records(words, options):
    """The records of all files in their order, each as soon as it is there."""
    if len(words.files) == 1 or words.jobs < 2:
        yield from (make_one(file, options) for file in words.files)
        return
    with concurrent.futures.ProcessPoolExecutor(min(words.jobs, len(words.files))) as pool:
        yield from pool.map(make_one, words.files, [options] * len(words.files))


def complain(message, status):
    """Says what is wrong, and gives the status."""
    print(f"readable: {message}", file=sys.stderr)
    return status


def main(words, text):
    """The status of a run with these words; text is the help."""
    words = arguments(words, text)
    places = targets(words.files, words.out)
    wrong = clash(words.files, places, words.out)
    if wrong:
        return complain(wrong, WRONG_WORDS)
    try:
        os.makedirs(os.path.dirname(places[0]) or ".", exist_ok=True)
    except OSError as fault:
        return complain(f"{words.out}: {fault.strerror}", WRONG_WORDS)
    return run(words, places)


def run(words, places):
    """Makes the texts, and says what became of each file; gives the status."""
    options = Options(words.prune, not words.no_rewrite, words.plain_loops, words.always)
    done = []
    for place, record in zip(places, records(words, options)):
        if isinstance(record, ProgramFailed):
            return complain(record, NO_PROGRAM)
        keep(record, place)
        done.append(record)
        said = lines(record)
        print("\n".join(said[-1:] if words.quiet else said), file=sys.stderr, flush=True)
        record.text = "" if record.text is not None else None
    if len(done) > 1:
        print(total(done), file=sys.stderr)
    return max(record.status() for record in done)
