"""Functions that aren't read: the lines of tools/readable that name them, and a list of those that are known."""
import collections
import re
import sys

LINE = re.compile(r"(?P<file>.*):(?P<line>\d+): (?P<function>\S+) isn't read: (?P<reasons>.*)")
COUNT = re.compile(r"(?:.*: )?(?P<unread>\d+) of (?P<all>\d+) functions aren't read\b.*")
UNCHANGED = re.compile(r"readable: .*: read as it is\b.*")
KNOWN = re.compile(r"(?P<file>.+?)(?::\d+)?: (?P<function>\S+?)(?: isn't read: .*)?")


def named(line):
    """The file and the function of a line that names a function that isn't read, or None."""
    found = LINE.fullmatch(line)
    return (found["file"], found["function"]) if found else None


def reasons(lines):
    """For each reason, of how many functions it is named."""
    found = filter(None, map(LINE.fullmatch, lines))
    return collections.Counter(reason for one in found for reason in one["reasons"].split(", "))


def count(lines):
    """How many functions aren't read, of how many, by the last line that counts them; none of none where there is no such line."""
    found = [match for match in map(COUNT.fullmatch, lines) if match]
    return (int(found[-1]["unread"]), int(found[-1]["all"])) if found else (0, 0)


def without_count(lines):
    """The lines but those that count."""
    return [line for line in lines if not COUNT.fullmatch(line)]


def worth_saying(lines, path, name):
    """The lines of a file that isn't read as it is, with its name in place of the path by which it was handed over."""
    return [line.replace(path, name) for line in lines if not UNCHANGED.fullmatch(line)]


def fault(lines, path):
    """Why there is no text, by the last of these lines, without the path by which the file was handed over."""
    return lines[-1].removeprefix(f"readable: {path}: ") if lines else "tools/readable says nothing"


def known_functions(path):
    """The functions of a list, as pairs of file and function. Its lines are `FILE: FUNCTION`, or such as tools/readable writes; `#` begins
    a comment. A list that isn't read, or a line that is neither, ends the program with status 2."""
    if not path:
        return set()
    try:
        with open(path, encoding="utf-8") as file:
            lines = file.read().splitlines()
    except (OSError, ValueError) as fault:
        why = f"not read: {fault.strerror}" if isinstance(fault, OSError) else "no text"
        print(f"check_commands: {path}: {why}; an empty file will do to begin with", file=sys.stderr)
        raise SystemExit(2)
    known = set()
    for number, line in enumerate(lines, 1):
        line = line.split("#")[0].strip()
        if line:
            known.add(known_function(line, f"{path}:{number}"))
    return known


def known_function(line, place):
    """The file and the function of a line of the list that stands at this place."""
    found = KNOWN.fullmatch(line)
    if not found:
        print(f"check_commands: {place}: not a line FILE: FUNCTION", file=sys.stderr)
        raise SystemExit(2)
    return found["file"], found["function"]
