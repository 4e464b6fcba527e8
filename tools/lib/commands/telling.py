"""What a run says: which files and functions were left out, its reports, and the status that both come to."""
from . import unread


def file_lines(sources, known, explained=None):
    """Which files were left out, and what tools/readable said of the others, but for the functions that are known.

    Behind a file that was left out stand the lines that `explained` makes of it, if that is given.
    """
    found = []
    for source in sources:
        if source.why is not None:
            found.append(f"{source.name}: {source.why}")
            found += explained(source) if explained else []
        found += [line for line in unread.without_count(source.said) if unread.named(line) not in known]
    return found + read_again_lines(sources, known)


def read_again_lines(sources, known):
    """Which functions of the list are read by now, among the files that were checked."""
    missing = unread_functions(sources)
    names = {source.main_file() for source in sources if source.why is None} if known - missing else set()
    return [f"{file}: {function} is read now: take it off the list" for file, function in sorted(known - missing) if file in names]


def repeating_lines(names):
    """Which files repeat a body that another one has."""
    return [f"{name}: has a function that another file has too; it is checked apart from that" for name in names]


def unread_functions(sources):
    """All functions that aren't read."""
    return {pair for source in sources for pair in source.unread_functions()}


def count_lines(sources, reports, known, silenced=""):
    """The last lines: of files that were made readable how many functions aren't read; and how many files were checked."""
    left_out = sum(source.why is not None for source in sources)
    checked = f"check_commands: {len(sources) - left_out} files checked, {left_out} not, {len(reports)} reports{silenced}"
    return unread_lines([line for source in sources for line in source.said], known) + [checked]


def unread_lines(said, known):
    """The line that counts functions that aren't read, if there is anything to count: for what reasons, and how many are known."""
    counted = [unread.count([line]) for line in said]
    total, missing = sum(one[1] for one in counted), [line for line in said if unread.named(line)]
    by_reason = sorted(unread.reasons(missing).items(), key=lambda item: (-item[1], item[0]))
    reasons = f" ({', '.join(f'{reason} {number}' for reason, number in by_reason)})" if by_reason else ""
    listed = sum(unread.named(line) in known for line in missing)
    line = f"check_commands: {len(missing)} of {total} functions aren't read in files that had to be made readable{reasons}"
    return [f"{line}, {listed} of them known"] if total else []


def status(sources, reports, known):
    """1 if there are reports; else 3 if a file was left out, or a function isn't read that isn't known; else 0."""
    if reports:
        return 1
    left_out = any(source.why is not None for source in sources)
    return 3 if left_out or unread_functions(sources) - known else 0


def distinct(texts):
    """The lines of these texts in their order, each once."""
    return list(dict.fromkeys(line for text in texts for line in text.splitlines(keepends=True)))
