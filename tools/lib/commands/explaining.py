"""What --explain says more: behind a refusal its place and the way round, behind a report its line, and hints on the checkers."""
import sys

from explain.command import hints, refusal, show_reports, write


def refusal_lines(source):
    """The lines that explain why a file was refused."""
    return refusal(source.why.removeprefix("not readable: "), [], [source.path], kept=False)


def show(lines, sources, entries, checkers):
    """Writes reports with their lines, and hints on the checkers."""
    folders = list(dict.fromkeys(entry.get("directory") or "" for entry in entries))
    show_reports(lines, [source.text for source in sources], folders)
    sys.stdout.flush()
    write(hints(checkers, []), sys.stderr.buffer)
