"""Takes out the reports that comments in the sources silence, and tells which comments silence nothing."""
import json
import re

from report_lines import report_of

WRITTEN_WRONG = "this comment silences nothing: write /* metalcheck: CHECKER -- reason */"


class Silencer:
    """The comments of the sources of a run, by presumed name and place, and which of them silenced a report."""

    def __init__(self, checkers, sources=()):
        self.checkers = frozenset(checkers)
        self.of_name, self.used, self.silenced = {}, set(), 0
        for source in sources:
            self.of_name.setdefault(source.name, {})[source.path] = source.comments

    def reason(self, line):
        """The reason for which the report of a line of output is silenced, or None where it isn't or the line has none.

        Where several sources have the name of the report, each of them has to silence it, so that none is lost.
        """
        report = report_of(line)
        files = self.of_name.get(report.file, {}) if report else {}
        found = {path: covering(comments, report) for path, comments in files.items()}
        if not found or None in found.values():
            return None
        self.used.update(found.items())
        self.silenced += 1
        return next(iter(found.values())).reason

    def keeps(self, line):
        """Whether a line of output stays."""
        return self.reason(line) is None

    def told(self):
        """The lines that tell of comments that are written wrong, or are for a checker of this run and silenced nothing."""
        found = set()
        for name, files in self.of_name.items():
            for path, comment in ((path, comment) for path, comments in files.items() for comment in comments):
                if not comment.checker:
                    found.add((name, comment.first, WRITTEN_WRONG))
                elif comment.checker in self.checkers and (path, comment) not in self.used:
                    found.add((name, comment.first, f"this comment silences nothing: {comment.checker} has no report here. Take it out"))
        return [f"{name}:{line}: {says}" for name, line, says in sorted(found)]

    def counted(self):
        """What the last line of a tool says of silenced reports: nothing where there is none."""
        return f", {self.silenced} silenced" if self.silenced else ""


def covering(comments, report):
    """The nearest of these comments that silences a report, or None."""
    found = [one for one in comments if one.checker == report.checker and one.covers(report.line)]
    return min(found, key=lambda one: abs(report.line - one.last), default=None)


def with_reason(line, reason):
    """A line of JSON with the reason for which its report is silenced."""
    it = json.loads(line)
    it["silenced"] = reason
    return json.dumps(it, separators=(",", ":"))


def checker_names(paths):
    """The names behind `sm` in these checkers."""
    found = []
    for path in paths:
        with open(path, encoding="latin-1") as file:
            text = re.sub(r"/\*.*?\*/|//[^\n]*", " ", file.read(), flags=re.S)
        name = re.search(r"\bsm\s+([A-Za-z_]\w*)", text, re.A)
        found += [name[1]] if name else []
    return found
