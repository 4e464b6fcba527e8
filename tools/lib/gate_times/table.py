"""The table of a gate's times, from its log: the lines `times:` that watch wrote, and what `rt ci` says of crates and edits. Lines that
it doesn't know are passed over, and so is what a build server writes in front of each line."""
import re

KINDS = ("proof", "tests", "edits")
BEGIN, END = "<!-- times: begin -->", "<!-- times: end -->"
TIME = re.compile(r"\btimes: (proof|tests|edits) (\w+) ([0-9.]+) s\s*$")
ALL = re.compile(r"\btimes: all ([0-9.]+) s, by the clock ([0-9.]+) s, ([0-9]+) processors")
BEGUN = re.compile(r"\btimes: begun (\S+ \S+ UTC): (.*?)\s*$")
EDIT = re.compile(r"\brt: must-fail (\w+)/(\S+\.edit): (refused)?")
UNPROVED = re.compile(r"\brt: (\w+)(?:: its tests are)? NOT PROVED")
VERDICT = re.compile(r"(?:^|\s)(\d+) passed, (\d+) failed\s*$")


class NoTimes(Exception):
    """A log or a page from which no table can be made; the text says why, and the way out."""


class Log:
    """What a log tells: seconds by crate and kind, edits by crate, crates that weren't proved, and the whole."""

    def __init__(self, lines):
        self.seconds, self.edits, self.unproved = {}, {}, set()
        self.all, self.clock, self.processors, self.begun, self.command, self.verdict = None, None, None, None, None, None
        for line in lines:
            self.read(line)
        if not self.seconds:
            raise NoTimes("there is no line with a time in it (`rt ci` prints none): run the gate by `checks/times --watch LOG rt ci`")

    def read(self, line):
        if found := TIME.search(line):
            row = self.seconds.setdefault(found[2], dict.fromkeys(KINDS, 0.0))
            row[found[1]] += float(found[3])
        elif found := ALL.search(line):
            self.all, self.clock, self.processors = float(found[1]), float(found[2]), int(found[3])
        elif found := BEGUN.search(line):
            self.begun, self.command = found[1], found[2]
        elif found := EDIT.search(line):
            self.edits[found[1]] = self.edits.get(found[1], 0) + 1
        elif found := UNPROVED.search(line):
            self.unproved.add(found[1])
        elif found := VERDICT.search(line):
            self.verdict = found[0].strip()


def minutes(seconds):
    return f"{seconds / 60:.1f}" if seconds else ""


def head(log):
    """What the table is of: which command, when, how it ended, and how long it took."""
    ended = f"it ended with {log.verdict}" if log.verdict else "its log has no verdict"
    took = f", after {log.clock / 60:.0f} minutes by the clock on {log.processors} processors" if log.clock else ""
    begun = log.begun or "at a time that its log does not tell"
    return f"`{log.command or 'a gate'}`, begun {begun}; {ended}{took}. In minutes of a processor:"


def rows(log):
    """The lines of the table, the dearest crate first."""
    of = sorted(log.seconds, key=lambda it: (-sum(log.seconds[it].values()), it))
    for crate in of:
        row = log.seconds[crate]
        edits = minutes(row["edits"]) + (f" ({log.edits[crate]})" if crate in log.edits else "")
        name = f"`{crate}`" + (" (not proved)" if crate in log.unproved else "")
        yield f"| {name} | {minutes(row['proof'])} | {minutes(row['tests'])} | {edits} | {minutes(sum(row.values()))} |"


def table(log):
    """The text that stands between the two marks."""
    sums = {kind: sum(row[kind] for row in log.seconds.values()) for kind in KINDS}
    lines = [head(log), "", "| Crate | Proof | Tests | Edits (how many) | In all |", "|---|---|---|---|---|", *rows(log)]
    if log.all:
        lines.append(f"| the walk of the graph, linking, runs | | | | {minutes(max(0.0, log.all - sum(sums.values())))} |")
    whole = log.all or sum(sums.values())
    lines.append(f"| **in all** | {minutes(sums['proof'])} | {minutes(sums['tests'])} | {minutes(sums['edits'])} | {minutes(whole)} |")
    return "\n".join(lines) + "\n"


def placed(page, text):
    """A page with the text in place of what stood between its marks."""
    begin, end = page.find(BEGIN), page.find(END)
    if begin < 0 or end < begin:
        raise NoTimes(f"the lines {BEGIN} and {END} have to stand in it, in this order: the table goes between them")
    return page[: begin + len(BEGIN)] + "\n" + text + page[end:]
