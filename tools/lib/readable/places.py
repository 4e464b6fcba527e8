"""Where a position of a text stands by its marker lines: presumed file, line and column, and whether that is the main file."""
import bisect
import re

MARKER = re.compile(r'[ \t]*#[ \t]*(?:line[ \t]+)?(\d+)[ \t]*(?:"((?:\\.|[^"\\])*)"((?:[ \t]+[1234])*))?[ \t]*\Z')
IGNORED = re.compile(r"[ \t]*#[ \t]*(?:pragma|ident)\b")
ENTERED, LEFT = "1", "2"
MOST_LINES = 2147483647


class Places:
    """The presumed places of a text. File names are kept as the marker lines spell them; before the first one there is none."""

    def __init__(self, text, lines):
        self.feeds = [feed.start() for feed in re.finditer("\n", text)]
        self.length = len(text)
        self.stretches = [(0, 1, 0, None, True)]
        self.fault = None
        self.main = None
        self._read(lines)
        self.starts = [stretch[0] for stretch in self.stretches]

    def _read(self, lines):
        """A stretch for each marker line: its first position, the presumed and the real line there, the file, and if it is the main one."""
        files = [None]
        for begin, end, line in lines:
            if IGNORED.match(line):
                continue
            found = MARKER.match(line)
            if not found or int(found[1]) > MOST_LINES:
                self._lies(begin, "is none")
                continue
            if found[2] is not None:
                self._enter(files, found[2], found[3].split(), begin)
            if len(self.stretches) == 1 and len(files) == 1:
                self.main = files[0]
            real = bisect.bisect_left(self.feeds, end + 1)
            is_main = len(files) == 1 or files[-1] == self.main
            self.stretches.append((end + 1, int(found[1]), real, files[-1], is_main))

    def _enter(self, files, name, flags, begin):
        """Keeps the files that are open, the main one first."""
        if ENTERED in flags:
            files.append(name)
        elif LEFT in flags:
            files.pop()
            if not files or files[-1] != name:
                self._lies(begin, f'goes back to "{name}", which includes nothing there')
                files.append(name)
        else:
            files[-1] = name

    def _lies(self, begin, why):
        """Keeps the first marker line that is wrong, and why."""
        if self.fault is None:
            self.fault = f"the marker line at line {bisect.bisect_left(self.feeds, begin) + 1} of the text {why}"

    def _stretch(self, at):
        """The stretch that a position stands in."""
        return self.stretches[bisect.bisect_right(self.starts, at) - 1]

    def line(self, at):
        """The presumed file and line of a position."""
        _, presumed, real, file, _ = self._stretch(at)
        return file, presumed + bisect.bisect_left(self.feeds, at) - real

    def column(self, at):
        """The column of a position, from 1, in bytes."""
        k = bisect.bisect_left(self.feeds, at)
        return at - (self.feeds[k - 1] if k else -1)

    def in_main(self, at):
        """Whether a position stands in the main file: no header is open, or it has the main file's name."""
        return self._stretch(at)[4]

    def lines_at(self, file, line):
        """The positions, as pairs of begin and end, of all lines that have this presumed file and line."""
        ends = [*self.feeds, self.length]
        for (first, presumed, real, name, _), following in zip(self.stretches, [*self.starts[1:], self.length]):
            number = real + line - presumed
            if real <= number < len(ends) and name is not None and unescaped(name) == file:
                begin = ends[number - 1] + 1 if number else 0
                if begin < following:
                    yield max(begin, first), ends[number]

    def named(self, at, otherwise):
        """FILE:LINE of a position as messages have it; otherwise stands for a file that no marker line names."""
        file, line = self.line(at)
        return f"{otherwise if file is None else unescaped(file)}:{line}"


def unescaped(name):
    """The file name that a marker line spells."""
    return re.sub(r'\\(["\\])', r"\1", name)


def marker(line, file):
    """The marker line that says these again."""
    return f"# {line}" if file is None else f'# {line} "{file}"'
