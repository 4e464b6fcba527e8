"""The tests of tools/explain and tools/check: what they say, where, and their exit status. checks/tools runs them."""
import contextlib
import os
import re
import shutil
import subprocess
import sys
import tempfile
import unittest

from program import ROOT, built
from scripts import cases

PROGRAM = os.environ["METALCHECK"] = built()
sys.path.insert(0, os.path.join(ROOT, "tools", "lib"))

from explain import command, ways
from explain.machine import Machine
from refusals import FORMS, WRONG_CHECKERS, WRONG_FILES

HAS_COMPILER = shutil.which("cc")
ROW = re.compile(r"  +(?:\d+|read) \| ?(.*)")
MARK = re.compile(r"        \| (\s*)\^")


def tool(name, *words, folder=None, **more):
    return subprocess.run([os.path.join(ROOT, "tools", name), *words], capture_output=True, text=True, timeout=300, cwd=folder,
                          env={**os.environ, **more})


def marked(lines):
    """What stands at each mark, up to the end of its line."""
    found = []
    for row, mark in zip(lines, lines[1:]):
        place = MARK.fullmatch(mark)
        if place:
            found.append(ROW.fullmatch(row)[1][len(place[1]):])
    return found


def ways_told(lines):
    """The ways round that these lines have."""
    text = "\n".join(lines) + "\n"
    return [re.sub(r"\n {4}", " ", found).strip() for found in re.findall(r"  way round: ((?:.|\n {4})*)\n", text)]


class Folder(unittest.TestCase):
    """Tests that write files into a folder of their own, in which they are."""

    def setUp(self):
        self.box = tempfile.TemporaryDirectory()
        self.addCleanup(self.box.cleanup)
        self.folder = self.box.name
        context = contextlib.ExitStack()
        context.callback(os.chdir, os.getcwd())
        os.chdir(self.folder)
        self.addCleanup(context.close)

    def write(self, name, text):
        with open(name, "w", encoding="utf-8") as file:
            file.write(text)
        return name


class Cases(Folder):
    """All refused runs of cases/. What metalcheck says of them stands in the cases, and checks/cases compares it with the program."""

    def refused(self):
        """The name, the words and the standard error of each run that is refused, in the folder of its files."""
        runner = cases()
        for name in runner.all_cases():
            with tempfile.TemporaryDirectory() as folder:
                words, wanted, rows, _ = runner.read(os.path.join(runner.CASES, name + ".case"), folder)
                os.chdir(folder)
                for line, asked, file, (_, errs, status) in rows or [(None, None, None, wanted)]:
                    if file:
                        runner.write(folder, *file)
                    if status == 3:
                        yield f"{name}: {line}" if line else name, asked or words, errs.decode("latin-1").rstrip("\n")
                os.chdir(self.folder)

    def test_each_has_its_line_and_its_way_round(self):
        known = {way for table in (ways.OF_C, ways.OF_CHECKERS, ways.FORMS) for _, way in table.values()}
        without_line, without_way, without_mark, count = [], [], [], 0
        for name, words, errs in self.refused():
            lines = command.why(3, errs, words)
            count += ": " not in name
            told = ways_told(lines)
            if not any(map(ROW.fullmatch, lines)):
                without_line.append(name)
            if not told or not set(told) <= known:
                without_way.append(name)
            # rows put a fault alone in its line, as no text is written, and the compiler often tells it a line later
            if not marked(lines) and not errs.endswith("TooLarge") and ": " not in name:
                without_mark.append(name)
        self.assertEqual((without_line, without_way), ([], []))
        self.assertGreaterEqual(count, 134)
        if HAS_COMPILER:
            self.assertEqual(without_mark, [])

    def test_accepted_checkers_are_read(self):
        runner = cases()
        for name in runner.all_cases():
            with tempfile.TemporaryDirectory() as folder:
                words, (_, _, status), _, _ = runner.read(os.path.join(runner.CASES, name + ".case"), folder)
                for checker in (word for word in words if status in (0, 1) and word.endswith(".metal")):
                    with open(os.path.join(folder, checker), encoding="latin-1", newline="") as file:
                        machine = Machine(file.read())
                    self.assertEqual((machine.fault, machine.bad_token), (None, None), name)


class Refusals(Folder):
    def refused(self, *words):
        """What metalcheck says of these words, and what is said of that."""
        done = subprocess.run([PROGRAM, *words], capture_output=True, text=True, timeout=300)
        self.assertEqual(done.returncode, 3, (words, done))
        return done.stderr.strip(), command.why(3, done.stderr.strip(), list(words))

    def test_wrong_checkers(self):
        self.write("a.c", "")
        for rules, place, says in WRONG_CHECKERS:
            self.write("m.metal", "sm m {\n  state decl any_pointer v;\n  " + rules + "\n}\n")
            _, lines = self.refused("m.metal", "a.c")
            self.assertTrue(marked(lines)[0].startswith(place), (rules, lines))
            self.assertIn(says, lines[0])

    @unittest.skipUnless(HAS_COMPILER, "there is no C compiler")
    def test_wrong_files(self):
        for text, name, place, says in WRONG_FILES:
            self.write("a.c", "int before;\n" + text + "\n")
            errs, lines = self.refused("a.c")
            self.assertEqual(errs, f"a.c:2: refused: {name}")
            self.assertTrue(marked(lines)[0].lstrip().startswith(place), (text, lines))
            self.assertIn(says, lines[0])

    @unittest.skipUnless(HAS_COMPILER, "there is no C compiler")
    def test_forms(self):
        # a tree that is too high stands in cases/ alone, since it is the one that needs a deep stack
        self.assertEqual(set(FORMS), set(ways.FORMS) - {"too high"})
        for form, (text, place, mended) in FORMS.items():
            self.write("a.c", text + "\n")
            errs, lines = self.refused("a.c")
            self.assertEqual(errs, "a.c:1: refused: Syntax", form)
            self.assertTrue(marked(lines)[0].startswith(place), (form, lines))
            self.assertEqual(ways_told(lines)[0], ways.FORMS[form][1])
            if isinstance(mended, list):
                mended = subprocess.run(["cc", "-E", "-std=gnu89", *mended, "a.c"], capture_output=True, text=True, check=True).stdout
            self.write("a.c", mended + "\n")
            self.assertEqual(subprocess.run([PROGRAM, "a.c"]).returncode, 0, form)

    def test_second_variable_in_a_callout(self):
        self.write("a.c", "")
        self.write("m.metal", "sm m { state decl any_pointer v, w; start: { f(v) } && ${ mc_is_local(w) } ==> v.a; }\n")
        errs, lines = self.refused("m.metal", "a.c")
        self.assertEqual(errs, "m.metal:1: refused: TwoVariables")
        self.assertTrue(marked(lines)[0].startswith("w) }"), lines)

    def test_second_body(self):
        self.write("a.c", "# 5 \"x.c\"\nvoid f(void){ }\n")
        self.write("b.c", "void f(void){ }\n")
        _, lines = self.refused("a.c", "b.c")
        self.assertEqual(lines[0], "  b.c:1:6: f has a body in x.c:5 already")

    def test_presumed_lines(self):
        self.write("a.c", "# 40 \"src/x.y\"\nint x;\nint @;\n")
        _, lines = self.refused("a.c")
        self.assertEqual(lines[:2], ["  src/x.y:41: no token begins with @ (line 3 of a.c)", "     41 | int @;"])

    def test_without_a_compiler(self):
        self.write("a.c", "int f(void){ return x; }\n")
        done = tool("explain", "a.c", CC="no-such-cc")
        self.assertEqual(done.returncode, 3)
        self.assertIn("      1 | int f(void){ return x; }\n  way round: declare it before", done.stderr)


class Words(Folder):
    WRONG = [
        (["--depth", "9", "a.c"], "--depth 9: the value is one digit"), (["--depth", "1", "--depth", "2", "a.c"], "--depth stands twice"),
        (["--format=xml", "a.c"], "--format xml: the value is table or json"), (["--stats", "--stats", "a.c"], "--stats stands twice"),
        (["--help-me", "a.c"], "--help-me: there is no such option"), (["a.c", "--depth", "1"], "--depth: options stand before"),
        (["a.c", "-h"], "-h: options stand before"), (["--depth"], "--depth: a value is wanted behind it, one digit"),
        (["--format=", "a.c"], "--format: a value is wanted"), (["m.metal"], "there is no C file"), (["--generate", "0"], "--generate stands alone"), (["--"], "there is no C file"),
        (["a.c"] * 65, "0 checkers and 65 C files"), (["m.metal"] * 17 + ["a.c"], "17 checkers and 1 C files"),
    ]

    def test_the_wrong_word_is_named(self):
        for words, says in self.WRONG:
            done = tool("explain", *words)
            self.assertEqual((done.returncode, done.stdout), (2, ""), words)
            self.assertIn("\n  " + says, done.stderr)

    def test_files_that_are_not_read(self):
        os.mkdir("d.c")
        for word, says in (("no.c", "there is no file no.c"), ("d.c", "d.c is a folder")):
            done = tool("explain", word)
            self.assertEqual(done.returncode, 4)
            self.assertIn(says, done.stderr)


class Runs(Folder):
    """How the program is run, and what becomes of its output; a script stands for it."""

    def program(self, *lines):
        """A script of these lines as the program."""
        os.chmod(self.write("program", "\n".join(["#!/bin/sh", *lines, ""])), 0o755)
        return "./program"

    def test_notes_around_an_unproved_run(self):
        self.write("a.c", "int x = @;\n")
        program = self.program("echo 'metalcheck: in a minute' >&2", "echo 'a.c:1: refused: BadByte' >&2", "echo 'metalcheck: so' >&2", "exit 3")
        done = tool("explain", "a.c", METALCHECK=program)
        self.assertEqual((done.returncode, done.stdout), (3, ""))
        self.assertTrue(done.stderr.startswith("metalcheck: in a minute\nmetalcheck: so\na.c:1: refused: BadByte\n  a.c:1:9: "), done.stderr)

    def test_such_a_note_comes_at_once(self):
        program = self.program("echo 'metalcheck: in a minute' >&2", "while [ ! -e seen ]; do sleep 0.05; done", "echo a.c:1:5: m: held", "exit 1")
        with subprocess.Popen([os.path.join(ROOT, "tools", "explain"), "a.c"], stdout=subprocess.PIPE, stderr=subprocess.PIPE, text=True,
                              env={**os.environ, "METALCHECK": program}) as child:
            self.assertEqual(child.stderr.readline(), "metalcheck: in a minute\n")
            self.write("seen", "")
            self.assertEqual(child.stdout.read(), "a.c:1:5: m: held\n")

    def test_output_that_nobody_takes(self):
        program = self.program("echo a.c:1:5: m: held", "exit 1")
        for name, words in (("explain", "a.c"), ("check", "-- a.i")):
            self.write("a.i", "")
            line = f"METALCHECK={program} '{os.path.join(ROOT, 'tools', name)}' {words} > /dev/full; echo $?"
            done = subprocess.run(["sh", "-c", line], capture_output=True, text=True)
            self.assertEqual((done.stdout, done.stderr), ("5\n", f"{name}: not all could be written: No space left on device\n"))

    def test_no_program(self):
        done = tool("explain", "a.c", METALCHECK="./none")
        self.assertEqual((done.returncode, done.stdout), (5, ""))
        self.assertEqual(done.stderr, "./none: No such file or directory; METALCHECK names the program\n")


class Reports(Folder):
    CHECKER = os.path.join(ROOT, "examples", "free.metal")

    def test_output_and_status_are_those_of_the_program(self):
        lock = [os.path.join("examples", "metal", name) for name in ("lock.metal", "lock.c")]
        for style in ([], ["--format", "json"], ["--format", "table"]):
            plain = subprocess.run([PROGRAM, *style, *lock], capture_output=True, text=True, cwd=ROOT)
            done = tool("explain", *style, *lock, folder=ROOT)
            self.assertEqual((done.returncode, done.stdout), (1, plain.stdout))
            self.assertEqual(marked(done.stderr.split("\n")), ["return -1;", "unlock(&d->lock);"])

    def shown(self, preprocessed, source):
        """What stands behind the reports of a file that was preprocessed from this source."""
        self.write("src.c", source)
        self.write("a.i", '# 1 "src.c"\n' + preprocessed)
        done = tool("explain", self.CHECKER, "a.i")
        self.assertEqual(done.returncode, 1, done)
        return marked(done.stderr.split("\n")), done.stderr

    def test_the_place_in_the_source(self):
        found, _ = self.shown("void f(char *p) { kfree(p); *p = 1; kfree(p); }\n", "void f(char *p) { DROP(p); *p = ONE; kfree(p); }\n")
        self.assertEqual(found, ["*p = ONE; kfree(p); }"])
        found, _ = self.shown("void f(char *p) { kfree(p); kfree(p); }\n", "void f(char *p) { DROP(p); DROP(p); } /* p */\n")
        self.assertEqual(found, ["DROP(p); } /* p */"])

    def test_where_the_place_is_not_sure(self):
        found, text = self.shown("void f(char *p) { kfree(p); *p = 1; }\n", "void f(char *p) ALL\n")
        self.assertEqual(found, ["*p = 1; }"])
        self.assertIn("      1 | void f(char *p) ALL\n   read | void f(char *p) { kfree(p); *p = 1; }\n", text)

    def test_without_the_source(self):
        self.write("a.i", '# 7 "gone.c"\nvoid f(char *p) { kfree(p); *p = 1; }\n')
        self.assertEqual(tool("explain", self.CHECKER, "a.i").stderr,
                         "      7 | void f(char *p) { kfree(p); *p = 1; }\n        |                             ^\n")

    def test_what_is_read_as_a_call(self):
        _, text = self.shown("int f(char *p) { kfree(p); return __builtin_object_size(*p, 0); }\n",
                             "int f(char *p) { kfree(p); return size(*p); }\n")
        self.assertIn("__builtin_object_size(..) on this line is read as a call", text)


class Drawn(Folder):
    def test_rules(self):
        done = tool("explain", "--rules", os.path.join(ROOT, "examples", "first", "two.metal"))
        self.assertEqual((done.returncode, done.stderr), (0, ""))
        self.assertEqual(done.stdout.splitlines()[1:4:2],
                         ["   2  p.claimed  true: { port_claim(p) }  ==> p.stop",
                          '   3  p.claimed  { port_claim(p) }  ==> p.claimed  err "%s is claimed twice"'])

    def test_graph(self):
        self.write("m.metal", 'sm m { start: { f("a\\"") } /* x */ ==> off; off: $end_of_path$ ==> start, { err("left"); }; }')
        done = tool("explain", "--dot", "m.metal")
        self.assertEqual(done.stdout.splitlines()[4:], [
            '  "start" -> "off" [label="1. { f(\\"a\\\\\\"\\") }"];',
            '  "off" -> "start" [label="2. $end_of_path$\\nleft", color=red, fontcolor=red];', "}"])

    def test_no_checker(self):
        self.write("m.metal", "sm m { start: { f( } ==> a; }\n")
        done = tool("explain", "--rules", "m.metal")
        self.assertEqual((done.returncode, done.stdout), (2, ""))
        self.assertIn("m.metal:1:20: an expression of C is wanted here", done.stderr)
        self.assertEqual(tool("explain", "--dot", "no.metal").returncode, 2)
        self.assertEqual(tool("explain", "--dot").returncode, 2)


class Page(unittest.TestCase):
    def test_the_page_has_the_table(self):
        with open(os.path.join(ROOT, "docs", "EXPLAIN.md"), encoding="utf-8") as file:
            page = file.read()
        for title, table in (("Of C files", ways.OF_C), ("Of checkers", ways.OF_CHECKERS), ("Forms of C that aren't read", ways.FORMS)):
            wanted = [(key, what, way) for key, (what, way) in table.items()]
            self.assertIn(f"### {title}\n", page)
            section = page.split(f"### {title}\n")[1].split("\n#")[0]
            rows = re.findall(r"(?m)^\| ([^|]*) \| (.*) \| (.*) \|$", section)
            self.assertEqual([row for row in rows[1:] if set(row[0]) != {"-"}], wanted, title)


if __name__ == "__main__":
    sys.argv[1:] = sys.argv[1:] or ["-q"]
    unittest.main()
