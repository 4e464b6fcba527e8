"""The tests of tools/check_commands beyond those of tools_test.py: files made readable, known functions, build files. checks/tools runs them."""
import contextlib
import io
import json
import os
import re
import shutil
import subprocess
import sys
import tempfile
import unittest

from program import ROOT, built

os.environ["METALCHECK"] = built()
sys.path.insert(0, os.path.join(ROOT, "tools", "lib"))

from commands import depfile, entries, groups, kept, ninja, progress, program, sources, telling, unread, words

FREE = os.path.join(ROOT, "examples", "free.metal")
TOOL = os.path.join(ROOT, "tools", "check_commands")
FILES = {
    "b.h": "void kfree(void *);\nstatic inline char last(char *x) { kfree(x); return *x; }\n",
    "plain.c": '#include "b.h"\nchar f(char *p) { return last(p); }\n',
    "macro.c": "void kfree(void *);\n#define TWICE(x) ({ int y = (x); y + y; })\nint twice(int a) { return TWICE(a); }\n"
               "void g(char *p)\n{\n    kfree(p);\n    *p = 1;\n}\n",
    "jump.c": "int jump(int a)\n{\n    void *to = &&out;\n    goto *to;\nout:\n    return a;\n}\nint stay(int a) { return a; }\n",
    "drop.c": "void kfree(void *);\nvoid drop(char *x) { kfree(x); }\n",
    "call.c": "void drop(char *x);\nvoid h(char *p)\n{\n    drop(p);\n    *p = ({ 1; });\n}\n",
    "text.c": "this is no C at all )\n",
    "lost.c": '#include "later.h"\nchar k(char *p) { return *p; }\n',
}
HEADER = "b.h:2:53: free_checker: using x after free!\n"
FREED = "macro.c:7:5: free_checker: using p after free!\n"
CALLED = "call.c:5:5: free_checker: using p after free!\n"


class Folder(unittest.TestCase):
    """A test with a folder of its own."""

    def setUp(self):
        box = tempfile.TemporaryDirectory()
        self.addCleanup(box.cleanup)
        self.folder = box.name

    def path(self, name):
        return os.path.join(self.folder, name)

    def write(self, name, text):
        with open(self.path(name), "w", encoding="utf-8") as file:
            file.write(text)
        return self.path(name)

    def read(self, name):
        with open(self.path(name), encoding="utf-8") as file:
            return file.read()


class Project(Folder):
    """A test with C files and a list of commands for them."""

    def setUp(self):
        super().setUp()
        for name, text in FILES.items():
            self.write(name, text)

    def list_files(self, names):
        listed = [{"directory": self.folder, "file": name, "arguments": ["cc", "-I.", "-c", name]} for name in names]
        kept.write(self.path("commands.json"), json.dumps(listed).encode())

    def check(self, names, *options):
        self.list_files(names)
        command = [sys.executable, TOOL, *options, FREE, "commands.json"]
        return subprocess.run(command, cwd=self.folder, capture_output=True, text=True, timeout=300)


class Entries(unittest.TestCase):
    def test_options_that_are_dropped(self):
        entry = {"file": "a.c", "command": "ccache gcc -O2 -g -std=c11 -Wall -Wp,-MMD,x.d -MF y -Iinc -DA='b c' -include z.h -c -o a.o a.c"}
        self.assertEqual(entries.preprocessing(entry), ["gcc", *entries.FLAGS, "-Iinc", "-DA=b c", "-include", "z.h", "a.c"])


    def test_lists_that_are_none(self):
        for text in ("{}", "[1]", '[{"file": "a.c"}]', '[{"command": "cc a.c"}]', "["):
            with tempfile.NamedTemporaryFile("w") as file, contextlib.redirect_stderr(io.StringIO()) as said:
                file.write(text)
                file.flush()
                with self.assertRaises(SystemExit) as end:
                    entries.listed(file.name)
            self.assertEqual(end.exception.code, 2)
            self.assertIn(file.name, said.getvalue())


class Unread(Folder):
    LINE = "src/a b.c:12: parse isn't read: statement expression, typeof"

    def test_line(self):
        self.assertEqual(unread.named(self.LINE), ("src/a b.c", "parse"))
        self.assertIsNone(unread.named("src/a.c:12: refused: Syntax"))

    def test_count(self):
        self.assertEqual(unread.count([self.LINE, "1 of 7 functions aren't read: statement expression 1"]), (1, 7))
        self.assertEqual(unread.count([self.LINE, "src/a.i: 12 of 70 functions aren't read"]), (12, 70))
        self.assertEqual(unread.count([self.LINE]), (0, 0))
        self.assertEqual(unread.reasons([self.LINE, "a.c:1: f isn't read: typeof"]), {"typeof": 2, "statement expression": 1})

    def test_path_that_nobody_knows(self):
        lines = ["readable: /tmp/0_a.i: read as it is", "readable: /tmp/0_a.i: approximations: min 2"]
        self.assertEqual(unread.worth_saying(lines, "/tmp/0_a.i", "a.c"), ["readable: a.c: approximations: min 2"])
        self.assertEqual(unread.fault(["readable: /tmp/0_a.i: empty; was it preprocessed?"], "/tmp/0_a.i"), "empty; was it preprocessed?")

    def test_known(self):
        path = self.write("known", f"# a comment\n\na.c: f # why\na.c:3: g\n{self.LINE}\n")
        self.assertEqual(unread.known_functions(path), {("a.c", "f"), ("a.c", "g"), ("src/a b.c", "parse")})
        self.assertEqual(unread.known_functions(None), set())

    def test_wrong_lists(self):
        for path in (self.write("known", "a.c: f\nno line\n"), self.path("missing")):
            with self.assertRaises(SystemExit) as end, contextlib.redirect_stderr(io.StringIO()) as said:
                unread.known_functions(path)
            self.assertEqual(end.exception.code, 2)
            self.assertIn(path, said.getvalue())


class Telling(Folder):
    def source(self, name, why=None, said=()):
        source = sources.Source("/whole/" + name, self.write(name + ".i", f'# 0 "{name}"\nint x;\n'))
        source.why, source.said = why, list(said)
        return source

    def test_status(self):
        cut = self.source("a.c", said=["a.c:1: f isn't read: typeof", "1 of 2 functions aren't read: typeof 1"])
        self.assertEqual(telling.status([cut], [b"report\n"], set()), 1)
        self.assertEqual(telling.status([cut], [], set()), 3)
        self.assertEqual(telling.status([cut], [], {("a.c", "f")}), 0)
        self.assertEqual(telling.status([self.source("b.c", why="not preprocessed: no")], [], {("b.c", "f")}), 3)
        self.assertEqual(telling.status([self.source("b.c")], [], set()), 0)

    def test_lines(self):
        said = ["a.c:1: f isn't read: typeof", "a.c:9: g isn't read: asm", "2 of 3 functions aren't read (asm 1, typeof 1)"]
        cut = self.source("a.c", said=said)
        lost = self.source("b.c", why="b.c:1: refused: BadByte")
        self.assertEqual(telling.file_lines([cut, lost], {("a.c", "f"), ("a.c", "h"), ("z.c", "f")}),
                         ["a.c:9: g isn't read: asm", "/whole/b.c: b.c:1: refused: BadByte", "a.c: h is read now: take it off the list"])
        self.assertEqual(telling.count_lines([cut, lost], [], {("a.c", "f")}),
                         ["check_commands: 2 of 3 functions aren't read in files that had to be made readable (asm 1, typeof 1), "
                          "1 of them known",
                          "check_commands: 1 files checked, 1 not, 0 reports"])

    def test_each_line_once(self):
        self.assertEqual(telling.distinct([b"b\na\n", b"", b"a\nc\n"]), [b"b\n", b"a\n", b"c\n"])


class Words(unittest.TestCase):
    def test_options_that_need_another(self):
        for given in (["--prune"], ["--known-unread", "x"], ["--ninja", "a", "--keep", "b"], ["c.c"], ["--only", "("], ["--depth", "9"],
                      ["none.metal"], [os.path.dirname(FREE)]):
            with self.assertRaises(SystemExit) as end, contextlib.redirect_stderr(io.StringIO()) as said:
                words.read_words([*given, FREE, "c.json"])
            self.assertEqual(end.exception.code, 2)
            self.assertIn(given[0], said.getvalue())

    def test_handed_on(self):
        asked = words.read_words(["--readable", "--prune", "--depth", "2", "--json", FREE, "c.json"])
        self.assertEqual(words.program_options(asked), ["--depth", "2", "--format", "json"])
        self.assertEqual(words.readable_options(asked), ["--prune"])


class Terminal(io.StringIO):
    def isatty(self):
        return True


class Progress(unittest.TestCase):
    def shown(self, stream):
        with contextlib.redirect_stderr(stream):
            line = progress.Progress("checked", 2)
            line.step()
            line.end()
        return stream.getvalue()

    def test_line_on_a_terminal(self):
        self.assertEqual(self.shown(Terminal()), "\r\033[Kcheck_commands: checked 1 of 2\r\033[K")

    def test_nothing_in_a_file(self):
        self.assertEqual(self.shown(io.StringIO()), "")


class Groups(Folder):
    def test_what_fits(self):
        found = [sources.Source(str(number), self.write(f"{number}.i", "x")) for number in range(70)]
        self.assertEqual(len(groups.fitting(found)), groups.MOST_FILES)
        os.truncate(found[3].text, groups.MOST_BYTES - groups.ROOM_FOR_CHECKERS)
        self.assertEqual(len(groups.fitting(found)), 3)
        self.assertEqual(len(groups.fitting(found[3:])), 1)


class Kept(Folder):
    def test_file_that_stays(self):
        path = self.path("a")
        kept.write(path, b"one")
        os.utime(path, (1, 1))
        kept.write(path, b"one")
        self.assertEqual(os.path.getmtime(path), 1)
        kept.write(path, b"two")
        self.assertGreater(os.path.getmtime(path), 1)
        self.assertEqual((self.read("a"), os.listdir(self.folder)), ("two", ["a"]))

    def test_dependencies(self):
        text = "text: a\\ b.c ../inc/x\\#y.h \\\n /usr/$$z.h a\\ b.c\n"
        names = depfile.dependencies(text, "/top/src")
        self.assertEqual(names, ["/top/src/a b.c", "/top/inc/x#y.h", "/usr/$z.h"])
        self.assertEqual(depfile.dependencies(depfile.written("some text", names), "/"), names)


class BuildFile(unittest.TestCase):
    def test_names(self):
        self.assertEqual(ninja.path("a b$c:d"), "a$ b$$c$:d")
        self.assertEqual(ninja.command(["a b", "$c"]), "'a b' '$$c'")
        self.assertEqual(ninja.build(["x y", "z"], "r", ["i"], ["j"], ["k"], name="$n"), "build x$ y | z: r i | j || k\n  name = $$n\n")

    def test_names_that_last(self):
        first, second = [ninja.lasting_name({"directory": folder, "file": "a b.c"}) for folder in ("/x", "/y")]
        self.assertNotEqual(first, second)
        self.assertRegex(first, r"\A[0-9a-f]{8}_a_b\.c\Z")


class Broken(Folder):
    def test_folder_that_is_a_file(self):
        for option in ("--keep", "--ninja"):
            self.write("out", "text")
            done = subprocess.run([sys.executable, TOOL, option, self.path("out"), FREE, "x.json"], capture_output=True, text=True)
            self.assertEqual(done.returncode, 2)
            self.assertIn("out: File exists; name another folder", done.stderr)

    def run_with(self, text, path):
        """What a run over a list of commands comes to, with a shell script in the program's place."""
        script = self.write("program", f"#!/bin/sh\n{text}\n")
        os.chmod(script, 0o755)
        return subprocess.run([sys.executable, TOOL, FREE, path], env={**os.environ, "METALCHECK": script}, capture_output=True, text=True)

    def test_lists_that_are_not_read(self):
        ways = {"x.json": "not read: No such file or directory; bear", "bad.json": "Expecting value", "odd.json": "it is no list of compile commands; bear"}
        self.write("bad.json", "no list")
        self.write("odd.json", "{}")
        for name, why in ways.items():
            done = self.run_with("", self.path(name))
            self.assertEqual((done.returncode, done.stdout), (2, ""))
            self.assertTrue(done.stderr.startswith(f"check_commands: {self.path(name)}: {why}"), done.stderr)

    def test_program_that_fails(self):
        done = self.run_with("echo no memory >&2\nexit 6", "x.json")
        self.assertEqual((done.returncode, done.stderr), (5, "no memory\ncheck_commands: metalcheck ended with status 6\n"))


@unittest.skipUnless(shutil.which("cc"), "there is no C compiler")
@unittest.skipUnless(os.path.exists(program.READABLE), "there is no tools/readable")
class Readable(Project):
    def test_refused_without_it(self):
        done = self.check(["macro.c"])
        self.assertEqual((done.returncode, done.stdout), (3, ""))
        self.assertIn("macro.c: macro.c:3: refused: Syntax\n", done.stderr)

    def test_read_with_it(self):
        done = self.check(["macro.c", "plain.c"], "--readable")
        self.assertEqual((done.returncode, done.stdout), (1, FREED + HEADER))
        self.assertTrue(done.stderr.endswith("check_commands: 2 files checked, 0 not, 2 reports\n"))

    def test_output_that_nobody_takes(self):
        self.list_files(["plain.c"])
        line = f"METALCHECK='{built()}' '{TOOL}' '{FREE}' commands.json > /dev/full; echo $?"
        done = subprocess.run(["sh", "-c", line], capture_output=True, text=True, cwd=self.folder)
        self.assertEqual(done.stdout, "5\n")
        self.assertRegex(done.stderr, r"(?s)\A(?!.*Traceback).*check_commands: not all could be written: No space left on device\n\Z")

    def test_unread_function(self):
        done = self.check(["jump.c"], "--readable")
        self.assertEqual((done.returncode, done.stdout), (3, ""))
        self.assertRegex(done.stderr, r"(?m)^jump\.c:\d+: jump isn't read: .+$")
        self.assertRegex(done.stderr, r"1 of 2 functions aren't read in files .* \(.+ 1\), 0 of them known\n")

    def test_known_function(self):
        self.write("known", "jump.c: jump  # goes where the table says\njump.c: stay\n")
        done = self.check(["jump.c"], "--readable", "--known-unread", "known")
        self.assertEqual((done.returncode, done.stdout), (0, ""))
        self.assertNotIn("jump isn't read", done.stderr)
        self.assertIn("jump.c: stay is read now: take it off the list\n", done.stderr)
        self.assertRegex(done.stderr, r"1 of 2 functions aren't read in files .* \(.+ 1\), 1 of them known\n")

    def test_known_function_and_a_report(self):
        self.write("known", "jump.c: jump\n")
        done = self.check(["jump.c", "macro.c"], "--readable", "--known-unread", "known")
        self.assertEqual((done.returncode, done.stdout), (1, FREED))

    def test_together(self):
        done = self.check(["drop.c", "call.c"], "--readable", "--together")
        self.assertEqual((done.returncode, done.stdout), (1, CALLED))
        self.assertEqual(self.check(["drop.c", "call.c"], "--readable").returncode, 0)

    def test_pruned(self):
        self.write("macro.c", '#include "b.h"\n' + FILES["macro.c"])
        self.assertEqual(self.check(["macro.c"], "--readable").stdout, HEADER + FREED.replace(":7:", ":8:"))
        self.assertEqual(self.check(["macro.c"], "--readable", "--prune").stdout, FREED.replace(":7:", ":8:"))

    def test_text_that_is_no_c(self):
        done = self.check(["text.c", "macro.c"], "--readable")
        self.assertEqual((done.returncode, done.stdout), (1, FREED))
        self.assertRegex(done.stderr, r"(?m)^text\.c: not readable: .+$")
        self.assertIn("1 files checked, 1 not", done.stderr)

    def test_kept_files(self):
        self.check(["macro.c"], "--readable", "--keep", "kept")
        self.assertEqual(sorted(os.listdir(self.path("kept"))), ["0000_macro.c.i", "0000_macro.c.readable.i"])


@unittest.skipUnless(shutil.which("cc"), "there is no C compiler")
@unittest.skipUnless(shutil.which("ninja"), "there is no ninja")
class Ninja(Project):
    NAMES = ["plain.c", "drop.c", "again c.c", "lost.c"]

    def setUp(self):
        super().setUp()
        self.write("again c.c", "void drop(char *x) { }\nvoid k(char *p) { }\n")

    def build(self):
        """What a build does, in a sorted list, and what it leaves."""
        done = subprocess.run(["ninja", "-C", "out"], cwd=self.folder, capture_output=True, text=True, timeout=300)
        self.assertEqual(done.returncode, 0, done.stdout + done.stderr)
        steps = sorted(re.findall(r"(?m)^\[\d+/\d+\] (.*)$", done.stdout))
        return steps, self.read("out/reports.txt"), self.read("out/unchecked.txt"), self.read("out/status")

    def same_as_a_run(self, names, *options):
        self.assertEqual(self.check(names, *options, "--ninja", "out").returncode, 0)
        build, run = self.build(), self.check(names, *options)
        self.assertEqual(build[1:], (run.stdout, run.stderr, f"{run.returncode}\n"))
        return build

    def test_each_alone(self):
        steps, reports, said, status = self.same_as_a_run(self.NAMES)
        self.assertEqual((reports, status), (HEADER, "1\n"))
        self.assertEqual(len(steps), 3 * len(self.NAMES) + 1)
        self.assertIn("lost.c: not preprocessed", said)

    def test_together(self):
        steps, _, said, _ = self.same_as_a_run(self.NAMES, "--together")
        self.assertIn("again c.c: has a function that another file has too", said)
        self.assertEqual([step for step in steps if step.startswith("check")], ["check program 0"])

    def test_what_a_change_touches(self):
        self.check(["plain.c", "drop.c"], "--ninja", "out")
        self.build()
        self.assertEqual(self.build()[0], [])
        self.write("drop.c", FILES["drop.c"] + "int more;\n")
        self.assertEqual(self.build()[0], ["check drop.c", "preprocess drop.c", "read drop.c"])
        self.write("b.h", "\n" + FILES["b.h"])
        steps, reports, _, _ = self.build()
        self.assertEqual(steps, ["check plain.c", "collect reports", "preprocess plain.c", "read plain.c"])
        self.assertEqual(reports, HEADER.replace(":2:", ":3:"))

    def test_change_that_the_preprocessor_takes_away(self):
        self.check(["plain.c", "drop.c"], "--ninja", "out")
        self.build()
        self.write("drop.c", FILES["drop.c"].replace(" kfree(x)", " kfree(x)") + "/* a comment */\n")
        first = self.build()[0]
        self.assertEqual([step for step in first if step.startswith(("check", "read"))], [])

    def test_together_after_a_change(self):
        self.check(["plain.c", "drop.c"], "--together", "--ninja", "out")
        self.build()
        self.write("drop.c", FILES["drop.c"] + "int more;\n")
        self.assertEqual(self.build()[0], ["check program 0", "preprocess drop.c", "put files together", "read drop.c"])

    def test_header_that_appears(self):
        self.check(["lost.c"], "--ninja", "out")
        self.assertEqual(self.build()[3], "3\n")
        self.write("later.h", "\n")
        self.assertEqual(self.build()[2:], ("check_commands: 1 files checked, 0 not, 0 reports\n", "0\n"))

    def test_file_that_is_added(self):
        self.check(["plain.c"], "--ninja", "out")
        self.build()
        self.list_files(["drop.c", "plain.c"])
        steps = self.build()[0]
        self.assertEqual(steps, ["check drop.c", "collect reports", "preprocess drop.c", "read drop.c", "write the build file again"])

    def test_known_functions(self):
        if not os.path.exists(program.READABLE):
            self.skipTest("there is no tools/readable")
        self.write("known", "")
        words_of_run = ["--readable", "--known-unread", "known"]
        self.assertEqual(self.same_as_a_run(["jump.c", "drop.c"], *words_of_run)[3], "3\n")
        self.write("known", "jump.c: jump\n")
        steps, _, _, status = self.build()
        self.assertEqual((steps, status), (["collect reports"], "0\n"))
        self.same_as_a_run(["drop.c", "call.c", "jump.c"], "--readable", "--together", "--prune")


if __name__ == "__main__":
    sys.argv[1:] = sys.argv[1:] or ["-q"]
    unittest.main()
