"""The tests of comments that silence reports, and of tools/check. checks/tools runs them."""
import contextlib
import json
import os
import shutil
import subprocess
import sys
import tempfile
import unittest

from program import ROOT, built

PROGRAM = os.environ["METALCHECK"] = built()
sys.path.insert(0, os.path.join(ROOT, "tools", "lib"))

from report_lines import Report, report_of
from silenced.comments import Comment, Commented, comments_of, commented_files, from_json
from silenced.silencer import Silencer, checker_names, with_reason

FREE = os.path.join(ROOT, "examples", "free.metal")
SOURCES = {
    "a.h": "void kfree(void *);\n"
           "static inline char last(char *x) { kfree(x); return *x; } // metalcheck: free_checker -- read before it is given back\n",
    "a.c": '#include "a.h"\n'
           "void f(char *p, int keep)\n"
           "{\n"
           "    kfree(p);\n"
           "    if (keep)\n"
           "        /* metalcheck: free_checker -- a debug build\n"
           "         * keeps the page */\n"
           "        *p = 1;\n"
           "    *p = 2;\n"
           "}\n"
           "/* metalcheck: free_checker -- nothing is wrong here */\n"
           "void g(char *p) { *p = 1; }\n"
           "/* metalcheck: other -- no checker of this run */\n"
           "/* metalcheck: free_checker */\n",
}
KEPT = "a.c:9:5: free_checker: using p after free!\n"
IDLE = "a.c:11: this comment silences nothing: free_checker has no report here. Take it out\n"
WRONG = "a.c:14: this comment silences nothing: write /* metalcheck: CHECKER -- reason */\n"


def tool(name, *words, given="", folder=None, **more):
    return subprocess.run([os.path.join(ROOT, "tools", name), *words], input=given, capture_output=True, text=True, timeout=300, cwd=folder,
                          env={**os.environ, **more})


class Lines(unittest.TestCase):
    WANTED = Report("src/a b.c", 12, 5, "lock")

    def test_each_style(self):
        self.assertEqual(report_of("src/a b.c:12:5: lock: held: twice"), self.WANTED)
        self.assertEqual(report_of("      12:5     lock                 src/a b.c: held: twice"), self.WANTED)
        line = '{"file":"src/a b.c","line":12,"col":5,"checker":"lock","rule":1,"object":null,"message":"held"}'
        self.assertEqual(report_of(line), self.WANTED)

    def test_other_lines(self):
        for line in ("2 reports", "", "a.c:2: refused: Syntax", "{}", "{", "functions 18, bytes 580, reports 3"):
            self.assertIsNone(report_of(line), line)


class Comments(unittest.TestCase):
    def test_forms(self):
        text = ('int a; /* metalcheck: lock -- held by design */\n// metalcheck: irq -- off\n'
                '/*metalcheck:x--no blanks*/ /** metalcheck: y --  two\n * lines */\nchar *s = "/* metalcheck: z -- text */";\n'
                "/* for metalcheck: lock -- no */ // metalcheck: lock\n/* metalcheck: lock -- */\n")
        self.assertEqual(list(comments_of(text)), [
            Comment(1, 1, "lock", "held by design"), Comment(2, 2, "irq", "off"), Comment(3, 3), Comment(3, 4, "y", "two lines"),
            Comment(6, 6), Comment(7, 7)])

    def test_lines(self):
        comment = Comment(3, 4, "lock", "why")
        self.assertEqual([line for line in range(1, 8) if comment.covers(line)], [3, 4, 5])

    def test_sources_of_a_preprocessed_file(self):
        with tempfile.TemporaryDirectory() as folder:
            for name, text in SOURCES.items():
                with open(os.path.join(folder, name), "w", encoding="utf-8") as file:
                    file.write(text)
            path = os.path.join(folder, "a.i")
            with open(path, "w", encoding="utf-8") as file:
                file.write('# 1 "a.c"\n# 1 "<built-in>"\n# 1 "a.h" 1\n# 1 "/usr/include/stdio.h" 1 3 4\n# 2 "a.c" 2\n# 9 "gone.c"\n')
            found = commented_files(path, folder)
        self.assertEqual([it.name for it in found], ["a.c", "a.h"])
        self.assertEqual(found[1].comments, (Comment(2, 2, "free_checker", "read before it is given back"),))
        self.assertEqual(from_json(json.loads(json.dumps(found))), found)

    def test_names_of_checkers(self):
        self.assertEqual(checker_names([FREE]), ["free_checker"])


class Judged(unittest.TestCase):
    """Which reports are silenced, and what is told."""

    def silencer(self, **files):
        """One of files by their places, all of them named a.c."""
        return Silencer(["lock"], [Commented("a.c", path, tuple(comments)) for path, comments in files.items()])

    def test_the_line_and_the_one_below(self):
        silencer = self.silencer(one=[Comment(4, 4, "lock", "why")])
        self.assertEqual([line for line in range(1, 9) if silencer.reason(f"a.c:{line}:1: lock: held")], [4, 5])
        self.assertEqual((silencer.counted(), silencer.told()), (", 2 silenced", []))

    def test_only_its_checker_and_its_file(self):
        silencer = self.silencer(one=[Comment(4, 4, "lock", "why")])
        for line in ("a.c:4:1: irq: held", "b.c:4:1: lock: held", "a.c:4: refused: Syntax", "1 reports"):
            self.assertTrue(silencer.keeps(line), line)
        self.assertEqual(silencer.counted(), "")
        self.assertEqual(silencer.told(), ["a.c:4: this comment silences nothing: lock has no report here. Take it out"])

    def test_the_nearest_counts(self):
        silencer = self.silencer(one=[Comment(4, 4, "lock", "above"), Comment(5, 5, "lock", "beside")])
        self.assertEqual(silencer.reason("a.c:5:1: lock: held"), "beside")
        self.assertEqual(len(silencer.told()), 1)

    def test_files_of_one_name_all_have_to_silence(self):
        silencer = self.silencer(one=[Comment(4, 4, "lock", "why")], other=[])
        self.assertIsNone(silencer.reason("a.c:4:1: lock: held"))
        silencer = self.silencer(one=[Comment(4, 4, "lock", "why")], other=[Comment(3, 3, "lock", "why")])
        self.assertEqual(silencer.reason("a.c:4:1: lock: held"), "why")

    def test_other_checkers_are_not_told(self):
        self.assertEqual(self.silencer(one=[Comment(4, 4, "irq", "why")]).told(), [])

    def test_a_line_of_json_keeps_its_bytes(self):
        line = '{"file":"src/\\u00c3\\u00a9.c","line":7,"col":3,"checker":"irq","rule":4,"object":null,"message":"left \\"off\\""}'
        self.assertEqual(with_reason(line, "caf\u00c3\u00a9"), line[:-1] + ',"silenced":"caf\\u00c3\\u00a9"}')


class Sarif(unittest.TestCase):
    LINE = '{"file":"a.c","line":%d,"col":5,"checker":"lock","rule":2,"object":"p","message":"held"%s}\n'

    def results(self, given):
        done = tool("sarif", given=given)
        self.assertEqual((done.returncode, done.stderr), (0, ""))
        return json.loads(done.stdout)["runs"][0]["results"]

    def test_a_silenced_report_is_suppressed(self):
        found = self.results(self.LINE % (1, ',"silenced":"held by d\\u00c3\\u00a9sign"') + self.LINE % (2, ""))
        self.assertEqual([it["suppressions"] for it in found],
                         [[{"kind": "inSource", "status": "accepted", "justification": "held by d\u00e9sign"}], []])

    def test_without_one_nothing_is_said(self):
        self.assertNotIn("suppressions", self.results(self.LINE % (1, ""))[0])


class Folder(unittest.TestCase):
    """Tests in a folder with the sources."""

    def setUp(self):
        self.box = tempfile.TemporaryDirectory()
        self.addCleanup(self.box.cleanup)
        self.folder = self.box.name
        for name, text in SOURCES.items():
            self.write(name, text)

    def write(self, name, text):
        with open(os.path.join(self.folder, name), "w", encoding="utf-8") as file:
            file.write(text)


@unittest.skipUnless(shutil.which("cc"), "there is no C compiler")
class CheckCommands(Folder):
    def check(self, *words, names=("a.c",)):
        listed = [{"directory": self.folder, "file": name, "command": f"cc -c {name}"} for name in names]
        self.write("commands.json", json.dumps(listed))
        return tool("check_commands", *words, FREE, "commands.json", folder=self.folder)

    def test_lines(self):
        done = self.check()
        self.assertEqual((done.returncode, done.stdout), (1, KEPT))
        self.assertEqual(done.stderr, IDLE + WRONG + "check_commands: 1 files checked, 0 not, 1 reports, 2 silenced\n")

    def test_json_and_sarif(self):
        done = self.check("--json")
        found = [json.loads(line) for line in done.stdout.splitlines()]
        self.assertEqual([it.get("silenced") for it in found], ["read before it is given back", "a debug build keeps the page", None])
        log = json.loads(tool("sarif", given=done.stdout).stdout)
        self.assertEqual([len(it["suppressions"]) for it in log["runs"][0]["results"]], [1, 1, 0])

    def test_a_name_that_is_not_ascii(self):
        self.write("d\u00e9.c", SOURCES["a.c"].replace('#include "a.h"', ""))
        done = self.check(names=("d\u00e9.c",))
        self.assertEqual((done.returncode, done.stdout), (1, KEPT.replace("a.c", "d\u00e9.c")))
        self.assertTrue(done.stderr.startswith((IDLE + WRONG).replace("a.c", "d\u00e9.c")), done.stderr)

    def test_all_silenced_is_clean(self):
        self.write("a.c", "void kfree(void *);\nvoid f(char *p) { kfree(p); *p; } // metalcheck: free_checker -- a test\n")
        done = self.check()
        self.assertEqual((done.returncode, done.stdout), (0, ""))
        self.assertEqual(done.stderr, "check_commands: 1 files checked, 0 not, 0 reports, 1 silenced\n")

    def test_explain(self):
        self.write("b.c", "int f(int n)\n{\n    return ({ n; });\n}\n")
        done = self.check("--explain", names=("a.c", "b.c"))
        self.assertEqual((done.returncode, done.stdout), (1, KEPT))
        refused = "b.c: b.c:1: refused: Syntax\n  b.c:3: this isn't read: `({ .. })`\n      3 |     return ({ n; });\n        |            ^\n"
        self.assertIn(refused, done.stderr)
        self.assertIn("      9 |     *p = 2;\n        |     ^\n", done.stderr)
        self.assertEqual(self.check("--explain", "--ninja", "out").returncode, 2)

    @unittest.skipUnless(shutil.which("ninja"), "there is no ninja")
    def test_a_build_sees_new_comments(self):
        self.assertEqual(self.check("--ninja", "out").returncode, 0)
        for silenced, status in ((False, "1"), (True, "0")):
            if silenced:
                self.write("a.c", SOURCES["a.c"].replace("*p = 2;", "*p = 2; // metalcheck: free_checker -- a test"))
            subprocess.run(["ninja", "-C", "out"], cwd=self.folder, capture_output=True, check=True)
            with contextlib.ExitStack() as files:
                reports, unchecked, end = [files.enter_context(open(os.path.join(self.folder, "out", name), encoding="utf-8")).read()
                                           for name in ("reports.txt", "unchecked.txt", "status")]
            self.assertEqual((reports, end.strip()), ("" if silenced else KEPT, status))
            self.assertIn(IDLE + WRONG, unchecked)
            self.assertIn("3 silenced" if silenced else "2 silenced", unchecked)


class Check(Folder):
    def check(self, *words, **more):
        return tool("check", *words, folder=self.folder, **more)

    @unittest.skipUnless(shutil.which("cc"), "there is no C compiler")
    def test_from_source_to_report(self):
        done = self.check(FREE, "--", "a.c", "-O2", "-c", "-o", "a.o")
        self.assertEqual((done.returncode, done.stdout), (1, KEPT))
        self.assertEqual(done.stderr, "      9 |     *p = 2;\n        |     ^\n" + IDLE + WRONG + "check: 1 reports, 2 silenced\n")
        self.assertEqual(sorted(os.listdir(self.folder)), ["a.c", "a.h"])

    @unittest.skipUnless(shutil.which("cc"), "there is no C compiler")
    def test_options_of_the_compiler(self):
        self.write("b.c", "void kfree(void *);\nvoid f(char *p) { kfree(p); USE(p); }\n")
        done = self.check("--depth", "1", FREE, "--", "b.c", "-DUSE(p)=*p")
        self.assertEqual((done.returncode, done.stdout), (1, "b.c:2:29: free_checker: using p after free!\n"))
        self.assertEqual(self.check(FREE, "--", "b.c", "-DUSE(p)=").returncode, 0)

    @unittest.skipUnless(shutil.which("cc"), "there is no C compiler")
    def test_several_files_are_one_program(self):
        self.write("b.c", "void drop(char *);\nvoid f(char *p) { drop(p); *p = 1; }\n")
        self.write("c.c", "void kfree(void *);\nvoid drop(char *p) { kfree(p); }\n")
        self.assertEqual(self.check(FREE, "--", "b.c", "c.c").stdout, "b.c:2:28: free_checker: using p after free!\n")

    @unittest.skipUnless(shutil.which("cc"), "there is no C compiler")
    def test_refused(self):
        self.write("b.c", "int f(int n) { return ({ n; }); }\n")
        done = self.check("--", "b.c")
        self.assertEqual((done.returncode, done.stdout), (3, ""))
        self.assertTrue(done.stderr.startswith("b.c:1: refused: Syntax\n  b.c:1: this isn't read: `({ .. })`\n"), done.stderr)

    @unittest.skipUnless(shutil.which("cc"), "there is no C compiler")
    def test_a_file_that_is_too_large(self):
        self.write("b.c", "int a;\n" * 2500000)
        done = self.check("--", "b.c")
        self.assertEqual((done.returncode, done.stdout), (3, ""))
        self.assertRegex(done.stderr, r"\Ab\.c:1: refused: TooLarge\n  b\.c: the file has more than 16,777,216 bytes")

    def test_a_preprocessed_file(self):
        self.write("b.i", "void f(char *p) { kfree(p); *p = 1; }\n")
        done = self.check(FREE, "--", "b.i", CC="no-such-cc")
        self.assertEqual((done.returncode, done.stdout), (1, "b.i:1:29: free_checker: using p after free!\n"))

    @unittest.skipUnless(shutil.which("cc"), "there is no C compiler")
    def test_not_preprocessed(self):
        self.write("b.c", '#include "missing.h"\n')
        done = self.check(FREE, "--", "a.c", "b.c")
        self.assertEqual((done.returncode, done.stdout), (2, ""))
        self.assertIn("missing.h", done.stderr)
        self.assertIn("check: b.c isn't preprocessed (cc ended with status 1): give the options", done.stderr)

    def test_what_fails_while_it_is_read(self):
        for name, words in (("m.metal", ["m.metal", "--", "b.i"]), ("c.i", [FREE, "--", "c.i"])):
            self.write("b.i", "int n;\n")
            os.symlink("/proc/self/mem", os.path.join(self.folder, name))
            done = self.check(*words)
            self.assertEqual((done.returncode, done.stdout), (4, ""))
            self.assertEqual(done.stderr, f"{name}: not read\n  {name} is there and can't be read: look at its rights\n")

    def test_without_a_compiler(self):
        done = self.check(FREE, "--", "a.c", CC="no-such-cc")
        self.assertEqual((done.returncode, done.stdout), (2, ""))
        self.assertIn("name a C compiler in CC", done.stderr)

    def test_wrong_words(self):
        for words, says in (([FREE], "there is no `--`"), ([FREE, "--"], "there is no C file behind"),
                            (["a.c", "--", "a.c"], "a.c: before `--` stand checkers"),
                            (["--json", "--", "a.c"], "--json: before `--` stand --depth N and checkers"),
                            (["no.metal", "--", "a.c"], "no.metal: there is no such"),
                            ([FREE, "--", "no.c"], "no.c: there is no such"), ([FREE, "--", ".", "-I."], ".: it is a folder"),
                            ([FREE, "--", "a.c", "-I.", "b.c"], "b.c: C files stand before"),
                            ([FREE, "--depth", "1", "--", "a.c"], "--depth: options stand before the checkers"),
                            (["--", "a.c", FREE], FREE + ": checkers stand before `--`"), (["--", "a.cpp"], "a.cpp: C++ isn't read"),
                            (["--", "a.o"], "a.o: behind `--` stand C files, whose names end in .c, .h or .i")):
            done = self.check(*words)
            self.assertEqual((done.returncode, done.stdout), (2, ""), words)
            self.assertTrue(done.stderr.startswith("check: " + says), (words, done.stderr))


if __name__ == "__main__":
    sys.argv[1:] = sys.argv[1:] or ["-q"]
    unittest.main()
