"""Tries the ready checkers over their files by tools/try_checkers, and that program itself: what it tells, and its exit status.

checks/tools runs these tests.
"""
import glob
import os
import re
import shutil
import subprocess
import sys
import tempfile
import unittest

from program import ROOT, built

sys.path.insert(0, os.path.join(ROOT, "tools", "lib"))

from explain.graphs import transitions
from explain.machine import Machine

PROGRAM = os.environ["METALCHECK"] = built()
READY = os.path.join(ROOT, "examples", "checkers")
FREE = """sm m {
  state decl any_pointer v;
  start:   { kfree(v) } ==> v.freed;
  v.freed: { kfree(v) } ==> v.stop, { err("%s is freed twice", mc_identifier(v)); };
}
"""
BINARY = os.path.realpath(sys.executable)  # a file that is no text
TWICE = "void f(char *p)\n{\n    kfree(p);\n    kfree(p);  /* wants: p is freed twice */\n}\n"


def attempt(*words, folder=None, **environment):
    """What tools/try_checkers says with these words: its status, standard output and standard error."""
    done = subprocess.run([os.path.join(ROOT, "tools", "try_checkers"), *words], capture_output=True, text=True, timeout=600, cwd=folder,
                          env={**os.environ, **environment})
    return done.returncode, done.stdout, done.stderr


class Ready(unittest.TestCase):
    def checkers(self):
        return sorted(glob.glob(os.path.join(READY, "**", "*.metal"), recursive=True))

    def test_each_has_files(self):
        self.assertGreaterEqual(len(self.checkers()), 20)
        for checker in self.checkers():
            stem = checker[:-len(".metal")]
            with open(stem + "_bad.c", encoding="utf-8") as file:
                self.assertIn("/* wants: ", file.read(), checker)
            with open(stem + "_good.c", encoding="utf-8") as file:
                self.assertNotIn("wants:", file.read(), checker)

    def test_each_has_a_section(self):
        with open(os.path.join(ROOT, "docs", "CHECKERS.md"), encoding="utf-8") as file:
            told = re.findall(r"(?m)^### `([\w/]+)\.metal`", file.read())
        self.assertEqual(sorted(told), [os.path.relpath(checker, READY)[:-len(".metal")] for checker in self.checkers()])

    def test_loops_that_are_not_left(self):
        seen = 0
        for checker in self.checkers():
            with open(checker, encoding="utf-8") as file:
                ways = list(transitions(Machine(file.read())))
            states = {name for way in ways for name in (way[1], way[3])} - {"stop"}
            # one that follows nothing has no path to end
            for state in (one for one in states if "." not in one and len(states) > 1):
                for constant, left in (("0", "true"), ("1", "false")):
                    turns = {truth: target for _, source, asked, target, _ in ways for truth in ("true", "false")
                             if source == state and asked == f"{truth}: {{ {constant} }}"}
                    self.assertEqual(turns, {"true": state, "false": state, left: "stop"}, (checker, state))
                seen += 1
        self.assertGreater(seen, 30)

    @unittest.skipUnless(shutil.which("cc"), "there is no C compiler")
    def test_all_as_wanted(self):
        number = len(self.checkers())
        status, out, errs = attempt(os.path.relpath(READY, ROOT), folder=ROOT)
        self.assertEqual((status, out), (0, ""), errs)
        self.assertEqual(errs, f"try_checkers: {number} checkers, {2 * number} files, all as wanted\n")


class Box(unittest.TestCase):
    """A folder with m.metal, and what a test puts there."""

    def setUp(self):
        self.box = tempfile.TemporaryDirectory()
        self.addCleanup(self.box.cleanup)
        self.write("m.metal", FREE)

    def write(self, name, text):
        with open(os.path.join(self.box.name, name), "w", encoding="utf-8") as file:
            file.write(text)

    def attempt(self, *words, **environment):
        return attempt(*words, folder=self.box.name, **environment)


class Differences(Box):
    def test_all_as_wanted(self):
        self.write("m_bad.c", TWICE)
        self.write("m.c", "void f(char *p) { kfree(p); }\n")
        self.assertEqual(self.attempt("m.metal"), (0, "", "try_checkers: 1 checkers, 2 files, all as wanted\n"))
        self.assertEqual(self.attempt(".")[0], 0)

    def test_what_differs(self):
        self.write("m_bad.c", TWICE + "void g(char *q)\n{\n    kfree(q);  /* wants: q is lost */\n    kfree(q);\n}\n")
        self.assertEqual(self.attempt("m.metal"), (
            1, "m_bad.c:8: isn't reported: q is lost\nm_bad.c:9: isn't wanted: q is freed twice\n",
            "try_checkers: 1 checkers, 1 files, 2 differences, 0 refused\n"))

    def test_several_on_a_line(self):
        text = "void f(char *p, char *q) { kfree(p); kfree(q); kfree(p); kfree(q); } /* wants: q is freed twice; p is freed twice */\n"
        self.write("m_bad.c", text)
        self.assertEqual(self.attempt("m.metal")[0], 0)
        self.write("m_bad.c", "void f(char *p) { kfree(p); kfree(p); } /* wants: p is freed twice; p is freed twice */\n")
        self.assertEqual(self.attempt("m.metal")[1], "m_bad.c:1: isn't reported: p is freed twice\n")

    def test_message_that_never_comes(self):
        self.write("m_good.c", "void f(char *p) { kfree(p); }\n")
        self.assertEqual(self.attempt("m.metal")[:2], (1, "m.metal: the message of rule 2 is reported in none of its files\n"))

    def test_comments_and_strings_are_no_rules(self):
        self.write("m.metal", "// a ==> b, { err(1)\n" + FREE.replace("is freed", "==> is freed"))
        self.write("m_bad.c", TWICE.replace("is freed", "==> is freed"))
        self.assertEqual(self.attempt("m.metal")[:2], (0, ""))

    def test_named_files(self):
        self.write("m_bad.c", "void f(char *p) { kfree(p); kfree(p); }\n")
        self.write("other.c", TWICE)
        self.assertEqual(self.attempt("m.metal", "other.c")[0], 0)
        self.assertEqual(self.attempt("m.metal")[0], 1)

    def test_longest_name(self):
        self.write("m_two.metal", FREE.replace("twice", "again"))
        self.write("m_bad.c", TWICE)
        self.write("m_two_bad.c", TWICE.replace("twice", "again"))
        self.assertEqual(self.attempt("."), (0, "", "try_checkers: 2 checkers, 2 files, all as wanted\n"))

    def test_depth(self):
        member = "struct s { char *t; };\nvoid f(struct s *p)\n{\n    kfree(p->t);\n    kfree(p->t);  /* wants: p->t is freed twice */\n}\n"
        self.write("m_bad.c", member)
        self.assertEqual(self.attempt("m.metal")[0], 0)
        self.assertEqual(self.attempt("--depth", "1", "m.metal")[0], 1)
        self.write("m.metal", "// Run it with --depth 1.\n" + FREE)
        self.assertEqual(self.attempt("m.metal")[0], 1)
        self.assertEqual(self.attempt("--depth", "2", "m.metal")[0], 0)

    @unittest.skipUnless(shutil.which("cc"), "there is no C compiler")
    def test_preprocessed(self):
        self.write("kept.h", "static void drop(char *p) { kfree(p); kfree(p); }\n")
        self.write("m_bad.c", "#include \"kept.h\"\n#ifdef MORE\n" + TWICE + "#endif\nvoid g(char *p) { drop(p); }\n")
        out = self.attempt("--flags", "-DMORE", "m.metal")[1]
        self.assertRegex(out, r"\Am_bad\.c:1: isn't wanted: p is freed twice \(in (\./)?kept\.h\)\n\Z")
        self.assertEqual(self.attempt("m.metal", CC="cc -DMORE")[1], out)


class Refusals(Box):
    def check(self, status, said, *words, **environment):
        """That the words come to this status, that this is said, and that nothing is written to standard output."""
        seen, out, errs = self.attempt(*words, **environment)
        self.assertEqual((seen, out), (status, ""), errs)
        self.assertIn(said, errs)

    def test_words(self):
        self.check(2, "name a folder of checkers")
        self.check(2, "no.metal: there is no such file or folder", "no.metal")
        self.check(2, "--deep: the options are --flags", "--deep", "m.metal")
        self.check(2, "--depth: the options are --flags", "--depth", "9", "m.metal")
        self.check(2, "--flags -D': No closing quotation: mind the quotes", "--flags", "-D'", "m.metal")
        os.mkdir(os.path.join(self.box.name, "empty"))
        self.check(2, "empty: there is no checker in this folder", "empty")
        self.write("m_bad.c", TWICE)
        self.check(2, "m_bad.c: no folder, no checker", "m_bad.c")
        self.check(2, "m_bad.c: no folder, no checker", ".", "m_bad.c")

    def test_help(self):
        status, out, errs = self.attempt("--help")
        self.assertEqual((status, errs), (0, ""))
        self.assertIn("Usage: tools/try_checkers", out)

    def test_no_file(self):
        self.check(2, "m.metal: there is no file to try it on: write m_bad.c and m_good.c beside it", "m.metal")

    def test_wants_that_are_none(self):
        for text in ("/* wants: p is freed\n twice */", "// wants: p is freed twice"):
            self.write("m_bad.c", "void f(char *p) { kfree(p); }\n" + text + "\n")
            self.check(2, "m_bad.c:2: what is wanted stands between /* wants: and */, on one line", "m.metal")
        for text in ("/* wants: */", "/* wants: p is freed twice; */"):
            self.write("m_bad.c", text + "\n")
            self.check(2, "m_bad.c:1: a message is lacking", "m.metal")

    def test_refused_checker(self):
        self.write("m_bad.c", TWICE)
        self.write("m.metal", "sm m {\n")
        self.check(2, "m_bad.c: m.metal:1: refused: Syntax (docs/COMMAND.md says what it means)", "m.metal")

    def test_refused_file_and_the_others(self):
        self.write("m_bad.c", TWICE.replace("isn't", "is"))
        self.write("m_broken.c", "void f(char *p) { g(p) }\n")
        self.check(2, "m_broken.c: m_broken.c:1: refused: Syntax", "m.metal")
        self.check(2, "1 checkers, 2 files, 0 differences, 1 refused", "m.metal")

    @unittest.skipUnless(shutil.which("cc"), "there is no C compiler")
    def test_not_preprocessed(self):
        self.write("m_bad.c", "#include \"missing.h\"\n")
        self.check(2, "missing.h", "m.metal")
        self.check(2, "--flags hands options to the compiler", "m.metal")

    def test_no_compiler(self):
        self.write("m_bad.c", "#include \"missing.h\"\n")
        self.check(2, "name a C compiler by CC", "m.metal", CC="no-such-compiler")

    def test_no_program(self):
        self.write("m_bad.c", TWICE)
        self.check(5, "METALCHECK names the program", "m.metal", METALCHECK="./no-such-program")


class Judged(Box):
    """bench/judge_checkers over three programs: one is read as it is, one is made readable, and one isn't read."""

    HEAD = "| Checker | Program | Reports | Right | False | Not read | What is false |\n|---|---|---|---|---|---|---|\n"
    MOST = "judge_checkers: more reports of m are false than right\n"

    def setUp(self):
        super().setUp()
        again = "void g(char *q)\n{\n    kfree(q);\n    kfree(q);\n}\n"
        later = "void h(char *q) { kfree(q); for (int i = 0; i < 3; i++) kfree(q); }\n"
        for program, text in (("one", '# 1 "a.c"\n' + TWICE + again), ("three", '# 1 "b.c"\n' + later), ("two", "")):
            os.makedirs(os.path.join(self.box.name, "all", program, "preprocessed"))
            self.write(f"all/{program}/preprocessed/a.i", text)

    def judge(self, text, *words):
        self.write("judged", text)
        command = [os.path.join(ROOT, "bench", "judge_checkers"), "--jobs", "2", *(words or ("all", "judged", "m.metal"))]
        done = subprocess.run(command, capture_output=True, text=True, timeout=600, cwd=self.box.name)
        return done.returncode, done.stdout, done.stderr

    def test_table(self):
        status, out, errs = self.judge("right one m a.c:4 a remark\n\n# read\nfalse three m b.c:1 by a loop\n")
        rows = "| `m` | one | 2 | 1 | 0 | 1 |  |\n| `m` | three | 1 | 0 | 1 | 0 | by a loop |\n"
        self.assertEqual((status, out), (1, self.HEAD + rows + "?     one m a.c:9 q is freed twice\n"), errs)
        self.assertEqual(errs, "all/two/preprocessed/a.i: empty; was it preprocessed?\njudge_checkers: 3 files, 1 made readable, 1 not read\n")

    def test_status(self):
        self.assertEqual(self.judge("right one m a.c:4\nfalse one m a.c:9\nright three m b.c:1\n")[0], 0)
        status, _, errs = self.judge("right one m a.c:4\nfalse one m a.c:9\nfalse three m b.c:1\n")
        self.assertEqual((status, errs[-len(self.MOST):]), (1, self.MOST))

    def test_pruned(self):
        """With --prune nothing is reported in a function of a header that the main file doesn't reach."""
        low = '# 1 "c.c"\n# 1 "c.h" 1\nstatic void low(char *q) { kfree(q); kfree(q); }\n# 2 "c.c" 2\nint f(void) { return ({ 1; }); }\n'
        os.makedirs(os.path.join(self.box.name, "all", "four", "preprocessed"))
        self.write("all/four/preprocessed/a.i", low)
        words = ("--programs", "four", "all", "judged", "m.metal")
        self.assertEqual(self.judge("", *words)[1].count("?"), 1)
        self.assertEqual(self.judge("", "--prune", *words)[1].count("?"), 0)

    def test_unended(self):
        """A checker that doesn't end on a file in its time is told, and the others are run without it."""
        self.write("slow.metal", FREE.replace("sm m", "sm slow"))
        self.write("program", f'#!/bin/bash\ncase "$*" in *slow.metal*) exec sleep 60; esac\nexec {os.environ["METALCHECK"]} "$@"\n')
        os.chmod(os.path.join(self.box.name, "program"), 0o755)
        os.environ["METALCHECK"], before = os.path.join(self.box.name, "program"), os.environ["METALCHECK"]
        try:
            words = ("--seconds", "2", "--programs", "one", "all", "judged", "slow.metal", "m.metal")
            status, out, errs = self.judge("right one m a.c:4\nright one m a.c:9\n", *words)
        finally:
            os.environ["METALCHECK"] = before
        self.assertEqual((status, out), (1, self.HEAD + "| `m` | one | 2 | 2 | 0 | 0 |  |\n"), errs)
        self.assertIn("all/one/preprocessed/a.i: slow doesn't end in 2 seconds\n", errs)

    def test_what_is_kept(self):
        self.assertEqual(self.judge("")[1].count("?"), 3)
        for name in ("one/a.json", "three/a.i"):
            self.assertTrue(os.path.exists(os.path.join(self.box.name, "all", "judged", name)), name)
        os.environ["METALCHECK"], before = os.path.join(self.box.name, "none"), os.environ["METALCHECK"]
        try:
            self.assertEqual(self.judge("")[0], 5)
            shutil.copy(before, os.environ["METALCHECK"])
            self.assertEqual(self.judge("")[1].count("?"), 3)
        finally:
            os.environ["METALCHECK"] = before
        self.write("m.metal", FREE.replace("v.freed: {", "v.freed: { other(v) } ==> v.stop | {"))
        self.write("all/one/preprocessed/a.i", '# 1 "a.c"\n' + TWICE)
        self.assertEqual(self.judge("")[1].count("?"), 2)

    def test_functions_that_do_not_come_back(self):
        self.write("all/one/preprocessed/a.i", '# 1 "a.c"\n' + TWICE.replace("kfree(p);\n", "kfree(p);\n    die(1);\n", 1))
        self.write("m.metal", FREE.replace("state decl", "decl any_arguments how;\n  state decl").replace(
            "start:   {", "start:   { exit(how) } ==> stop | {"))
        words = ("--programs", "one", "all", "judged", "m.metal")
        self.assertEqual(self.judge("", *words)[1].count("?"), 1)
        self.assertEqual(self.judge("ends one give_up die\n", *words)[1].count("?"), 0)
        self.write("m.metal", """sm m {
  decl any_arguments how;
  start: { kfree(how) } ==> gone | { exit(how) } ==> stop;
  gone:  { kfree(how) } ==> start, { err("freed twice"); } | { exit(how) } ==> stop;
}
""")
        self.assertEqual(self.judge("", *words)[1].count("?"), 1)
        self.assertEqual(self.judge("ends one give_up die\n", *words)[1].count("?"), 0)

    def test_programs(self):
        self.assertEqual(self.judge("", "--programs", "three", "all", "judged", "m.metal")[1].count("?"), 1)

    def test_refusals(self):
        for text, words, said in (("wrong one m a.c:4\n", (), "judged:1: a line is `right PROGRAM CHECKER FILE:LINE REMARK`, `false ..`, or `ends PROGRAM"),
                                  ("", ("all", "none"), "none: not read: No such file or directory; an empty file will do"),
                                  ("", ("all", "all/one"), "all/one: not read: Is a directory; an empty file will do"),
                                  ("", ("all", BINARY), f"{BINARY}: no text; an empty file will do"),
                                  ("", ("nowhere", "judged"), "nowhere: there is no PROGRAM/preprocessed/*.i in this folder"),
                                  ("", ("--programs", "four", "all", "judged"), "all/four: there is no preprocessed/*.i in this folder"),
                                  ("", ("all", "judged", "no.metal"), "no.metal: not read"),
                                  ("", ("all",), "the following arguments are required: JUDGEMENTS")):
            status, out, errs = self.judge(text, *words)
            self.assertEqual((status, out), (2, ""), errs)
            self.assertIn(said, errs)


if __name__ == "__main__":
    sys.argv[1:] = sys.argv[1:] or ["-q"]
    unittest.main()
