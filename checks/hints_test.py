"""The tests of the hints that tools/explain gives on checkers. checks/tools runs them."""
import glob
import os
import shutil
import subprocess
import sys
import tempfile
import unittest

from program import ROOT, built
from scripts import cases

os.environ["METALCHECK"] = built()
sys.path.insert(0, os.path.join(ROOT, "tools", "lib"))

from commands.entries import FLAGS
from explain import command
from explain.hints import hints_of
from explain.machine import Machine


class Hints(unittest.TestCase):
    def told(self, rules, text="", declared="state decl any_pointer v;"):
        """The hints on a checker with these rules, each with what stands at its place."""
        machine = Machine("sm m { " + declared + " " + rules + " }")
        self.assertIsNone(machine.fault)
        return [(machine.spelled(at), says) for at, says in hints_of(machine, [text] if text else [])]

    def test_none_on_ready_checkers(self):
        runner = cases()
        seen = 0
        for folder, _, names in os.walk(os.path.join(ROOT, "examples")):
            # those in examples/explain have slips to be shown
            for name in (name for name in names if name.endswith(".metal") and os.path.basename(folder) != "explain"):
                with open(os.path.join(folder, name), encoding="latin-1") as file:
                    machine = Machine(file.read())
                self.assertEqual((machine.fault, hints_of(machine, [])), (None, []), name)
                seen += 1
        self.assertGreater(seen, 20)
        for name in (name for name in runner.all_cases() if name.startswith("examples/")):
            with tempfile.TemporaryDirectory() as folder:
                words = runner.read(os.path.join(runner.CASES, name + ".case"), folder)[0]
                files = [os.path.join(folder, word) for word in words if os.path.exists(os.path.join(folder, word))]
                self.assertEqual(command.hints(*command.files_among(files)), [], name)

    @unittest.skipUnless(shutil.which("cc"), "there is no C compiler")
    def test_none_on_ready_checkers_over_their_files(self):
        for checker in glob.glob(os.path.join(ROOT, "examples", "checkers", "**", "*.metal"), recursive=True):
            with open(checker, encoding="latin-1") as file:
                machine = Machine(file.read())
            for source in (checker.replace(".metal", end) for end in ("_bad.c", "_good.c")):
                text = subprocess.run(["cc", *FLAGS, source], capture_output=True, text=True, check=True).stdout
                self.assertEqual(hints_of(machine, [text], False), [], source)

    def test_states(self):
        self.assertEqual([it[0] for it in self.told("start: { f(v) } ==> v.a; v.b: { g(v) } ==> v.stop;")], ["v", "v"])
        found = self.told("start: { f(v) } ==> v.a; v.a: { g(v) } ==> v.stop; v.b: { g(v) } ==> v.stop;")
        self.assertIn("no rule leads to v.b, so no rule of it is ever taken; states that are led to: v.a", found[0][1])
        self.assertEqual(self.told("start: { f(v) } ==> v.a; v.a: { g(v) } ==> v.stop;"), [])

    def test_states_that_lead_to_each_other_alone(self):
        found = self.told("start: { f(v) } ==> v.a; v.b: { f(v) } ==> v.b | { g(v) } ==> v.stop;")
        self.assertIn("no way leads from start to v.b, so no rule of it is ever taken; states that are led to: v.a", [it[1] for it in found])
        found = self.told("start: { f(v) } ==> v.stop; v.c: { f(v) } ==> v.b; v.b: { f(v) } ==> v.c;")
        self.assertEqual([says.split(",")[0] for _, says in found], ["no way leads from start to v.c"])
        found = self.told("start: { f(v) } ==> v.stop; v.c: { f(v) } ==> v.stop; v.b: { f(v) } ==> v.c;")
        self.assertEqual([says.split(",")[0] for _, says in found], ["no rule leads to v.b"])

    def test_unused_hole(self):
        rules = "start: { f(v) } ==> v.stop;"
        self.assertEqual(self.told(rules, declared="state decl any_pointer v; decl any_expr x;"), [("x", "the hole x stands in no rule")])

    def test_no_branch(self):
        for pattern in ("!f(v)", "f(v) == 0", "(f(v) != 0)", "a && f(v)", "f(v) || a", "f(v) ? a : b", "a, f(v)"):
            found = self.told("start: { %s } ==> true=v.a, false=v.stop; v.a: { g(v) } ==> v.stop;" % pattern)
            self.assertEqual(len(found), 1, pattern)
            self.assertIn("no branch is this", found[0][1])
        for pattern in ("f(v)", "v", "f(v) == 1", "f(v) & 1", "v = x"):
            self.assertEqual(self.told("start: { %s } ==> true=v.a, false=v.stop; v.a: { g(v) } ==> v.stop;" % pattern), [], pattern)

    def test_macros(self):
        found = self.told("start: { v = NULL } ==> v.a; v.a: { g(v) } ==> v.stop;")
        self.assertEqual([name for name, _ in found], ["NULL"])
        self.assertIn("is a macro", found[0][1])

    def test_names_that_no_file_has(self):
        rules = "start: { mutex_lokc(v) } ==> v.a; v.a: { mutex_unlock(v) } ==> v.stop;"
        found = self.told(rules, "void f(int *m) { mutex_lock(m); mutex_unlock(m); }")
        self.assertEqual([name for name, _ in found], ["mutex_lokc", "mutex_lokc"])
        self.assertIn("mutex_lock does: is it misspelt?", " ".join(says for _, says in found))
        self.assertIn("nothing can come of this checker here", " ".join(says for _, says in found))
        self.assertEqual(self.told(rules.replace("lokc", "lock"), "void f(int *m) { mutex_lock(m); }"), [])

    def test_names_that_are_no_holes(self):
        rules = "start: { v = take(x, y) } ==> v.a; v.a: { give(v) } || { drop(v, z) } ==> v.stop;"
        text = "void f(int *m, int x) { m = take(x, 1); give(m); }"
        self.assertEqual([name for name, _ in self.told(rules, text)], ["y"])
        self.assertIn("declare it, as by `decl any_expr y;`", self.told(rules, text)[0][1])
        self.assertEqual(self.told(rules, text, "state decl any_pointer v; decl any_expr y;"), [])

    def test_names_that_no_file_has_and_that_are_right(self):
        system = '# 1 "/usr/include/stdlib.h" 1 3 4\nvoid *valloc(int);\nint _Exit(int);\n# 2 "a.c" 2\n'
        rules = "start: { %s(v) } || { exit(v) } ==> v.a; v.a: { g(v) } ==> v.stop;"
        self.assertEqual(self.told(rules % "vmalloc", system + "void f(int *p) { exit(p); g(p); }"), [])
        self.assertEqual([name for name, _ in self.told(rules % "vmalloc", system + "void f(int *p) { vmaloc(p); g(p); }")],
                         ["vmalloc", "vmalloc"])
        self.assertEqual(self.told(rules % "vmalloc", system + "void f(int *p) { vmaloc(p); exit(p); g(p); }"), [])
        # what only a state has that isn't reached
        rules = "start: { h(v) } || { open(v) } ==> v.a; v.a: { fflush(v) } ==> v.stop;"
        self.assertEqual([name for name, _ in self.told(rules, "void f(int *p) { flush(p); }")], ["h"])


if __name__ == "__main__":
    sys.argv[1:] = sys.argv[1:] or ["-q"]
    unittest.main()
