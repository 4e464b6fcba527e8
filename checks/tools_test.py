"""The tests of tools/: what they write, and their exit status. checks/tools runs them."""
import json
import os
import re
import shutil
import subprocess
import sys
import tempfile
import unittest

from program import ROOT, built

PROGRAM = os.environ["METALCHECK"] = built()
FREE = os.path.join(ROOT, "examples", "free.metal")
LINE = '{"file":"src/a.c","line":%d,"col":28,"checker":"free_checker","rule":2,"object":"p","message":"using p after free!"}\n'
GLOBAL = '{"file":"src/\\u00c3\\u00a9 b.c","line":7,"col":3,"checker":"irq","rule":4,"object":null,"message":"left \\"off\\""}\n'


def tool(name, *words, given="", folder=None):
    return subprocess.run([os.path.join(ROOT, "tools", name), *words], input=given, capture_output=True, text=True, timeout=300, cwd=folder)


class Sarif(unittest.TestCase):
    def log(self, given, *words):
        done = tool("sarif", *words, given=given)
        self.assertEqual((done.returncode, done.stderr), (0, ""))
        return json.loads(done.stdout)

    def test_results(self):
        log = self.log(LINE % 1 + GLOBAL)
        self.assertEqual(log["version"], "2.1.0")
        self.assertIn("sarif-2.1.0", log["$schema"])
        driver, results = log["runs"][0]["tool"]["driver"], log["runs"][0]["results"]
        self.assertEqual(driver["name"], "metalcheck")
        self.assertEqual([rule["id"] for rule in driver["rules"]], ["free_checker/2", "irq/4"])
        for one in results:
            self.assertEqual(driver["rules"][one["ruleIndex"]]["id"], one["ruleId"])
        place = results[0]["locations"][0]["physicalLocation"]
        self.assertEqual(place, {"artifactLocation": {"uri": "src/a.c"}, "region": {"startLine": 1}})
        self.assertEqual(results[0]["message"]["text"], "using p after free!")
        self.assertEqual(results[0]["properties"]["object"], "p")
        self.assertNotIn("object", results[1]["properties"])

    def test_texts(self):
        one = self.log(GLOBAL)["runs"][0]["results"][0]
        self.assertEqual(one["locations"][0]["physicalLocation"]["artifactLocation"]["uri"], "src/%C3%A9%20b.c")
        self.assertEqual(one["message"]["text"], 'left "off"')

    def test_options(self):
        place = self.log(LINE % 5, "--root", "src/", "--columns")["runs"][0]["results"][0]["locations"][0]["physicalLocation"]
        self.assertEqual(place, {"artifactLocation": {"uri": "a.c"}, "region": {"startLine": 5, "startColumn": 28}})

    def test_fingerprints(self):
        def prints(given):
            return [one["partialFingerprints"]["metalcheck/v1"] for one in self.log(given)["runs"][0]["results"]]
        self.assertEqual(prints(LINE % 1), prints(LINE % 9))
        first, second = prints(LINE % 1 + LINE % 2)
        self.assertNotEqual(first, second)

    def test_no_report(self):
        self.assertEqual(self.log("")["runs"][0]["results"], [])

    def test_what_is_no_report(self):
        for given in ("a.c:1:28: free_checker: using p after free!\n", LINE % 1 + "\n{}\n", "[]\n", '"a"\n', LINE % 1 + "caf\u00e9\n"):
            done = tool("sarif", given=given)
            self.assertEqual((done.returncode, done.stdout), (2, ""), given)
            number = given.count("\n")
            self.assertTrue(done.stderr.startswith(f"sarif: standard input:{number}: no report of `metalcheck --format json`"), done.stderr)

    def test_no_file(self):
        done = tool("sarif", "no.jsonl")
        self.assertEqual((done.returncode, done.stdout), (2, ""))
        self.assertEqual(done.stderr, "sarif: no.jsonl: No such file or directory: name a file that tools/check_commands --json wrote\n")

    def test_a_report_without_an_object(self):
        found = self.log('{"file":"a.c","line":1,"col":2,"checker":"m","rule":1,"message":"held"}\n')["runs"][0]["results"]
        self.assertEqual(found[0]["properties"], {"preprocessedColumn": 2})

    def test_lines_of_the_program(self):
        with tempfile.TemporaryDirectory() as folder:
            with open(os.path.join(folder, "a.c"), "w", encoding="utf-8") as file:
                file.write("void f(char *p){ kfree(p); *p; }\n")
            done = subprocess.run([PROGRAM, "--format", "json", FREE, "a.c"], cwd=folder, capture_output=True, text=True)
        self.assertEqual(done.returncode, 1)
        results = self.log(done.stdout)["runs"][0]["results"]
        self.assertEqual([one["message"]["text"] for one in results], ["using p after free!"])


FILES = {
    "b.h": "void kfree(void *);\nstatic inline char last(char *x) { kfree(x); return *x; }\n",
    "a.c": '#include "b.h"\n#define DROP(x) drop(x)\nvoid f(char *p)\n{\n    DROP(p);\n    *p = 1;\n}\nchar g(char *p) { return last(p); }\n',
    "drop.c": '#include "b.h"\nvoid drop(char *x) { kfree(x); }\nchar h(char *p) { return last(p); }\n',
    "later.c": '#include "b.h"\nint g(char *p) { for (int i = 0; i < 3; i++) p++; return *p; }\n',
    "lost.c": '#include "missing.h"\n',
    "again.c": "void drop(char *x) { }\nvoid k(char *p) { drop(p); kfree(p); *p = 0; }\n",
}
IN_HEADER = "b.h:2:53: free_checker: using x after free!\n"


@unittest.skipUnless(shutil.which("cc"), "there is no C compiler")
class CheckCommands(unittest.TestCase):
    def setUp(self):
        self.box = tempfile.TemporaryDirectory()
        self.folder = self.box.name
        for name, text in FILES.items():
            with open(os.path.join(self.folder, name), "w", encoding="utf-8") as file:
                file.write(text)

    def tearDown(self):
        self.box.cleanup()

    def check(self, names, *words):
        listed = [{"directory": self.folder, "file": name, "command": f"cc -O2 -Wall -I. -MMD -MF {name}.d -c {name} -o {name}.o"} for name in names]
        with open(os.path.join(self.folder, "commands.json"), "w", encoding="utf-8") as file:
            json.dump(listed, file)
        return tool("check_commands", *words, FREE, "commands.json", folder=self.folder)

    def test_each_alone(self):
        done = self.check(["a.c", "drop.c"])
        self.assertEqual((done.returncode, done.stdout), (1, IN_HEADER))
        self.assertEqual(done.stderr, "check_commands: 2 files checked, 0 not, 1 reports\n")

    def test_together(self):
        done = self.check(["a.c", "drop.c"], "--together")
        self.assertEqual((done.returncode, done.stdout), (1, IN_HEADER + "a.c:6:5: free_checker: using p after free!\n"))

    def test_goes_on_with_the_rest(self):
        done = self.check(["lost.c", "later.c", "a.c"])
        self.assertEqual((done.returncode, done.stdout), (1, IN_HEADER))
        self.assertIn("later.c: later.c:2: refused: Syntax\n", done.stderr)
        self.assertRegex(done.stderr, r"(?m)^lost\.c: not preprocessed: .*missing\.h")
        self.assertIn("1 files checked, 2 not, 1 reports", done.stderr)

    def test_refused_alone(self):
        done = self.check(["later.c"])
        self.assertEqual((done.returncode, done.stdout), (3, ""))

    def test_repeated_bodies(self):
        done = self.check(["drop.c", "again.c"], "--together")
        self.assertEqual(done.stdout, IN_HEADER + "again.c:2:38: free_checker: using p after free!\n")
        self.assertIn("again.c: has a function that another file has too", done.stderr)

    def test_clean(self):
        done = self.check(["again.c"], "--only", "nothing")
        self.assertEqual((done.returncode, done.stdout), (0, ""))

    def test_json_and_kept_files(self):
        done = self.check(["a.c"], "--json", "--keep", "kept")
        self.assertEqual(json.loads(done.stdout)["object"], "x")
        self.assertEqual(os.listdir(os.path.join(self.folder, "kept")), ["0000_a.c.i"])

    def test_faulty_checker(self):
        with open(os.path.join(self.folder, "m.metal"), "w", encoding="utf-8") as file:
            file.write("sm m {\n")
        done = tool("check_commands", "m.metal", "commands.json", folder=self.folder)
        self.assertEqual((done.returncode, done.stderr), (3, "m.metal:1: refused: Syntax\n"))

    def test_wrong_words(self):
        self.assertEqual(tool("check_commands", "a.c", "commands.json", folder=self.folder).returncode, 2)
        self.assertEqual(tool("check_commands", FREE, "no.json", folder=self.folder).returncode, 2)


class Matchers(unittest.TestCase):
    def patterns(self):
        with open(os.path.join(ROOT, "tools", "problem_matcher.json"), encoding="utf-8") as file:
            return {one["owner"]: one["pattern"][0] for one in json.load(file)["problemMatcher"]}

    def test_report(self):
        pattern = self.patterns()["metalcheck"]
        found = re.match(pattern["regexp"], "src/a b.c:12:5: free_checker: using p: after free!")
        self.assertEqual([found[pattern[name]] for name in ("file", "line", "column", "code", "message")],
                         ["src/a b.c", "12", "5", "free_checker", "using p: after free!"])

    def test_refusal(self):
        pattern = self.patterns()["metalcheck-refused"]
        for line in ("a.c:3: refused: Undeclared", "src/a.c: a.c:3: refused: Undeclared"):
            found = re.match(pattern["regexp"], line)
            self.assertEqual([found[pattern[name]] for name in ("file", "line", "message")], ["a.c", "3", "refused: Undeclared"])
            self.assertIsNone(re.match(self.patterns()["metalcheck"]["regexp"], line))

    def test_editor(self):
        with open(os.path.join(ROOT, "tools", "vscode_tasks.json"), encoding="utf-8") as file:
            report, refusal = [one["pattern"] for one in json.load(file)["tasks"][0]["problemMatcher"]]
        self.assertEqual(re.match(report["regexp"], "a.c:12:5: lock: held")[report["message"]], "held")
        self.assertEqual(re.match(refusal["regexp"], "a.c:12: refused: Syntax")[refusal["line"]], "12")


if __name__ == "__main__":
    sys.argv[1:] = sys.argv[1:] or ["-q"]
    unittest.main()
