"""The tests of the programs round the gate: ./prove, ./metalcheck, checks/ways, checks/times and checks/more_edits. checks/tools runs
them. The toolchain's part is played by the scripts of gate_fakes.py, so that they take seconds and prove nothing."""
import glob
import hashlib
import os
import shutil
import signal
import subprocess
import sys
import tempfile
import time
import unittest

from gate_fakes import kit, script, workspace, write
from program import ROOT, why_not

WITHOUT_RT = "/usr/bin:/bin"


class InWorkspace(unittest.TestCase):
    """Each test has a workspace and a kit of its own."""

    def setUp(self):
        self.room = os.path.realpath(tempfile.mkdtemp(prefix="gate-"))
        self.addCleanup(shutil.rmtree, self.room, ignore_errors=True)
        self.root, self.environment = f"{self.room}/repository", kit(self.room)
        workspace(self.root)

    def call(self, *words, folder=None, **environment):
        """Runs a command of the workspace, and returns its status, its output and its errors."""
        how = {"cwd": folder or self.root, "env": {**self.environment, **environment}, "stdin": subprocess.DEVNULL, "timeout": 120}
        done = subprocess.run([f"{self.root}/{words[0]}", *words[1:]], capture_output=True, **how)
        return done.returncode, done.stdout, done.stderr.decode()

    def source(self, name, text):
        write(f"{self.root}/crates/{name}/src/{'main' if name == 'metalcheck' else 'lib'}.rt", text)

    def proofs(self):
        """The crates that were proved since the last call, in their order."""
        notes = f"{self.room}/notes"
        if not os.path.exists(notes):
            return []
        with open(notes, encoding="utf-8") as file:
            found = file.read().split()
        os.remove(notes)
        return found


class Prove(InWorkspace):
    def program(self):
        return f"{self.root}/crates/metalcheck/out/metalcheck"

    def test_whole(self):
        status, out, errors = self.call("prove", "--jobs", "2")
        self.assertEqual((status, out), (0, b""), errors)
        proved = self.proofs()
        self.assertEqual((proved[0], sorted(proved[1:3]), proved[3:]), ("base", ["left", "right"], ["metalcheck"]))
        self.assertIn("prove: 4 of 4 crates to be proved, 2 at a time", errors)
        self.assertRegex(errors, r"prove: 4 of 4, 0 min: metalcheck \(\d+ s\)")
        self.assertTrue(os.access(self.program(), os.X_OK))
        with open(f"{self.root}/crates/metalcheck/out/VERSION", encoding="utf-8") as file:
            text = file.read()
        self.assertRegex(text, r"\Acommit unknown\ndate \d{4}-\d\d-\d\d \d\d:\d\d UTC\ntoolchain kit of the test\nsha256 [0-9a-f]{64}\n\Z")
        with open(self.program(), "rb") as file:
            self.assertEqual(text.split()[-1], hashlib.sha256(file.read()).hexdigest())
        self.assertEqual(self.call("metalcheck", "a", "b c")[:2], (3, b"proved: a b c\n"))

    def test_keeps_by_content(self):
        self.call("prove")
        self.proofs()
        self.source("right", "// other\n")
        self.assertEqual(self.call("prove")[0], 0)
        self.assertEqual(self.proofs(), ["right", "metalcheck"])
        self.source("right", "// right\n")
        os.remove(self.program())
        status, _, errors = self.call("prove")
        self.assertEqual((status, self.proofs()), (0, []), errors)
        self.assertIsNone(why_not(self.program(), self.root))

    def test_goes_on_past_a_failure(self):
        self.source("left", "FAIL\n")
        status, _, errors = self.call("prove", "--jobs", "1")
        self.assertEqual((status, sorted(self.proofs())), (1, ["base", "left", "right"]))
        self.assertIn(f"not proved: left ({self.room}/kept/left.log has all that its check said); its last lines:", errors)
        self.assertIn("error: this isn't so", errors)
        self.assertIn("not begun, since they stand on what isn't proved: metalcheck", errors)
        self.assertFalse(os.path.exists(self.program()))
        self.source("left", "// mended\n")
        self.assertEqual((self.call("prove")[0], self.proofs()), (0, ["left", "metalcheck"]))

    def test_a_proof_on_trust_is_none(self):
        self.source("base", "BUG\n")
        status, _, errors = self.call("prove")
        self.assertEqual((status, self.proofs()), (1, ["base"]), errors)

    def test_killed_has_another_try(self):
        self.source("left", "KILL ONCE\n")
        status, _, errors = self.call("prove")
        self.assertEqual((status, self.proofs().count("left")), (0, 2))
        self.assertIn("left was killed", errors)

    def test_stopped_goes_on(self):
        self.source("left", "SLOW\n")
        how = {"cwd": self.root, "env": self.environment, "stderr": subprocess.PIPE}
        running = subprocess.Popen([f"{self.root}/prove", "--jobs", "1"], **how)
        while running.poll() is None and not os.path.exists(f"{self.room}/notes"):
            time.sleep(0.05)
        while running.poll() is None and "left" not in self.noted():
            time.sleep(0.05)
        running.send_signal(signal.SIGINT)
        errors = running.communicate(timeout=300)[1].decode()
        self.assertEqual(running.returncode, 130, errors)
        self.assertIn("stopped; the next run goes on", errors)
        self.assertEqual(glob.glob(f"{self.room}/kept/building-*"), [])
        before = set(self.proofs()) - {"left"}
        self.source("left", "// left\n")
        self.assertEqual(self.call("prove")[0], 0)
        self.assertEqual(set(self.proofs()), {"base", "left", "right", "metalcheck"} - before)

    def noted(self):
        with open(f"{self.room}/notes", encoding="utf-8") as file:
            return file.read()

    def test_to(self):
        status, _, errors = self.call("prove", "--to", "../release/metalcheck", METALCHECK_BUILT="../other/kept")
        self.assertEqual((status, sorted(os.listdir(f"{self.room}/release"))), (0, ["VERSION", "metalcheck"]), errors)
        self.assertIn("base", "".join(os.listdir(f"{self.room}/other/kept")))
        self.assertFalse(os.path.exists(self.program()))

    def test_refusals(self):
        self.assertEqual(self.call("prove", "--jobs", "none")[0], 2)
        status, _, errors = self.call("prove", PATH=WITHOUT_RT)
        self.assertEqual(status, 2)
        self.assertIn("rt is the command of the Rattle toolchain", errors)
        write(f"{self.root}/crates.txt", "metalcheck: left\nleft: metalcheck\n")
        self.assertIn("metalcheck > left > metalcheck", self.call("prove")[2])
        write(f"{self.root}/crates.txt", "metalcheck: left\nwhat is this\n")
        self.assertIn("crates.txt:2: a line is NAME: LIBRARY", self.call("prove")[2])


class Ways(InWorkspace):
    def test_counts(self):
        status, out, errors = self.call("checks/ways")
        self.assertEqual((status, errors), (0, ""))
        self.assertIn(b"ways: 5 lead from metalcheck down to 4 crates", out)
        self.assertIn(b"has 3 crates: metalcheck > left > base", out)

    def test_too_many(self):
        self.assertEqual(self.call("checks/ways", "--most", "5")[0], 0)
        status, _, errors = self.call("checks/ways", "--most", "4")
        self.assertEqual(status, 1)
        self.assertIn("the most are below right (2), left (2)", errors)

    def test_limit(self):
        """A ladder of 14 crates, each of which names all below it, has 16,384 ways; one more has too many."""
        for count, status in ((14, 0), (15, 1)):
            names = ["metalcheck", *(f"c{at}" for at in range(count))]
            write(f"{self.root}/crates.txt", "".join(f"{it}: {' '.join(names[at + 1:])}\n" for at, it in enumerate(names)))
            done = self.call("checks/ways")
            self.assertEqual(done[0], status, done)
            self.assertIn(f"ways: {2 ** count} lead".encode(), done[1])

    def test_refusals(self):
        self.assertEqual(self.call("checks/ways", f"{self.room}/nowhere")[0], 2)
        shutil.rmtree(f"{self.root}/crates/metalcheck")
        self.assertIn("the crate metalcheck has to be there", self.call("checks/ways")[2])


class Unproved(InWorkspace):
    """./metalcheck where there is no proved program."""

    def setUp(self):
        super().setUp()
        self.here = f"{self.room}/work/of/mine"
        files = {"here.c": "here ", "under/deep.c": "deep ", "../up.c": "up ", "../../top/most.c": "top ", "program.c": "program "}
        for name, text in files.items():
            write(os.path.join(self.here, name), text)

    def run_on(self, *words, **environment):
        return self.call("metalcheck", *words, folder=self.here, **environment)

    def test_passes_on(self):
        with open(f"{self.here}/bytes", "wb") as file:
            file.write(b"\xff no line's end")
        status, out, errors = self.run_on("here.c", "--none", "bytes")
        self.assertEqual((status, out), (4, b"here \xff no line's end"))
        before, own, behind = errors.splitlines()
        self.assertIn("the proved program is not made yet: this run is unproved", before)
        self.assertEqual(own, "--none: was not read")
        self.assertIn("./prove (or rt ci", behind)

    def test_names_anywhere(self):
        below = ["./here.c", "under/deep.c", "under/../here.c"]
        above = ["../up.c", "../../top/most.c", "../mine/here.c", "under/../../up.c"]
        status, out, errors = self.run_on(*below, *above, f"{self.here}/here.c", "program.c")
        self.assertEqual((status, out), (4, b"here deep here up top here up here program "), errors)
        self.assertEqual(len(errors.splitlines()), 2, errors)
        self.assertEqual(sorted(os.listdir(f"{self.room}/work")), ["of", "top"])

    def test_refusals(self):
        os.mkfifo(f"{self.here}/pipe")
        write(f"{self.here}/a=b.c", "x")
        given = {"pipe": "is a pipe or a device", "a=b.c": "can't hand over a file named a=b.c", "src/main.rt": "no file src/main.rt here"}
        for word, why in given.items():
            status, out, errors = self.run_on(word)
            self.assertEqual((status, out), (125, b""))
            self.assertIn(why, errors)

    def test_no_answer(self):
        status, out, errors = self.run_on("here.c", "--crash")
        self.assertEqual((status, out), (125, b""))
        self.assertIn("checked: fault", errors)
        self.assertIn("gave no answer", errors)

    def test_without_toolchain(self):
        status, _, errors = self.run_on("here.c", PATH=WITHOUT_RT)
        self.assertEqual(status, 125)
        self.assertIn("rt is the command of the Rattle toolchain", errors)

    def test_forbidden(self):
        status, out, errors = self.run_on("here.c", METALCHECK_UNPROVED="no")
        self.assertEqual((status, out), (125, b""))
        self.assertIn("METALCHECK_UNPROVED=no forbids another one: make it by ./prove", errors)

    def test_older_program(self):
        program = f"{self.root}/crates/metalcheck/out/metalcheck"
        script(program, "import sys; print('proved', *sys.argv[1:]); sys.exit(7)")
        self.assertEqual(self.run_on("here.c"), (7, b"proved here.c\n", ""))
        self.source("lone", "// newer\n")
        os.utime(f"{self.root}/crates/lone/src/lib.rt", (time.time() + 5,) * 2)
        status, out, errors = self.run_on("here.c")
        self.assertEqual((status, out), (4, b"here "))
        self.assertIn("crates/lone/src/lib.rt is newer than the proved program", errors)
        self.assertIn("is newer than", why_not(program, self.root))


class MoreEdits(InWorkspace):
    def setUp(self):
        super().setUp()
        write(f"{self.root}/HANDLES", "Handles allowed: none.\n")
        for name in ("left", "base"):
            write(f"{self.root}/crates/{name}/more-edits/a.edit", "file: src/lib.rt\nold: a\nnew: b\n")
        for words in (["init", "-q"], ["add", "-A"], ["-c", "user.name=a", "-c", "user.email=a@b", "commit", "-qm", "a"]):
            subprocess.run(["git", "-C", self.root, *words], check=True)

    def test_changed(self):
        nothing = b"more_edits: no crate that differs from HEAD has more-edits/\n"
        self.assertEqual(self.call("checks/more_edits", "--changed", "HEAD")[:2], (0, nothing))
        self.source("left", "// other\n")
        self.source("right", "// other\n")
        write(f"{self.root}/crates/base/README.md", "read by no proof\n")
        tried = b"more_edits: since HEAD: left\ntried: left:1\n"
        self.assertEqual(self.call("checks/more_edits", "--changed", "HEAD")[:2], (0, tried))
        write(f"{self.root}/crates/base/proofs/New.antt", "new\n")
        self.assertEqual(self.call("checks/more_edits", "--changed", "HEAD")[1].splitlines()[-1], b"tried: base:1 left:1")

    def test_named(self):
        self.assertEqual(self.call("checks/more_edits", "base")[:2], (0, b"tried: base:1\n"))
        self.assertEqual(self.call("checks/more_edits")[1], b"tried: base:1 left:1\n")

    def test_refusals(self):
        given = {("--changed", "nowhere"): "is no commit", ("--changed",): "usage:", ("right",): "no folder crates/right/more-edits"}
        for words, why in given.items():
            status, _, errors = self.call("checks/more_edits", *words)
            self.assertEqual(status, 2)
            self.assertIn(why, errors)


class Edits(unittest.TestCase):
    """The edits of this repository: each can be applied, so that the gate doesn't find out behind all proofs that one can't."""

    def apply(self, path):
        """The names of the files that an edit changes. Each old text has to stand once in what the pairs before it made."""
        crate = os.path.dirname(os.path.dirname(path))
        name, old, texts = None, None, {}
        with open(path, encoding="utf-8") as file:
            lines = file.read().split("\n")
        for line in lines:
            word, _, text = line.partition(": ")
            if word == "file":
                name = text.strip()
                self.assertRegex(name, r"\A(src|specs|proofs)/", path)
                with open(os.path.join(crate, name), encoding="utf-8") as file:
                    texts.setdefault(name, file.read())
            elif word == "old":
                old = text
            elif word.rstrip(":") == "new":
                self.assertEqual(texts[name].count(old), 1, f"{path}: the text isn't once in {name}: {old}")
                texts[name], old = texts[name].replace(old, text), None
        self.assertIsNone(old, path)
        return sorted(texts)

    def test_each_can_be_applied(self):
        for folder in ("must-fail", "more-edits"):
            for path in glob.glob(os.path.join(ROOT, "crates", "*", folder, "*")):
                self.assertRegex(os.path.basename(path), r"\A[A-Za-z0-9_-][A-Za-z0-9_.-]*\.(edit|md)\Z")
                if path.endswith(".edit"):
                    self.assertTrue(self.apply(path), path)


GATE_LOG = """times: begun 2026-01-02 03:04 UTC: rt ci
== c_tree
logic=proved functions=57
rt: c_tree proved
rt: c_tree: its tests proved
rt: edge_rules NOT PROVED
rt: c_tree: trying its must-fail edits (2)
rt: must-fail c_tree/one.edit: refused, as it must be: src/lib.rt:1:1: error
2026-01-02T03:05:06Z rt: must-fail c_tree/two.edit: NOT REFUSED: the crate is still proved with this edit
rt: FAILED: edge_rules c_tree/two.edit
1 passed, 2 failed
times: edits c_tree 66.0 s
times: proof c_tree 180.0 s
2026-01-02T03:05:07Z times: proof edge_rules 600.5 s
times: tests c_tree 30.0 s
times: all 1200.0 s, by the clock 720.0 s, 2 processors
"""
GATE_TABLE = """\
`rt ci`, begun 2026-01-02 03:04 UTC; it ended with 1 passed, 2 failed, after 12 minutes by the clock on 2 processors. In minutes of a \
processor:

| Crate | Proof | Tests | Edits (how many) | In all |
|---|---|---|---|---|
| `edge_rules` (not proved) | 10.0 |  |  | 10.0 |
| `c_tree` | 3.0 | 0.5 | 1.1 (2) | 4.6 |
| the walk of the graph, linking, runs | | | | 5.4 |
| **in all** | 13.0 | 0.5 | 1.1 | 20.0 |
"""


class Times(InWorkspace):
    def times(self, *words):
        how = {"env": self.environment, "cwd": self.room, "capture_output": True, "text": True, "timeout": 60}
        return subprocess.run([sys.executable, os.path.join(ROOT, "checks", "times"), *words], **how)

    def test_table(self):
        write(f"{self.room}/gate.log", GATE_LOG)
        write(f"{self.room}/page.md", "# Times\n<!-- times: begin -->\nold\n<!-- times: end -->\nlast\n")
        for _ in range(2):
            self.assertEqual(self.times("gate.log", "page.md").returncode, 0)
            with open(f"{self.room}/page.md", encoding="utf-8") as file:
                self.assertEqual(file.read(), f"# Times\n<!-- times: begin -->\n{GATE_TABLE}<!-- times: end -->\nlast\n")

    def test_refusals(self):
        write(f"{self.room}/gate.log", GATE_LOG)
        write(f"{self.room}/plain.log", "rt: c_tree proved\n1 passed, 0 failed\n")
        write(f"{self.room}/page.md", "no marks\n")
        given = {("gate.log", "page.md"): "page.md: the lines <!-- times: begin -->", ("none",): "none: No such file", (): "Usage:"}
        for words, why in {**given, ("plain.log", "page.md"): "checks/times --watch LOG rt ci"}.items():
            done = self.times(*words)
            self.assertEqual(done.returncode, 2)
            self.assertIn(why, done.stderr)
        with open(f"{self.room}/page.md", encoding="utf-8") as file:
            self.assertEqual(file.read(), "no marks\n")

    def test_watch(self):
        done = self.times("--watch", "gate.log", "rt", "gate")
        self.assertEqual((done.returncode, done.stdout), (0, "rt: one proved\n1 passed, 0 failed\n"), done.stderr)
        write(f"{self.room}/page.md", "<!-- times: begin -->\n<!-- times: end -->\n")
        self.assertEqual(self.times("gate.log", "page.md").returncode, 0)
        with open(f"{self.room}/gate.log", encoding="utf-8") as file:
            seconds = [float(line.split()[3]) for line in file if line.startswith("times: proof one ")]
        self.assertEqual(len(seconds), 1)
        self.assertGreater(seconds[0], 0.5)

    def test_stopped(self):
        """A signal ends the command too, and what was taken until then is written."""
        script(f"{self.room}/lasting", "import time; print('begun', flush=True); time.sleep(60)")
        watching = subprocess.Popen([os.path.join(ROOT, "checks", "times"), "--watch", "gate.log", "./lasting"], cwd=self.room, stdout=subprocess.PIPE, text=True)
        with watching:
            self.assertEqual(watching.stdout.readline(), "begun\n")
            watching.send_signal(signal.SIGTERM)
            self.assertNotEqual(watching.wait(timeout=30), 0)
        with open(f"{self.room}/gate.log", encoding="utf-8") as file:
            self.assertRegex(file.read(), r"\nbegun\ntimes: all [0-9.]+ s, by the clock [0-9.]+ s, [0-9]+ processors\n\Z")

    def test_page_of_the_repository(self):
        with open(os.path.join(ROOT, "docs", "TIMES.md"), encoding="utf-8") as file:
            text = file.read()
        self.assertLess(0, text.find("<!-- times: begin -->"))
        self.assertLess(text.find("<!-- times: begin -->"), text.find("<!-- times: end -->"))


class Modules(InWorkspace):
    """bench/modules, over a process that writes modules as the prover does."""

    def modules(self, *words):
        how = {"env": self.environment, "cwd": self.room, "capture_output": True, "text": True, "timeout": 60}
        return subprocess.run([sys.executable, os.path.join(ROOT, "bench", "modules"), *words], **how)

    def test_running_check(self):
        script(f"{self.room}/proving", """
import os, shutil, sys, time
folder = f"/tmp/rattle-logic-built-locked-{os.getpid()}-0"
os.mkdir(folder)
try:
    for name in ("Rattle-one", "Rattle-one-proofs.small.Lts", "Rattle-one-proofs.+large.Proof"):
        time.sleep(1 if "large" in name else 0.2)
        with open(f"{folder}/{name}.oantt", "w") as file:
            file.write(name)
    print("written", flush=True)
    sys.stdin.readline()
finally:
    shutil.rmtree(folder)
""")
        with subprocess.Popen([f"{self.room}/proving"], stdin=subprocess.PIPE, stdout=subprocess.PIPE, text=True) as proving:
            self.assertEqual(proving.stdout.readline(), "written\n")
            how = {"cwd": self.room, "stdout": subprocess.PIPE, "text": True}
            watching = subprocess.Popen([sys.executable, os.path.join(ROOT, "bench", "modules"), "--most", "1", "--of", str(proving.pid)], **how)
            time.sleep(2)
            proving.stdin.write("\n")
            proving.stdin.close()
            proving.wait(timeout=30)
            told = watching.communicate(timeout=30)[0].splitlines()
        self.assertRegex(told[0], r"^3 modules in \d+ s: \d+ before the first, \d+ Proof, \d+ Lts$")
        self.assertRegex(told[1], r"^ +\d+\.\d s +30 B  Rattle-one-proofs\.\+large\.Proof$")
        self.assertEqual(len(told), 2)

    def test_refusals(self):
        given = {("--of", "999999999"): "no process 999999999 runs", ("none",): "there is no crate none", (): "name a crate, or a running check"}
        for words, why in given.items():
            done = self.modules(*words)
            self.assertEqual(done.returncode, 2)
            self.assertIn(why, done.stderr)


if __name__ == "__main__":
    sys.argv[1:] = sys.argv[1:] or ["-q"]
    unittest.main()
