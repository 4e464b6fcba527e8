"""The tests of checks/fuzz, checks/strange, checks/refused_memory and bench/stack. checks/tools runs them. The program's part is played
by small shell scripts that answer wrongly in one way each."""
import os
import random
import shutil
import subprocess
import sys
import tempfile
import unittest

from hostile import Run, USAGE, fault_of
from mutants import CHANGES, TOKEN, corpus, run_of
from program import ROOT
from scripts import as_module

CLEAN = "exit 0"
# asks twice for memory, and then writes a report
ALLOCATING = """
#include <stdlib.h>
#include <unistd.h>
#define SAY "a.c:1:28: free_checker: using p after free!\\n"
int main(void) {
    char *p = malloc(9), *q = malloc(9);
    if (!p || !q) return p && !CAREFUL ? 7 : 6;
    for (unsigned at = 0; at < sizeof SAY - 1;) {
        long taken = write(1, SAY + at, sizeof SAY - 1 - at);
        if (taken < 0) return 5;
        at += taken;
    }
    return 1;
}
"""
REPORTS = "echo 'a.c:1:28: free_checker: using p after free!'; exit 1"


class WithProgram(unittest.TestCase):
    """Each test has a folder of its own, and programs that are shell scripts."""

    def setUp(self):
        self.room = tempfile.mkdtemp(prefix="hostile-")
        self.addCleanup(shutil.rmtree, self.room, ignore_errors=True)

    def call(self, script, *words):
        """Runs a check with this script for its program, and returns its status and its lines."""
        program = os.path.join(self.room, "program")
        with open(program, "w", encoding="utf-8") as file:
            file.write(f"#!/bin/sh\n{script}\n")
        os.chmod(program, 0o755)
        return self.call_with(program, *words)

    def call_with(self, program, *words):
        """Runs a check with this program, and returns its status and its lines."""
        how = {"env": {**os.environ, "METALCHECK": program}, "stdin": subprocess.DEVNULL, "capture_output": True, "timeout": 600}
        done = subprocess.run([sys.executable, os.path.join(ROOT, words[0]), *words[1:]], **how)
        return done.returncode, done.stdout.decode().splitlines() or done.stderr.decode().splitlines()


class Faults(unittest.TestCase):
    def test_right(self):
        right = [Run(0, b"", b""), Run(0, b"0 reports\n", b""), Run(1, b"a\n", b""), Run(2, b"", USAGE), Run(6, b"", b""),
                 Run(3, b"", b"a b.c:12: refused: Syntax\n"), Run(3, b"", b"m.metal:1: refused: TooMany\n"), Run(4, b"", b"a: not read\n")]
        for run in right:
            self.assertEqual(fault_of(run), "", run)
        for run in (Run(0, b"", b"metalcheck: entries 0\n"), Run(1, b"a\n", b"metalcheck: entries 18446744073709551615\n"), Run(2, b"", USAGE)):
            self.assertEqual(fault_of(run, True), "", run)

    def test_wrong(self):
        wrong = {Run(-11, b"", b""): "ended with -11", Run(7, b"", b""): "ended with 7", Run("no end", b"", b""): "limit of time",
                 Run(-24, b"", b""): "limit of time", Run(5, b"", b""): "not all", Run(0, b"", b"x"): "on standard error",
                 Run(1, b"", b""): "whole lines", Run(1, b"a", b""): "whole lines", Run(1, b"a\n", b"x"): "on standard error",
                 Run(3, b"a\n", b"a.c:1: refused: Syntax\n"): "on standard output", Run(3, b"", b"a.c:1: refused: Odd\n"): "refused: Odd",
                 Run(3, b"", b"a.c:1: refused: Syntax\n\n"): "on standard error", Run(3, b"", b""): "on standard error",
                 Run(4, b"", b"a.c: not read"): "on standard error", Run(2, b"", b"usage\n"): "usage", Run(6, b"", b"x"): "status 6"}
        for run, why in wrong.items():
            self.assertIn(why, fault_of(run), run)
        for errs in (b"", b"metalcheck: entries\n", b"metalcheck: entries 01\n", b"metalcheck: entries 1\nx\n", b"a.c:1: refused: Syntax\n"):
            self.assertIn("on standard error", fault_of(Run(0, b"", errs), True), errs)
        self.assertIn("on standard error", fault_of(Run(0, b"", b"metalcheck: entries 1\n")))


class Mutants(unittest.TestCase):
    def test_tokens_are_all_of_a_text(self):
        for text in (b"a+++b /* c\n */ \"d\\\"\" 'e' 0x1F ==> // f\n", bytes(range(256)), b"\"open\n'open\n/*"):
            self.assertEqual(b"".join(TOKEN.findall(text)), text)

    def test_changes(self):
        texts = [[b"a", b" ", b"b", b";"], [b"x"]]
        for change in CHANGES:
            made = [change(random.Random(seed), texts[0], texts) for seed in range(40)]
            self.assertEqual(texts, [[b"a", b" ", b"b", b";"], [b"x"]])
            self.assertEqual(made, [change(random.Random(seed), texts[0], texts) for seed in range(40)])
            self.assertTrue(any(one != texts[0] for one in made), change)
            self.assertIsInstance(change(random.Random(1), [], texts), list)

    def test_runs_of_seeds(self):
        texts = corpus()
        self.assertGreater(min(map(len, texts)), 100)
        runs = [run_of(texts, seed) for seed in range(100)]
        self.assertEqual(runs, [run_of(texts, seed) for seed in range(100)])
        self.assertEqual(len({str(run) for run in runs}), 100)


class Fuzz(WithProgram):
    def fuzz(self, script, *words):
        return self.call(script, "checks/fuzz", "--jobs", "2", "--keep", f"{self.room}/kept", *words)

    def test_passes(self):
        self.assertEqual(self.fuzz(CLEAN, "--from", "5", "3"), (0, ["fuzz: 3 seeds from 5: 0 failed; by status: 3 with 0"]))

    def test_fails(self):
        status, lines = self.fuzz("echo x; echo 'a.c:1: refused: Syntax' >&2; exit 3", "2")
        self.assertEqual((status, lines[-1]), (1, "fuzz: 2 seeds from 0: 2 failed; by status: 2 with 3"))
        self.assertEqual(lines[1], f"fuzz: seed 1: status 3 with 2 bytes on standard output; its files are in {self.room}/kept/1")
        files, words = run_of(corpus(), 1)
        for name, data in {**files, "WORDS": "\n".join(words).encode() + b"\n"}.items():
            with open(f"{self.room}/kept/1/{name}", "rb") as file:
                self.assertEqual(file.read(), data)

    def test_differs_and_does_not_end(self):
        status, lines = self.fuzz("echo $$; exit 1", "1")
        self.assertEqual(status, 1)
        self.assertIn("came to something else", lines[0])
        status, lines = self.fuzz("while :; do :; done", "--seconds", "1", "1")
        self.assertEqual(status, 1)
        self.assertIn("limit of time", lines[0])

    def test_words(self):
        for words in ((), ("0",), ("--jobs", "0", "1"), ("x",)):
            self.assertEqual(self.call(CLEAN, "checks/fuzz", *words)[0], 2)


class Strange(WithProgram):
    def test_passes_and_fails(self):
        self.assertEqual(self.call(REPORTS, "checks/strange", "input closed"), (0, ["strange: 1 passed, 0 failed"]))
        status, lines = self.call(CLEAN, "checks/strange", "input closed")
        self.assertEqual((status, lines[-1]), (1, "strange: 0 passed, 1 failed"))
        self.assertIn("input closed: it came to (0, b'', b'')", lines[0])

    def test_little_memory(self):
        careful = f'[ "$(ulimit -v)" = unlimited ] || [ "$(ulimit -v)" -gt 20000 ] || exit 6; {REPORTS}'
        self.assertEqual(self.call(careful, "checks/strange", "little memory")[0], 0)
        self.assertEqual(self.call(careful.replace("6;", "0;"), "checks/strange", "little memory")[0], 1)
        self.assertEqual(self.call(REPORTS, "checks/strange", "little memory")[0], 1)

    def test_beginnings(self):
        status, lines = self.call("kill -SEGV $$", "checks/strange", "beginning of a checker")
        self.assertEqual(status, 1)
        self.assertIn("the first 0 bytes: it ended with -11", lines[0])

    def test_no_step(self):
        self.assertEqual(self.call(CLEAN, "checks/strange", "no such step")[0], 1)


class RefusedMemory(WithProgram):
    def program(self, is_careful):
        """A program that asks twice for memory and writes a report, and forgets to look at the second answer where it isn't careful."""
        source, program = os.path.join(self.room, "one.c"), os.path.join(self.room, "one")
        with open(source, "w", encoding="utf-8") as file:
            file.write(ALLOCATING)
        subprocess.run(["cc", "-O0", "-w", f"-DCAREFUL={is_careful}", "-o", program, source], check=True)
        return program

    def test_refuses_each_call(self):
        if not shutil.which("cc"):
            self.skipTest("there is no C compiler")
        told = "refused_memory: first/use_after_free: 2 allocations, 2 allocations and all behind, 0 reads, 1 writes, 1 short calls"
        words = ["checks/refused_memory", "--jobs", "2", "first/use_after_free"]
        status, lines = self.call_with(self.program(1), *words)
        self.assertEqual((status, lines), (0, [told]))
        status, lines = self.call_with(self.program(0), *words)
        self.assertEqual((status, len(lines)), (1, 3))
        self.assertIn("memory 2 refused: it came to (7, b'', b'')", lines[1])

    def test_finds_what_is_wrong(self):
        check = as_module("checks/refused_memory")
        case = check.Case("first/use_after_free", self.room, "", "")
        own = case.own
        self.assertEqual((own.status, case.words), (1, ["free.metal", "a.c"]))
        right = {"memory": [own, Run(6, b"", b"")], "read": [own, Run(4, b"", b"a.c: not read\n")], "short": [own],
                 "write": [own, Run(5, b"", b""), Run(5, own.out[:9], b"")]}
        wrong = {"memory": [Run(6, b"a", b""), Run(0, b"", b""), Run(-6, b"", b"")], "short": [Run(5, own.out[:1], b"")],
                 "read": [Run(4, b"", b""), Run(0, b"", b"")], "write": [Run(1, own.out[:9], b""), Run(5, b"x", b"")]}
        for kind, runs in right.items():
            self.assertTrue(all(case.is_right(kind, run) for run in runs), kind)
        for kind, runs in wrong.items():
            self.assertFalse(any(case.is_right(kind, run) for run in runs), kind)


class Stack(WithProgram):
    def test_measures(self):
        need = 'levels=$(tr -cd "!" <a.c | wc -c); [ "$(ulimit -s)" -ge $((64 + levels)) ] || kill -SEGV $$; [ $levels -le 100 ] || exit 3'
        status, lines = self.call(need, "bench/stack", "--most", "176", "unary operators")
        self.assertEqual((status, lines[2:3]), (0, ["| unary operators | 100 | 176 |"]))
        self.assertEqual(lines[-1], "stack: the most is 176 KiB")
        self.assertEqual(self.call(need, "bench/stack", "--most", "175", "unary operators")[0], 1)
        self.assertEqual(self.call(CLEAN, "bench/stack", "arrays")[1][2], "| arrays | 20000 | 16 |")
        self.assertEqual(self.call("exit 3", "bench/stack", "arrays")[1][2], "| arrays | not measured | |")

    def test_kinds_are_texts(self):
        stack = as_module("bench/stack")
        self.assertTrue(stack.text_of("blocks", 3).endswith("void f(void){ { { { ; } } } }\n"))
        self.assertTrue(stack.text_of("labels", 2).endswith("l0: l1: ; }\n"))
        self.assertTrue(stack.text_of("array bounds", 2).endswith(" int y[sizeof(int[sizeof(int[1])])];\n"))
        self.assertTrue(stack.text_of("type names", 2).endswith("(int (*(*)(void))(void))0; }\n"))


if __name__ == "__main__":
    sys.argv[1:] = sys.argv[1:] or ["-q"]
    unittest.main()
