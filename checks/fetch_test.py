"""The tests of bench/fetch, without a network: source lines, recorded compilations, programs that are built; and of bench/readable and
bench/rebuilds. checks/tools runs them."""
import contextlib
import io
import json
import os
import shutil
import subprocess
import sys
import tempfile
import unittest
from unittest import mock

from program import ROOT, built

FETCH = os.path.join(ROOT, "bench", "fetch")
READABLE = os.path.join(ROOT, "bench", "readable")
REBUILDS = os.path.join(ROOT, "bench", "rebuilds")
sys.path[:0] = [os.path.join(ROOT, "bench", "lib"), os.path.join(ROOT, "tools", "lib")]

from fetching import building, distribution, programs, telling

STANZAS = """Types: deb
# a comment
URIs: http://mirror/debian
Suites: bookworm bookworm-updates
Components: main contrib
Signed-By: /usr/share/keyrings/archive.gpg

Types: deb
URIs: https://elsewhere
Suites: nodistro
Components: main
"""
LINES = "deb http://old/debian bookworm main # here\ndeb [arch=amd64] http://security/debian bookworm/updates main\n" \
        "deb-src http://old/debian bookworm main\ndeb http://tools cloud-bookworm main\n"


class Folder(unittest.TestCase):
    def setUp(self):
        box = tempfile.TemporaryDirectory()
        self.addCleanup(box.cleanup)
        self.folder = box.name

    def write(self, name, text):
        path = os.path.join(self.folder, name)
        os.makedirs(os.path.dirname(path), exist_ok=True)
        with open(path, "w", encoding="utf-8") as file:
            file.write(text)
        return path


class Lines(Folder):
    def test_of_the_own_release(self):
        self.write("sources.list", LINES)
        self.write("sources.list.d/own.sources", STANZAS)
        self.assertEqual(distribution.source_lines(self.folder, "bookworm"), [
            "deb-src http://old/debian bookworm main",
            "deb-src [arch=amd64] http://security/debian bookworm/updates main",
            "deb-src [signed-by=/usr/share/keyrings/archive.gpg] http://mirror/debian bookworm main contrib",
            "deb-src [signed-by=/usr/share/keyrings/archive.gpg] http://mirror/debian bookworm-updates main contrib"])

    def test_of_another_release(self):
        self.write("sources.list", LINES)
        self.assertEqual(distribution.source_lines(self.folder, "trixie"), [])


class Versions(Folder):
    ROWS = " linux | 6.1.4-1 | http://m bookworm/main Sources\n linux | 6.1.9-2 | http://m bookworm/main Sources\n" \
           " linux | 6.1.9-2 | http://m bookworm/main amd64 Packages\n"

    def test_newest_first(self):
        source = distribution.Distribution(self.folder)
        source.options = []
        with mock.patch.object(source, "call", return_value=self.ROWS):
            self.assertEqual(source.versions("linux"), ["6.1.9-2", "6.1.4-1"])

    def test_version_that_the_mirror_lacks(self):
        source, tried = distribution.Distribution(self.folder), []
        source.options = []

        def call(words, what, folder=None):
            if "madison" in words:
                return self.ROWS
            tried.append(words[-1])
            if words[-1] == "linux=6.1.9-2":
                raise distribution.Unreachable("404")
            return ""
        with mock.patch.object(source, "call", side_effect=call):
            self.assertEqual(source.download("linux", self.folder), os.path.join(self.folder, "linux_6.1.4-1.dsc"))
        self.assertEqual(tried, ["linux=6.1.9-2", "linux=6.1.4-1"])

    def test_program_that_fails(self):
        with self.assertRaises(distribution.Unreachable) as fault:
            distribution.Distribution(self.folder).call(["sh", "-c", "echo W: no >&2; echo E: gone >&2; exit 1"], "x can't be fetched")
        self.assertEqual(str(fault.exception), "x can't be fetched: E: gone")


@unittest.skipUnless(shutil.which("gcc") and shutil.which("make"), "there is no gcc or no make")
class Building(Folder):
    MAKEFILE = "all: a.o sub/b.o\n%.o: %.c\n\t$(CC) -DN='\"a b\"' -c $< -o $@\n"

    def setUp(self):
        super().setUp()
        self.write("source/Makefile", self.MAKEFILE)
        self.write("source/a.c", "char *a(void) { return N; }\n")
        self.write("source/sub/b.c", "char *b(void) { return N; }\n")

    def program(self, **more):
        return programs.Program("x", "x", **{"recorded": ("make",), **more})

    def build(self, program):
        """Builds a program, and gives what was said on the way, without the times."""
        said = io.StringIO()
        with contextlib.redirect_stderr(said):
            building.build(program, self.folder, telling.Teller("x"))
        return [line.split(" ", 2)[2] for line in said.getvalue().splitlines()]

    def preprocess(self, program):
        with contextlib.redirect_stderr(io.StringIO()):
            return building.preprocess(program, self.folder, 2, telling.Teller("x"))

    def test_compilations(self):
        self.build(self.program(before=("echo 'int before;' > before.c; $CC -c before.c",)))
        found = building.own_entries(self.program(), self.folder)
        self.assertEqual([(entry["file"], entry["directory"]) for entry in found],
                         [(name, os.path.join(self.folder, "source")) for name in ("a.c", "sub/b.c")])
        self.assertEqual(found[0]["arguments"], ["gcc", '-DN="a b"', "-c", "a.c", "-o", "a.o"])
        self.assertEqual(self.preprocess(self.program(folders=("sub",))), (1, []))
        with open(os.path.join(self.folder, "preprocessed", "0000_b.c.i"), encoding="utf-8") as file:
            self.assertIn('return "a b";', file.read())

    def test_record_only(self):
        self.write("source/Makefile", self.MAKEFILE.replace("-c $<", "-Wp,-MMD,$@.d -c $<"))
        self.build(self.program(recorded=("RECORD_ONLY=yes make",)))
        self.assertEqual([entry["file"] for entry in building.own_entries(self.program(), self.folder)], ["a.c", "sub/b.c"])
        self.assertEqual(subprocess.run(["nm", "source/a.o"], cwd=self.folder, capture_output=True, check=True).stdout, b"")
        with open(os.path.join(self.folder, "source", "a.o.d"), encoding="utf-8") as file:
            self.assertRegex(file.read(), r"\Aa\.o: \S+\n\Z")

    def test_what_ended_well(self):
        program = self.program(before=("echo one >> steps", "test -e allowed && echo two >> steps"))
        with self.assertRaises(distribution.Unreachable):
            self.build(program)
        self.write("source/allowed", "")
        self.assertEqual(self.build(program), [program.before[1], "make"])
        with open(os.path.join(self.folder, "source", "steps"), encoding="utf-8") as file:
            self.assertEqual(file.read(), "one\ntwo\n")
        self.assertEqual(self.build(program), [])

    def test_what_is_preprocessed(self):
        self.build(self.program())
        kept = self.write("preprocessed/0000_a.c.i", "kept")
        other = self.write("preprocessed/0009_z.c.i", "of another list")
        self.write("source/sub/b.c", "#error no\n")
        count, faults = self.preprocess(self.program())
        self.assertEqual((count, len(faults)), (1, 1))
        self.assertRegex(faults[0], "sub/b.c: not preprocessed: .*#error no")
        with open(kept, encoding="utf-8") as file:
            self.assertEqual(file.read(), "kept")
        self.assertFalse(os.path.exists(other))

    def test_build_that_was_stopped(self):
        os.rename(os.path.join(self.folder, "source", "sub"), os.path.join(self.folder, "later"))
        self.build(self.program(recorded=("make -k",)))
        os.rename(os.path.join(self.folder, "later"), os.path.join(self.folder, "source", "sub"))
        self.build(self.program())
        self.assertEqual([entry["file"] for entry in building.own_entries(self.program(), self.folder)], ["a.c", "sub/b.c"])

    def test_nothing_compiled(self):
        for program in (self.program(recorded=("true",)), self.program(before=("false",)), self.program(needs=("no-such-program",))):
            with self.assertRaises(distribution.Unreachable):
                self.build(program)


@unittest.skipUnless(shutil.which("tar") and shutil.which("gzip"), "there is no tar or no gzip")
class Unpacking(Folder):
    def test_parts(self):
        for name in ("Kconfig", "a/Kconfig", "a/b/one.c", "c/a/b/two.c"):
            self.write("x-1/" + name, "")
        archive = os.path.join(self.folder, "x_1.orig.tar.gz")
        subprocess.run(["tar", "-czf", archive, "x-1"], cwd=self.folder, check=True)
        description = os.path.join(self.folder, "x_1-2.dsc")
        distribution.Distribution(self.folder).unpack(description, os.path.join(self.folder, "out"), ("Kconfig*", "a/*"))
        found = [os.path.relpath(os.path.join(at, name), os.path.join(self.folder, "out"))
                 for at, _, names in os.walk(os.path.join(self.folder, "out")) for name in names]
        self.assertEqual(sorted(found), ["Kconfig", "a/Kconfig", "a/b/one.c"])

    def test_archive_that_is_none(self):
        self.write("x_1.orig.tar.gz", "no archive")
        with self.assertRaises(distribution.Unreachable) as fault:
            description = os.path.join(self.folder, "x_1-2.dsc")
            distribution.Distribution(self.folder).unpack(description, os.path.join(self.folder, "out"), ("a/*",))
        self.assertIn("x_1.orig.tar.gz can't be unpacked", str(fault.exception))


class Readable(Folder):
    def test_rows(self):
        """What bench/readable prints of a program of three files, one of which has no text."""
        for name, text in {"a.i": "int f(int a) { return a; }\n", "b.i": "int g(int a) { return ({ a; }); }\nint h(void *p) { goto *p; }\n",
                           "c.i": "no C )\n"}.items():
            self.write("own/preprocessed/" + name, text)
        texts = os.path.join(self.folder, "texts")
        command = [sys.executable, READABLE, "--jobs", "1", "--reasons", "--check", "1", "--texts", texts, self.folder]
        done = subprocess.run(command, capture_output=True, text=True, timeout=300, env={**os.environ, "METALCHECK": built()})
        self.assertEqual((done.returncode, done.stderr), (0, ""))
        row, fault, reason = done.stdout.splitlines()
        self.assertRegex(row, r"\Aown: 3 files, 1 read as they are, 2 read; 2 of 3 functions stay \(66\.7%\); seconds a file [\d., ]+; "
                              r"runs \d, \d, \d; checked in [\d., ]+\Z")
        self.assertIn("c.i: the text isn't balanced", fault)
        self.assertEqual(reason, "  computed goto: 1")
        self.assertEqual(sorted(os.listdir(os.path.join(texts, "own"))), ["a.i", "b.i"])

    def test_nothing_to_measure(self):
        done = subprocess.run([sys.executable, READABLE, self.folder], capture_output=True, text=True, timeout=60)
        self.assertEqual((done.returncode, done.stdout), (3, ""))


@unittest.skipUnless(shutil.which("gcc") and shutil.which("ninja"), "there is no gcc or no ninja")
class Rebuilds(Folder):
    def test_rows(self):
        self.write("zlib/source/h.h", "extern int h;\n")
        for name in ("a.c", "b.c"):
            self.write("zlib/source/" + name, f'#include "h.h"\nint {name[0]};\n')
        source = os.path.join(self.folder, "zlib", "source")
        entries = [{"directory": source, "file": name, "arguments": ["gcc", "-c", name]} for name in ("a.c", "b.c")]
        self.write("zlib/compile_commands.json", json.dumps(entries))
        checker, program = self.write("c.metal", ""), self.write("reads_all", "#!/bin/sh\nexit 0\n")
        os.chmod(program, 0o755)
        done = subprocess.run([sys.executable, REBUILDS, self.folder, "zlib", checker, "a.c", "h.h"], capture_output=True, text=True,
                              timeout=600, env={**os.environ, "METALCHECK": program})
        self.assertEqual((done.returncode, done.stderr), (0, ""))
        rows = [[cell.strip() for cell in row.split("|")[1:-1]] for row in done.stdout.splitlines()[2:]]
        self.assertEqual([(row[0], row[3], row[4]) for row in rows], [
            ("from nothing", "7", "2, 2, 2"), ("with nothing changed", "0", "0, 0, 0"), ("after a.c", "3", "1, 1, 1"),
            ("after h.h", "6", "2, 2, 2")])
        with open(os.path.join(self.folder, "zlib", "source", "a.c"), encoding="utf-8") as file:
            self.assertEqual(file.read(), '#include "h.h"\nint a;\n')


class Telling(unittest.TestCase):
    def test_long_step(self):
        said = io.StringIO()
        with contextlib.redirect_stderr(said):
            teller = telling.Teller("x")
            teller.step("works", 40)
            for _ in range(40):
                teller.one_more()
        lines = said.getvalue().splitlines()
        self.assertEqual((len(lines), lines[0], lines[1], lines[-1]),
                         (11, "x: 0:00 works", "x: 0:00 works: 4 of 40", "x: 0:00 works: 40 of 40"))


class Command(Folder):
    def fetch(self, *words, **more):
        return subprocess.run([sys.executable, FETCH, *words], capture_output=True, text=True, timeout=60, **more)

    def test_unknown_program(self):
        done = self.fetch(self.folder, "emacs")
        self.assertEqual(done.returncode, 2)
        self.assertIn("no program emacs: there are zlib", done.stderr)

    def test_nothing_to_fetch_by(self):
        done = self.fetch(self.folder, "zlib", env={"PATH": self.folder})
        self.assertEqual((done.returncode, done.stdout), (3, ""))
        self.assertRegex(done.stderr, r"\Azlib: 0:\d\d fetches the source package zlib\n"
                                      r"zlib: isn't fetched: there is no apt-get on this machine\n\Z")

    def test_what_is_there(self):
        self.write("zlib/done", "15 files\n")
        done = self.fetch(self.folder, "zlib", env={"PATH": self.folder})
        self.assertEqual((done.returncode, done.stdout), (0, "zlib: 15 files\n"))


if __name__ == "__main__":
    sys.argv[1:] = sys.argv[1:] or ["-q"]
    unittest.main()
