"""The tests of tools/readable: what it promises, what it says, and what it makes of bad input. checks/tools runs them."""
import collections
import glob
import os
import re
import shutil
import stat
import subprocess
import sys
import tempfile
import unittest

from program import ROOT, built

sys.path.insert(0, os.path.join(ROOT, "tools", "lib"))

from readable import Options, make_readable  # noqa: E402  (the folder has to be named first)
from readable.chunks import Source  # noqa: E402

PROGRAM = os.environ["METALCHECK"] = built()
FORMS = os.path.join(ROOT, "checks", "data", "foreign_forms.c")
READ = "typedef  int T;\t/* as it is */\r\nT a( T b )\n{\n\tdo { b--; } while (0);\n  return b;\n}\n"
# every name stands in it once, so that its place can be compared
PLACES = """# 1 "main.c"
# 1 "low.h" 1
int low_a;   typedef int low_type;
static int low_f(int low_x) { return ({ int low_y = low_x; low_e(low_y); }); }
# 2 "main.c" 2

int old(one,
        two)
  char *two; int one;
{
    first(1); int later = 3; for (low_type each = 0; more(); next())
        inside();
# 40 "grammar.y"
    return ({ while (again()) twice();
              value; })
        + 5;
}
"""
UNREAD = """# 1 "main.c"
# 1 "low.h" 1
static int low(int a) { return low(a) + (low(a) ?: 3); }
_Complex double lost_variable;
# 2 "main.c" 2
typedef _Complex double lost_type;
lost_type lost_function(int a);
int jumps(void *to) { goto *to; }
int takes(int a) { lost_type (a); return 1; }
int calls(int a) { return lost_function(a); }
int names(int a) { return lost_variable; }
int stays(int a) { return calls(a) + low(a); }
"""
PRUNED = """# 1 "main.c"
# 1 "low.h" 1
static int low(int a) { return a; }
static int lower(int a) { return low(a); }
static int other(int a) { return low(a); }
static int another(int a) { return ({ other(a); }); }
# 2 "main.c" 2
int main_one(int a) { return lower(a); }
int odd(int a) { return ({ a; }); }
"""
# bodies of headers that brackets in literals, comments, marker lines, stripped groups and types could hide or end too early
BODIES = """# 1 "main.c"
# 1 "low.h" 1
static inline __attribute__((cold)) int one(int a) { return a ? '}' : *"}{" + one(a / 2); }
static int two(int a)
{
  if (a) { asm volatile("} { %0" : : "r" (a)); }
# 9 "low.h"
  return two(a);
}
static int three(int a) { return a; } static int four(int a) { int b __attribute__((cleanup(c))); return b; // }
}
struct packed __attribute__((packed)) { int a; };
struct both __attribute__((packed)) { int a; } five(int a) { struct both b; return b; }
const char *text = "six(int a) {"; int t[] = (int[]) { 1, 2 };
old(a, b) int (*a)(void); { return 1; }
static int seven(int a) { return 1; }
# 3 "main.c" 2
int main_one(int a) { if (a) { return seven(a); } return 2; }
"""
BAD = [
    (b"", "empty"),
    (b"\x7fELF\0\0\0", "bytes that are 0"),
    (b"Dear reader, this is a letter and no program\n", "nothing in it is read"),
    (b'# 1 "a.c"\nint f(int a) {\n  return a;\n', "`{` at a.c:1 has no partner"),
    (b'# 1 "a.c"\nint f(int a) { return a]; }\n', "`]` at a.c:1 has no partner"),
    (b'# 1 "a.c"\n# 9 "b.h" 2\nint f(int a) { return ({ a; }); }\n', 'line 2 of the text goes back to "b.h"'),
    (b"# 1 a.c\nint f(int a) { return ({ a; }); }\n", "line 1 of the text is none"),
    (b"#define A\nint f(int a) { return a; }\n", "line 1 of the text is none"),
    (b"int f(int a) { return a; }\n" + b" " * 16777216, "larger than 16777216 bytes"),
]


def tokens_at(text):
    """For each presumed file, line and column the spelling that stands there."""
    source = Source(text)
    return {(*source.places.line(at), source.places.column(at)): token for token, at in zip(source.texts, source.starts)}


class Folder(unittest.TestCase):
    """A test with a folder of its own."""

    def setUp(self):
        box = tempfile.TemporaryDirectory()
        self.addCleanup(box.cleanup)
        self.folder = box.name

    def write(self, name, text):
        path = os.path.join(self.folder, name)
        os.makedirs(os.path.dirname(path), exist_ok=True)
        with open(path, "wb") as file:
            file.write(text if isinstance(text, bytes) else text.encode())
        return path

    def read(self, name):
        with open(os.path.join(self.folder, name), "rb") as file:
            return file.read().decode("latin-1")

    def run_tool(self, *words, program=None):
        environment = {**os.environ, "METALCHECK": program or PROGRAM}
        command = [os.path.join(ROOT, "tools", "readable"), *words]
        return subprocess.run(command, capture_output=True, text=True, timeout=300, cwd=self.folder, env=environment)

    def made(self, text, *words, name="a.i"):
        """What the tool writes and says of a text."""
        self.write(name, text)
        done = self.run_tool(*words, name, "-o", "out.i")
        return (self.read("out.i") if os.path.exists(os.path.join(self.folder, "out.i")) else None), done

    def record(self, text, **options):
        return make_readable(self.write("a.i", text), Options(**options))


class Promises(Folder):
    def test_read_as_it_is(self):
        text, done = self.made(READ)
        self.assertEqual((text, done.returncode, done.stderr), (READ, 0, "readable: a.i: read as it is\n"))

    def test_plain_loops(self):
        text, done = self.made(READ, "--plain-loops")
        self.assertEqual(re.sub(r"[ \t\r\n]", "", text), re.sub(r"[ \t\r\n]", "", READ.replace("do {", "{").replace("} while (0);", "}")
                                                                .replace("/* as it is */", "/*asitis*/")))
        self.assertEqual(done.stderr, "readable: a.i: read as it is, but for 1 plain loops\n")

    def test_always(self):
        self.assertNotIn("while", self.made(READ, "--always")[0])

    def test_places(self):
        text, done = self.made(PLACES)
        self.assertEqual(done.returncode, 1, done.stderr)   # value isn't declared, so old is cut
        text = PLACES.replace("value", "5")
        made, done = self.made(text)
        self.assertEqual(done.returncode, 0, done.stderr)
        before, after = tokens_at(text), tokens_at(made)
        words = collections.Counter(word for word in before.values() if re.match(r"[A-Za-z]", word))
        once = {word for word, number in words.items() if number == 1} - {"typedef", "static"}
        places = {word: place for place, word in after.items() if word in once}
        self.assertLessEqual({"first", "later", "more", "next", "inside", "again", "twice", "return"} & words.keys(), words.keys())
        self.assertGreater(len(places), 14)
        for word, place in places.items():
            self.assertEqual(before.get(place), word)

    def test_every_token_that_stays(self):
        """Of a large program: each written token that isn't new stands at its place."""
        if not shutil.which("gcc"):
            self.skipTest("there is no gcc")
        text = subprocess.run(["gcc", "-E", "-std=gnu11", FORMS], capture_output=True, check=True).stdout.decode("latin-1")
        record = self.record(text)
        before, after = tokens_at(text), tokens_at(record.text)
        new = [(place, word) for place, word in after.items() if before.get(place) != word]
        self.assertLess(len(new), len(after) / 5)
        self.assertGreater(sum(before.get(place) == word for place, word in after.items()), 3000)
        rare = collections.Counter(before.values())
        for place, word in new:
            self.assertFalse(rare[word] == 1 and re.match(r"[A-Za-z]", word), (place, word))

    def test_written_text_was_read(self):
        made, _ = self.made(UNREAD)
        done = subprocess.run([PROGRAM, os.path.join(self.folder, "out.i")], capture_output=True)
        self.assertEqual((done.returncode, done.stderr), (0, b""))
        self.assertNotIn("goto", made)

    def test_no_text_that_is_refused(self):
        """A program that refuses what is written at last, and an older text in its place."""
        self.write("out.i", "int older;\n")
        refusing = "case $1 in *written.i) echo a.c:1: refused: Syntax >&2; exit 3;; esac"
        refuser = self.write("refuser", f"#!/bin/sh\n{refusing}\nexec {PROGRAM} \"$1\"\n")
        os.chmod(refuser, 0o755)
        self.write("a.i", UNREAD)
        done = self.run_tool("a.i", "-o", "out.i", program=refuser)
        self.assertEqual((done.returncode, done.stderr), (3, "readable: a.i: what can be made of it is refused at a.c:1: Syntax\n"))
        self.assertEqual(sorted(os.listdir(self.folder)), ["a.i", "refuser"])

    def test_nothing_is_cut_in_silence(self):
        done = self.made(UNREAD)[1]
        self.assertEqual(done.returncode, 1)
        self.assertEqual(done.stderr.splitlines(), [
            "main.c:4: jumps isn't read: computed goto",
            "main.c:5: takes isn't read: names a type that isn't read",
            "main.c:6: calls isn't read: names something that isn't read",
            "main.c:7: names isn't read: Undeclared",
            "main.c:2: the declaration of lost_type isn't read: complex",
            "main.c:3: the declaration of lost_function isn't read: names a type that isn't read",
            "readable: a.i: 4 of 5 functions aren't read (Undeclared 1, computed goto 1, names a type that isn't read 1, "
            "names something that isn't read 1); of headers 1 of 1; 3 declarations cut"])

    def test_quiet(self):
        done = self.made(UNREAD, "--quiet")[1]
        self.assertEqual((done.returncode, len(done.stderr.splitlines())), (1, 1))

    def test_cut_functions_are_prototypes(self):
        record = self.record(UNREAD)
        self.assertRegex(record.text, r"int calls\(int a\) +;")
        first = record.unread[0]
        self.assertEqual((first.file, first.line, first.name, first.reasons), ("main.c", 4, "jumps", ["computed goto"]))

    def test_no_rewrite(self):
        record = self.record(PLACES.replace("value", "5"), rewrite=False)
        reasons = ["declaration behind a statement", "declaration in for", "old-style definition", "statement expression"]
        self.assertEqual([(one.name, one.reasons) for one in record.unread], [("old", reasons)])
        self.assertEqual(dict(record.classes), {})

    def test_cut_old_style(self):
        """Without rewriting an old-style definition becomes a prototype without parameters, so that its callers stay."""
        record = self.record("int f(a, b) int a; char *b; { return a; }\nint g(void) { return f(1, 0); }\n", rewrite=False)
        self.assertEqual([one.name for one in record.unread], ["f"])
        self.assertRegex(record.text, r"\Aint f\( *\)\s")

    def test_pruning(self):
        text, done = self.made(PRUNED, "--prune")
        self.assertEqual(done.stderr, "readable: a.i: 0 of 2 functions aren't read; of headers 0 of 4; 2 pruned\n")
        self.assertEqual(text.count("return"), 4)
        self.assertEqual(self.made(PRUNED)[0].count("return"), 6)

    def test_bodies_that_are_left_out(self):
        """With the bodies put in that were left out, a text is cut into the same tokens and chunks."""
        def seen(source):
            chunks = [(chunk.first, chunk.behind, chunk.body, chunk.kind, chunk.begin, chunk.end, chunk.name, chunk.odd_assembler,
                       chunk.cleanup) for chunk in source.chunks]
            return source.texts, source.starts, source.lines, source.fault, chunks
        for text, number in [(PRUNED, 4), (UNREAD, 1), (BODIES, 7), (BODIES.replace("// }", "/* } */"), 0), (PLACES, 1)]:
            source = Source(text, leaves_out=True)
            self.assertEqual(len(source.bodies.ends), number, text)
            source.put_in_bodies(source.chunks)
            self.assertEqual(seen(source), seen(Source(text)))

    def test_pruned_bodies(self):
        record = self.record(BODIES, prune=True)
        self.assertEqual((record.fault, record.unread, record.pruned), (None, [], 6))
        self.assertEqual(re.findall(r"return [^;]*", record.text), ["return 1", "return seven(a)", "return 2"])
        for before, line in [("seven(int a) { return ", 17), ("three(int a) { return ", 11)]:
            text = BODIES.replace(before, before + "(")
            self.assertEqual(self.record(text, prune=True).fault, f"the text isn't balanced: `}}` at low.h:{line} has no partner")

    def test_questions(self):
        """What surely isn't read isn't asked about as it is. A refusal's place says what is refused, where one declaration stands there."""
        whole = "int a(int b) { return ({ b; }); }\n"
        named = '# 1 "m.c"\n' + whole
        for text, unread, runs in [
                (whole, [], 1), (READ, [], 1), (named + "int c(void) { return x; }\n", ["c"], 2),
                (named + "int c(void) { return x; } int d(void) { return 1; }\n", ["c"], 3),
                (named + "int c(void) { return 1; }\n" * 4, ["c"] * 3, 2),
                (named + "".join(f"int c{k}(void) {{ return x; }}\n" for k in range(7)), [f"c{k}" for k in range(7)], 10)]:
            record = self.record(text)
            self.assertEqual(([one.name for one in record.unread], record.runs), (unread, runs), text)

    def test_approximations_are_named(self):
        text = "int f(int a) { return __builtin_choose_expr(1, a, 2) + ({ int b = a; b * b; }); }\n"
        done = self.made(text)[1]
        self.assertIn("readable: a.i: approximations: choice 1, read again 1\n", done.stderr)
        self.assertNotIn("approximations", self.made(PRUNED)[1].stderr)

    def test_cleanup(self):
        text = "void c(int *);\nvoid f(int a)\n{ int b __attribute__((cleanup(c))); b = ({ a; }); }\n"
        self.assertIn("a.i:3: f: the calls of its cleanup attributes aren't seen\n", self.made(text)[1].stderr)

    def test_assembler(self):
        text, done = self.made('void f(int a) { __asm__ __volatile("nop" : : "r" (a)); a++; }\n')
        self.assertEqual((done.returncode, re.sub(r"\s+", "", text)), (0, "voidf(inta){;a++;}"))

    def test_initial_values(self):
        done = self.made('int t[3] = { [0 ... 2] = 1 }, *p = (int[]){ 1 };\nint f(int a) { return t[a] + *p; }\n')[1]
        said = "readable: a.i: 0 of 1 functions aren't read; 1 without their initial values\n"
        self.assertEqual((done.returncode, done.stderr), (0, said))

    def test_two_of_one_name(self):
        """Of a header's body and the file's own the header's goes."""
        record = self.record('# 1 "m.c"\n# 1 "l.h" 1\nint f(int a) { return 1; }\n# 2 "m.c" 2\nint f(int a) { return ({ 2; }); }\n')
        self.assertEqual((record.fault, record.unread, record.header_unread), (None, [], 1))
        self.assertNotIn("1; }", record.text)


class Files(Folder):
    def test_two_files_of_one_name(self):
        self.write("x/a.i", "int x;\n")
        self.write("y/a.i", "int y;\n")
        self.write("y/a_2.i", "int z(void) { return ({ 1; }); }\n")
        done = self.run_tool("x/a.i", "y/a.i", "y/a_2.i", "-o", "all")
        self.assertEqual(done.returncode, 0, done.stderr)
        self.assertEqual(sorted(os.listdir(os.path.join(self.folder, "all"))), ["a.i", "a_2.i", "a_3.i"])
        self.assertEqual((self.read("all/a.i"), self.read("all/a_3.i")), ("int x;\n", "int y;\n"))
        self.assertEqual(done.stderr.splitlines()[-1], "readable: 3 files, 2 read as they are: 0 of 1 functions aren't read")

    def test_rest_goes_on(self):
        self.write("a.i", "")
        self.write("b.i", "int x;\n")
        done = self.run_tool("a.i", "b.i", "none.i", "-o", "all", "--jobs", "1")
        self.assertEqual((done.returncode, os.listdir(os.path.join(self.folder, "all"))), (3, ["b.i"]))
        self.assertIn("readable: none.i: No such file or directory\n", done.stderr)
        self.assertIn("3 files, 1 read as they are, 2 without a text", done.stderr)

    def test_wrong_words(self):
        self.write("a.i", "int x;\n")
        for words in (["a.i"], ["-o", "out.i"], ["a.i", "-o", "a.i"], ["a.i", "a.i", "-o", "a.i"], ["a.i", "-o", "a.i/b.i"],
                      ["--fast", "a.i", "-o", "b"]):
            self.assertEqual(self.run_tool(*words).returncode, 2, words)
        self.assertEqual(self.read("a.i"), "int x;\n")

    def test_place_that_is_no_file(self):
        """What isn't a file stays what it is."""
        self.write("a.i", "int x;\n")
        os.mkfifo(os.path.join(self.folder, "pipe"))
        done = self.run_tool("a.i", "-o", "pipe")
        self.assertEqual((done.returncode, done.stderr), (2, "readable: pipe is no file, and a text would take its place; name another one behind -o\n"))
        self.assertTrue(stat.S_ISFIFO(os.stat(os.path.join(self.folder, "pipe")).st_mode))

    def test_no_program(self):
        self.write("a.i", "int x;\n")
        done = self.run_tool("a.i", "-o", "out.i", program=os.path.join(self.folder, "none"))
        self.assertEqual(done.returncode, 5)
        self.assertIn("METALCHECK names the program", done.stderr)

    def test_bad_input(self):
        for text, message in BAD:
            with self.subTest(message):
                made, done = self.made(text)
                self.assertEqual((made, done.returncode), (None, 3))
                self.assertRegex(done.stderr, r"\Areadable: a\.i: [^\n]*\n\Z")
                self.assertIn(message, done.stderr)


@unittest.skipUnless(shutil.which("gcc"), "there is no gcc")
class SameRuns(Folder):
    def printed(self, path, name):
        program = os.path.join(self.folder, name)
        subprocess.run(["gcc", "-w", "-std=gnu11", "-x", "cpp-output", path, "-o", program], check=True)
        return subprocess.run([program], capture_output=True, text=True, check=True).stdout

    def test_same_output(self):
        """A program full of forms prints the same before and after, and none of its functions is cut."""
        path = os.path.join(self.folder, "forms.i")
        subprocess.run(["gcc", "-E", "-std=gnu11", FORMS, "-o", path], check=True)
        done = self.run_tool(path, "-o", "out.i")
        self.assertEqual(done.returncode, 0, done.stderr)
        before = self.printed(path, "before")
        self.assertGreater(len(before), 1000)
        self.assertEqual(self.printed(os.path.join(self.folder, "out.i"), "after"), before)


class Cases(Folder):
    def test_what_is_read_keeps_all(self):
        """No function of a case's files is cut where the program reads them."""
        tried = 0
        for path in sorted(glob.glob(os.path.join(ROOT, "cases", "*", "*.case"))):
            with open(path, encoding="utf-8", newline="") as case:
                parts = re.split(r"(?m)^--- (.*)\n", case.read())
            sections = dict(zip(parts[1::2], parts[2::2]))
            if sections.get("status", "0").strip() not in ("0", "1"):
                continue
            for title, text in sections.items():
                if re.fullmatch(r"file \S+\.c", title):
                    tried += 1
                    self.keeps_all(path, text)
        self.assertGreater(tried, 100)

    def keeps_all(self, path, text):
        """The first step, which asks nothing, cuts nothing."""
        from readable.names import names_of
        from readable.preparing import prepare
        source = Source(text)
        self.assertIsNone(source.fault, path)
        prepare(source, names_of(source), Options())
        cut = [(chunk.name, chunk.reasons()) for chunk in source.chunks if chunk.state != "whole"]
        self.assertEqual(cut, [], path)


if __name__ == "__main__":
    sys.argv[1:] = sys.argv[1:] or ["-q"]
    unittest.main()
