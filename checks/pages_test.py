"""The tests of what stands around the manual: the man page, the completions, the grammars for editors, README's promises, and links.
checks/tools runs them.

docs/COMMAND.md says what the command takes and answers, docs/METAL_REFERENCE.md has the words of checkers; the others have to agree.
"""
import glob
import os
import re
import shutil
import subprocess
import sys
import tempfile
import unittest

from program import ROOT, built
from public_calls import can_refuse, may_change, public_calls, records_of, rooms
from textmate import Grammar

PROGRAM = built()
OPTION = re.compile(r"(?<![\w-])--[a-z]+")
DEPTHS, FORMATS = [str(depth) for depth in range(9)], ["json", "table"]


def page(name):
    with open(os.path.join(ROOT, name), encoding="utf-8") as file:
        return file.read()


def section(text, title):
    """What stands under a heading of a page, up to the next one of its level or above."""
    level = title.split(" ")[0]
    found = re.search(rf"(?ms)^{re.escape(title)}\n(.*?)(?=^#{{1,{len(level)}}} |\Z)", text)
    return found[1]


def rows(text):
    """The rows of the tables of a text, each as the list of its cells."""
    lines = [line for line in text.splitlines() if line.startswith("| ")]
    return [[cell.strip() for cell in re.split(r"(?<!\\)\|", line)[1:-1]] for line in lines]


def table(text, head):
    """The rows of the first table whose first cell of the head is this."""
    lines = text[text.index(f"| {head} |"):].split("\n\n")[0]
    return rows(lines)[1:]


def options():
    """The options of the command, as docs/COMMAND.md has them."""
    text = page("docs/COMMAND.md")
    head = text[:text.index("## Files to check")]
    return set(OPTION.findall(head)) | {name for row in table(text, "Word") for name in OPTION.findall(row[0])}


def man_page():
    """The man page's text as it is read, without its marks."""
    text = re.sub(r'(?m)^\.\\".*\n', "", page("man/metalcheck.1")).replace("\\-", "-")
    return re.sub(r"\\f[RPBI]", "", text)


def run(*words, **more):
    return subprocess.run(words, capture_output=True, text=True, timeout=120, **more)


class Command(unittest.TestCase):
    """docs/COMMAND.md and what repeats it."""

    def test_options_of_the_program(self):
        usage = run(PROGRAM).stderr
        self.assertEqual(options(), set(OPTION.findall(usage)) | {"--generate"})
        self.assertIn(re.sub(r"^usage: ", "", usage.strip()), page("docs/COMMAND.md"))

    def test_values_of_options(self):
        taken = [["--depth", depth] for depth in DEPTHS] + [["--format", name] for name in FORMATS] + [["--stats"]]
        refused = [["--depth", "9"], ["--format", "xml"], ["--stats=1"]]
        with tempfile.TemporaryDirectory() as folder:
            with open(os.path.join(folder, "a.c"), "w", encoding="utf-8") as file:
                file.write("int x;\n")
            for words in taken + refused:
                self.assertEqual(run(PROGRAM, *words, "a.c", cwd=folder).returncode, 0 if words in taken else 2, words)

    def test_man_page_options(self):
        self.assertEqual(set(OPTION.findall(man_page())), options())
        said = re.search(r"(?s)Write the reports in the style(.*?)Without", man_page())[1]
        self.assertEqual(sorted(re.findall(r"[a-z]{4,}", said)), FORMATS)

    def test_statuses(self):
        wanted = [row[0] for row in table(page("docs/COMMAND.md"), "Status")]
        self.assertEqual(wanted, [str(status) for status in range(7)])
        listed = re.search(r"(?s)\.SH EXIT STATUS(.*?)\.SH", man_page())[1]
        self.assertEqual(re.findall(r"(?m)^\.TP\n\.B (\d+)$", listed), wanted)
        told = re.search(r"(?s)Status 0 says.*?\n\n", page("README.md"))[0]
        self.assertEqual(sorted(set(re.findall(r"\b\d\b", told))), wanted)

    def test_refusals(self):
        c_names, checker_names = re.search(r"(?s)\.SH REFUSALS\n(.*?)\.PP\n(.*?)\.PP\n", man_page()).groups()
        text = page("docs/COMMAND.md")
        of_c = {row[0] for row in table(section(text, "## Refusals of a C file"), "Name")}
        of_checkers = {name for row in table(section(text, "## Refusals of a checker"), "Name") for name in row[0].split(", ")}
        bold = r"(?m)^\.BR? (\w+)"
        self.assertEqual(set(re.findall(bold, c_names)), of_c)
        self.assertEqual(set(re.findall(bold, checker_names)), of_checkers)
        headings = re.findall(r"(?m)^### (.*)$", section(page("docs/METAL_REFERENCE.md"), "## Faults"))
        self.assertEqual({name for heading in headings for name in heading.split(", ")} | {"TooLarge"}, of_checkers)

    @unittest.skipUnless(shutil.which("groff"), "there is no groff")
    def test_man_page_is_one(self):
        done = run("groff", "-man", "-Tascii", "-ww", os.path.join(ROOT, "man/metalcheck.1"))
        self.assertEqual((done.returncode, done.stderr), (0, ""))

    @unittest.skipUnless(shutil.which("gcc"), "there is no gcc")
    def test_options_that_take_a_form_out(self):
        found = table(page("docs/COMMAND.md"), "Form")
        self.assertGreater(len(found), 5)
        for form, option in found:
            form, option = form.strip("`"), re.match("`(.*?)`", option)[1].replace("'", "")
            with tempfile.TemporaryDirectory() as folder:
                statuses = [self.judged(folder, form, more) for more in ([], [option])]
            self.assertEqual(statuses, [3, 0], form)

    def judged(self, folder, form, options):
        """The status over the preprocessed form."""
        done = run("gcc", "-E", "-std=gnu89", "-x", "c", *options, "-", "-o", "a.i", cwd=folder, input=form + "\n")
        self.assertEqual(done.returncode, 0, done.stderr)
        return run(PROGRAM, "a.i", cwd=folder).returncode


class Completions(unittest.TestCase):
    """completions/, against docs/COMMAND.md."""

    def bash(self, *words):
        """What bash offers for the last of these words, in the top folder."""
        script = ("source completions/metalcheck.bash", 'COMP_WORDS=("$@")', "COMP_CWORD=$(($# - 1))", "_metalcheck",
                  'printf "%s\\n" "${COMPREPLY[@]}"')
        return sorted(run("bash", "-c", "; ".join(script), "bash", "metalcheck", *words, cwd=ROOT).stdout.split())

    def fish(self, line):
        done = run("fish", "--no-config", "-c", f"source completions/metalcheck.fish; complete -C'{line}'", cwd=ROOT)
        return sorted(offered.split("\t")[0] for offered in done.stdout.splitlines())

    def test_bash_options(self):
        self.assertEqual(set(self.bash("-")), options() | {"--"})
        self.assertEqual(self.bash("--depth", "2", "--"), ["--", "--format", "--stats"])
        self.assertEqual(self.bash("--format=json", "--s"), ["--stats"])
        self.assertEqual(self.bash("a.c", "--"), [])
        self.assertEqual(self.bash("--generate", "5", ""), [])

    def test_bash_values(self):
        for words in (["--depth", ""], ["--depth", "="], ["--stats", "--depth", "=", ""]):
            self.assertEqual(self.bash(*words), DEPTHS)
        self.assertEqual(self.bash("--format", ""), FORMATS)
        self.assertEqual(self.bash("--format", "=", "j"), ["json"])

    def test_bash_files(self):
        self.assertEqual(self.bash("--depth", "1", "examples/first/o"), ["examples/first/one.metal"])
        self.assertNotIn("examples/first/port.h", self.bash("examples/first/"))
        self.assertEqual(self.bash("examples/free.metal", "README"), ["README.md"])

    def test_zsh(self):
        text = page("completions/_metalcheck")
        self.assertEqual(set(re.findall(r"\)(--[a-z]+)=?\[", text)), options())
        self.assertEqual(re.search(r":steps:\((.*?)\)", text)[1].split(), DEPTHS)
        self.assertEqual(sorted(re.search(r":style:\((.*?)\)", text)[1].split()), FORMATS)
        if shutil.which("zsh"):
            self.assertEqual(run("zsh", "-n", "completions/_metalcheck", cwd=ROOT).returncode, 0)

    def test_fish(self):
        text = page("completions/metalcheck.fish")
        self.assertEqual({f"--{name}" for name in re.findall(r"(?m)^complete .* -l (\w+)", text)}, options())
        self.assertEqual(re.search(r"-l depth -x -a '(.*?)'", text)[1].split(), DEPTHS)
        self.assertEqual(sorted(re.search(r"-l format -x -a '(.*?)'", text)[1].split()), FORMATS)

    @unittest.skipUnless(shutil.which("fish"), "there is no fish")
    def test_fish_itself(self):
        self.assertEqual(set(self.fish("metalcheck -")), options())
        self.assertEqual(self.fish("metalcheck --depth "), DEPTHS)
        self.assertEqual(self.fish("metalcheck --depth 3 --"), ["--format", "--stats"])
        self.assertEqual(self.fish("metalcheck a.c --"), [])
        self.assertEqual(self.fish("metalcheck --stats examples/first/o"), ["examples/first/one.metal"])


class Checkers(unittest.TestCase):
    """The page on checkers in short, and the grammars, against docs/METAL_REFERENCE.md."""

    def words(self):
        """The types of holes and the callouts of the reference."""
        reference = page("docs/METAL_REFERENCE.md")
        cells = [row[0] for row in table(reference, "Type") + table(reference, "Callout")]
        return {name for cell in cells for name in re.findall(r"\b(?:any|mc)_\w+", cell)}

    def test_same_words(self):
        self.assertEqual(len(self.words()), 11)
        for name in ("docs/CHEATSHEET.md", "editors/vim/syntax/metalcheck.vim", "editors/vscode/syntaxes/metalcheck.tmLanguage.json"):
            self.assertEqual(set(re.findall(r"\b(?:any|mc)_\w+", page(name))) - {"mc_identifier"}, self.words(), name)

    def blocks(self):
        """The frame of the page in short, and its idioms."""
        text = page("docs/CHEATSHEET.md")
        found = re.findall(r"(?m)(?:^    .*\n(?:\n(?=    ))?)+", text)
        return found[0], found[1:]

    def test_idioms_are_accepted(self):
        frame, idioms = self.blocks()
        self.assertEqual(len(idioms), 12)
        declared = "".join(line + "\n" for line in frame.splitlines() if " decl " in line)
        with tempfile.TemporaryDirectory() as folder:
            for text in [frame, *(f"sm idiom {{\n{declared}{idiom}}}\n" for idiom in idioms)]:
                for name, contents in (("a.metal", text), ("a.c", "int x;\n")):
                    with open(os.path.join(folder, name), "w", encoding="utf-8") as file:
                        file.write(contents)
                done = run(PROGRAM, "a.metal", "a.c", cwd=folder)
                self.assertEqual((done.returncode, done.stderr), (0, ""), text)

    def test_code_grammar(self):
        grammar = Grammar(os.path.join(ROOT, "editors/vscode/syntaxes/metalcheck.tmLanguage.json"))
        found, still_open = grammar.scopes(page("examples/metal/format.metal"))
        scopes = [(piece, scope.removesuffix(".metalcheck")) for piece, scope in found]
        self.assertEqual(still_open, 0)
        self.assertEqual(scopes[:5], [("sm", "keyword.other.machine"), ("format", "entity.name.class"),
                                      ("{", "punctuation.section.machine.begin"), ("decl", "storage.type.declaration"),
                                      ("any_fn_call", "support.type.hole")])
        for one in (("mc_is_const", "support.function.callout"), ("==>", "keyword.operator.arrow"), ("%s", "constant.other.placeholder"),
                    ("printf", "entity.name.function"), ("start", "variable.other.state"), ("start", "entity.name.tag.state")):
            self.assertIn(one, scopes)

    def test_code_grammar_closes_all(self):
        grammar = Grammar(os.path.join(ROOT, "editors/vscode/syntaxes/metalcheck.tmLanguage.json"))
        for name in glob.glob(os.path.join(ROOT, "examples", "**", "*.metal"), recursive=True):
            self.assertEqual(grammar.scopes(page(name))[1], 0, name)

    @unittest.skipUnless(shutil.which("vim"), "there is no vim")
    def test_vim_grammar(self):
        with tempfile.TemporaryDirectory() as folder:
            script, seen = os.path.join(folder, "seen.vim"), os.path.join(folder, "seen")
            lines = page("examples/metal/lock.metal").splitlines()
            asked = [(1, "sm"), (1, "lock_checker"), (2, "state"), (2, "any_pointer"), (3, "start"), (3, "{"), (3, "==>"), (3, "true"),
                     (5, "err"), (8, "$end_of_path$")]
            names = ", ".join(f"synIDattr(synID({line}, {lines[line - 1].index(word) + 1}, 1), 'name')" for line, word in asked)
            with open(script, "w", encoding="utf-8") as file:
                file.write(f"set nocompatible\nlet &runtimepath = '{ROOT}/editors/vim,' . &runtimepath\nfiletype plugin on\nsyntax on\n"
                           f"edit {ROOT}/examples/metal/lock.metal\ncall writefile([&filetype, {names}], '{seen}')\nqall!\n")
            run("vim", "-es", "-u", script, stdin=subprocess.DEVNULL)
            self.assertEqual(page(seen).split(), ["metalcheck", "metalKeyword", "metalHead", "metalKeyword", "metalHoleType", "metalSource",
                                                  "metalBrace", "metalArrow", "metalBranch", "metalErr", "metalEnd"])


class Promises(unittest.TestCase):
    """README.md, against the contract of the call that the program makes."""

    def test_one_clause(self):
        for name, call, record in (("metalcheck/src/styles.rt", "fn run_in_styles", "PromiseInStyles"), ("command/src/program.rt", "fn run", "Promise")):
            source = page(f"crates/{name}")
            contract = source[source.index(f"{call}<"):].split("\n{\n")[0]
            self.assertEqual(re.findall(r"\b(?:requires|ensures)\b.*", contract), [
                f"ensures {{ {record} files.old files.new (AreHanded O.write_gives E.write_gives out.old out.new errs.old errs.new) (record {{"])

    def test_fields(self):
        clauses = records_of("command")["Promise"]
        self.assertEqual(len(clauses), 25)
        self.assertEqual(records_of("metalcheck")["PromiseInStyles"], ["promise", "in_format"])
        clauses = clauses + ["in_format"]
        told = section(page("README.md"), "## What is promised")
        promises = re.findall(r"(?ms)^- (.*?)(?=^- |^$)", told)
        self.assertEqual(len(promises), 4)
        self.assertEqual({name for text in promises for name in re.findall(r"`(\w+)`", text)}, set(clauses))


class Rooms(unittest.TestCase):
    """Each room says what it holds, briefly and in one order."""
    headings = ["What it does", "What a contract sees", "What is proved", "What no clause says", "What is tested or read"]

    def test_headings(self):
        for room in sorted(os.listdir(os.path.join(ROOT, "crates"))):
            if not os.path.isdir(os.path.join(ROOT, "crates", room, "src")):
                continue
            with self.subTest(room):
                text = page(f"crates/{room}/README.md")
                self.assertEqual(re.findall(r"(?m)^## (.*)$", text), self.headings)
                self.assertTrue(text.startswith(f"# {room}\n"))

    def test_length(self):
        long = {name: words for name in glob.glob(os.path.join(ROOT, "crates", "*", "README.md"))
                if (words := len(page(os.path.relpath(name, ROOT)).split())) > 250}
        self.assertEqual(long, {})


class Links(unittest.TestCase):
    """What the pages lead to is there."""
    folders = "docs|examples|tools|checks|bench|cases|man|completions|editors"

    def pages(self):
        places = ("README.md", "docs/*.md", "examples/**/*.md", "editors/*.md", "cases/*.md", "crates/*/*.md")
        found = [name for place in places for name in glob.glob(os.path.join(ROOT, place), recursive=True)]
        return sorted(os.path.relpath(name, ROOT) for name in found)

    def is_there(self, link):
        """Whether a file has this name. In capitals stands what is to be filled in."""
        return glob.glob(os.path.join(ROOT, link)) or re.search(r"/[A-Z]+/[A-Z]+\b", link)

    def test_files(self):
        lost = []
        for name in self.pages():
            text = page(name)
            linked = [os.path.join(os.path.dirname(name), link) for link in re.findall(r"\]\(([^)#:\s]+)(?:#[^)]*)?\)", text)]
            named = re.findall(rf"`((?:{self.folders})/[^`\s:]*)", text)
            lost += [f"{name}: {link}" for link in linked + named if not self.is_there(link)]
        self.assertEqual(lost, [])

    def test_sections(self):
        lost = []
        for name in self.pages():
            for other, title in re.findall(r"[`(](docs/\w+\.md)[`)],\s+\"([^\"]+)\"", page(name)):
                title = " ".join(title.split())
                if os.path.exists(os.path.join(ROOT, other)) and not re.search(rf"(?m)^#+ {re.escape(title)}$", page(other)):
                    lost.append(f"{name}: {other}, \"{title}\"")
        self.assertEqual(lost, [])

    def test_what_is_to_be_read(self):
        """The list of definitions that opens docs/THEORY.md names files of its rooms."""
        rows = [row for row in page("docs/THEORY.md").split("## The theory")[0].split("\n") if row.startswith("| ")][1:]
        lost, found = [], 0
        for room, names in (part for row in rows for part in re.findall(r"`(\w+)`: ((?:`[\w/.]+`(?:, )?)+)", row)):
            for name in re.findall(r"`([^`]+)`", names):
                found += 1
                path = f"crates/{room}/{name}" if name.startswith("src/") else f"crates/{room}/specs/{name}.antt"
                lost += [] if os.path.exists(os.path.join(ROOT, path)) else [path]
        self.assertEqual(lost, [])
        self.assertGreater(found, 80)


class Refusals(unittest.TestCase):
    """docs/REFUSALS.md, against the public calls of the rooms."""

    @classmethod
    def setUpClass(cls):
        cls.calls = {(call.room, call.name): call for room in rooms() for call in public_calls(room) if can_refuse(call)}

    def changing(self):
        """The rows of the calls that may change what they are handed, with the room and the call in each."""
        room = name = ""
        for row in rows(section(page("docs/REFUSALS.md"), "## Calls that may change what they are handed"))[1:]:
            room, name = row[0].strip("`") or room, row[1].strip("`") or name
            yield room, name, re.findall(r"`(\w+)`", row[4])

    def others(self):
        """All other calls, each with its room and the clauses behind it."""
        for room, *cells in rows(section(page("docs/REFUSALS.md"), "## All other calls"))[1:]:
            for name, clauses in re.findall(r"`([\w:]+)`(?: \(((?:`\w+`(?:, )?)+)\))?", ", ".join(cells)):
                yield room.strip("`"), name, re.findall(r"\w+", clauses)

    def test_calls(self):
        self.assertGreater(len(self.calls), 150)
        for found, is_changing in ((self.changing(), True), (self.others(), False)):
            wanted = {key for key, call in self.calls.items() if may_change(call) == is_changing}
            self.assertEqual({(room, name) for room, name, _ in found}, wanted)

    def test_clauses(self):
        lost = [(room, name, clause) for found in (self.changing(), self.others()) for room, name, clauses in found
                for clause in clauses if clause not in self.calls[room, name].clauses]
        self.assertEqual(lost, [])


if __name__ == "__main__":
    sys.argv[1:] = sys.argv[1:] or ["-q"]
    unittest.main()
