"""Runs the commands of the manual. checks/examples calls it.

In README.md, docs/, editors/ and examples/ a command is a line of an indented block that begins with '$ '; in the man page it stands
between .EX and .EE. The lines behind it in its block, up to the next command, are all that it writes (both outputs). '$ cat FILE' shows a
file of the repository. /tmp is a folder that goes away behind the page. A command with gcc, or on a file there, is left out where there is
no gcc. A row of a table that ends in a refusal of a.c says what becomes of a file of its two lines.
Usage: checks/examples [FILE ..]
"""
import os
import re
import shutil
import subprocess
import sys
import tempfile

from program import ROOT, built

PROGRAM = built()


def manual():
    found = ["README.md", "examples/checkers/README.md", "editors/README.md", "man/metalcheck.1"]
    return found + sorted("docs/" + name for name in os.listdir(os.path.join(ROOT, "docs")) if name.endswith(".md"))


def page_text(page):
    """The text of a page; of the man page its examples stand as blocks."""
    with open(os.path.join(ROOT, page), encoding="utf-8") as file:
        text = file.read()
    if not page.endswith(".1"):
        return text
    parts = re.split(r"(?m)^\.EX\n|^\.EE\n", text)
    parts[1::2] = [re.sub("(?m)^", "    ", part).replace("\\-", "-") for part in parts[1::2]]
    return "\n".join(parts)


def commands(text):
    """The commands of a page, each with its line number and what it has to write."""
    found, current = [], None
    for number, line in enumerate(text.splitlines(), 1):
        if not line.startswith("    ") and line.strip():
            current = None
        elif line.startswith("    $ "):
            current = [number, line[6:], []]
            found.append(current)
        elif current is not None:
            current[2].append(line[4:])
    for one in found:
        while one[2] and not one[2][-1]:
            one[2].pop()
    return found


def rows(text):
    """The rows that show a refused file: its line number, the file, and what is printed."""
    found = []
    for number, line in enumerate(text.splitlines(), 1):
        row = re.fullmatch(r"\| \w+ \| `(.*)` \| `(.*)` \| `(a\.c:[0-9]+: refused: \w+)` \|", line)
        if row:
            found.append((number, row[1] + "\n" + row[2] + "\n", row[3]))
    return found


def refusal(text):
    """What is written of a file with this text."""
    with tempfile.TemporaryDirectory() as folder:
        with open(os.path.join(folder, "a.c"), "w", encoding="utf-8") as file:
            file.write(text)
        done = subprocess.run([PROGRAM, os.path.join(ROOT, "examples", "free.metal"), "a.c"], cwd=folder, stdout=subprocess.PIPE,
                              stderr=subprocess.STDOUT, timeout=300)
    return done.stdout.decode().splitlines()


def run(command, folder):
    line = re.sub(r"(?<![\w/.])\./metalcheck\b", lambda _: '"$METALCHECK"', command).replace("/tmp/", folder + "/")
    done = subprocess.run(["bash", "-c", line], cwd=ROOT, stdout=subprocess.PIPE, stderr=subprocess.STDOUT, timeout=300,
                          env={**os.environ, "METALCHECK": PROGRAM})
    return done.stdout.decode("utf-8", "replace").rstrip("\n").split("\n") if done.stdout.strip() else []


def page_of(page):
    """What was tried of a page (line number, text, what was written, what had to be), and how many commands were left out."""
    text = page_text(page)
    tried = [(number, lines, refusal(lines), [printed]) for number, lines, printed in rows(text)]
    skipped = 0
    with tempfile.TemporaryDirectory() as folder:
        for number, command, wanted in commands(text):
            if re.search(r"\bgcc\b|/tmp/", command) and not shutil.which("gcc"):
                skipped += 1
            else:
                tried.append((number, "$ " + command, run(command, folder), wanted))
    return tried, skipped


def main():
    passed = failed = skipped = 0
    for page in sys.argv[1:] or manual():
        tried, left_out = page_of(page)
        skipped += left_out
        for number, what, seen, wanted in tried:
            if [line.rstrip() for line in seen] == [line.rstrip() for line in wanted]:
                passed += 1
            else:
                failed += 1
                print(f"{page}:{number}: {what}\nwrites\n" + "\n".join(seen) + "\nand not\n" + "\n".join(wanted))
    print(f"examples: {passed} passed, {failed} failed" + (f", {skipped} skipped" if skipped else ""))
    return 1 if failed or not passed else 0


if __name__ == "__main__":
    sys.exit(main())
