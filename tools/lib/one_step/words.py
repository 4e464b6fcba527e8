"""The words of `tools/check`."""
import os
import sys
from typing import NamedTuple

WITH_VALUE = frozenset(
    "-I -D -U -include -imacros -isystem -iquote -idirafter -iprefix -x -Xpreprocessor --param -isysroot -MF -MT -MQ -o".split())


class Words(NamedTuple):
    """What a run is asked for: options of metalcheck, checkers, C files, and options of the compiler."""

    options: list
    checkers: list
    files: list
    compiler: list


def wrong(says):
    """Ends the program with what is wrong with its words, and the way out."""
    print(f"check: {says}", file=sys.stderr)
    raise SystemExit(2)


def read_words(given):
    """The words as they are asked for, or the end of the program with status 2."""
    if "--" not in given:
        wrong("there is no `--` among the words: tools/check [CHECKER.metal ..] -- FILE.c .. [compiler options]")
    at = given.index("--")
    options, checkers = front(given[:at])
    files, compiler = back(given[at + 1:])
    return Words(options, checkers, files, compiler)


def front(given):
    """The options of metalcheck and the checkers."""
    options, at = [], 0
    while at < len(given) and given[at].startswith("-"):
        name = given[at].partition("=")[0]
        if name != "--depth":
            wrong(f"{given[at]}: before `--` stand --depth N and checkers; for other options there are tools/explain and "
                  "tools/check_commands")
        taken = 1 if "=" in given[at] else 2
        options += given[at:at + taken]
        at += taken
    for checker in given[at:]:
        if checker.startswith("-"):
            wrong(f"{checker}: options stand before the checkers, and those of the compiler behind the C files")
        if not checker.endswith(".metal"):
            wrong(f"{checker}: before `--` stand checkers, whose names end in .metal; C files stand behind it")
        there(checker)
    return options, given[at:]


def back(given):
    """The C files and the options of the compiler."""
    count = next((number for number, word in enumerate(given) if word.startswith("-")), len(given))
    files, compiler = given[:count], given[count:]
    if not files:
        wrong("there is no C file behind `--`: they stand before the options of the compiler")
    for before, word in zip(compiler, compiler[1:]):
        if word.endswith(".c") and before not in WITH_VALUE:
            wrong(f"{word}: C files stand before the options of the compiler")
    for file in files:
        is_source(file)
        there(file)
    return files, compiler


def is_source(file):
    """Ends the program where a name isn't that of a C file: a compiler would leave it out without a word, or read another language."""
    end = os.path.splitext(file)[1]
    if end == ".metal":
        wrong(f"{file}: checkers stand before `--`")
    if end.lower() in (".cc", ".cpp", ".cxx", ".c++") or end == ".C":
        wrong(f"{file}: C++ isn't read")
    if end not in (".c", ".h", ".i") and not os.path.isdir(file):
        wrong(f"{file}: behind `--` stand C files, whose names end in .c, .h or .i, and then options of the compiler")


def there(path):
    """Ends the program where a file isn't there."""
    if os.path.isdir(path):
        wrong(f"{path}: it is a folder: name the files in it")
    if not os.path.isfile(path):
        wrong(f"{path}: there is no such file: mind the folder you are in")
    if not os.access(path, os.R_OK):
        wrong(f"{path}: it can't be read: look at its rights")
