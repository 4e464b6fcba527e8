"""The words of `tools/check_commands`: its options and what they need of each other."""
import argparse
import os
import re

NAME = "check_commands"


def parser():
    """The parser of the words; a wrong word ends the program with status 2."""
    made = argparse.ArgumentParser(prog=NAME, description="Preprocesses and checks the C files of a compile_commands.json.")
    made.add_argument("--together", action="store_true")
    made.add_argument("--only", action="append", metavar="PATTERN")
    made.add_argument("--json", action="store_true")
    made.add_argument("--explain", action="store_true")
    made.add_argument("--depth", metavar="N")
    made.add_argument("--readable", action="store_true")
    made.add_argument("--prune", action="store_true")
    made.add_argument("--known-unread", metavar="FILE")
    made.add_argument("--ninja", metavar="OUT")
    made.add_argument("--keep", metavar="FOLDER")
    made.add_argument("--jobs", type=int, default=os.cpu_count() or 1, metavar="N")
    made.add_argument("checkers", nargs="+", metavar="CHECKER.metal")
    made.add_argument("commands", metavar="compile_commands.json")
    return made


def read_words(given):
    """The words as they are asked for, or the end of the program with status 2."""
    made = parser()
    words = made.parse_args(given)
    for checker in words.checkers:
        if not checker.endswith(".metal"):
            made.error(f"{checker}: the names of checkers end in .metal, and the last word is the list of commands")
        if not os.access(checker, os.R_OK) or os.path.isdir(checker):
            made.error(f"{checker}: there is no such checker that can be read: mind the folder you are in")
    if words.depth and not re.fullmatch("[0-8]", words.depth):
        made.error(f"--depth {words.depth}: a depth is one digit from 0 to 8")
    if words.prune and not words.readable:
        made.error("--prune goes with --readable")
    if words.known_unread and not words.readable:
        made.error("--known-unread goes with --readable")
    if words.ninja and words.keep:
        made.error("--ninja keeps the preprocessed files in its own folder: leave --keep out")
    if words.ninja and words.explain:
        made.error("--explain doesn't go with --ninja: without --ninja, or tools/explain over one of its files, explains")
    for pattern in words.only or []:
        try:
            re.compile(pattern)
        except re.error as fault:
            made.error(f"--only {pattern}: {fault}")
    words.jobs = max(1, words.jobs)
    return words


def program_options(words):
    """The options that are handed on to metalcheck."""
    return (["--depth", words.depth] if words.depth else []) + (["--format", "json"] if words.json else [])


def readable_options(words):
    """The options that are handed on to tools/readable."""
    return ["--prune"] if words.prune else []
