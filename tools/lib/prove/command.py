"""The command ./prove: reads its words, proves, and leaves the program with its version beside it."""
import argparse
import hashlib
import os
import shutil
import signal
import subprocess
import sys
import time

from prove.graph import ROOT, BadGraph, Graph, named_crates, program_of
from prove.kept import Kept, default_folder
from prove.lanes import Lanes
from prove.machine import processors
from prove.toolchain import NoToolchain, Toolchain


def say(line):
    print(f"prove: {line}", file=sys.stderr, flush=True)


def count(word):
    """A number of processors, at least one."""
    if not word.isdecimal() or int(word) < 1:
        raise argparse.ArgumentTypeError(f"{word} is no number of proofs from 1 on")
    return int(word)


def git(root, *words):
    ran = subprocess.run(["git", "-C", root, *words], stdin=subprocess.DEVNULL, capture_output=True, text=True, errors="replace")
    return ran.stdout.strip() if ran.returncode == 0 else None


def version(root, toolchain, made):
    """The lines of VERSION: which commit was proved, when, and by which toolchain; and the sum of the program, by which it is known again."""
    try:
        commit, changed = git(root, "rev-parse", "HEAD"), git(root, "status", "--porcelain", "--", "crates", "crates.txt")
    except OSError:
        commit, changed = None, None
    what = f"{commit or 'unknown'}{' and changes that are not committed' if commit and changed else ''}"
    with open(made, "rb") as file:
        own = hashlib.sha256(file.read()).hexdigest()
    return f"commit {what}\ndate {time.strftime('%Y-%m-%d %H:%M UTC', time.gmtime())}\ntoolchain {toolchain.version()}\nsha256 {own}\n"


def leave(made, to, text):
    """Puts the program and its VERSION there, each whole or not at all, the program last."""
    folder = os.path.dirname(os.path.abspath(to))
    os.makedirs(folder, exist_ok=True)
    beside = os.path.join(folder, "VERSION")
    with open(f"{beside}.new", "w", encoding="utf-8") as file:
        file.write(text)
    shutil.copy(made, f"{to}.new")
    os.replace(f"{beside}.new", beside)
    os.replace(f"{to}.new", to)


def prove(root, lanes, to):
    """Proves what stands below the program of a repository, leaves the program, and returns the status."""
    toolchain = Toolchain()
    named = named_crates(root)
    graph = Graph(named, program_of(root, named))
    kept = Kept(default_folder(), root, graph, toolchain.identity())
    proofs = Lanes(root, graph, kept, toolchain, lanes, say)
    if not proofs.run():
        for line in proofs.report():
            say(line)
        say("the program is not made")
        return 1
    to = to or os.path.join(root, "crates", graph.top, "out", graph.top)
    made = kept.made(graph.top)
    leave(made, to, version(root, toolchain, made))
    kept.forget_old()
    say(f"{to} is proved, with all {len(graph.order) - 1} crates below it")
    return 0


def read_words(words):
    parser = argparse.ArgumentParser(
        prog="prove",
        description="Proves what stands below the program, side by side, the longest chain first, and leaves the program in "
        "crates/metalcheck/out/metalcheck with a file VERSION beside it. It takes no tests and no edits: `rt ci` is the judge, and takes "
        "nothing from here. What is proved is kept by content in $METALCHECK_BUILT (without it metalcheck in the user's folder of caches), "
        "so that a run that was stopped goes on where it was, and a change proves only what stands on it.",
    )
    parser.add_argument("--jobs", type=count, default=processors(), metavar="N", help="proofs at a time (else one a processor)")
    parser.add_argument("--to", metavar="FILE", help="puts the program there in place of crates/metalcheck/out/metalcheck")
    return parser.parse_args(words)


def main(words):
    given = read_words(words)
    signal.signal(signal.SIGTERM, lambda *_: sys.exit(143))
    try:
        return prove(ROOT, given.jobs, given.to)
    except KeyboardInterrupt:
        say("stopped; the next run goes on with what is proved so far")
        return 130
    except (BadGraph, NoToolchain) as error:
        say(error)
    except OSError as error:
        say(f"{error.filename or 'the system'}: {error.strerror or error}")
    return 2
