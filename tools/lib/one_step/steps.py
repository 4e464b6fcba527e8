"""A run of `tools/check`: the files are preprocessed, metalcheck runs over all of them, and what it says is explained."""
import os
import subprocess
import sys

import c_compiler
from commands.entries import preprocessing
from explain.command import as_bytes, explanation, plain, run_program, show_reports, write
from metalcheck import ANSWERS
from silenced.comments import commented_files
from silenced.silencer import Silencer, checker_names


def preprocess(file, options, to):
    """Preprocesses a file; where that fails, the end of the program with what the compiler says."""
    compiler = c_compiler.named()
    try:
        done = subprocess.run(preprocessing({"arguments": [*c_compiler.words(), *options, file]}), capture_output=True, check=False)
    except OSError as fault:
        failed(f"{file} isn't preprocessed: {compiler}: {fault.strerror}: name a C compiler in CC")
    if done.returncode != 0:
        sys.stderr.buffer.write(done.stderr)
        failed(f"{file} isn't preprocessed ({compiler} ended with status {done.returncode}): give the options with which it is compiled, as "
               "-I and -D, behind the files")
    with open(to, "wb") as it:
        it.write(done.stdout)


def failed(says):
    """Ends the program with status 2."""
    sys.stderr.flush()
    print(f"check: {says}", file=sys.stderr)
    raise SystemExit(2)


def preprocessed(words, folder):
    """The preprocessed files in their order; a file whose name ends in .i is one already."""
    found = []
    for number, file in enumerate(words.files):
        path = file if file.endswith(".i") else os.path.join(folder, f"{number}_{os.path.basename(file)}.i")
        if path != file:
            preprocess(file, words.compiler, path)
        found.append(path)
    return found


def check(words, folder):
    """Takes all steps with this folder for the preprocessed files, and gives the status."""
    paths = preprocessed(words, folder)
    command = [*words.options, *words.checkers, *paths]
    run = run_program(command)
    left, told = shown(run, words, paths) if run.returncode in ANSWERS else ([], [])
    sys.stderr.buffer.write(named(run.stderr, words.files, paths))
    sys.stderr.buffer.write(named(as_bytes(explanation(run, command, kept=False)), words.files, paths))
    write(told, sys.stderr.buffer)
    return run.returncode if run.returncode not in ANSWERS else 1 if left else 0


def shown(run, words, paths):
    """Writes the reports of an answer that no comment silences; gives them, and the last lines: comments without an effect, and the count."""
    silencer = Silencer(checker_names(words.checkers), [one for path in paths for one in commented_files(path)])
    left = [line for line in run.stdout.splitlines(keepends=True) if silencer.keeps(plain(line))]
    show_reports(left, paths)
    return left, [*silencer.told(), f"check: {len(left)} reports{silencer.counted()}"]


def named(said, files, paths):
    """What was said with the names of the sources in place of those of preprocessed files."""
    for file, path in zip(files, paths):
        said = said.replace(os.fsencode(path), os.fsencode(file))
    return said
