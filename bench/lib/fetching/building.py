"""A program is built once, so that each of its compilations is seen, and its C files are preprocessed as they were compiled.

What a run that was stopped has done is kept: commands that ended well, compilations that were recorded, files that were preprocessed."""
import concurrent.futures
import json
import os
import shutil
import subprocess

from commands.entries import base_name, entries
from commands.sources import Source

from .distribution import Unreachable

RECORDER = os.path.join(os.path.dirname(os.path.realpath(__file__)), "record_cc")


def run(command, source, log, more=()):
    """Runs a command of a program in its source folder, and gives the status. What it writes goes to a log."""
    return subprocess.run(["sh", "-c", command], cwd=source, stdin=subprocess.DEVNULL, stdout=log, stderr=subprocess.STDOUT,
                          env={**os.environ, "CC": RECORDER, **dict(more)}).returncode


def compilations(path):
    """The entries of a recording: for each C file that was compiled its folder, its name and the words."""
    with open(path, encoding="utf-8", errors="surrogateescape") as file:
        blocks = file.read().split("\n\n")
    found = []
    for block in blocks:
        lines = block.split("\n")
        for word in lines[2:]:
            if word.endswith(".c"):
                found.append({"directory": lines[0], "file": word, "arguments": lines[1:]})
    return found


def build(program, folder, teller):
    """Builds a program in its folder and writes compile_commands.json there. A program of which nothing was compiled is Unreachable. What a
    build that was stopped has recorded stays, since its objects aren't compiled again."""
    missing = [name for name in program.needs if not shutil.which(name)]
    if missing:
        raise Unreachable(f"{', '.join(missing)} isn't on this machine")
    source, recorded = os.path.join(folder, "source"), os.path.join(folder, "recorded")
    open(recorded, "a", encoding="utf-8").close()
    with open(os.path.join(folder, "build.log"), "ab") as log, open(os.path.join(folder, "ended_well"), "a+", encoding="utf-8") as ended:
        for command in waiting(program.before, ended):
            if not ends_well(command, source, log, ended, teller):
                raise Unreachable(f"`{command}` failed in {source}; {log.name} says why")
        for command in waiting(program.recorded, ended):
            ends_well(command, source, log, ended, teller, [("RECORD", recorded)])
    listed = os.path.join(folder, "compile_commands.json")
    with open(listed, "w", encoding="utf-8") as file:
        json.dump(compilations(recorded), file, indent=1)
    if not entries(listed, None):
        raise Unreachable(f"nothing was compiled in {source}; {folder}/build.log says why")


def waiting(commands, ended):
    """Those of the commands that haven't ended well in an earlier run."""
    ended.seek(0)
    done = ended.read().splitlines()
    return [command for command in commands if command not in done]


def ends_well(command, source, log, ended, teller, more=()):
    """Runs a command, says whether it ended well, and notes it if so."""
    teller.step(command)
    if run(command, source, log, more) != 0:
        return False
    ended.write(command + "\n")
    ended.flush()
    return True


def own_entries(program, folder):
    """The C files of a program that count, each once."""
    source = os.path.join(folder, "source")
    wanted = tuple(os.path.join(os.path.realpath(source), part, "") for part in program.folders or ("",))
    return [entry for entry in entries(os.path.join(folder, "compile_commands.json"), None)
            if os.path.realpath(os.path.join(entry["directory"], entry["file"])).startswith(wanted)]


def preprocess(program, folder, jobs, teller):
    """Preprocesses the files of a program into the folder `preprocessed`, and gives how many there are and what went wrong."""
    target = os.path.join(folder, "preprocessed")
    os.makedirs(target, exist_ok=True)
    wanted = {base_name(entry, f"{number:04}") + ".i": entry for number, entry in enumerate(own_entries(program, folder))}
    for name in set(os.listdir(target)) - wanted.keys():
        os.remove(os.path.join(target, name))
    waiting = [name for name in wanted if not os.path.exists(os.path.join(target, name))]
    teller.step("preprocesses", len(waiting))

    def one(name):
        """What went wrong with a file, or nothing. A file is there once all of it is."""
        source = Source(wanted[name]["file"], os.path.join(target, name + ".new"))
        source.preprocess(wanted[name])
        if not source.why:
            os.rename(source.path, source.path[:-len(".new")])
        teller.one_more()
        return source.why and f"{source.name}: {source.why}"

    with concurrent.futures.ThreadPoolExecutor(jobs) as pool:
        faults = [fault for fault in pool.map(one, waiting) if fault]
    return len(wanted) - len(faults), faults
