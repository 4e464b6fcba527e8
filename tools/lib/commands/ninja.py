"""Writes a build file for ninja that does what a run of check_commands does, file by file: a second build does what a change touched."""
import glob
import hashlib
import os
import shlex
import shutil
import sys

from metalcheck import PROGRAM, TOOLS

from . import kept, program, unread
from .entries import base_name, entries
from .words import program_options, readable_options

FOLDERS = ["entries", "files", "programs", "found"]
FILES_OF_A_PROGRAM = 8
RULES = """ninja_required_version = 1.7
edge = {edge}

rule preprocess
  command = $edge preprocess $in $out
  depfile = $out.d
  restat = 1
  description = preprocess $name

rule accept
  command = $edge accept $made $out
  restat = 1
  description = read $name

rule readable
  command = $edge readable $made $out {readable}
  restat = 1
  description = make readable $name

rule check
  command = $edge check $read $out {check}
  restat = 1
  description = check $name

rule group
  command = $edge group run.json
  restat = 1
  description = put files together

rule programs
  command = $edge programs $listed $out {check}
  restat = 1
  description = check program $name

rule collect
  command = $edge collect run.json
  restat = 1
  description = collect reports

rule write
  command = {write}
  generator = 1
  description = write the build file again
"""


def path(name):
    """A name as it stands in the path of a build file."""
    return name.replace("$", "$$").replace(" ", "$ ").replace(":", "$:")


def command(words):
    """Words as they stand in the command of a build file."""
    return " ".join(shlex.quote(word) for word in words).replace("$", "$$")


def whole(name):
    """The whole name of a program, which may be one that the system finds by itself."""
    return os.path.abspath(name if os.path.dirname(name) else shutil.which(name) or name)


def program_files():
    """The files of metalcheck: the program that is named, and the built one where that is this repository's command."""
    built = os.path.join(os.path.dirname(TOOLS), "crates", "metalcheck", "out", "metalcheck")
    own = not os.environ.get("METALCHECK") and os.path.exists(built)
    return [whole(PROGRAM)] + ([built] if own else [])


def readable_files():
    """The files of tools/readable."""
    return [program.READABLE, os.path.join(TOOLS, "lib", "metalcheck.py"),
            *sorted(glob.glob(os.path.join(TOOLS, "lib", "readable", "**", "*.py"), recursive=True))]


def build(outputs, rule, inputs, implicit=(), order_only=(), **variables):
    """A statement of the build file. The first output is the one that the rule knows, and so is the first input."""
    def paths(names):
        return " ".join(path(name) for name in names)
    line = f"build {paths(outputs[:1])}" + (f" | {paths(outputs[1:])}" if outputs[1:] else "") + f": {rule} {paths(inputs)}"
    line += (f" | {paths(implicit)}" if implicit else "") + (f" || {paths(order_only)}" if order_only else "")
    return line + "\n" + "".join(f"  {name} = {value.replace('$', '$$')}\n" for name, value in variables.items())


def rules(words, given):
    """The rules of the build file, with what they are to hand on."""
    edge = ["env", "PYTHONPATH=" + os.path.join(TOOLS, "lib"), "METALCHECK=" + whole(PROGRAM), *program.PYTHON,
            "-m", "commands.edges"]
    checkers = [os.path.abspath(checker) for checker in words.checkers]
    own = [os.path.join(TOOLS, "check_commands"), *given]
    again = command(["cd", os.getcwd()]) + " && " + command(["env", "METALCHECK=" + whole(PROGRAM), *own])
    return RULES.format(edge=command(edge), readable=command(readable_options(words)),
                        check=command([*program_options(words), *checkers]), write=again)


def file_statements(words, base, entry):
    """How a file is preprocessed and read, and checked where it is checked by itself."""
    made, text, read = f"files/{base}.made", f"files/{base}.i", f"files/{base}.read"
    found = [build([made, text], "preprocess", [f"entries/{base}.json"], name=entry["file"])]
    if words.readable:
        outputs, needs, checked = [read, f"files/{base}.readable.i"], program_files() + readable_files(), f"files/{base}.readable.i"
        found.append(build(outputs, "readable", [made, text], needs, made=made, name=entry["file"]))
    else:
        checked = text
        found.append(build([read], "accept", [made, text], program_files(), made=made, name=entry["file"]))
    if not words.together:
        needs = [os.path.abspath(checker) for checker in words.checkers] + program_files()
        found.append(build([f"found/{base}"], "check", [read, checked], needs, read=read, name=entry["file"]))
    return found


def program_statements(words, names, lists):
    """How the files are put into groups, and the groups checked."""
    texts = [f"files/{name}.readable.i" if words.readable else f"files/{name}.i" for name in names]
    listed = [f"programs/{number}" for number in range(lists)]
    needs = [os.path.abspath(checker) for checker in words.checkers] + program_files()
    read = [f"files/{name}.read" for name in names]
    return [build([*listed, "programs/repeating"], "group", read, ["run.json", *texts, *program_files()])] \
        + [build([f"found/{number}"], "programs", [one], needs, texts, listed=one, name=str(number)) for number, one in enumerate(listed)]


def lasting_name(entry):
    """The name of an entry's files, which stays where others are added to the list."""
    where = hashlib.sha256(f"{entry.get('directory')}\0{entry['file']}".encode("utf-8", "surrogateescape")).hexdigest()
    return base_name(entry, where[:8])


def asked_for(words, names):
    """What the commands of the build have to know of the whole run."""
    lists = -(-len(names) // FILES_OF_A_PROGRAM) if words.together else 0
    found = [f"found/{number}" for number in range(lists)] if words.together else [f"found/{name}" for name in names]
    known = os.path.abspath(words.known_unread) if words.known_unread else None
    return {"names": names, "programs": lists, "found": found, "known": known,
            "checkers": [os.path.abspath(checker) for checker in words.checkers], "json": words.json}


def statements(words, given, listed, asked):
    """The whole text of the build file."""
    names = asked["names"]
    found = [rules(words, given)]
    for name, entry in zip(names, listed):
        found += file_statements(words, name, entry)
    if asked["programs"]:
        found += program_statements(words, names, asked["programs"])
    extra = ["programs/repeating"] if asked["programs"] else []
    inputs = ["run.json", *(f"files/{name}.read" for name in names), *asked["found"], *extra]
    found.append(build(["reports.txt", "unchecked.txt", "status"], "collect", inputs, [asked["known"]] if asked["known"] else []))
    found.append(build(["build.ninja"], "write", [os.path.abspath(words.commands)]))
    return "\n".join(found) + "\ndefault reports.txt\n"


def write_build(words, given):
    """Writes the build file and what its commands read, and gives the status."""
    listed = entries(words.commands, words.only)
    unread.known_functions(words.known_unread)
    names = [lasting_name(entry) for entry in listed]
    asked = asked_for(words, names)
    for folder in FOLDERS:
        os.makedirs(os.path.join(words.ninja, folder), exist_ok=True)
    for name, entry in zip(names, listed):
        whole_entry = {**entry, "directory": os.path.abspath(entry.get("directory") or ".")}
        kept.write_json(os.path.join(words.ninja, "entries", name + ".json"), whole_entry)
    kept.write_json(os.path.join(words.ninja, "run.json"), asked)
    build_file = os.path.join(words.ninja, "build.ninja")
    with open(build_file, "w", encoding="utf-8", errors="surrogateescape") as file:
        file.write(statements(words, given, listed, asked))
    print(f"check_commands: {build_file} has {len(names)} files; ninja -C {shlex.quote(words.ninja)} checks them", file=sys.stderr)
    return 0
