"""The C files that a compile_commands.json lists, each with the command that preprocesses it."""
import json
import os
import re
import shlex
import sys

FLAGS = ["-E", "-std=gnu89", "-O0", "-U_FORTIFY_SOURCE", "-DNDEBUG"]
WITH_VALUE = {"-o", "-MF", "-MT", "-MQ"}
DROPPED = re.compile(r"-(c|S|E|O.*|g.*|std=.*|W.*|M|MM|MD|MMD|MP|MG|MF.+|o.+|pipe|flto.*|fsanitize=.*|ansi)\Z")
LAUNCHERS = {"ccache", "sccache", "distcc", "icecc"}


def preprocessing(entry):
    """The command that preprocesses the file of an entry, for its folder."""
    words = entry.get("arguments") or shlex.split(entry["command"])
    if os.path.basename(words[0]) in LAUNCHERS and len(words) > 1:
        words = words[1:]
    kept, i = [words[0]], 1
    while i < len(words):
        if words[i] in WITH_VALUE:
            i += 2
            continue
        if not DROPPED.match(words[i]):
            kept.append(words[i])
        i += 1
    return kept[:1] + FLAGS + kept[1:]


def is_entry(entry):
    """Whether this has a file and the command that compiles it."""
    return isinstance(entry, dict) and isinstance(entry.get("file"), str) and bool(entry.get("arguments") or entry.get("command"))


def listed(path):
    """The entries of a list of commands, or the end of the program with status 2."""
    try:
        with open(path, encoding="utf-8") as file:
            found = json.load(file)
        if not isinstance(found, list) or not all(is_entry(entry) for entry in found):
            raise ValueError("it is no list of compile commands")
        return found
    except (OSError, ValueError) as fault:
        why = f"not read: {fault.strerror}" if isinstance(fault, OSError) else fault
        print(f"check_commands: {path}: {why}; bear, cmake, meson and ninja write one (docs/CI.md)", file=sys.stderr)
        raise SystemExit(2)


def entries(path, patterns):
    """The C files of the list in which one of the patterns is found, each once; all of them where there is no pattern."""
    seen, found = set(), []
    for entry in listed(path):
        where = (entry.get("directory"), entry["file"])
        wanted = not patterns or any(re.search(pattern, entry["file"]) for pattern in patterns)
        if entry["file"].endswith(".c") and where not in seen and wanted:
            seen.add(where)
            found.append(entry)
    return found


def base_name(entry, prefix):
    """The name of an entry's files in the folder of a run, without an ending: one for each prefix."""
    return f"{prefix}_" + re.sub(r"[^A-Za-z0-9_.]", "_", os.path.basename(entry["file"]))
