"""The public calls of the rooms under crates/: what a library's root hands out by `pub use` and `pub mod`, with the contract of each."""
import collections
import functools
import os
import re

from program import ROOT

CRATES = os.path.join(ROOT, "crates")
TESTS = re.compile(r"(?ms)^#\[cfg\(test\)\]\s*mod \w+ \{.*")
ITEM = re.compile(r"(?m)^(?:pub(?:\(\w+\))? )?(?:fn|struct|enum|trait|const|type) +(\w+)")
USE = re.compile(r"(?m)^(?:pub(?:\(\w+\))? )?use ([^;]+);")
# the items of a file that may hold calls, at the beginning of their line
BLOCK = re.compile(r"(?m)^(?P<public>pub )?(?P<kind>fn|impl|trait)\b(?:<(?:[^<>]|<[^<>]*>)*>)? +(?P<name>\w+)(?P<head>[^\n]*)")
METHODS = {"impl": re.compile(r"(?m)^    pub fn (\w+)"), "trait": re.compile(r"(?m)^    fn (\w+)")}
Call = collections.namedtuple("Call", "room name takes gives clauses")


def text_of(path):
    """A source without comments and without the tests in it."""
    with open(path, encoding="utf-8") as file:
        return TESTS.sub("", re.sub(r"(?m)//.*$", "", file.read()))


def leaves(tree, before=()):
    """The paths that a tree of `use` names, each as a tuple of words."""
    found = re.fullmatch(r"\s*((?:\w+::)*)\{(.*)\}\s*", tree, re.DOTALL)
    if not found:
        return [before + tuple(tree.strip().split("::"))]
    parts = re.findall(r"(?:[^,{}]|\{[^{}]*\})+", found[2])
    return [leaf for part in parts if part.strip() for leaf in leaves(part, before + tuple(found[1].split("::")[:-1]))]


def file_of(module, path):
    """The file in which the item stands that a path names from a module on, or nothing where that is another crate's.

    A module is named by its path without the ending: that of its file, and of the folder with its own modules.
    """
    text = text_of(module + ".rt")
    if len(path) > 1:
        inner = os.path.join(module if os.path.basename(module) != "lib" else os.path.dirname(module), path[0])
        return file_of(inner, path[1:]) if os.path.exists(inner + ".rt") else None
    if path[0] in ITEM.findall(text):
        return module + ".rt"
    named = (leaf for tree in USE.findall(text) for leaf in leaves(tree))
    leaf = next((leaf for leaf in named if leaf[-1] == path[0] and len(leaf) > 1), None)
    return file_of(module, leaf) if leaf else None


def handed_out(room):
    """What a room hands out, as a map from names to the files in which they stand."""
    found, modules = {}, [os.path.join(CRATES, room, "src", "lib")]
    while modules:
        module = modules.pop()
        folder = module if os.path.basename(module) != "lib" else os.path.dirname(module)
        text = text_of(module + ".rt")
        modules += [os.path.join(folder, name) for name in re.findall(r"(?m)^pub mod (\w+);", text)]
        for name in re.findall(r"(?m)^pub (?:fn|struct|enum|trait) (\w+)", text):
            found[name] = module + ".rt"
        for tree in re.findall(r"(?m)^pub use ([^;]+);", text):
            found.update((leaf[-1], file_of(module, leaf)) for leaf in leaves(tree))
    return found


@functools.lru_cache(None)
def records_of(room):
    """The records that a room defines, each with the names of its fields."""
    found = {}
    for folder, _, files in os.walk(os.path.join(CRATES, room, "specs")):
        for file in files:
            with open(os.path.join(folder, file), encoding="utf-8") as opened:
                blocks = opened.read().split("\n\n")
            for block in blocks:
                head = re.search(r"(?m)^pub record (\w+)", block)
                if head:
                    found[head[1]] = re.findall(r"(?m)^  pub (\w+) :", block[head.end():])
    return found


def contract(room, text, start):
    """What a call of a room takes and gives, and the names of its clauses: a clause without one counts as '', and as the fields of the
    record that it is, if it is one of the room."""
    behind = re.compile(r"\n *\{\n|;\n| \{\n").search(text, start)
    head = text[start:behind.start()] if behind else text[start:]
    takes, gives = re.match(r"[^(]*(\((?:[^()]|\([^()]*\))*\))(?: -> (.*?))?(?=\n +(?:requires|ensures|where)|$|;| where)", head, re.DOTALL).groups()
    clauses = []
    for name, word in re.findall(r"\bensures\*? (\w*) ?\{ ?(\w*)", head):
        clauses += [name] if name else ["", *records_of(room).get(word, [])]
    return takes, " ".join((gives or "").split()), clauses


def calls_in(room, path, names):
    """The public calls that stand in a file of a room that hands out these names; the methods of a type may stand in any of its files."""
    text = text_of(path)
    for block in BLOCK.finditer(text):
        name, kind = block["name"], block["kind"]
        if name not in names or " for " in block["head"] or kind != "impl" and names[name] != path or kind == "fn" and not block["public"]:
            continue
        if kind == "fn":
            yield Call(room, name, *contract(room, text, block.start()))
            continue
        for method in METHODS[kind].finditer(text, block.end(), text.index("\n}", block.start())):
            yield Call(room, f"{name}::{method[1]}", *contract(room, text, method.start()))


def public_calls(room):
    """All public calls of a room, which is a library."""
    names, found = handed_out(room), []
    for folder, _, files in sorted(os.walk(os.path.join(CRATES, room, "src"))):
        for file in sorted(file for file in files if file.endswith(".rt")):
            found += calls_in(room, os.path.join(folder, file), names)
    return found


def rooms():
    """The rooms that are libraries."""
    return sorted(room for room in os.listdir(CRATES) if os.path.exists(os.path.join(CRATES, room, "src", "lib.rt")))


def can_refuse(call):
    """Whether a call may give an error, `None`, or a status that is no answer."""
    return bool(re.match(r"(?:Result|Option)<|Status$", call.gives))


def may_change(call):
    """Whether a call is handed something that it may change."""
    return bool(re.search(r"&(?:'\w+ )?mut\b", call.takes))
