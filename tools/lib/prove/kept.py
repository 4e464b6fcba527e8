"""What is proved already. Each crate's result stands in a folder of its own, outside the repository, under a key of all that it was
made from: its files, the crates below it and the toolchain. So a branch, a second clone and a run that was stopped lose nothing."""
import hashlib
import os
import re
import shutil
import time

PARTS = ("src", "specs", "proofs")
KEPT_DAYS = 30


def default_folder():
    """Where results are kept: $METALCHECK_BUILT, else metalcheck in the user's folder of caches."""
    caches = os.environ.get("XDG_CACHE_HOME") or os.path.join(os.path.expanduser("~"), ".cache")
    return os.environ.get("METALCHECK_BUILT") or os.path.join(caches, "metalcheck")


def files_of(folder):
    """The files of a crate that a proof reads, in one order on every machine."""
    for part in PARTS:
        for at, folders, names in os.walk(os.path.join(folder, part)):
            folders.sort()
            yield from (os.path.join(at, name) for name in sorted(names))


def digest(folder, before):
    """The sum of what stands before and of a crate's files, and how much there is to prove, in lines."""
    summed, lines = hashlib.sha256(before), 300
    for path in files_of(folder):
        with open(path, "rb") as file:
            text = file.read()
        summed.update(os.path.relpath(path, folder).encode() + b"\0")
        summed.update(hashlib.sha256(text).digest())
        lines += text.count(b"\n") * (3 if path.endswith(".rt") else 1)
    return summed.hexdigest()[:20], lines


class Kept:
    """The results of the crates of a graph: their keys, their places, and how much each crate has to prove."""

    def __init__(self, folder, root, graph, toolchain):
        # (the prover is called in the folder of each crate)
        self.folder, self.graph, self.key, self.lines = os.path.abspath(folder), graph, {}, {}
        os.makedirs(self.folder, exist_ok=True)
        for name in graph.order:
            above = [name, graph.of_kit[name], [self.key[it] for it in graph.of[name]]]
            self.key[name], self.lines[name] = digest(os.path.join(root, "crates", name), toolchain + repr(above).encode())

    def place(self, name):
        return os.path.join(self.folder, f"{name}-{self.key[name]}")

    def made(self, name):
        """The file that a proved crate has left: the program, or a library's statements."""
        return os.path.join(self.place(name), name + ("" if name == self.graph.top else ".rlib"))

    def has(self, name):
        return os.path.exists(self.made(name))

    def keep(self, name, file):
        """Takes a crate's new result. It stands there whole or not at all, also where another run makes the same one."""
        new = f"{self.place(name)}.{os.getpid()}"
        os.makedirs(new)
        os.rename(file, os.path.join(new, os.path.basename(self.made(name))))
        try:
            os.rename(new, self.place(name))
        except OSError:
            shutil.rmtree(new)

    def forget_old(self):
        """Marks what this graph uses, and removes what no run has used for a month."""
        for name in filter(self.has, self.graph.order):
            os.utime(self.place(name))
        for entry in os.scandir(self.folder):
            is_ours = re.fullmatch(r"\w+-[0-9a-f]{20}(\.\d+)?|building-\w+", entry.name)
            if is_ours and entry.is_dir() and time.time() - entry.stat().st_mtime > KEPT_DAYS * 86400:
                shutil.rmtree(entry.path, ignore_errors=True)
