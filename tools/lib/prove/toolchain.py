"""The toolchain's commands: the check that proves one crate, the linker, and what a proof's last line has to say."""
import os
import re
import shutil
import subprocess

# what no last line may have, as `rt ci` wants it of a repository without handles
NOT_HERE = re.compile(r" (bugs|hides|foreign|may-abort|may-wait|may-serve|partial|cache|batches|incremental|main)=|pinned=no")
LACKING = (
    "there is no `rt` on the path. rt is the command of the Rattle toolchain, which proves and compiles this repository and needs "
    "nothing else: it comes as a folder, the kit (rattle-kit); put the kit's bin folder on the path, or a link to its bin/rt"
)


class NoToolchain(Exception):
    """There is no toolchain; the text says what it is."""


def is_proof(said):
    """Whether what a check has printed ends in a proof on which nothing is taken on trust but the toolchain's own."""
    line = next((it for it in reversed(said.splitlines()) if it.startswith("logic=")), "")
    return line.startswith("logic=proved ") and not NOT_HERE.search(line)


class Toolchain:
    """The kit to which the `rt` on the path belongs."""

    def __init__(self):
        found = shutil.which("rt")
        if not found:
            raise NoToolchain(LACKING)
        self.kit = os.path.dirname(os.path.dirname(os.path.realpath(found)))

    def identity(self):
        """The file that names the kit's build, byte for byte."""
        with open(f"{self.kit}/WHAT", "rb") as file:
            return file.read()

    def version(self):
        said = subprocess.run(["rt", "version"], stdin=subprocess.DEVNULL, capture_output=True, text=True, errors="replace")
        return said.stdout.strip() or "unknown"

    def libraries(self, graph, kept, name):
        """The words that name what a crate may use: the kit's libraries, and the statements of the crates below it."""
        words = []
        for it in ("std", *graph.of_kit[name]):
            words += ["--extern", f"{it}={self.kit}/rlibs/{it}.rlib"]
        words += ["-L", f"dependency={self.kit}/rlibs"]
        for it in graph.of[name]:
            words += ["--extern", f"{it}={kept.made(it)}"]
        for it in graph.below[name]:
            words += ["-L", f"dependency={kept.place(it)}"]
        return words

    def proof(self, graph, kept, name, jobs, to):
        """The command that proves a crate, and writes its statements, or the program's code, to a file."""
        is_program = name == graph.top
        words = [f"{self.kit}/bin/rattle", "build", "--crate-name", name, f"src/{'main' if is_program else 'lib'}.rt"]
        words += self.libraries(graph, kept, name)
        words += ["--antt-project", f"{self.kit}/rattle/logic/antt-project.json", "--logic-built", f"{self.kit}/logic_built"]
        words += ["--jobs", str(jobs), "--links", f"{name}="]
        words += ["--toolchain", f"{self.kit}/toolchain", "--backend", "llvm"] if is_program else ["--statements"]
        return [*words, "-o", to]

    def link(self, code, program):
        """Links the program's code, and returns what the linker said if it failed."""
        words = [f"{self.kit}/bin/rattle-link", "--target", "x86_64-unknown-linux-gnu", "--toolchain", f"{self.kit}/toolchain"]
        words += ["-o", program, code, f"{self.kit}/c/libos_c.a", f"{self.kit}/c/liblibc_c.a"]
        ran = subprocess.run(words, stdin=subprocess.DEVNULL, stdout=subprocess.PIPE, stderr=subprocess.STDOUT, text=True, errors="replace")
        return ran.stdout + f"the linker ended with {ran.returncode}\n" if ran.returncode else ""
