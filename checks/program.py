"""The program that the checks run. Called by itself, it prints the program's path, or says why there is none."""
import os
import sys

ROOT = os.path.dirname(os.path.dirname(os.path.realpath(__file__)))
PROGRAM = os.path.join(ROOT, "crates", "metalcheck", "out", "metalcheck")


def sources(root):
    """The files from which the program is proved and built: crates.txt, and the .rt and .antt files of all crates."""
    yield os.path.join(root, "crates.txt")
    for at, folders, names in os.walk(os.path.join(root, "crates")):
        folders[:] = sorted(it for it in folders if it != "out")
        yield from (os.path.join(at, name) for name in sorted(names) if name.endswith((".rt", ".antt")))


def why_not(program, root):
    """Why a program isn't the proved one of these sources, or None where it is."""
    if not os.access(program, os.X_OK):
        return f"there is no program {program}"
    made = os.stat(program).st_mtime_ns
    newer = next((it for it in sources(root) if os.stat(it).st_mtime_ns > made), None)
    return f"{os.path.relpath(newer, root)} is newer than {program}" if newer else None


def built():
    """The path of the program: what METALCHECK names, else the proved one of this repository, which `rt ci` and ./prove leave."""
    named = os.environ.get("METALCHECK")
    if named:
        return named
    why = why_not(PROGRAM, ROOT)
    if why:
        print(f"{why}: make it by ./prove or `rt ci`, or name another program by METALCHECK", file=sys.stderr)
        sys.exit(2)
    return PROGRAM


if __name__ == "__main__":
    print(built())
