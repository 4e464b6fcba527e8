"""The programs that are called: metalcheck, and tools/readable in front of it."""
import os
import subprocess
import sys
import tempfile

from metalcheck import ANSWERS, PROGRAM, REFUSED, TOOLS, NoProgram, run_proved

READABLE = os.path.join(TOOLS, "readable")
# without what is installed beside the standard library, which takes longer to look for than all the rest of a start
PYTHON = [sys.executable or "python3", "-S"]


def run(words):
    """A run of metalcheck that answered: with reports, without, or with a refusal. Else this program ends with status 5."""
    try:
        done = run_proved(words)
    except NoProgram as fault:
        failed(str(fault), b"")
    if done.returncode not in (*ANSWERS, REFUSED):
        failed(f"metalcheck ended with status {done.returncode}", done.stderr)
    return done


def reports(words, texts):
    """What metalcheck reports of texts that it has read before. If it refuses anything now, this program ends with status 5."""
    done = run([*words, *texts])
    if done.returncode == REFUSED:
        failed("metalcheck refuses a checker, or a text that it read before", done.stderr)
    return done.stdout


def run_readable(options, path, out):
    """What tools/readable says of a file, in lines, and whether it gave a text. If it does neither, this program ends with status 5."""
    words = [*PYTHON, READABLE, *options, path, "-o", out]
    done = subprocess.run(words, capture_output=True, env={**os.environ, "METALCHECK": PROGRAM})
    if done.returncode not in (*ANSWERS, REFUSED):
        failed(f"tools/readable ended with status {done.returncode}", done.stderr)
    return text(done.stderr).splitlines(), done.returncode != REFUSED


def failed(what, said):
    """Ends this program with status 5, since one that it stands on didn't answer."""
    sys.stderr.buffer.write(said)
    sys.stderr.flush()
    print(f"check_commands: {what}", file=sys.stderr)
    raise SystemExit(5)


def text(said):
    """What a program said, without the blanks around it."""
    return said.decode("utf-8", "replace").strip()


def checker_fault(checkers):
    """What metalcheck says of the checkers over an empty file, or nothing."""
    with tempfile.NamedTemporaryFile(suffix=".c") as empty:
        done = run([*checkers, empty.name])
    return done.stderr.decode("utf-8", "replace") if done.returncode == REFUSED else ""
