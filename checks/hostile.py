"""Runs of the program under limits, and what has to hold of every run, whatever it was handed (docs/COMMAND.md, "What is written")."""
import collections
import re
import subprocess

NAMES = ("BadByte OpenText BadNumber BadMarker Syntax Undeclared NoField Redeclared NotPointer NotStruct NotFunction NotLvalue "
         "DuplicateFunction TooLarge TooMany Twice UnknownCallout TwoVariables BadSplit BadSource VariableMissing BadFormat").split()
Run = collections.namedtuple("Run", "status out errs")
USAGE = b"usage: metalcheck [--depth N] [--format NAME] [--stats] FILE...\n"
REFUSED = re.compile(rb"[^\n]+:[0-9]+: refused: (" + "|".join(NAMES).encode() + rb")\n")
NOT_READ = re.compile(rb"[^\n]+: not read\n")
STATISTICS = re.compile(rb"metalcheck: entries (0|[1-9][0-9]{0,19})\n")
LIMITED = 'ulimit -t "$1" && ulimit -v "$2" || exit 125; shift 2; exec "$@"'
ENDLESS = "no end"


def finished(command, folder, seconds, mebibytes):
    """What a run in a folder came to, which may take so many seconds of a processor, and ten times as many by the clock."""
    limited = ["sh", "-c", LIMITED, "sh", str(seconds), str(mebibytes * 1024), *command]
    try:
        done = subprocess.run(limited, cwd=folder, stdin=subprocess.DEVNULL, capture_output=True, timeout=10 * seconds)
    except subprocess.TimeoutExpired:
        return Run(ENDLESS, b"", b"")
    return Run(done.returncode, done.stdout, done.stderr)


def is_lines(text):
    """Whether a text is one or more whole lines."""
    return text.endswith(b"\n")


def fault_of(run, has_statistics=False):
    """What is wrong with a run of which no call failed, or nothing, where its words ask for statistics or don't."""
    status, out, errs = run
    if status == ENDLESS or status in (-9, -24, 137, 152):
        return "it was stopped at its limit of time"
    if status not in range(7):
        return f"it ended with {status}"
    if status == 5:
        return "it says that not all could be written"
    if status not in (0, 1) and out:
        return f"status {status} with {len(out)} bytes on standard output"
    if status == 1 and not is_lines(out):
        return "status 1 without whole lines on standard output"
    wanted = {2: lambda: errs == USAGE, 3: lambda: REFUSED.fullmatch(errs), 4: lambda: NOT_READ.fullmatch(errs)}
    if has_statistics:
        wanted[0] = wanted[1] = lambda: STATISTICS.fullmatch(errs)
    if not wanted.get(status, lambda: not errs)():
        return f"status {status} with {errs[:200]!r} on standard error"
    return ""
