"""The program `metalcheck` as the tools call it: which one it is, and a run of it."""
import os
import subprocess
import sys
import threading

TOOLS = os.path.dirname(os.path.dirname(os.path.realpath(__file__)))
# what METALCHECK names, else ./metalcheck beside the folder of the tools
PROGRAM = os.environ.get("METALCHECK") or os.path.join(os.path.dirname(TOOLS), "metalcheck")
ANSWERS, REFUSED = (0, 1), 3
NOTE = b"metalcheck: "  # so begin the lines that ./metalcheck writes around an unproved run


class NoProgram(Exception):
    """The program can't be started; the text says why, and the way out."""


def start(words, program, **environment):
    """The program at work on these words, with pipes for what it writes."""
    try:
        return subprocess.Popen([program, *words], stdout=subprocess.PIPE, stderr=subprocess.PIPE, env={**os.environ, **environment})
    except OSError as fault:
        raise NoProgram(f"{program}: {fault.strerror}; METALCHECK names the program") from fault


def run_proved(words, program=PROGRAM, seconds=None):
    """One of many runs, which want the proved program or none: an unproved answer is compiled anew for each. One that doesn't end in so
    many seconds is stopped, and subprocess.TimeoutExpired is raised."""
    with start(words, program, METALCHECK_UNPROVED="no") as child:
        try:
            out, errors = child.communicate(timeout=seconds)
        except subprocess.TimeoutExpired:
            child.kill()
            raise
    return subprocess.CompletedProcess(child.args, child.returncode, out, errors)


def run_awaited(words, program=PROGRAM):
    """A run that somebody waits for. An unproved one takes minutes, and ./metalcheck says so at once: such notes are passed on as they come,
    and what is given has the program's own standard error alone."""
    with start(words, program) as child:
        out = []
        reader = threading.Thread(target=lambda: out.append(child.stdout.read()))
        reader.start()
        own = [line for line in child.stderr if not passed_on(line)]
        reader.join()
    return subprocess.CompletedProcess(child.args, child.returncode, out[0], b"".join(own))


def passed_on(line):
    """Passes on a note of ./metalcheck, and says whether the line was one."""
    if line.startswith(NOTE):
        sys.stderr.buffer.write(line)
        sys.stderr.buffer.flush()
    return line.startswith(NOTE)
