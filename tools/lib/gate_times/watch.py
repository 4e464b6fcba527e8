"""Runs a command and measures what the prover takes for each crate and kind. `rt ci` prints no times, so the processes are looked at."""
import os
import resource
import signal
import subprocess
import threading
import time

from prove.machine import processors

EACH = 0.5  # seconds between two looks; so much of a process's end is lost at the most
TICKS = os.sysconf("SC_CLK_TCK")


def words_of(pid):
    with open(f"/proc/{pid}/cmdline", "rb") as file:
        return file.read().decode(errors="replace").split("\0")


def role_of(pid):
    """The kind and the crate of a process of the prover, or None for another one. Edits are checked in folders rt-edit-.. of their own."""
    words = words_of(pid)
    if "--crate-name" not in words[:-1] or not any(os.path.basename(it) == "rattle" for it in words):
        return None
    crate = words[words.index("--crate-name") + 1]
    if os.path.basename(os.readlink(f"/proc/{pid}/cwd")).startswith("rt-edit-"):
        return "edits", crate
    return ("tests" if "--test" in words else "proof"), crate


def processes():
    """What runs: for each process, by number and start, its parent and the seconds of a processor that it has taken."""
    found = {}
    for pid in filter(str.isdigit, os.listdir("/proc")):
        try:
            with open(f"/proc/{pid}/stat", encoding="ascii", errors="replace") as file:
                fields = file.read().rpartition(")")[2].split()
        except OSError:
            continue  # it has ended meanwhile
        found[int(pid)] = int(fields[19]), int(fields[1]), (int(fields[11]) + int(fields[12])) / TICKS
    return found


class Watch:
    """The seconds of all processes below one, each under the kind and the crate of the nearest check above it."""

    def __init__(self, top):
        self.top, self.roles, self.seconds = top, {}, {}

    def line(self, pid, found):
        """A process and its parents below the top, the nearest first; none for a process that isn't below it."""
        line = []
        while pid != self.top:
            if pid not in found:
                return []
            line.append((pid, found[pid][0]))
            pid = found[pid][1]
        return line

    def role(self, process):
        """The role of a process by its own words. It is asked again until there is one: a process begins with its parent's words."""
        if not self.roles.get(process):
            try:
                self.roles[process] = role_of(process[0])
            except OSError:
                return None
        return self.roles[process]

    def look(self):
        found = processes()
        for pid, (start, _, seconds) in found.items():
            role = next(filter(None, map(self.role, self.line(pid, found))), None)
            if role:
                self.seconds[pid, start] = role, seconds

    def totals(self):
        """The seconds by kind and crate."""
        found = {}
        for role, seconds in self.seconds.values():
            found[role] = found.get(role, 0) + seconds
        return found


def tell(watch, begun, taken):
    """The lines for a log: what each crate took by kind, and all."""
    lines = [f"times: {kind} {crate} {seconds:.1f} s" for (kind, crate), seconds in sorted(watch.totals().items())]
    return [*lines, f"times: all {taken:.1f} s, by the clock {time.time() - begun:.1f} s, {processors()} processors"]


def run(words, log):
    """Runs the command; its lines go to standard output and the log, and the times behind them to the log. Returns its status. A signal that
    ends it ends the command, and the times until then are written."""
    begun, usage = time.time(), resource.getrusage(resource.RUSAGE_CHILDREN)
    log.write(f"times: begun {time.strftime('%Y-%m-%d %H:%M UTC', time.gmtime())}: {' '.join(words)}\n")
    ran = subprocess.Popen(words, stdin=subprocess.DEVNULL, stdout=subprocess.PIPE, stderr=subprocess.STDOUT, text=True, errors="replace")
    watch, ended = Watch(ran.pid), threading.Event()
    for number in (signal.SIGTERM, signal.SIGHUP):
        signal.signal(number, lambda number, _: ran.send_signal(number))

    def look_on():
        while not ended.wait(EACH):
            watch.look()

    looking = threading.Thread(target=look_on)
    looking.start()
    try:
        for line in ran.stdout:
            print(line, end="", flush=True)
            log.write(line)
        return ran.wait()
    finally:
        ended.set()
        looking.join()
        ran.wait()
        after = resource.getrusage(resource.RUSAGE_CHILDREN)
        taken = after.ru_utime + after.ru_stime - usage.ru_utime - usage.ru_stime
        log.write("\n".join(tell(watch, begun, taken)) + "\n")
