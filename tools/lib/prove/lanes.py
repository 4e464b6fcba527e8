"""Proofs side by side: each crate once all below it are proved, those with the longest chain behind them first."""
import os
import re
import shutil
import signal
import subprocess
import tempfile
import time

from prove.machine import free_memory
from prove.toolchain import is_proof

ROOM = 4_000_000_000  # what has to be free before a proof is begun beside others (the dearest was seen to take 5.7 GB)
MOST_JOBS = 4
LAST_LINES = 12
# lines of a check that tell of nothing that failed
WELL = re.compile(r"statements |logic |by-macro: |.*: proved$")


class Proof:
    """A proof that is running: of which crate, with how many jobs, since when, what it makes, and where its lines go."""

    def __init__(self, name, jobs, words, folder, to):
        self.name, self.jobs, self.to, self.begun = name, jobs, to, time.time()
        self.log = open(f"{to}.log", "w+", encoding="utf-8", errors="replace")
        how = {"cwd": folder, "stdin": subprocess.DEVNULL, "stdout": self.log, "stderr": subprocess.STDOUT}
        # a session of its own: Ctrl-C reaches this program alone, which then ends what it has begun
        self.process = subprocess.Popen(words, start_new_session=True, **how)

    def has_ended(self):
        return self.process.poll() is not None

    def said(self):
        self.log.seek(0)
        return self.log.read()

    def stop(self):
        """Ends the proof and all that it has started."""
        try:
            os.killpg(self.process.pid, signal.SIGKILL)
        except ProcessLookupError:
            pass
        self.process.wait()
        self.log.close()


class Lanes:
    """The proof of all crates of a graph. `say` takes a line for whoever waits. `failed` has what wasn't proved, with what it said."""

    def __init__(self, root, graph, kept, toolchain, lanes, say):
        self.root, self.graph, self.kept, self.toolchain = root, graph, kept, toolchain
        self.lanes, self.say, self.begun = lanes, say, time.time()
        self.done = set(filter(kept.has, graph.order))
        behind = graph.behind(kept.lines)
        self.left = sorted((it for it in graph.order if it not in self.done), key=lambda it: -behind[it])
        self.running, self.failed, self.blocked, self.alone = [], {}, [], set()
        self.folder = tempfile.mkdtemp(prefix="building-", dir=kept.folder)

    def run(self):
        """Proves what is left, and returns whether all is proved."""
        if self.left:
            self.say(f"{len(self.left)} of {len(self.graph.order)} crates to be proved, {self.lanes} at a time")
        try:
            while self.left or self.running:
                self.begin_ready()
                if not self.end_ended():
                    time.sleep(0.2)
        finally:
            for it in self.running:
                it.stop()
            shutil.rmtree(self.folder, ignore_errors=True)
        return not self.failed

    def begin_ready(self):
        """Begins each crate for which there is a lane and memory."""
        ready = [it for it in self.left if self.done.issuperset(self.graph.of[it])]
        for at, name in enumerate(ready):
            spare = self.lanes - sum(it.jobs for it in self.running)
            if spare > 0 and self.fits(name):
                self.begin(name, self.jobs(name, spare // (len(ready) - at)))

    def fits(self, name):
        """Whether a crate may run beside those that do: there is memory, and neither it nor another one was killed for want of it."""
        if not self.running:
            return True
        return free_memory() >= ROOM and name not in self.alone and not any(it.name in self.alone for it in self.running)

    def jobs(self, name, share):
        """Processors for which there is no other crate help with this one."""
        return max(1, min(MOST_JOBS, share)) if name not in self.alone and free_memory() > 3 * ROOM else 1

    def begin(self, name, jobs):
        self.left.remove(name)
        to = os.path.join(self.folder, name + (".o" if name == self.graph.top else ".rlib"))
        words = self.toolchain.proof(self.graph, self.kept, name, jobs, to)
        self.running.append(Proof(name, jobs, words, os.path.join(self.root, "crates", name), to))

    def end_ended(self):
        """Takes the results of the proofs that have ended, and returns whether there was one."""
        ended = [it for it in self.running if it.has_ended()]
        for it in ended:
            self.running.remove(it)
            self.take(it, it.said(), it.process.returncode)
            it.log.close()
        return bool(ended)

    def take(self, proof, said, status):
        """Takes the result of one proof: it is kept, or was killed and has another try, or failed."""
        name = proof.name
        if status == -signal.SIGKILL and name not in self.alone:
            self.say(f"{name} was killed, most likely for memory: once more, with nothing beside it")
            self.alone.add(name)
            self.left.append(name)
            return
        why = "" if status == 0 and is_proof(said) else said + f"(the check ended with status {status})\n"
        if not why and name == self.graph.top:
            proof.to, code = os.path.splitext(proof.to)[0], proof.to
            why = self.toolchain.link(code, proof.to)
        if why:
            self.fail(name, why)
            return
        self.kept.keep(name, proof.to)
        self.done.add(name)
        self.tell(f"{name} ({time.time() - proof.begun:.0f} s)")

    def fail(self, name, why):
        """Notes that a crate isn't proved, keeps all that its check said, and goes on with what doesn't stand on it."""
        self.failed[name] = why
        with open(self.log_of(name), "w", encoding="utf-8") as file:
            file.write(why)
        lost = [it for it in self.left if name in self.graph.below[it]]
        self.left = [it for it in self.left if it not in lost]
        self.blocked += lost
        self.tell(f"{name} NOT PROVED; the rest goes on")

    def log_of(self, name):
        return os.path.join(self.kept.folder, f"{name}.log")

    def tell(self, what):
        self.say(f"{len(self.done)} of {len(self.graph.order)}, {(time.time() - self.begun) / 60:.0f} min: {what}")

    def report(self):
        """The lines for what wasn't proved: each failed crate with its last lines, and what stands on them."""
        lines = []
        for name, said in self.failed.items():
            last = [it for it in said.splitlines() if not WELL.match(it)][-LAST_LINES:]
            lines.append(f"not proved: {name} ({self.log_of(name)} has all that its check said); its last lines:")
            lines += [f"    {it}" for it in last]
        if self.blocked:
            lines.append(f"not begun, since they stand on what isn't proved: {' '.join(self.blocked)}")
        return lines
