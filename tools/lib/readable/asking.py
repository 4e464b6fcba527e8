"""Asking metalcheck whether it reads a text. It is the only judge of that."""
import re

from metalcheck import PROGRAM, REFUSED, NoProgram, run_proved

REFUSAL = re.compile(r"(.*):(\d+): refused: (\S+)\s*\Z", re.S)


class ProgramFailed(Exception):
    """The program isn't there, or gave no answer."""


class Refusal:
    """The first fault that the program found: presumed file, line and name."""

    def __init__(self, file, line, fault):
        self.file, self.line, self.fault = file, line, fault


class Program:
    """The program, and how often it was run."""

    def __init__(self, path=PROGRAM):
        self.path = path
        self.runs = 0

    def refusal(self, file):
        """What the program says of a file: nothing if it is read, else its refusal."""
        self.runs += 1
        try:
            done = run_proved([file], self.path)
        except NoProgram as fault:
            raise ProgramFailed(str(fault)) from fault
        if done.returncode == 0:
            return None
        said = done.stderr.decode("latin-1")
        found = REFUSAL.match(said)
        if done.returncode != REFUSED or not found:
            raise ProgramFailed(f"{self.path} ended with status {done.returncode} {said[:200].strip()}".strip())
        return Refusal(found[1], int(found[2]), found[3])
