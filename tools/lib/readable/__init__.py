"""Makes of preprocessed C a text that metalcheck reads. `make_readable` makes it of one file; tools/readable is the command."""
from .asking import Program, ProgramFailed, Refusal
from .making import Options, Record, Unread, make_readable
from .summary import lines, total

__all__ = ["Options", "Program", "ProgramFailed", "Record", "Refusal", "Unread", "lines", "make_readable", "total"]
