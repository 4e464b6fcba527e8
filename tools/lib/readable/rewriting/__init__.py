"""Rewriting: forms outside the language into forms that are read. `rewritten` is the way in; each class is a small function."""
from .order import Work, loops_rewritten, rewritten

__all__ = ["Work", "loops_rewritten", "rewritten"]
