"""Names of files as bytes: metalcheck writes them as they are, and in this package a character stands for a byte."""
import os


def shown_name(path):
    """The name of a file as it stands in the output of metalcheck."""
    return os.fsencode(path).decode("latin-1")


def path_of(name):
    """The path of a file whose name stood in the output of metalcheck."""
    return os.fsdecode(name.encode("latin-1"))
