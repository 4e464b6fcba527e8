"""The C compiler that the tools call: `cc`, or what CC names, which may have options behind it."""
import os
import shlex


def named():
    """The compiler as the caller names it."""
    return (os.environ.get("CC") or "").strip() or "cc"


def words():
    """The words of a command that begin with it. One that is no list of words counts as a name, under which nothing will be found."""
    try:
        return shlex.split(named())
    except ValueError:
        return [named()]
