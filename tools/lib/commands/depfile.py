"""Files of dependencies as compilers write them for make: read, and written again with whole names."""
import os
import re

WORD = re.compile(r"(?:\\[\s\S]|\$\$|[^\s\\])+")
ESCAPED = re.compile(r"\\([\s#:\\])")


def dependencies(text, folder):
    """The names behind the first colon, taken from this folder, each once."""
    joined = re.sub(r"\\\r?\n", " ", text)
    listed = re.split(r":(?=\s|\Z)", joined, maxsplit=1)[-1]
    names = [ESCAPED.sub(r"\1", word).replace("$$", "$") for word in WORD.findall(listed)]
    return list(dict.fromkeys(os.path.normpath(os.path.join(folder, name)) for name in names))


def escaped(name):
    """A name as it stands in such a file."""
    return re.sub(r"([\s#])", r"\\\1", name.replace("$", "$$"))


def written(target, names):
    """The text of a file of dependencies for this target."""
    return f"{escaped(target)}: " + " \\\n  ".join(escaped(name) for name in names) + "\n"
