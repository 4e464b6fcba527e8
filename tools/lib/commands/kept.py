"""Files that a build keeps from run to run. One is written only where its text changes, so that nothing behind it is done again."""
import hashlib
import json
import os


def write(path, data):
    """Writes these bytes, unless they stand there already."""
    try:
        with open(path, "rb") as file:
            if file.read() == data:
                return
    except OSError:
        pass
    beside = path + ".new"
    with open(beside, "wb") as file:
        file.write(data)
    os.replace(beside, path)


def write_json(path, value):
    """The same of a value, as JSON."""
    write(path, (json.dumps(value, indent=1, sort_keys=True) + "\n").encode())


def read_json(path):
    """The value that was written there."""
    with open(path, encoding="utf-8") as file:
        return json.load(file)


def digest(path):
    """A number for the contents of a file: other contents have another one."""
    with open(path, "rb") as file:
        return hashlib.sha256(file.read()).hexdigest()
