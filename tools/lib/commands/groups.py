"""The files that go into one run each, so that calls are followed from file to file."""
import os

from . import program

MOST_FILES, MOST_BYTES, ROOM_FOR_CHECKERS = 64, 33554432, 1048576


def first_clash(sources):
    """The number of files of the shortest beginning of the list that can't be linked, or 0 if all can be."""
    def links(count):
        return program.run([source.text for source in sources[:count]]).returncode == 0
    if links(len(sources)):
        return 0
    low, high = 1, len(sources)
    while high - low > 1:
        middle = (low + high) // 2
        low, high = (middle, high) if links(middle) else (low, middle)
    return high


def fitting(waiting):
    """The first of these files that fit into a run."""
    group, size = [], 0
    for source in waiting[:MOST_FILES]:
        size += os.path.getsize(source.text)
        if size > MOST_BYTES - ROOM_FOR_CHECKERS and group:
            break
        group.append(source)
    return group


def groups(sources):
    """The files in lists that fit into one run each, and those that repeat a body of another and so begin a later list."""
    waiting, found, repeating = list(sources), [], []
    while waiting:
        group, later = fitting(waiting), []
        count = len(group)
        while (clash := first_clash(group)) != 0:
            later.append(group.pop(clash - 1))
        repeating += later
        waiting = later + waiting[count:]
        found.append(group)
    return found, repeating
