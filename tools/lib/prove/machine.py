"""What the machine has to give: processors and free memory, under the limits of a control group too."""
import os
import re

GROUP = "/sys/fs/cgroup"


def numbers_in(path, pattern):
    """The numbers that a pattern finds in a file of the system, or none where there is no such file."""
    try:
        with open(path, encoding="ascii", errors="replace") as file:
            found = re.search(pattern, file.read())
    except OSError:
        return ()
    return tuple(map(int, found.groups())) if found else ()


def processors():
    """How many processors this process may use."""
    found, quota = len(os.sched_getaffinity(0)), numbers_in(f"{GROUP}/cpu.max", r"^(\d+) (\d+)")
    return max(1, min(found, quota[0] // quota[1])) if quota else found


def free_memory():
    """How many bytes of memory are free."""
    free = [1024 * it for it in numbers_in("/proc/meminfo", r"MemAvailable:\s+(\d+)")]
    limit, held = numbers_in(f"{GROUP}/memory.max", r"^(\d+)"), numbers_in(f"{GROUP}/memory.current", r"^(\d+)")
    return min([*free, *(top - used for top, used in zip(limit, held))])
