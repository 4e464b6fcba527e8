"""What becomes of a tool whose output nobody takes any more."""
import os
import sys

NOT_WRITTEN = 5  # as metalcheck ends where not all was written


def status_of(tool):
    """The status that a tool gives; where standard output is closed or full, that of metalcheck for it."""
    try:
        status = tool()
        sys.stdout.flush()
        return status
    except BrokenPipeError:
        why = "standard output was closed"
    except OSError as fault:
        if fault.filename:
            raise
        why = fault.strerror
    # nothing is to be flushed at the end
    os.dup2(os.open(os.devnull, os.O_WRONLY), sys.stdout.fileno())
    print(f"{os.path.basename(sys.argv[0])}: not all could be written: {why}", file=sys.stderr)
    return NOT_WRITTEN
