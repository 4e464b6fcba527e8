"""The steps of checks/strange: odd surroundings of a run, each with the status and the bytes that it has to come to."""
import os
import shutil
import socket
import subprocess

import system_calls
from hostile import Run, fault_of
from program import ROOT

USE = b"void f(char *p){ kfree(p); *p; }"
REPORT = b"a.c:1:28: free_checker: using p after free!\n"
FAULTY = b"int x;\nint y = x @ 1;\n"
REFUSAL = b"a.c:2: refused: BadByte\n"
PREPROCESSED = (b"# 1 \"a.c\"\n# 1 \"/usr/include/x.h\" 1 3 4\n__extension__ typedef long long off64;\n"
                b"extern int puts(const char *__restrict s) __attribute__((__nothrow__));\n# 2 \"a.c\" 2\n#pragma pack(1)\n"
                b"void f(char *p) {\n  kfree(p);\n  kfree(p);\n}\n")
NOBODY = 65534
SECONDS = 60
MOST = 16777216  # the bytes that a file may have
MEMORY = [*range(8192, 49152, 2048), 1048576]  # in KiB; with less the system may not begin a program

# the text of a.c, how a shell sets the streams, and what the run comes to
STREAMS = {
    "a full disk for the reports": (USE, ">/dev/full", Run(5, b"", b"")),
    "a full disk beside the reports": (USE, "2>/dev/full", Run(1, REPORT, b"")),
    "a full disk for the line": (FAULTY, "2>/dev/full", Run(5, b"", b"")),
    "a full disk beside the line": (FAULTY, ">/dev/full", Run(3, b"", REFUSAL)),
    "full disks and nothing to write": (b"", ">/dev/full 2>/dev/full", Run(0, b"", b"")),
    "output closed for the reports": (USE, ">&-", Run(5, b"", b"")),
    "output closed beside the line": (FAULTY, ">&-", Run(3, b"", REFUSAL)),
    "errors closed for the line": (FAULTY, "2>&-", Run(5, b"", b"")),
    "errors closed beside the reports": (USE, "2>&-", Run(1, REPORT, b"")),
    "all streams closed for the reports": (USE, "<&- >&- 2>&-", Run(5, b"", b"")),
    "all streams closed for the line": (FAULTY, "<&- >&- 2>&-", Run(5, b"", b"")),
    "all streams closed and nothing to write": (b"", "<&- >&- 2>&-", Run(0, b"", b"")),
    "input closed": (USE, "<&-", Run(1, REPORT, b"")),
    "errors into the output": (FAULTY, "2>&1", Run(3, REFUSAL, b"")),
}


class Room:
    """A folder with a checker of freed pointers, in which the program is run."""

    def __init__(self, program, folder):
        self.program, self.folder = program, folder
        shutil.copy(os.path.join(ROOT, "examples", "free.metal"), folder)

    def path(self, name):
        return os.path.join(self.folder, name)

    def put(self, name, data):
        with open(self.path(name), "wb") as file:
            file.write(data)

    def run(self, *words, program=None, **how):
        """What a run of the words comes to; a stream that goes elsewhere is told as empty."""
        how = {"stdin": subprocess.DEVNULL, "stdout": subprocess.PIPE, "stderr": subprocess.PIPE, "cwd": self.folder, **how}
        try:
            done = subprocess.run([*(program or [self.program]), *words], timeout=SECONDS, **how)
        except subprocess.TimeoutExpired:
            return Run("no end", b"", b"")
        return Run(done.returncode, done.stdout or b"", done.stderr or b"")

    def changed(self, change, *words):
        """The same while system calls are changed."""
        return system_calls.run([self.program, *words], self.folder, change)

    def over(self, word, **how):
        """What a run of the checker over the file of this name comes to."""
        return self.run("free.metal", word, **how)


def differs(seen, wanted):
    """What is wrong with a run that has to come to this, as a list of lines."""
    return [] if seen == wanted else [f"it came to {tuple(seen)!r} and not to {tuple(wanted)!r}"]


def not_read(room, word, **how):
    """The file of this name can't be read."""
    return differs(room.over(word, **how), Run(4, b"", word.encode() + b": not read\n"))


def stream(text, redirections, wanted):
    """A step in which a shell sets the streams."""
    def tried(room):
        room.put("a.c", text)
        return differs(room.over("a.c", program=["sh", "-c", f'exec "$0" "$@" {redirections}', room.program]), wanted)
    return tried


def broken_pipe(text, name, **how):
    """A step in which nobody reads one of the streams."""
    def tried(room):
        room.put("a.c", text)
        reader, writer = os.pipe()
        os.close(reader)
        try:
            return differs(room.over("a.c", **{name: writer}, **how), Run(5, b"", b""))
        finally:
            os.close(writer)
    return tried


def pipe_that_takes_no_more(room):
    """A pipe is read by nobody and takes what has room; what is written is the beginning of what is due."""
    room.put("a.c", b"".join(b"void f%d(char *p){ kfree(p); *p; }\n" % at for at in range(1800)))
    whole = room.over("a.c").out
    reader, writer = os.pipe()
    os.set_blocking(writer, False)
    seen = room.over("a.c", stdout=writer)
    os.close(writer)
    with open(reader, "rb") as pipe:
        taken = pipe.read()
    if len(taken) < 4096 or len(taken) >= len(whole) or not whole.startswith(taken):
        return [f"a pipe took {len(taken)} bytes, which aren't the first ones of {len(whole)}"]
    return differs(seen, Run(5, b"", b""))


def pipe_with_a_name(room):
    """A FIFO is read as a file."""
    room.put("plain", USE)
    os.mkfifo(room.path("a.c"))
    with subprocess.Popen(["sh", "-c", "cat plain >a.c"], cwd=room.folder) as writer:
        try:
            return differs(room.over("a.c"), Run(1, REPORT, b""))
        finally:
            writer.kill()


def pipe_that_another_holds(room):
    """The reading end of a pipe is read by its name among the open files."""
    reader, writer = os.pipe()
    os.write(writer, USE)
    os.close(writer)
    word = f"/dev/fd/{reader}"
    try:
        return differs(room.over(word, pass_fds=[reader]), Run(1, REPORT.replace(b"a.c", word.encode()), b""))
    finally:
        os.close(reader)


def unreadable_file(room):
    """A file that its owner alone may read."""
    room.put("a.c", USE)
    os.chmod(room.path("a.c"), 0)
    if os.geteuid() != 0:
        return not_read(room, "a.c")
    os.chmod(room.folder, 0o755)
    program = shutil.copy(room.program, room.path("program"))
    os.chmod(program, 0o755)
    return not_read(room, "a.c", program=[program], user=NOBODY, group=NOBODY, extra_groups=[])


def socket_file(room):
    with socket.socket(socket.AF_UNIX) as one:
        one.bind(room.path("a.c"))
        return not_read(room, "a.c")


def linked_file(room):
    """A link is read under its own name, and one that leads nowhere or round isn't."""
    room.put("plain", USE)
    for name, target in (("a.c", "plain"), ("nowhere.c", "none"), ("round.c", "round.c")):
        os.symlink(target, room.path(name))
    return differs(room.over("a.c"), Run(1, REPORT, b"")) + not_read(room, "nowhere.c") + not_read(room, "round.c")


def folder_that_is_gone(room):
    """The folder in which the program is run isn't there any more."""
    gone = 'mkdir gone && cd gone && rmdir ../gone && exec "$0" "$@"'
    wanted = Run(4, b"", b"free.metal: not read\n")
    return differs(room.over("a.c", program=["sh", "-c", gone, room.program]), wanted)


def plain_names(room):
    """Names that no file can have, and one that is odd."""
    wrong = not_read(room, "a" * 300 + ".c") + not_read(room, "a.c/") + not_read(room, "none/a.c") + not_read(room, "")
    room.put("a\nb.c", FAULTY)
    return wrong + differs(room.over("a\nb.c"), Run(3, b"", b"a\nb.c:2: refused: BadByte\n"))


def words_that_are_no_text(room):
    """Words of which one isn't UTF-8 are those of no command, wherever it stands."""
    room.put("a.c", USE)
    no_text, usage = b"\xff.c", room.run()
    return [line for words in ([b"free.metal", b"a.c", no_text], [no_text, b"free.metal", b"a.c"], [b"free.metal", b"\xc3"])
            for line in differs(room.run(*words), usage)] + differs(Run(usage.status, usage.out, b""), Run(2, b"", b""))


def many_names(room):
    """A thousand names of types are hidden in a block, and are in force again behind it."""
    names = [b"t%d" % at for at in range(1000)]
    types = b"".join(b"typedef int %s;\n" % it for it in names)
    hidden = b"void f(void){ {\n" + b"".join(b"int %s;\n" % it for it in names) + b"".join(b"%s = 1;\n" % it for it in names) + b"}\n"
    room.put("a.c", types + hidden + b"".join(b"{ %s x; }\n" % it for it in names) + b"}\n")
    wrong = differs(room.over("a.c"), Run(0, b"", b""))
    room.put("a.c", types + hidden + b"t998 = 1; }\n")
    return wrong + differs(room.over("a.c"), Run(3, b"", b"a.c:1001: refused: Syntax\n"))


def little_memory(room):
    """Under a limit of memory a run writes nothing and ends with status 6, or gives its whole answer; the first limit is too low, the last
    one isn't."""
    room.put("a.c", b"".join(b"void f%d(char *p){ kfree(p); *p; }\n" % at for at in range(600)))
    whole = room.over("a.c")
    seen = [room.over("a.c", program=["sh", "-c", 'ulimit -v "$0" && exec "$@"', str(limit), room.program]) for limit in MEMORY]
    wrong = [f"with {limit} KiB {line}" for limit, run in zip(MEMORY, seen) if run != Run(6, b"", b"") for line in differs(run, whole)]
    return wrong + differs(seen[0], Run(6, b"", b"")) + differs(seen[-1], whole) + differs(Run(whole.status, b"", whole.errs), Run(1, b"", b""))


def file_without_end(room):
    return differs(room.over("/dev/zero"), Run(3, b"", b"/dev/zero:1: refused: TooLarge\n"))


def file_of_nulls(room):
    """As large as a file may be beside the checker, and each byte is none of C."""
    with open(room.path("a.c"), "wb") as file:
        file.truncate(MOST)
    return differs(room.over("a.c"), Run(3, b"", b"a.c:1: refused: BadByte\n"))


def read_that_fails(room):
    """A file that can be opened, and whose first read fails."""
    return not_read(room, "/proc/self/mem")


def reads_that_fail(room):
    """The first read of one of the files fails: of the checker, of the C file, and of a third one, which is never read."""
    room.put("a.c", USE)
    answers = [Run(4, b"", b"free.metal: not read\n"), Run(4, b"", b"a.c: not read\n"), Run(1, REPORT, b"")]
    return [line for number, wanted in enumerate(answers)
            for line in differs(room.changed(system_calls.ReadFault(room.folder, number), "free.metal", "a.c"), wanted)]


def writes_that_fail(room):
    """One of the writes of a report fails, of which each takes ten bytes; a sixth one is never made."""
    room.put("a.c", USE)
    answers = [Run(5, REPORT[:10 * number], b"") for number in range(5)] + [Run(1, REPORT, b"")]
    return [line for number, wanted in enumerate(answers)
            for line in differs(room.changed(system_calls.WriteFault(number), "free.metal", "a.c"), wanted)]


def no_surroundings(room):
    """No environment at all."""
    room.put("a.c", USE)
    return differs(room.over("a.c", env={}), Run(1, REPORT, b""))


def beginnings(name, text):
    """A step over every beginning of a text in the place of one of two files."""
    def tried(room):
        wrong = []
        for count in range(len(text) + 1):
            room.put("a.c", USE)
            room.put(name, text[:count])
            seen = room.over("a.c")
            if fault_of(seen) or seen.status not in (0, 1, 3):
                wrong.append(f"the first {count} bytes: {fault_of(seen) or tuple(seen)}")
        return wrong
    return tried


def checker_text():
    with open(os.path.join(ROOT, "examples", "free.metal"), "rb") as file:
        return file.read()


STEPS = {
    **{name: stream(*row) for name, row in STREAMS.items()},
    "a broken pipe for the reports": broken_pipe(USE, "stdout", restore_signals=False),
    "a broken pipe for the line": broken_pipe(FAULTY, "stderr", restore_signals=False),
    "a broken pipe with its signal": broken_pipe(USE, "stdout"),
    "a pipe that takes no more": pipe_that_takes_no_more,
    "a pipe with a name": pipe_with_a_name,
    "a pipe that another holds": pipe_that_another_holds,
    "an unreadable file": unreadable_file,
    "a socket": socket_file,
    "linked files": linked_file,
    "a folder that is gone": folder_that_is_gone,
    "names that no file has": plain_names,
    "words that are no text": words_that_are_no_text,
    "many names": many_names,
    "little memory": little_memory,
    "a file without end": file_without_end,
    "a file of null bytes": file_of_nulls,
    "a read that fails": read_that_fails,
    "reads that fail one by one": reads_that_fail,
    "writes that fail one by one": writes_that_fail,
    "no environment": no_surroundings,
    "every beginning of a C file": beginnings("a.c", PREPROCESSED),
    "every beginning of a checker": beginnings("free.metal", checker_text()),
}
