"""Runs a program some of whose system calls fail or move few bytes: it is traced, as a debugger does it, on an x86-64 Linux."""
import ctypes
import errno
import os
import signal

from hostile import Run

TRACEME, GETREGS, SETREGS, SYSCALL, SETOPTIONS = 0, 12, 13, 24, 0x4200
OPTIONS = 0x1 | 0x100000  # a stop at a system call is told apart from a signal; the traced one ends with its tracer
STOP_AT_CALL = signal.SIGTRAP | 0x80
READS, WRITES = (0, 17, 19), (1, 18, 20)  # read, pread64, readv; write, pwrite64, writev
NO_CALL = 2 ** 64 - 1

LIBC = ctypes.CDLL(None, use_errno=True)
LIBC.ptrace.argtypes = [ctypes.c_long, ctypes.c_long, ctypes.c_void_p, ctypes.c_void_p]
LIBC.ptrace.restype = ctypes.c_long

NAMES = ("r15 r14 r13 r12 rbp rbx r11 r10 r9 r8 rax rcx rdx rsi rdi orig_rax rip cs eflags rsp ss fs_base gs_base ds es fs gs").split()


class Registers(ctypes.Structure):
    """The registers of a stopped process (struct user_regs_struct)."""

    _fields_ = [(name, ctypes.c_ulonglong) for name in NAMES]


def ptrace(request, process, data):
    if LIBC.ptrace(request, process, None, data) != 0:
        raise OSError(ctypes.get_errno(), "ptrace")


def registers_of(process):
    registers = Registers()
    ptrace(GETREGS, process, ctypes.addressof(registers))
    return registers


class ReadFault:
    """The first read of the file that is read as the one with a number, from 0 on, fails."""

    def __init__(self, folder, number):
        self.folder, self.number, self.files = os.path.realpath(folder), number, []

    def fails(self, process, registers):
        if registers.orig_rax not in READS:
            return False
        file = os.readlink(f"/proc/{process}/fd/{registers.rdi}")
        if os.path.dirname(file) != self.folder or file in self.files:
            return False
        self.files.append(file)
        return len(self.files) == self.number + 1


class WriteFault:
    """The write to standard output with a number, from 0 on, fails, and each write takes ten bytes at most."""

    MOST = 10

    def __init__(self, number):
        self.number, self.count = number, 0

    def fails(self, process, registers):
        if registers.orig_rax not in WRITES or registers.rdi != 1:
            return False
        if registers.rdx > self.MOST:
            registers.rdx = self.MOST
            ptrace(SETREGS, process, ctypes.addressof(registers))
        self.count += 1
        return self.count == self.number + 1


def start(words, folder, out, errs):
    """Begins a program that is traced, in a folder, with files for its streams."""
    process = os.fork()
    if process:
        return process
    try:
        os.chdir(folder)
        os.dup2(out, 1)
        os.dup2(errs, 2)
        LIBC.ptrace(TRACEME, 0, None, None)
        os.execv(words[0], words)
    finally:
        os._exit(127)


def traced(process, change):
    """Lets the process go from call to call, and has those fail that are to; its status at the end."""
    os.waitpid(process, 0)
    ptrace(SETOPTIONS, process, OPTIONS)
    is_inside, failing, passed_on = False, False, 0
    while True:
        ptrace(SYSCALL, process, passed_on)
        _, state = os.waitpid(process, 0)
        if os.WIFEXITED(state) or os.WIFSIGNALED(state):
            return os.waitstatus_to_exitcode(state)
        passed_on = 0 if os.WSTOPSIG(state) == STOP_AT_CALL else os.WSTOPSIG(state)
        if passed_on:
            continue
        registers, is_inside = registers_of(process), not is_inside
        if is_inside:
            failing = change.fails(process, registers)
            if failing:
                registers.orig_rax = NO_CALL
                ptrace(SETREGS, process, ctypes.addressof(registers))
        elif failing:
            registers.rax = 2 ** 64 - errno.EIO
            ptrace(SETREGS, process, ctypes.addressof(registers))


def run(words, folder, change):
    """What a run in a folder comes to while its system calls are changed so."""
    with open(os.path.join(folder, ".out"), "w+b") as out, open(os.path.join(folder, ".errs"), "w+b") as errs:
        status = traced(start(words, folder, out.fileno(), errs.fileno()), change)
        out.seek(0)
        errs.seek(0)
        return Run(status, out.read(), errs.read())
