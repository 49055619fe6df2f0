"""A run of a program of which the system moves one byte where a read or a write asks for several.

The system may always do so: of a terminal, a pipe, a full disk. Here the tracing of system calls (ptrace, on Linux and x86-64) lowers
the count of bytes as a call begins, so the program is the one that stands, and knows nothing of it.
"""

import ctypes
import os
import signal

TRACE_ME, GET_REGISTERS, SET_REGISTERS, TO_NEXT_CALL, SET_OPTIONS = 0, 12, 13, 24, 0x4200
MARK_CALLS = 1  # of SET_OPTIONS: a stop at a system call differs from a signal
AT_CALL = signal.SIGTRAP | 0x80
READ, WRITE = 0, 1  # the numbers of these two calls, and of standard input and output
NAMES = "r15 r14 r13 r12 rbp rbx r11 r10 r9 r8 rax rcx rdx rsi rdi orig_rax rip cs eflags rsp ss fs_base gs_base ds es fs gs"


class Registers(ctypes.Structure):
    _fields_ = [(it, ctypes.c_ulonglong) for it in NAMES.split()]


LIBC = ctypes.CDLL(None, use_errno=True)
LIBC.ptrace.argtypes = [ctypes.c_long, ctypes.c_long, ctypes.c_void_p, ctypes.c_void_p]
LIBC.ptrace.restype = ctypes.c_long


def ptrace(request, process, data=None):
    if LIBC.ptrace(request, process, None, data) == -1:
        raise OSError(ctypes.get_errno(), "ptrace")


def start(words, text, out):
    """Starts a program that is traced, over these files; its number."""
    process = os.fork()
    if process:
        return process
    try:
        os.dup2(text.fileno(), 0)
        os.dup2(out.fileno(), 1)
        ptrace(TRACE_ME, 0)
        os.execv(words[0], words)
    finally:
        os._exit(127)


def run(words, text, out, is_shortened):
    """The exit status, and how many reads and writes of several bytes there were; those are shortened, counted from 1, that are to be."""
    process = start(words, text, out)
    count, begins, asked = 0, True, None
    if not os.WIFSTOPPED(os.waitpid(process, 0)[1]):
        raise PermissionError("ptrace")
    ptrace(SET_OPTIONS, process, MARK_CALLS)
    ptrace(TO_NEXT_CALL, process)
    while True:
        _, status = os.waitpid(process, 0)
        if not os.WIFSTOPPED(status):
            return os.waitstatus_to_exitcode(status), count
        is_call = os.WSTOPSIG(status) == AT_CALL
        if is_call:
            registers = Registers()
            ptrace(GET_REGISTERS, process, ctypes.byref(registers))
            if begins and registers.orig_rax == registers.rdi in (READ, WRITE) and registers.rdx > 1:
                count += 1
                if is_shortened(count):
                    asked, registers.rdx = registers.rdx, 1
                    ptrace(SET_REGISTERS, process, ctypes.byref(registers))
            elif asked:
                asked, registers.rdx = None, asked
                ptrace(SET_REGISTERS, process, ctypes.byref(registers))
            begins = not begins
        is_own = is_call or os.WSTOPSIG(status) == signal.SIGTRAP
        ptrace(TO_NEXT_CALL, process, 0 if is_own else os.WSTOPSIG(status))
