#!/usr/bin/env python3
"""Stops a program right before one of its calls of the system that change files or wait for them.

stops.py NUMBER -- WORD..
    Runs the words, and kills the program (SIGKILL) before its call of that number: the first is 1. Prints `stopped before
    CALL`, and ends with status 0; or, where the program ended before it came to such a call, prints `ended with STATUS`,
    and ends with status 1. Status 2 tells that it could not be run so.

What counts are calls that write, sync, cut, make, rename or remove a file, of the program and of all that it starts,
whether they succeed or not. Writes to the standard output and to the error output count for nothing. It is Linux on
x86-64 that is asked, by ptrace(2).
"""

import ctypes
import os
import signal
import struct
import sys

# Requests of ptrace(2), and its options: to tell calls of the system from signals, to follow what the program starts, and
# to kill all of it where this one ends.
TRACEME, SYSCALL, SETOPTIONS, GET_SYSCALL_INFO = 0, 24, 0x4200, 0x420E
OPTIONS = 0x1 | 0x2 | 0x4 | 0x8 | 0x100000
# What waitpid(2) answers behind an option of ptrace(2), as one of these: fork, vfork, clone.
EVENTS = (1, 2, 3)
WALL = 0x40000000
X86_64 = 0xC000003E
ENTRY = 1

# The calls that count, by their numbers: asm/unistd_64.h.
WRITES = {1: "write", 18: "pwrite64", 20: "writev", 296: "pwritev", 328: "pwritev2"}
CALLS = {
    40: "sendfile",
    74: "fsync",
    75: "fdatasync",
    76: "truncate",
    77: "ftruncate",
    82: "rename",
    85: "creat",
    86: "link",
    87: "unlink",
    162: "sync",
    263: "unlinkat",
    264: "renameat",
    265: "linkat",
    277: "sync_file_range",
    285: "fallocate",
    306: "syncfs",
    316: "renameat2",
    326: "copy_file_range",
}
# Those that make a file where their flags say so, and which of their words has the flags.
OPENS = {2: ("open", 1), 257: ("openat", 2)}

LIBC = ctypes.CDLL(None, use_errno=True)
LIBC.ptrace.argtypes = (ctypes.c_long, ctypes.c_long, ctypes.c_void_p, ctypes.c_void_p)
LIBC.ptrace.restype = ctypes.c_long


class CannotRun(Exception):
    """The words could not be run so, and why."""


def ptrace(request, pid, place=None, data=None):
    """One request, whose error is an OSError."""
    answer = LIBC.ptrace(request, pid, place, data)
    if answer < 0:
        number = ctypes.get_errno()
        raise OSError(number, os.strerror(number))
    return answer


def begin(words):
    """Starts the words, and answers their process, which has not made a call yet."""
    pid = os.fork()
    if pid == 0:
        try:
            ptrace(TRACEME, 0)
            os.execvp(words[0], words)
        except OSError as error:
            print(f"stops: {words[0]}: {error.strerror}", file=sys.stderr)
        os._exit(127)
    _, state = os.waitpid(pid, 0)
    if not os.WIFSTOPPED(state):
        raise CannotRun(f"{words[0]} was not started")
    ptrace(SETOPTIONS, pid, None, OPTIONS)
    return pid


def entered_call(pid):
    """The number and the words of the call that a process is about to make; none where it is done with one."""
    info = ctypes.create_string_buffer(88)
    ptrace(GET_SYSCALL_INFO, pid, len(info), ctypes.addressof(info))
    where, arch, number, *words = struct.unpack_from("=B3xI16x7Q", info.raw)
    if where != ENTRY:
        return None
    if arch != X86_64:
        raise CannotRun("this is not x86-64")
    return number, words


def counted_call(number, words):
    """The name of a call, where it counts, else none."""
    if number in WRITES:
        return WRITES[number] if words[0] not in (1, 2) else None
    if number in OPENS:
        name, flags = OPENS[number]
        return name if words[flags] & os.O_CREAT else None
    return CALLS.get(number)


def end(pids):
    """Kills processes, and waits until they are gone."""
    for pid in pids:
        try:
            os.kill(pid, signal.SIGKILL)
        except ProcessLookupError:
            pass
    for pid in pids:
        try:
            while not os.WIFSIGNALED(os.waitpid(pid, WALL)[1]):
                pass
        except ChildProcessError:
            pass


def passed_on(state):
    """The signal with which a stopped process goes on: none where only the tracing stopped it."""
    number = os.WSTOPSIG(state)
    return 0 if number in (signal.SIGTRAP, signal.SIGSTOP) else number


def trace(words, at_call):
    """Runs the words, and asks `at_call` before each call of theirs, by the process, the number of the call and its words.
    Where it answers anything but None they are killed. Answers that and None, or, where they ended before, None and their
    status."""
    first = begin(words)
    running = {first}
    ptrace(SYSCALL, first)
    try:
        while True:
            pid, state = os.waitpid(-1, WALL)
            if not os.WIFSTOPPED(state):
                running.discard(pid)
                if pid == first:
                    return None, os.waitstatus_to_exitcode(state)
                continue
            running.add(pid)
            given = 0
            if os.WSTOPSIG(state) == signal.SIGTRAP | 0x80:
                call = entered_call(pid)
                answer = at_call(pid, *call) if call else None
                if answer is not None:
                    return answer, None
            elif state >> 16 not in EVENTS:
                given = passed_on(state)
            try:
                ptrace(SYSCALL, pid, None, given)
            except ProcessLookupError:
                pass
    finally:
        end(running)


def stop_before(number, words):
    """Runs the words, and kills them before their call of that number, counted from 1. Answers its name and None, or, where
    they ended before, None and their status."""
    left = number

    def at_call(_, call, call_words):
        nonlocal left
        name = counted_call(call, call_words)
        left -= name is not None
        return name if left == 0 else None

    return trace(words, at_call)


def main(words):
    """What the command line asks for, and the status of it."""
    try:
        number = int(words[0])
        if number < 1 or words[1] != "--" or not words[2:]:
            raise ValueError
    except (IndexError, ValueError):
        print(__doc__, file=sys.stderr)
        return 2
    try:
        call, status = stop_before(number, words[2:])
    except (CannotRun, OSError) as error:
        print(f"stops: {error}", file=sys.stderr)
        return 2
    sys.stdout.flush()
    print(f"stopped before {call}" if call else f"ended with {status}")
    return 0 if call else 1


if __name__ == "__main__":
    sys.exit(main(sys.argv[1:]))
