"""Runs of the program, one at a time: how each ended, how long it took, and how much memory."""
import ctypes
import os
import re
import signal
import time

# The seconds that a run may take.
SECONDS = 10
# The heap grows by whole pages, with no more room ahead, and gives none back (mallopt(3)). So a process that ends has the most
# that it took at a time.
ENVIRONMENT = {"MALLOC_TOP_PAD_": "0", "MALLOC_TRIM_THRESHOLD_": str(2**40), "MALLOC_MMAP_MAX_": "0"}
# The KiB of stack that a run may have beyond the same one: the system begins a stack up to that far below its end, at random.
STACK = 8
# ptrace(2)
PTRACE_TRACEME, PTRACE_CONT, PTRACE_SETOPTIONS = 0, 7, 0x4200
PTRACE_O_TRACEEXIT, PTRACE_O_EXITKILL, PTRACE_EVENT_EXIT = 0x40, 0x100000, 6


class Wrong(Exception):
    """What the program did is not what is wanted."""


def want(holds, *words):
    if not holds:
        raise Wrong(" ".join(map(str, words)))


class Hang(Exception):
    """A run did not end."""


def overdue(*_):
    raise Hang


libc = ctypes.CDLL(None, use_errno=True)
libc.ptrace.argtypes = (ctypes.c_long, ctypes.c_long, ctypes.c_void_p, ctypes.c_void_p)
libc.ptrace.restype = ctypes.c_long


def ptrace(request, pid=0, data=0):
    if libc.ptrace(request, pid, None, data) < 0:
        raise OSError(ctypes.get_errno(), "ptrace %d" % request)


def taken_by(pid):
    """The KiB of its own that a process has, by proc(5): its data with the heap, and its stack. Memory counts that it asked for
    and did not touch, and no page of a file that it reads or runs from. Of those one run has some hundred KiB more in
    memory than the same run another time."""
    with open("/proc/%d/status" % pid) as file:
        sizes = dict(re.findall(r"Vm(Data|Stk):\s*(\d+) kB", file.read()))
    return int(sizes["Data"]), int(sizes["Stk"])


def beyond(taken, other):
    """How many KiB more of either kind one run took than another one."""
    return taken[0] - other[0], taken[1] - other[1]


class Runner:
    """Runs the program in a folder of its own. It is traced for what it takes: it waits at its end, before its memory goes."""

    def __init__(self, program, folder):
        self.program, self.folder = program, folder
        self.pid, self.taken, self.most_time = None, (0, 0), 0
        signal.signal(signal.SIGALRM, overdue)

    def path(self, name):
        return os.path.join(self.folder, name)

    def write(self, name, data):
        with open(self.path(name), "wb") as file:
            file.write(data)

    def read(self, name):
        with open(self.path(name), "rb") as file:
            return file.read()

    def clear(self):
        for name in os.listdir(self.folder):
            os.remove(self.path(name))

    def run(self, words, script=b""):
        """Runs the words, and tells the status, both outputs, and what the run took (`taken_by`)."""
        begun = time.monotonic()
        self.start(words, script)
        ended = self.end()
        self.most_time = max(self.most_time, time.monotonic() - begun)
        return ended

    def start(self, words, script=b""):
        self.write("s", script)
        pid = os.fork()
        if pid == 0:
            self.become(words)
        # (it waits behind `execve` first)
        _, status = os.waitpid(pid, 0)
        want(os.WIFSTOPPED(status), "it could not be started")
        ptrace(PTRACE_SETOPTIONS, pid, PTRACE_O_TRACEEXIT | PTRACE_O_EXITKILL)
        ptrace(PTRACE_CONT, pid)
        self.pid = pid

    def become(self, words):
        """Makes this process the program."""
        made = os.O_WRONLY | os.O_CREAT | os.O_TRUNC
        try:
            for number, (name, flags) in enumerate((("s", os.O_RDONLY), ("o", made), ("e", made))):
                os.dup2(os.open(self.path(name), flags), number)
            os.chdir(self.folder)
            ptrace(PTRACE_TRACEME)
            os.execve(self.program, [self.program, *words], ENVIRONMENT)
        finally:
            os._exit(127)

    def end(self):
        """Waits for what was started, and tells as `run` does."""
        signal.setitimer(signal.ITIMER_REAL, SECONDS)
        try:
            status = self.wait()
        except Hang:
            self.kill()
            raise Wrong("it did not end within %d s" % SECONDS) from None
        finally:
            signal.setitimer(signal.ITIMER_REAL, 0)
        want(os.WIFEXITED(status), "it was ended by signal", os.WTERMSIG(status))
        return os.WEXITSTATUS(status), self.read("o").decode(), self.read("e").decode(), self.taken

    def wait(self):
        """Waits until the run has ended, and hands each signal on to it."""
        while True:
            _, status = os.waitpid(self.pid, 0)
            if not os.WIFSTOPPED(status):
                self.pid = None
                return status
            is_end = status >> 16 == PTRACE_EVENT_EXIT
            if is_end:
                self.taken = taken_by(self.pid)
            ptrace(PTRACE_CONT, self.pid, 0 if is_end else os.WSTOPSIG(status))

    def kill(self):
        """Ends what was started, unless it has ended."""
        if self.pid is not None:
            os.kill(self.pid, signal.SIGKILL)
            self.wait()
