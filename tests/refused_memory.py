#!/usr/bin/env python3
"""Runs of the built program in each of which one allocation is refused: refused_memory.py PROGRAM LIBRARY

In the current folder. LIBRARY is tests/refused_memory.c, built. tests/refused_memory.sh says what is wanted.
"""
import collections
import os
import socket
import subprocess
import sys
import time

from serve_client import connected, own, units

EMPTY = (["quotacheck", "-c", "-u", "-F", "vfsv1", "q"], "")
LISTING = "1000 100 2049 12 8\n"
LISTED = (["quotacheck", "-c", "-u", "-F", "vfsv1", "q"], LISTING)
FORM = """Disk quotas for user #1000 (uid 1000):
  Filesystem blocks soft hard inodes soft hard
  q 4 %s 1 %s
"""
HEAD = """*** Report for user quotas on q
Block grace time: 7days; Inode grace time: 7days
User                  used       soft       hard  grace    files     soft     hard  grace
-----------------------------------------------------------------------------------------
"""
REPORT = HEAD + "#1000        --          0        100        200      -        0       10       20      -\n"
SCRIPT = """setquota -u 1000 100 200 10 20 q
repquota -u -v q
setquota -u 1000 10x 0 0 0 q
repquota -u -v q
"""
# The reply to the call for the limits of user 1000.
REPLY = units(1, 1, 0, 0, 0, 0, 1, 1024, 1, 200, 100, 4, 20, 10, 1, 0, 0)
FAULTS = {"store fault", "output fault", "input fault", "link fault"}

Row = collections.namedtuple("Row", "name before words input status out err", defaults=("", 0, "", ""))


def convert(name, before, target, status=0, err=""):
    return Row(name, before, ["convertquota", "-u", "-f", "vfsv1,vfsv0", "q", target], "", status, "", err)


def limits(hard):
    return (["setquota", "-u", "1000", "0", str(hard), "0", "0", "q"], "")


ROWS = [
    Row("a listing makes a file", [], LISTED[0], LISTING),
    Row("a listing in a file", [], ["quotacheck", "-c", "-u", "-F", "vfsv1", "--input", "l", "q"]),
    Row("a file gets new usage", [LISTED], ["quotacheck", "-u", "q"], "1000 100 2049 12 8\n7 100 2049 13 16\n"),
    convert("no room", [EMPTY, limits(2**32)], "r", 1, "quota: q: no room for bhard 4294967296 of 1000\n"),
    convert("a conversion", [EMPTY, limits(2**32 - 1)], "r"),
    convert("a second conversion", [EMPTY, limits(9), (["convertquota", "-f", "vfsv1,vfsv0", "q", "r"], "")], "r", 1,
            "quota: r: exists already\n"),
    convert("a conversion into itself", [EMPTY], "q", 1, "quota: q: same name\n"),
    Row("a call is answered", [LISTED, (["setquota", "1000", "100", "200", "10", "20", "q"], "")],
        ["rquotad", "--calls", "1", "--port", "PORT", "--export", "/home", "user", "q"]),
    Row("a script", [EMPTY], ["script"], SCRIPT, 1, REPORT, "quota: line 3: bad number 10x\n"),
    Row("a form is printed", [LISTED], ["edquota", "--print", "-u", "1000", "q"], "", 0, FORM % ("0 0", "0 0")),
    Row("a form is applied", [LISTED], ["edquota", "--apply", "-u", "1000", "q"], FORM % ("100 200", "10 20")),
    Row("a form that is cut", [LISTED], ["edquota", "--apply", "-u", "1000", "q"], FORM.split("\n")[0] + "\n", 1, "",
        "quota: bad form at line 2\n"),
    Row("a first edit", [LISTED], ["setquota", "-u", "70000", "100", "200", "10", "20", "q"]),
    Row("a batch", [LISTED, limits(9)], ["setquota", "-u", "-b", "q"], "7 1 2 3 4\n1000 100 x 10 20\n", 1, "",
        "quota: input line 2: bad number x\n"),
    Row("lines that are made together", [LISTED], ["setquota", "-u", "-b", "q"], "7 1 2 3 4\n1000 100 200 10 20\n"),
    Row("lines before a refused one", [(["quotacheck", "-c", "-u", "-F", "vfsv0", "q"], LISTING)], ["setquota", "-u", "-b", "q"],
        "7 1 2 3 4\n1000 0 %d 0 0\n" % 2**32, 1, "", "quota: input line 2: q: no room for bhard 4294967296 of 1000\n"),
    Row("a report", [EMPTY, (["setquota", "1000", "100", "200", "10", "20", "q"], "")], ["repquota", "-u", "-v", "q"], "", 0, REPORT),
    Row("a made file", [], ["generate", "0", "1", "q"], "", 0, "lines 1, inodes 1, identifiers 1, KiB 216, report 351 bytes\n"),
]


class Wrong(Exception):
    """What a run did is not allowed."""


def want(holds, *words):
    if not holds:
        raise Wrong(" ".join(map(str, words)))


class Ended:
    """How a run ended, and whether an allocation was refused in it."""

    def __init__(self, status, out, err, reply, was_refused, files):
        self.status, self.out, self.err, self.reply = status, out, err, reply
        self.was_refused, self.files = was_refused, files

    def same(self, other):
        return (self.status, self.out, self.err, self.reply, self.files) == (
            other.status, other.out, other.err, other.reply, other.files)


def files_here():
    """The files of the folder, but those that the program keeps for itself."""
    found = {}
    for name in os.listdir("."):
        if not name.endswith((".new", ".und", ".undo")):
            with open(name, "rb") as file:
                found[name] = file.read()
    return found


class Tried:
    """A row, of which each run begins with the same files."""

    def __init__(self, program, library, row):
        self.program, self.library, self.row = program, library, row
        self.clear()
        with open("l", "w") as file:
            file.write(LISTING)
        for words, given in row.before:
            done = subprocess.run([program, *words], input=given, text=True, capture_output=True, timeout=20)
            want(done.returncode == 0, *words, "ended with", done.returncode, done.stderr)
        self.start = {name: open(name, "rb").read() for name in os.listdir(".")}

    def clear(self):
        for name in os.listdir("."):
            os.remove(name)

    def run(self, refused):
        """A run in which the allocation of this number is refused; none is 0."""
        self.clear()
        for name, data in self.start.items():
            with open(name, "wb") as file:
                file.write(data)
        words, port = list(self.row.words), None
        if "PORT" in words:
            port = free_port()
            words[words.index("PORT")] = str(port)
        ours, theirs = os.pipe()
        os.set_blocking(ours, False)
        child = subprocess.Popen(
            [self.program, *words], stdin=subprocess.PIPE, stdout=subprocess.PIPE, stderr=subprocess.PIPE,
            env={"LD_PRELOAD": self.library, "REFUSED": str(refused)}, preexec_fn=lambda: os.dup2(theirs, 9), pass_fds=(9,))
        os.close(theirs)
        reply = asked(child, port) if port else b""
        try:
            out, err = child.communicate(self.row.input.encode(), timeout=20)
        except subprocess.TimeoutExpired:
            child.kill()
            raise Wrong("it did not end") from None
        try:
            was_refused = os.read(ours, 1) == b"r"
        except BlockingIOError:
            was_refused = False
        os.close(ours)
        return Ended(child.returncode, out.decode(), err.decode(), reply, was_refused, self.left())

    def left(self):
        """The files once a command has opened each quota file, which recovers it where it has to be."""
        for name in ("q", "r"):
            if os.path.exists(name + ".undo"):
                done = subprocess.run([self.program, "repquota", name], capture_output=True, text=True, timeout=20)
                want(done.returncode == 0, "afterwards a report of", name, "ended with", done.returncode, done.stderr)
        return files_here()

    def judge(self, whole, left):
        """Looks at a run in which an allocation was refused, beside the whole one; how it ended, in a word."""
        if left.status == whole.status and left.status not in (4, 5):
            want(left.same(whole), "the status is", left.status, "and all else is not so:", repr(left.out), repr(left.err))
            return "the row's answer"
        want(whole.out.startswith(left.out), "the output is no first part:", repr(left.out))
        want(left.reply == b"", "there was a reply")
        said = left.err.removeprefix("quota: ").removesuffix("\n").split(": ")
        if len(said) == 2 and said[0] in ("line 1", "line 2", "line 3", "line 4") and self.row.words == ["script"]:
            del said[0]
        want(len(said) == 1, "it said", repr(left.err))
        want(left.status in (4, 5), "the status is", left.status, repr(left.err))
        want(said[0] in (FAULTS if left.status == 4 else {"want of memory"}), "with status", left.status, "it said", repr(left.err))
        for name in {*whole.files, *left.files, "l"}:
            found = left.files.get(name)
            want(found in (self.start.get(name), whole.files.get(name)), "the file", name, "is neither the old nor the new one")
            if "-b" in self.row.words and left.status == 5:
                want(found == self.start.get(name) and "q.new" not in os.listdir("."), "something was written")
        return "status %d, %s" % (left.status, said[0])


def free_port():
    with socket.socket(socket.AF_INET, socket.SOCK_DGRAM) as sock:
        sock.bind(("127.0.0.1", 0))
        return sock.getsockname()[1]


def asked(child, port):
    """The reply of the program to a call, or nothing where it ended before one."""
    sock = connected(port)
    sock.settimeout(2)
    while child.poll() is None:
        try:
            sock.send(own(1000))
            return sock.recv(4096)
        except ConnectionRefusedError:
            time.sleep(0.005)
        except socket.timeout:
            raise Wrong("no reply came") from None
    return b""


def tried(program, library, row):
    """Tries a row, and prints what its runs came to. Whether all of them are allowed."""
    row_of = Tried(program, library, row)
    whole = row_of.run(0)
    said = (whole.status, whole.out, whole.err) == (row.status, row.out, row.err)
    wanted_reply = REPLY if "PORT" in row.words else b""
    if not said or whole.reply != wanted_reply:
        print("%s: status %d, %r, %r, %s" % (row.name, whole.status, whole.out, whole.err, whole.reply.hex()))
        return False
    counts, wrong, number = collections.Counter(), 0, 1
    while True:
        try:
            left = row_of.run(number)
            if not left.was_refused:
                break
            counts[row_of.judge(whole, left)] += 1
        except Wrong as why:
            print("%s: allocation %d refused: %s" % (row.name, number, why))
            wrong += 1
        number += 1
    print("%s: %d allocations: %s" % (row.name, number - 1, "; ".join("%s %d" % it for it in sorted(counts.items()))))
    return wrong == 0


def main(program, library):
    results = [tried(program, library, row) for row in ROWS]
    sys.exit(not all(results))


if __name__ == "__main__":
    main(*sys.argv[1:])
