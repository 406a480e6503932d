#!/usr/bin/env python3
"""Says what a trace of strace tells of files beside a quota file: those whose names end in `.undo`, `.und` or `.new`.

opens.py TRACE
    TRACE has the calls of one process, a line each. Each such file that is there has to be looked at right before it is
    opened, without following a link, and behind that by the open file, and is opened without O_CREAT and O_TRUNC; each that
    is made is made by O_EXCL; no file gets an owner or a mode by its name; an undo file is waited for by fsync alone, a folder
    too, and any other file by fdatasync.

Prints, a line each, what is not so, and then how many syncs there were.
"""

import re
import sys

CALL = re.compile(r"^(\w+)\((.*)\)\s+= (-?\w+)")
NAME = re.compile(r'"([^"]*)"')
BESIDE = (".undo", ".und", ".new")
LOOKS = ("lstat", "statx", "newfstatat", "fstatat64")
BY_NAME = ("chmod", "chown", "lchown", "fchownat", "fchmodat", "fchmodat2", "truncate")


def is_look(call, words, name):
    """Whether a call looks at what stands under a name itself."""
    return call in LOOKS and f'"{name}"' in words and (call == "lstat" or "AT_SYMLINK_NOFOLLOW" in words)


def is_look_at_open(call, words, number):
    """Whether a call looks at an open file."""
    return call == "fstat" and words.startswith(number) or call in LOOKS and words.startswith(f'{number}, ""')


class Trace:
    """The calls of a trace, and what was not so."""

    def __init__(self, lines):
        found = (CALL.match(line) for line in lines)
        self.calls = [(it[1], it[2], it[3]) for it in found if it]
        self.names, self.wrong = {}, []
        self.syncs = {"fsync": 0, "fdatasync": 0}

    def look_at_opening(self, number, words, answer):
        """Looks at one call that opens a file."""
        name = NAME.search(words)[1]
        if answer.isdigit():
            self.names[answer] = "a folder" if name == "." or "O_DIRECTORY" in words else name
        if not name.endswith(BESIDE):
            return
        if "O_CREAT" in words:
            if "O_EXCL" not in words:
                self.wrong.append(f"{name} is made where something stands")
            return
        if "O_TRUNC" in words:
            self.wrong.append(f"{name} is cut as it is opened")
        if not is_look(*self.calls[number - 1][:2], name):
            self.wrong.append(f"{name} is opened without a look before")
        if answer.isdigit() and not is_look_at_open(*self.calls[number + 1][:2], answer):
            self.wrong.append(f"{name} is opened without a look behind")

    def look_at_sync(self, call, words):
        """Looks at one sync."""
        self.syncs[call] += 1
        name = self.names.get(words, "?")
        is_of_times = name == "a folder" or name.endswith((".undo", ".und"))
        if is_of_times != (call == "fsync"):
            self.wrong.append(f"{call} of {name}")

    def look(self):
        """Looks at all calls."""
        for number, (call, words, answer) in enumerate(self.calls):
            if call in ("open", "openat"):
                self.look_at_opening(number, words, answer)
            elif call == "fcntl" and "F_DUPFD" in words:
                self.names[answer] = self.names.get(words.split(",")[0], "?")
            elif call in self.syncs:
                self.look_at_sync(call, words)
            elif call in BY_NAME:
                self.wrong.append(f"{call} by a name: {words}")


def main(words):
    """What the command line asks for, and the status of it."""
    if len(words) != 1:
        print(__doc__, file=sys.stderr)
        return 2
    with open(words[0]) as file:
        trace = Trace(file)
    trace.look()
    for line in trace.wrong:
        print(line)
    print(", ".join(f"{count} {call}" for call, count in trace.syncs.items()))
    return 0


if __name__ == "__main__":
    sys.exit(main(sys.argv[1:]))
