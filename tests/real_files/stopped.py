#!/usr/bin/env python3
"""Stops a change of a file before each of its calls that change files or wait for them, and looks what is left.

stopped.py [--anew] FILE OLD NEW.. -- WORD.. -- WORD..
    For 1, 2, 3 and so on: FILE is made what OLD is, with no undo file beside it, FILE.new what it was at first, or taken
    away where there was none, and the words of a change are run, which
    are killed before their call of that number, until they end before they come to one. Then the words of a reader are
    run, which recover FILE: it has to be what OLD or one of NEW is, and what the last NEW is where the change ended. Then
    all of it is done beside the undo file that the change leaves where nothing stops it, and wherever the change was killed
    with the gate of that open, the reader is killed before each of its calls, too, and a second one has to find what the
    first one would have left. A change in place has to leave an open gate at some stop, and with --anew none at any.

Prints `sound` or, a line each, what was not so; and how often a change and a reader were stopped, to the error output. What
the words print to the standard output is lost.
"""

import os
import subprocess
import sys

from stops import stop_before


def taken(path):
    """The bytes of a file, or None where there is none."""
    try:
        with open(path, "rb") as file:
            return file.read()
    except FileNotFoundError:
        return None


def put(path, taken_bytes):
    """Makes a file of these bytes, or none of None."""
    if os.path.exists(path):
        os.remove(path)
    if taken_bytes is not None:
        with open(path, "wb") as file:
            file.write(taken_bytes)


class Stopping:
    """A file, what it may be, and what was not so."""

    def __init__(self, path, anew, old, news, change, reader):
        self.path, self.undo, self.new_path = path, path + ".undo", path + ".new"
        self.anew, self.beside = anew, taken(path + ".new")
        self.old, self.news = old, news
        self.change, self.reader = change, reader
        self.changes = self.readers = 0
        self.wrong = []

    def read(self, when):
        """Runs the reader, and answers what the file is behind it."""
        run = subprocess.run(self.reader, stderr=subprocess.PIPE)
        if run.returncode != 0:
            self.wrong.append(f"{when}: the reader ends with {run.returncode}: {run.stderr.decode()}")
        if (taken(self.undo) or b"\0")[0] == 1:
            self.wrong.append(f"{when}: the gate is open behind the reader")
        return taken(self.path)

    def stop_readers(self, when):
        """Stops the reader before each of its calls, from here on."""
        state = taken(self.path), taken(self.undo)
        number, call = 0, "none"
        wanted = self.read(when)
        while call:
            number += 1
            put(self.path, state[0])
            put(self.undo, state[1])
            call, _ = stop_before(number, self.reader)
            self.readers += call is not None
            if self.read(f"{when}, and of the reader before {call} ({number})") != wanted:
                self.wrong.append(f"{when}: a reader that is stopped before {call} ({number}) makes another file")
        return wanted

    def stop_changes(self, undo):
        """Stops the change before each of its calls, beside an undo file of these bytes."""
        number, call, open_gates = 0, "none", 0
        while call:
            number += 1
            put(self.path, self.old)
            put(self.undo, undo)
            put(self.new_path, self.beside)
            call, status = stop_before(number, self.change)
            when = f"a stop before {call} ({number})"
            if not call and (status != 0 or taken(self.path) != self.news[-1]):
                self.wrong.append(f"the change ends with {status}, or leaves another file")
            if not call and taken(self.new_path) != self.beside:
                self.wrong.append(f"the change leaves another {self.new_path}")
            self.changes += call is not None
            is_open = (taken(self.undo) or b"\0")[0] == 1
            open_gates += is_open
            found = self.stop_readers(when) if is_open and undo else self.read(when)
            if found not in [self.old, *self.news]:
                self.wrong.append(f"{when} leaves neither the old file nor a new one")
        if (open_gates == 0) != self.anew:
            self.wrong.append(f"{open_gates} stops left an open gate")


def split(words):
    """Words, split where `--` stands."""
    parts = [[]]
    for word in words:
        if word == "--":
            parts.append([])
        else:
            parts[-1].append(word)
    return parts


def main(words):
    """What the command line asks for, and the status of it."""
    names, change, reader = split(words)
    anew = names[0] == "--anew"
    path, old, *news = names[anew:]
    answers = os.fdopen(os.dup(1), "w")
    os.dup2(os.open(os.devnull, os.O_WRONLY), 1)
    stopping = Stopping(path, anew, taken(old), [taken(new) for new in news], change, reader)
    stopping.stop_changes(None)
    stopping.stop_changes(taken(stopping.undo))
    for line in stopping.wrong[:10] or ["sound"]:
        print(line, file=answers)
    print(f"stopped: {stopping.changes} changes, {stopping.readers} readers", file=sys.stderr)
    return 0


if __name__ == "__main__":
    sys.exit(main(sys.argv[1:]))
