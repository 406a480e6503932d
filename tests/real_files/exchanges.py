#!/usr/bin/env python3
"""Exchanges a name in a folder while a program runs, as another account may do that owns the folder.

exchanges.py NAME VICTIM -- WORD..
    The folders of NAME and VICTIM are made what they were at first, the words are run, and stopped at a call of theirs that
    has NAME among its words. (What is exchanged before another call is seen by none before the next one that has it.) There
    what stands under NAME is moved away, where something does, and replaced by a symbolic link to VICTIM. Then the words go on,
    to their end, or until NAME is put back at one of the next three such calls. That is done for each such call, and then
    with a hard link, and, where VICTIM is in the same folder, with VICTIM itself, which is moved there. Behind each run VICTIM
    has to have its owner, its mode and its bytes. Whoever owns the folder may take away what he moves, so the bytes of that
    may have changed, but nobody may use it who might not before.

exchanges.py --alone LINK VICTIM -- WORD..
    The same with LINK, which leads to a file in its folder, and a symbolic link to VICTIM, which is a file of the same
    kind: each run has to change one of the two files alone, with the undo file of that.

Prints `untouched` or, a line each, what was not so; and how many runs there were, to the error output. What the words print
is lost. It is Linux on x86-64 that is asked, by ptrace(2).
"""

import os
import shutil
import sys

from stops import CannotRun, trace

# The calls that have names among their words, by their numbers, and which of their words: asm/unistd_64.h. They are
# those of open, stat, lstat, rename, creat, link, unlink, symlink, readlink, chmod, chown, lchown and statx.
NAMED = {
    2: [0], 4: [0], 6: [0], 82: [0, 1], 85: [0], 86: [0, 1], 87: [0], 88: [1], 89: [0], 90: [0], 92: [0], 94: [0],
    257: [1], 260: [1], 262: [1], 263: [1], 264: [1, 3], 265: [1, 3], 267: [1], 268: [1], 316: [1, 3], 332: [1],
}  # fmt: skip

# The most such calls for which a name stays exchanged that is put back.
MOST_CALLS = 3


def text_at(pid, place):
    """The text at a place of the memory of a process."""
    with open(f"/proc/{pid}/mem", "rb") as memory:
        memory.seek(place)
        piece = memory.read(4096 - place % 4096)
        if b"\0" not in piece:
            piece += memory.read(4096)
    return os.fsdecode(piece.split(b"\0")[0])


def rights_of(path):
    """The owner, the group and the mode of what stands under a name."""
    about = os.lstat(path)
    return about.st_uid, about.st_gid, about.st_mode


def bytes_of(path):
    """What a file has."""
    with open(path, "rb") as file:
        return file.read()


def stamp_of(path):
    """What changes with each change of a file; None where there is none."""
    try:
        about = os.stat(path)
    except FileNotFoundError:
        return None
    return about.st_ino, about.st_size, about.st_mtime_ns, about.st_ctime_ns


class Folder:
    """A folder, and what it was at first."""

    def __init__(self, path):
        self.path, self.first = path, path + ".first"
        shutil.rmtree(self.first, ignore_errors=True)
        os.mkdir(self.first)
        self.copy(self.path, self.first)

    @staticmethod
    def copy(source, target):
        """Copies all files of a folder with their owners and modes. All of them are changed now."""
        for name in os.listdir(source):
            one, other = os.path.join(source, name), os.path.join(target, name)
            shutil.copyfile(one, other, follow_symlinks=False)
            user, group, mode = rights_of(one)
            os.chown(other, user, group, follow_symlinks=False)
            if not os.path.islink(other):
                os.chmod(other, mode & 0o7777)

    def again(self):
        """Makes it what it was."""
        for name in os.listdir(self.path):
            os.remove(os.path.join(self.path, name))
        self.copy(self.first, self.path)


class Exchange:
    """A name that is exchanged for a victim, by one kind of link."""

    def __init__(self, name, victim, kind):
        self.name, self.away, self.victim, self.kind = name, name + ".away", victim, kind

    def make(self):
        """Exchanges the name."""
        if os.path.lexists(self.name):
            os.rename(self.name, self.away)
        if self.kind == "symbolic":
            os.symlink(self.victim, self.name)
        elif self.kind == "hard":
            os.link(self.victim, self.name)
        else:
            os.rename(self.victim, self.name)

    def undo(self):
        """Puts the name back."""
        if os.path.lexists(self.name):
            if self.kind == "moved":
                os.rename(self.name, self.victim)
            else:
                os.remove(self.name)
        if os.path.lexists(self.away):
            os.rename(self.away, self.name)


class Exchanging:
    """A name, a victim, and what was not so."""

    def __init__(self, name, victim, words):
        self.name, self.victim, self.words = name, victim, words
        paths = sorted({os.path.dirname(name), os.path.dirname(victim)})
        self.folder = os.path.dirname(name)
        self.folders = [Folder(path) for path in paths]
        self.runs = 0
        self.wrong = []

    def kinds(self):
        """The kinds of links that are tried."""
        return ["symbolic", "hard", "moved"] if len(self.folders) == 1 else ["symbolic", "hard"]

    def begin(self):
        """Notes what is so before a run."""
        self.rights, self.held = rights_of(self.victim), bytes_of(self.victim)

    def look(self, kind):
        """What is not so behind a run."""
        if kind != "moved":
            is_same = (rights_of(self.victim), bytes_of(self.victim)) == (self.rights, self.held)
            return None if is_same else f"the victim has {rights_of(self.victim)}"
        for name in os.listdir(self.folder):
            path = os.path.join(self.folder, name)
            is_victim = not os.path.islink(path) and bytes_of(path)[-64:] == self.held[-64:]
            if is_victim and rights_of(path) != self.rights:
                return f"the victim is {name} and has {rights_of(path)}"
        return None

    def run(self, first, last, exchange):
        """Runs the words with an exchange from their call of the first number on that has the name, to that of the last one.
        Answers whether they came to the first one."""
        count = 0

        def at_call(pid, call, words):
            nonlocal count
            if any(text_at(pid, words[place]) == self.name for place in NAMED.get(call, [])):
                count += 1
                if count == first:
                    exchange.make()
                elif count == last:
                    exchange.undo()

        self.runs += 1
        trace(self.words, at_call)
        return count >= first

    def exchange_at(self, first, kind):
        """Exchanges the name at one call, for good and for a while. Answers whether there is such a call."""
        is_reached = True
        for calls in (0, *range(1, MOST_CALLS + 1)):
            if is_reached:
                for folder in self.folders:
                    folder.again()
                self.begin()
                is_reached = self.run(first, first + calls, Exchange(self.name, self.victim, kind))
                wrong = self.look(kind)
                if wrong:
                    self.wrong.append(f"{kind}, at call {first}, {calls or 'all'} calls: {wrong}")
        return is_reached

    def exchange_all(self):
        """Exchanges the name in each way at each call."""
        for kind in self.kinds():
            number = 1
            while self.exchange_at(number, kind):
                number += 1

    def end(self):
        """Makes the folders what they were."""
        for folder in self.folders:
            folder.again()
            shutil.rmtree(folder.first)


class Alone(Exchanging):
    """A link to a file, which is exchanged for one to another file."""

    def __init__(self, name, victim, words):
        super().__init__(name, victim, words)
        self.file = os.path.realpath(name)

    def kinds(self):
        return ["symbolic"]

    def stamps(self):
        """Those of both files, each with its undo files."""
        return [[stamp_of(path + end) for end in ("", ".undo", ".und", ".new")] for path in (self.file, self.victim)]

    def begin(self):
        self.first = self.stamps()

    def look(self, kind):
        one, other = (now != first for now, first in zip(self.stamps(), self.first))
        return "both files are changed" if one and other else None


def main(words):
    """What the command line asks for, and the status of it."""
    kind = Exchanging
    if words[:1] == ["--alone"]:
        kind, words = Alone, words[1:]
    if len(words) < 4 or words[2] != "--":
        print(__doc__, file=sys.stderr)
        return 2
    answers, said = (os.fdopen(os.dup(stream), "w") for stream in (1, 2))
    for stream in (1, 2):
        os.dup2(os.open(os.devnull, os.O_WRONLY), stream)
    exchanging = kind(words[0], words[1], words[3:])
    try:
        exchanging.exchange_all()
    except (CannotRun, OSError) as error:
        print(f"exchanges: {error}", file=said)
        return 2
    finally:
        exchanging.end()
    for line in exchanging.wrong[:10] or ["untouched"]:
        print(line, file=answers)
    print(f"exchanged: {exchanging.runs} runs", file=said)
    return 0


if __name__ == "__main__":
    sys.exit(main(sys.argv[1:]))
