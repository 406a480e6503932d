#!/usr/bin/env python3
"""Random edits of a tree file by `setquota` and `edquota`, whose outcome is compared with a map, by a reader of its own
(quota_files.py).

tree_edits.py PROGRAM FORMAT SEED ROUNDS LINES RUNS FORMS all|kept [FILE]
    Makes a file of that format in the current folder, or a copy of FILE, whose users get new limits first. Changes it in
    so many rounds: each has a batch of so many lines, so many runs for one user each, and so many forms that are printed,
    changed and read in again. With `kept` no edit takes a record away. Prints `same` where each run for one user changed
    at most twelve blocks; where no run shortened the file, gave it another owner, group or permissions, or left or took
    away a file beside it, with an undo file there; where none gave it another inode but a batch with no file of the name
    of a new one beside; and where the file is sound and has the records of the map after each round, and `repquota`
    shows them at the end. Else it prints what differs first.
"""

import os
import random
import shutil
import subprocess
import sys

from quota_files import BLOCK, Refused, Tree, Unsound

FILE = "edited"


class Differs(Exception):
    """What was found is not what is wanted."""


def want(holds, *words):
    if not holds:
        raise Differs(" ".join(map(str, words)))


def records_in(data, form):
    """The records of a tree file, which has to be sound: of each identifier its soft and hard limits of blocks and of inodes,
    and its use in bytes and in inodes."""
    records = Tree(data, "user", form).value().records
    return {id: (it.bsoft, it.bhard, it.isoft, it.ihard, it.space, it.inodes) for id, it in records.items()}


def state():
    """What a change in place leaves: what is known of the file but its bytes, and when its folder was last changed."""
    file = os.stat(FILE)
    return (file.st_ino, file.st_uid, file.st_gid, file.st_mode, file.st_nlink, os.stat(".").st_mtime_ns,
            os.path.exists(FILE + ".new"))


class Edited:
    """A tree file and the map that it has to be."""

    def __init__(self, program, form, seed, keeps, start):
        self.program, self.form, self.random, self.keeps = program, form, random.Random(seed), keeps
        self.limits = {}
        if os.path.exists(FILE):
            os.remove(FILE)
        if start:
            shutil.copyfile(start, FILE)
            records = records_in(self.bytes(), form)
            self.used = {id: record[4:] for id, record in records.items() if any(record[4:])}
        else:
            # The users who use something keep their records without limits too.
            self.used = {at * at: (at % 9 * 1024, 1) for at in range(1, 120)}
            listing = "".join("%d 100 2049 %d %d\n" % (id, id, use // 512) for id, (use, _) in self.used.items())
            self.run("quotacheck", "-c", "-u", FILE, stdin=listing)
        os.chmod(FILE, 0o640)
        if os.geteuid() == 0:
            os.chown(FILE, 65534, 65534)
        # An undo file that saves nothing is there, as the first edit would make it beside the file.
        with open(FILE + ".undo", "wb") as undo:
            undo.write(bytes(BLOCK))
        os.chmod(FILE + ".undo", 0o640)
        if os.geteuid() == 0:
            os.chown(FILE + ".undo", 65534, 65534)
        self.state = state()
        if start:
            # (no timer runs then)
            self.batch([self.given(id, self.drawn(id)) for id in records])

    def run(self, command, *words, stdin=""):
        """What a command writes, which has to end with status 0."""
        done = subprocess.run([self.program, command, "-F", self.form, *words], input=stdin, capture_output=True,
                              text=True, timeout=60)
        want(done.returncode == 0, command, *words, "ended with", done.returncode, done.stderr)
        return done.stdout

    def bytes(self):
        with open(FILE, "rb") as file:
            return file.read()

    def drawn(self, id):
        """New limits. What is used stays below the soft ones, so no timer runs."""
        space, inodes = self.used.get(id, (0, 0))
        return tuple(use + self.random.randrange(100, 2**20) for use in (space // 1024,) * 2 + (inodes,) * 2)

    def given(self, id, limits):
        """The edit that gives a user these limits, in words, of which the map hears."""
        self.limits[id] = limits
        if not any(limits):
            del self.limits[id]
        return list(map(str, (id, *limits)))

    def chosen(self, shrinks):
        """The next edit: an identifier, and its new limits, all of them 0 for one whose record is to go."""
        dice = self.random
        if self.limits and dice.random() < (0.7 if shrinks else 0.4):
            id = dice.choice(list(self.limits))
            gone = dice.random() < (0.9 if shrinks else 0.5)
        else:
            # near others, one to a block of the third level, one to a block of the second, or anywhere
            id = dice.choice([dice.randrange(700), dice.randrange(256) << 8, dice.randrange(256) << 24 | 7,
                              dice.randrange(2**32)])
            gone = dice.random() < 0.1
        return self.given(id, (0,) * 4 if gone and not self.keeps else self.drawn(id))

    def batch(self, edits):
        """Edits by one run. Where a file stands beside with the name of a new one they are made in place, and else they may
        be made together, by a new file in the place of the old one; each way is taken as often."""
        old = len(self.bytes())
        in_place = self.random.random() < 0.5
        if in_place:
            with open(FILE + ".new", "wb"):
                pass
        before = state()
        self.run("setquota", "-b", FILE, stdin="".join(" ".join(edit) + "\n" for edit in edits))
        want(len(self.bytes()) >= old, "a batch shortened the file")
        kept = slice(None) if in_place else slice(1, 5)
        want(state()[kept] == before[kept], "a batch left the state", state(), "in place of", before)
        want(os.path.exists(FILE + ".new") == in_place, "a new file is left beside, or was taken away")
        if in_place:
            os.remove(FILE + ".new")
        self.state = state()

    def single(self, words):
        """An edit by a run of its own."""
        self.one_changed(words, "setquota", *words, FILE)

    def form_of(self, id, limits):
        """The form that `edquota --print` writes of a user with these limits."""
        space, inodes = self.used.get(id, (0, 0))
        return ("Disk quotas for user #%d (uid %d):\n  Filesystem blocks soft hard inodes soft hard\n"
                "  %s %d %d %d %d %d %d\n" % (id, id, FILE, -(-space // 1024), *limits[:2], inodes, *limits[2:]))

    def applied(self, shrinks):
        """An edit by a form: the one that is printed, with other limits."""
        before = dict(self.limits)
        words = self.chosen(shrinks)
        id = int(words[0])
        printed = self.run("edquota", "--print", words[0], FILE)
        want(printed == self.form_of(id, before.get(id, (0,) * 4)), "the form of", id, "is", repr(printed))
        self.one_changed(words, "edquota", "--apply", words[0], FILE,
                         stdin=self.form_of(id, tuple(map(int, words[1:]))))

    def one_changed(self, words, *run, stdin=""):
        """Carries out an edit, and looks at the blocks that it changed."""
        old = self.bytes()
        self.run(*run, stdin=stdin)
        new = self.bytes()
        want(len(new) >= len(old), run[0], *words, "shortened the file")
        old_blocks, blocks = -(-len(old) // BLOCK), -(-len(new) // BLOCK)
        differ = [at for at in range(blocks) if at >= old_blocks
                  or old[at * BLOCK:(at + 1) * BLOCK] != new[at * BLOCK:(at + 1) * BLOCK]]
        want(len(differ) <= 12, run[0], *words, "changed the blocks", differ)
        want(state() == self.state, run[0], *words, "left the state", state(), "in place of", self.state)

    def wanted(self):
        return {id: self.limits.get(id, (0,) * 4) + self.used.get(id, (0, 0))
                for id in {**self.used, **self.limits}}

    def rows(self):
        """The lines of `repquota` for these records."""
        line = "%-13s-- %10d %10d %10d      - %8d %8d %8d      -"
        return [line % ("#%d" % id, space // 1024, bsoft, bhard, inodes, isoft, ihard)
                for id, (bsoft, bhard, isoft, ihard, space, inodes) in sorted(self.wanted().items())]

    def compare(self):
        found, wanted = records_in(self.bytes(), self.form), self.wanted()
        for id in sorted({**found, **wanted}):
            want(found.get(id) == wanted.get(id),
                 "the record of", id, "is", found.get(id), "in place of", wanted.get(id))


def edit(program, form, seed, rounds, lines, runs, forms, keeps, start):
    edited = Edited(program, form, seed, keeps, start)
    edited.compare()
    for at in range(rounds):
        shrinks = at % 3 == 2
        edited.batch([edited.chosen(shrinks) for _ in range(lines)])
        for _ in range(runs):
            edited.single(edited.chosen(shrinks))
        for _ in range(forms):
            edited.applied(shrinks)
        edited.compare()
    rows, shown = edited.rows(), edited.run("repquota", "-v", FILE).splitlines()[4:]
    want(len(rows) == len(shown), "the report has", len(shown), "lines in place of", len(rows))
    for row, line in zip(rows, shown):
        want(row == line, "the report has", repr(line), "in place of", repr(row))


def main(words):
    if len(words) not in (8, 9) or words[7] not in ("all", "kept"):
        sys.exit(__doc__)
    try:
        edit(*words[:2], *map(int, words[2:7]), words[7] == "kept", words[8] if words[8:] else None)
        print("same")
    except (Differs, Refused, Unsound) as found:
        print(found)


if __name__ == "__main__":
    main(sys.argv[1:])
