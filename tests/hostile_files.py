#!/usr/bin/env python3
"""Damaged quota files, each reported, edited and reported again by the built program:
hostile_files.py PROGRAM SEED FIRST COUNT JOBS WORK KEPT

tests/hostile.sh says what is tried. It works in the folder WORK. The folder KEPT gets the cases that fail, each in a folder of its number.
"""
import collections
import os
import re
import shutil
import struct
import sys
import tempfile
import time

from bulk import Draws, try_all
from quota_files import (
    BLOCK,
    DATA_HEAD,
    FLAT,
    HEADER,
    MAGIC,
    SPAN_HEAD,
    SPANS,
    VERSIONS,
    WEEK,
    Record,
    Refused,
    Tree,
    Unsound,
    Value,
    entry,
    flat_record,
    flat_value,
    header,
    recovered,
    undo_file,
)
from runner import STACK, Runner, Wrong, beyond, want

# How many sound files the damaged ones are made from, and the cases by whose numbers they are made.
SOUND = 96
SOUND_CASES = 2**63
NOW = 1_700_000_000
# The KiB of the heap that a run may take beyond the most that runs on the sound file take. Its words and its lists of what the
# file has may be longer by some bytes, which may begin another page.
PAGE = 4
# The KiB of the windows through which a file is read: eight of 64. One that was changed may be read in another order than a
# sound one, so that more of them are open.
WINDOWS = 512
CASES_AT_ONCE = 200
# The kinds of files, each with its option. Flat files are none of projects.
LETTERS = {"user": "-u", "group": "-g", "project": "-P"}
FORMATS = (*FLAT, *(form for form, _, _ in VERSIONS))


# ---- Sound files


def kinds_of(form):
    """The kinds of which there are files of a format."""
    return [kind for kind in MAGIC if form not in FLAT or kind != "project"]


class Sound:
    """A sound file, and where in it the things stand that a damage changes: the places of the words of some kinds."""

    def __init__(self, draws, form, kind=None):
        self.kind, self.form = kind or draws.of(kinds_of(form)), form
        self.places = collections.defaultdict(list)
        if form in FLAT:
            self.ids = sorted({draws.below(600) for _ in range(draws.below(50))})
            self.make_flat(draws)
        else:
            self.ids = sorted(drawn_ids(draws))
            self.make_tree(draws)

    def make_flat(self, draws):
        size = FLAT[self.form].size
        self.data = bytearray(size * (max(self.ids, default=-1) + 1 + draws.below(3)))
        for id in self.ids:
            self.data[size * id : size * (id + 1)] = flat_record(self.form, drawn_numbers(draws, self.form))
            self.places["value"] += range(size * id, size * (id + 1), 4)

    def make_tree(self, draws):
        version = int(self.form == "vfsv1")
        room = VERSIONS[version][2]
        rest, parts = list(self.ids), []
        draws.shuffle(rest)
        while rest:
            size = room if draws.once_in(3) else 1 + draws.below(room)
            parts.append(rest[:size])
            rest = rest[size:]
        tree = {(id >> shift, shift) for id in self.ids for shift in (8, 16, 24)}
        free = draws.below(5)
        count = 2 + len(parts) + len(tree) + free
        numbers = list(range(2, count))
        draws.shuffle(numbers)
        unused, numbers = numbers[:free], numbers[free:]
        data, numbers = numbers[: len(parts)], numbers[len(parts) :]
        self.data = bytearray(BLOCK * count)
        listed = [number for number, part in zip(data, parts) if len(part) < room]
        draws.shuffle(listed)
        grace, flags = (draws.of((0, 60, WEEK, 2**32 - 1)), WEEK), draws.below(2**32)
        self.data[: HEADER.size] = header(self.kind, version, grace, count, (unused + [0])[0], (listed + [0])[0], flags)
        for number, following in zip(unused, unused[1:] + [0]):
            self.data[BLOCK * number : BLOCK * (number + 1)] = draws.bytes(BLOCK)
            struct.pack_into("<I", self.data, BLOCK * number, following)
            self.places["link"].append(BLOCK * number)
        for number, part in zip(data, parts):
            # (a full block is in no list, and its links have any value)
            links = draws.below(count + 2), draws.below(count + 2)
            DATA_HEAD.pack_into(self.data, BLOCK * number, *links, len(part), draws.bytes(6))
            self.put_entries(draws, number, version, part)
            self.places["link"] += (BLOCK * number, BLOCK * number + 4)
            self.places["count"].append(BLOCK * number + 8)
        for number, following, before in zip(listed, listed[1:] + [0], [0] + listed):
            struct.pack_into("<2I", self.data, BLOCK * number, following, before)
        home = {id: number for number, part in zip(data, parts) for id in part}
        below = {(0, 32): 1}
        for key in sorted(tree, key=lambda key: -key[1]):
            below[key] = numbers.pop()
            self.refer(below[key[0] >> 8, key[1] + 8], key[0] & 255, below[key])
        for id in self.ids:
            self.refer(below[id >> 8, 8], id & 255, home[id])
        for number in below.values():
            self.places["tree"].append(BLOCK * number)
        if count == 2 and draws.once_in(2):
            # a file of two blocks may end anywhere
            del self.data[32 + draws.below(BLOCK) :]
        elif draws.once_in(4):
            self.data += draws.bytes(draws.below(2 * BLOCK))

    def put_entries(self, draws, number, version, ids):
        _, packed, room = VERSIONS[version]
        places = list(range(room))
        draws.shuffle(places)
        for place, id in zip(places, ids):
            at = BLOCK * number + DATA_HEAD.size + packed.size * place
            numbers = drawn_numbers(draws, self.form)
            if id == 0 and not any(numbers):
                # (an entry of zeros is an unused one)
                numbers = (0,) * 7 + (1,)
            padding = draws.below(2**32) if version == 1 else 0
            self.data[at : at + packed.size] = entry(version, id, numbers, padding)
            self.places["id"].append(at)
            self.places["value"] += range(at + 4, at + packed.size, 4)

    def refer(self, number, digit, to):
        struct.pack_into("<I", self.data, BLOCK * number + 4 * digit, to)
        self.places["reference"].append(BLOCK * number + 4 * digit)


def drawn_ids(draws):
    """Some tens of identifiers, near each other in a few places, or none."""
    if draws.once_in(24):
        return set()
    ids = {draws.of((0, 2**32 - 1, draws.below(2**32)))} if draws.once_in(2) else set()
    for _ in range(1 + draws.below(4)):
        start = draws.of((0, 200, 1000, 65_530, draws.below(2**32 - 100)))
        ids |= {start + draws.below(60) for _ in range(1 + draws.below(20))}
    return ids


def drawn_numbers(draws, form):
    """Limits, use and timers: of some records no limits, of others exceeded ones, with timers and without, and of a few
    numbers as great as there is room for."""
    if draws.once_in(20):
        return (0,) * 8
    if draws.once_in(20):
        times = 32 if form == "vfsold32" else 64
        bits = (64,) * 8 if form == "vfsv1" else (32,) * 5 + (42 if form in FLAT else 64, times, times)
        return tuple(draws.of((2**most - 1, draws.below(2**most), draws.below(99))) for most in bits)
    bsoft, isoft = draws.of((0, 100, draws.below(5000))), draws.of((0, 10, draws.below(500)))
    space, inodes = draws.below(3000 * 1024), draws.below(300)
    btime, itime = (draws.of((0, 1, NOW, 2 * NOW)) for _ in range(2))
    return isoft * 2, isoft, inodes, bsoft + 100, bsoft, space, btime, itime


# ---- Damages


def drawn_word(draws, old, data):
    """Another word in the place of one: small, near the old one, with one bit of it turned, one of the file, or any."""
    blocks = len(data) // BLOCK
    change = draws.below(8)
    if change == 0:
        return 0
    if change in (1, 2):
        return draws.below(blocks + 3)
    if change == 3:
        return (old + draws.of((1, -1))) % 2**32
    if change in (4, 5):
        return old ^ 1 << draws.below(32)
    if change == 6 and len(data) >= 4:
        return struct.unpack_from("<I", data, draws.below(len(data) - 3))[0]
    return draws.of((2**32 - 1, draws.below(2**32)))


def change_word(draws, data, at):
    """Another word at a place, where the file reaches so far."""
    if at + 4 <= len(data):
        struct.pack_into("<I", data, at, drawn_word(draws, *struct.unpack_from("<I", data, at), data))


def change_count(draws, data, at):
    if at + 2 <= len(data):
        (old,) = struct.unpack_from("<H", data, at)
        new = draws.of((old + 1, old - 1, 0, 21, 14, old ^ 1 << draws.below(16))) % 2**16
        struct.pack_into("<H", data, at, new)


def change_length(draws, data):
    """The file ends before, or goes on."""
    change = draws.below(4)
    if change == 0:
        del data[draws.below(len(data) + 1) :]
    elif change == 1:
        del data[max(0, len(data) - 1 - draws.below(BLOCK)) :]
    elif change == 2:
        del data[len(data) // BLOCK * BLOCK - BLOCK * draws.below(3) :]
    else:
        data += bytes(draws.below(3 * BLOCK)) if draws.once_in(2) else draws.bytes(draws.below(3 * BLOCK))


def change_header(draws, data):
    """Another word of the header; the magic number becomes that of another kind, too."""
    place = draws.of((0, 1, 2, 3, 4, 5, 5, 6, 6, 7, 7))
    if place == 0 and len(data) >= 4 and draws.once_in(2):
        struct.pack_into("<I", data, 0, draws.of(list(MAGIC.values())))
    else:
        change_word(draws, data, 4 * place)


def exchange(draws, data, places):
    """Two words change places."""
    one, other = draws.of(places), draws.of(places)
    if max(one, other) + 4 <= len(data):
        data[one : one + 4], data[other : other + 4] = data[other : other + 4], data[one : one + 4]


def change(draws, sound, data):
    """One change of a file."""
    kinds = ["word", "length", "value", "value", *sound.places]
    if sound.form not in FLAT:
        kinds += ["header", "link", "id", "exchange", "exchange ids"]
    kind = draws.of(kinds)
    if kind == "length":
        change_length(draws, data)
    elif kind == "header":
        change_header(draws, data)
    elif kind == "word":
        change_word(draws, data, 4 * draws.below(len(data) // 4 + 1))
    elif kind == "tree":
        change_word(draws, data, draws.of(sound.places["tree"]) + 4 * draws.below(256))
    elif kind == "exchange" and sound.places["reference"]:
        exchange(draws, data, sound.places["reference"])
    elif kind == "exchange ids" and sound.places["id"]:
        exchange(draws, data, sound.places["id"])
    elif kind == "count":
        change_count(draws, data, draws.of(sound.places["count"]))
    elif sound.places.get(kind):
        change_word(draws, data, draws.of(sound.places[kind]))


def undo_of(sound, data):
    """An undo file with an open gate, which saves the blocks of the sound file that are others now, as far as one can."""
    length = min(len(sound), len(data))
    others = [at for at in range(0, length, BLOCK) if sound[at : at + BLOCK] != data[at : at + BLOCK]][:SPANS]
    return bytearray(undo_file(length, [(at, bytes(sound[at : min(at + BLOCK, length)])) for at in others]))


def changed_undo(draws, undo, length):
    """An undo file with a change of its gate, of a number of its head or of a saved range, or of its length."""
    kind = draws.below(4)
    span = BLOCK + (BLOCK + SPAN_HEAD.size) * draws.below(SPANS)
    if kind == 0:
        del undo[draws.below(len(undo) + 1) :]
    elif kind == 1 and len(undo) >= 20:
        undo[0] = draws.of((0, 1, 1, 2, 255))
        struct.pack_into("<I", undo, 16, draws.of((0, 1, 3, SPANS, SPANS + 1, draws.below(2**32))))
    elif kind == 2 and len(undo) >= 16:
        struct.pack_into("<Q", undo, 8, draws.of((0, length, length + 1, draws.below(length + 1), draws.below(2**64))))
    elif span + 10 <= len(undo):
        at = draws.of((draws.below(length + 1), length, 2**42, draws.below(2**64)))
        struct.pack_into("<QH", undo, span, at, draws.of((0, 1, BLOCK, BLOCK + 1, draws.below(2**16))))
    return undo


class Case:
    """A damaged file, perhaps with an undo file, and its edit. `data` is what the file is once it is recovered."""

    def __init__(self, seed, number, all_sound):
        draws = Draws(seed, number)
        self.number, self.base = number, draws.below(len(all_sound))
        sound = all_sound[self.base]
        self.kind, self.form, self.data = sound.kind, sound.form, bytearray(sound.data)
        for _ in range(1 + draws.below(4)):
            change(draws, sound, self.data)
        self.given, self.undo = bytes(self.data), None
        if draws.once_in(6):
            self.undo = undo_of(sound.data, self.given)
            for _ in range(draws.below(4)):
                self.undo = changed_undo(draws, self.undo, len(self.given))
        self.data = self.given if self.undo is None else recovered(self.given, self.undo)
        # No format is asked for, or that of the sound file.
        self.asked = sound.form if sound.form in FLAT or draws.once_in(2) else None
        self.alone = draws.once_in(8)
        known = sound.ids or [7]
        near = draws.of(known) + draws.below(300)
        ids = (draws.of(known), draws.of(known), near, draws.below(2**32) if sound.form not in FLAT else near)
        self.id = draws.of(ids) % 2**32
        self.limits = drawn_limits(draws)

    def words(self):
        """The words of the three runs."""
        common = [LETTERS[self.kind]] + (["-F", self.asked] if self.asked else [])
        report = ["repquota", "-v", "-n", "-p", *common, "q"]
        return [report, ["setquota", *common, *map(str, (self.id, *self.limits)), "q"], report]


def drawn_limits(draws):
    """New limits in the order of the words: none, which takes away records that use nothing, or some, and rarely one of more
    than 32 bits."""
    if draws.once_in(4):
        return (0, 0, 0, 0)
    limits = [draws.of((0, draws.below(200), draws.below(5000))) for _ in range(4)]
    if draws.once_in(16):
        limits[draws.below(4)] = 2**32 + draws.below(9)
    return tuple(limits)


# ---- What is wanted


def is_exceeded(soft, used):
    return 0 < soft < used


def edited(value, id, limits, now):
    """The value with new limits of an identifier at a moment, or a refusal."""
    old = value.records.get(id, Record())
    new = Record(*old.numbers())
    new.bsoft, new.bhard, new.isoft, new.ihard = limits
    for timer, soft, used, grace in (
        ("btime", new.bsoft, new.kib(), value.grace[0]),
        ("itime", new.isoft, new.inodes, value.grace[1]),
    ):
        runs = getattr(new, timer)
        setattr(new, timer, (runs or now + grace) if is_exceeded(soft, used) else 0)
    refuse_unfit(value.form, id, new)
    if value.form in FLAT and id == 0:
        new.btime = new.itime = 0
    records = dict(value.records)
    records.pop(id, None)
    if not new.is_null():
        records[id] = new
    return Value(value.kind, value.form, value.grace, records)


def refuse_unfit(form, id, record):
    """Refuses the first value for which the format has no room."""
    if form in FLAT and id > 1_048_575:
        raise Refused("no room for id %d of %d" % (id, id))
    bits = {"ihard": 32, "isoft": 32, "inodes": 32, "bhard": 32, "bsoft": 32} if form != "vfsv1" else {}
    if form == "vfsold32":
        bits.update(btime=32, itime=32)
    for field in ("ihard", "isoft", "inodes", "bhard", "bsoft", "btime", "itime"):
        number = getattr(record, field)
        if number >> bits.get(field, 64):
            raise Refused("no room for %s %d of %d" % (field, number, id))


def period(seconds):
    minutes = (seconds + 30) // 60
    if minutes >= 48 * 60:
        return "%ddays" % (minutes // 60 // 24)
    return "%02d:%02d" % divmod(minutes, 60)


def report_of(value):
    """The text of a report of all records, with numbers for names and raw timers."""
    lines = [
        "*** Report for %s quotas on q" % value.kind,
        "Block grace time: %s; Inode grace time: %s" % tuple(map(period, value.grace)),
        "%-12s" % value.kind.capitalize() + "          used       soft       hard  grace    files     soft     hard  grace",
        "-" * 89,
    ]
    for id, it in sorted(value.records.items()):
        line = "#%-11d " % id
        line += "+" if is_exceeded(it.bsoft, it.kib()) or is_exceeded(it.bhard, it.kib()) else "-"
        line += "+" if is_exceeded(it.isoft, it.inodes) or is_exceeded(it.ihard, it.inodes) else "-"
        timer = it.btime if is_exceeded(it.bsoft, it.kib()) else 0
        line += " %10d %10d %10d %6d" % (it.kib(), it.bsoft, it.bhard, timer)
        timer = it.itime if is_exceeded(it.isoft, it.inodes) else 0
        line += " %8d %8d %8d %6d" % (it.inodes, it.isoft, it.ihard, timer)
        lines.append(line)
    return "".join(line + "\n" for line in lines)


def read_value(case, data):
    """What a file stands for as the case asks for it, or a refusal; the tree file too, where it is one."""
    if case.form in FLAT:
        return flat_value(data, case.kind, case.form), None
    tree = Tree(data, case.kind, case.asked)
    try:
        return tree.value(), tree
    except Unsound:
        return None, tree


# ---- Runs


def most_of(measures, others):
    """The greater one of each."""
    return tuple(map(max, measures, others))


class Ran:
    """What the three runs of a case came to: the texts of the reports, how many runs ended well, and of the last one the
    status, what it said, and the moments between which it ran."""

    def __init__(self, runner, words, alone):
        self.done = self.status = 0
        self.taken, self.reports, self.said = (0, 0), [], ""
        self.since = int(time.time())
        if alone:
            for each in words:
                self.take(*runner.run(each))
                if self.status:
                    break
                self.done += 1
        else:
            script = "".join(" ".join(each) + "\n" for each in words)
            self.take(*runner.run(["script"], script.encode()))
            self.done = self.number_of_line() - 1 if self.status else len(words)
        self.until = int(time.time())

    def take(self, status, out, said, taken):
        self.status, self.said, self.taken = status, said, most_of(self.taken, taken)
        self.reports += ["***" + text for text in out.split("***")[1:]]

    def number_of_line(self):
        """Which line of the script was refused, which its error line says behind `quota: `."""
        found = re.fullmatch(r"quota: line (\d+): (.*\n)", self.said)
        want(found, "the script ended with status", self.status, "and said", repr(self.said))
        self.said = "quota: " + found[2]
        return int(found[1])

    def refusal(self):
        """Why the last run was refused, without the name of the file."""
        found = re.fullmatch(r"quota: q: (.*)\n", self.said)
        want(found, "it ended with status", self.status, "and said", repr(self.said))
        return found[1]


def status_of(cause):
    """The status of a refusal."""
    return 1 if cause == "too large" or cause.startswith("no room") else 3


def is_true(tree, cause):
    """Whether a damage that was named is one of those of the tree file."""
    found = re.fullmatch(r"damaged: (\w+) at block (\d+)(?: of (\d+))?", cause)
    want(found, "the cause", repr(cause), "is none of a tree file")
    want((found[3] is not None) == found[1].endswith("Entry"), "an identifier is told, or not:", repr(cause))
    return tree.holds(found[1], int(found[2]), int(found[3] or 0))


def refused_by_header(case):
    """Why the file is refused before its blocks are looked at, or None."""
    try:
        read_value(case, case.data)
    except Refused as cause:
        return str(cause)
    return None


class Judge:
    """Carries out cases, and counts what they come to."""

    def __init__(self, program, seed, folder, kept):
        self.seed, self.kept = seed, kept
        self.runner = Runner(program, folder)
        self.sound = [Sound(Draws(seed, SOUND_CASES + at), FORMATS[at % len(FORMATS)]) for at in range(SOUND)]
        self.taken = [self.taken_on(at) for at in range(SOUND)]
        self.counts, self.failed, self.most = collections.Counter(), [], (0, 0, 0, 0)

    def taken_on(self, at):
        """The most that runs take on a sound file: on some of its identifiers and on new ones, by scripts and alone, with
        an undo file that is to be put back and without."""
        taken, sound = (0, 0), self.sound[at]
        undo = undo_of(sound.data, bytes(len(sound.data)))
        for number in range(12):
            case = Case(self.seed, number // 2, [sound])
            self.runner.write("q", sound.data)
            if number % 2 == 1:
                self.runner.write("q.undo", undo)
            ran = Ran(self.runner, case.words(), number // 2 % 2 == 1)
            want(ran.done > 0, "the sound file", at, "was refused:", ran.said)
            taken = most_of(taken, ran.taken)
            self.runner.clear()
        return taken

    def take(self, number):
        """A case."""
        case = Case(self.seed, number, self.sound)
        self.runner.clear()
        self.runner.write("q", case.given)
        if case.undo is not None:
            self.runner.write("q.undo", case.undo)
        try:
            self.counts[self.judge(case)] += 1
            self.counts["(with an undo file)"] += case.undo is not None
        except Wrong as why:
            self.keep(case, str(why))
        except UnicodeDecodeError as why:
            self.keep(case, "it wrote what is no text: %s" % why)

    def judge(self, case):
        """What a case comes to, in a word."""
        ran = Ran(self.runner, case.words(), case.alone)
        self.look_at_memory(case, ran)
        cause = refused_by_header(case)
        value, tree = (None, None) if cause else read_value(case, case.data)
        if value is None:
            return self.refused(case, ran, cause, tree)
        want(ran.done > 0, "a sound file was refused:", ran.said)
        want(ran.reports[0] == report_of(value), "the report is\n" + ran.reports[0] + "and not\n" + report_of(value))
        return self.changed(case, ran, value)

    def refused(self, case, ran, cause, tree):
        """A file that has to be refused, by each command."""
        want(ran.done == 0, "a damaged file was accepted")
        found = ran.refusal()
        if cause:
            want(found == cause, "the cause is", repr(found), "and not", repr(cause))
        else:
            want(is_true(tree, found), "what is told does not hold:", repr(found))
        want(ran.status == status_of(found), "the status is", ran.status)
        want(not ran.reports, "something was reported")
        said = ran.said
        ran = Ran(self.runner, case.words()[1:2], True)
        self.look_at_memory(case, ran)
        want((ran.status, ran.said) == (status_of(found), said), "the edit of it ended with", ran.status, repr(ran.said))
        self.look_at_files(case)
        return re.sub(r" at (block|record).*", "", found)

    def changed(self, case, ran, value):
        """A file that is accepted, and its edit."""
        refusals = set()
        for now in range(ran.since, ran.until + 1):
            try:
                wanted = edited(value, case.id, case.limits, now)
            except Refused as cause:
                refusals.add(str(cause))
                continue
            if ran.done == 3 and ran.reports[1] == report_of(wanted):
                after = self.runner.read("q")
                found, _ = read_value(case, after)
                want(found is not None, "the edit left a damaged file")
                want(has_same(found, wanted), "the edit left another value than its report shows")
                want(len(after) >= len(case.data), "the edit shortened the file")
                want(ran.said == "", "it said", repr(ran.said))
                return "accepted"
        want(ran.done < 3, "the second report is\n" + "".join(ran.reports[1:]) + "for the limits", case.limits, "of", case.id)
        want(ran.done == 1 and ran.status == 1 and ran.refusal() in refusals, "it ended with", ran.status, repr(ran.said))
        self.look_at_files(case)
        return "accepted, no room for the edit"

    def look_at_files(self, case):
        """The file is as it was, and no other one is there, but for an undo file with a shut gate where there was one."""
        want(self.runner.read("q") == case.data, "the file was changed")
        others = set(os.listdir(self.runner.folder)) - set("qsoe")
        want(others == (set() if case.undo is None else {"q.undo"}), "there are files beside it:", others)
        want(case.undo is None or self.runner.read("q.undo")[:1] != b"\1", "the gate is open still")

    def look_at_memory(self, case, ran):
        more = beyond(ran.taken, self.taken[case.base])
        self.most = most_of(self.most, (*ran.taken, *more))
        want(more[0] <= PAGE + WINDOWS and more[1] <= STACK, "it took %d KiB, and %d KiB of stack," % ran.taken, "%d and %d more" % more)

    def keep(self, case, why):
        """Keeps a case that failed, with the files as they are, and those that it began with."""
        self.failed.append(case.number)
        folder = os.path.join(self.kept, str(case.number))
        shutil.copytree(self.runner.folder, folder, dirs_exist_ok=True)
        for name, data in (("q.given", case.given), ("q.undo.given", case.undo or b"")):
            with open(os.path.join(folder, name), "wb") as file:
                file.write(data)
        with open(os.path.join(folder, "why"), "w") as file:
            lines = [" ".join(words) for words in case.words()]
            file.write("\n".join(["case %d, %s" % (case.number, "alone" if case.alone else "a script"), *lines, why, ""]))


def has_same(one, other):
    """Whether two values are the same."""
    return one.grace == other.grace and {id: it.numbers() for id, it in one.records.items()} == {
        id: it.numbers() for id, it in other.records.items()
    }


# The judge of this process.
judges = []


def judged(task):
    """Judges cases, and tells what they came to."""
    program, seed, folder, kept, numbers = task
    if not judges:
        judges.append(Judge(program, seed, tempfile.mkdtemp(dir=folder), kept))
    judge = judges[0]
    judge.counts, judge.failed = collections.Counter(), []
    for number in numbers:
        judge.take(number)
    return judge.counts, judge.failed, (*judge.most, judge.runner.most_time)


def parts_of(cases):
    return [(cases[at : at + CASES_AT_ONCE],) for at in range(0, len(cases), CASES_AT_ONCE)]


if __name__ == "__main__":
    memory = "most memory of a run: %d KiB, and %d KiB of stack; more than on a sound file: at most %d KiB, and %d KiB of stack"
    try_all(sys.argv[1:], parts_of, judged, "cases", memory + "\nlongest run: %.3f s")
