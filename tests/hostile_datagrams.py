#!/usr/bin/env python3
"""Hostile datagrams to `rquotad` of the built program, over the loopback:
hostile_datagrams.py PROGRAM SEED FIRST COUNT JOBS WORK KEPT

tests/hostile.sh says what is tried. It works in the folder WORK. The folder KEPT gets
what failed, in a file of the number of the first case that did.
"""
import collections
import os
import socket
import struct
import sys
import tempfile
import time

from bulk import Draws, try_all
from hostile_files import FORMATS, SOUND_CASES, Sound, kinds_of
from quota_files import FLAT, Record, Tree, flat_value
from runner import STACK, Runner, Wrong, beyond, want
from serve_client import PROGRAM, call, connected, credential, opaque, units

# What is exported, and under which paths. Flat files are none of projects.
EXPORTS = (
    ("/home", "user"),
    ("/home", "group"),
    ("/srv/data", "group"),
    ("/home", "project"),
    ("/srv/data", "project"),
)
# The kinds by the numbers of their types.
KINDS = ("user", "group", "project")
# One call of so many is a sound one.
EACH = 25
# How many datagrams one server takes, and how many bytes may wait for it.
CALLS = 20_000
WAITING = 60_000
# What a datagram is read by.
MOST = 4096
# How long a server may take to begin and to answer.
SECONDS = 20


# ---- The answer, as docs/quota_cli-rquotad.8 and docs/FORMATS.md have it


def unit(data, at):
    return int.from_bytes(data[at : at + 4], "big")


def behind(data, at):
    """The place behind an opaque value with its padding."""
    return at + 4 + (unit(data, at) + 3) // 4 * 4


def stands(data, at, most, end):
    """Whether an opaque value of at most so many bytes stands at a place, before the end."""
    return at + 4 <= end and unit(data, at) <= most and behind(data, at) <= end


class Asked:
    """The caller and the arguments of a call for limits."""

    def __init__(self, ids, path, kind, id):
        self.uid, self.gids, self.path, self.kind, self.id = ids[0], ids[1:], path, kind, id

    def may(self):
        own = {"user": [self.uid], "group": self.gids, "project": []}
        return self.uid == 0 or self.id in own[self.kind]


def asked_of(data):
    """What a datagram asks: the numbers of the reply behind its xid where these are known by now, or what is asked for, or
    None where there is no reply."""
    if len(data) < 24 or unit(data, 4) != 0:
        return None
    if unit(data, 8) != 2:
        return (1, 1, 0, 2, 2)
    accepted = (1, 0, 0, 0)
    version, procedure = unit(data, 16), unit(data, 20)
    if unit(data, 12) != PROGRAM:
        return (*accepted, 1)
    if version not in (1, 2):
        return (*accepted, 2, 1, 2)
    if procedure > 4:
        return (*accepted, 3)
    if procedure == 0:
        return (*accepted, 0)
    refused = lambda why: (1, 1, 1, why)
    if not stands(data, 28, 400, len(data)):
        return refused(1)
    flavor, end = unit(data, 24), 32 + unit(data, 28)
    if flavor > 1:
        return refused(2)
    ids = caller_of(data, end) if flavor == 1 else None
    if flavor == 1 and ids is None:
        return refused(1)
    verifier = behind(data, 28)
    if not stands(data, verifier + 4, 400, len(data)):
        return refused(3)
    if flavor == 0:
        return refused(5)
    at = behind(data, verifier + 4) + (4 if procedure > 2 else 0)
    more = (10 if version == 2 else 9) if procedure > 2 else version
    if not stands(data, at, 1024, len(data)) or behind(data, at) + 4 * more > len(data):
        return (*accepted, 4)
    if procedure > 2:
        return (*accepted, 0, 3)
    path, rest = data[at + 4 : at + 4 + unit(data, at)], behind(data, at)
    type = unit(data, rest) if version == 2 else 0
    if type >= len(KINDS):
        return (*accepted, 0, 2)
    return Asked(ids, path, KINDS[type], unit(data, rest + 4 * (version - 1)))


def caller_of(data, end):
    """The uid, the gid and the further groups of a credential that ends at a place, or None where it is malformed."""
    if not stands(data, 36, 255, end):
        return None
    at = behind(data, 36)
    if at + 12 > end or unit(data, at + 8) > 16 or at + 12 + 4 * unit(data, at + 8) > end:
        return None
    return [unit(data, at), unit(data, at + 4)] + [unit(data, at + 12 + 4 * each) for each in range(unit(data, at + 8))]


def told(record, now):
    """The ten numbers of a record."""
    fits = lambda number: min(number, 2**32 - 1)
    in_blocks = lambda power: [
        -(-record.bhard // 2 ** (power - 10)),
        -(-record.bsoft // 2 ** (power - 10)),
        -(-record.space // 2**power),
    ]
    power = next((it for it in range(10, 31) if max(in_blocks(it)) < 2**32), 30)
    blocks = map(fits, in_blocks(power))
    inodes = map(fits, (record.ihard, record.isoft, record.inodes))
    left = (fits(max(0, timer - now)) for timer in (record.btime, record.itime))
    return (2**power, 1, *blocks, *inodes, *left)


def replies(data, values, since, until):
    """The replies that are right for a datagram between two moments; none where it has no reply."""
    data = data[:MOST]
    asked = asked_of(data)
    if asked is None:
        return []
    if isinstance(asked, Asked):
        accepted = (1, 0, 0, 0)
        value = values.get((asked.path, asked.kind))
        if not asked.may():
            all_of = [(*accepted, 0, 3)]
        elif value is None:
            all_of = [(*accepted, 0, 2)]
        else:
            record = value.records.get(asked.id) or Record()
            all_of = [(*accepted, 0, 1, *told(record, now)) for now in range(since, until + 1)]
    else:
        all_of = [asked]
    return [units(unit(data, 0), *numbers) for numbers in all_of]


# ---- Calls


def sound_call(draws, xid, known):
    """A call that is well formed: for limits mostly, by who may ask and by others."""
    id = draws.of((draws.of(known), draws.of(known), draws.below(2**32)))
    path = draws.of((*[b"/home"] * 8, b"/srv/data", b"/srv/data", b"/", b"", b"/home/", b"x" * draws.below(1025)))
    uid = draws.of((0, 0, id, id, id, draws.below(2**32)))
    gids = [draws.of((id, draws.below(70_000))) for _ in range(draws.below(17))]
    caller = credential(uid, draws.of((id, draws.below(1000))), gids)
    if draws.once_in(4):
        # another name of the machine, and a verifier of some bytes
        body = units(draws.below(2**32)) + opaque(draws.bytes(draws.below(60))) + units(uid, 7, len(gids), *gids)
        caller = units(1) + opaque(body) + units(draws.below(9)) + opaque(draws.bytes(draws.below(40)))
    version, procedure = 1 + draws.below(2), draws.of((1, 1, 1, 1, 1, 2, 2, 0, 3, 4))
    type = units(draws.of((0, 0, 1, 1, 2, 2, 3)))
    if procedure > 2:
        numbers = units(*(draws.below(2**32) for _ in range(8)))
        arguments = units(0) + opaque(path) + units(id) + (type if version == 2 else b"") + numbers
    else:
        arguments = opaque(path) + (type if version == 2 else b"") + units(id)
    return call(xid, arguments, version=version, procedure=procedure, caller=caller)


def changed(draws, data):
    """A datagram with one change."""
    kind, at = draws.below(10), 4 * draws.below(len(data) // 4 + 1)
    if kind < 4 and at + 4 <= len(data):
        (old,) = struct.unpack_from(">I", data, at)
        near = (old + draws.of((1, -1, 3, -3))) % 2**32
        flipped = old ^ 1 << draws.below(32)
        word = draws.of((0, 1, draws.below(30), near, flipped, flipped, 2**32 - 1, 2**31, draws.below(2**32), 255, 256, 400, 401, 1024))
        return data[:at] + units(word) + data[at + 4 :]
    if kind == 4:
        return data[: draws.below(len(data) + 1)]
    if kind == 5:
        more = draws.of((1, 3, 4, draws.below(500), draws.below(5000) if draws.once_in(8) else 8))
        return data + (bytes(more) if draws.once_in(2) else draws.bytes(more))
    if kind == 6:
        return data[:at] + draws.bytes(draws.of((1, 4, 8))) + data[at:]
    if kind == 7:
        return data[:at] + data[at + draws.of((1, 4, 8)) :]
    if kind == 8 and draws.once_in(4):
        return draws.bytes(draws.below(200))
    at = draws.below(len(data) + 1)
    return data[:at] + draws.bytes(1) + data[at + 1 :]


def is_sound(number):
    return number // len(FORMATS) % EACH == EACH - 1


def datagram(seed, number, known):
    """The datagram of a case."""
    draws = Draws(seed, number)
    data = sound_call(draws, draws.below(2**32), known)
    if not is_sound(number):
        for _ in range(1 + draws.below(4)):
            data = changed(draws, data)
    return data


# ---- Servers


class Served:
    """The files that one server has, in the folder where it runs."""

    def __init__(self, seed, form, runner):
        self.form, self.values, self.exports, self.known = form, {}, [], []
        for at, (path, kind) in enumerate(EXPORTS):
            if kind not in kinds_of(form):
                continue
            sound = Sound(Draws(seed, SOUND_CASES + 2**20 + at + 8 * FORMATS.index(form)), form, kind)
            runner.write("q%d" % at, sound.data)
            value = flat_value(sound.data, kind, form) if form in FLAT else Tree(sound.data, kind, form).value()
            self.values[path.encode(), kind] = value
            self.exports.append((path, kind, "q%d" % at))
            self.known += sound.ids
        self.is_asked = form in FLAT or seed % 2 == 1


class Shard:
    """The cases that one server meets."""

    what = "datagrams"

    def __init__(self, program, seed, folder, form):
        self.seed, self.runner = seed, Runner(program, tempfile.mkdtemp(dir=folder))
        self.served = Served(seed, form, self.runner)
        self.counts = collections.Counter()

    def serve(self, cases):
        """Sends the datagrams of these cases, a sound one first, and looks at the replies; what the server took."""
        port = free_port(socket.SOCK_DGRAM)
        words = ["rquotad", "--calls", str(len(cases) + 1), "--port", str(port)]
        for export in self.served.exports:
            words += ["--export", *export]
        if self.served.is_asked:
            words += ["--format", self.served.form]
        self.runner.start(words)
        sock = connected(port)
        sock.settimeout(SECONDS)
        try:
            want(self.first_reply(sock) == units(7, 1, 0, 0, 0, 0), "the first reply is another one")
            for batch in self.batches(cases):
                self.send(sock, batch)
            sock.settimeout(0.1)
            self.nothing_comes(sock)
            status, out, said, taken = self.runner.end()
        except Wrong:
            self.runner.kill()
            raise
        want((status, out, said) == (0, "", ""), "the server ended with", status, repr(out + said))
        return taken

    def first_reply(self, sock):
        """The reply to a call that does nothing. One that no socket was there to take is sent again."""
        until = time.monotonic() + SECONDS
        while time.monotonic() < until:
            try:
                sock.send(call(7, b"", procedure=0))
                return sock.recv(MOST)
            except ConnectionRefusedError:
                time.sleep(0.002)
        raise Wrong("there is no server")

    def batches(self, cases):
        """The cases with their datagrams, so many at once as may wait."""
        batch, waiting = [], 0
        for number in cases:
            data = datagram(self.seed, number, self.served.known)
            batch.append((number, data))
            waiting += 1000 + len(data)
            if waiting > WAITING or is_sound(number):
                yield batch
                batch, waiting = [], 0
        yield batch

    def send(self, sock, batch):
        """Sends datagrams one after another, and then reads the replies to them."""
        since = int(time.time())
        for _, data in batch:
            sock.send(data)
        for number, data in batch:
            right = replies(data, self.served.values, since, int(time.time()) + 1)
            self.counts["no reply" if not right else name_of(right[0])] += 1
            if not right:
                continue
            try:
                reply = sock.recv(MOST)
            except OSError as why:
                raise Wrong("case %d, %s: no reply: %s" % (number, data.hex(), why)) from None
            want(reply in right, "case", number, data.hex(), "got", reply.hex(), "and not", right[0].hex())

    def nothing_comes(self, sock):
        try:
            reply = sock.recv(MOST)
        except OSError:
            return
        raise Wrong("a reply too many: " + reply.hex())


def name_of(reply):
    """What a reply says, in a word."""
    numbers = struct.unpack(">%dI" % (len(reply) // 4), reply)
    if numbers[2] == 1:
        return "another version of RPC" if numbers[3] == 0 else "rejected, AUTH %d" % numbers[4]
    if numbers[5]:
        return ("", "no such program", "no such version", "no such procedure", "garbage arguments")[numbers[5]]
    return ("", "limits", "no quota", "denied")[numbers[6]] if numbers[6:] else "done"


def free_port(kind):
    """A port that is free for sockets of a kind."""
    with socket.socket(socket.AF_INET, kind) as sock:
        sock.bind(("127.0.0.1", 0))
        return sock.getsockname()[1]


# The shards of this process, by format.
shards = {}


def shard_of(made, program, seed, folder, form):
    """The shard of a format. What a server takes that meets the cases that are sound is measured before all others."""
    if form not in shards:
        shard = made(program, seed, folder, form)
        first = FORMATS.index(form)
        shard.taken = shard.serve([number for number in range(first, len(FORMATS) * EACH * 1000, len(FORMATS)) if is_sound(number)])
        shards[form] = shard
    return shards[form]


def served_by(made, task):
    """Serves some cases by a shard that is made so, and tells what they came to."""
    program, seed, folder, kept, form, cases = task
    shard = shard_of(made, program, seed, folder, form)
    shard.counts, taken, failed = collections.Counter(), shard.taken, []
    try:
        taken = shard.serve(cases)
        more = beyond(taken, shard.taken)
        want(more[0] <= 0 and more[1] <= STACK, "it took %d KiB, and %d KiB of stack," % taken, "%d and %d more" % more)
    except Wrong as why:
        failed = [cases[0]]
        with open(os.path.join(kept, "%s-%d" % (made.what, cases[0])), "w") as file:
            file.write("%s, cases %d to %d\n%s\n" % (form, cases[0], cases[-1], why))
    return shard.counts, failed, (*taken, *beyond(taken, shard.taken))


def served(task):
    return served_by(Shard, task)


def parts_of(cases, most=CALLS):
    """The cases of each format, as many at once as one server takes."""
    for at, form in enumerate(FORMATS):
        own = cases[(at - cases.start) % len(FORMATS) :: len(FORMATS)]
        for start in range(0, len(own), most):
            yield form, own[start : start + most]


MEMORY = "most memory of a server: %d KiB, and %d KiB of stack; more than with sound calls: at most %d KiB, and %d KiB of stack"

if __name__ == "__main__":
    try_all(sys.argv[1:], parts_of, served, "servers", MEMORY)
