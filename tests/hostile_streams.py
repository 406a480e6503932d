#!/usr/bin/env python3
"""Hostile streams to `rquotad_tcp`, over the loopback:
hostile_streams.py PROGRAM SEED FIRST COUNT JOBS WORK KEPT

tests/hostile.sh says what is tried. It works in the folder WORK. The folder KEPT gets
what failed, in a file of the number of the first case that did.
"""
import functools
import os
import socket
import struct
import sys
import time

from bulk import Draws, try_all
from hostile_datagrams import MEMORY, MOST, SECONDS, Shard, changed, free_port, is_sound, name_of, parts_of, replies, served_by, sound_call, unit
from runner import Wrong, want
from serve_client import HOST, call, record, units

# How many connections one server takes.
CONNECTIONS = 5_000
# What a connection is read by.
MOST_STREAM = 16_777_216
# One stream of so many is longer than that.
LONG = 100_000
# The top bit of a head.
LAST = 2**31
# How the records of a stream may end.
TOO_LONG = "a record that is too long"
# (ip(7): the port of a client is chosen as it connects)
IP_BIND_ADDRESS_NO_PORT = 24


# ---- The records of a stream, as RFC 5531 and docs/rquotad_tcp.8 have them


def records_of(stream):
    """The whole records at the front of a stream, and what ends them."""
    stream, records, body, at = stream[:MOST_STREAM], [], b"", 0
    while at + 4 <= len(stream):
        head = unit(stream, at)
        end = at + 4 + head % LAST
        if len(body) + head % LAST > MOST:
            return records, TOO_LONG
        if end > len(stream):
            break
        body, at = body + stream[at + 4 : end], end
        if head >= LAST:
            records.append(body)
            body = b""
    return records, "a record that is cut off" if body or at < len(stream) else "a whole record"


# ---- Streams


def fragments(draws, body):
    """A record of some fragments, mostly of one."""
    places = sorted(draws.below(len(body) + 1) for _ in range(draws.of((0, 0, 0, 1, 1, 2, 3, 20))))
    parts = [body[start:end] for start, end in zip([0, *places], [*places, len(body)])]
    return b"".join(units(len(part)) + part for part in parts[:-1]) + record(parts[-1])


def changed_head(draws, stream):
    """A stream of which the number at a place is another one, which may be that of a head."""
    at = draws.below(max(1, len(stream) - 3)) if draws.once_in(2) else 0
    (old,) = struct.unpack_from(">I", stream, at)
    near = (old + draws.of((1, -1, 4, -4))) % 2**32
    head = draws.of((old ^ LAST, near, near, old ^ 1 << draws.below(32), LAST + MOST, LAST + MOST + 1, LAST - 1, 2**32 - 1, draws.below(2**32)))
    return stream[:at] + units(head) + stream[at + 4 :]


def changed_stream(draws, stream):
    """A stream with one change."""
    kind, at = draws.below(8), draws.below(len(stream) + 1)
    if kind < 3 and len(stream) >= 4:
        return changed_head(draws, stream)
    if kind == 3:
        return stream[:at]
    if kind == 4:
        return stream[:at] + draws.bytes(draws.of((1, 3, 4, 8))) + stream[at:]
    if kind == 5:
        return stream[:at] + stream[at + draws.of((1, 3, 4, 8)) :]
    if kind == 6:
        # heads alone: of fragments without a body, of records without one
        return stream[:at] + units(draws.of((0, LAST))) * draws.below(2000) + stream[at:]
    # a record of as many bytes as one may have, or of one more
    return units(1) + b"x" + record(bytes(MOST - draws.below(2))) + stream


def long_stream(draws, body):
    """A call that ends with the last byte that is read of a connection, or behind it, and another call."""
    filled = MOST_STREAM - len(record(body)) + draws.below(2)
    fillers, rest = divmod(filled, 4 + MOST)
    while rest < 4:
        fillers, rest = fillers - 1, rest + 4 + MOST
    filler, last = b"\xff" * MOST, b"\xff" * min(rest - 4, MOST)
    behind = b"" if rest - 4 <= MOST else record(b"\xff" * (rest - 8 - MOST))
    return record(filler) * fillers + record(last) + behind + record(body) * 2


def stream_of(seed, number, known):
    """The stream of a case."""
    draws = Draws(seed, number)
    if number % LONG == LONG - 1:
        return long_stream(draws, sound_call(draws, 1, known))
    stream = b""
    for _ in range(1 + draws.below(draws.of((1, 2, 4, 30)))):
        body = sound_call(draws, draws.below(2**32), known)
        if not is_sound(number) and draws.once_in(2):
            body = changed(draws, body)
        stream += fragments(draws, body[:MOST])
    if not is_sound(number):
        for _ in range(draws.below(4)):
            stream = changed_stream(draws, stream)
    return stream


# ---- Servers


class Streams(Shard):
    """The streams that one server meets."""

    what = "streams"

    def serve(self, cases):
        """Sends the streams of these cases, a sound one first, each on a connection of its own, and looks at the replies; what
        the server took."""
        port = free_port(socket.SOCK_STREAM)
        form = self.served.form if self.served.is_asked else "any"
        words = [str(port), str(len(cases) + 1), form]
        for export in self.served.exports:
            words += export
        self.runner.start(words)
        try:
            got = self.sent(begun(port), record(call(7, b"", procedure=0)), None)
            want(got == record(units(7, 1, 0, 0, 0, 0)), "the first reply is another one")
            for number in cases:
                self.try_case(port, number)
            status, out, said, taken = self.runner.end()
        except (Wrong, OSError) as why:
            self.runner.kill()
            raise why if isinstance(why, Wrong) else Wrong("no connection: %s" % why) from None
        want((status, out, said) == (0, "", ""), "the server ended with", status, repr(out + said))
        return taken

    def try_case(self, port, number):
        """Sends the stream of a case, and looks at what comes back. About one client in 50 does not wait for that."""
        draws = Draws(self.seed, number + 2**40)
        stream = stream_of(self.seed, number, self.served.known)
        since = int(time.time())
        sock = connected_to(port)
        if not is_sound(number) and draws.once_in(50):
            leave(sock, stream)
            self.counts["a client that did not wait"] += 1
            return
        got = self.sent(sock, stream, draws)
        records, ends = records_of(stream)
        self.counts["end: " + ends] += 1
        # (what was not read of a connection resets it as it is closed, and what was not sent on it by then is lost: RFC 1122, 4.2.2.13)
        is_reset = ends == TOO_LONG or len(stream) > MOST_STREAM
        self.compare(number, got, records, is_reset, since, int(time.time()) + 1)

    def sent(self, sock, stream, draws):
        """Sends a stream, at once or in pieces, and answers what comes back. The server may close before it has read all."""
        with sock:
            try:
                for piece in pieces(stream, draws):
                    sock.sendall(piece)
                sock.shutdown(socket.SHUT_WR)
            except OSError:
                pass
            return all_of(sock)

    def compare(self, number, got, records, is_reset, since, until):
        """Looks whether the replies to these records came back, or, on a connection that was reset, a first part of them."""
        for data in records:
            right = [record(reply) for reply in replies(data, self.served.values, since, until)]
            self.counts["no reply" if not right else name_of(right[0][4:])] += 1
            if right and is_reset and len(got) < len(right[0]):
                want(any(each.startswith(got) for each in right), "case", number, "got", got.hex(), "and not", right[0].hex())
                self.counts["end: a reset, before which not all was sent"] += 1
                return
            if right:
                want(got[: len(right[0])] in right, "case", number, "got", got[:200].hex(), "and not", right[0].hex())
                got = got[len(right[0]) :]
        want(not got, "case", number, "got too much:", got[:200].hex())


def connected_to(port):
    """A connection to the port, from an address of this process alone, so that no port is lacking."""
    sock = socket.socket(socket.AF_INET, socket.SOCK_STREAM)
    sock.settimeout(SECONDS)
    sock.setsockopt(socket.IPPROTO_TCP, socket.TCP_NODELAY, 1)
    sock.setsockopt(socket.IPPROTO_IP, IP_BIND_ADDRESS_NO_PORT, 1)
    sock.bind(("127.1.%d.%d" % (os.getpid() // 250 % 250, 1 + os.getpid() % 250), 0))
    sock.connect((HOST, port))
    return sock


def begun(port):
    """The first connection to the port, tried until the server listens."""
    until = time.monotonic() + SECONDS
    while time.monotonic() < until:
        try:
            return connected_to(port)
        except ConnectionRefusedError:
            time.sleep(0.002)
    raise Wrong("there is no server")


def pieces(stream, draws):
    """A stream at once, or, about each eighth one, in some pieces."""
    if draws is None or len(stream) < 2 or not draws.once_in(8):
        return [stream]
    places = sorted(draws.below(len(stream)) for _ in range(1 + draws.below(8)))
    return [stream[start:end] for start, end in zip([0, *places], [*places, len(stream)])]


def all_of(sock):
    """All that comes on a connection, up to where the server closes it."""
    data = b""
    try:
        while piece := sock.recv(65536):
            data += piece
    except ConnectionResetError:
        pass
    except OSError as why:
        raise Wrong("the server does not close: %s" % why) from None
    return data


def leave(sock, stream):
    """Sends a stream and drops the connection, which resets it."""
    with sock:
        sock.setsockopt(socket.SOL_SOCKET, socket.SO_LINGER, struct.pack("ii", 1, 0))
        try:
            sock.sendall(stream[:65536])
        except OSError:
            pass


def served(task):
    return served_by(Streams, task)


if __name__ == "__main__":
    try_all(sys.argv[1:], functools.partial(parts_of, most=CONNECTIONS), served, "servers", MEMORY)
