#!/usr/bin/env python3
"""A client of `rquotad` over UDP on 127.0.0.1, and of `rquotad_tcp` over TCP, with its own XDR (RFC 4506) and ONC RPC (RFC 5531).

serve_client.py free              prints a port that is free
serve_client.py hold PORT WORD..  runs the words while this port is in use, and ends with their status
serve_client.py ask PORT CASE..   sends the call of each case, and prints its reply in a line
serve_client.py stream PORT CASE..
                                  the same over one connection of TCP, in which each call is a record
serve_client.py many PORT COUNT EACH
                                  sends so many calls, each after the reply to the one before, and prints the seconds. The
                                  users are multiples of EACH below 1,000,000 times it, which the recurrence
                                  x -> (1,664,525 x + 1,013,904,223) mod 2^32 chooses
serve_client.py echo PORT COUNT   answers so many datagrams by themselves, to be measured beside `rquotad`
serve_client.py many_stream PORT COUNT EACH
                                  as many, over one connection of TCP
serve_client.py echo_stream PORT  sends back what comes over one connection, to be measured beside `rquotad_tcp`
"""

import socket
import struct
import subprocess
import sys
import time

HOST = "127.0.0.1"
PROGRAM = 100011


def units(*numbers):
    """Numbers of 32 bits, the highest byte of each first."""
    return struct.pack(">%dI" % len(numbers), *numbers)


def opaque(data):
    """Bytes with their number in front, filled up to a multiple of four."""
    return units(len(data)) + data + bytes(-len(data) % 4)


def credential(uid, gid, gids=()):
    """A credential of AUTH_SYS from the machine `h`, and an empty verifier."""
    body = units(0) + opaque(b"h") + units(uid, gid, len(gids), *gids)
    return units(1) + opaque(body) + units(0, 0)


def call(xid, arguments, program=PROGRAM, version=1, procedure=1, caller=None):
    """A call, by default one of uid 1000."""
    if caller is None:
        caller = credential(1000, 1000)
    return units(xid, 0, 2, program, version, procedure) + caller + arguments


def own(uid):
    """A call of a user for limits of that user."""
    return call(1, opaque(b"/home") + units(uid), caller=credential(uid, uid))


CASES = {
    "own": own(1000),
    "typed": call(2, opaque(b"/home") + units(0, 1000), version=2),
    "group": call(3, opaque(b"/home") + units(1, 1000), version=2,
                  caller=credential(1001, 7, (8, 1000))),
    "other": call(4, opaque(b"/home") + units(1000), caller=credential(1001, 1000)),
    "root": call(5, opaque(b"/home") + units(5), caller=credential(0, 0)),
    "path": call(6, opaque(b"/nowhere") + units(1000)),
    "null": call(7, b"", procedure=0, caller=units(0, 0, 0, 0)),
    "program": call(8, b"", program=100003),
    "version": call(9, b"", version=3),
    "procedure": call(10, b"", procedure=9),
    "set": call(11, units(0) + opaque(b"/home") + units(1000, 1, 1, 0, 0, 0, 0, 0, 0), procedure=3),
    "weak": call(12, opaque(b"/home") + units(1000), caller=units(0, 0, 0, 0)),
    "garbage": call(13, opaque(b"/home")),
    "old": units(14, 0, 1, PROGRAM, 1, 1) + credential(1000, 1000) + opaque(b"/home") + units(1000),
    "project": call(15, opaque(b"/home") + units(2, 7), version=2, caller=credential(0, 0)),
    "member": call(16, opaque(b"/home") + units(2, 7), version=2, caller=credential(7, 7, (7,))),
    "beyond": call(17, opaque(b"/home") + units(3, 7), version=2, caller=credential(0, 0)),
    "short": b"abc",
}


def told(reply):
    """A reply in words."""
    numbers = struct.unpack(">%dI" % (len(reply) // 4), reply)
    if len(numbers) < 4 or numbers[1] != 1:
        return "no reply: %s" % reply.hex()
    xid = numbers[0]
    if numbers[2] == 1:
        return "%d rejected %s" % (xid, " ".join(map(str, numbers[3:])))
    state, rest = numbers[5], numbers[6:]
    if state != 0:
        return "%d refused %s" % (xid, " ".join(map(str, (state,) + rest)))
    if not rest:
        return "%d done" % xid
    names = {1: "quota", 2: "no quota", 3: "denied"}
    return " ".join([str(xid), names.get(rest[0], "unknown")] + list(map(str, rest[1:])))


def connected(port):
    """A socket that talks to the port."""
    sock = socket.socket(socket.AF_INET, socket.SOCK_DGRAM)
    sock.connect((HOST, port))
    sock.settimeout(5)
    return sock


def exchange(sock, datagram):
    """The reply to a datagram. One that no socket was there to take is sent again, for 5 seconds."""
    until = time.monotonic() + 5
    while True:
        try:
            sock.send(datagram)
            return sock.recv(4096)
        except ConnectionRefusedError:
            if time.monotonic() > until:
                raise
            time.sleep(0.02)


def ask(port, names):
    sock = connected(port)
    for name in names:
        if name == "short":
            sock.send(CASES[name])
            print("short sent")
        else:
            print(told(exchange(sock, CASES[name])))


def opened(port):
    """A connection to the port. One that nothing listened for is tried again, for 5 seconds."""
    until = time.monotonic() + 5
    while True:
        try:
            return socket.create_connection((HOST, port), 5)
        except ConnectionRefusedError:
            if time.monotonic() > until:
                raise
            time.sleep(0.02)


def record(data):
    """A record of one fragment."""
    return units(2**31 + len(data)) + data


def received(sock, count):
    """So many bytes of a connection."""
    data = b""
    while len(data) < count:
        piece = sock.recv(count - len(data))
        if not piece:
            raise EOFError("the connection ended")
        data += piece
    return data


def replied(sock):
    """The next record of a connection, which has one fragment."""
    head, = struct.unpack(">I", received(sock, 4))
    if head < 2**31:
        raise ValueError("a fragment that is not the last one")
    return received(sock, head - 2**31)


def stream(port, names):
    with opened(port) as sock:
        for name in names:
            sock.sendall(record(CASES[name]))
            print("short sent" if name == "short" else told(replied(sock)))


def chosen(count, each):
    """So many users, each of them a multiple."""
    x, users = 1, []
    for _ in range(count):
        x = (1_664_525 * x + 1_013_904_223) % 2**32
        users.append((x * 1_000_000 >> 32) * each)
    return users


def many(port, count, each):
    sock = connected(port)
    datagrams = [own(uid) for uid in chosen(count, each)]
    exchange(sock, datagrams[0])
    began = time.monotonic()
    for datagram in datagrams[1:]:
        sock.send(datagram)
        sock.recv(4096)
    print("%.3f" % (time.monotonic() - began))


def echo(port, count):
    sock = socket.socket(socket.AF_INET, socket.SOCK_DGRAM)
    sock.bind((HOST, port))
    for _ in range(count):
        datagram, sender = sock.recvfrom(4096)
        sock.sendto(datagram, sender)


def many_stream(port, count, each):
    calls = [record(own(uid)) for uid in chosen(count, each)]
    with opened(port) as sock:
        sock.setsockopt(socket.IPPROTO_TCP, socket.TCP_NODELAY, 1)
        replied_to(sock, calls[0])
        began = time.monotonic()
        for sent in calls[1:]:
            replied_to(sock, sent)
        print("%.3f" % (time.monotonic() - began))


def replied_to(sock, sent):
    """The record that comes back for one that is sent."""
    sock.sendall(sent)
    return replied(sock)


def echo_stream(port):
    with socket.create_server((HOST, port)) as listener:
        sock, _ = listener.accept()
        with sock:
            sock.setsockopt(socket.IPPROTO_TCP, socket.TCP_NODELAY, 1)
            while True:
                data = sock.recv(4096)
                if not data:
                    break
                sock.sendall(data)


def free():
    sock = socket.socket(socket.AF_INET, socket.SOCK_DGRAM)
    sock.bind((HOST, 0))
    print(sock.getsockname()[1])


def hold(port, words):
    sock = socket.socket(socket.AF_INET, socket.SOCK_DGRAM)
    sock.bind((HOST, port))
    sys.exit(subprocess.call(words))


def main(words):
    if words == ["free"]:
        free()
    elif len(words) >= 3 and words[0] == "hold":
        hold(int(words[1]), words[2:])
    elif len(words) >= 3 and words[0] == "ask":
        ask(int(words[1]), words[2:])
    elif len(words) >= 3 and words[0] == "stream":
        stream(int(words[1]), words[2:])
    elif len(words) == 4 and words[0] == "many":
        many(*map(int, words[1:]))
    elif len(words) == 3 and words[0] == "echo":
        echo(int(words[1]), int(words[2]))
    elif len(words) == 4 and words[0] == "many_stream":
        many_stream(*map(int, words[1:]))
    elif len(words) == 2 and words[0] == "echo_stream":
        echo_stream(int(words[1]))
    else:
        sys.exit(__doc__)


if __name__ == "__main__":
    main(sys.argv[1:])
