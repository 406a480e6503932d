#!/usr/bin/env python3
"""Clients of `rquotad_tcp` on 127.0.0.1 that are not plain ones:

streams.py bytes PORT CASE..   the call of each case over one connection, byte by byte; prints each reply in a line
streams.py many PORT COUNT     so many calls over one connection, by a client that reads while it writes; prints how many
                               replies there were, and how many kinds of them
streams.py each PORT COUNT     so many connections of one call, one after another; prints the same
streams.py rude PORT           calls whose replies are not read before the connection is closed
streams.py stall PORT          half a call; prints the seconds after which the connection is closed
"""
import os
import socket
import sys
import threading
import time

sys.path.insert(0, os.path.join(os.path.dirname(os.path.abspath(__file__)), ".."))
from serve_client import CASES, opened, record, replied, told  # noqa: E402


def by_bytes(port, names):
    with opened(port) as sock:
        sock.setsockopt(socket.IPPROTO_TCP, socket.TCP_NODELAY, 1)
        for name in names:
            for byte in record(CASES[name]):
                sock.sendall(bytes([byte]))
            print(told(replied(sock)))


def say(replies):
    print(len(replies), len(set(replies)))


def many(port, count):
    with opened(port) as sock:
        sock.settimeout(60)
        writer = threading.Thread(target=sock.sendall, args=(record(CASES["own"]) * count,))
        writer.start()
        replies = [replied(sock) for _ in range(count)]
        writer.join()
    say(replies)


def each(port, count):
    replies = []
    for _ in range(count):
        with opened(port) as sock:
            sock.sendall(record(CASES["own"]))
            replies.append(replied(sock))
    say(replies)


def rude(port):
    with opened(port) as sock:
        sock.sendall(record(CASES["own"]) * 100)
        time.sleep(0.1)


def stall(port):
    with opened(port) as sock:
        sock.settimeout(120)
        sock.sendall(record(CASES["own"])[:20])
        began = time.monotonic()
        while sock.recv(4096):
            pass
        print(round(time.monotonic() - began))


def main(words):
    if len(words) >= 3 and words[0] == "bytes":
        by_bytes(int(words[1]), words[2:])
    elif len(words) == 3 and words[0] in ("many", "each"):
        {"many": many, "each": each}[words[0]](int(words[1]), int(words[2]))
    elif len(words) == 2 and words[0] in ("rude", "stall"):
        {"rude": rude, "stall": stall}[words[0]](int(words[1]))
    else:
        sys.exit(__doc__)


if __name__ == "__main__":
    main(sys.argv[1:])
