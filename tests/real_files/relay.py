#!/usr/bin/env python3
"""A relay between a client of rquota and a server, over UDP on 127.0.0.1, which does what a network may do.

relay.py PORT SERVER RULE [NUMBER]   takes calls at PORT, and hands them to the server at the port SERVER

It prints `ready`, and then the path and the xid of each call in a line, and goes on until it is killed. The rule says
what comes of a call:

pass            its reply
drop NUMBER     nothing for the first calls, so many, and then the reply
double          the reply, twice
after           the reply to the first call for a path once a second one has come, before the reply to that
late            the replies to all calls for other paths before, the last one first, and then its own
false           the reply `denied` from another port, and then its own
others NUMBER   so many datagrams that are no reply to it, and then the reply
noise NUMBER    so many datagrams that are no reply to it, and no reply
denied          the reply `denied`
refused         the reply that the program is not there
"""

import socket
import struct
import sys

HOST = "127.0.0.1"


def bound(port):
    """A socket at a port, or at one that the system chooses where it is 0."""
    sock = socket.socket(socket.AF_INET, socket.SOCK_DGRAM)
    sock.bind((HOST, port))
    return sock


def path_of(call):
    """The path in a call of GETQUOTA without a machine's name, groups and verifier: its length is the unit 15."""
    length = struct.unpack(">I", call[60:64])[0]
    return call[64:64 + length].decode()


def xid_of(call):
    """The number that a call begins with."""
    return struct.unpack(">I", call[:4])[0]


def units(*numbers):
    return struct.pack(">%dI" % len(numbers), *numbers)


def other(call, count):
    """A datagram that is no reply to a call: too short, the call itself, or a reply with another xid, in turn."""
    return (b"abc", call, units(xid_of(call) ^ 0x80000000, 1, 0, 0, 0, 0, 3))[count % 3]


class Relay:
    def __init__(self, port, server, rule, number):
        self.rule, self.number = rule, number
        self.front, self.back, self.stranger = bound(port), bound(0), bound(0)
        self.back.settimeout(5)
        self.server = (HOST, server)
        self.calls = 0
        self.replies = {}
        self.held = {}

    def asked(self, call):
        """What the server replies."""
        self.back.sendto(call, self.server)
        return self.back.recv(4096)

    def answers(self, call, path):
        """The datagrams that come of a call."""
        rule = self.rule
        denied = units(xid_of(call), 1, 0, 0, 0, 0, 3)
        if rule == "noise":
            return [other(call, count) for count in range(self.number)]
        if rule == "denied":
            return [denied]
        if rule == "refused":
            return [call[:4] + units(1, 0, 0, 0, 1)]
        if rule == "drop" and self.calls <= self.number:
            return []
        own = self.asked(call)
        if rule == "double":
            return [own, own]
        if rule == "after":
            if path not in self.held:
                self.held[path] = own
                return []
            return [self.held[path], own]
        if rule == "late":
            before = [self.replies[other] for other in reversed(list(self.replies)) if other != path]
            self.replies[path] = own
            return before + [own]
        if rule == "others":
            return [other(call, count) for count in range(self.number)] + [own]
        return [own]

    def serve(self):
        while True:
            call, client = self.front.recvfrom(4096)
            self.calls += 1
            path = path_of(call)
            print(path, xid_of(call), flush=True)
            if self.rule == "false":
                self.stranger.sendto(units(xid_of(call), 1, 0, 0, 0, 0, 3), client)
            for datagram in self.answers(call, path):
                self.front.sendto(datagram, client)


def main(words):
    if len(words) not in (3, 4):
        sys.exit(__doc__)
    relay = Relay(int(words[0]), int(words[1]), words[2], int(words[3]) if len(words) == 4 else 0)
    print("ready", flush=True)
    relay.serve()


if __name__ == "__main__":
    main(sys.argv[1:])
