#!/usr/bin/env python3
"""Runs a program with a terminal as its standard error.

terminal.py WORD..           runs these words with the other streams of the caller, copies what the terminal gets to its own
                             standard error, and ends with their status
terminal.py --typed TEXT WORD..  the same with the terminal as the standard input, too, at which this text is typed and then
                             Ctrl-D
terminal.py --knock WORD..   as without it, and a datagram of one byte goes to the first UDP port that the terminal is told of
"""

import os
import pty
import re
import socket
import subprocess
import sys
import termios


def knock(said):
    """Sends a datagram to the port of which a text tells, and answers whether it tells of one."""
    told = re.search(rb"UDP port (\d+)\r?\n", said)
    if told:
        with socket.socket(socket.AF_INET, socket.SOCK_DGRAM) as sock:
            sock.sendto(b"x", ("127.0.0.1", int(told[1])))
    return told is not None


def gotten(terminal, knocks):
    """All that a terminal gets until nobody has its other end. Its lines end in one byte."""
    pieces = []
    while True:
        try:
            piece = os.read(terminal, 4096)
        except OSError:
            piece = b""
        if not piece:
            return b"".join(pieces).replace(b"\r\n", b"\n")
        pieces.append(piece)
        if knocks:
            knocks = not knock(b"".join(pieces))


def silent(other_end):
    """Has a terminal not show what is typed at it."""
    modes = termios.tcgetattr(other_end)
    modes[3] &= ~termios.ECHO
    termios.tcsetattr(other_end, termios.TCSANOW, modes)


def main(words):
    typed, knocks = None, False
    if words[0] == "--typed":
        typed, words = words[1], words[2:]
    elif words[0] == "--knock":
        knocks, words = True, words[1:]
    terminal, other_end = pty.openpty()
    if typed is None:
        program = subprocess.Popen(words, stderr=other_end)
    else:
        silent(other_end)
        program = subprocess.Popen(words, stdin=other_end, stderr=other_end)
        os.write(terminal, typed.encode() + b"\x04")
    os.close(other_end)
    said = gotten(terminal, knocks)
    status = program.wait()
    os.write(2, said)
    return status


if __name__ == "__main__":
    sys.exit(main(sys.argv[1:]))
