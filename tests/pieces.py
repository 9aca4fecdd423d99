#!/usr/bin/env python3
"""Runs a program on an input that each of its reads finds in pieces of SIZE bytes: pieces.py SIZE PROGRAM <INPUT.

pieces.py SIZE PROGRAM fails: the read behind the last piece fails, instead of finding the end. That wants a short input."""
import socket
import subprocess
import sys


def send(pieces, to):
    try:
        for piece in pieces:
            to.send(piece)
    except (BrokenPipeError, ConnectionResetError):
        pass  # the program has ended


def main():
    size, program, fails = int(sys.argv[1]), sys.argv[2], sys.argv[3:] == ["fails"]
    data = sys.stdin.buffer.read()
    pieces = [data[at : at + size] for at in range(0, len(data), size)]
    # a read takes one packet, however many are there
    ours, its = socket.socketpair(socket.AF_UNIX, socket.SOCK_SEQPACKET)
    if fails:
        # whoever does not wait is told that there is nothing more (EAGAIN)
        its.setblocking(False)
        send(pieces, ours)
        return subprocess.call([program], stdin=its)
    running = subprocess.Popen([program], stdin=its)
    its.close()
    send(pieces, ours)
    ours.close()
    return running.wait()


sys.exit(main())
