#!/usr/bin/env python3
"""old-book.py FILE: writes a sound book of edition 1, which the tool no longer makes, without the library: the image word by word
from the specification's layout, in the file that docs/DRIVER.md describes. It has room for 4 reels and 16 nodes, and frames that
differ in the upper four bytes alone, which edition 1 leaves out of a fingerprint.

Prints what it holds: a line "REEL" for each reel, and a line "REEL FRAME" for each of its frames."""
import struct
import sys

SLOTS, NODES, NODE_WORDS, PAGE_WORDS = 4, 16, 80, 512
JUNK = 0x5A5A5A5A5A5A5A5A  # in words that are not read
HIGH = 1 << 32
LAST = (1 << 64) - 1

# Reel 1 has a full root, node 0, with two children: the frames in node 1 are even, those in node 2 odd. Reel 2 has node 3.
ROOT = list(range(32)) + [HIGH * (i + 1) + i for i in range(32)]
EVEN, ODD = [64, HIGH + 64, LAST - 1], [65, HIGH + 65, LAST]
SECOND = [0, 12, HIGH, 3 * HIGH + 7]


def fingerprint(frame):
    """Of edition 1: the four low bytes, lowest first."""
    h = 0
    for byte in frame.to_bytes(8, "little")[:4]:
        h = (167 * (h ^ byte) + 13) % 256
    return h


def node(level, size, frames, first_child=None):
    """A node's words, its frames in the lowest places."""
    held = (1 << len(frames)) - 1
    following = 0 if first_child is None else first_child + 1
    prints = bytes(map(fingerprint, frames)).ljust(64, b"\x5a")
    words = [following, held, held, level, size] + [JUNK] * 3 + list(struct.unpack("<8Q", prints)) + frames
    return words + [JUNK] * (NODE_WORDS - len(words))


def image():
    header = [1, SLOTS, NODES] + [0] * 61
    slots = [1, 0 + 1] + [JUNK, 0] + [2, 3 + 1] + [JUNK, 0]  # a reel and its root plus 1; two slots are empty
    nodes = node(0, 64, ROOT, 1) + node(1, 64, EVEN) + node(1, 64, ODD) + node(0, 16, SECOND)
    return header + slots + nodes + [JUNK] * (NODE_WORDS * NODES - len(nodes))


def pages(words):
    """Filled up with zeros to whole pages."""
    return words + [0] * (-len(words) % PAGE_WORDS)


def main():
    driver = [int.from_bytes(b"reelbook", "little"), 1, SLOTS, NODES, 1]  # version 1, closed cleanly
    pool_map = [0b1111]
    words = pages(driver) + pages(image()) + pages(pool_map)
    with open(sys.argv[1], "wb") as file:
        file.write(struct.pack(f"<{len(words)}Q", *words))
    for reel, frames in ((1, ROOT + EVEN + ODD), (2, SECOND)):
        print(reel)
        for frame in frames:
            print(reel, frame)


main()
