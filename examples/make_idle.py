#!/usr/bin/env python3
"""Writes the capture of the idle connections: make_idle.py OUT.

Eleven packets of four clients to 192.0.2.1, port 80. Each line of FRAMES is a second and the client whose packet comes then.
"""
import pathlib
import sys

sys.path.insert(0, str(pathlib.Path(__file__).resolve().parent))
from make_capture import START, frame, write

ANN = "203.0.113.5", 40024
BOB = "203.0.113.77", 51012
EVE = "198.51.100.9", 33006
DAN = "198.51.100.23", 50111
FRAMES = [
    (0, ANN),
    (1, BOB),
    (2, EVE),
    (3, DAN),
    (240, ANN),  # 4: the first behind the change
    (301, BOB),  # 5: five minutes later
    (480, ANN),
    (602, EVE),  # 7: ten minutes later
    (603, DAN),  # 8: ten minutes later
    (700, ANN),
    (701, EVE),
]


def frames():
    for number, (second, client) in enumerate(FRAMES):
        yield START + second * 1_000_000, frame(client, 80, number)


if __name__ == "__main__":
    write(sys.argv[1], frames())
