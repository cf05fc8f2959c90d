#!/usr/bin/env python3
"""Writes the capture of a stop in full traffic: make_stop.py OUT.

2,000 packets of 100 clients to 192.0.2.1, port 80, one each microsecond: 1,000 before the stop and 1,000 behind it, ten of
each client.
"""
import pathlib
import sys

sys.path.insert(0, str(pathlib.Path(__file__).resolve().parent))
from make_capture import START, frame, write

CLIENTS = 100
FRAMES = 2000


def client(number):
    """The address and the port of a client."""
    return f"203.0.113.{1 + number}", 40000 + number * 89 % 20000


def frames():
    for place in range(FRAMES):
        # Seven is prime to the number of clients, so that each comes once in a hundred.
        yield START + place, frame(client(place * 7 % CLIENTS), 80, place)


if __name__ == "__main__":
    write(sys.argv[1], frames())
