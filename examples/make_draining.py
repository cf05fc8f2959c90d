#!/usr/bin/env python3
"""Writes the capture of the draining servers: make_draining.py OUT.

Ten packets a second to 192.0.2.1, port 80, for 300 seconds, of 120 connections at a time. A connection has a packet every
12 seconds. One place in ten is held by one client to the end. In the others client follows client, with three to five packets
each, so that none of these connections lasts longer than 48 seconds.
"""
import pathlib
import sys

sys.path.insert(0, str(pathlib.Path(__file__).resolve().parent))
from make_capture import START, frame, write

PLACES = 120
TURNS = 25


def clients(place):
    """The number of the client that sends in each turn of a place."""
    number = 0
    while True:
        for _ in range(TURNS if place % 10 == 0 else 3 + (place + number) % 3):
            yield number
        number += 1


def client(place, number):
    """The address and the port of a client."""
    return f"198.51.{100 + number}.{1 + place * 11 % 250}", 32768 + (place * 97 + number * 389) % 28000


def frames():
    # A connection is one packet old, or two, when the capture begins.
    senders = [clients(place) for place in range(PLACES)]
    for place, sender in enumerate(senders):
        for _ in range(0 if place % 10 == 0 else place % 3):
            next(sender)
    for sent in range(PLACES * TURNS):
        place = sent % PLACES
        yield START + sent * 100_000, frame(client(place, next(senders[place])), 80, sent)


if __name__ == "__main__":
    write(sys.argv[1], frames())
