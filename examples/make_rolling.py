#!/usr/bin/env python3
"""Writes the capture of the rolling change: make_rolling.py OUT.

240 connections of clients to 192.0.2.1, port 80, in five rounds of one packet each: before the change, after each of its three
parts, and behind it. In each round the clients come in an order of their own, as they do.
"""
import pathlib
import sys

sys.path.insert(0, str(pathlib.Path(__file__).resolve().parent))
from make_capture import START, frame, write

CLIENTS = 240
ROUNDS = 5


def client(number):
    """The address and the port of a client."""
    return f"198.51.{100 + number % 4}.{1 + number * 7 % 250}", 32768 + number * 97 % 28000


def frames():
    for turn in range(ROUNDS):
        for place in range(CLIENTS):
            # Steps prime to the number of clients, so that each comes once a round.
            number = place * (1, 7, 11, 13, 17)[turn] % CLIENTS
            yield START + turn * 1_000_000 + place * 4000, frame(client(number), 80, turn * CLIENTS + place)


if __name__ == "__main__":
    write(sys.argv[1], frames())
