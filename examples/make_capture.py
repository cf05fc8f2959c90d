#!/usr/bin/env python3
"""Writes the capture of the example: make_capture.py OUT.

Ten Ethernet frames of three clients, a tenth of a second apart. Each line of FRAMES is a client's address and port, and the
port of 192.0.2.1 that it talks to; the n-th frame goes to the balancers by turn. The captures of the other examples are made
and written by `frame` and `write` too.
"""
import struct
import sys

SERVICE = bytes([192, 0, 2, 1])
ANN = "203.0.113.5", 40020
BOB = "203.0.113.77", 51002
EVE = "198.51.100.9", 33000
FRAMES = [
    (ANN, 80),  # 0 to balancer 0
    (BOB, 80),  # 1 to balancer 1
    (BOB, 80),  # 2 to balancer 0
    (EVE, 80),  # 3 to balancer 1
    (ANN, 80),  # 4 to balancer 0, behind the change
    (ANN, 80),  # 5 to balancer 1
    (BOB, 80),  # 6 to balancer 0
    (BOB, 80),  # 7 to balancer 1
    (EVE, 443),  # 8: nobody serves this port
    (ANN, 80),  # 9 to balancer 1, the only one left
]


def checksum(head):
    """The checksum of a header of an even number of bytes."""
    total = sum(struct.unpack(f">{len(head) // 2}H", head))
    while total > 0xFFFF:
        total = (total & 0xFFFF) + (total >> 16)
    return 0xFFFF - total


def frame(client, port, number):
    """An Ethernet frame of a TCP segment with no data."""
    address, source = client
    head = struct.pack(">BBHHHBBH", 0x45, 0, 40, number, 0x4000, 60, 6, 0) + bytes(map(int, address.split("."))) + SERVICE
    head = head[:10] + checksum(head).to_bytes(2, "big") + head[12:]
    segment = struct.pack(">HHIIBBHHH", source, port, 1000 + number, 0, 0x50, 0x10, 64240, 0, 0)
    return bytes.fromhex("020000000009 020000000001 0800") + head + segment


def write(path, frames):
    """Writes a capture of Ethernet frames, each with its time in microseconds."""
    with open(path, "wb") as out:
        out.write(struct.pack("<IHHIIII", 0xA1B2C3D4, 2, 4, 0, 0, 65535, 1))
        for at, data in frames:
            out.write(struct.pack("<4I", *divmod(at, 1_000_000), len(data), len(data)) + data)


# When the captures begin, in microseconds.
START = 1_700_000_000_000_000


def frames():
    for number, (client, port) in enumerate(FRAMES):
        yield START + number * 100_000, frame(client, port, number)


if __name__ == "__main__":
    write(sys.argv[1], frames())
