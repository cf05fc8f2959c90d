#!/usr/bin/env python3
"""many_clients.py OUT PACKETS FLOWS [CLIENTS]: writes a capture of TCP packets of so many clients to 192.0.2.1:80, in a
random order that is the same each time: seven of ten packets are of few clients, by a law like Zipf's, and three are of any.
The packets are those of examples/make_capture.py. The file CLIENTS has the clients, an address and a port a line, in place of
those that are made up; then all are as likely.
"""
import pathlib
import random
import sys

sys.path.insert(0, str(pathlib.Path(__file__).resolve().parent.parent / "examples"))
from make_capture import frame, write  # noqa: E402


def client(number):
    """The address and port of a client."""
    at = number // 50_000 + 1
    return f"10.0.{at // 256}.{at % 256}", 1024 + number % 50_000


def clients_of(path):
    """The clients of a file."""
    lines = [line.split() for line in pathlib.Path(path).read_text().splitlines()]
    return [(address, int(port)) for address, port in lines]


def pick(dice, flows, alike):
    """The place of the client of a packet."""
    if alike or dice.random() < 0.3:
        return dice.randrange(flows)
    return min(int(dice.paretovariate(0.6)) - 1, flows - 1)


def main():
    packets, flows, alike = int(sys.argv[2]), int(sys.argv[3]), len(sys.argv) > 4
    clients = clients_of(sys.argv[4]) if alike else map(client, range(flows))
    frames = [frame(one, 80, 0) for one in clients]
    dice = random.Random(1)
    write(sys.argv[1], ((1_000_000_000 + at, frames[pick(dice, flows, alike)]) for at in range(packets)))


if __name__ == "__main__":
    main()
