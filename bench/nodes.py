#!/usr/bin/env python3
"""nodes.py [PACKETS [TURNS]]: times four processes, each of which plays one balancer's part of a run, beside one process that plays
all four: 10,000,000 packets of 100,000 clients (many_clients.py), 100 servers, seven turns each. In a first capture all clients are
as likely, so that each balancer gets a quarter of the packets; in a second one client sends a quarter of them, and its balancer 39
of 100. It compares what they sent, and prints the medians in seconds and the parts' over the whole's for each capture. Run it on
four processors that do nothing else.
"""
import pathlib
import statistics
import subprocess
import sys
import tempfile
import time

from asked import HERE, PROGRAM, text
from many_clients import client

NODES = range(4)


def timed(commands):
    """The seconds until all of these commands ended, side by side."""
    start = time.monotonic()
    running = [subprocess.Popen(command, stdout=subprocess.DEVNULL) for command in commands]
    if any([one.wait() for one in running]):
        sys.exit("a run failed")
    return time.monotonic() - start


def records(folder, name):
    """How many bytes of records a capture has."""
    return (folder / name).stat().st_size - 24


def compared(folder, turns):
    """The medians of the seconds that one process takes, and four beside each other."""
    play = [PROGRAM, "simulate", folder / "s.toml", folder / "in.pcap"]
    one = [[*play, folder / "whole.pcap"]]
    four = [[*play, "--node", str(node), folder / f"part-{node}.pcap"] for node in NODES]
    seconds = [(timed(one), timed(four)) for _ in range(turns)]
    if records(folder, "whole.pcap") != sum(records(folder, f"part-{node}.pcap") for node in NODES):
        sys.exit("the parts don't send what the whole sends")
    return [statistics.median(took) for took in zip(*seconds)]


def main():
    packets, turns = (sys.argv[1:] + ["10000000", "7"][len(sys.argv) - 1 :])[:2]
    with tempfile.TemporaryDirectory() as made:
        folder = pathlib.Path(made)
        (folder / "s.toml").write_text(text(len(NODES), 1))
        clients = folder / "clients"
        clients.write_text("".join(f"{address} {port}\n" for address, port in map(client, range(100_000))))
        for name, options in ("all clients as likely", [clients]), ("one client sends a quarter", []):
            subprocess.run([sys.executable, HERE / "many_clients.py", folder / "in.pcap", packets, "100000", *options], check=True)
            whole, parts = compared(folder, int(turns))
            print(f"{name}: whole {whole:.2f} s, four parts {parts:.2f} s, {parts / whole:.2f}")


if __name__ == "__main__":
    main()
