#!/usr/bin/env python3
"""asked.py [TURNS]: times what `simulate` tells beside its report, beside the report alone: 1,000,000 packets of 100,000 flows
(many_clients.py), on one node and on four of two workers each, nine turns. All write into nothing. It prints the medians in
seconds, and each one's over that of the report alone. Run it on a machine that does nothing else.
"""
import os
import pathlib
import statistics
import subprocess
import sys
import tempfile
import time

from pairs import scenario

HERE = pathlib.Path(__file__).resolve().parent
PROGRAM = os.environ.get("MAGLEV_PROGRAM", str(HERE.parent / "bin" / "maglev"))
ASKED = [[], ["--splits"], ["--where"], ["--summary"], ["--syn", "--summary"], ["--list"], ["--json", "--list"]]


def text(nodes, workers):
    """A scenario of so many balancers of so many workers, and one version of 100 servers."""
    members = [f"s{number:03}@10.1.0.{number + 1}" for number in range(100)]
    return scenario(["install * 1", "take *"], [members], nodes=nodes, workers=workers, format=3)


def timed(folder, words):
    """The seconds of one run."""
    start = time.monotonic()
    subprocess.run([PROGRAM, "simulate", *words, "s.toml", "in.pcap", os.devnull], cwd=folder, stdout=subprocess.DEVNULL, check=True)
    return time.monotonic() - start


def medians(folder, turns):
    """The median for each of what is asked. They take turns."""
    seconds = [[timed(folder, words) for words in ASKED] for _ in range(turns)]
    return [statistics.median(took) for took in zip(*seconds)]


def main():
    turns = int(sys.argv[1]) if len(sys.argv) > 1 else 9
    with tempfile.TemporaryDirectory() as made:
        folder = pathlib.Path(made)
        subprocess.run([sys.executable, HERE / "many_clients.py", folder / "in.pcap", "1000000", "100000"], check=True)
        for nodes, workers in (1, 1), (4, 2):
            (folder / "s.toml").write_text(text(nodes, workers))
            took = medians(folder, turns)
            for words, one in zip(ASKED, took):
                print(f"{nodes} nodes of {workers}, {' '.join(words) or 'the report alone'}: {one:.3f} s, {one / took[0]:.2f}", flush=True)


if __name__ == "__main__":
    main()
