#!/usr/bin/env python3
"""stops.py [STOPS [TURNS]]: times `run` of one balancer whose life ends with a stop so many times (45,000), three turns: with one
worker and with sixteen, without packets, with one packet a life, and with four. It prints the least seconds, and sixteen workers'
over one worker's. Run it on a machine that does nothing else.
"""
import os
import pathlib
import subprocess
import sys
import tempfile

from asked import HERE, PROGRAM
from nodes import timed
from pairs import scenario

WORKERS = 1, 16


def text(workers, stops, packets):
    """A scenario of so many lives, each of so many packets."""
    life = [f"take {packets}", "stop 0"] if packets else ["stop 0"]
    return scenario(["install 0 1", *life * stops], [["a@10.1.0.1", "b@10.1.0.2"]], workers=workers)


def main():
    stops, turns = map(int, (sys.argv[1:] + ["45000", "3"][len(sys.argv) - 1 :])[:2])
    with tempfile.TemporaryDirectory() as made:
        folder = pathlib.Path(made)
        subprocess.run([sys.executable, HERE / "many_clients.py", folder / "in.pcap", str(4 * stops), "1000"], check=True)
        for packets in 0, 1, 4:
            for workers in WORKERS:
                (folder / f"{workers}.toml").write_text(text(workers, stops, packets))
            runs = [[PROGRAM, "run", folder / f"{workers}.toml", folder / "in.pcap", os.devnull] for workers in WORKERS]
            one, sixteen = (min(took) for took in zip(*([timed([run]) for run in runs] for _ in range(turns))))
            print(f"{stops} stops, {packets} packets a life: 1 worker {one:.2f} s, 16 workers {sixteen:.2f} s, {sixteen / one:.2f}", flush=True)


if __name__ == "__main__":
    main()
