#!/usr/bin/env python3
"""memory.py [PACKETS ..]: the most memory that `simulate` takes with what it tells beside its report: 1,000,000 packets and
10,000,000, each of 100,000 flows (many_clients.py), on four nodes of two workers. What keeps nothing for each packet takes as much
of both. It prints megabytes, a line for each of what is asked. Other work doesn't change them.
"""
import os
import pathlib
import re
import subprocess
import sys
import tempfile
import time

from asked import HERE, PROGRAM, text

ASKED = [[], ["--list"], ["--json"], ["--json", "--list"], ["--splits"], ["--where"], ["--summary"], ["--per-backend"], ["--per-node"]]


def peak(folder, words):
    """The megabytes that one run takes at most. The system knows them while it runs, and what it says last is nearly all."""
    command, most = [PROGRAM, "simulate", *words, "s.toml", "in.pcap", os.devnull], 0
    with subprocess.Popen(command, cwd=folder, stdout=subprocess.DEVNULL) as running:
        while running.poll() is None:
            found = re.search(r"VmHWM:\s+(\d+)", pathlib.Path(f"/proc/{running.pid}/status").read_text())
            most = max(most, int(found[1]) if found else 0)
            time.sleep(0.001)
    if running.returncode:
        sys.exit("a run failed")
    return most / 1000


def main():
    with tempfile.TemporaryDirectory() as made:
        folder = pathlib.Path(made)
        (folder / "s.toml").write_text(text(4, 2))
        for packets in sys.argv[1:] or ["1000000", "10000000"]:
            subprocess.run([sys.executable, HERE / "many_clients.py", folder / "in.pcap", packets, "100000"], check=True)
            for words in ASKED:
                print(f"{packets} packets, {' '.join(words) or 'the report alone'}: {peak(folder, words):.1f} MB", flush=True)


if __name__ == "__main__":
    main()
