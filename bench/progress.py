#!/usr/bin/env python3
"""progress.py [PACKETS]: what `--progress` costs `simulate`, in instructions that valgrind's callgrind counts: 100,000 packets of
10,000 flows (many_clients.py), on four nodes of two workers. Standard error is a file. It prints both counts, and how many of 100
the flag takes more. Other work doesn't change them.
"""
import os
import pathlib
import re
import subprocess
import sys
import tempfile

from asked import HERE, text

# The program itself: bin/maglev is a script.
PROGRAM = os.environ.get("MAGLEV_PROGRAM", str(HERE.parent / "dist" / "maglev"))


def counted(folder, words):
    """The instructions of one run."""
    tool = ["valgrind", "--tool=callgrind", "--callgrind-out-file=/dev/null", f"--log-file={folder}/counts"]
    command = [*tool, PROGRAM, "simulate", *words, "s.toml", "in.pcap", os.devnull]
    with open(folder / "said", "wb") as said:
        subprocess.run(command, cwd=folder, stdout=subprocess.DEVNULL, stderr=said, check=True)
    return int(re.search(r"Collected : (\d+)", (folder / "counts").read_text())[1])


def main():
    packets = sys.argv[1] if len(sys.argv) > 1 else "100000"
    with tempfile.TemporaryDirectory() as made:
        folder = pathlib.Path(made)
        (folder / "s.toml").write_text(text(4, 2))
        subprocess.run([sys.executable, HERE / "many_clients.py", folder / "in.pcap", packets, str(int(packets) // 10)], check=True)
        without, shown = counted(folder, []), counted(folder, ["--progress"])
    print(f"{packets} packets: {without} instructions, with --progress {shown}, {100 * (shown - without) / without:.2f} of 100 more")


if __name__ == "__main__":
    main()
