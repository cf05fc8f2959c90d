#!/usr/bin/env python3
"""Holds the bytes that `run` and `simulate` copy to a bound that is taken from their input.

The records are long and their datagrams short. A record's bytes may be copied out of the reader's buffer and into where they
are kept; each packet may copy little more than its datagram. Valgrind counts the bytes of all copies: it is no test of time.
Where it isn't installed the tests are skipped with a word. The last line is 'N passed, N failed'.
"""
import os
import pathlib
import re
import shutil
import struct
import subprocess
import sys
import tempfile

import model
from harness import TOP, check, run_tests

# What a packet may copy beside its datagram in a tunnel, and what a command may copy over a capture without records: most of it
# while the command line's options are made.
A_PACKET = 1_000
NO_PACKETS = 600_000
SCENARIO = """format = 1
size = 7
hash = "fnv"
scheme = "maglev"
spread = "turn"
workers = 1
capacity = 1000
nodes = ["10.9.0.1", "10.9.0.2"]
steps = [{steps}]
[[versions]]
number = 1
services = [{{ vip = "192.0.2.1", proto = "tcp", port = 80, members = ["A@10.8.0.1"] }}]
"""


def program():
    """The program that bin/maglev runs, and not the script: valgrind looks at one process."""
    if "MAGLEV_PROGRAM" in os.environ:
        return os.environ["MAGLEV_PROGRAM"]
    words = f'top="{TOP}"; . "$top/bin/program.sh"; echo "$program"'
    return subprocess.run(["sh", "-c", words], stdout=subprocess.PIPE, text=True, check=True).stdout.strip()


def datagram(number):
    """A TCP datagram of 40 bytes to the service, from an address of its own."""
    header = bytearray(struct.pack(">BBHHHBBHII", 0x45, 0, 40, 1, 0, 64, 6, 0, 0x0A000001 + number, 0xC0000201))
    header[10:12] = struct.pack(">H", 0xFFFF - model.folded(bytes(header)))
    return bytes(header) + struct.pack(">HHIIBBHHH", 1000, 80, 1, 0, 0x50, 2, 0x2000, 0, 0)


def copied(folder, command):
    """How many bytes a command copies over the folder's scenario and capture, and what it reports."""
    watch = ["valgrind", "--tool=dhat", "--mode=copy", f"--dhat-out-file={folder / 'copies'}", program()]
    words = [command, folder / "s.toml", folder / "in.pcap", folder / "out.pcap"]
    done = subprocess.run([*watch, *words], capture_output=True, text=True, timeout=600, check=False)
    total = re.search(r"Total: +([\d,]+) bytes", done.stderr)
    return int(total[1].replace(",", "")) if total else None, done.stdout


def held_to_bound(count, length, again):
    """Some records of a length are taken, and then come again some times, by both commands."""
    steps = ["install 0 1", "install 1 1", f"take {count}"] + [f"again {k % count}" for k in range(again)]
    records = [(1, k, datagram(k).ljust(length, b"\0")) for k in range(count)]
    bound = 2 * count * length + (count + again) * (64 + A_PACKET)
    for command in ("run", "simulate"):
        with tempfile.TemporaryDirectory() as made:
            folder = pathlib.Path(made)
            (folder / "s.toml").write_text(SCENARIO.format(steps=", ".join(f'"{step}"' for step in steps)))
            (folder / "in.pcap").write_bytes(model.written([]))
            before, _ = copied(folder, command)
            (folder / "in.pcap").write_bytes(model.written(records))
            moved, report = copied(folder, command)
            name = f"{command}, {count} records of {length} bytes, {again} again"
            check(f"{name}: forwarded", f"\nforwarded {count + again}\n" in report, report)
            holds = None not in (moved, before) and moved - before <= bound
            check(f"{name}: copied", holds, f"{moved} bytes, {before} without records, and at most {bound} more are wanted")
            if again == 0:
                check(f"{name}: copied without records", before is not None and before <= NO_PACKETS, f"{before} bytes")


def test_bytes_moved():
    """Records of three lengths, once and again: the longest that a capture has, and ones that share a block."""
    if not shutil.which("valgrind"):
        print("valgrind isn't installed: what is copied isn't counted")
        return
    for count, length in ((20, 262_144), (60, 65_535), (500, 9_000)):
        held_to_bound(count, length, 0)
        held_to_bound(count, length, 300)


if __name__ == "__main__":
    sys.exit(run_tests(globals()))
