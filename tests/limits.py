#!/usr/bin/env python3
"""limits.py [--table]: the least address space (`ulimit -v`, in kilobytes) in which the program does its work.

START has what the program of commit cac554b needed, at which work on speed began. A limit is enough where the program prints
what it prints without one. A row fails where 1.05 of START's number isn't enough. The least that is enough is sought by halving,
to 2 percent. The first rows are large captures and tables, the others the commands on examples/. The last line is 'N passed, N
failed'.

Threads take their stacks as they come, so that limits near the least are enough in some runs alone: of `run` a limit has to be
enough in three runs, one after another. Moreover glibc reserves 64 MB for an arena of a thread, where that fits into the limit.
What is left may then be too little for another thread's stack: of 80 runs of a sample under limits from 100 to 260 MB, where 74
MB were always enough with one arena, a third failed. So the samples are run with one arena, and the large captures both ways.

`--table` prints START anew, for the program that MAGLEV_PROGRAM names, halved to a thousandth; there 20 runs under a limit have
to end well, of the large captures five. Part of each number are the pages of the C library, which was glibc 2.36.
"""
import dataclasses
import os
import pathlib
import struct
import subprocess
import sys
import tempfile

import harness
import model
import refused_growths as growths
from harness import TOP, check, told

# The program that bin/maglev runs, and no shell around it, which would take memory too.
CHOSEN = 'top=$0; . "$top/bin/program.sh"; echo "$program"'
LIMITED = 'ulimit -v "$0" && exec "$@"'
# How far above the start's least a limit must be enough.
BOUND = 1.05
# What START has no number of yet is sought from here.
FIRST = 10_000
# Runs under a limit where threads run.
TURNS = 3
# Records of a long capture, and flows of a wide one: from so many ports of each client.
LONG, HALF, BYTES = 4500, 2300, 60_000
FLOWS, PORTS = 600_000, 60_000

START = {
    "run, 270 MB of records": 301198,
    "run, 270 MB of records, one arena": 298911,
    "run, 138 MB of records": 170237,
    "run, 138 MB of records, one arena": 166971,
    "simulate, a table of 65,537 fills": 12724,
    "simulate, a table of 524,289 fills": 71433,
    "simulate failover": 4357,
    "simulate --list failover": 4357,
    "simulate --splits failover": 4357,
    "explain failover": 4196,
    "run failover": 70897,
    "plan failover": 4196,
    "simulate larger": 4357,
    "simulate --list larger": 4357,
    "simulate --splits larger": 4357,
    "explain larger": 4196,
    "run larger": 70897,
    "plan larger": 4196,
    "simulate idle": 4357,
    "simulate --list idle": 4357,
    "simulate --splits idle": 4357,
    "explain idle": 4196,
    "run idle": 37586,
    "plan idle": 4196,
    "simulate rolling": 4362,
    "simulate --list rolling": 4625,
    "simulate --splits rolling": 4640,
    "explain rolling": 4329,
    "run rolling": 138232,
    "plan rolling": 4196,
    "run stop": 71887,
    "scenario failover": 4196,
    "scenario idle": 4196,
    "scenario rolling": 4196,
    "scenario stop": 4196,
    "table of 65,537 slots": 5485,
    "pick of 65,537 slots": 4713,
    "compare of 65,537 slots": 5196,
}
# What must be enough for a run of 600,000 flows with room for 1,000,000, and for one whose steps take ten records of many.
ENOUGH = {"simulate, 600,000 flows and room for 1,000,000": 100_000, "run, ten of 270 MB of records": 80_000}


@dataclasses.dataclass
class Row:
    """A command and what it is given."""

    name: str
    words: list
    stdin: bytes = b""
    # How often a limit must be enough for it to stand in START.
    sure: int = 1
    # Whether glibc gives no thread an arena of its own.
    one_arena: bool = True

    def threads(self):
        return self.words[0] == "run"

    def answer(self, program, limit="unlimited"):
        """Status, standard error, and of what is printed that which no schedule of threads changes."""
        words = ["sh", "-c", LIMITED, str(limit), program, *self.words]
        environment = os.environ | ({"MALLOC_ARENA_MAX": "1"} if self.one_arena else {})
        done = subprocess.run(words, input=self.stdin, capture_output=True, env=environment, timeout=120)
        lines = done.stdout.splitlines()
        if self.threads():
            lines = [line for line in lines if not line.startswith((b"forwarded ", b"drop LostAtRestart "))]
        return done.returncode, done.stderr, lines


def datagram(length, client, port):
    """The first 40 bytes of a TCP datagram of so many bytes to 192.0.2.1:80."""
    header = struct.pack(">BBHHHBBHII", 0x45, 0, length, 1, 0, 64, 6, 0, client, 0xC0000201)
    header = header[:10] + (65535 - model.folded(header)).to_bytes(2, "big") + header[12:]
    return header + struct.pack(">HHIIBBHHH", port, 80, 1, 0, 0x50, 2, 0x2000, 0, 0)


def header():
    return struct.pack("<IHHiIII", 0xA1B2C3D4, 2, 4, 0, 0, 262_144, 101)


def write_long(path, count):
    """A capture of so many flows' records of 60,000 bytes, all but the first 40 of each zero and nowhere on the disk."""
    with open(path, "wb") as file:
        file.write(header())
        for place in range(count):
            file.write(struct.pack("<4I", 1, place, BYTES, BYTES) + datagram(BYTES, 0x0A000001, 1000 + place))
            file.seek(BYTES - 40, os.SEEK_CUR)
        file.truncate(file.tell())


def write_wide(path):
    """A capture of a packet of each of 600,000 flows."""
    with open(path, "wb") as file:
        file.write(header())
        for client in range(FLOWS // PORTS):
            packet = datagram(40, 0x0A000001 + client, 0)
            front, back = struct.pack("<4I", 1, client, 40, 40) + packet[:20], packet[22:]
            file.writelines(front + struct.pack(">H", 1000 + port) + back for port in range(PORTS))


def write_scenario(path, capacity, packets):
    """A scenario of one node of one worker, which takes so many packets; a ring has room for a long capture's."""
    keys = {"format": 1, "size": 7, "hash": '"fnv"', "scheme": '"maglev"', "spread": '"turn"', "workers": 1, "capacity": capacity}
    keys |= {"ring": LONG, "nodes": '["10.9.0.1"]', "steps": str(["install 0 1", f"take {packets}"])}
    text = "".join(f"{key} = {value}\n" for key, value in keys.items())
    members = ["A@10.8.0.1", "B@10.8.0.2", "C@10.8.0.3"]
    path.write_text(text + f'[[versions]]\nnumber = 1\nservices = [{{ vip = "192.0.2.1", proto = "tcp", port = 80, members = {members} }}]\n')


def large_rows(folder):
    """Long captures on threads, and tables that fill."""
    rows = []
    write_scenario(folder / "run.toml", 1000, LONG)
    for count in [LONG, HALF]:
        capture = folder / f"{count}.pcap"
        write_long(capture, count)
        for one_arena in [False, True]:
            name = f"run, {count * BYTES // 1_000_000} MB of records{', one arena' if one_arena else ''}"
            rows.append(Row(name, ["run", folder / "run.toml", capture, "/dev/null"], sure=5, one_arena=one_arena))
    write_scenario(folder / "ten.toml", 1000, 10)
    rows.append(Row("run, ten of 270 MB of records", ["run", folder / "ten.toml", folder / f"{LONG}.pcap", "/dev/null"]))
    write_wide(folder / "wide.pcap")
    # Some more flows than there are entries, so that the table is full and the oldest make room.
    for name, capacity in [("simulate, a table of 65,537 fills", 65_537), ("simulate, a table of 524,289 fills", 524_289), (next(iter(ENOUGH)), 1_000_000)]:
        write_scenario(folder / f"{capacity}.toml", capacity, capacity + capacity // 16)
        rows.append(Row(name, ["simulate", folder / f"{capacity}.toml", folder / "wide.pcap", "/dev/null"]))
    return rows


def small_rows():
    """Each command on what examples/ has."""
    examples = TOP / "examples"
    captures = {name: examples / f"{name}.pcap" for name in ["failover", "idle", "rolling", "stop"]}
    for name, events in [("failover", ["13", "15"]), ("larger", ["13", "15"]), ("idle", ["6", "17"]), ("rolling", ["1314", "1931"]), ("stop", None)]:
        scenario = examples / f"{name}.toml"
        files = [scenario, captures.get(name, captures["failover"])]
        if events:
            for words in [["simulate"], ["simulate", "--list"], ["simulate", "--splits"]]:
                yield Row(f"{' '.join(words)} {name}", [*words, *files, "/dev/null"])
            yield Row(f"explain {name}", ["explain", *files, *events])
            yield Row(f"plan {name}", ["plan", scenario, "1", "2"])
        yield Row(f"run {name}", ["run", *files, "/dev/null"], sure=20)
    for name, capture in captures.items():
        yield Row(f"scenario {name}", ["scenario", capture])
    web = [f"web-{number}" for number in range(1, 7)]
    yield Row("table of 65,537 slots", ["table", "--size", "65537", "--hash", "fnv", *web])
    yield Row("pick of 65,537 slots", ["pick", "--size", "65537", "--hash", "fnv", *web], growths.TCP)
    old, new = (" ".join(f"{name}@10.8.{third}.1" for name in web[first:]) for third, first in [(0, 0), (0, 1)])
    yield Row("compare of 65,537 slots", ["compare", "--size", "65537", "--hash", "fnv", "--old", old, "--new", new])


def enough(row, program, ample, turns):
    """Tells of a limit whether it is enough: whether the answer is the ample one, so often."""
    return lambda limit: all(row.answer(program, limit) == ample for _ in range(turns))


def least(holds, first, within):
    """The least limit that is enough, to a part of it. It is sought from a first one, up or down, by steps that grow."""
    low = high = first
    step = 1.04
    if holds(first):
        while high == low:
            low = int(high / step)
            if holds(low):
                high = low
            step *= step
    else:
        while high == low:
            high = int(low * step)
            if not holds(high):
                low = high
            step *= step
    while high - low > within * high:
        middle = (low + high) // 2
        if holds(middle):
            high = middle
        else:
            low = middle
    return high


def judge(row, program):
    """Prints a row, and counts it."""
    ample = row.answer(program)
    check(f"{row.name}: without a limit", ample[:2] == (0, b""), repr(ample)[:300])
    holds = enough(row, program, ample, TURNS if row.threads() else 1)
    if row.name in ENOUGH:
        limit = ENOUGH[row.name]
        is_enough = holds(limit)
        check(row.name, is_enough, f"{limit} kB aren't enough")
        print(f"{row.name}: {limit} kB are {'' if is_enough else 'not '}enough")
        return
    start = START[row.name]
    most = int(BOUND * start)
    found = least(holds, most, 0.02)
    print(f"{row.name}: start {start} kB, this program {found} kB, ratio {found / start:.2f}")
    check(row.name, found <= most, f"{found} kB, more than {BOUND} of {start} kB")


def print_least(row, program):
    """Prints a line of START."""
    holds = enough(row, program, row.answer(program), row.sure)
    print(f'    "{row.name}": {least(holds, START.get(row.name, FIRST), 0.001)},', flush=True)


def main(words):
    program = os.environ.get("MAGLEV_PROGRAM")
    if not program:
        program = subprocess.run(["sh", "-c", CHOSEN, str(TOP)], capture_output=True, text=True, check=True).stdout.strip()
    with tempfile.TemporaryDirectory() as name:
        for row in [*large_rows(pathlib.Path(name)), *small_rows()]:
            if not words:
                judge(row, program)
            elif row.name not in ENOUGH:
                print_least(row, program)
    return 0 if words else told(harness.passed, harness.failed)


if __name__ == "__main__":
    sys.exit(main(sys.argv[1:]))
