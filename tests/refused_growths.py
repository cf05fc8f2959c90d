#!/usr/bin/env python3
"""Refuses each growth of memory of a command in turn, and compares what the program then says.

A run either never needed what was refused and prints its whole text, or it prints `fault: Memory` and nothing else, with
status 1. Warnings of `-v`, and what it says of a fault, may be left out. Each allocation is refused alone, and once more with all that come behind it, from the
first of the program to the last. `refuse.c` does it, which the kit's compiler makes into a library that is loaded in front of the
program.

The last line is 'N passed, N failed', which counts runs.
"""
import dataclasses
import os
import pathlib
import re
import subprocess
import sys
import tempfile
import tty

import soak_run
import model
import objects
from harness import TOP, all_shown, told

sys.path.append(str(TOP / "bin"))
import build

PROGRAM = str(TOP / "crates" / "maglev" / "out" / "maglev")
MOST_GROWTHS = 100_000
# What a run says that was refused memory.
FAULTS = [(1, b"", b"fault: Memory\n")]

THREE = "A@10.8.0.1 B@10.8.0.2 C@10.8.0.3"
TABLE = "size 7 backends 3\n0 B\n1 A\n2 B\n3 C\n4 C\n5 A\n6 A\ncount A 3\ncount B 2\ncount C 2\n"
MOVED = "size 7 old 3 new 2 differ 3\n0 B@10.8.0.2 A@10.8.0.1\n2 B@10.8.0.2 A@10.8.0.1\n5 A@10.8.0.1 C@10.8.0.3\n"
PICKED = "tcp 10.0.0.1:1000>192.0.2.1:80 slot 6 backend A\n"
TCP = b"45000028000100004006aecd0a000001c000020103e8005000000001000000005002200000000000"

SCENARIO = b"""format = 1
size = 7
hash = "sum"
scheme = "maglev"
spread = "turn"
workers = 1
capacity = 2
nodes = ["10.9.0.1", "10.9.0.2"]
steps = ["install 0 1", "take 1"]
[[versions]]
number = 1
services = [{ vip = "192.0.2.1", proto = "tcp", port = 80, members = ["A@10.8.0.1", "B@10.8.0.2", "C@10.8.0.3"] }]
"""
# One record of the datagram, big-endian and in nanoseconds, and what is sent for it.
CAPTURE = bytes.fromhex("a1b23c4d0002000400000000000000000000ffff00000065000000013b9ac9ff0000002800000028" + TCP.decode())
SENT = bytes.fromhex(
    "d4c3b2a1020004000000000000000000ffff000065000000010000003f420f004000000040000000"
    "4500004000004000402f267d0a0900010a08000100000800" + TCP.decode()
)
EVENTS = "0 install 0 1: installed\n1 arrive 0 0: placed 0\n2 serve 0 0 1: forward A@10.8.0.1 from 1\n"
REPORT = "packets 1\nlost 0\nunrouted 0\nskipped 0\nleft 0\ncut no\nreceived 1\nforwarded 1\nwaiting 0\nrefused 0\n"
AUDITED = REPORT + "audit agrees\n"
FILES = {"s.toml": SCENARIO, "in.pcap": CAPTURE}
# Two packets of one flow at two nodes, of which the second has a version in which A is down.
APART = SCENARIO.replace(b'"take 1"', b'"install 1 2", "take 2"') + SCENARIO[SCENARIO.index(b"[[") :].replace(b"number = 1", b"number = 2").replace(b'0.1"', b'0.1/down"')
SPLIT = {"s.toml": APART, "in.pcap": CAPTURE + CAPTURE[24:]}
FLOW = "split tcp 10.0.0.1:1000>192.0.2.1:80 events {} slot 6 version 1 A@10.8.0.1 version 2 B@10.8.0.2 down\nflows 1\nsplit 1\ndown 1\nmoved 0\n"
TWO = REPORT.replace(" 1\n", " 2\n")
LOST = (1, b"", b"fault: ThreadLost\n")
# The same in format 3, of one node: servers, a version by difference, and a step by time, which ends before the second packet.
THREES = SCENARIO.replace(b"format = 1", b"format = 3").replace(b'"install 0 1", "take 1"', b'"live 0", "install * 1", "until 1", "install * 2", "take *"')
THREES = re.sub(rb"([ABC])@10.8.0.\d", rb"\1", THREES).replace(b"[[", b'[servers]\nA = "10.8.0.1"\nB = "10.8.0.2"\nC = "10.8.0.3"\n[[', 1)
THREES += b'[[versions]]\nnumber = 2\nbase = 1\ndown = ["A"]\n'
LATER = {"s.toml": THREES, "in.pcap": CAPTURE + CAPTURE[24:27] + b"\x03" + CAPTURE[28:]}
# What changes between these versions: B A B C C A A is the table of all three, B B B C C C B that of B and C.
SHOWN = "service 192.0.2.1:80/tcp\nslots 7\nA@10.8.0.1 weight 1 slots 3\nB@10.8.0.2 weight 1 slots 2\nC@10.8.0.3 weight 1 slots 2\n"
CHANGED = "service 192.0.2.1:80/tcp\nslots 7 changed 3 down 3 moved 0 least 3\n"
CHANGED += "A@10.8.0.1 weight 1 before 3 after 0 down\nB@10.8.0.2 weight 1 before 2 after 4\nC@10.8.0.3 weight 1 before 2 after 3\n"
# The record, of which a snap length cut four bytes.
SNAPPED = {"s.toml": SCENARIO, "in.pcap": CAPTURE[:32] + bytes([0, 0, 0, 36]) + CAPTURE[36:-4]}
PADDED = model.Run(SCENARIO.decode(), model.padded(SNAPPED["in.pcap"]))
# A service of six packets.
SKETCHED, _ = model.sketched(CAPTURE + 5 * CAPTURE[24:])
# Two nodes of a worker each, and a packet of one flow at each: what the second sends bears its own address.
NODES = {"s.toml": SCENARIO.replace(b"workers = 1", b"workers = 1\nring = 16").replace(b'"take 1"', b'"install 1 1", "take 2"'), "in.pcap": CAPTURE + CAPTURE[24:]}
SENT_BY_TWO = SENT + SENT[24:].replace(bytes.fromhex("267d0a090001"), bytes.fromhex("267c0a090002"))
# Two nodes of two workers each, of which one restarts.
RESTARTING, EIGHT = soak_run.restarting("restart")
RESTARTED = AUDITED.replace(" 1\n", " 8\n").replace("lost 0", "lost 1")
CLUSTER = {"s.toml": RESTARTING.encode(), "in.pcap": EIGHT}


# Ten packets of one flow for two nodes of two workers, whose rings have a place each.
FULL = {"s.toml": SCENARIO.replace(b"workers = 1", b"workers = 2\nring = 1").replace(b'"take 1"', b'"install 1 1", "take 10"'), "in.pcap": CAPTURE[:24] + 10 * CAPTURE[24:]}


def all_came(text):
    """Whether each of the ten packets was forwarded, or dropped since rings were full."""
    counts = dict(line.rsplit(" ", 1) for line in text.splitlines())
    sums = int(counts["forwarded"]) + int(counts.get("drop RingsFull", 0))
    return (counts["packets"], counts["received"], sums, counts["waiting"], counts["audit"]) == ("10", "10", 10, "0", "agrees")


# What the model says of two packets of one flow at two nodes, simulated and on threads.
TOLD = model.Run(APART.decode(), SPLIT["in.pcap"])
PLACES, SUMMARY, RUN_PLACES, SHARES = TOLD.splits(True), TOLD.summary(), TOLD.on_threads().splits(True), TOLD.taken() + TOLD.taken(True)
# 2,000 packets of it, so that some wait while others are looked up.
TURNS = {"s.toml": APART.replace(b'"take 2"', b'"take 2000"'), "in.pcap": CAPTURE + 1_999 * CAPTURE[24:]}
BY_TURNS = model.Run(TURNS["s.toml"].decode(), TURNS["in.pcap"])
# The same flow, which ends and begins again: its segments have FIN, SYN and ACK, in turns.
FLAGGED = [CAPTURE[24:73] + bytes([flags]) + CAPTURE[74:] for flags in [1, 2, 16, 1, 2, 16]]
BEGUN = {"s.toml": APART.replace(b"take 2", b"take 6"), "in.pcap": CAPTURE[:24] + b"".join(FLAGGED)}
AGAIN = model.Run(BEGUN["s.toml"].decode(), BEGUN["in.pcap"]).begun_again()
AGAIN_ON_THREADS = AGAIN.on_threads()
# One node's part of it.
PART = TOLD.part_of(1)
# The same as objects, and its fault.
ASKED = ["--list", "--where", "--per-backend", "--per-node", "--summary"]
IN_OBJECTS = [(1, b"", b'{"type":"fault","fault":"Memory","detail":null}\n')]
# A lost thread, of which nothing more is said where memory for that is refused too.
WHY_LOST = b'"a thread couldn\'t be started: allow more threads, or take fewer balancers and workers"'
LOST_OBJECTS = [(1, b"", b'{"type":"fault","fault":"ThreadLost","detail":%b}\n' % detail) for detail in [WHY_LOST, b"null"]]
DOWN = model.compared(APART.decode(), 1, 2, "192.0.2.1:80/tcp")
# Two servers of three are replaced, in two orders.
REPLACED = SCENARIO + SCENARIO[SCENARIO.index(b"[[") :].replace(b"number = 1", b"number = 2").replace(b'"A@10.8.0.1", "B@10.8.0.2"', b'"D@10.8.0.4"')
ORDERS = model.ordered(REPLACED.decode(), 1, 2)
# Node 1 gets a version in which its server is down in the midst of a connection, which then ends and begins again.
WITHIN = APART.replace(b'"install 1 2", "take 2"', b'"install 1 1", "take 2", "install 1 2", "take 6"')
SOON = {"s.toml": WITHIN, "in.pcap": CAPTURE[:24] + b"".join(CAPTURE[24:73] + bytes([flags]) + CAPTURE[74:] for flags in [16, 16, 16, 16, 16, 1, 16, 2])}
SOON_PART = model.Run(WITHIN.decode(), SOON["in.pcap"]).begun_again().part_of(1)
# A step installs a version that isn't there.
LACKING = {"s.toml": SCENARIO.replace(b'"take 1"', b'"install 1 7", "take 1"'), "in.pcap": CAPTURE}
WARNED = "warning: a step installs version 7, which the catalogue lacks\nwarning: node 1 is live when packets come, and never has a version\n"
WARNED += "warning: 1 event refused, as an install of a version that isn't newer, or isn't there: simulate --list shows which\n"
# A frame of Ethernet with a VLAN tag.
TAGGED_FRAME = bytes(12) + bytes.fromhex("810000010800") + CAPTURE[40:]
TAGGED = {"s.toml": SCENARIO, "in.pcap": CAPTURE[:23] + b"\x01" + CAPTURE[24:32] + 2 * len(TAGGED_FRAME).to_bytes(4, "big") + TAGGED_FRAME}
ABOVE = "warning: 1 of 1 connections changed their server: --fail-above wants fewer\n"
TAG_SAID = WARNED.splitlines(keepends=True)[1] + "warning: of 1 packets 1 was dropped as NotIpv4: the first frame has a VLAN tag (EtherType 0x8100), "
TAG_SAID += "which isn't read: docs/USING.md has commands that take tags off\n"
# The sketch of six packets of which a snap length cut four bytes.
CUT_SIX = SNAPPED["in.pcap"] + 5 * SNAPPED["in.pcap"][24:]
SKETCHED_OF_CUT, _ = model.sketched(model.padded(CUT_SIX))
# What is said of a capture that stands where a scenario should.
CAPTURE_SAID = "in.pcap: found a capture, expected a scenario: SCENARIO comes before INPUT\n"
# A member that is none, a version of the number 0, and a scenario without a capacity, with what is said of each.
NO_MEMBER = {"s.toml": SCENARIO.replace(b"B@", b"B-"), "in.pcap": CAPTURE}
MEMBER_SAID = 'versions[0].services[0].members[1], line 12: found "B-10.8.0.2", expected NAME@ADDRESS or NAME@ADDRESS/down; *W is of format 2, /drain and a NAME alone of format 3\n'
ZERO = {"s.toml": SCENARIO.replace(b"number = 1", b"number = 0"), "in.pcap": CAPTURE}
ZERO_SAID = "versions[0].number, line 11: found 0, expected a number from 1\n"
NO_CAPACITY = {"s.toml": SCENARIO.replace(b"capacity = 2\n", b""), "in.pcap": CAPTURE}
CAPACITY_SAID = "capacity is missing, expected a number from 1 to 1000000\n"
# Where standard error is a file it gets a line of how far INPUT is read, which isn't always the same. A terminal's line is written anew.
READ = re.compile(rb"\d+ packets, [^\n]*\n")
SHOWN_THERE = re.compile(rb"\r\x1b\[K(\d+ packets[^\r\n]*)?")
# So many packets that a worker of each node shows how many were played.
MANY = {"s.toml": APART.replace(b"take 2", b"take 128"), "in.pcap": CAPTURE + 127 * CAPTURE[24:]}
MANY_TOLD = model.Run(MANY["s.toml"].decode(), MANY["in.pcap"]).report() + "audit agrees\n"
WHY_LOST_LINE = WHY_LOST[1:-1] + b"\n"


@dataclasses.dataclass
class Case:
    """A command, what it is given, and what it prints with ample memory."""

    arguments: list
    text: str
    stdin: bytes = b""
    # Files that lie where it runs, and those that it must have written where it printed its text.
    files: dict = dataclasses.field(default_factory=dict)
    written: dict = dataclasses.field(default_factory=dict)
    # What else it may say: a growth that the system refuses while it starts a thread loses the thread.
    faults: list = dataclasses.field(default_factory=list)
    # Whether a text is what it prints, where that isn't always the same.
    judge: object = None
    # Whether standard error is a terminal.
    on_terminal: bool = False
    # The status with which it ends, the line of its fault, and what is said behind that, or behind its text.
    status: int = 0
    fault: str = ""
    said: str = ""

    def accepts(self, text):
        return self.judge(text) if self.judge else text == self.text

    def warns(self, said, was_refused):
        """Whether a fault's line comes, and all that is said behind it. Where memory was refused some of that may be left out."""
        if not said.startswith(self.fault):
            return False
        more = said[len(self.fault) :]
        return more == self.said or (was_refused and set(more.splitlines()) <= set(self.said.splitlines()))


CASES = [
    Case(["table", "--size", "7", "--hash", "sum", "A", "B", "C"], TABLE),
    Case(["compare", "--size", "7", "--hash", "sum", "--old", THREE, "--new", THREE.replace(".2", ".2/down")], MOVED),
    Case(["pick", "--size", "7", "--hash", "sum", "A", "B", "C"], PICKED, TCP),
    Case(["table", "--scenario", "s.toml", "--version", "1"], TABLE, files=FILES),
    Case(["compare", "--scenario", "s.toml", "--from", "1", "--to", "2"], DOWN, files=SPLIT),
    Case(["pick", "--scenario", "s.toml", "--version", "1"], PICKED, TCP, files=FILES),
    Case(["simulate", "--where", "--summary", "s.toml", "in.pcap", "out.pcap"], PLACES + TWO + SUMMARY, files=SPLIT),
    Case(["simulate", "--summary", "s.toml", "in.pcap", "out.pcap"], TWO + SUMMARY, files=SPLIT),
    Case(["simulate", "--summary", "s.toml", "in.pcap", "out.pcap"], BY_TURNS.report() + BY_TURNS.summary(), files=TURNS),
    Case(["simulate", "--syn", "--where", "--summary", "s.toml", "in.pcap", "out.pcap"], AGAIN.splits(True) + AGAIN.report() + AGAIN.summary(), files=BEGUN),
    Case(["simulate", "--syn-after", "60", "--json", *ASKED, "s.toml", "in.pcap", "out.pcap"], objects.text_of(objects.simulated(AGAIN, *ASKED)), files=BEGUN, faults=IN_OBJECTS),
    Case(["run", "--where", "--summary", "--pace", "s.toml", "in.pcap", "out.pcap"], RUN_PLACES + TWO + "audit agrees\n" + SUMMARY, files=SPLIT, faults=[LOST]),
    Case(["run", "--syn", "--where", "--summary", "s.toml", "in.pcap", "out.pcap"], AGAIN_ON_THREADS.splits(True) + AGAIN.report() + "audit agrees\n" + AGAIN_ON_THREADS.summary(), files=BEGUN, faults=[LOST]),
    Case(["simulate", "--json", *ASKED, "s.toml", "in.pcap", "out.pcap"], objects.text_of(objects.simulated(TOLD, *ASKED)), files=SPLIT, faults=IN_OBJECTS),
    Case(["run", "--json", *ASKED[1:], "s.toml", "in.pcap", "out.pcap"], objects.text_of(objects.ran(TOLD, *ASKED[1:])), files=SPLIT, faults=IN_OBJECTS + LOST_OBJECTS),
    Case(["simulate", "--per-backend", "--per-node", "s.toml", "in.pcap", "out.pcap"], TWO + SHARES, files=SPLIT),
    Case(["run", "--per-backend", "--per-node", "s.toml", "in.pcap", "out.pcap"], TWO + "audit agrees\n" + SHARES, files=SPLIT, faults=[LOST]),
    Case(["explain", "--json", "s.toml", "in.pcap", "3", "5"], objects.text_of(objects.explained(TOLD, 3, 5)), files=SPLIT, faults=IN_OBJECTS),
    Case(["explain", "--json", "--list", "s.toml", "in.pcap", "3", "5"], objects.text_of(objects.explained(TOLD, 3, 5, "--list")), files=SPLIT, faults=IN_OBJECTS),
    Case(["explain", "--list", "s.toml", "in.pcap", "3", "5"], TOLD.told_of(3, 5) + TOLD.explained(3, 5), files=SPLIT),
    Case(["plan", "--json", "s.toml", "1", "2"], objects.text_of(objects.planned(model.plan(APART.decode(), 1, 2))), files=SPLIT, faults=IN_OBJECTS),
    Case(["plan", "s.toml", "1"], SHOWN, files=FILES),
    Case(["scenario", "in.pcap"], SKETCHED, files={"in.pcap": CAPTURE + 5 * CAPTURE[24:]}),
    Case(["plan", "s.toml", "1", "2"], CHANGED, files=SPLIT),
    Case(["simulate", "s.toml", "in.pcap", "out.pcap"], REPORT, files=FILES, written={"out.pcap": SENT}),
    Case(["simulate", "--list", "s.toml", "in.pcap", "out.pcap"], EVENTS + REPORT, files=FILES, written={"out.pcap": SENT}),
    Case(["simulate", "--splits", "s.toml", "in.pcap", "out.pcap"], FLOW.format("3 5") + TWO, files=SPLIT),
    Case(["simulate", "--node", "1", "--list", "s.toml", "in.pcap", "out.pcap"], PART.listing() + PART.report(), files=SPLIT, written={"out.pcap": PART.output()}),
    Case(["simulate", "--splits", "s.toml", "in.pcap", "out.pcap"], FLOW.format("3 7") + TWO, files=LATER),
    Case(["plan", "s.toml", "1", "2"], CHANGED, files=LATER),
    Case(["run", "s.toml", "in.pcap", "out.pcap"], TWO + "audit agrees\n", files=LATER, faults=[LOST]),
    Case(["explain", "s.toml", "in.pcap", "2", "2"], "same\n", files=FILES),
    Case(["plan", "--order", "s.toml", "1", "2"], ORDERS, files={"s.toml": REPLACED}),
    Case(["plan", "--order", "--json", "s.toml", "1", "2"], objects.text_of(objects.ordered(ORDERS)), files={"s.toml": REPLACED}, faults=IN_OBJECTS),
    Case(["simulate", "--fail-above", "0.999999", "s.toml", "in.pcap", "out.pcap"], TWO + SUMMARY, files=SPLIT, status=3, said=ABOVE),
    Case(["scenario", "--cut", "pad", "in.pcap"], SKETCHED_OF_CUT, files={"in.pcap": CUT_SIX}),
    Case(["table", "--json", "--size", "7", "--hash", "sum", "A", "B", "C"], objects.text_of(objects.tabled(TABLE)), faults=IN_OBJECTS),
    Case(["compare", "--json", "--scenario", "s.toml", "--from", "1", "--to", "2"], objects.text_of(objects.compared(DOWN)), files=SPLIT, faults=IN_OBJECTS),
    Case(["pick", "--json", "--size", "7", "--hash", "sum", "A", "B", "C"], objects.text_of(objects.picked(PICKED)), TCP, faults=IN_OBJECTS),
    Case(["simulate", "-v", "s.toml", "in.pcap", "out.pcap"], REPORT.replace("refused 0", "refused 1"), files=LACKING, said=WARNED),
    Case(["simulate", "-v", "s.toml", "in.pcap", "out.pcap"], model.Run(SCENARIO.decode(), TAGGED["in.pcap"]).report(), files=TAGGED, said=TAG_SAID),
    Case(["simulate", "--progress", "s.toml", "in.pcap", "out.pcap"], TWO, files=SPLIT),
    Case(["run", "--progress", "s.toml", "in.pcap", "out.pcap"], TWO + "audit agrees\n", files=SPLIT, faults=[LOST]),
    Case(["run", "--pace", "--progress", "s.toml", "in.pcap", "out.pcap"], MANY_TOLD, files=MANY, on_terminal=True, faults=[LOST, (1, b"", LOST[2] + WHY_LOST_LINE)]),
    Case(["explain", "--progress", "s.toml", "in.pcap", "3", "5"], TOLD.explained(3, 5), files=SPLIT),
    Case(["scenario", "--progress", "in.pcap"], SKETCHED, files={"in.pcap": CAPTURE + 5 * CAPTURE[24:]}),
    Case(["simulate", "-v", "in.pcap", "s.toml", "out.pcap"], "", files=FILES, status=1, fault="fault: BadToml\n", said=CAPTURE_SAID),
    Case(["simulate", "-v", "s.toml", "in.pcap", "out.pcap"], "", files=NO_MEMBER, status=1, fault="fault: BadMember\n", said=MEMBER_SAID),
    Case(["simulate", "-v", "s.toml", "in.pcap", "out.pcap"], "", files=ZERO, status=1, fault="fault: BadNumber\n", said=ZERO_SAID),
    Case(["simulate", "-v", "s.toml", "in.pcap", "out.pcap"], "", files=NO_CAPACITY, status=1, fault="fault: BadKey\n", said=CAPACITY_SAID),
    Case(["simulate", "--syn", "--node", "1", "--where", "s.toml", "in.pcap", "out.pcap"], SOON_PART.splits(True) + SOON_PART.report(), files=SOON),
    Case(["simulate", "--cut", "pad", "s.toml", "in.pcap", "out.pcap"], PADDED.report(), files=SNAPPED, written={"out.pcap": PADDED.output()}),
    Case(["explain", "--cut", "pad", "s.toml", "in.pcap", "2", "2"], "same\n", files=SNAPPED),
    Case(["run", "--cut", "pad", "s.toml", "in.pcap", "out.pcap"], PADDED.report() + "audit agrees\n", files=SNAPPED, written={"out.pcap": PADDED.output()}, faults=[LOST]),
    Case(["run", "s.toml", "in.pcap", "out.pcap"], AUDITED, files=FILES, written={"out.pcap": SENT}, faults=[LOST]),
    Case(["run", "s.toml", "in.pcap", "out.pcap"], TWO + "audit agrees\n", files=NODES, written={"out.pcap": SENT_BY_TWO}, faults=[LOST]),
    Case(["run", "s.toml", "in.pcap", "out.pcap"], RESTARTED, files=CLUSTER, faults=[LOST]),
    Case(["run", "s.toml", "in.pcap", "out.pcap"], "", files=FULL, faults=[LOST], judge=all_came),
    Case(["run", "--splits", "s.toml", "in.pcap", "out.pcap"], FLOW.format("2 5") + TWO + "audit agrees\n", files=SPLIT, faults=[LOST]),
]


def compiled(folder, source="refuse.c"):
    """The library that refuses."""
    tools = build.toolchain()
    library = str(pathlib.Path(folder) / source.replace(".c", ".so"))
    options = ["-shared", "-fPIC", "-O1", "-nostdlib", "-fuse-ld=lld", "-B", str(tools)]
    subprocess.run([str(tools / "clang"), *options, "-o", library, str(TOP / "tests" / source)], check=True)
    return library


def answered_there(case, folder, env, descriptor):
    """What a command answers whose standard error is a terminal, without what was shown there of its progress."""
    reading, writing = os.openpty()
    tty.setraw(writing)
    words = [PROGRAM, *case.arguments]
    done = subprocess.run(words, input=case.stdin, stdout=subprocess.PIPE, stderr=writing, cwd=folder, env=env, pass_fds=[descriptor], timeout=60)
    os.close(writing)
    shown = all_shown(reading)
    os.close(reading)
    return done.returncode, done.stdout, SHOWN_THERE.sub(b"", shown)


def answered(case, folder, env, descriptor):
    """What a command answers: its status and both outputs. Where it shows its progress standard error is a file, and what was
    shown is left out."""
    if case.on_terminal:
        return answered_there(case, folder, env, descriptor)
    shows = "--progress" in case.arguments
    with tempfile.TemporaryFile() as said:
        done = subprocess.run(
            [PROGRAM, *case.arguments],
            input=case.stdin,
            stdout=subprocess.PIPE,
            stderr=said if shows else subprocess.PIPE,
            cwd=folder,
            env=env,
            pass_fds=[descriptor],
            timeout=60,
        )
        said.seek(0)
        return done.returncode, done.stdout, READ.sub(b"", said.read()) if shows else done.stderr


def run_refused(library, case, refused):
    """Runs a command with one word of refusal, in a folder of its own.

    Gives whether its answer is the ample one, whether it is Memory, whether anything was refused, and the answer.
    """
    with tempfile.TemporaryDirectory() as folder:
        for name, content in case.files.items():
            (pathlib.Path(folder) / name).write_bytes(content)
        reader, writer = os.pipe()
        status, text, said = answer = answered(case, folder, {"LD_PRELOAD": library, "REFUSED": refused, "TOLD": str(writer)}, writer)
        os.close(writer)
        with os.fdopen(reader, "rb") as pipe:
            was_refused = pipe.read() != b""
        is_ample = status == case.status and case.warns(said.decode(), was_refused) and case.accepts(text.decode())
        if is_ample:
            is_ample = all((pathlib.Path(folder) / name).read_bytes() == content for name, content in case.written.items())
        return is_ample, answer in FAULTS + case.faults, was_refused, answer


def refuse_each(library, case, behind):
    """Refuses one growth after the other until a run has no more. Gives how many runs were as they must be, and were not.

    Where no run says Memory nothing was refused at all, which counts as a failure.
    """
    name = case.arguments[0]
    passed = failed = faults = 0
    for number in range(1, MOST_GROWTHS):
        is_ample, is_memory, was_refused, answer = run_refused(library, case, f"{number}{behind}")
        if is_ample or (is_memory and was_refused):
            passed += 1
            faults += is_memory
        else:
            failed += 1
            print(f"FAILED {name}, growth {number}{behind} refused: {answer}")
        if not was_refused:
            later = " with all behind it" if behind else ""
            print(f"{name}: {number - 1} growths, each refused{later}: {faults} faults")
            return (passed, failed) if faults else (passed, failed + 1)
    print(f"FAILED {name}: more than {MOST_GROWTHS} growths")
    return passed, failed + 1


def refuse_all(folder, cases):
    """Refuses each growth of each command in turn, alone and with all behind it. Gives how many runs were as they must be,
    and were not."""
    library = compiled(folder)
    counts = [refuse_each(library, case, behind) for case in cases for behind in ["", "+"]]
    return sum(passed for passed, _ in counts), sum(failed for _, failed in counts)


def built(crate):
    """Gives the path of a program of this repository. It is built where it doesn't stand, or something of its code is newer:
    the gate leaves each program."""
    if not build.is_current(crate):
        subprocess.run(["rt", "run"], cwd=TOP / "crates" / crate, capture_output=True, check=True)
    return str(TOP / "crates" / crate / "out" / crate)


def main():
    subprocess.run([str(TOP / "bin" / "maglev"), "--help"], stdout=subprocess.DEVNULL, check=True)
    with tempfile.TemporaryDirectory() as folder:
        return told(*refuse_all(folder, CASES))


if __name__ == "__main__":
    os.chdir(TOP)
    sys.exit(main())
