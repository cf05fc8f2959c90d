#!/usr/bin/env python3
"""Runs the built program through its command line, and compares standard output, standard error and status.

The last line is 'N passed, N failed'. Expected values are worked out by hand or by another program, never taken from the
program's own output.
"""
import collections
import errno
import os
import pathlib
import random
import re
import shutil
import struct
import subprocess
import sys
import tempfile
import threading
import tomllib
import tty

import model
import soak_run
from harness import PROGRAM, TOP, all_shown, check, run_tests


def run(arguments, stdin=b"", cwd=None, stdout=subprocess.PIPE):
    """Runs the program, and gives status, standard output and standard error."""
    done = subprocess.run([PROGRAM, *arguments], input=stdin, stdout=stdout, stderr=subprocess.PIPE, cwd=cwd, timeout=600)
    return done.returncode, done.stdout, done.stderr


def run_at_terminal(arguments, cwd=None, stream="stderr"):
    """The same, where one stream alone is a terminal: standard error if no other is named."""
    reading, writing = os.openpty()
    # so that a newline stays one
    tty.setraw(writing)
    with tempfile.TemporaryFile() as other:
        streams = {"stdout": other, "stderr": other, stream: writing}
        done = subprocess.Popen([PROGRAM, *arguments], stdin=subprocess.DEVNULL, cwd=cwd, **streams)
        os.close(writing)
        timer = threading.Timer(600, done.kill)
        timer.start()
        shown = all_shown(reading)
        os.close(reading)
        status = done.wait()
        timer.cancel()
        other.seek(0)
        kept = other.read()
    return (status, kept, shown) if stream == "stderr" else (status, shown, kept)


def prints(name, arguments, text, **more):
    """The program prints exactly this text and ends with status 0."""
    status, out, err = run(arguments, **more)
    check(name, (status, out, err) == (0, text.encode(), b""), f"{status} {out!r} {err!r}")


def faults(name, arguments, fault, **more):
    """The program prints nothing but a fault's line on standard error, and ends with status 1."""
    status, out, err = run(arguments, **more)
    check(name, (status, out, err) == (1, b"", f"fault: {fault}\n".encode()), f"{status} {out!r} {err!r}")


def misused(name, arguments):
    """The command line isn't one: status 2, nothing on standard output, a text on standard error."""
    status, out, err = run(arguments)
    check(name, status == 2 and out == b"" and err != b"", f"{status} {out!r} {err!r}")


def table_text(size, words, plain):
    """The table of the definition, worked out in the plainest way."""
    weights = {word.split("*")[0]: int(word.split("*")[1]) if "*" in word else 1 for word in words}
    names = sorted(weights)
    turns = [who for number in range(1, 17) for who, name in enumerate(names) if weights[name] >= number]
    lists = []
    for name in names:
        offset = plain(b"o" + name.encode()) % size
        skip = plain(b"k" + name.encode()) % (size - 1) + 1
        lists.append([(offset + place * skip) % size for place in range(size)])
    owner = {}
    nexts = [0] * len(names)
    turn = 0
    while len(owner) < size:
        who = turns[turn % len(turns)]
        while lists[who][nexts[who]] in owner:
            nexts[who] += 1
        owner[lists[who][nexts[who]]] = who
        turn += 1
    lines = [f"size {size} backends {len(names)}"]
    lines += [f"{slot} {names[owner[slot]]}" for slot in range(size)]
    counts = list(owner.values())
    lines += [f"count {name} {counts.count(who)}" for who, name in enumerate(names)]
    return "".join(line + "\n" for line in lines)


def test_table():
    seven = ["table", "--size", "7", "--hash", "sum"]
    rows = "size 7 backends 3\n0 B\n1 A\n2 B\n3 C\n4 C\n5 A\n6 A\ncount A 3\ncount B 2\ncount C 2\n"
    prints("table of three names", [*seven, "A", "B", "C"], rows)
    prints("table of three names in another order", [*seven, "C", "A", "B"], rows)
    alone = "size 7 backends 1\n" + "".join(f"{slot} A\n" for slot in range(7)) + "count A 7\n"
    prints("table of one name", [*seven, "A"], alone)
    faults("eight names of seven slots", [*seven, *"ABCDEFGH"], "TooMany")
    prints("table of equal weights", [*seven, "A*4", "B*4", "C*4"], rows)
    prints("table of equal weights in another order", [*seven, "C*4", "A*4", "B*4"], rows)
    twice = "size 7 backends 3\n0 B\n1 A\n2 B\n3 C\n4 A\n5 C\n6 A\ncount A 3\ncount B 2\ncount C 2\n"
    prints("table of a name that counts twice", [*seven, "A*2", "B", "C"], twice)
    prints("the same in another order", [*seven, "C*1", "B", "A*2"], twice)
    prints("the same in a third order", [*seven, "C", "A*2", "B*1"], twice)
    thrice = "size 7 backends 3\n0 A\n1 A\n2 B\n3 C\n4 A\n5 B\n6 A\ncount A 4\ncount B 2\ncount C 1\n"
    prints("table of a name that counts three times", [*seven, "A*3", "B", "C"], thrice)
    heavy = "size 7 backends 2\n0 A\n1 A\n2 B\n3 A\n4 A\n5 A\n6 A\ncount A 6\ncount B 1\n"
    prints("table of a name that counts 16 times", [*seven, "A*16", "B"], heavy)
    for word in ["A*17", "A*0", "A*", "A*02", "A*1*1", "*2", "A*-1", "A* 1", "A*16 ", "A*4294967297"]:
        faults(f"the weight of {word}", [*seven, word, "B"], "BadName")
    faults("a double name of two weights", [*seven, "A*2", "A*3"], "DoubleName")
    faults("a size that isn't listed", ["table", "--size", "8", "--hash", "sum", "A"], "BadSize")
    faults("a hash that isn't listed", ["table", "--size", "7", "--hash", "md5", "A"], "BadHash")
    faults("a double name", [*seven, "A", "A"], "DoubleName")
    faults("a name that isn't one", [*seven, "A", "b c"], "BadName")
    faults("an empty name", [*seven, ""], "BadName")
    faults("a name of 33 bytes", [*seven, "a" * 33], "BadName")
    faults("a name that isn't ASCII", [*seven, "é"], "BadName")
    for word in "_-":
        faults(f"the size before the hash and {word}", ["table", "--size", "8", "--hash", "md5", word], "BadSize")
        faults(f"the hash before {word}", ["table", "--size", "7", "--hash", "md5", word], "BadHash")
    faults("a name that isn't one before a double name", [*seven, "A", "A", ""], "BadName")
    faults("a double name before too many", [*seven, *"ABACDEFG"], "DoubleName")
    rows = "size 7 backends 2\n0 B\n1 B\n2 B\n3 C\n4 C\n5 C\n6 B\ncount B 4\ncount C 3\n"
    prints("table of two names", [*seven, "B", "C"], rows)
    for slots, names in [
        (13, ["web-1", "web-2"]),
        (251, ["a", "b", "c.d", "E"]),
        (1021, ["web-1", "web-2", "web-3"]),
        (8191, [f"web-{number}" for number in range(1, 101)]),
        (65537, ["A", "B", "C"]),
    ]:
        words = ["table", "--size", str(slots), "--hash", "fnv", *names]
        prints(f"table of {slots} slots", words, table_text(slots, names, model.fnv))
    for seed in range(40):
        source = random.Random(seed)
        slots = source.choice([7, 13, 251, 251, 1021])
        names = source.sample([f"web-{number}" for number in range(99)], source.randrange(1, min(slots, 60) + 1))
        names = [name + source.choice(["", f"*{source.randrange(1, 17)}"]) for name in names]
        words = ["table", "--size", str(slots), "--hash", "fnv", *names]
        prints(f"table {seed} of random weights", words, table_text(slots, names, model.fnv))
    status, out, _ = run(["table", "--size", "65537", "--hash", "fnv", "A", "B", "C"])
    check("counts of 65537 slots", status == 0 and out.endswith(b"count A 21846\ncount B 21846\ncount C 21845\n"))
    with tempfile.TemporaryDirectory() as folder:
        prints("table from another folder", [*seven, "B", "C"], rows, cwd=folder)
    with open("/dev/full", "wb") as full:
        status, _, err = run([*seven, "A", "B", "C"], stdout=full)
        check("an output that can't be written", (status, err) == (1, b"fault: Write\n"), f"{status} {err!r}")


TCP = "45000028000100004006aecd0a000001c000020103e8005000000001000000005002200000000000"
UDP = "4500001c000100004011aece0a000001c000020103e8003500080000"


def test_pick():
    words = ["pick", "--size", "7", "--hash", "sum", "A", "B", "C"]
    found = "tcp 10.0.0.1:1000>192.0.2.1:80 slot 6 backend A\n"
    prints("pick of a TCP datagram", words, found, stdin=TCP.encode())
    prints("pick with a newline", words, found, stdin=TCP.encode() + b"\n")
    for text in [UDP, UDP.upper(), UDP.upper() + "\n"]:
        prints("pick of a UDP datagram", words, "udp 10.0.0.1:1000>192.0.2.1:53 slot 4 backend C\n", stdin=text.encode())
    prints("a UDP length of 7", words, "drop BadTransport\n", stdin=UDP.replace("00080000", "00070000").encode())
    prints("no datagram", words, "drop Truncated\n", stdin=b"")
    prints("no datagram but a newline", words, "drop Truncated\n", stdin=b"\n")
    # A header of 65,512 bytes in all, and zeros.
    large = bytes.fromhex("4500ffe8000000004011000000000000000000000000000000080000").ljust(65_512, b"\0")
    prints("a datagram that is too large", ["pick", "--no-check", *words[1:]], "drop TooLarge\n", stdin=large.hex().encode())
    prints("a fragment", words, "drop Fragment\n", stdin=TCP.replace("00004006aecd", "200040068ecd").encode())
    wrong = TCP.replace("aecd", "aece").encode()
    prints("a wrong checksum", words, "drop BadChecksum\n", stdin=wrong)
    prints("a wrong checksum that isn't tested", ["pick", "--no-check", *words[1:]], found, stdin=wrong)
    for text in ["4", "4g", "45\n\n", " 45", "0" * 524_289]:
        faults(f"no digits of bytes: {text[:9]!r}", words, "BadHex", stdin=text.encode())
    faults("a size that isn't listed", ["pick", "--size", "8", "--hash", "sum", "A"], "BadSize", stdin=b"4")
    faults("an input that is too long", words, "TooLong", stdin=b"0" * 524290)
    faults("a double name before the input", [*words, "A"], "DoubleName", stdin=b"4")
    misused("pick with no name", words[:5])
    weighed = [*words[:5], "A*3", "B", "C"]
    prints("pick of weighed names", weighed, "tcp 10.0.0.1:1000>192.0.2.1:80 slot 6 backend A\n", stdin=TCP.encode())
    other = TCP.replace("aecd", "aecd").replace("03e8", "03ee", 1).encode()
    prints("pick of weighed names at another slot", weighed, "tcp 10.0.0.1:1006>192.0.2.1:80 slot 5 backend B\n", stdin=other)
    faults("a weight of 17", [*words[:5], "A*17", "B"], "BadName", stdin=TCP.encode())
    done = subprocess.run([PROGRAM, *words], stdin=os.open(str(TOP), os.O_RDONLY), capture_output=True, timeout=600)
    check("an input that can't be read", (done.returncode, done.stdout, done.stderr) == (1, b"", b"fault: Read\n"), repr(done))


def test_compare():
    words = ["compare", "--size", "7", "--hash", "sum"]
    old = "A@10.8.0.1 B@10.8.0.2 C@10.8.0.3"
    moved = "size 7 old 3 new 2 differ 3\n0 B@10.8.0.2 A@10.8.0.1\n2 B@10.8.0.2 A@10.8.0.1\n5 A@10.8.0.1 C@10.8.0.3\n"
    prints("a member goes down", [*words, "--old", old, "--new", "A@10.8.0.1 B@10.8.0.2/down C@10.8.0.3"], moved)
    lines = "".join(f"{slot} A@10.8.0.1 A@10.8.0.9\n" for slot in range(7))
    prints("an address changes", [*words, "--old", "A@10.8.0.1", "--new", "A@10.8.0.9"], "size 7 old 1 new 1 differ 7\n" + lines)
    prints("the same in another order", [*words, "--old", old, "--new", "C@10.8.0.3 B@10.8.0.2/down A@10.8.0.1"], moved)
    prints("nothing changes", [*words, "--old", old, "--new", old], "size 7 old 3 new 3 differ 0\n")
    lines = "".join(f"{slot} A@10.8.0.1 A@10.8.0.9\n" for slot in range(8191))
    large = ["compare", "--size", "8191", "--hash", "sum", "--old", "A@10.8.0.1", "--new", "A@10.8.0.9"]
    prints("a text of more than 65,536 bytes", large, "size 8191 old 1 new 1 differ 8191\n" + lines)
    nobody = "A@10.8.0.1/down"
    for other in [nobody, "B@10.8.0.1/down"]:
        prints("nobody is up", [*words, "--old", nobody, "--new", other], "size 7 old 0 new 0 differ 0\n")
    lines = "".join(f"{slot} B@1.2.3.4 -\n" for slot in range(7))
    prints("nobody is up any more", [*words, "--old", "B@1.2.3.4", "--new", nobody], "size 7 old 1 new 0 differ 7\n" + lines)
    heavier = "size 7 old 3 new 3 differ 3\n0 B@10.8.0.2 A@10.8.0.1\n4 C@10.8.0.3 A@10.8.0.1\n5 A@10.8.0.1 B@10.8.0.2\n"
    prints("a weight changes", [*words, "--old", old, "--new", "A@10.8.0.1*3 B@10.8.0.2 C@10.8.0.3"], heavier)
    equal = "A@10.8.0.1*5 B@10.8.0.2*5 C@10.8.0.3*5 D@10.8.0.4*16/down"
    prints("equal weights, and a down member's", [*words, "--old", old, "--new", equal], "size 7 old 3 new 3 differ 0\n")
    for word in ["A@10.8.0.1*17", "A@10.8.0.1*0", "A@10.8.0.1*", "A@10.8.0.1*01", "A@10.8.0.1/down*2", "A*2@10.8.0.1", "A@10.8.0.1*2*2"]:
        faults(f"the member {word}", [*words, "--old", word, "--new", old], "BadMember")
    faults("an empty list", [*words, "--old", "", "--new", old], "BadMember")
    faults("a leading zero", [*words, "--old", "A@10.8.0.01", "--new", old], "BadMember")
    faults("a double member", [*words, "--old", old, "--new", "A@10.8.0.1 A@10.8.0.2"], "DoubleName")
    eight = " ".join(f"{name}@10.8.0.1" for name in "ABCDEFGH")
    faults("eight members of seven slots", [*words, "--old", old, "--new", eight], "TooMany")
    one, two, down = "A@1.2.3.4", "A@1.2.3.4 A@1.2.3.5", eight + "/down"
    for name, earlier, later, fault in [
        ("no list and one", "", one, "BadMember"),
        ("a member that isn't one before a double one", two, "A", "BadMember"),
        ("two spaces", one, "A@1.2.3.4  B@1.2.3.5", "BadMember"),
        ("a double member behind eight", down, two, "DoubleName"),
        ("a double member before eight", two, down, "DoubleName"),
        ("eight members of which one is down", one, down, "TooMany"),
    ]:
        faults(name, [*words, "--old", earlier, "--new", later], fault)
    faults("a size before the lists", ["compare", "--size", "8", "--hash", "sum", "--old", "", "--new", ""], "BadSize")
    faults("a hash before the lists", ["compare", "--size", "7", "--hash", "md5", "--old", "", "--new", one], "BadHash")
    misused("compare with one list", [*words, "--old", old])


ALL = ["A@10.8.0.1", "B@10.8.0.2", "C@10.8.0.3"]
B_DOWN = ["A@10.8.0.1", "B@10.8.0.2/down", "C@10.8.0.3"]
A_DOWN = ["A@10.8.0.1/down", "B@10.8.0.2", "C@10.8.0.3"]
A_HEAVY = ["A@10.8.0.1*3", "B@10.8.0.2", "C@10.8.0.3"]
A_MOVED = ["A@10.8.0.9", "B@10.8.0.2", "C@10.8.0.3"]
HEAD = bytes.fromhex("a1b23c4d0002000400000000000000000000ffff00000065")
WRITTEN_HEAD = bytes.fromhex("d4c3b2a1020004000000000000000000ffff000065000000")
P = bytes.fromhex(TCP)
# P in GRE, from 10.9.0.1 to 10.8.0.1, at 1 second and 999,999 microseconds.
SENT = bytes.fromhex("4500004000004000402f267d0a0900010a08000100000800") + P
SENT_RECORD = bytes.fromhex("010000003f420f004000000040000000") + SENT


def listed(values):
    """A TOML array of texts or numbers."""
    return "[" + ", ".join(f'"{value}"' if isinstance(value, str) else str(value) for value in values) + "]"


def scenario(steps, versions=(ALL, B_DOWN), scheme="maglev", workers=1, more=""):
    """A scenario of a table of 7 slots, two nodes, spreading by turn, and tables of two entries."""
    text = 'format = 1\nsize = 7\nhash = "sum"\nspread = "turn"\ncapacity = 2\nnodes = ["10.9.0.1", "10.9.0.2"]\n'
    text += f'scheme = "{scheme}"\nworkers = {workers}\n{more}steps = {listed(steps)}\n'
    for number, members in enumerate(versions, 1):
        text += f'[[versions]]\nnumber = {number}\n[[versions.services]]\nvip = "192.0.2.1"\nproto = "tcp"\nport = 80\n'
        text += f"members = {listed(members)}\n"
    return text


def record(data, seconds=1, nanoseconds=999999999):
    """A record at a time."""
    return struct.pack(">4I", seconds, nanoseconds, len(data), len(data)) + data


def packet(letter):
    """y, z and x are the flows from ports 1000, 1001 and 1006; w is one to a port that no service has; of v the header's checksum is
    wrong."""
    if letter == "v":
        return P[:10] + b"\xff\xff" + P[12:]
    if letter == "w":
        return P[:23] + b"\x51" + P[24:]
    ports = {"y": 0xE8, "z": 0xE9, "x": 0xEE}
    return P[:21] + bytes([ports[letter]]) + P[22:]


def capture(letters):
    """A packet for each letter."""
    return HEAD + b"".join(record(packet(letter)) for letter in letters)


def timed(letters, seconds):
    """A packet for each letter, at these seconds."""
    return HEAD + b"".join(record(packet(letter), second, 0) for letter, second in zip(letters, seconds))


def limited(text, idle):
    """A scenario with an idle limit in microseconds."""
    return text.replace("format = 1", f"format = 2\nidle = {idle}")


def report(packets, forwarded, received=None, lost=0, unrouted=0, skipped=0, left=0, cut="no", drops="", waiting=0, refused=0):
    """A report's text."""
    received = packets if received is None else received
    head = f"packets {packets}\nlost {lost}\nunrouted {unrouted}\nskipped {skipped}\nleft {left}\ncut {cut}\n"
    return head + f"received {received}\nforwarded {forwarded}\n{drops}waiting {waiting}\nrefused {refused}\n"


def with_files(text, data, use):
    """Calls with a folder that holds this scenario and this capture."""
    with tempfile.TemporaryDirectory() as folder:
        if text is not None:
            (pathlib.Path(folder) / "s.toml").write_bytes(text if isinstance(text, bytes) else text.encode())
        if data is not None:
            (pathlib.Path(folder) / "in.pcap").write_bytes(data)
        return use(pathlib.Path(folder))


def simulated(text, data, words=()):
    """Status, standard output, standard error and OUTPUT (None where there is none) of `simulate`."""

    def use(folder):
        answer = run(["simulate", *words, "s.toml", "in.pcap", "out.pcap"], cwd=folder)
        out = folder / "out.pcap"
        return (*answer, out.read_bytes() if out.exists() else None)

    return with_files(text, data, use)


def simulates(name, text, data, expected, output=None, words=()):
    """`simulate` prints this text, and where OUTPUT is given writes exactly that."""
    status, out, err, made = simulated(text, data, words)
    check(name, (status, out, err) == (0, expected.encode(), b""), f"{status} {out!r} {err!r}")
    if output is not None:
        check(name + ", what is written", made == output, repr(made))


def lists(name, text, letters, forwards):
    """The events of `--list` whose outcome is a forward or a drop have these outcomes, by their numbers."""
    lists_of(name, text, capture(letters), forwards)


def lists_of(name, text, data, forwards):
    """The same for a capture. All that is printed is what the model says."""
    status, out, err, _ = simulated(text, data, ["--list"])
    lines = [line.split(" ", 1) for line in out.decode().split("packets ")[0].splitlines()]
    found = {int(place): line.split(": ")[1] for place, line in lines if ": forward" in line or ": drop" in line}
    check(name, (status, err) == (0, b"") and found == forwards, f"{status} {found} {err!r}")
    expected = model.Run(text, data)
    check(f"{name}, in full", out.decode() == expected.listing() + expected.report(), repr(out))


def stops(name, text, data, fault, output, words=()):
    """`simulate` ends with this fault and nothing on standard output, and OUTPUT holds this (None: it wasn't made)."""
    status, out, err, made = simulated(text, data, words)
    is_right = (status, out, err, made) == (1, b"", f"fault: {fault}\n".encode(), output)
    check(name, is_right, f"{status} {out!r} {err!r} {made!r}")


def explains(name, text, letters, one, other, line):
    """`explain` prints this line."""
    explains_of(name, text, capture(letters), one, other, line)


def explains_of(name, text, data, one, other, line, words=()):
    """The same for a capture, and with further words."""
    words = ["explain", *words, "s.toml", "in.pcap", str(one), str(other)]
    status, out, err = with_files(text, data, lambda folder: run(words, cwd=folder))
    check(name, (status, out, err) == (0, (line + "\n").encode(), b""), f"{status} {out!r} {err!r}")


def test_simulate_rows():
    apart = scenario(["install 0 1", "install 1 2", "take 2"])
    simulates("two nodes, two versions", apart, capture("xx"), report(2, 2))
    lists("two nodes, two versions, listed", apart, "xx", {3: "forward A@10.8.0.1 from 1", 5: "forward C@10.8.0.3 from 2"})
    explains("a split", apart, "xx", 3, 5, "split slot 5 version 1 A@10.8.0.1 version 2 C@10.8.0.3")
    explains("the same the other way round", apart, "xx", 5, 3, "split slot 5 version 2 C@10.8.0.3 version 1 A@10.8.0.1")
    weighed = scenario(["install 0 1", "install 1 2", "take 2"], versions=(ALL, A_HEAVY)).replace("format = 1", "format = 2")
    lists("a weight changes", weighed, "xx", {3: "forward A@10.8.0.1 from 1", 5: "forward B@10.8.0.2 from 2"})
    explains("a split by weights", weighed, "xx", 3, 5, "split slot 5 version 1 A@10.8.0.1 version 2 B@10.8.0.2")
    explains("one backend", apart, "yy", 3, 5, "same")
    explains("an event that sends nothing", apart, "xx", 2, 5, "not sent")
    explains("an event that isn't there", apart, "xx", 3, 2**64 - 1, "not sent")
    explains("two flows", apart, "xy", 3, 5, "other flow")
    explains_listed(apart)
    text = scenario(["live 0", "install 0 1", "take 1", "install 0 2", "take 1"])
    events = """0 install 0 1: installed
1 arrive 0 0: placed 0
2 serve 0 0 1: forward B@10.8.0.2 from 1
3 install 0 2: installed
4 arrive 0 1: placed 0
5 serve 0 0 2: forward A@10.8.0.1 from 2
"""
    simulates("a listing", text, capture("zz"), events + report(2, 2), words=["--list"])
    a1, a2, c2 = "forward A@10.8.0.1 from 1", "forward A@10.8.0.1 from 2", "forward C@10.8.0.3 from 2"
    text = scenario(["live 0", "install 0 1", "take 1", "install 0 2", "take 6"])
    lists("an entry stands and is dropped", text, "xyyxyzx", {2: a1, 5: a2, 7: a2, 9: a1, 11: a2, 13: a2, 15: c2})
    explains("why it changed", text, "xyyxyzx", 9, 15, "split slot 5 version 1 A@10.8.0.1 version 2 C@10.8.0.3")
    text = scenario(["live 0", "install 0 1", "full 0 1", "take 4", "full 0 0 1 2", "take 1"], workers=3)
    lists("full rings, listed", text, "yyyyy", {2: a1, 4: a1, 6: a1, 8: a1, 9: "drop RingsFull"})
    _, out, _, _ = simulated(text, capture("yyyyy"), ["--list"])
    arrivals = [line.split(": ")[1] for line in out.decode().splitlines() if " arrive " in line]
    check("full rings", arrivals == ["placed 0", "placed 2", "placed 2", "placed 0", "drop RingsFull"], repr(arrivals))
    text = scenario(["live 0", "install 0 1", "take 1", "install 0 3", "take 1"], [ALL, B_DOWN, A_MOVED])
    lists("an address changes under an entry", text, "yy", {2: a1, 5: "forward A@10.8.0.9 from 3"})
    steps = ["live 0", "install 0 1", "take 1", "install 0 2", "install 0 3", "take 1"]
    lists("a backend comes back unseen", scenario(steps, [ALL, A_DOWN, ALL]), "yy", {2: a1, 6: a1})
    steps.insert(4, "take 1")
    b2 = "forward B@10.8.0.2 from 2"
    lists("a backend comes back", scenario(steps, [ALL, A_DOWN, ALL]), "yyy", {2: a1, 5: b2, 8: b2})
    apart = scenario(["install 0 1", "install 1 2", "take 2"], scheme="plain")
    lists("plain hashing", apart, "yy", {3: "forward C@10.8.0.3 from 1", 5: c2})
    explains("plain hashing agrees", apart, "yy", 3, 5, "same")
    text = scenario(["install 0 1", "install 1 1", "take 3"], scheme="round")
    lists("round robin", text, "yxx", {3: a1, 5: a1, 7: "forward B@10.8.0.2 from 1"})
    explains("round robin splits", text, "yxx", 7, 5, "split slot 5 version 1 B@10.8.0.2 version 1 A@10.8.0.1")


def explains_listed(apart):
    """`explain --list`: the lines of both events come first, in the order of the run, and say why a packet wasn't sent."""
    first, later = "3 serve 0 0 1: forward A@10.8.0.1 from 1\n", "5 serve 1 0 2: forward C@10.8.0.3 from 2\n"
    split = "split slot 5 version {} version {}"
    sends = "1 A@10.8.0.1", "2 C@10.8.0.3"
    rows = [
        ("a split", "xx", 3, 5, first + later + split.format(*sends)),
        ("the other way round", "xx", 5, 3, first + later + split.format(*sends[::-1])),
        ("an event that sends nothing", "xx", 2, 5, "2 arrive 0 0: placed 0\n" + later + "not sent"),
        ("one event", "xx", 3, 3, first + "same"),
        ("an event that isn't there", "xx", 2**64 - 1, 5, later + "not sent"),
        ("no event that is there", "xx", 900, 901, "not sent"),
    ]
    for name, letters, one, other, lines in rows:
        explains_of(f"listed: {name}", apart, capture(letters), one, other, lines, ["--list"])
    text = scenario(["live 0", "install 0 1", "take 1", "full 0 0", "take 1", "restart 0"])
    told = "2 serve 0 0 1: forward A@10.8.0.1 from 1\n3 arrive 0 1: drop RingsFull\nnot sent"
    explains_of("listed: full rings", text, capture("yy"), 2, 3, told, ["--list"])
    text = scenario(["live 0", "install 0 1", "take 1"], [[f"{member}/down" for member in ALL]])
    told = "1 arrive 0 0: placed 0\n2 serve 0 0 1: drop NoBackend\nnot sent"
    explains_of("listed: nobody is up", text, capture("x"), 1, 2, told, ["--list"])


def test_idle():
    """Entries that no packet touched for too long. A limit of 5 seconds, where nothing else is said."""
    a1, a2, c2 = "forward A@10.8.0.1 from 1", "forward A@10.8.0.1 from 2", "forward C@10.8.0.3 from 2"
    text = limited(scenario(["live 0", "install 0 1", "take 1", "install 0 2", "take 3"]), 5_000_000)
    back = timed("xxxx", [10, 15, 21, 3])
    lists_of("idle: at the limit, past it, and a clock that steps back", text, back, {2: a1, 5: a1, 7: c2, 9: c2})
    explains_of("idle: why it changed", text, back, 5, 7, "split slot 5 version 1 A@10.8.0.1 version 2 C@10.8.0.3")
    text = limited(scenario(["live 0", "install 0 1", "take 1", "install 0 2", "take 2"]), 5_000_000)
    lists_of("idle: another flow moves the clock", text, timed("xyx", [10, 30, 12]), {2: a1, 5: a2, 7: c2})
    lists_of("idle: a drop moves the clock", text, timed("xwx", [0, 10, 3]), {2: a1, 5: "drop NoService", 7: c2})
    nobody = [member + "/down" for member in ALL]
    text = limited(scenario(["live 0", "install 0 1", "take 1", "install 0 2", "take 1", "install 0 3", "take 1"], [ALL, nobody, B_DOWN]), 5_000_000)
    for last, later in [(9, a1), (10, "forward C@10.8.0.3 from 3")]:
        lists_of(f"idle: a drop touches an entry that stands, second {last}", text, timed("xxx", [0, 4, last]), {2: a1, 5: "drop NoBackend", 8: later})
    steps = ["live 0", "install 0 1", "take 2", "install 0 3", "take 1", "install 0 4", "take 2"]
    text, data = scenario(steps, [ALL, B_DOWN, nobody, B_DOWN]), timed("xyxzy", [0, 5, 6, 6, 6])
    expected = {2: a1, 4: a1, 7: "drop NoBackend", 10: "forward A@10.8.0.1 from 4", 12: a1}
    lists_of("idle: a past entry keeps its place", limited(text, 5_000_000), data, expected)
    lists_of("the same without a limit", text, data, {**expected, 12: "forward A@10.8.0.1 from 4"})
    steps = ["live 0", "install 0 1", "take 1", "restart 0", "take 1", "install 0 2", "take 1"]
    text = limited(scenario(steps), 5_000_000)
    lists_of("idle: a restart ends the clock", text, timed("yxx", [100, 10, 16]), {2: a1, 5: a1, 8: c2})
    text = limited(scenario(["live 0", "install 0 1", "take 1", "install 0 2", "lose 1", "again 0"]), 5_000_000)
    lists_of("idle: a repeat has its record's own time", text, timed("xx", [0, 100]), {2: a1, 5: a1})
    apart = scenario(["live 0", "install 0 1", "take 1", "install 0 2", "take 1"])
    for limit, later in [(999_999, c2), (1_000_000, a1), (4_294_967_295_000_000, a1)]:
        lists_of(f"idle: a limit of {limit}", limited(apart, limit), timed("xx", [1, 2]), {2: a1, 5: later})
    # From the first to the last time that a record can say.
    for nanoseconds, later in [(999, a1), (1000, c2), (2**32 - 1, c2)]:
        ends = HEAD + record(packet("x"), 0, 0) + record(packet("x"), 2**32 - 1, nanoseconds)
        lists_of(f"idle: the greatest limit and {nanoseconds} ns", limited(apart, 4_294_967_295_000_000), ends, {2: a1, 5: later})
    # Nanoseconds are cut off: one microsecond passes.
    close = HEAD + record(packet("x"), 1, 999_999_999) + record(packet("x"), 2, 999)
    for limit, later in [(0, c2), (1, a1)]:
        lists_of(f"idle: a limit of {limit} and a microsecond", limited(apart, limit), close, {2: a1, 5: later})
    for name, verb in [("simulated", simulates), ("on threads", runs)]:
        verb(f"no time passes within a capture of one time, {name}", limited(scenario(["install 0 1", "take 4"]), 0), capture("xyxy"), report(4, 2, drops="drop NoVersion 2\n"))
    stops("idle in format 1", apart.replace("format = 1", "format = 1\nidle = 5"), HEAD, "BadKey", None)
    for value in ["-1", "4294967295000001", "5.0", '"5"']:
        stops(f"idle = {value}", limited(apart, value), HEAD, "BadKey", None)


def told(port, events, slot, one, other, cause):
    """The line of a split."""
    return f"split tcp 10.0.0.1:{port}>192.0.2.1:80 events {events} slot {slot} version {one} version {other} {cause}\n"


def counts(flows, down, moved):
    """The lines behind those of the splits."""
    return f"flows {flows}\nsplit {down + moved}\ndown {down}\nmoved {moved}\n"


def test_splits():
    """`--splits`: which flows are sent to two backends in turn, and why; worked out by hand."""
    a1, a3, c2 = "1 A@10.8.0.1", "3 A@10.8.0.9", "2 C@10.8.0.3"
    apart = scenario(["install 0 1", "install 1 2", "take 2"])
    one = told(1006, "3 5", 5, a1, c2, "moved") + counts(1, 0, 1)
    simulates("one split", apart, capture("xx"), one + report(2, 2), words=["--splits"])
    simulates("no split", apart, capture("yy"), counts(1, 0, 0) + report(2, 2), words=["--splits"])
    unsent = counts(0, 0, 0) + report(1, 0, drops="drop NoVersion 1\n")
    simulates("no send", scenario(["take 1"]), capture("y"), unsent, words=["--splits"])
    _, listing, _, _ = simulated(apart, capture("xx"), ["--list"])
    whole = listing.decode().replace(report(2, 2), "") + one + report(2, 2)
    simulates("a listing and a split", apart, capture("xx"), whole, words=["--splits", "--list"])
    text = scenario(["live 0", "install 0 1", "take 1", "install 0 2", "take 6"])
    lines = told(1006, "9 15", 5, a1, c2, "moved") + counts(3, 0, 1)
    simulates("an entry is pushed out", text, capture("xyyxyzx"), lines + report(7, 7), words=["--splits"])
    text = scenario(["live 0", "install 0 1", "take 1", "install 0 3", "take 1"], [ALL, B_DOWN, A_MOVED])
    lines = told(1000, "2 5", 6, a1, a3, "down") + counts(1, 1, 0)
    simulates("one name at two addresses", text, capture("yy"), lines + report(2, 2), words=["--splits"])
    steps = ["live 0", "install 0 1", "take 1", "install 0 2", "take 1", "install 0 3", "take 1"]
    lines = told(1000, "2 5", 6, a1, "2 B@10.8.0.2", "down") + counts(1, 1, 0)
    simulates("down, then back", scenario(steps, [ALL, A_DOWN, ALL]), capture("yyy"), lines + report(3, 3), words=["--splits"])
    unseen = scenario([*steps[:4], *steps[5:]], [ALL, A_DOWN, ALL])
    simulates("down and back, unseen", unseen, capture("yy"), counts(1, 0, 0) + report(2, 2), words=["--splits"])
    # Last the flow is served under version 3, where A is down, by an entry of version 2, where it was up.
    text = scenario(["install 0 1", "install 1 2", "take 2", "install 1 3", "take 2"], [ALL, B_DOWN, A_DOWN])
    lines = told(1006, "3 5", 5, a1, c2, "moved") + told(1006, "5 8", 5, c2, a1, "moved") + told(1006, "8 10", 5, a1, c2, "down")
    simulates("one flow, three times", text, capture("xxxx"), lines + counts(1, 1, 2) + report(4, 4), words=["--splits"])
    nobody = [member + "/down" for member in ALL]
    lines = told(1006, "2 8", 5, a1, "3 C@10.8.0.3", "down") + counts(1, 1, 0)
    dropped = report(3, 2, drops="drop NoBackend 1\n")
    simulates("a drop between two", scenario(steps, [ALL, nobody, A_DOWN]), capture("xxx"), lines + dropped, words=["--splits"])
    text = scenario(["install 0 1", "install 1 1", "take 3"], scheme="round")
    lines = told(1006, "5 7", 5, a1, "1 B@10.8.0.2", "moved") + counts(2, 0, 1)
    simulates("a split by turns", text, capture("yxx"), lines + report(3, 3), words=["--splits"])


def test_spreading_and_waiting():
    # Under the sum hash y goes to the first of two live nodes, and z to the second.
    text = scenario(["install 0 1", "install 1 1", "take 3"]).replace('"turn"', '"hash"')
    events = """0 install 0 1: installed
1 install 1 1: installed
2 arrive 1 0: placed 0
3 serve 1 0 1: forward B@10.8.0.2 from 1
4 arrive 0 1: placed 0
5 serve 0 0 1: forward A@10.8.0.1 from 1
6 arrive 1 2: placed 0
7 serve 1 0 1: forward B@10.8.0.2 from 1
"""
    simulates("spread by hash", text, capture("zyz"), events + report(3, 3), words=["--list"])
    # A held node serves what waits when it is drained, worker 0's packets first, under the newest version.
    text = scenario(["live 0", "install 0 1", "hold 0", "take 3", "install 0 2", "drain 0", "take 1"], workers=2)
    events = """0 install 0 1: installed
1 arrive 0 0: placed 1
2 arrive 0 1: placed 0
3 arrive 0 2: placed 1
4 install 0 2: installed
5 serve 0 0 2: forward A@10.8.0.1 from 2
6 serve 0 1 2: forward A@10.8.0.1 from 2
7 serve 0 1 2: forward A@10.8.0.1 from 2
8 arrive 0 3: placed 0
9 serve 0 0 2: forward C@10.8.0.3 from 2
"""
    simulates("a hold and a drain", text, capture("zyzx"), events + report(4, 4), words=["--list"])
    # Frames wait at two workers of two nodes, in queues that wrap; a restart forgets those of its node alone.
    steps = ["install 0 1", "install 1 1", "hold 1", "take 6", "drain 1", "hold 0", "hold 1", "take 8", "restart 0", "drain 1"]
    text, data = scenario(steps, workers=2), capture("yzyyxxyxzzxyyx")
    expected = model.Run(text, data)
    simulates("frames wait", text, data, expected.listing() + expected.report(), expected.output(), ["--list"])
    flows = [letter for one in records_of(expected.output()) for letter in "xyz" if one[40:] == packet(letter)]
    check("the flows of the frames", "".join(flows) == "yyxyxzxyxz", repr(flows))
    # Lost records use up numbers, and may be delivered again.
    text = scenario(["live 0", "install 0 1", "lose 1", "take 1", "lose 9", "again 0", "again 2"])
    events = """0 install 0 1: installed
1 arrive 0 1: placed 0
2 serve 0 0 1: forward B@10.8.0.2 from 1
3 arrive 0 0: placed 0
4 serve 0 0 1: forward A@10.8.0.1 from 1
5 arrive 0 2: placed 0
6 serve 0 0 1: forward A@10.8.0.1 from 1
"""
    counts = report(3, 3, received=3, lost=2)
    simulates("lost records", text, capture("yzx"), events + counts, words=["--list"])
    # A record comes again before it was read, and then, with other steps between, as often as the steps say.
    repeats = ["again 0", "take 1", "again 0", "again 1", "lose 1", "again 1", "again 2"]
    text = scenario(["live 0", "install 0 1", "again 1", "take 1", *repeats])
    events = "0 install 0 1: installed\n"
    sent = [(0, "A@10.8.0.1"), (0, "A@10.8.0.1"), (1, "B@10.8.0.2"), (0, "A@10.8.0.1"), (1, "B@10.8.0.2"), (1, "B@10.8.0.2"), (2, "A@10.8.0.1")]
    for turn, (place, backend) in enumerate(sent):
        events += f"{2 * turn + 1} arrive 0 {place}: placed 0\n{2 * turn + 2} serve 0 0 1: forward {backend} from 1\n"
    counts = report(3, 7, received=7, lost=1, skipped=1)
    simulates("repeats", text, capture("yzx"), events + counts, model.Run(text, capture("yzx")).output(), ["--list"])


# What is no capture that is read, and its fault.
NO_CAPTURES = [
    ("pcapng", bytes.fromhex("0a0d0d0a") + bytes(40), "BadMagic"),
    ("pcapng, another version and link", bytes.fromhex("0a0d0d0a") + HEAD[4:5] + b"\x01" + HEAD[6:23] + b"\x71", "BadMagic"),
    ("a version that isn't 2.4 and another link", HEAD[:5] + b"\x01" + HEAD[6:23] + b"\x71", "BadVersion"),
    ("Linux cooked capture", HEAD[:23] + b"\x71", "BadLink"),
    ("an empty file", b"", "ShortHeader"),
]


def test_simulate_captures():
    text = scenario(["install 0 1", "take 1"])
    output = WRITTEN_HEAD + SENT_RECORD
    simulates("no record", text, HEAD, report(0, 0), WRITTEN_HEAD)
    simulates("one record", text, HEAD + record(P), report(1, 1), output)
    frame = HEAD[:23] + b"\x01" + record(bytes(12) + b"\x08\x00" + P + bytes(6))
    simulates("an Ethernet frame with padding", text, frame, report(1, 1), output)
    fragment = P[:6] + b"\x20" + P[7:10] + b"\x8e" + P[11:]
    simulates("a fragment", text, HEAD + record(fragment), report(1, 0, drops="drop Fragment 1\n"), WRITTEN_HEAD)
    wrong = P[:11] + b"\xce" + P[12:]
    simulates("a wrong checksum", text, HEAD + record(wrong), report(1, 0, drops="drop BadChecksum 1\n"), WRITTEN_HEAD)
    untested = scenario(["install 0 1", "take 1"], more="check = false\n")
    simulates("a wrong checksum, not tested", untested, HEAD + record(wrong), report(1, 1), output.replace(P, wrong))
    simulates("a cut record", text, (HEAD + record(P))[:-1], report(0, 0, cut="yes"), WRITTEN_HEAD)
    simulates("a snapped record", text, HEAD + record(P[:28]), report(1, 0, drops="drop Truncated 1\n"), WRITTEN_HEAD)
    segment = P[:2] + bytes(2) + P[4:]
    simulates("a total length of 0", text, HEAD + record(segment), report(1, 0, drops="drop BadHeader 1\n"), WRITTEN_HEAD)
    held = scenario(["live 0", "install 0 1", "hold 0", "take 2", "restart 0", "take 1"])
    simulates("lost at a restart", held, capture("yyy"), report(3, 1, drops="drop LostAtRestart 2\n"))
    odd = scenario(["install 0 1", "again 0", "live", "take 1", "install 0 7"])
    simulates("counts", odd, capture("yy"), report(2, 0, received=0, unrouted=1, skipped=1, left=1, refused=1), WRITTEN_HEAD)
    long = struct.pack(">4I", 0, 0, 262145, 262145) + bytes(262145)
    # What is sent before the fault is found may be written or not, but never half of it.
    answer = simulated(text, HEAD + record(P) + long)
    is_right = answer[:3] == (1, b"", b"fault: TooLong\n") and answer[3] in (WRITTEN_HEAD, output)
    check("a record that is too long", is_right, repr(answer))
    two = scenario(["install 0 1", "take 2"])
    stops("a header of a record that is too long", two, HEAD + record(P) + long[:16], "TooLong", output)
    # It is met by a step that takes, by one that loses, and after the last step.
    for steps in [["take 3", "again 0"], ["take 1", "lose 1", "again 0"], ["take 1"]]:
        met = scenario(["live 0", "install 0 1", *steps])
        stops(f"a record that is too long, {steps}", met, HEAD + record(P) + long[:16], "TooLong", output, ["--list"])
    # Either byte order, microseconds or nanoseconds.
    for name, order, magic, fraction in [
        ("big-endian, microseconds", ">", 0xA1B2C3D4, 999999),
        ("little-endian, microseconds", "<", 0xA1B2C3D4, 999999),
        ("little-endian, nanoseconds", "<", 0xA1B23C4D, 999999000),
    ]:
        head = struct.pack(order + "IHHiIII", magic, 2, 4, 0, 0, 65535, 101)
        data = head + struct.pack(order + "4I", 1, fraction, len(P), len(P)) + P
        simulates(name, text, data, report(1, 1), output)
    stops("a version that isn't 2.4", text, HEAD[:7] + b"\x03" + HEAD[8:], "BadVersion", None)
    explain = ["explain", "s.toml", "in.pcap", "1", "2"]
    for name, data, fault in NO_CAPTURES:
        stops(name, text, data, fault, None)
        answer = with_files(text, data, lambda folder: run(explain, cwd=folder))
        check(f"{name}, explained", answer == (1, b"", f"fault: {fault}\n".encode()), repr(answer))
    answer = with_files(text, HEAD + record(P) + long[:16], lambda folder: run(explain, cwd=folder))
    check("a record that is too long, explained", answer == (1, b"", b"fault: TooLong\n"), repr(answer))


def test_cuts():
    """A capture of two records, cut after each byte from its header on: the records that are whole are sent, and a cut inside
    of one is reported."""
    text, data = scenario(["install 0 1", "install 1 2", "take 2"]), capture("xy")
    whole = model.Run(text, data).output()
    check("two records", (len(data), len(whole)) == (24 + 2 * 56, 24 + 2 * 80))
    for length in range(24, 136):
        records, inside = divmod(length - 24, 56)
        written = report(records, records, cut="yes" if inside else "no")
        simulates(f"{length} bytes of a capture", text, data[:length], written, whole[: 24 + 80 * records])


def sized(letter, length):
    """A packet of so many bytes: its flow, its total length, and a header checksum that is right. What is behind it is sevens."""
    head = packet(letter)[:2] + length.to_bytes(2, "big") + P[4:10] + bytes(2) + P[12:20]
    head = head[:10] + (65535 - model.folded(head)).to_bytes(2, "big") + head[12:]
    return head + packet(letter)[20:] + bytes([7]) * (length - len(P))


def snapped(order, packets, most):
    """A capture in a byte order of these packets, each of which was cut to so many bytes."""
    head = struct.pack(order + "IHHIIII", 0xA1B2C3D4, 2, 4, 0, 0, 65535, 101)
    return head + b"".join(struct.pack(order + "4I", 1, 0, min(most, len(data)), len(data)) + data[:most] for data in packets)


def plays_as(name, text, data, whole):
    """With `--cut pad` a capture is played as another one: to the byte, by each command, from a file and from standard input."""
    for words in [["simulate"], ["simulate", "--list"], ["simulate", "--splits", "--where"], ["run", "--splits"]]:

        def use(folder, more, words=words):
            answer = run([*words, *more, "s.toml", "in.pcap", "out.pcap"], cwd=folder)
            return answer, (folder / "out.pcap").read_bytes()

        expected = with_files(text, whole, lambda folder: use(folder, []))
        answer = with_files(text, data, lambda folder: use(folder, ["--cut", "pad"]))
        check(f"{name}: {' '.join(words)}", answer == expected and expected[0][0] == 0, f"{answer} {expected}")
    expected = with_files(text, whole, lambda folder: run(["explain", "s.toml", "in.pcap", "2", "4"], cwd=folder))
    answer = with_files(text, data, lambda folder: run(["explain", "--cut", "pad", "s.toml", "-", "2", "4"], stdin=data, cwd=folder))
    check(f"{name}: explain", answer == expected, f"{answer} {expected}")


def test_cut():
    """`--cut pad` plays records that a snap length cut as the datagrams that they were, with zeros where bytes are missing."""
    lengths = [40, 41, 59, 60, 61, 100, 1400, 40, 9000, 64]
    packets = [sized(letter, length) for letter, length in zip("yzxyzxyzxy", lengths)]
    text = scenario(["install 0 1", "install 1 2", "take 10"])
    for order in "<>":
        whole = snapped(order, packets, 65535)
        for most in [40, 60, 96]:
            data = snapped(order, packets, most)
            padded = model.padded(data)
            check("the model pads to the original lengths", len(padded) == len(whole), str(len(padded)))
            plays_as(f"a snap length of {most}, {order}", text, data, padded)
            expected = model.Run(text, padded)
            simulates(f"the padded capture of {most}, {order}", text, data, expected.report(), expected.output(), ["--cut", "pad"])
            # what was sent of the whole capture, but for the bytes that are missing
            report = simulated(text, whole, ["--list"])[1].decode()
            simulates(f"as the whole capture, {most}, {order}", text, data, report, words=["--list", "--cut", "pad"])
        plays_as(f"nothing was cut, {order}", text, whole, whole)
        cut = snapped(order, packets, 60)
        for left in [1, 59, 60, 61, 75, 76, 100, len(cut) - 24]:
            plays_as(f"an input that ends {left} bytes early, {order}", text, cut[: len(cut) - left], model.padded(cut[: len(cut) - left]))
        long = cut + struct.pack(order + "4I", 1, 0, 40, 262145) + P
        plays_as(f"an original length that no record has, {order}", text.replace("take 10", "take 11"), long, model.padded(long))
        most = cut + struct.pack(order + "4I", 1, 0, 40, 262144) + P
        plays_as(f"the greatest original length, {order}", text.replace("take 10", "take 11"), most, model.padded(most))
    for seed in range(50):
        source = random.Random(31000 + seed)
        data = bytearray(random_capture(source))
        for _ in range(3):
            if len(data) > 60:
                data[source.randrange(24, len(data))] ^= 1 << source.randrange(8)
        whole = model.padded(bytes(data))
        steps = with_files(text, whole, lambda folder: run(["simulate", "s.toml", "in.pcap", "out.pcap"], cwd=folder))
        answer = with_files(text, bytes(data), lambda folder: run(["simulate", "--cut", "pad", "s.toml", "in.pcap", "out.pcap"], cwd=folder))
        check(f"a spoiled capture {seed} is played as the padded one", answer == steps, f"{answer} {steps}")
    for name, data in [("no byte", b""), ("a short header", HEAD[:23]), ("no magic number", bytes(40))]:
        plain = with_files(text, data, lambda folder: run(["simulate", "s.toml", "in.pcap", "out.pcap"], cwd=folder))
        answer = with_files(text, data, lambda folder: run(["simulate", "--cut", "pad", "s.toml", "in.pcap", "out.pcap"], cwd=folder))
        check(f"{name} is refused as without the option", answer == plain and plain[0] == 1, f"{answer} {plain}")
    misused("simulate with another way", ["simulate", "--cut", "drop", "s.toml", "in.pcap", "out.pcap"])


def datagram_of(length):
    """A datagram of so many bytes, with a wrong checksum."""
    return P[:2] + length.to_bytes(2, "big") + P[4:] + bytes([7]) * (length - len(P))


def test_limits():
    """Runs at the limits of what is accepted."""
    # More than 1,000 records, and a listing of more than 65,536 bytes.
    events = listing_of(1200)
    many = scenario(["live 0", "install 0 1", "take 1200"])
    simulates("many records", many, capture("y" * 1200), events + report(1200, 1200), WRITTEN_HEAD + SENT_RECORD * 1200, ["--list"])
    check("a long listing", len(events) > 65_536)
    # The largest datagram that a tunnel can carry, and one of a byte more.
    text = scenario(["live 0", "install 0 1", "take 1"], more="check = false\n")
    largest = datagram_of(65_511)
    status, out, err, made = simulated(text, HEAD + record(largest))
    check("the largest datagram", (status, out, err) == (0, report(1, 1).encode(), b""), f"{status} {out!r} {err!r}")
    is_right = made[:24] == WRITTEN_HEAD and made[32:40] == bytes.fromhex("ffff0000") * 2 and made[64:] == largest
    check("the largest datagram, what is written", is_right and len(made) == 24 + 16 + 65_535)
    simulates("a datagram that is too large", text, HEAD + record(datagram_of(65_512)), report(1, 0, drops="drop TooLarge 1\n"), WRITTEN_HEAD)
    # 64 nodes of 16 workers, each with a table for 1,000,000 entries.
    text = scenario(["live 0 63", "install 0 1", "install 63 1", "take 2"], [ALL], workers=16)
    text = text.replace("capacity = 2", "capacity = 1000000").replace('["10.9.0.1", "10.9.0.2"]', listed([f"10.9.1.{node}" for node in range(64)]))
    events = "0 install 0 1: installed\n1 install 63 1: installed\n2 arrive 0 0: placed 6\n3 serve 0 6 1: forward A@10.8.0.1 from 1\n"
    events += "4 arrive 63 1: placed 6\n5 serve 63 6 1: forward A@10.8.0.1 from 1\n"
    status, out, err, made = simulated(text, capture("yy"), ["--list"])
    check("the largest cluster", (status, out, err) == (0, (events + report(2, 2)).encode(), b""), f"{status} {out!r} {err!r}")
    check("the largest cluster, what is written", len(made) == 24 + 2 * 80)


def listing_of(records):
    """The listing of a run in which one balancer sends so many records of one flow."""
    events = "0 install 0 1: installed\n"
    for place in range(records):
        events += f"{2 * place + 1} arrive 0 {place}: placed 0\n{2 * place + 2} serve 0 0 1: forward A@10.8.0.1 from 1\n"
    return events


def ends_within(kilobytes, command, folder):
    """How a command ends that has so much room for its addresses, and what it says on standard error."""
    limited = ["sh", "-c", f'ulimit -v {kilobytes} && exec "$0" "$@"', *command]
    done = subprocess.run(limited, cwd=folder, stdout=subprocess.DEVNULL, stderr=subprocess.PIPE, timeout=600)
    return done.returncode, done.stderr


def test_listings_as_they_go():
    """A listing is printed as the run goes: what memory there is doesn't grow with it, and a fault finds a part of it printed."""
    steps = ["live 0", "install 0 1", "take 60000"]
    # A record that is too long is found behind 2,000 others, whose lines fill a page.
    def stops(folder):
        (folder / "in.pcap").write_bytes(capture("y" * 2000) + struct.pack(">4I", 1, 0, 262_145, 262_145))
        for more in [["--list"], ["--json", "--list"]]:
            status, out, err = run(["simulate", *more, "s.toml", "in.pcap", "out.pcap"], cwd=folder)
            name = f"a fault behind {' '.join(more)}"
            check(f"{name}: the fault", status == 1 and b"TooLong" in err and err.count(b"\n") == 1, f"{status} {err!r}")
            whole = listing_of(2000).encode()
            is_prefix = whole.startswith(out) if more == ["--list"] else out.startswith(b'{"type":"maglev"')
            check(f"{name}: a part of the listing", is_prefix and len(out) >= 65_536, f"{len(out)} {out[:80]!r}")
        status, out, err = run(["simulate", "s.toml", "in.pcap", "out.pcap"], cwd=folder)
        check("a fault without --list: nothing is printed", (status, out, err) == (1, b"", b"fault: TooLong\n"), f"{status} {out!r} {err!r}")

    with_files(scenario(steps), b"", stops)

    # A device that is full, and a reader that goes away, while the run goes.
    def unheard(folder):
        words = ["simulate", "--list", "s.toml", "in.pcap", "out.pcap"]
        unprinted(words, folder)
        with open("/dev/full", "wb") as full:
            status, _, err = run([*words[:1], "-v", *words[1:]], cwd=folder, stdout=full)
        check("-v of a listing that can't be written", status == 1 and err.startswith(b"fault: Write\n") and err.count(b"\n") == 2, err)
        with subprocess.Popen([PROGRAM, *words], cwd=folder, stdout=subprocess.PIPE, stderr=subprocess.PIPE) as child:
            first = child.stdout.readline()
            child.stdout.close()
            err = child.stderr.read()
            status = child.wait()
        check("a reader of a listing goes away", (first, err, status) == (b"0 install 0 1: installed\n", b"", 141), f"{first!r} {err!r} {status}")
        # Where OUTPUT is standard output the listing goes to standard error.
        status, out, err = run(["simulate", "--list", "s.toml", "in.pcap", "-"], cwd=folder)
        is_right = status == 0 and err == (listing_of(2000) + report(2000, 2000)).encode() and out == WRITTEN_HEAD + SENT_RECORD * 2000
        check("a listing on standard error", is_right, f"{status} {len(out)} {len(err)}")

    with_files(scenario(steps), capture("y" * 2000), unheard)

    # A listing of 30,000,000 bytes, or objects of 200,000,000, in 40,000 kilobytes.
    def fits(folder):
        for more in [["--list"], ["--json", "--list"]]:
            answer = ends_within(40_000, [PROGRAM, "simulate", *more, "s.toml", "in.pcap", "out.pcap"], folder)
            check(f"{' '.join(more)}: memory doesn't grow with the events", answer == (0, b""), answer)

    with_files(scenario(["live 0", "install 0 1", "take 300000"]), HEAD + record(packet("y")) * 300_000, fits)


def unprinted(arguments, folder):
    """A report that can't be written is a fault."""
    with open("/dev/full", "wb") as full:
        status, _, err = run(arguments, cwd=folder, stdout=full)
    check(f"{arguments[0]}: a report that can't be written", (status, err) == (1, b"fault: Write\n"), f"{status} {err!r}")


def breaks_at_files(command):
    """A command that writes an output says which of its files it can't use, and spoils none."""

    def use(folder):
        words = [command, "s.toml", "in.pcap"]
        faults(f"{command}: a folder as a scenario", [command, ".", "in.pcap", "out"], "ReadScenario", cwd=folder)
        faults(f"{command}: a folder as an input", [command, "s.toml", ".", "out"], "Read", cwd=folder)
        check(f"{command}: OUTPUT isn't made", not (folder / "out").exists())
        faults(f"{command}: a folder as an output", [*words, "."], "OpenOutput", cwd=folder)
        faults(f"{command}: an output in no folder", [*words, "none/out"], "OpenOutput", cwd=folder)
        faults(f"{command}: an output that can't be written", [*words, "/dev/full"], "Write", cwd=folder)
        (folder / "old").write_bytes(b"old")
        faults(f"{command}: a bad header", [command, "s.toml", "s.toml", "old"], "BadMagic", cwd=folder)
        check(f"{command}: OUTPUT isn't emptied", (folder / "old").read_bytes() == b"old")
        unprinted([*words, "out"], folder)
        check(f"{command}: OUTPUT stands before the report", (folder / "out").read_bytes() == WRITTEN_HEAD + SENT_RECORD)

    with_files(scenario(["install 0 1", "take 1"]), capture("y"), use)
    full = [command, "s.toml", "in.pcap", "/dev/full"]
    many = scenario(["install 0 1", "take 5000"])
    with_files(many, capture("y" * 5000), lambda folder: faults(f"{command}: a disk that fills up", full, "Write", cwd=folder))


def test_simulate_faults():
    good = scenario(["install 0 1", "take 1"])
    stops("no TOML", "format = ", HEAD, "BadToml", None)
    stops("no UTF-8", b"format = 1 # \xff\n", HEAD, "BadToml", None)
    stops("another format", good.replace("format = 1", "format = 4"), HEAD, "BadFormat", None)
    stops("a weight in format 1", good.replace("10.8.0.1", "10.8.0.1*2"), HEAD, "BadMember", None)
    stops("a weight of 17", good.replace("format = 1", "format = 2").replace("10.8.0.1", "10.8.0.1*17"), HEAD, "BadMember", None)
    stops("an unknown key", "color = 1\n" + good, HEAD, "BadKey", None)
    stops("a member that isn't one", good.replace("10.8.0.1", "10.8.0.01"), HEAD, "BadMember", None)
    stops("a double name", good.replace("B@", "A@"), HEAD, "DoubleName", None)
    stops("a double version", scenario([]).replace("number = 2", "number = 1"), HEAD, "NumberTaken", None)
    stops("a step that isn't one", scenario(["install 0 1", "take 1", "install 2 1"]), HEAD, "BadStep 2", None)
    stops("a scenario of 1,048,577 bytes", good.ljust(1048577, "\n"), HEAD, "TooLong", None)
    simulates("a scenario of 1,048,576 bytes", good.ljust(1048576, "\n"), HEAD, report(0, 0), WRITTEN_HEAD)
    stops("no scenario", None, HEAD, "OpenScenario", None)
    stops("no scenario and no input", None, None, "OpenScenario", None)
    stops("no input", good, None, "OpenInput", None)
    stops("a bad scenario and no input", scenario(["take"]), None, "BadStep 0", None)
    stops("a stop and no input", scenario(["take 1", "stop 1"]), None, "BadStep 1", None)
    stops("a step that isn't one behind a stop", scenario(["stop 0", "take"]), HEAD, "BadStep 0", None)
    stops("a stop behind a step that isn't one", scenario(["take", "stop 0"]), HEAD, "BadStep 0", None)
    stops("two stops", scenario(["take 1", "stop 1", "stop 0"]), HEAD, "BadStep 1", None)
    words = ["explain", "s.toml", "in.pcap", "0", "1"]
    answer = with_files(good, None, lambda folder: run(words, cwd=folder))
    check("explain of no input", answer == (1, b"", b"fault: OpenInput\n"), repr(answer))
    with_files(good, capture("y"), lambda folder: unprinted(words, folder))
    breaks_at_files("simulate")
    misused("explain of a word", ["explain", "s.toml", "in.pcap", "one", "2"])
    misused("explain of a number that doesn't fit", ["explain", "s.toml", "in.pcap", "0", str(2**64)])
    misused("explain of one event", ["explain", "s.toml", "in.pcap", "0"])
    misused("simulate without an output", ["simulate", "s.toml", "in.pcap"])


def ran(text, data, words=()):
    """Status, standard output, standard error and OUTPUT (None where there is none) of `run`."""

    def use(folder):
        answer = run(["run", *words, "s.toml", "in.pcap", "out.pcap"], cwd=folder)
        out = folder / "out.pcap"
        return (*answer, out.read_bytes() if out.exists() else None)

    return with_files(text, data, use)


def runs(name, text, data, expected, output=None, words=()):
    """`run` prints this text and `audit agrees`, and where OUTPUT is given writes exactly that."""
    status, out, err, made = ran(text, data, words)
    check(name, (status, out, err) == (0, (expected + "audit agrees\n").encode(), b""), f"{status} {out!r} {err!r}")
    if output is not None:
        check(name + ", what is written", made == output, repr(made))
    return made


def breaks_off(name, text, data, fault, output=None, words=()):
    """`run` ends with this fault and nothing on standard output, and OUTPUT holds this (None: it wasn't made)."""
    status, out, err, made = ran(text, data, words)
    is_right = (status, out, err, made) == (1, b"", f"fault: {fault}\n".encode(), output)
    check(name, is_right, f"{status} {out!r} {err!r} {made!r}")


def records_of(data):
    """The records of a capture that the program wrote, each with its 16 bytes in front."""
    found, at = [], len(WRITTEN_HEAD)
    while at < len(data):
        length = 16 + struct.unpack_from("<I", data, at + 8)[0]
        found.append(data[at : at + length])
        at += length
    return found


def sent_to(node, port, backend):
    """The record of the packet from this port that a node sends to a backend, but for the outer checksum."""
    packet = P[:20] + port.to_bytes(2, "big") + P[22:]
    outer = bytes.fromhex("4500004000004000402f") + bytes(2) + bytes([10, 9, 0, node, 10, 8, 0, backend])
    return SENT_RECORD[:16] + outer + bytes.fromhex("00000800") + packet


def without_sum(one):
    """A record without the outer checksum."""
    return one[:26] + bytes(2) + one[28:]


def stops_in_traffic(name, text, data):
    """Node 0 stops: of the three packets of its first life those that no worker took are lost, and nothing else is."""
    status, out, err, made = ran(text, data)
    found = re.search(rb"^drop LostAtRestart (\d+)$", out, re.MULTILINE)
    lost = int(found[1]) if found else 0
    drops = f"drop LostAtRestart {lost}\n" if lost else ""
    expected = report(8, 8 - lost, received=8, lost=1, drops=drops) + "audit agrees\n"
    check(name, lost <= 3 and (status, out, err) == (0, expected.encode(), b""), f"{status} {out!r} {err!r}")
    sent = [without_sum(one) for one in records_of(made)]
    check(f"{name}: node 0 sends y", sent[: 4 - lost] == [sent_to(1, 1000, 1)] * (4 - lost), repr(sent))
    check(f"{name}: node 1 sends what came to it", len(sent) == 8 - lost and all(one[28:32] == bytes([10, 9, 0, 2]) for one in sent[4 - lost :]), repr(sent))


def runs_with_a_restart(name, text):
    """Node 0 restarts, and sends y four times in its two lives. The records that are sent, without their outer checksums."""
    made = runs(name, text, capture("yzyzyzyz"), report(8, 8, lost=1))
    sent = [without_sum(one) for one in records_of(made)]
    check(f"{name}: node 0 sends y four times, in two lives", sent[:4] == [sent_to(1, 1000, 1)] * 4, repr(sent))
    return sent


def test_run_rows():
    """A cluster on threads. What may differ by the schedule is left open."""
    held = scenario(["install 0 1", "hold 0"], workers=2)
    breaks_off("a step that no cluster on threads knows", held, HEAD, "BadStep 1")
    simulates("the same step, simulated", held, HEAD, report(0, 0), WRITTEN_HEAD)
    for step in ["drain 1", "full 0 1", "full 0"]:
        breaks_off(f"the step {step}", scenario(["take 1", "install 0 1", step], workers=2), HEAD, "BadStep 2")
    steps = ["install 0 1", "install 1 1", "take 3", "lose 1", "again 0", "install 0 2", "install 1 2", "take 2", "restart 0", "take 2"]
    few = scenario(steps, workers=2, more="ring = 16\n")
    text = few.replace("capacity = 2", "capacity = 8")
    for _ in range(20):
        sent = runs_with_a_restart("two nodes with a restart", text)
        later = sorted(sent[4:])
        b_first, a_first = (sorted([sent_to(2, 1000, 1), sent_to(2, 1001, one), *[sent_to(2, 1001, 1)] * 2]) for one in (2, 1))
        check("node 1 sends y once and z three times", later in (b_first, a_first), repr(sent))
    for _ in range(5):
        runs_with_a_restart("the same with a limit of no time", limited(text, 0))
        runs_with_a_restart("the same with two entries", few)
        runs_with_a_restart("the same with two entries and a limit of no time", limited(few, 0))
        stops_in_traffic("two nodes of two entries with a stop", few.replace("restart 0", "stop 0"), capture("yzyzyzyz"))
    text = text.replace("restart 0", "stop 0")
    for _ in range(20):
        stops_in_traffic("two nodes with a stop", text, capture("yzyzyzyz"))
    for number, command in enumerate([["simulate", "s.toml", "in.pcap", "out.pcap"], ["explain", "s.toml", "in.pcap", "0", "1"]]):
        status, out, err = with_files(text, capture("y"), lambda folder: run(command, cwd=folder))
        check(f"{command[0]}: a stop", (status, out, err) == (1, b"", b"fault: BadStep 8\n"), f"{status} {out!r} {err!r}")
    one = scenario(["install 0 1", "take 1"])
    output = WRITTEN_HEAD + SENT_RECORD
    runs("one record", one, HEAD + record(P), report(1, 1), output)
    runs("records behind the last step", one, capture("yzx"), report(3, 1, received=1, left=2), output)
    runs("no record", one, HEAD, report(0, 0), WRITTEN_HEAD)
    runs("a cut record", one, (HEAD + record(P))[:-1], report(0, 0, cut="yes"), WRITTEN_HEAD)
    odd = scenario(["install 0 1", "again 0", "live", "take 1", "install 0 7"])
    runs("counts", odd, capture("yy"), report(2, 0, received=0, unrouted=1, skipped=1, left=1, refused=1), WRITTEN_HEAD)
    runs("round robin", scenario(["live 0", "install 0 1", "take 3"], scheme="round"), capture("yzx"), report(3, 3))
    runs("plain hashing", scenario(["live 0", "install 0 1", "take 3"], scheme="plain"), capture("yzx"), report(3, 3))
    drops = scenario(["live 0", "take 1", "install 0 1", "take 1"])
    fragment = P[:6] + b"\x20" + P[7:10] + b"\x8e" + P[11:]
    both = report(2, 0, drops="drop Fragment 1\ndrop NoVersion 1\n")
    runs("drops of a driver", drops, capture("y") + record(fragment), both, WRITTEN_HEAD)


def runs_as_simulated(name, text, data):
    """A run sends what is sent simulated, node by node, and reports the same."""
    status, printed, _, simulation = simulated(text, data)
    check(f"{name}, simulated", status == 0, text)
    by_node = sorted(records_of(simulation), key=lambda one: one[28:32])
    runs(f"{name} on threads", text, data, printed.decode(), WRITTEN_HEAD + b"".join(by_node))


def test_run_as_simulated():
    """With one worker a node, one version, no restart and room in the rings each node sends what it sends simulated."""
    runs_as_simulated("a repeat", scenario(["install 0 1", "install 1 1", "take 4", "again 1", "take 9"]), capture("xyzyx"))
    for seed in range(20):
        source = random.Random(seed)
        nodes = source.randrange(1, 4)
        steps = [f"install {node} 1" for node in range(nodes)]
        for _ in range(source.randrange(12)):
            live = " ".join(str(node) for node in source.sample(range(nodes), source.randrange(nodes + 1)))
            more = [f"take {source.randrange(9)}", f"lose {source.randrange(3)}", f"again {source.randrange(20)}", f"live {live}".strip()]
            steps.append(source.choice(more))
        text = scenario(steps, scheme=source.choice(["maglev", "plain", "round"]))
        text = text.replace('["10.9.0.1", "10.9.0.2"]', listed([f"10.9.0.{node + 1}" for node in range(nodes)]))
        text = text.replace('"turn"', source.choice(['"turn"', '"hash"']))
        runs_as_simulated(f"scenario {seed}", text, random_capture(source))


def longer(data, more):
    """A datagram with so many bytes more behind its own."""
    header = bytearray(data[:20])
    header[2:4], header[10:12] = (len(data) + more).to_bytes(2, "big"), bytes(2)
    header[10:12] = (0xFFFF - model.folded(bytes(header))).to_bytes(2, "big")
    return bytes(header) + data[20:] + bytes(number % 251 for number in range(more))


def test_many_run_as_simulated():
    """More datagrams of one life than a thread wraps at once, and more bytes of them than it takes: they come in their order."""
    for count, least, most in [(4096, 0, 40), (4097, 0, 40), (35_000, 0, 40), (9_000, 900, 1_500), (9_500, 2_000, 4_000)]:
        source = random.Random(count)
        data = HEAD + b"".join(record(longer(packet(source.choice("xyz")), source.randrange(least, most))) for _ in range(count))
        for lives in ("live 0", "live 0 1"):
            text = scenario([lives, "install 0 1", "install 1 1", f"take {count}"], more="ring = 65536\n")
            runs_as_simulated(f"{count} datagrams of up to {most} bytes more, {lives}", text, data)


def runs_both_ways(name, text, letters, lines, rest):
    """`run --splits` prints these lines and the report, and without the option the report alone; what is sent is the same."""
    made = runs(name, text, capture(letters), lines + rest, words=["--splits"])
    runs(f"{name}, without its splits", text, capture(letters), rest, made)


def test_run_splits():
    """`run --splits`, worked out by hand: no version comes while packets wait, so that no schedule changes the history."""
    a1, c2 = "1 A@10.8.0.1", "2 C@10.8.0.3"
    apart = scenario(["install 0 1", "install 1 2", "take 2"])
    lines = told(1006, "2 5", 5, a1, c2, "moved") + counts(1, 0, 1)
    runs_both_ways("run: one split", apart, "xx", lines, report(2, 2))
    runs_both_ways("run: no split", apart, "yy", counts(1, 0, 0), report(2, 2))
    runs("run: no send", scenario(["take 1"]), capture("y"), counts(0, 0, 0) + report(1, 0, drops="drop NoVersion 1\n"), words=["--splits"])
    steps = ["install 0 1", "install 1 1", "take 4", "restart 0", "install 0 2", "take 4"]
    lines = told(1006, "3 9", 5, a1, c2, "moved") + told(1006, "9 16", 5, c2, a1, "moved") + counts(2, 0, 2)
    for _ in range(10):
        runs_both_ways("run: splits by a restart", scenario(steps), "xxyyxxyy", lines, report(8, 8))
    alone = scenario(["live 0", "install 0 1", "take 1", "restart 0", "install 0 2", "take 1"], [ALL, A_DOWN])
    lines = told(1000, "2 6", 6, a1, "2 B@10.8.0.2", "down") + counts(1, 1, 0)
    simulates("a packet a life", alone, capture("yy"), lines + report(2, 2), words=["--splits"])
    runs_both_ways("run: a packet a life", alone, "yy", lines, report(2, 2))
    text = scenario(["install 0 1", "install 1 1", "take 3"], scheme="round")
    lines = told(1006, "4 7", 5, "1 B@10.8.0.2", a1, "moved") + counts(2, 0, 1)
    runs_both_ways("run: a split by turns", text, "yxx", lines, report(3, 3))


def steps_by_lives(source, nodes, _workers):
    """Steps in which all nodes live a few lives side by side, and get their version before any packet of a life."""
    steps = []
    for life in range(source.randrange(1, 5)):
        steps += [f"restart {node}" for node in range(nodes) if life]
        steps += [f"install {node} {source.choice([life + 1, source.randrange(1, 5)])}" for node in range(nodes)]
        for _ in range(source.randrange(1, 6)):
            live = " ".join(str(node) for node in source.sample(range(nodes), source.randrange(nodes + 1)))
            more = [f"take {source.randrange(1, 20)}", f"take {source.randrange(1, 20)}", f"lose {source.randrange(3)}", f"again {source.randrange(20)}"]
            steps.append(source.choice([*more, f"live {live}".strip()]))
    return steps


def test_run_splits_against_the_model():
    """What is told of the splits of random runs is what the plain model says of its events, in the order of their histories."""
    weights = ("", "", *(f"*{weight}" for weight in range(1, 17)))
    for seed in range(40):
        source = random.Random(2000 + seed)
        text, data = random_scenario(source, weights, steps_by_lives), random_capture(source)
        expected = model.Run(text, data)
        split = expected.on_threads().splits() + expected.report()
        runs(f"the splits of scenario {seed} by lives, on threads", text, data, split, words=["--splits"])


def test_run_faults():
    good = scenario(["install 0 1", "take 1"])
    breaks_off("run: no TOML", "format = ", HEAD, "BadToml")
    breaks_off("run: an unknown key before a step", "color = 1\n" + scenario(["hold 0"]), HEAD, "BadKey")
    breaks_off("run: a step that isn't one behind one that isn't known", scenario(["full 0 0", "take"]), HEAD, "BadStep 0")
    breaks_off("run: a step that isn't known behind one that is", scenario(["take 1", "hold 0", "take"]), HEAD, "BadStep 1")
    breaks_off("run: a step that isn't known behind one that isn't one", scenario(["take", "hold 0"]), HEAD, "BadStep 0")
    breaks_off("run: no scenario", None, HEAD, "OpenScenario")
    breaks_off("run: no input", good, None, "OpenInput")
    breaks_off("run: a step that isn't known and no input", scenario(["hold 0"]), None, "BadStep 0")
    breaks_off("run: an empty file", good, b"", "ShortHeader")
    breaks_off("run: pcapng", good, bytes.fromhex("0a0d0d0a") + bytes(40), "BadMagic")
    long = struct.pack(">4I", 0, 0, 262145, 262145)
    breaks_off("run: a record that is too long", good, HEAD + record(P) + long, "TooLong")
    breaks_off("run: splits of a capture that isn't one", good, b"", "ShortHeader", words=["--splits"])
    breaks_at_files("run")
    misused("run without an output", ["run", "s.toml", "in.pcap"])
    misused("run with a list", ["run", "--list", "s.toml", "in.pcap", "out.pcap"])


def says(name, text, data, fault, line, words=("simulate", "s.toml", "in.pcap", "out.pcap")):
    """With `--verbose` a second line stands behind the fault's, which begins so."""
    command, *files = words
    status, out, err = with_files(text, data, lambda folder: run([command, "-v", *files], cwd=folder))
    first, _, second = err.decode().partition("\n")
    is_right = (status, out, first) == (1, b"", f"fault: {fault}") and second.startswith(line) and second.count("\n") == 1
    check(f"verbose: {name}", is_right, f"{status} {out!r} {err!r}")


def test_verbose_of_a_scenario():
    """The place in a scenario: its path, its line, what was found and what was expected."""
    good = scenario(["install 0 1", "take 1"])
    root = "format, size, hash, scheme, spread, workers, capacity, ring, check, nodes, steps, versions"
    service = "versions[0].services[0]"
    inline = 'services = [{ vip = "192.0.2.1", # one\n proto = "tcp", port = 80, members = [\n "A@10.8.0.1",\n 2 ] }]\n'
    nested = good[: good.index("[[versions.services]]")] + inline
    for name, changed, fault, line in [
        ("no TOML", "format = 1\nsize = \n", "BadToml", "line 2, column 8: "),
        ("no UTF-8", b"format = 1 # \xff\n", "BadToml", "line 1, column 14: "),
        ("no UTF-8 after a letter of two bytes", b"format = 1 # \xc3\xa9\xff\n", "BadToml", "line 1, column 15: "),
        ("another format", good.replace("format = 1", "format = 4"), "BadFormat", "format, line 1: found 4, expected the number 1, 2 or 3\n"),
        ("a weight in format 1", good.replace("10.8.0.1", "10.8.0.1*2", 1), "BadMember", f'{service}.members[0], line 16: found "A@10.8.0.1*2", expected NAME@ADDRESS or'),
        ("an unknown key", "color = 1\n" + good, "BadKey", f"color, line 1: found 1, expected no key but {root}\n"),
        ("idle in format 1", good.replace("size = 7", "size = 7\nidle = 5"), "BadKey", f"idle, line 3: found 5, expected no key but {root}; that key is of format 2\n"),
        ("servers in format 1", "servers = {}\n" + good, "BadKey", f"servers, line 1: found a table, expected no key but {root}; that key is of format 3\n"),
        ("a base in format 1", good.replace("number = 2", "number = 2\nbase = 1"), "BadKey", "versions[1].base, line 19: found 1, expected no key but number, services; that key is of format 3\n"),
        ("a member that drains in format 1", good.replace("10.8.0.1", "10.8.0.1/drain", 1), "BadMember", f'{service}.members[0], line 16: found "A@10.8.0.1/drain", expected NAME@ADDRESS or NAME@ADDRESS/down; *W is of format 2, /drain and a NAME alone of format 3\n'),
        ("a step by time in format 1", scenario(["install 0 1", "until 5"]), "BadStep 1", 'steps[1], line 9: found "until 5", expected install N V, live [N ..],'),
        ("idle", limited(good, -1), "BadKey", "idle, line 2: found -1, expected a number from 0 to 4294967295000000\n"),
        ("an unknown key in format 2", limited(good, 5).replace("idle", "idel"), "BadKey", f"idel, line 2: found 5, expected no key but {root.replace('check', 'check, idle')}\n"),
        ("a missing key", good.replace("capacity = 2\n", ""), "BadKey", "capacity is missing, expected a number from 1 to 1000000\n"),
        ("a size", good.replace("size = 7", "size = 8"), "BadKey", "size, line 2: found 8, expected 7, 13, 251, 1021, 8191 or 65537\n"),
        ("a node", good.replace("9.0.2", "9.0.02"), "BadKey", 'nodes[1], line 6: found "10.9.0.02", expected an address, as "10.9.0.1"\n'),
        ("no node", good.replace('["10.9.0.1", "10.9.0.2"]', "[]"), "BadKey", "nodes, line 6: found an array, expected an array of 1 to 64"),
        ("a port", good.replace("port = 80", "port = 65536", 1), "BadKey", f"{service}.port, line 15: found 65536, expected a number from 0 to 65535\n"),
        ("a key of a service", good.replace("port = 80", "port = 80\nweight = 2", 1), "BadKey", f"{service}.weight, line 16: found 2, expected no key but vip,"),
        ("an inline table", nested.replace('"tcp"', '"sctp"'), "BadKey", f'{service}.proto, line 13: found "sctp", expected "tcp" or "udp"\n'),
        ("an item of an inline table", nested, "BadKey", f"{service}.members[1], line 15: found 2, expected a text\n"),
        ("a member", good.replace("10.8.0.1", "10.8.0.01", 1), "BadMember", f'{service}.members[0], line 16: found "A@10.8.0.01", expected NAME@ADDRESS'),
        ("a number twice", good.replace("number = 2", "number = 1"), "NumberTaken", "versions[1].number, line 18: found 1, expected a number that no"),
        ("the number 0", good.replace("number = 2", "number = 0"), "BadNumber", "versions[1].number, line 18: found 0, expected a number from 1\n"),
        ("a double name", good.replace("B@", "A@", 1), "DoubleName", f'{service}.members[1], line 16: found "A@10.8.0.2", expected a name that no'),
        ("too many members", good.replace('"C@', '"D@10.8.0.4", "E@10.8.0.5", "F@10.8.0.6", "G@10.8.0.7", "H@10.8.0.8", "C@', 1), "TooMany", f'{service}.members[7], line 16: found "C@10.8.0.3", expected no more members than slots'),
        ("a step", scenario(["install 0 1", "take 1", "install 2 1"]), "BadStep 2", 'steps[2], line 9: found "install 2 1", expected install N V,'),
    ]:
        says(name, changed, HEAD, fault, line)
    many = good + "".join(f"[[versions]]\nnumber = {number}\nservices = []\n" for number in range(3, 101))
    last = many + '[[versions]]\nnumber = "x"\nservices = []\n'
    place = f"versions[100].number, line {many.count(chr(10)) + 2}"
    says("the last of many versions", last, HEAD, "BadKey", f'{place}: found "x", expected a number from 0 to 4294967295\n')
    twice = good + good[good.index("[[versions.services]]", good.index("number = 2")) :]
    says("a double service", twice, HEAD, "DoubleService", "versions[1].services[1], line 24: found a table, expected an address, protocol and port that")
    says("a step of run", scenario(["install 0 1", "hold 0"]), HEAD, "BadStep 1", 'steps[1], line 9: found "hold 0", expected ', ("run", "s.toml", "in.pcap", "out.pcap"))
    stop = scenario(["install 0 1", "stop 0"])
    kinds = "stop N, with a balancer N from 0 to 1; run alone knows this step"
    for words in [("simulate", "s.toml", "in.pcap", "out.pcap"), ("explain", "s.toml", "in.pcap", "0", "1")]:
        says(f"a stop, by {words[0]}", stop, HEAD, "BadStep 1", f'steps[1], line 9: found "stop 0", expected {kinds}\n', words)
    says("explain", good.replace('"maglev"', "1"), HEAD, "BadKey", 'scheme, line 7: found 1, expected "maglev", "plain" or "round"\n', ("explain", "s.toml", "in.pcap", "0", "1"))
    quiet = scenario(["install 0 1", "install 1 1", "take 1"])
    simulates("verbose: no fault", quiet, HEAD + record(P), report(1, 1), WRITTEN_HEAD + SENT_RECORD, ["-v"])


def test_words_of_steps():
    """Behind what a step of its first word is, the first of its words that is wrong."""
    node = "with a balancer N from 0 to 1"
    digits = "is no number of digits up to 4294967295 without leading zeros"
    forms = {
        "install": f"install N V, {node} and a version's number V",
        "live": "live [N ..], with balancers N from 0 to 1, none twice",
        "take": "take K, with a number K of records",
        "lose": "lose K, with a number K of records",
        "again": "again P, with the number P of a record, from 0 on",
        "full": f"full N [W ..], {node} and workers W from 0 to 3, none twice; run doesn't know this step",
        "hold": f"hold N, {node}; run doesn't know this step",
        "drain": f"drain N, {node}; run doesn't know this step",
        "restart": f"restart N, {node}",
        "stop": f"stop N, {node}; run alone knows this step",
    }
    for step, wrong in [
        ("install 9 1", '"9" is no balancer: there are 0 to 1'),
        ("install 2 x", '"2" is no balancer: there are 0 to 1'),
        ("install x 2 3", f'"x" {digits}'),
        ("install 0 01", f'"01" {digits}'),
        ("install 0 1 2", '"2" is a word too many'),
        ("install 0", "a word is missing"),
        ("install", "a word is missing"),
        ("live 7", '"7" is no balancer: there are 0 to 1'),
        ("live 0 0", '"0" stands twice'),
        ("live 1 0 1", '"1" stands twice'),
        ("live ", f'"" {digits}'),
        ("full 0 9", '"9" is no worker: there are 0 to 3'),
        ("full 2 4", '"2" is no balancer: there are 0 to 1'),
        ("full 0 3 0 3", '"3" stands twice'),
        ("full", "a word is missing"),
        ("take 1 1", '"1" is a word too many'),
        ("take", "a word is missing"),
        ("take *", f'"*" {digits}'),
        ("take \\u001b", f'"\\u001b" {digits}'),
        ("lose -1", f'"-1" {digits}'),
        ("again 4294967296", f'"4294967296" {digits}'),
        ("hold 2", '"2" is no balancer: there are 0 to 1'),
        ("drain 0 1", '"1" is a word too many'),
        ("restart  0", f'"" {digits}'),
        ("restart 0 ", '"" is a word too many'),
        ("stop 5", '"5" is no balancer: there are 0 to 1'),
    ]:
        later = "; until and * are of format 3" * (step == "take *")
        line = f'steps[1], line 9: found "{step}", expected {forms[step.split(" ")[0]]}; {wrong}{later}\n'
        says(f"the step {step!r}", scenario(["install 0 1", step], workers=4), HEAD, "BadStep 1", line)


def says_of_words(name, words, fault, line):
    """With `--verbose` a command that needs no scenario says in a second line which word is wrong; without it there is none."""
    plain = f"fault: {fault}\n"
    for more, expected in [(["-v"], plain + line + "\n"), ([], plain)]:
        status, out, err = run([words[0], *more, *words[1:]], stdin=b"0x\n")
        check(f"verbose: {name} {more}", (status, out, err.decode()) == (1, b"", expected), f"{status} {out!r} {err!r}")


def test_verbose_of_words():
    """Which word of a list is wrong, counted from 1, what was found there and what was expected."""
    weight = "then *W from *1 to *16 or nothing"
    named = f"1 to 32 letters, digits, '-' and '.', the first a letter or digit, {weight}"
    member = f"NAME@ADDRESS, {weight}, then /down or nothing"
    sizes = "7, 13, 251, 1021, 8191 or 65537"
    seven = ["--size", "7", "--hash", "sum"]
    for command in ["table", "pick"]:
        for name, words, fault, line in [
            ("a size", ["--size", "8", "--hash", "sum", "A"], "BadSize", f"--size: found 8, expected {sizes}"),
            ("a hash", ["--size", "7", "--hash", "md5\x1b", "A"], "BadHash", '--hash: found "md5\\u001b", expected fnv, sha256 or sum'),
            ("a name", [*seven, "A", "B_", "C*17"], "BadName", f'name 2 of 3: found "B_", expected {named}'),
            ("a weight", [*seven, "A", "A", "C*17"], "BadName", f'name 3 of 3: found "C*17", expected {named}'),
            ("an empty name", [*seven, ""], "BadName", f'name 1 of 1: found "", expected {named}'),
            ("a name that a terminal doesn't show", [*seven, "A\x9b2J"], "BadName", f'name 1 of 1: found "A\\u009b2J", expected {named}'),
            ("a double name", [*seven, "A", "B*2", "B", "A"], "DoubleName", 'name 3 of 4: found "B", expected a name that no earlier word gives'),
            ("too many names", [*seven, *"ABCDEFGH"], "TooMany", 'name 8 of 8: found "H", expected no more words than slots'),
        ]:
            says_of_words(f"{command}: {name}", [command, *words], fault, line)
    digits = "standard input: expected hexadecimal digits, two a byte, and at most one newline after them"
    says_of_words("no digits", ["pick", *seven, "A"], "BadHex", digits)
    for name, old, new, fault, line in [
        ("a member before", "A@10.8.0.1 B", "C", "BadMember", f'--old, word 2 of 2: found "B", expected {member}'),
        ("a member after", "A@10.8.0.1", "B@10.8.0.2 B@10.8.0.02", "BadMember", f'--new, word 2 of 2: found "B@10.8.0.02", expected {member}'),
        ("two spaces", "A@10.8.0.1  B@10.8.0.2", "A@10.8.0.1", "BadMember", f'--old, word 2 of 3: found "", expected {member}'),
        ("a double name after", "A@10.8.0.1", "A@10.8.0.1 A@10.8.0.2", "DoubleName", '--new, word 2 of 2: found "A@10.8.0.2", expected a name that no earlier word gives'),
        ("too many", "A@10.8.0.1", " ".join(f"{letter}@10.8.0.1" for letter in "ABCDEFGH"), "TooMany", '--new, word 8 of 8: found "H@10.8.0.1", expected no more words than slots, and at most 4096'),
    ]:
        says_of_words(f"compare: {name}", ["compare", *seven, "--old", old, "--new", new], fault, line)
    says_of_words("compare: a size", ["compare", "--size", "0", "--hash", "sum", "--old", "", "--new", ""], "BadSize", f"--size: found 0, expected {sizes}")
    prints("verbose: a table", ["table", "-v", *seven, "A"], run(["table", *seven, "A"])[1].decode())


HELPS = {
    "NotIpv4": "their frames aren't IPv4: VLAN tags and IPv6 aren't read, and docs/USING.md has commands that take tags off",
    "Truncated": "the capture has only the beginnings of its packets: play them as they were by --cut pad, or capture whole ones, with tcpdump -s 0",
    "NoService": "SCENARIO has no service of their address, protocol and port: maglev scenario INPUT lists those that INPUT has",
    "NoBackend": "their service had no member, or every member was down or drained",
    "NoVersion": "their balancer had no version yet: begin with a step install",
    "RingsFull": "every ring was full: by a step full; in run give more places by ring in SCENARIO, or --pace, whose drivers wait for room",
    "LostAtRestart": "they waited on a balancer that was restarted",
}


def were(count):
    """What so many packets did."""
    return "was" if count == 1 else "were"


# What is said of refused events.
REFUSED = "{} event{} refused, as an install of a version that isn't newer, or isn't there: simulate --list shows which"

# What is said of records that came to no balancer.
MISSED = [("unrouted", "{} packet{} came when no balancer was live"), ("left", "{} record{} at the end of INPUT: no step reads them")]


def counted(text):
    """The numbers of a report's lines, or a summary's, by the words before them."""
    return collections.defaultdict(int, {line.rsplit(" ", 1)[0]: int(line.rsplit(" ", 1)[1]) for line in text.splitlines() if line[-1].isdigit()})


def told_of(count, words):
    """A line for each of these counts that isn't 0."""
    return [what.format(count[word], "s" * (count[word] != 1)) for word, what in words if count[word]]


def judged(text, parts):
    """What `--fail-above` says where so many parts per million of the connections may change their server, line by line, and the
    status, by a report with its summary."""
    count = counted(text)
    unsent = count["received"] - count["forwarded"]
    is_above = count["changed"] * 1_000_000 > parts * count["connections"]
    lines = told_of(count, MISSED)
    if unsent:
        lines.append(f"of {count['received']} packets {unsent} got no server: --fail-above doesn't count them")
    lines += told_of(count, [("refused", REFUSED)])
    if is_above:
        lines.append(f"{count['changed']} of {count['connections']} connections changed their server: --fail-above wants fewer")
    if not count["connections"]:
        lines.append("nothing was sent, so that --fail-above had nothing to judge")
    return lines, 3 if is_above else 0


def advised(text):
    """What may be amiss by a report, line by line."""
    count = counted(text)
    few = count["forwarded"] <= count["received"] // 10
    causes = [(cause, count[f"drop {cause}"]) for cause in HELPS if count[f"drop {cause}"]]
    most = max(causes, key=lambda one: one[1], default=None) if few else None
    told = [most] if most else []
    told += [one for cause in ("RingsFull", "Truncated") for one in causes if one[0] == cause and one != most]
    lines = [f"of {count['received']} packets {dropped} {were(dropped)} dropped as {cause}: {HELPS[cause]}" for cause, dropped in told]
    return lines + told_of(count, [*MISSED, ("refused", REFUSED)])


def warns(name, steps, expected, words=("simulate", "-v", "s.toml", "in.pcap", "out.pcap")):
    """The command's report is as without `--verbose`. On standard error these lines stand behind it, and then what may be amiss by
    the report."""
    text = scenario(steps)
    with_it = with_files(text, capture("yz"), lambda folder: run(words, cwd=folder))
    without = with_files(text, capture("yz"), lambda folder: run([word for word in words if word != "-v"], cwd=folder))
    lines = "".join(f"warning: {line}\n" for line in expected + advised(without[1].decode()))
    check(f"warned: {name}", with_it == (0, without[1], lines.encode()) and without[::2] == (0, b""), f"{with_it} {without}")


def test_warnings():
    """What a scenario that is played may not mean as it was meant."""
    bare = "node {} is live when packets come, and never has a version"
    lacks = "a step installs version {}, which the catalogue lacks"
    on_threads = ("run", "-v", "s.toml", "in.pcap", "out.pcap")
    for name, steps, expected in [
        ("nothing", ["install 0 1", "install 1 2", "take 2"], []),
        ("a node without a version", ["install 0 1", "take 2"], [bare.format(1)]),
        ("one that isn't live", ["install 0 1", "live 0", "take 2"], []),
        ("one that is live too late", ["install 0 1", "live 0", "take 2", "live 0 1", "lose 1"], []),
        ("one that is live again", ["install 0 1", "live 0", "take 1", "live 1", "again 0"], [bare.format(1)]),
        ("no packet", ["live 0 1"], []),
        ("an unknown version", ["install 0 1", "install 1 1", "install 0 7", "take 2"], [lacks.format(7)]),
        ("unknown versions alone", ["install 0 7", "install 1 0", "take 2"], [lacks.format(7), lacks.format(0), bare.format(0), bare.format(1)]),
        ("a version on each node, and again", ["install 0 1", "install 1 1", "install 0 7", "install 1 7", "take 1", "install 0 7"], [lacks.format(7)]),
        ("a version that comes late", ["take 1", "install 0 1", "install 1 1", "take 1"], []),
    ]:
        warns(name, steps, expected)
        warns(f"{name}, by run", steps, expected, on_threads)
    for name, steps, letters in [("of no service", ["live 0", "install 0 1", "take 40"], "w" * 40), ("nobody is live", ["live", "take 2"], "yz")]:
        text = scenario(steps)
        answer = with_files(text, capture(letters), lambda folder: run(["simulate", "-v", "s.toml", "in.pcap", "out.pcap"], cwd=folder))
        lines = advised(answer[1].decode())
        check(f"advised: {name}", len(lines) == 1 and answer[2].decode() == f"warning: {lines[0]}\n", f"{answer} {lines}")
    text, data = scenario(["live 0", "install 0 1", "take 3"]), HEAD + record(packet("y")) + record(packet("z")) + record(P[:28])
    answer = with_files(text, data, lambda folder: run(["simulate", "-v", "s.toml", "in.pcap", "out.pcap"], cwd=folder))
    line = f"warning: of 3 packets 1 was dropped as Truncated: {HELPS['Truncated']}\n"
    check("advised: one of three is cut", answer[2].decode() == line, f"{answer}")
    many = [lacks.format(version) for version in range(7, 32)]
    warns("many", [f"install 0 {version}" for version in range(7, 32)], many[:20] + ["5 more of these"])
    warns("a stop", ["install 0 1", "stop 0", "take 1"], [bare.format(1)], on_threads)
    empty = "warning: service 192.0.2.1:80/tcp of version {} has no members\n"
    text = scenario(["install 0 1", "install 1 1", "take 2"], ([], ALL, []))
    answer = with_files(text, None, lambda folder: run(["plan", "-v", "s.toml", "1", "2"], cwd=folder))
    check("warned: services without members", answer[::2] == (0, (empty.format(1) + empty.format(3)).encode()), repr(answer))
    warns("explain", ["install 0 1", "take 2"], [bare.format(1)], ("explain", "-v", "s.toml", "in.pcap", "1", "2"))


def advises(name, steps, data, told, command="simulate", versions=(ALL,), more="", helps=HELPS):
    """With `-v` a command warns of these drops alone, each a cause with how many there were, in this order. Gives what it prints."""
    text = scenario(["live 0", "install 0 1", *steps], versions, more=more)
    status, out, err = with_files(text, data, lambda folder: run([command, "-v", "s.toml", "in.pcap", "out.pcap"], cwd=folder))
    received = re.search(r"^received (\d+)$", out.decode(), re.MULTILINE)[1]
    wanted = told(out.decode()) if callable(told) else told
    lines = "".join(f"warning: of {received} packets {count} {were(count)} dropped as {cause}: {helps[cause]}\n" for cause, count in wanted)
    check(f"advised: {name}, by {command}", (status, err.decode()) == (0, lines), f"{out!r} {err!r}")


# What a first frame is of which the EtherType isn't that of IPv4.
FRAMES = {
    "a VLAN tag": ("810000010800", "the first frame has a VLAN tag (EtherType 0x8100), which isn't read: docs/USING.md has commands that take tags off"),
    "two VLAN tags": ("88a80005810000070800", "the first frame has a VLAN tag (EtherType 0x88a8), which isn't read: docs/USING.md has commands that take tags off"),
    "an older tag": ("910000050800", "the first frame has a VLAN tag (EtherType 0x9100), which isn't read: docs/USING.md has commands that take tags off"),
    "IPv6": ("86dd60000000", "the first frame is IPv6 (EtherType 0x86dd), which isn't read"),
    "ARP": ("08060001", "the first frame is ARP (EtherType 0x0806), which isn't read"),
    "MPLS": ("884700001140", "the first frame has the EtherType 0x8847, which isn't read"),
    "spanning tree": ("0026424203", "the first frame has a length in place of an EtherType, which isn't read"),
}


def test_advice_of_the_first_frame():
    """Where nearly no packet is IPv4, what the first frame is, in either byte order; where that says nothing, what is said of any."""
    plain = bytes(12) + b"\x08\x00" + P
    tagged = bytes(12) + bytes.fromhex("810000010800") + P
    ethernet = HEAD[:23] + b"\x01"

    def swapped(frames):
        head = bytes.fromhex("4d3cb2a1020004000000000000000000ffff000001000000")
        return head + b"".join(struct.pack("<4I", 1, 999999999, len(frame), len(frame)) + frame for frame in frames)

    for name, (front, words) in FRAMES.items():
        frame = bytes(12) + bytes.fromhex(front) + P
        helps = HELPS | {"NotIpv4": words}
        advises(name, ["take 3"], ethernet + 3 * record(frame), [("NotIpv4", 3)], helps=helps)
        advises(f"{name}, little endian", ["take 3"], swapped(3 * [frame]), [("NotIpv4", 3)], helps=helps)
        advises(f"{name} in front of a tag", ["take 2"], swapped([frame, tagged]), [("NotIpv4", 2)], "run", helps=helps)
    advises("IPv4 in front", ["take 11"], ethernet + record(plain) + 10 * record(tagged), [("NotIpv4", 10)])
    advises("a frame without an EtherType in front", ["take 4"], ethernet + record(bytes(13)) + 3 * record(tagged), [("NotIpv4", 3), ("Truncated", 1)])
    advises("raw IPv6", ["take 2"], HEAD + 2 * record(b"\x60" + bytes(39)), [("NotIpv4", 2)])


def test_advice_of_drops():
    """For which cause nearly all packets were dropped, and beside that where rings were full or packets were cut."""
    tagged = record(bytes(12) + bytes.fromhex("810000010800") + P)
    plain = record(bytes(12) + b"\x08\x00" + P)
    ethernet = HEAD[:23] + b"\x01"
    down = [[f"{member}/down" for member in ALL]]
    for command in ("simulate", "run"):
        advises("frames with tags", ["take 3"], ethernet + 3 * tagged, [("NotIpv4", 3)], command, helps=HELPS | {"NotIpv4": FRAMES["a VLAN tag"][1]})
        advises("one frame of nine without a tag", ["take 9"], ethernet + 8 * tagged + plain, [], command)
        advises("nobody is up", ["take 3"], capture("yzx"), [("NoBackend", 3)], command, down)
    advises("a restart of both balancers", ["hold 0", "live 0", "take 3", "restart 0"], capture("yzx"), [("LostAtRestart", 3)])
    for name, letters, cut, told in [
        ("a worker that refuses one packet of five", "yyyy|y", 0, [("RingsFull", 1)]),
        ("one that refuses all", "|yyy", 0, [("RingsFull", 3)]),
        ("one that refuses what no service has", "w" * 18 + "|yy", 0, [("NoService", 18), ("RingsFull", 2)]),
        ("one that refuses, and a packet that is cut", "w" * 18 + "|y", 1, [("NoService", 18), ("RingsFull", 1), ("Truncated", 1)]),
        ("packets that are cut, and one that refuses", "|y", 9, [("Truncated", 9), ("RingsFull", 1)]),
    ]:
        before, behind = letters.split("|")
        data = capture(before + behind) + cut * record(P[:28])
        advises(name, [f"take {len(before)}", "full 0 0", f"take {len(behind) + cut}"], data, told)
    count = 20_000

    def of_report(text):
        full = re.search(r"^drop RingsFull (\d+)$", text, re.MULTILINE)
        check("a ring of one place is full", full, text)
        return [("RingsFull", int(full[1]))] if full else []

    advises("a ring of one place", [f"take {count}"], capture("y" * count), of_report, "run", more="ring = 1\n")


def tells(name, words, plain, more, text=None, data=None):
    """What a command prints on standard error: into a pipe `plain` alone; with `-v`, with it in front or at a terminal `more` behind
    it. Standard output and the status are the same each time, also where standard output alone is a terminal."""
    command, *rest = words
    first = with_files(text, data, lambda folder: run(words, cwd=folder))
    check(f"into a pipe: {name}", first[2].decode() == plain, repr(first))
    wanted = (*first[:2], (plain + more).encode())
    for asked in [[command, "-v", *rest], ["-v", *words], ["--verbose", *words]]:
        answer = with_files(text, data, lambda folder: run(asked, cwd=folder))
        check(f"{asked[:2]}: {name}", answer == wanted, f"{answer} {wanted}")
    for asked in [words, [command, "-v", *rest], ["-v", *words]]:
        answer = with_files(text, data, lambda folder: run_at_terminal(asked, cwd=folder))
        check(f"at a terminal, {asked[:2]}: {name}", answer == wanted, f"{answer} {wanted}")
    answer = with_files(text, data, lambda folder: run_at_terminal(words, cwd=folder, stream="stdout"))
    check(f"standard output at a terminal: {name}", answer == first, f"{answer} {first}")


def test_what_is_told_at_a_terminal():
    """Where standard error is a terminal a fault says what `-v` says, and warnings come; into a pipe nothing more comes than without.
    `maglev -v COMMAND` is `maglev COMMAND -v`."""
    good, seven = scenario(["install 0 1", "install 1 1", "take 2"]), ["--size", "7", "--hash", "sum"]
    files = ["s.toml", "in.pcap", "out.pcap"]
    size = "size, line 2: found 8, expected 7, 13, 251, 1021, 8191 or 65537\n"
    warned = scenario(["install 0 1", "install 0 7", "take 2"])
    lacks = "warning: a step installs version 7, which the catalogue lacks\n"
    bare = "warning: node 1 is live when packets come, and never has a version\n"
    refused = "warning: 1 event refused, as an install of a version that isn't newer, or isn't there: simulate --list shows which\n"
    for words in [["simulate", *files], ["run", *files], ["explain", *files[:2], "2", "3"], ["plan", "s.toml", "1", "2"]]:
        tells(f"{words[0]}, a scenario", words, "fault: BadKey\n", size, good.replace("size = 7", "size = 8"), capture("yz"))
        tells(f"{words[0]}, no scenario", words, "fault: OpenScenario\n", f"s.toml: {os.strerror(errno.ENOENT)} (os error 2)\n", None, capture("yz"))
        tells(f"{words[0]}, nothing to say", words, "", "", good, capture("yz"))
        more = lacks + bare + (refused if words[0] in ("simulate", "run") else "")
        tells(f"{words[0]}, warnings", words, "", more, warned, capture("yz"))
    tells("run, a list of splits", ["run", "--splits", *files], "", lacks + bare + refused, warned, capture("yz"))
    modified = bytes.fromhex("34cdb2a1") + bytes(40)
    magic = "in.pcap: found modified pcap, expected classic pcap: editcap -F pcap INPUT out.pcap\n"
    for words in [["simulate", *files], ["run", *files], ["explain", *files[:2], "2", "3"], ["scenario", "in.pcap"]]:
        tells(f"{words[0]}, a capture", words, "fault: BadMagic\n", magic, good, modified)
    for command in ["table", "pick"]:
        line = 'name 3 of 3: found "B", expected a name that no earlier word gives\n'
        tells(f"{command}, a word", [command, *seven, "A", "B", "B"], "fault: DoubleName\n", line)
        tells(f"{command}, an option", [command, "--size", "9", "--hash", "sum", "A"], "fault: BadSize\n", "--size: found 9, expected 7, 13, 251, 1021, 8191 or 65537\n")
    tells("table, nothing to say", ["table", *seven, "A", "B"], "", "")
    members = ["--old", "A@10.8.0.1", "--new", "A@10.8.0.1 A@10.8.0.2"]
    tells("compare, a word", ["compare", *seven, *members], "fault: DoubleName\n", '--new, word 2 of 2: found "A@10.8.0.2", expected a name that no earlier word gives\n')
    tells("compare, nothing to say", ["compare", *seven, "--old", "A@10.8.0.1", "--new", "B@10.8.0.2"], "", "")


def test_readers_that_go_away():
    """Where whoever reads standard output goes away the program ends quietly, with 141 as a program that the signal ends."""
    text = scenario(["install 0 1", "install 1 1", "take 2"])
    commands = [
        ["table", "--size", "7", "--hash", "sum", "A"],
        ["compare", "--size", "7", "--hash", "sum", "--old", "A@10.8.0.1", "--new", "B@10.8.0.2"],
        ["plan", "s.toml", "1", "2"],
        ["table", "--scenario", "s.toml", "--version", "1"],
        ["scenario", "in.pcap"],
        ["explain", "s.toml", "in.pcap", "2", "3"],
        ["simulate", "--list", "s.toml", "in.pcap", "out.pcap"],
        ["run", "s.toml", "in.pcap", "out.pcap"],
        ["simulate", "s.toml", "in.pcap", "-"],
    ]
    lines = [[*words[:1], *more, *words[1:]] for words in commands for more in [[], ["-v"]]]
    for words in [*lines, ["--help"], ["simulate", "--help"], ["help", "simulate"], ["--version"]]:

        def broken(folder):
            reading, writing = os.pipe()
            os.close(reading)
            done = subprocess.run([PROGRAM, *words], stdin=subprocess.DEVNULL, stdout=writing, stderr=subprocess.PIPE, cwd=folder, timeout=600)
            os.close(writing)
            return done.returncode, done.stderr

        answer = with_files(text, capture("yz"), broken)
        check(f"a reader goes away: {' '.join(words)}", answer == (141, b""), answer)


def test_captures_as_scenarios():
    """A capture where SCENARIO should be is seen as that."""
    line = "{}: found a capture, expected a scenario: SCENARIO comes before INPUT\n"
    good = scenario(["install 0 1", "take 1"])
    for magic in ["d4c3b2a1", "a1b2c3d4", "4d3cb2a1", "a1b23c4d", "34cdb2a1", "a1b2cd34", "0a0d0d0a"]:
        data = bytes.fromhex(magic) + bytes(40)
        tells(f"{magic} for a scenario", ["simulate", "in.pcap", "s.toml", "out.pcap"], "fault: BadToml\n", line.format("in.pcap"), good, data)
    data = HEAD + record(P)
    for words in [["run", "in.pcap", "s.toml", "out.pcap"], ["explain", "in.pcap", "s.toml", "0", "1"], ["plan", "in.pcap", "1", "2"]]:
        tells(f"{words[0]}: a capture for a scenario", words, "fault: BadToml\n", line.format("in.pcap"), good, data)
    long = data.ljust(1048577, b"\0")
    tells("a long capture for a scenario", ["simulate", "in.pcap", "s.toml", "out.pcap"], "fault: TooLong\n", line.format("in.pcap"), good, long)
    answer = with_files(good, data, lambda folder: run(["simulate", "-v", "-", "in.pcap", "out.pcap"], stdin=data, cwd=folder))
    check("a capture from standard input for a scenario", answer == (1, b"", f"fault: BadToml\n{line.format('-')}".encode()), repr(answer))
    for start in [b"\xa1\xb2\xc3", b"\n\r\r", b"\xd4\xc3\xb2\xa2"]:
        status, out, err = with_files(start, data, lambda folder: run(["simulate", "-v", "s.toml", "in.pcap", "out.pcap"], cwd=folder))
        is_right = (status, out) == (1, b"") and err.startswith(b"fault: BadToml\nline ") and b"capture" not in err
        check(f"{start} is no capture", is_right, f"{status} {err!r}")


def test_flags_without_a_command():
    """`-v` alone, or before another option, is no command: what was always said of it is said, also at a terminal."""
    usage = "\n\nUsage: maglev <COMMAND>\n\nFor more information, try '--help'.\n"
    for words in [["-v"], ["-v", "--help"], ["-v", "-v", "table"], ["-v", "--verbose"]]:
        wanted = (2, b"", f"error: unexpected argument '-v' found{usage}".encode())
        check(f"maglev {' '.join(words)}", run(words) == wanted, repr(run(words)))
        check(f"maglev {' '.join(words)}, at a terminal", run_at_terminal(words) == wanted, repr(run_at_terminal(words)))
    misused("maglev -v of no command", ["-v", "tables"])
    for flag in ["-v", "--verbose"]:
        check(f"maglev {flag} table --help", run([flag, "table", "--help"]) == run(["table", "--help"]))


def test_verbose_of_files():
    """What a file is, which of its records is refused, and the system's reason."""
    good = scenario(["install 0 1", "take 1"])
    convert = "expected classic pcap: editcap -F pcap INPUT out.pcap\n"
    long = struct.pack(">4I", 0, 0, 262145, 262145)
    for name, data, fault, line in [
        ("pcapng", bytes.fromhex("0a0d0d0a") + bytes(40), "BadMagic", f"in.pcap: found pcapng, {convert}"),
        ("modified pcap", bytes.fromhex("34cdb2a1") + bytes(40), "BadMagic", f"in.pcap: found modified pcap, {convert}"),
        ("gzip", bytes.fromhex("1f8b0800") + bytes(40), "BadMagic", "in.pcap: found gzip, expected classic pcap: gunzip -c INPUT > out.pcap\n"),
        ("zstd", bytes.fromhex("28b52ffd") + bytes(40), "BadMagic", "in.pcap: found zstd, expected classic pcap: zstd -d -c INPUT > out.pcap\n"),
        ("a cooked capture", HEAD[:23] + b"\x71", "BadLink", "in.pcap: found link type 113, Linux cooked capture, expected 1 (Ethernet)"),
        ("an empty file", b"", "ShortHeader", "in.pcap: found 0 bytes, expected a header of 24\n"),
        ("a record", HEAD + record(P) + long, "TooLong", "in.pcap, record 1: expected a record of at most 262144 bytes\n"),
    ]:
        says(name, good, data, fault, line)
    missing = os.strerror(errno.ENOENT)
    says("no scenario", None, HEAD, "OpenScenario", f"s.toml: {missing}")
    says("no input", good, None, "OpenInput", f"in.pcap: {missing}")
    says("a long scenario", good.ljust(1048577, "\n"), HEAD, "TooLong", "s.toml: expected at most 1048576 bytes\n")
    of_folder = os.strerror(errno.EISDIR)
    says("a folder as a scenario", good, HEAD, "ReadScenario", f".: {of_folder}", ("simulate", ".", "in.pcap", "out"))
    says("a folder as an input", good, HEAD, "Read", f".: {of_folder}", ("simulate", "s.toml", ".", "out"))
    says("a folder as an output", good, HEAD + record(P), "OpenOutput", f".: {of_folder}", ("simulate", "s.toml", "in.pcap", "."))
    full = os.strerror(errno.ENOSPC)
    says("a full disk", good, HEAD + record(P), "Write", f"/dev/full: {full}", ("simulate", "s.toml", "in.pcap", "/dev/full"))
    says("OUTPUT is INPUT", good, HEAD + record(P), "OpenOutput", "in.pcap: found a file that is read", ("simulate", "s.toml", "in.pcap", "in.pcap"))

    def unprinted_report(folder):
        with open("/dev/full", "wb") as report:
            return run(["simulate", "-v", "s.toml", "in.pcap", "out.pcap"], cwd=folder, stdout=report)

    status, _, err = with_files(good, HEAD + record(P), unprinted_report)
    is_right = status == 1 and err.decode().startswith(f"fault: Write\nthe report: {full}") and err.count(b"\n") == 2
    check("verbose: a report that can't be written", is_right, f"{status} {err!r}")


def test_standard_streams_that_are_one_file():
    """What is sent never comes to a file that is read, also where standard input or standard output is that file."""

    def use(folder):
        for read, words in [("in.pcap", ["s.toml", "in.pcap"]), ("in.pcap", ["s.toml", "-"]), ("s.toml", ["s.toml", "in.pcap"]), ("s.toml", ["-", "in.pcap"])]:
            before = (folder / read).read_bytes()
            with open(folder / read, "rb") as stdin, open(folder / read, "ab") as stdout:
                words = [PROGRAM, "simulate", "-v", *words, "-"]
                done = subprocess.run(words, stdin=stdin, stdout=stdout, stderr=subprocess.PIPE, cwd=folder, timeout=60)
            answer = (done.returncode, done.stderr.decode())
            wanted = (1, "fault: OpenOutput\n-: found a file that is read, expected another one\n")
            check(f"{' '.join(words[2:])} >> {read}", answer == wanted and (folder / read).read_bytes() == before, repr(answer))

    with_files(scenario(["install 0 1", "take 1"]), HEAD + record(P), use)


# Characters that a terminal obeys or that turn its text round, with what is shown for each.
RAW = "\x1b]0;pwn\x07\x7f\x9b\u061c\u200e\u2028\u202e\u2066\ufeff"
SHOWN = "".join(letter if letter.isascii() and letter.isprintable() else f"\\u{ord(letter):04x}" for letter in RAW)


def is_shown(text):
    """Whether a terminal shows a text as it stands, but for the ends of its lines."""
    return all(letter.isprintable() or letter == "\n" for letter in text)


def test_nothing_raw():
    """Whatever is in a scenario, a file's name or a word of the command line, a terminal shows it where it stands."""
    good = scenario(["install 0 1", "take 1"])
    quoted = "".join(f"\\U{ord(letter):08x}" for letter in RAW)
    for name, text, begin in [
        ("a key", f'"{quoted}" = 1\n' + good, SHOWN),
        ("a value", good.replace('"maglev"', f"'''{RAW.translate({7: None, 27: None, 127: None})}\nfault: Memory\n'''"), "scheme, line 7: found '''"),
        ("a long value", good.replace('"maglev"', '"' + "a" * 10_000 + '"'), 'scheme, line 7: found "' + "a" * 199 + ", expected"),
    ]:
        status, out, err = with_files(text, HEAD, lambda folder: run(["simulate", "-v", "s.toml", "in.pcap", "out.pcap"], cwd=folder))
        lines = err.decode().split("\n")
        is_right = (status, out, lines[0], lines[2:]) == (1, b"", "fault: BadKey", [""]) and is_shown(err.decode()) and lines[1].startswith(begin)
        check(f"nothing raw of {name}", is_right, f"{status} {out!r} {err!r}")
    name = RAW + "\n.pcap"
    status, out, err = with_files(good, None, lambda folder: run(["simulate", "-v", "s.toml", name, "out.pcap"], cwd=folder))
    wanted = f"fault: OpenInput\n{SHOWN}\\u000a.pcap: {os.strerror(errno.ENOENT)}"
    check("nothing raw of a file's name", (status, out) == (1, b"") and err.decode().startswith(wanted) and err.count(b"\n") == 2, repr(err))
    for words in [[RAW], ["table", "--size", "7" + RAW, "--hash", "sum", "A"], ["simulate", "--" + RAW, "a", "b", "c"], ["table", "--size", "7\n\nerror: \n"]]:
        status, out, err = run(words)
        check(f"nothing raw of words {words!r}", (status, out) == (2, b"") and is_shown(err.decode()) and b"\nerror" not in err, repr(err))
    status, out, err = run([b"\xff\x1b]0;pwn\x07"])
    check("nothing raw of bytes", status != 0 and out == b"" and is_shown(err.decode()), f"{status} {err!r}")


def passing(source, limit):
    """Times without end, in seconds and nanoseconds: between two of them there pass nothing, about this many microseconds, or
    some less; at times the clock steps back."""
    at = 1_000_000_000
    while True:
        at += source.choice([0, 0, limit // 2, limit // 2, limit, limit + 1, -1, -limit])
        yield divmod(1000 * at + source.randrange(1000), 1_000_000_000)


def random_capture(source, times=None, most=60):
    """A capture of less than `most` datagrams of a few flows, some of which are spoiled; at these times, or all at one."""
    packets = []
    for _ in range(source.randrange(most)):
        if source.random() < 0.3:
            packet = bytearray.fromhex(UDP)
        else:
            packet = bytearray(P)
        packet[21] = source.choice([0xE8, 0xE9, 0xEC, 0xEE, 0xF0])
        if source.random() < 0.2:
            packet[source.randrange(len(packet))] ^= 1 << source.randrange(8)
        frame = bytes(packet[: source.choice([60, 60, 60, source.randrange(61)])])
        packets.append(record(frame, *next(times)) if times else record(frame))
    data = HEAD + b"".join(packets)
    return data[: len(data) - source.choice([0, 0, 1, 17])] if packets else data


def random_steps(source, nodes, workers):
    """Steps of every kind."""
    steps = [f"install {node} 1" for node in range(nodes) if source.random() < 0.8]
    for _ in range(source.randrange(40)):
        node = source.randrange(nodes)
        some = " ".join(str(worker) for worker in source.sample(range(workers), source.randrange(workers + 1)))
        live = " ".join(str(one) for one in source.sample(range(nodes), source.randrange(nodes + 1)))
        steps.append(
            source.choice(
                [
                    f"install {node} {source.randrange(6)}", f"take {source.randrange(9)}", f"take {source.randrange(9)}",
                    f"take {source.randrange(9)}", f"lose {source.randrange(3)}", f"again {source.randrange(20)}",
                    f"full {node} {some}".strip(), f"live {live}".strip(), f"hold {node}", f"drain {node}", f"restart {node}",
                ]
            )
        )
    return steps


def steps_by_versions(source, nodes, _workers):
    """Steps in which one version after another comes to the nodes between their packets."""
    newest = [1] * nodes
    steps = [f"install {node} 1" for node in range(nodes)]
    for _ in range(60):
        node = source.randrange(nodes)
        kind = source.choice(["take"] * 6 + ["install"] * 4 + ["again", "restart", "hold", "drain"])
        newest[node] += kind == "install"
        words = {"take": source.randrange(1, 5), "again": source.randrange(100), "install": f"{node} {newest[node]}"}
        steps.append(f"{kind} {words.get(kind, node)}")
    return steps


def random_scenario(source, weights=("",), steps_of=random_steps, versions=4):
    """A scenario with all that a scenario may have; of format 2 where weights are given."""
    nodes, workers = source.randrange(1, 4), source.randrange(1, 5)
    text = f'format = {1 if weights == ("",) else 2}\nsize = {source.choice([7, 13, 251])}\nhash = "{source.choice(["fnv", "sha256", "sum"])}"\n'
    text += f'scheme = "{source.choice(["maglev", "maglev", "plain", "round"])}"\nspread = "{source.choice(["hash", "turn"])}"\n'
    text += f"workers = {workers}\ncapacity = {source.randrange(1, 5)}\ncheck = {source.choice(['true', 'false'])}\n"
    text += f"nodes = {listed([f'10.9.0.{node}' for node in range(nodes)])}\nsteps = {listed(steps_of(source, nodes, workers))}\n"
    for number in range(1, versions + 1):
        text += f"[[versions]]\nnumber = {number}\nservices = ["
        for proto, port in [("tcp", 80), ("udp", 53)]:
            if source.random() < 0.9:
                names = source.sample("ABCDEFG", source.randrange(8))
                members = [f"{name}@10.8.{source.randrange(2)}.{ord(name)}{source.choice(weights)}{source.choice(['', '', '/down'])}" for name in names]
                text += f'{{ vip = "192.0.2.1", proto = "{proto}", port = {port}, members = {listed(members)} }}, '
        text += "]\n"
    return text


def plans(name, text, words, expected):
    """`plan` prints this text of a scenario, from a file and from standard input."""
    answers = [with_files(text, None, lambda folder: run(["plan", "s.toml", *words], cwd=folder)), run(["plan", "-", *words], stdin=text.encode())]
    check(name, answers == [(0, expected.encode(), b"")] * 2, repr(answers))


def test_plan():
    """Rows by hand: B A B C C A A is the table of A, B and C, A A A C C C A that of A and C, B B B C C C B that of B and C."""
    head = "service 192.0.2.1:80/tcp\nslots 7"
    whole = f"{head}\nA@10.8.0.1 weight 1 slots 3\nB@10.8.0.2 weight 1 slots 2\nC@10.8.0.3 weight 1 slots 2\n"
    without = f"{head}\nA@10.8.0.1 weight 1 slots 4\nB@10.8.0.2 weight 1 slots 0 down\nC@10.8.0.3 weight 1 slots 3\n"
    two = scenario([])
    plans("a plan of one version", two, ["1"], whole)
    plans("a plan of a version with a member that is down", two, ["2"], without)
    rows = "A@10.8.0.1 weight 1 before 3 after 4\nB@10.8.0.2 weight 1 before 2 after 0 down\nC@10.8.0.3 weight 1 before 2 after 3\n"
    plans("a plan of a member that goes down", two, ["1", "2"], f"{head} changed 3 down 2 moved 1 least 2\n{rows}")
    rows = "A@10.8.0.1 weight 1 before 4 after 3\nB@10.8.0.2 weight 1 before 0 after 2\nC@10.8.0.3 weight 1 before 3 after 2\n"
    plans("a plan of a member that comes back", two, ["2", "1"], f"{head} changed 3 down 0 moved 3 least 2\n{rows}")
    plans("a plan of no change", two, ["1", "1"], head + " changed 0 down 0 moved 0 least 0\n" + whole[len(head) + 1 :].replace(" slots 3", " before 3 after 3").replace(" slots 2", " before 2 after 2"))
    replaced = scenario([], (ALL, ["C@10.8.0.3", "B@10.8.0.2", "A@10.8.0.9"]))
    rows = "A@10.8.0.1 weight 1 before 3 after 0 down\nA@10.8.0.9 weight 1 before 0 after 3\nB@10.8.0.2 weight 1 before 2 after 2\nC@10.8.0.3 weight 1 before 2 after 2\n"
    plans("a plan of another address", replaced, ["1", "2"], f"{head} changed 3 down 3 moved 0 least 3\n{rows}")
    heavier = scenario([], (ALL, ["A@10.8.0.1*3", "B@10.8.0.2", "C@10.8.0.3"])).replace("format = 1", "format = 2")
    rows = "A@10.8.0.1 weight 3 before 3 after 4\nB@10.8.0.2 weight 1 before 2 after 2\nC@10.8.0.3 weight 1 before 2 after 1\n"
    plans("a plan of a weight", heavier, ["1", "2"], f"{head} changed 3 down 0 moved 3 least 1\n{rows}")
    nobody = scenario([], (ALL, [word + "/down" for word in ALL]))
    rows = "A@10.8.0.1 weight 1 before 3 after 0 down\nB@10.8.0.2 weight 1 before 2 after 0 down\nC@10.8.0.3 weight 1 before 2 after 0 down\n"
    plans("a plan after which nobody is up", nobody, ["1", "2"], f"{head} changed 7 down 7 moved 0 least 7\n{rows}")
    rows = "A@10.8.0.1 weight 1 before 0 after 3\nB@10.8.0.2 weight 1 before 0 after 2\nC@10.8.0.3 weight 1 before 0 after 2\n"
    plans("a plan before which nobody is up", nobody, ["2", "1"], f"{head} changed 7 down 7 moved 0 least 7\n{rows}")
    in_turn = scenario([], scheme="round")
    rows = "A@10.8.0.1 weight 1 before 3 after 4\nB@10.8.0.2 weight 1 before 2 after 0 down\nC@10.8.0.3 weight 1 before 2 after 3\n"
    for name, text in [("round", in_turn), ("plain", in_turn.replace("round", "plain"))]:
        plans(f"a plan of the scheme {name}", text, ["1", "2"], f"{head} changed 4 down 2 moved 2 least 2\n{rows}")
    other = two.replace("port = 80", "port = 53").replace('"tcp"', '"udp"').replace("number = 1", "number = 3")
    moved = two + other[other.index("[[versions]]") : other.index("[[versions]]", other.index("number = 3"))]
    gone = head.replace("80/tcp", "53/udp") + " changed 7 down 7 moved 0 least 7\n" + "A@10.8.0.1 weight 1 before 0 after 3\nB@10.8.0.2 weight 1 before 0 after 2\nC@10.8.0.3 weight 1 before 0 after 2\n"
    gone += head + " changed 7 down 7 moved 0 least 7\n" + "A@10.8.0.1 weight 1 before 3 after 0 down\nB@10.8.0.2 weight 1 before 2 after 0 down\nC@10.8.0.3 weight 1 before 2 after 0 down\n"
    plans("a plan of a service that another one replaces", moved, ["1", "3"], gone)
    empty = two + "[[versions]]\nnumber = 4294967295\nservices = []\n"
    plans("a plan of a version without services", empty, ["4294967295"], "")


def test_plan_against_the_model():
    """What is printed of random scenarios is what the plain model says."""
    for seed in range(200):
        source = random.Random(7000 + seed)
        weights = source.choice([("",), ("", "*2", "*16")])
        text = random_scenario(source, weights)
        first, second = source.randrange(1, 5), source.randrange(1, 5)
        plans(f"plan {first} {second} of scenario {seed}", text, [str(first), str(second)], model.plan(text, first, second))
        plans(f"plan {first} of scenario {seed}", text, [str(first)], model.planned(text, first))


def test_orders():
    """Rows by hand, with the tables of `test_plan`: where B goes first, slot 5 moves from A to C. Then random scenarios."""
    texts = [(ALL, ["C@10.8.0.3"]), (B_DOWN, ALL), (ALL, []), (ALL, ALL), ([], ALL)]
    answers = ["servers 2 orders 2\nmoved 0 A B\nmoved 1 B A\n", "servers 0 orders 1\nmoved 3\n", None, "servers 0 orders 1\nmoved 0\n", "servers 0 orders 1\nmoved 0\n"]
    for number, (versions, answer) in enumerate(zip(texts, answers)):
        text = scenario([], versions)
        expected = model.ordered(text, 1, 2)
        check(f"orders {number} by the model", answer in (None, expected), expected)
        plans(f"orders {number}", text, ["--order", "1", "2"], expected)
    for seed in range(120):
        source = random.Random(8000 + seed)
        names = "ABCDEFGHJ"[: source.choice([3, 4, 5, 6, 9])]
        versions = [[f"{name}@10.8.{source.choice([0, 0, 1])}.{ord(name)}{source.choice(['', '', '*2', '*9'])}{source.choice(['', '', '', '/down'])}" for name in names if source.random() < 0.8] for _ in range(2)]
        text = scenario([], versions, scheme=source.choice(["maglev", "maglev", "plain"])).replace("format = 1", "format = 2").replace("size = 7", "size = 13")
        udp = '[[versions.services]]\nvip = "192.0.2.1"\nproto = "udp"\nport = 53\n'
        text += udp + f"members = {listed(versions[seed % 2])}\n"
        plans(f"orders of scenario {seed}", text, ["--order", "1", "2"], model.ordered(text, 1, 2))
    text = scenario([])
    for words, fault in [(["3", "1"], "BadNumber"), (["1", "0"], "BadNumber")]:
        faults(f"orders of {words}", ["plan", "--order", "-", *words], fault, stdin=text.encode())
    misused("orders without a version to end in", ["plan", "--order", "s.toml", "1"])


def test_plan_of_the_pages():
    """The documents show what is printed."""
    text = (EXAMPLES / "rolling.toml").read_text()
    pages = {name: (TOP / "docs" / name).read_text() for name in ["FORMATS.md", "USING.md"]}
    ((_, shown),) = [one for one in commands_of(pages["USING.md"]) if one[0][:2] == ["maglev", "plan"]]
    plans("the plan of USING.md", text, ["1", "2"], shown)
    check("the plan of USING.md by the model", shown == model.plan(text, 1, 2), shown)
    block = "".join(f"    {line}\n" for line in model.plan(scenario([]), 1, 2).splitlines())
    check("the plan of FORMATS.md", block in pages["FORMATS.md"])


def test_plan_faults():
    good = scenario(["install 0 1", "take 1"])
    for name, text, words, fault in [
        ("no TOML", "format = ", ["1"], "BadToml"),
        ("an unknown key", "color = 1\n" + good, ["1", "2"], "BadKey"),
        ("a step that isn't one behind a step of run", scenario(["stop 0", "stop"]), ["1", "2"], "BadStep 1"),
        ("a double name", good.replace("B@", "A@"), ["1", "2"], "DoubleName"),
        ("a version that isn't there", good, ["3"], "BadNumber"),
        ("a first version that isn't there", good, ["3", "1"], "BadNumber"),
        ("a second version that isn't there", good, ["1", "3"], "BadNumber"),
        ("the version 0", good, ["0"], "BadNumber"),
        ("a bad step and a version that isn't there", scenario(["take"]), ["3"], "BadStep 0"),
    ]:
        answer = with_files(text, None, lambda folder: run(["plan", "s.toml", *words], cwd=folder))
        check(f"plan: {name}", answer == (1, b"", f"fault: {fault}\n".encode()), repr(answer))
    faults("plan of no scenario", ["plan", "no/such/file", "1"], "OpenScenario")
    with_files(good, None, lambda folder: unprinted(["plan", "s.toml", "1", "2"], folder))
    says("plan", good.replace('"maglev"', "1"), None, "BadKey", 'scheme, line 7: found 1, expected "maglev", "plain" or "round"\n', ("plan", "s.toml", "1"))
    says("plan of a version that isn't there", good, None, "BadNumber", "version: expected the number of one that the scenario has\n", ("plan", "s.toml", "1", "3"))
    says("plan of a version of the number 0", good.replace("number = 2", "number = 0"), None, "BadNumber", "versions[1].number, line 18: found 0, expected a number from 1\n", ("plan", "s.toml", "1", "3"))
    for words in [[], ["s.toml"], ["s.toml", "one"], ["s.toml", "1", "2", "3"], ["s.toml", "-1"], ["s.toml", "1", "4294967296"]]:
        misused(f"plan {words}", ["plan", *words])


def sketches(name, data):
    """`scenario` prints what the model says, from a file and from standard input, and its services are those of the text."""
    text, services = model.sketched(data)
    answer = with_files("", data, lambda folder: run(["scenario", "in.pcap"], cwd=folder))
    check(f"the sketch of {name}", answer == (0, text.encode(), b""), repr(answer))
    prints(f"the sketch of {name}, from standard input", ["scenario", "-"], text, stdin=data)
    read = tomllib.loads(answer[1].decode())["versions"][0]["services"]
    check(f"the services of {name}", [(one["vip"], one["proto"], one["port"]) for one in read] == services, repr(read))


def sketch_plays(name, data):
    """A sketch is a scenario: with members filled in each packet to its services is sent, and without none."""
    text, services = model.sketched(data)
    filled = text.replace("members = []", 'members = ["A@10.8.0.1"]')
    for kind, played in [("empty", text), ("filled in", filled)]:
        expected = model.Run(played, data)
        simulates(f"the sketch of {name}, {kind}", played, data, expected.report(), expected.output())
    check(f"{name} has a service", services)


def between(source, target):
    """A datagram of TCP from an address and a port to others."""
    head = P[:10] + bytes(2) + b"".join(bytes(map(int, address.split("."))) for address, _ in (source, target))
    head = head[:10] + (65535 - model.folded(head)).to_bytes(2, "big") + head[12:]
    return head + source[1].to_bytes(2, "big") + target[1].to_bytes(2, "big") + P[24:]


def both_directions():
    """500 clients of two services, each of which sends seven packets and gets eight, one after the other."""
    data = HEAD
    for client in range(500):
        ends = (f"10.0.{client % 250}.1", 4000 + client), (("192.0.2.1", 80), ("192.0.2.2", 443))[client % 3 == 0]
        data += (record(between(*ends)) + record(between(*reversed(ends)))) * 7 + record(between(*reversed(ends)))
    return data


def random_directions(source):
    """Packets between a few places, each of which sends to each."""
    places = [(f"10.0.0.{host}", port) for host in (1, 2) for port in (53, 4000)]
    flows = [source.sample(places, 2) for _ in range(source.randrange(1, 5))]
    return HEAD + b"".join(record(between(*source.choice(flows)[:: source.choice((1, -1))])) for _ in range(source.randrange(80)))


def test_scenario():
    for path in sorted((TOP / "examples").glob("*.pcap")):
        sketches(path.name, path.read_bytes())
        sketch_plays(path.name, path.read_bytes())
    for seed in range(100):
        sketches(f"random capture {seed}", random_capture(random.Random(9000 + seed)))
    six = b"".join(record(P) for _ in range(6))
    sketches("five packets", HEAD + six[: 5 * len(record(P))])
    sketches("six packets", HEAD + six)
    sketches("a capture that is cut", HEAD + six + record(P)[:-1])
    sketches("no records", HEAD)
    sketches("both directions", both_directions())
    sketches("both directions, from the midst on", HEAD + both_directions()[24 + 16 + 40 :])
    text, services = model.sketched(both_directions())
    check("two services of 500 clients", services == [("192.0.2.1", "tcp", 80), ("192.0.2.2", "tcp", 443)], str(services))
    # One transfer, of which more packets come back than go there.
    there, back = between(("10.0.0.1", 4000), ("192.0.2.1", 80)), between(("192.0.2.1", 80), ("10.0.0.1", 4000))
    sketches("a transfer", HEAD + record(there) * 7 + record(back) * 20)
    check("its service", model.sketched(HEAD + record(there) * 7 + record(back) * 20)[1] == [("192.0.2.1", "tcp", 80)])
    for seed in range(60):
        sketches(f"random directions {seed}", random_directions(random.Random(9500 + seed)))


def test_scenario_faults():
    for name, data, fault in [
        *NO_CAPTURES,
        ("no capture", bytes(24), "BadMagic"),
        ("a version that isn't 2.4", HEAD[:7] + b"\x03" + HEAD[8:], "BadVersion"),
        ("a record that is too long", HEAD + record(P) + struct.pack("<4I", 0, 0, 262145, 262145), "TooLong"),
    ]:
        faults(f"scenario of {name}", ["scenario", "-"], fault, stdin=data)
    faults("scenario of no file", ["scenario", "no/such/file"], "OpenInput")
    faults("scenario of a folder", ["scenario", "."], "Read")
    with_files("", capture("y"), lambda folder: unprinted(["scenario", "in.pcap"], folder))
    says("scenario of no capture", "", bytes(24), "BadMagic", "in.pcap: ", ("scenario", "in.pcap"))
    for words in [[], ["in.pcap", "out.pcap"], ["--list", "in.pcap"]]:
        misused(f"scenario {words}", ["scenario", *words])


def plain_case(seed):
    """A random scenario of format 1 and a capture, and what they were drawn from."""
    source = random.Random(seed)
    return random_scenario(source), random_capture(source), source


def repeated_case(seed):
    """A scenario and a capture where most steps deliver one of a few records again: before it was read, in between and for the
    last time."""
    source = random.Random(seed)
    most = source.randrange(1, 12)
    steps = ["install 0 1", "install 1 1"]
    for _ in range(source.randrange(60)):
        one = f"again {source.randrange(most)}"
        steps.append(source.choice([one, one, one, f"take {source.randrange(3)}", "lose 1", "hold 0", "drain 0", "restart 1"]))
    return scenario(steps, workers=2), random_capture(source)


def weighed_case(seed):
    """A random scenario of format 2 with weights, and a capture."""
    source = random.Random(1000 + seed)
    return random_scenario(source, ("", "", *(f"*{weight}" for weight in range(1, 17)))), random_capture(source)


def idle_case(seed):
    """A random scenario with an idle limit, a capture whose clock goes on and steps back, and whether each life of a node gets its
    version before its packets."""
    source = random.Random(3000 + seed)
    limit = source.choice([0, 1, 500_000, 1_000_000, 3_000_000, 5_000_000])
    steps_of = source.choice([steps_by_versions, steps_by_versions, steps_by_lives])
    text = random_scenario(source, ("", "*2"), steps_of, 20).replace("format = 2", f"format = 2\nidle = {limit}")
    return text, random_capture(source, passing(source, limit), 120), steps_of is steps_by_lives


def test_against_the_model():
    """What random scenarios print and write is what the plain model says."""
    for seed in range(60):
        text, data, source = plain_case(seed)
        expected = model.Run(text, data)
        whole = expected.listing() + expected.report()
        simulates(f"scenario {seed} of the model", text, data, whole, expected.output(), ["--list"])
        split = expected.splits() + expected.report()
        simulates(f"the splits of scenario {seed} of the model", text, data, split, words=["--splits"])
        sends = {place: event[2][2:4] for place, event in enumerate(expected.events) if event[1].startswith("forward")}
        places = list(sends) or [0]
        split = [(a, b) for a in sends for b in sends if sends[a][0] == sends[b][0] and sends[a][1] != sends[b][1]]
        for one, other in [(source.choice(places), source.choice(places)), *(split and [source.choice(split)])]:
            words = ["explain", "s.toml", "in.pcap", str(one), str(other)]
            answer = with_files(text, data, lambda folder: run(words, cwd=folder))
            line = expected.explained(one, other).encode()
            check(f"explain {one} {other} of scenario {seed}", answer == (0, line, b""), f"{answer} {line!r}")
        one, other = source.randrange(len(expected.events)), source.randrange(len(expected.events) + 2)
        told = (expected.told_of(one, other) + expected.explained(one, other)).rstrip("\n")
        explains_of(f"explain --list {one} {other} of scenario {seed}", text, data, one, other, told, ["--list"])


def test_repeats_against_the_model():
    """The same where most steps deliver a record again."""
    for seed in range(40):
        text, data = repeated_case(seed)
        expected = model.Run(text, data)
        simulates(f"repeats {seed} of the model", text, data, expected.listing() + expected.report(), expected.output(), ["--list"])


def test_weights_against_the_model():
    """The same of scenarios of format 2, and the scenarios of format 1 print and write the same where their format is 2."""
    for seed in range(40):
        text, data = weighed_case(seed)
        expected = model.Run(text, data)
        whole = expected.listing() + expected.report()
        simulates(f"weighed scenario {seed} of the model", text, data, whole, expected.output(), ["--list"])
        text, data, _ = plain_case(seed)
        expected = model.Run(text, data)
        whole = expected.listing() + expected.report()
        simulates(f"scenario {seed} in format 2", text.replace("format = 1", "format = 2"), data, whole, expected.output(), ["--list"])


def test_idle_against_the_model():
    """The same of scenarios with an idle limit, over captures whose clock goes on and steps back, simulated and on threads."""
    for seed in range(90):
        text, data, by_lives = idle_case(seed)
        expected = model.Run(text, data)
        whole = expected.listing() + expected.report()
        simulates(f"idle scenario {seed} of the model", text, data, whole, expected.output(), ["--list"])
        if by_lives:
            split = expected.on_threads().splits() + expected.report()
            runs(f"the splits of idle scenario {seed}, on threads", text, data, split, words=["--splits"])


def commands_of(page):
    """The commands of a page, as words, each with the lines that it prints."""
    found = []
    for line in page.splitlines():
        text = line.strip()
        if line.startswith("    ") and text.startswith("$ "):
            found.append((text.split()[1:], []))
        elif line.startswith("    ") and found:
            found[-1][1].append(text)
    return [(words, "".join(line + "\n" for line in lines)) for words, lines in found]


EXAMPLES = TOP / "examples"


def example(name, capture):
    """An example's scenario and capture, and what the model says of them."""
    text, data = (EXAMPLES / f"{name}.toml").read_text(), (EXAMPLES / f"{capture}.pcap").read_bytes()
    return text, data, model.Run(text, data)


def is_made(capture, script):
    """An example's capture is what its script writes."""
    with tempfile.TemporaryDirectory() as folder:
        made = pathlib.Path(folder) / "made.pcap"
        subprocess.run([sys.executable, str(EXAMPLES / script), str(made)], check=True)
        check(f"{script} writes {capture}.pcap", made.read_bytes() == (EXAMPLES / f"{capture}.pcap").read_bytes())


def test_examples():
    """Each command of the examples' page prints what stands there, which is what the model says."""
    captures = {"failover": "failover", "larger": "failover", "idle": "idle"}
    runs = {f"examples/{name}.toml": example(name, capture)[2] for name, capture in captures.items()}
    commands = [one for one in commands_of((EXAMPLES / "README.md").read_text()) if runs.keys() & set(one[0]) and one[0][0] != "grep"]
    kinds = ["simulate"] + ["explain"] * 4 + ["run", "simulate", "explain", "explain", "simulate", "explain", "explain", "simulate"]
    check("the examples' commands", [words[1] for words, _ in commands] == kinds, repr(commands))
    with tempfile.TemporaryDirectory() as made:
        for (_, command, *words), printed in commands:
            out = pathlib.Path(made) / "sent.pcap"
            expected = next(run for name, run in runs.items() if name in words)
            prints(f"{command} of the examples", [command, *(str(out) if word == out.name else word for word in words)], printed)
            if command == "simulate":
                lines = expected.splits() if "--splits" in words else expected.listing()
                check("the examples' lines and report", printed == lines + expected.report(), printed)
                check("what the example sends", out.read_bytes() == expected.output())
            elif command == "run":
                check("the example's report on threads", printed == expected.report() + "audit agrees\n", printed)
            else:
                check("an example explained", printed == expected.explained(int(words[-2]), int(words[-1])), printed)
    is_made("failover", "make_capture.py")
    is_made("idle", "make_idle.py")


def test_without_a_limit():
    """What the examples' page shows of the idle connections without a limit."""
    text, data, _ = example("idle", "idle")
    text = "".join(line for line in text.splitlines(True) if not line.startswith("idle"))
    expected = model.Run(text, data)
    simulates("no limit", text, data, expected.splits() + expected.report(), expected.output(), ["--splits"])
    ((_, shown),) = [one for one in commands_of((EXAMPLES / "README.md").read_text()) if one[0][0] == "grep"]
    check("no limit on the page", shown == expected.splits() and shown.count("\n") == 4, shown)


def test_stop():
    """A balancer stops in full traffic: what the examples' page shows is printed, and the rest is judged by the model."""
    text, data, expected = example("stop", "stop")
    (_, shown), (_, refused) = [one for one in commands_of((EXAMPLES / "README.md").read_text()) if "examples/stop.toml" in one[0]]
    for turn in range(10):
        status, out, err, made = ran(text, data)
        lines = out.decode().splitlines(True)
        schedule = [line for line in lines if line.startswith(("forwarded", "drop LostAtRestart"))]
        check(f"stop {turn}: the page", (status, err) == (0, b"") and "".join(line for line in lines if line not in schedule) == shown, out.decode())
        counts = [int(line.split()[-1]) for line in schedule]
        check(f"stop {turn}: its counts", sum(counts) == 2000 and counts[0] >= 1510, repr(schedule))
        check(f"stop {turn}: what is sent", list(soak_run.faults_of(expected, out.decode(), made)) == [])
    stops("simulate of a stop", text, data, refused.removeprefix("fault: ").strip(), None)
    is_made("stop", "make_stop.py")


def last(lines, count):
    """The last lines of a text, as `tail` has them."""
    return "".join(lines.splitlines(True)[-count:])


def prints_last(name, shown):
    """A command of a page that ends in `| tail -N` prints what is shown."""
    (_, *words), lines = shown
    count = int(words.pop().removeprefix("-"))
    with tempfile.TemporaryDirectory() as made:
        words = [f"{made}/sent.pcap" if word == "sent.pcap" else str(TOP / word) if "/" in word else word for word in words[: words.index("|")]]
        status, out, err = run(words)
    check(name, (status, last(out.decode(), count), err) == (0, lines, b""), f"{out[-900:]} {lines}")


def test_rolling():
    """What the page of the rolling change shows is printed, which is what the model says; the picture is drawn of it."""
    text, data, expected = example("rolling", "rolling")
    simulates("the rolling change", text, data, expected.splits() + expected.report(), expected.output(), ["--splits"])
    commands = commands_of((EXAMPLES / "rolling.md").read_text())
    names = [words[1] for words, _ in commands]
    check("the commands of the rolling change", names == ["simulate", "explain", "simulate", "compare", "simulate", "examples/moves.py"], repr(names))
    check("its last lines", last(expected.splits() + expected.report(), 15) == commands[0][1], commands[0][1])
    one, other = (int(word) for word in commands[1][0][-2:])
    check("its line explained", expected.explained(one, other) == commands[1][1], commands[1][1])
    prints("explain of the rolling change", [str(TOP / word) if "/" in word else word for word in commands[1][0][1:]], commands[1][1])
    told = expected.splits(True) + expected.report()
    check("its last lines with places", last(told, 15) == commands[2][1], commands[2][1])
    prints_last("the rolling change with places", commands[2])
    nodes, page = [expected.events[place][2].at.node for place in (one, other)], (EXAMPLES / "rolling.md").read_text()
    said = f"balancer {nodes[0]} had the connection", f"the connection to balancer {nodes[1]}", f"All {expected.splits().count(' moved')} are"
    check("its two balancers", all(words in page for words in said) and "changes node 131\n" in expected.summary(), f"{said} {expected.summary()}")
    with tempfile.TemporaryDirectory() as made:
        compared, split, picture = (pathlib.Path(made) / name for name in ("compared", "split", "moves.svg"))
        words = [str(TOP / word) if "/" in word else word for word in commands[3][0][2:-2]]
        status, out, _ = run(["compare", *words])
        check("compare of the rolling change", status == 0 and out.startswith(b"size 1021 old 4 new 6 "), repr(out[:60]))
        compared.write_bytes(out)
        split.write_text(expected.splits() + expected.report())
        subprocess.run([sys.executable, str(EXAMPLES / "moves.py"), compared, split, "3", "4", picture], check=True)
        check("the picture", picture.read_bytes() == (EXAMPLES / "moves.svg").read_bytes())
    is_made("rolling", "make_rolling.py")


def test_by_tshark():
    """Another reader of captures sees IPv4, GRE and the inner IPv4, with a good outer checksum."""
    if shutil.which("tshark") is None:
        print("tshark isn't installed: its reading of OUTPUT is skipped")
        return

    def use(folder):
        run(["simulate", "s.toml", "in.pcap", "out.pcap"], cwd=folder)
        words = ["tshark", "-r", "out.pcap", "-o", "ip.check_checksum:TRUE", "-T", "fields", "-e", "frame.protocols"]
        words += ["-e", "ip.checksum.status", "-e", "ip.src", "-e", "ip.dst", "-e", "gre.proto", "-e", "ip.len"]
        return subprocess.run(words, cwd=folder, capture_output=True, timeout=120)

    done = with_files(scenario(["install 0 1", "install 1 2", "take 4"]), capture("yzxy"), use)
    backends = [("1", "1"), ("2", "1"), ("1", "1"), ("2", "1")]
    lines = [line.split("\t") for line in done.stdout.decode().splitlines()]
    seen = [(line[0][:12], *line[1:]) for line in lines]
    expected = [
        ("raw:ip:gre:ip", "1,1", f"10.9.0.{node},10.0.0.1", f"10.8.0.{backend},192.0.2.1", "0x0800", "64,40")
        for node, backend in backends
    ]
    check("what tshark sees", seen == [(line[0][:12], *line[1:]) for line in expected], repr(lines))


def test_command_line():
    misused("no subcommand", [])
    misused("an unknown subcommand", ["tables"])
    misused("no name", ["table", "--size", "7", "--hash", "sum"])
    misused("no size", ["table", "--hash", "sum", "A"])
    misused("a size that isn't a number", ["table", "--size", "seven", "--hash", "sum", "A"])
    misused("a size that doesn't fit", ["table", "--size", "4294967296", "--hash", "sum", "A"])
    misused("a negative size", ["table", "--size", "-7", "--hash", "sum", "A"])
    folder = TOP / "tests" / "texts"
    prints("the help", ["--help"], (folder / "maglev.txt").read_text())
    prints("the help of help", ["help", "--help"], (folder / "maglev.txt").read_text())
    for name in ["table", "pick", "compare", "plan", "scenario", "simulate", "explain", "run"]:
        prints(f"the help of {name}", [name, "--help"], (folder / f"{name}.txt").read_text())
    for name, words in [
        ("unknown_command", ["tables"]),
        ("bad_number", ["table", "--size", "seven", "--hash", "sum", "A"]),
        ("missing_argument", ["simulate", "a", "b"]),
    ]:
        answer = run(words)
        check(f"the text of {name}", answer == (2, b"", (folder / f"{name}.txt").read_bytes()), repr(answer))
    with open("/dev/full", "wb") as full:
        done = subprocess.run([PROGRAM, "table"], stdout=subprocess.PIPE, stderr=full, check=False)
        check("a bad command line, not told", (done.returncode, done.stdout) == (2, b""), repr(done))
        status, _, err = run(["--help"], stdout=full)
        check("help that can't be written", (status, err) == (1, b"fault: Write\n"), f"{status} {err!r}")


def test_definitions():
    done = subprocess.run([sys.executable, str(TOP / "tools" / "definitions.py"), "--check"], stdout=subprocess.PIPE, check=False)
    check("the documents list and count the definitions", done.returncode == 0, done.stdout.decode())


if __name__ == "__main__":
    subprocess.run([PROGRAM, "--help"], stdout=subprocess.DEVNULL, check=True)
    sys.exit(run_tests(globals()))
