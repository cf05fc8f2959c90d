#!/usr/bin/env python3
"""format_three.py [FIRST COUNT]: what scenarios of format 3 say: members that drain, steps with `*` and by time, versions by
difference, servers, the cause `drained`.

Rows are worked out by hand. So many random scenarios, 2,000 in the gate, print and write what tests/model.py says; some more
run on threads and are judged as tests/soak_run.py does. What the other tests make of formats 1 and 2 prints the same bytes in
format 3. The example's rollout breaks no connection that ends while its server drains, and without the drain it does. The last
line is 'N passed, N failed'.
"""
import collections
import pathlib
import random
import re
import sys
import tempfile

import end_to_end as rows
import model
import mutants
import soak_run
from end_to_end import ALL, A_DOWN, B_DOWN, HEAD, WRITTEN_HEAD, capture, explains, faults, lists, lists_of, report, scenario, simulates, stops
from harness import check, run_tests

A_DRAINS = ["A@10.8.0.1/drain", "B@10.8.0.2", "C@10.8.0.3"]
C_DRAINS = ["A@10.8.0.1", "B@10.8.0.2", "C@10.8.0.3/drain"]
ALL_DRAIN = [member + "/drain" for member in ALL]
ALL_DOWN = [member + "/down" for member in ALL]
FIRST, COUNT = (int(word) for word in sys.argv[1:3]) if len(sys.argv) > 2 else (0, 2000)


def three(text, more=""):
    """A scenario of formats 1 and 2 in format 3."""
    return re.sub("format = [12]", f"format = 3{more}", text, count=1)


def alone(*groups, versions, **more):
    """A scenario of format 3 of one live node. Between two versions, which are installed in order, it takes so many packets."""
    steps = ["live 0"]
    for number, count in enumerate(groups, 1):
        steps += [f"install 0 {number}"] + [f"take {count}"] * (count > 0)
    return three(scenario(steps, versions, **more))


def forward(backend, origin):
    """The outcome of a packet that is sent to A, B or C."""
    return f"forward {ALL['ABC'.index(backend)]} from {origin}"


def split(port, events, slot, one, other, cause):
    """The line of a split between A, B and C, each with the version that chose it."""
    halves = [f"{version} {ALL['ABC'.index(backend)]}" for backend, version in (one, other)]
    return rows.told(port, events, slot, *halves, cause)


def counts(flows, down=0, moved=0, drained=0):
    """The lines behind those of the splits, where some member drains."""
    return rows.counts(flows, down, moved).replace(f"split {down + moved}", f"split {down + moved + drained}") + f"drained {drained}\n"


def plays(name, text, letters, forwards, lines):
    """What becomes of each packet, by the numbers of its events, and the splits with their counts. The rest is the model's."""
    plays_of(name, text, capture(letters), forwards, lines)


def plays_of(name, text, data, forwards, lines):
    """The same of a capture."""
    lists_of(name, text, data, forwards)
    expected = model.Run(text, data)
    simulates(f"{name}, its splits", text, data, lines + expected.report(), expected.output(), ["--splits"])
    check(f"{name}, its splits by the model", expected.splits() == lines, expected.splits())


def test_draining():
    """B A B C C A A is the table of A, B and C, and B B B C C C B that of B and C, so that y goes to A or B, z to B, x to A or C."""
    a1, b1, c1, b2, c2 = (forward(name, version) for name, version in ["A1", "B1", "C1", "B2", "C2"])
    text = alone(1, 2, 1, versions=[ALL, A_DRAINS, A_DOWN])
    line = split(1000, "5 10", 6, "A1", "B3", "drained")
    plays("a draining member keeps its flow, and gets no other", text, "yyxy", {2: a1, 5: a1, 7: c2, 10: forward("B", 3)}, line + counts(2, drained=1))
    explains("why it left", text, "yyxy", 5, 10, "split slot 6 version 1 A@10.8.0.1 version 3 B@10.8.0.2 drained")
    explains("the other way round", text, "yyxy", 10, 5, "split slot 6 version 3 B@10.8.0.2 version 1 A@10.8.0.1")
    explains("that it stayed", text, "yyxy", 2, 5, "same")
    text = alone(1, 1, 2, versions=[ALL, A_DRAINS, ALL])
    plays("a member drains and is back", text, "yyyx", {2: a1, 5: a1, 8: a1, 10: forward("A", 3)}, counts(2))
    text = alone(1, 1, 1, versions=[A_DRAINS, ALL, A_DRAINS])
    plays("a member drains from the beginning", text, "yyz", {2: b1, 5: b1, 8: forward("B", 3)}, counts(2))
    heavy = ["A@10.8.0.1*16/drain", "B@10.8.0.2", "C@10.8.0.3"]
    plays("a draining member's weight", alone(1, 3, versions=[ALL, heavy]), "yyxz", {2: a1, 5: a1, 7: c2, 9: b2}, counts(3))
    text = alone(1, 3, versions=[ALL, A_DRAINS])
    plays("an entry is pushed out", text, "yzxy", {2: a1, 5: b2, 7: c2, 9: b2}, split(1000, "2 9", 6, "A1", "B2", "moved") + counts(3, moved=1))
    text = three(scenario(["live 0", "install 0 1", "take 1", "install 0 2", "restart 0", "take 1"], [ALL, A_DRAINS]))
    plays("a table begins anew", text, "yy", {2: a1, 6: b2}, split(1000, "2 6", 6, "A1", "B2", "moved") + counts(1, moved=1))
    text = three(scenario(["install 0 1", "install 1 2", "take 4"], [ALL, A_DRAINS]))
    lines = split(1000, "3 5", 6, "A1", "B2", "moved") + split(1000, "5 7", 6, "B2", "A1", "moved") + counts(2, moved=2)
    plays("two nodes of two versions", text, "yyyx", {3: a1, 5: b2, 7: a1, 9: c2}, lines)
    text = three(scenario(["live 0", "install 0 1", "take 1", "hold 0", "take 2", "install 0 2", "drain 0"], [ALL, A_DRAINS]))
    plays("the step that serves what a node held", text, "yyx", {2: a1, 6: a1, 7: c2}, counts(2))
    text = alone(1, 1, versions=[ALL, ["A@10.8.0.9/drain", *ALL[1:]]])
    plays("another address drains", text, "yy", {2: a1, 5: b2}, split(1000, "2 5", 6, "A1", "B2", "down") + counts(1, down=1))
    udp = alone(1, 1, versions=[ALL, ALL]) + '[[versions.services]]\nvip = "192.0.2.1"\nproto = "udp"\nport = 53\nmembers = ["A@10.8.0.1/drain"]\n'
    plays("a member of another service drains", udp, "yy", {2: a1, 5: a1}, counts(1))


def test_draining_with_a_limit():
    """An entry past the limit is as none, also of a member that drains. What a draining member gets touches its entry."""
    text = alone(1, 3, versions=[ALL, A_DRAINS]).replace("format = 3", "format = 3\nidle = 5000000")
    data = rows.timed("yyyy", [10, 15, 20, 26])
    line = split(1000, "7 9", 6, "A1", "B2", "moved")
    plays_of("at the limit, and past it", text, data, {2: forward("A", 1), 5: forward("A", 1), 7: forward("A", 1), 9: forward("B", 2)}, line + counts(1, moved=1))


def test_nobody_is_up():
    """Where members drain and none is up, flows that are kept are sent, and others are dropped."""
    a1, drop = forward("A", 1), "drop NoBackend"
    text = alone(1, 3, 2, versions=[ALL, ALL_DRAIN, B_DOWN])
    plays("all drain", text, "yyxyyx", {2: a1, 5: a1, 7: drop, 9: a1, 12: a1, 14: forward("C", 3)}, counts(2))
    other = ["A@10.8.0.9/drain", *ALL_DRAIN[1:]]
    plays("all drain, one at another address", alone(1, 1, 1, versions=[ALL, other, ALL]), "yyy", {2: a1, 5: drop, 8: a1}, counts(1))
    text = alone(1, 1, 1, versions=[ALL, ALL_DRAIN, ALL_DOWN])
    plays("all drain, and are down", text, "yyy", {2: a1, 5: a1, 8: drop}, counts(1))
    text = alone(1, 1, 1, versions=[ALL, ALL_DRAIN, ALL], scheme="round")
    plays("a turn passes where nobody is up", text, "yxz", {2: a1, 5: drop, 8: forward("C", 3)}, counts(2))


def test_other_schemes():
    """The hash of y is 629, that of z 630, that of x 635: modulo 3 they are 2, 0 and 2, modulo 2 they are 1, 0 and 1."""
    text = alone(1, 3, versions=[ALL, C_DRAINS], scheme="plain")
    plays("plain hashing", text, "yyzx", {2: forward("C", 1), 5: forward("C", 1), 7: forward("A", 2), 9: forward("B", 2)}, counts(3))
    text = alone(1, 3, versions=[ALL, A_DRAINS], scheme="round")
    plays("round robin", text, "yyzx", {2: forward("A", 1), 5: forward("A", 1), 7: forward("C", 2), 9: forward("B", 2)}, counts(3))


def test_causes():
    """Which versions count: those from the first send's origin on, below the one under which the later packet was served."""
    a1, b2, b3 = forward("A", 1), forward("B", 2), forward("B", 3)
    unseen = three(scenario(["live 0", "install 0 1", "take 1", "install 0 3", "take 1"], [ALL, A_DRAINS, A_DOWN]))
    plays("a drain that no node had", unseen, "yy", {2: a1, 5: b3}, split(1000, "2 5", 6, "A1", "B3", "drained") + counts(1, drained=1))
    early = three(scenario(["live 0", "install 0 2", "take 1", "install 0 3", "take 1"], [A_DRAINS, ALL, A_DOWN]))
    plays("a drain before the origin", early, "yy", {2: forward("A", 2), 5: b3}, split(1000, "2 5", 6, "A2", "B3", "down") + counts(1, down=1))
    late = alone(1, 1, versions=[ALL, A_DOWN, A_DRAINS])
    plays("a drain behind the later packet", late, "yy", {2: a1, 5: b2}, split(1000, "2 5", 6, "A1", "B2", "down") + counts(1, down=1))
    again = alone(1, 0, 0, 1, versions=[ALL, A_DRAINS, ALL, A_DOWN])
    plays("a drain that was called off", again, "yy", {2: a1, 7: forward("B", 4)}, split(1000, "2 7", 6, "A1", "B4", "drained") + counts(1, drained=1))
    moved = alone(1, 0, 1, versions=[ALL, ["A@10.8.0.9/drain", *ALL[1:]], A_DOWN])
    plays("a drain of the name at another address", moved, "yy", {2: a1, 6: b3}, split(1000, "2 6", 6, "A1", "B3", "down") + counts(1, down=1))
    # Last x is served under version 3, where A is down, by an entry of version 2, where it drains.
    text = three(scenario(["install 0 1", "install 1 2", "take 2", "install 1 3", "take 2"], [ALL, A_DRAINS, A_DOWN]))
    lines = split(1006, "3 5", 5, "A1", "C2", "moved") + split(1006, "5 8", 5, "C2", "A1", "moved") + split(1006, "8 10", 5, "A1", "C2", "drained")
    plays("one flow, three times", text, "xxxx", {3: a1, 5: forward("C", 2), 8: a1, 10: forward("C", 2)}, lines + counts(1, moved=2, drained=1))
    # The later packet comes to a node whose version is older than the first one's origin.
    text = three(scenario(["install 0 3", "install 1 1", "take 2"], [A_DOWN, A_DRAINS, ALL]))
    plays("a later packet under an older version", text, "yy", {3: forward("A", 3), 5: forward("B", 1)}, split(1000, "3 5", 6, "A3", "B1", "down") + counts(1, down=1))
    nobody = three(scenario(["install 0 1", "install 1 2", "take 2"]))
    lines = split(1006, "3 5", 5, "A1", "C2", "moved") + rows.counts(1, 0, 1)
    simulates("no line of drained where nobody drains", nobody, capture("xx"), lines + report(2, 2), words=["--splits"])


def test_steps():
    """`*` is the rest of the capture, or each node in order, live or not."""
    text = three(scenario(["live 1", "install * 1", "live 0 1", "take *"]))
    events = """0 install 0 1: installed
1 install 1 1: installed
2 arrive 0 0: placed 0
3 serve 0 0 1: forward A@10.8.0.1 from 1
4 arrive 1 1: placed 0
5 serve 1 0 1: forward B@10.8.0.2 from 1
6 arrive 0 2: placed 0
7 serve 0 0 1: forward A@10.8.0.1 from 1
"""
    simulates("each node gets a version", text, capture("yzx"), events + report(3, 3), words=["--list"])
    text = three(scenario(["install 0 2", "install * 1", "install * 7"]))
    events = """0 install 0 2: installed
1 install 0 1: refused NotNewer
2 install 1 1: installed
3 install 0 7: refused UnknownVersion
4 install 1 7: refused UnknownVersion
"""
    simulates("some of them refuse it", text, capture(""), events + report(0, 0, refused=3), words=["--list"])
    text = three(scenario(["install * 1", "hold 0", "take 3", "restart *", "take *"]))
    events = """0 install 0 1: installed
1 install 1 1: installed
2 arrive 0 0: placed 0
3 arrive 1 1: placed 0
4 serve 1 0 1: forward A@10.8.0.1 from 1
5 arrive 0 2: placed 0
6 restart 0: restarted 2
7 restart 1: restarted 0
8 arrive 1 3: placed 0
9 serve 1 0 1: forward A@10.8.0.1 from 1
"""
    simulates("each node restarts", text, capture("yyyy"), events + report(4, 2, drops="drop LostAtRestart 2\n"), words=["--list"])
    text = three(scenario(["live 0", "install * 1", "take 1", "lose 1", "take *", "take *", "take 1", "again 1"]))
    sent = {3: "forward A@10.8.0.1 from 1", 5: "forward A@10.8.0.1 from 1", 7: "forward B@10.8.0.2 from 1"}
    lists("the rest, which is taken once", text, "yzx", sent)
    simulates("the rest of nothing", three(scenario(["take *"])), HEAD, report(0, 0), WRITTEN_HEAD)
    cut = capture("yz")[:-1]
    simulates("the rest of a capture that is cut", three(scenario(["install * 1", "take *"])), cut, report(1, 1, cut="yes"))
    long = capture("y") + bytes.fromhex("00000000000000000004000100040001")
    stops("the rest with a record that is too long", three(scenario(["install * 1", "take *"])), long, "TooLong", model.Run(scenario(["install 0 1", "take 1"]), capture("y")).output())
    text = three(scenario(["install * 1", "take 3", "restart *", "take *"]))
    rows.runs("each node restarts, on threads", text, capture("yzxyz"), report(5, 5))
    text = three(scenario(["install * 1", "take *", "stop *", "take *"], more="ring = 16\n"))
    data = soak_run.captured([bytes(soak_run.datagram(soak_run.TCP.format(number % 3), number)) for number in range(9)])
    with tempfile.TemporaryDirectory() as folder:
        for turn in range(10):
            found = soak_run.judged(text, data, model.Run(text, data), pathlib.Path(folder))
            check(f"each node stops, turn {turn}", found == [], repr(found))


# When a packet came, in microseconds after 1,000,000,000 seconds.
TIMES = [0, 1_500_000, 1_500_000, 2_000_000, 1_000_000, 3_000_000]


def at(times, letters="yyyyyyyyyyyy"):
    """A packet for each of these times."""
    return HEAD + b"".join(rows.record(rows.packet(letter), 1_000_000_000 + time // 1_000_000, time % 1_000_000 * 1000) for time, letter in zip(times, letters))


def reads(name, steps, expected, times=TIMES):
    """Which records the steps deliver on node 0, one serving after another, and how many are left."""
    text = three(scenario(["live 0", "install * 1", *steps]))
    data = at(times)
    status, out, err, _ = rows.simulated(text, data, ["--list"])
    lines = out.decode().splitlines()
    delivered = [int(line.split(": ")[0].rsplit(" ", 1)[1]) for line in lines if " arrive " in line]
    left = next((int(line.split(" ")[1]) for line in lines if line.startswith("left ")), None)
    check(name, (status, err, (delivered, left)) == (0, b"", expected), f"{status} {delivered} {left} {err!r}")
    run = model.Run(text, data)
    check(f"{name}, in full", out.decode() == run.listing() + run.report(), repr(out))
    rows.runs(f"{name}, on threads", text, data, run.report())


def test_until():
    """The records that come less than so long after the first, up to one that doesn't; the next step goes on with that one."""
    reads("up to a time", ["until 2"], ([0, 1, 2], 3))
    reads("what came at that time isn't earlier", ["until 1.5"], ([0], 5))
    reads("a microsecond more", ["until 1.500001"], ([0, 1, 2], 3))
    reads("the record that was looked at is the next", ["until 2", "take 1"], ([0, 1, 2, 3], 2))
    reads("one after another", ["until 1", "until 1.5", "until 2", "until 3", "until 4"], ([0, 1, 2, 3, 4, 5], 0))
    reads("a time that was passed", ["until 2", "until 1", "until 2"], ([0, 1, 2], 3))
    reads("a step back comes early", ["until 2", "take 1", "until 1.5"], ([0, 1, 2, 3, 4], 1))
    reads("behind one that comes too late none is looked at", ["until 1.5", "until 1.2"], ([0], 5))
    reads("nothing", ["until 0"], ([], 6))
    reads("all", ["until 3.000001"], ([0, 1, 2, 3, 4, 5], 0))
    reads("all but the last", ["until 3"], ([0, 1, 2, 3, 4], 1))
    reads("the longest time", ["until 4294967295.000000"], ([0, 1, 2, 3, 4, 5], 0))
    reads("the first record is lost", ["lose 1", "until 2"], ([1, 2], 3))
    reads("a loss from where it ended", ["until 2", "lose 1", "until 2"], ([0, 1, 2, 4], 1))
    reads("the record that was looked at, lost", ["until 2", "lose 2", "take *"], ([0, 1, 2, 5], 0))
    reads("a repeat of what was delivered", ["until 2", "again 2", "take 1", "again 3"], ([0, 1, 2, 2, 3, 3], 2))
    reads("a repeat of what was only looked at", ["until 2", "again 3", "take 1"], ([0, 1, 2, 3], 2))
    reads("by count and by time", ["take 2", "until 2", "take 1", "until 3.5"], ([0, 1, 2, 3, 4, 5], 0))
    reads("an empty capture", ["until 5", "take 1"], ([], 0), times=[])
    reads("the first comes last", ["until 0.000001", "take 1"], ([0, 1, 2, 3], 0), times=[5_000_000, 0, 4_999_999, 5_000_000])
    reads("the first comes last, and none is less", ["until 0"], ([], 4), times=[5_000_000, 0, 4_999_999, 5_000_000])
    text = three(scenario(["live 0", "install * 1", "until 2", "install * 2", "take *"]))
    expected = model.Run(text, at(TIMES, "yyyxxx"))
    simulates("an install at two seconds", text, at(TIMES, "yyyxxx"), expected.listing() + expected.splits() + expected.report(), expected.output(), ["--list", "--splits"])
    check("which comes between", [event for event, _, _ in expected.events].index("install 0 2") == 8, repr(expected.events))
    nanos = bytes.fromhex("a1b23c4d") + HEAD[4:]
    simulates("by nanoseconds, cut to microseconds", three(scenario(["live 0", "install * 1", "until 0.000001"])), nanos + b"".join(rows.record(rows.packet("y"), 5, nano) for nano in [1500, 1999, 2000]), report(3, 2, received=2, left=1))
    cut = at(TIMES)[:-1]
    simulates("a capture that is cut behind the time", three(scenario(["live 0", "install * 1", "until 2"])), cut, report(5, 3, received=3, left=2, cut="yes"))
    long = at(TIMES[:3]) + bytes.fromhex("3b9aca05000000000004000100040001")
    wanted = model.Run(three(scenario(["live 0", "install * 1", "take 3"])), at(TIMES[:3])).output()
    stops("until a record that is too long", three(scenario(["live 0", "install * 1", "until 2", "take 1"])), long, "TooLong", wanted)


def test_plans():
    """The slots of servers that drain. B A B C C A A is the table of A, B and C, B B B C C C B that of B and C, and C alone has
    all."""
    text = three(scenario([], [ALL, A_DRAINS, ["A@10.8.0.1/drain", "B@10.8.0.2/down", "C@10.8.0.3"], A_DOWN, ALL_DRAIN, ["A@10.8.0.9/drain", *ALL[1:]]]))
    for words, lines in [
        ("1 2", "changed 3 down 0 moved 0 least 3 drained 3|A@10.8.0.1 weight 1 before 3 after 0 drain|B@10.8.0.2 weight 1 before 2 after 4|C@10.8.0.3 weight 1 before 2 after 3"),
        ("1 3", "changed 5 down 2 moved 0 least 5 drained 3|A@10.8.0.1 weight 1 before 3 after 0 drain|B@10.8.0.2 weight 1 before 2 after 0 down|C@10.8.0.3 weight 1 before 2 after 7"),
        ("2 4", "changed 0 down 0 moved 0 least 0|A@10.8.0.1 weight 1 before 0 after 0 down|B@10.8.0.2 weight 1 before 4 after 4|C@10.8.0.3 weight 1 before 3 after 3"),
        ("2 1", "changed 3 down 0 moved 3 least 3|A@10.8.0.1 weight 1 before 0 after 3|B@10.8.0.2 weight 1 before 4 after 2|C@10.8.0.3 weight 1 before 3 after 2"),
        ("1 5", "changed 7 down 0 moved 0 least 7 drained 7|A@10.8.0.1 weight 1 before 3 after 0 drain|B@10.8.0.2 weight 1 before 2 after 0 drain|C@10.8.0.3 weight 1 before 2 after 0 drain"),
        ("4 5", "changed 7 down 0 moved 0 least 7 drained 7|A@10.8.0.1 weight 1 before 0 after 0 drain|B@10.8.0.2 weight 1 before 4 after 0 drain|C@10.8.0.3 weight 1 before 3 after 0 drain"),
        ("1 6", "changed 3 down 3 moved 0 least 3 drained 0|A@10.8.0.1 weight 1 before 3 after 0 down|A@10.8.0.9 weight 1 before 0 after 0 drain|B@10.8.0.2 weight 1 before 2 after 4|C@10.8.0.3 weight 1 before 2 after 3"),
        ("3", "|A@10.8.0.1 weight 1 slots 0 drain|B@10.8.0.2 weight 1 slots 0 down|C@10.8.0.3 weight 1 slots 7"),
    ]:
        expected = "service 192.0.2.1:80/tcp\nslots 7 ".rstrip() + (" " + lines if lines[0] != "|" else lines).replace("|", "\n") + "\n"
        rows.plans(f"plan {words}", text, words.split(" "), expected)
        told = model.planned(text, 3) if words == "3" else model.plan(text, *map(int, words.split(" ")))
        check(f"plan {words} by the model", told == expected, told)


NO_TIMES = [
    "until", "until ", "until *", "until -1", "until +1", "until 1.", "until .5", "until 1.0000001", "until 1.1234567", "until 01", "until 1e3", "until 1,5",
    "until 1 2", "until 1.5.2", "until 4294967296", "until 4294967295.000001", "until 4294967295.9", "until 4294967296.0", "until 99999999999999999999", "until 0x1", "until 1s", "until 1. 5", "until 1.-5", "until NaN",
    "until 1.5 ", " until 1", "Until 1", "until  1", "until00",
]

SERVERS = """
[servers]
A = "10.8.0.1"
B = "10.8.0.2"
C = "10.8.0.3"
"""

SERVICE = 'vip = "192.0.2.1"\nproto = "tcp"\nport = 80\n'


def written_as(versions, servers="", steps=("live 0", "install * 1", "take *")):
    """A scenario of format 3 with these versions as text."""
    return three(scenario(list(steps), [])) + servers + versions


def version(number, *lines):
    """A version's table."""
    return f"[[versions]]\nnumber = {number}\n" + "".join(line + "\n" for line in lines)


def service(*lines):
    """A service's table in a version."""
    return "[[versions.services]]\n" + SERVICE + "".join(line + "\n" for line in lines)


def means_as(name, text, members):
    """A scenario's versions are these, one after another, written out as words of the one service: it plays, plans and explains
    alike."""
    written = three(scenario(model.tomllib.loads(text)["steps"], members))
    data = capture("yzxyzxyzx")
    words = ["--list", "--splits"]
    check(name, rows.simulated(text, data, words) == rows.simulated(written, data, words), f"{rows.simulated(text, data, words)}")
    expected = model.Run(text, data)
    check(f"{name}, by the model", expected.listing() == model.Run(written, data).listing(), expected.listing())
    for number in range(1, len(members) + 1):
        plans = [rows.run(["plan", "-", str(number)], stdin=one.encode()) for one in (text, written)]
        check(f"{name}, version {number}", plans[0] == plans[1] and plans[0][0] == 0, repr(plans))


FIRST_VERSION = version(1) + service(f"members = {rows.listed(ALL)}")
STEPS = ("live 0", "install * 1", "take 3", "install * 2", "take 3", "install * 3", "take *")


def follows(name, members, *lines, more=""):
    """What a version by difference is that stands behind A, B and C, and what another behind it is that changes nothing."""
    text = written_as(FIRST_VERSION + version(2, "base = 1", *lines) + more + version(3, "base = 2"), steps=STEPS)
    means_as(name, text, [ALL, members, members])


def test_differences():
    """Versions by difference, and what they are written out."""
    a, b, c = ALL
    follows("nothing changes", ALL)
    follows("one goes down", [a, b + "/down", c], 'down = ["B"]')
    follows("one drains", [a + "/drain", b, c], 'drain = ["A"]')
    follows("two go down, one drains", [a + "/down", b + "/drain", c + "/down"], 'down = ["C", "A"]', 'drain = ["B"]')
    follows("one comes, behind the others", [a, b, c, "D@10.8.0.4"], 'add = ["D@10.8.0.4"]')
    follows("several come", [a, b, c, "E@10.8.0.5*3", "D@10.8.0.4/down"], 'add = ["E@10.8.0.5*3", "D@10.8.0.4/down"]')
    follows("one leaves", [a, c], 'remove = ["B"]')
    follows("all leave", [], 'remove = ["B", "C", "A"]')
    follows("weights", [a + "*16", b, c + "*2"], 'weights = ["A*16", "C*2"]')
    follows("another address", [a, c, "B@10.8.0.9"], 'remove = ["B"]', 'add = ["B@10.8.0.9"]')
    lists = ['add = ["D@10.8.0.4*2"]', 'weights = ["A*4"]', 'up = ["A"]', 'drain = ["A", "C"]', 'down = ["C", "A"]', 'remove = ["B"]']
    follows("all at once, in whatever order they are written", [a + "*4", c + "/drain", "D@10.8.0.4*2"], *lists)
    follows("empty lists", ALL, "down = []", "drain = []", "up = []", "add = []", "remove = []", "weights = []")
    follows("the service alone", [a, b + "/drain", c], more=service('drain = ["B"]'))
    follows("the version and then the service", [a + "/down", b + "/drain", c], 'down = ["A", "B"]', more=service('drain = ["B"]'))
    follows("the service anew", [c, a], 'down = ["A"]', more=service(f"members = {rows.listed([c, a])}"))
    text = written_as(FIRST_VERSION + version(2, "base = 1", 'down = ["A"]') + version(3, "base = 2", 'up = ["A"]', 'drain = ["B"]'), steps=STEPS)
    means_as("up again", text, [ALL, [a + "/down", b, c], [a, b + "/drain", c]])
    text = written_as(FIRST_VERSION + version(2, "base = 1", 'down = ["A"]') + version(3, "base = 1", 'down = ["B"]'), steps=STEPS)
    means_as("two of one base", text, [ALL, [a + "/down", b, c], [a, b + "/down", c]])
    text = written_as(FIRST_VERSION.replace("number = 1", "number = 7") + version(3, "base = 7", 'remove = ["C"]'), steps=["live 0", "install * 3", "take *"])
    expected = model.Run(text, capture("yzx"))
    simulates("a base of a greater number", text, capture("yzx"), expected.listing() + expected.report(), expected.output(), ["--list"])


def test_servers():
    """Members whose addresses stand in one place."""
    a, b, c = ALL
    short = version(1) + service('members = ["A", "B*1", "C"]') + version(2, "base = 1", 'drain = ["A"]', 'remove = ["C"]', 'add = ["C*3/down"]')
    text = written_as(short + version(3) + service('members = ["A/down", "B@10.8.0.9*2", "C*16/drain"]'), SERVERS, STEPS)
    means_as("names alone", text, [ALL, [a + "/drain", b, c + "*3/down"], [a + "/down", "B@10.8.0.9*2", c + "*16/drain"]])
    means_as("servers that nobody names", written_as(FIRST_VERSION, SERVERS), [ALL])
    means_as("no servers", written_as(FIRST_VERSION, "[servers]\n"), [ALL])
    dotted = version(1) + service('members = ["web.1", "web-2*2"]')
    text = written_as(dotted, '[servers]\n"web.1" = "10.8.0.1"\nweb-2 = "10.8.0.2"\n')
    means_as("a name with a dot", text, [["web.1@10.8.0.1", "web-2@10.8.0.2*2"]])


def test_two_services():
    """What a version's own lists change in each of its services, and what a service's lists change in it alone."""
    udp = '[[versions.services]]\nvip = "192.0.2.1"\nproto = "udp"\nport = 53\n'
    first = FIRST_VERSION + udp + 'members = ["A@10.8.0.1", "D@10.8.0.4"]\n'
    for name, lines, tcp, dns in [
        ("both", ['down = ["A", "D"]'], ["A@10.8.0.1/down", *ALL[1:]], ["A@10.8.0.1/down", "D@10.8.0.4/down"]),
        ("one", ['drain = ["B"]'], [ALL[0], ALL[1] + "/drain", ALL[2]], ["A@10.8.0.1", "D@10.8.0.4"]),
        ("each gets one more", ['add = ["E@10.8.0.5"]'], [*ALL, "E@10.8.0.5"], ["A@10.8.0.1", "D@10.8.0.4", "E@10.8.0.5"]),
        ("the second alone", [udp + 'remove = ["A"]'], ALL, ["D@10.8.0.4"]),
        ("the second anew", ['down = ["A"]', udp + "members = []"], ["A@10.8.0.1/down", *ALL[1:]], []),
        ("a third", [udp.replace("53", "54") + 'members = ["F@10.8.0.6"]'], ALL, ["A@10.8.0.1", "D@10.8.0.4"]),
    ]:
        text = written_as(first + version(2, "base = 1", *lines))
        both = FIRST_VERSION.replace(rows.listed(ALL), rows.listed(tcp)).replace("number = 1", "number = 2") + udp + f"members = {rows.listed(dns)}\n"
        both += udp.replace("53", "54") + 'members = ["F@10.8.0.6"]\n' if name == "a third" else ""
        written = written_as(first + both)
        for words in (["plan", "-", "1", "2"], ["plan", "-", "2"]):
            answers = [rows.run(words, stdin=one.encode()) for one in (text, written)]
            check(f"{name}: {words[2:]}", answers[0] == answers[1] and answers[0][0] == 0, repr(answers))
        check(f"{name}, by the model", answers[0][1].decode() == model.planned(text, 2), repr(answers))


BAD_DIFFERENCES = [
    ("base = 2", "BadKey"), ("base = 0", "BadKey"), ("base = 9", "BadKey"), ('base = "1"', "BadKey"), ("base = -1", "BadKey"), ("", "BadKey"),
    ("base = 1\ndown = 1", "BadKey"), ('base = 1\ndown = "A"', "BadKey"), ("base = 1\ndown = [1]", "BadKey"), ("base = 1\nadd = [[]]", "BadKey"),
    ("base = 1\nweights = { A = 3 }", "BadKey"), ("base = 1\nmembers = []", "BadKey"), ("base = 1\nvip = 1", "BadKey"), ("base = 1\nservices = 1", "BadKey"),
    ('down = ["A"]\nservices = []', "BadKey"), ("add = []\nservices = []", "BadKey"),
    ('base = 1\ndown = ["D"]', "BadMember"), ('base = 1\ndrain = ["a"]', "BadMember"), ('base = 1\nup = ["A "]', "BadMember"), ('base = 1\nremove = ["A@10.8.0.1"]', "BadMember"),
    ('base = 1\nremove = ["A", "A"]', "BadMember"), ('base = 1\nremove = ["A"]\ndown = ["A"]', "BadMember"), ('base = 1\ndown = [""]', "BadMember"),
    ('base = 1\nweights = ["A"]', "BadMember"), ('base = 1\nweights = ["A*0"]', "BadMember"), ('base = 1\nweights = ["A*17"]', "BadMember"),
    ('base = 1\nweights = ["D*2"]', "BadMember"), ('base = 1\nweights = ["A*2/down"]', "BadMember"), ('base = 1\nadd = ["D"]', "BadMember"),
    ('base = 1\nadd = ["D@10.8.0"]', "BadMember"), ('base = 1\nadd = ["D@10.8.0.4/up"]', "BadMember"), ('base = 1\nadd = ["D@10.8.0.4"]\ndown = ["D"]', "BadMember"),
    ('base = 1\nadd = ["A@10.8.0.1"]', "DoubleName"), ('base = 1\nadd = ["D@10.8.0.4", "D@10.8.0.5"]', "DoubleName"),
    ('base = 1\nadd = ["D@10.8.0.4", "E@10.8.0.5", "F@10.8.0.6", "G@10.8.0.7", "H@10.8.0.8"]', "TooMany"),
]

BAD_SERVICES = [
    ('members = []\ndown = []', "BadKey"), ('down = ["D"]', "BadMember"), ('members = ["A"]', "BadMember"), ("base = 1", "BadKey"),
]

BAD_SERVERS = [
    ("servers = 1", "BadKey"), ("servers = []", "BadKey"), ('[servers]\nA = 1', "BadKey"), ('[servers]\nA = "10.8.0"', "BadKey"), ('[servers]\n"A b" = "10.8.0.1"', "BadKey"),
    ('[servers]\n"" = "10.8.0.1"', "BadKey"), (f'[servers]\n{"a" * 33} = "10.8.0.1"', "BadKey"), ('[servers]\nA = "10.8.0.1*2"', "BadKey"), ('[servers]\n_a = "10.8.0.1"', "BadKey"),
]


def test_refused_differences():
    for lines, fault in BAD_DIFFERENCES:
        breaks_off(f"the version {lines!r}", written_as(FIRST_VERSION + version(2, lines)), fault)
    for lines, fault in BAD_SERVICES:
        breaks_off(f"the service {lines!r}", written_as(FIRST_VERSION + version(2, "base = 1") + service(lines)), fault)
    other = service('down = ["A"]').replace("80", "81")
    breaks_off("a service that the base lacks", written_as(FIRST_VERSION + version(2, "base = 1") + other), "BadMember")
    for lines, fault in BAD_SERVERS:
        text = three(scenario([], [])).replace("nodes =", f"{lines}\nnodes =") if lines.startswith("servers") else written_as(FIRST_VERSION, lines + "\n")
        breaks_off(f"servers: {lines!r}", text, fault)
    for word in ["A", "A*2", "A/down", "A/drain", "A*2/drain"]:
        breaks_off(f"the member {word} without servers", written_as(version(1) + service(f'members = ["{word}"]')), "BadMember")
        breaks_off(f"the member {word} of other servers", written_as(version(1) + service(f'members = ["{word}"]'), '[servers]\nB = "10.8.0.1"\n'), "BadMember")
    for number in (1, 2):
        for text in [written_as(FIRST_VERSION + version(2, "base = 1")), written_as(FIRST_VERSION, SERVERS), written_as(FIRST_VERSION + version(2, "base = 1", 'down = ["A"]'))]:
            breaks_off(f"differences and servers in format {number}", text.replace("format = 3", f"format = {number}"), "BadKey")
        for step in ["until 1", "until 0.5"]:
            for command in ("simulate", "run"):
                text = scenario(["install 0 1", step]).replace("format = 1", f"format = {number}")
                breaks_off(f"the step {step} in format {number}, {command}", text, "BadStep 1", command)
    breaks_off("a base that stands behind", written_as(version(2, "base = 1") + FIRST_VERSION), "BadKey")


NO_STEPS = NO_TIMES + [
    "take * 1", "take **", "take  *", "take*", "take * ", "lose *", "again *", "live *", "live 0 *", "full *", "full * 0", "full 0 *", "hold *",
    "drain *", "install *", "install 0 *", "install * *", "install * 1 2", "install * -1", "install * 01", "install * 4294967296", "restart * 0",
    "restart 0 *", "restart **", "*", "* 1",
]


def breaks_off(name, text, fault, command="simulate"):
    """The command ends with this fault, and makes no output."""
    (rows.breaks_off if command == "run" else stops)(name, text, HEAD, fault, None)


def test_words_of_double_names():
    """Where a version by difference gives a name that the service has, `-v` names the word that gives it again."""
    expected = "expected a name that no earlier member of the service has\n"
    other = SERVICE.replace("80", "81")
    for name, versions, path, word in [
        ("one that the base has", version(2, "base = 1", 'add = ["D@10.8.0.4", "A@10.8.0.9"]'), "versions[1].add[1]", "A@10.8.0.9"),
        ("one that the version adds twice", version(2, "base = 1", 'add = ["D@10.8.0.4*2", "D@10.8.0.5"]'), "versions[1].add[1]", "D@10.8.0.5"),
        ("one that comes back twice", version(2, "base = 1", 'remove = ["A"]', 'add = ["A@10.8.0.9", "B@10.8.0.9"]'), "versions[1].add[1]", "B@10.8.0.9"),
        ("one of the service", version(2, "base = 1") + service('add = ["E@10.8.0.5", "C@10.8.0.9"]'), "versions[1].services[0].add[1]", "C@10.8.0.9"),
        ("one that the version gives first", version(2, "base = 1", 'add = ["E@10.8.0.5"]') + service('add = ["E@10.8.0.9/down"]'), "versions[1].services[0].add[0]", "E@10.8.0.9/down"),
        ("one of a service written out", version(2, "base = 1", 'add = ["D@10.8.0.4"]') + service('members = ["D@10.8.0.9", "D@10.8.0.8"]'), "versions[1].services[0].members[1]", "D@10.8.0.8"),
        ("one of a service that comes", version(2, "base = 1") + f'[[versions.services]]\n{other}members = ["A@10.8.0.1", "A@10.8.0.2"]\n', "versions[1].services[0].members[1]", "A@10.8.0.2"),
        ("one of a base's base", version(2, "base = 1", 'add = ["D@10.8.0.4"]') + version(3, "base = 2", 'remove = ["B"]') + version(4, "base = 3", 'add = ["B@10.8.0.2", "D@10.8.0.9"]'), "versions[3].add[1]", "D@10.8.0.9"),
        ("one of the second service", version(2, "base = 1") + f'[[versions.services]]\n{other}members = ["F@10.8.0.6"]\n' + version(3, "base = 2", 'add = ["F@10.8.0.9"]'), "versions[2].add[0]", "F@10.8.0.9"),
    ]:
        text = written_as(FIRST_VERSION + versions)
        key, item = path[:-1].rsplit("[", 1)
        number, line = max((at for at in enumerate(text.splitlines(), 1) if at[1].startswith(key.rsplit(".", 1)[1] + " =") and f'"{word}"' in at[1]), default=(0, ""))
        check(f"{name}: the row", model.tomllib.loads(line)[key.rsplit(".", 1)[1]][int(item)] == word, line)
        rows.says(name, text, HEAD, "DoubleName", f'{path}, line {number}: found "{word}", {expected}')


def test_words_of_steps():
    """`-v` names the first word of a step by time, or of one that may have a star, that is wrong."""
    stars = "; * is all of them, and at most 100000 steps in all"
    digits = "is no number of digits up to 4294967295 without leading zeros"
    forms = {
        "until": "until T, with T in seconds from 0 to 4294967295, and one to six digits behind a point or no point; {}",
        "install": "install N V, with a balancer N from 0 to 1 and a version's number V; {}" + stars,
        "take": "take K, with a number K of records; {}" + stars,
        "restart": "restart N, with a balancer N from 0 to 1; {}" + stars,
        "hold": "hold N, with a balancer N from 0 to 1; run doesn't know this step; {}",
        "live": "live [N ..], with balancers N from 0 to 1, none twice; {}",
    }
    for step, wrong in [
        *[(f"until {time}", f'"{time}" is no time') for time in ["x", "", "1.1234567", "1.", ".5", "01", "-1", "1.5.5", "4294967296", "4294967295.000001"]],
        ("until", "a word is missing"),
        ("until 1 2", '"2" is a word too many'),
        ("install 9 1", '"9" is no balancer: there are 0 to 1'),
        ("install * *", f'"*" {digits}'),
        ("install *", "a word is missing"),
        ("take * 1", '"1" is a word too many'),
        ("take **", f'"**" {digits}'),
        ("restart 2", '"2" is no balancer: there are 0 to 1'),
        ("hold *", f'"*" {digits}'),
        ("live *", f'"*" {digits}'),
    ]:
        line = f'steps[1], line 9: found "{step}", expected {forms[step.split(" ")[0]].format(wrong)}\n'
        rows.says(f"the step {step!r}", three(scenario(["install * 1", step])), HEAD, "BadStep 1", line)


def test_refusals():
    good = scenario(["install 0 1", "take 1"])
    for step in NO_STEPS + ["stop *", "stop 0", "stop * *"]:
        breaks_off(f"the step {step}", three(scenario(["install * 1", step])), "BadStep 1")
    for step in NO_STEPS + ["stop * *", "stop **", "hold 0", "full 0", "drain 0"]:
        breaks_off(f"the step {step}, on threads", three(scenario(["install * 1", step])), "BadStep 1", "run")
    for number in (1, 2):
        old = [text.replace("format = 1", f"format = {number}") for text in [good, scenario([], [ALL, A_DRAINS])]]
        breaks_off(f"a member that drains in format {number}", old[1], "BadMember")
        for step in ["take *", "install * 1", "restart *", "stop *"]:
            for command in ("simulate", "run"):
                text = old[0].replace("take 1", step)
                breaks_off(f"the step {step} in format {number}, {command}", text, "BadStep 1", command)
    for word in ["/Drain", "/drain ", "/drained", "/drai", "/drain/down", "/down/drain", "/drain*2", "*2/drain*2", "*0/drain", "*17/drain", "/", "drain", "/up"]:
        breaks_off(f"the member A@10.8.0.1{word}", three(scenario([], [[f"A@10.8.0.1{word}", *ALL[1:]]])), "BadMember")
    for value in ["4", "0", "-3", "3.0", '"3"', "03", "[3]"]:
        text = good.replace("format = 1", f"format = {value}")
        breaks_off(f"format = {value}", text, "BadToml" if value == "03" else "BadFormat")
    for value in ["-1", "4294967295000001", "5.0", '"5"']:
        breaks_off(f"idle = {value}", three(good, f"\nidle = {value}"), "BadKey")
    breaks_off("an unknown key", three(good, "\ncolor = 1"), "BadKey")
    twice = scenario([], [["A@10.8.0.1/drain", "A@10.8.0.2"]])
    breaks_off("a name twice of which one drains", three(twice), "DoubleName")
    eight = [f"{name}@10.8.0.1/drain" for name in "ABCDEFGH"]
    breaks_off("eight draining members of seven slots", three(scenario([], [eight])), "TooMany")
    faults("a scenario that isn't there", ["simulate", "no/such/file", "-", "-"], "OpenScenario")


# What a member is in one version after another, where nothing out of turn happens: it drains between up and down, or it doesn't.
ROUNDS = [["", "", "/drain", "/down"]] * 9 + [["", "", "", "/down"]]


def random_members(source, states, turns):
    """Member words of a version. Each member goes on to its next turn or stays; some are in any, and some have another address."""
    words = []
    for name, (state, at) in list(states.items()):
        if source.random() < 0.4:
            state = (state + 1) % len(turns)
            at = source.choice([at, at, at, 1 - at]) if state == 0 else at
        if source.random() < 0.05:
            state = source.randrange(len(turns))
        if source.random() < 0.03:
            at = 1 - at
        states[name] = state, at
        weight = source.choice(["", "", "", "*1", f"*{source.randrange(1, 17)}"])
        if source.random() < 0.95:
            words.append(f"{name}@10.8.{at}.{ord(name)}{weight}{turns[state]}")
    source.shuffle(words)
    return words


def random_versions(source, numbers):
    """Versions of these numbers, of two services."""
    names = "ABCDE"[: source.randrange(2, 6)]
    services = [(proto, port, {name: (source.choice([0, 0, 0, 1, 2, 3]), 0) for name in names}) for proto, port in [("tcp", 80), ("udp", 53)]]
    text, turns = "", source.choice(ROUNDS)
    for number in numbers:
        text += f"[[versions]]\nnumber = {number}\nservices = ["
        for proto, port, states in services:
            if source.random() < 0.95:
                text += f'{{ vip = "192.0.2.1", proto = "{proto}", port = {port}, members = {rows.listed(random_members(source, states, turns))} }}, '
        text += "]\n"
    return text


def other_step(source, nodes, workers, newest):
    """A step of any kind but for one that takes packets or installs what comes next."""
    node, one = source.choice([*map(str, range(nodes)), "*"]), source.randrange(nodes)
    some = " ".join(map(str, source.sample(range(workers), source.randrange(workers))))
    live = " ".join(map(str, source.sample(range(nodes), source.randrange(1, nodes + 1))))
    kinds = [f"install {one} {newest}", f"install {node} {source.randrange(17)}", f"live {live}", f"again {source.randrange(30)}", "again 0"]
    kinds += [f"restart {node}", f"full {one} {some}".strip(), f"hold {one}", f"drain {one}", f"drain {one}", f"lose {source.randrange(3)}"]
    return source.choice(kinds + [until(source)])


def until(source):
    """A step by time."""
    return f"until {source.randrange(12)}{source.choice(['', '', '.0', '.5', f'.{source.randrange(1_000_000):06}'])}"


def random_steps(source, nodes, workers, numbers):
    """Steps in which these versions come in order between packets, to all nodes at once or to one alone."""
    steps, newest = [f"install * {numbers[0]}"] * (source.random() < 0.9), 0
    for _ in range(source.randrange(12, 45)):
        kind = source.choice(["take"] * 11 + ["install"] * 6 + ["other"] * 3)
        newest = min(newest + (kind == "install"), len(numbers) - 1)
        node = source.choice(["*", "*", source.randrange(nodes)])
        words = {"take": until(source) if source.random() < 0.1 else f"take {source.randrange(1, 7)}", "install": f"install {node} {numbers[newest]}"}
        steps.append(words.get(kind) or other_step(source, nodes, workers, numbers[newest]))
    return steps + ["take *"] * (source.random() < 0.5)


def random_scenario(source):
    """A scenario of format 3, and the idle limit that it has, if it has one."""
    nodes, workers, numbers = source.choice([1, 1, 2, 3]), source.choice([1, 1, 2, 3]), sorted(source.sample(range(1, 16), source.randrange(4, 13)))
    limit = source.choice([None, None, None, 0, 500_000, 1_000_000, 3_000_000])
    text = "format = 3\n" + (f"idle = {limit}\n" if limit is not None else "")
    text += f'size = {source.choice([7, 7, 7, 13])}\nhash = "{source.choice(["fnv", "sha256", "sum"])}"\n'
    text += f'scheme = "{source.choice(["maglev", "maglev", "maglev", "plain", "round"])}"\nspread = "{source.choice(["hash", "turn"])}"\n'
    text += f"workers = {workers}\ncapacity = {source.choice([1, 2, 4, 8, 8, 16])}\n"
    text += f"nodes = {rows.listed([f'10.9.0.{node}' for node in range(nodes)])}\nsteps = {rows.listed(random_steps(source, nodes, workers, numbers))}\n"
    return text + random_versions(source, numbers), limit


def listed_changes(members, wanted):
    """The lists by which a service's members become these, but for their order; those that are empty are left out."""
    old, new = ({one.name: one for one in some} for some in (members, wanted))
    moved = [name for name in old if name not in new or old[name].at != new[name].at]
    stay = [name for name in old if name not in moved]
    lists = {"remove": moved, "add": [word_of(new[name]) for name in new if name not in stay]}
    lists |= {state: [name for name in stay if new[name].state == state != old[name].state] for state in ["down", "drain", "up"]}
    lists["weights"] = [f"{name}*{new[name].weight}" for name in stay if new[name].weight != old[name].weight]
    return {key: names for key, names in lists.items() if names}


def word_of(member):
    """A member's word, whole."""
    return f"{member.name}@{member.at}*{member.weight}" + f"/{member.state}" * (member.state != "up")


def changes_of(base, wanted):
    """The lists of a version that change each service of its base alike, as the first service that has the name wants it."""
    found = {}
    for place, members in base.items():
        for state, names in listed_changes(members, wanted[place]).items():
            for name in names if state in ("down", "drain", "up") else []:
                found.setdefault(name, state)
    return {state: [name for name in found if found[name] == state] for state in set(found.values())}


def table_of(keys):
    return ", ".join(f"{key} = {rows.listed(words)}" for key, words in keys.items())


def difference(source, number, base, before, wanted):
    """A version by difference, which is what is wanted but for the order of members."""
    own = changes_of(before, wanted) if source.random() < 0.5 else {}
    services = []
    for place, members in wanted.items():
        at, _, rest = place.partition(":")
        port, proto = rest.split("/")
        if place not in before or source.random() < 0.1:
            keys = {"members": list(map(word_of, members))}
        else:
            keys = listed_changes(model.changed(before[place], own, {}), members)
        if keys or source.random() < 0.1:
            services.append(", ".join([f'{{ vip = "{at}", proto = "{proto}", port = {port}', *([table_of(keys)] if keys else [])]) + " }")
    lines = [f"number = {number}", f"base = {base}", *(f"{key} = {rows.listed(names)}" for key, names in own.items())]
    if services or source.random() < 0.5:
        lines.append(f"services = [{', '.join(services)}]")
    source.shuffle(lines)
    return "[[versions]]\n" + "".join(line + "\n" for line in lines)


def short(source, text):
    """The same scenario with versions by difference and with servers."""
    versions = model.versions_of(model.tomllib.loads(text))
    head, *blocks = re.split(r"(?=\[\[versions\]\])", text)
    made, earlier = [], []
    for block, (number, wanted) in zip(blocks, versions.items()):
        bases = [base for base in earlier if set(versions[base]) <= set(wanted)]
        if bases and source.random() < 0.8:
            base = source.choice(bases)
            block = difference(source, number, base, versions[base], wanted)
        made.append(block)
        earlier.append(number)
    servers = {}
    for name, at in re.findall(r"([A-E])@(10\.8\.\d+\.\d+)", "".join(made)):
        servers.setdefault(name, at)
    for name, at in servers.items():
        if source.random() < 0.7:
            made = [block.replace(f"{name}@{at}", name) for block in made]
    table = "".join(f'{name} = "{at}"\n' for name, at in servers.items())
    return head + f"[servers]\n{table}" + "".join(made)


def members_in_order(text):
    """The versions of a scenario, without the order of members."""
    versions = model.versions_of(model.tomllib.loads(text))
    return {number: {place: sorted(members) for place, members in services.items()} for number, services in versions.items()}


def random_packet(source):
    """A packet of one of eight flows, at times spoiled."""
    data = bytearray.fromhex(source.choice([rows.TCP, rows.TCP, rows.TCP, rows.UDP]))
    data[21] = source.choice([0xE8, 0xE9, 0xEC, 0xEE])
    if source.random() < 0.05:
        data[source.randrange(len(data))] ^= 1 << source.randrange(8)
    return bytes(data)


def random_case(seed):
    """A random scenario and a capture of up to 80 packets for it."""
    source = random.Random(f"format 3, {seed}")
    text, limit = random_scenario(source)
    times = rows.passing(source, limit or 1_000_000)
    packets = [rows.record(random_packet(source), *next(times)) for _ in range(source.randrange(20, 81))]
    return source, text, HEAD + b"".join(packets)


def kept_by_drain(expected):
    """How many packets were sent to a member that drains."""
    served = [(event.split(" "), sent) for event, _, sent in expected.events if event.startswith("serve")]
    return sum(isinstance(sent, tuple) and sent[3] in expected.backends(int(words[3]), sent[2], "drain") for words, sent in served)


def test_against_the_model():
    """What random scenarios print and write is what the plain model says, with the listing and the splits; of one in four a line
    of `explain` too. Most of the scenarios send packets to members that drain, and all causes come."""
    causes, kept = collections.Counter(), 0
    for seed in range(FIRST, FIRST + COUNT):
        source, text, data = random_case(seed)
        expected = model.Run(text, data)
        if seed % 2:
            written, text = text, short(source, text)
            check(f"scenario {seed} by differences", members_in_order(text) == members_in_order(written), text)
        lines = expected.splits()
        simulates(f"scenario {seed}", text, data, expected.listing() + lines + expected.report(), expected.output(), ["--list", "--splits"])
        kept += kept_by_drain(expected) > 0
        causes.update(line.rsplit(" ", 1)[1] for line in lines.splitlines() if line.startswith("split tcp"))
        if seed % 4 == 0:
            explained(source, seed, text, data, expected)
        if seed % 8 == 1:
            first, second = (source.choice(sorted(expected.versions)) for _ in range(2))
            rows.plans(f"plan of scenario {seed}", text, [str(first), str(second)], model.plan(text, first, second))
    print(f"of {COUNT} scenarios {kept} send to members that drain; splits of TCP flows: {dict(causes)}")
    check("enough is kept by a drain", COUNT < 100 or kept > COUNT / 4 and min(causes[one] for one in ["down", "moved", "drained"]) > COUNT / 20, f"{kept} {causes}")


def explained(source, seed, text, data, expected):
    """`explain` prints what the model says, of two packets of one flow if there are any that were sent to two backends."""
    sends = {place: event[2][2:4] for place, event in enumerate(expected.events) if event[1].startswith("forward")}
    apart = [(a, b) for a in sends for b in sends if sends[a][0] == sends[b][0] and sends[a][1] != sends[b][1]]
    one, other = source.choice(apart) if apart else (source.randrange(20), source.randrange(20))
    answer = rows.with_files(text, data, lambda folder: rows.run(["explain", "s.toml", "in.pcap", str(one), str(other)], cwd=folder))
    line = expected.explained(one, other).encode()
    check(f"explain {one} {other} of scenario {seed}", answer == (0, line, b""), f"{answer} {line!r}")


def of_threads(seed):
    """A random scenario for threads, made of one of tests/soak_run.py: members drain, and some steps are for each node."""
    source = random.Random(f"format 3 on threads, {seed}")
    text, data = soak_run.thrown(5000 + seed)
    text = re.sub("/down", lambda _: source.choice(["/down", "/drain", "/drain"]), three(text))
    text = re.sub(r"'(install|restart|stop) \d+", lambda found: f"'{found[1]} *" if source.random() < 0.3 else found[0], text)
    return text.replace("'take 1'", "'take *'") if source.random() < 0.3 else text, data


def test_on_threads():
    """Runs on threads, judged by what no schedule may change. Each packet went to a backend that is up or drains in a version that
    may have been used, and where no ring gets full each worker sent what the model's worker sends under some such versions."""
    with tempfile.TemporaryDirectory() as folder:
        for seed in range(60):
            text, data = of_threads(seed)
            found = soak_run.judged(text, data, model.Run(text, data), pathlib.Path(folder))
            check(f"run {seed}", found == [], repr(found))
    for seed in range(40):
        source = random.Random(6000 + seed)
        text, data = three(rows.random_scenario(source, ("", "*2"), rows.steps_by_lives)), rows.random_capture(source)
        text = re.sub("/down", lambda _: source.choice(["/down", "/drain"]), text)
        expected = model.Run(text, data)
        rows.runs(f"splits of run {seed}", text, data, expected.on_threads().splits() + expected.report(), words=["--splits"])


def of_format_two():
    """The random scenarios that the other tests make of formats 1 and 2 for `simulate`, with their captures, each under a name."""
    for name, case_of, count in [("plain", rows.plain_case, 60), ("repeated", rows.repeated_case, 40), ("weighed", rows.weighed_case, 40), ("idle", rows.idle_case, 90)]:
        for seed in range(count):
            yield f"{name} scenario {seed}", *case_of(seed)[:2]
    for seed in range(100):
        source = random.Random(seed)
        yield f"mutant {seed} unspoiled", mutants.random_scenario(source, "simulate"), mutants.random_capture(source)
    for name, captured in [("failover", "failover"), ("larger", "failover"), ("idle", "idle"), ("rolling", "rolling")]:
        yield f"the example {name}", *rows.example(name, captured)[:2]


def test_format_two_in_format_three():
    """What a scenario of format 1 or 2 prints and writes it prints and writes in format 3."""
    for name, text, data in of_format_two():
        words = ["--list", "--splits"]
        old, new = (rows.simulated(one, data, words) for one in (text, three(text)))
        check(f"{name} in format 3", old[0] == 0 and old == new, f"{old} {new}")
    for seed in range(40):
        source = random.Random(2000 + seed)
        text, data = rows.random_scenario(source, ("", "*2", "*16"), rows.steps_by_lives), rows.random_capture(source)
        old, new = (rows.ran(one, data, ["--splits"]) for one in (text, three(text)))
        check(f"scenario {seed} by lives in format 3, on threads", old[0] == 0 and old[:3] == new[:3], f"{old} {new}")
    for seed in range(200):
        source = random.Random(7000 + seed)
        text = rows.random_scenario(source, source.choice([("",), ("", "*2", "*16")]))
        words = ["plan", "-", str(source.randrange(1, 5)), str(source.randrange(1, 5))]
        old, new = (rows.run(words, stdin=one.encode()) for one in (text, three(text)))
        check(f"plan {seed} in format 3", old[0] == 0 and old == new, f"{old} {new}")


# What else is asked of a run: the tables of the answers, and all of it as objects.
ASKED = (["--splits", "--where", "--summary", "--per-backend", "--per-node"], ["--json", "--list", "--where", "--summary", "--per-node"])


def explanation_of(text, data, words):
    """Status, standard output and standard error of `explain`."""
    return rows.with_files(text, data, lambda folder: rows.run(["explain", *words[:-2], "s.toml", "in.pcap", *words[-2:]], cwd=folder))


def test_answers_of_format_two_in_format_three():
    """The same of all else that is told of a run, of its explanations, and of the orders of a plan."""
    for name, text, data in of_format_two():
        for words in ASKED:
            old, new = (rows.simulated(one, data, words) for one in (text, three(text)))
            check(f"{name} in format 3, {' '.join(words)}", old[0] == 0 and old == new, f"{old} {new}")
    for seed in range(60):
        source = random.Random(9000 + seed)
        text, data = rows.random_scenario(source, source.choice([("",), ("", "*2", "*16")])), rows.random_capture(source)
        words = ["--list", str(source.randrange(60)), str(source.randrange(60))]
        old, new = (explanation_of(one, data, words) for one in (text, three(text)))
        check(f"explanation {seed} in format 3", old[0] == 0 and old == new, f"{old} {new}")
        for words in (["1"], ["1", "2", "--order"], ["3", "1", "--order"]):
            old, new = (rows.run(["plan", "-", *words], stdin=one.encode()) for one in (text, three(text)))
            check(f"plan {seed} in format 3, {' '.join(words)}", old[0] == 0 and old == new, f"{old} {new}")


def ends(expected):
    """Of each flow that was sent, where its first and its last packet come in the capture."""
    found = {}
    for _, place, flow, _, _ in expected.sends():
        first, _ = found.get(flow, (place, place))
        found[flow] = first, place
    return found


def drains_of(text, records):
    """Of each server that drains, by name and address, how many packets come before the drain and before its end."""
    found, taken, number = {}, 0, 0
    document = model.tomllib.loads(text)
    members = {number: next(iter(services.values())) for number, services in model.versions_of(document).items()}
    for step in document["steps"]:
        word, *numbers = step.split(" ")
        if word == "install":
            before = [one[:2] for one in members.get(number, []) if one.state == "drain"]
            number = int(numbers[1])
            found |= {one: (*found[one], taken) for one in before}
            found |= {one[:2]: (taken,) for one in members[number] if one.state == "drain"}
        if word == "until":
            taken = sum(secs + micros / 1_000_000 < records[0][0] + records[0][1] / 1_000_000 + int(numbers[0]) for secs, micros, _ in records)
    return found


def sent_apart(expected):
    """The flows that were sent to two backends."""
    backends = collections.defaultdict(set)
    for _, _, flow, backend, _ in expected.sends():
        backends[flow].add(backend)
    return {flow for flow in backends if len(backends[flow]) > 1}


def test_rollout():
    """Three of twenty servers are replaced. No connection breaks that ends while its server drains. Where the servers go down in
    place of draining all of these break that have a packet behind it."""
    text, data, drained = rows.example("draining", "draining")
    without = text.replace("drain =", "down =")
    downed = model.Run(without, data)
    broken = 0
    for server, (start, end) in drains_of(text, drained.records).items():
        on_it = {flow for _, place, flow, backend, _ in drained.sends() if backend == server and place < start}
        ending = {flow for flow in on_it if start <= ends(drained)[flow][1] < end}
        check(f"{server}: connections end while it drains", len(ending) > 1, repr(ending))
        check(f"{server}: they stay together", not ending & sent_apart(drained))
        check(f"{server}: without the drain they break", ending <= sent_apart(downed))
        broken += len(ending)
    check("three servers drain", len(drains_of(text, drained.records)) == 3)
    check("what outlasts a drain", drained.splits().splitlines()[-4:] == ["split 3", "down 0", "moved 0", "drained 3"], drained.splits())
    check("what goes down", downed.splits().splitlines()[-3:] == ["split 16", "down 16", "moved 0"] and broken == 13, downed.splits())
    for name, one, expected in [("with a drain", text, drained), ("without a drain", without, downed)]:
        simulates(f"the rollout {name}", one, data, expected.splits() + expected.report(), expected.output(), ["--splits"])
    rows.is_made("draining", "make_draining.py")


def test_pages():
    """The pages show the example's steps and what is printed of it, with a drain and without one. tests/answers.py has README's
    other commands."""
    text, data, drained = rows.example("draining", "draining")
    counted = "".join(line for line in drained.splits().splitlines(True) if not line.startswith("split tcp"))
    for name, asked, expected in [("README.md", "--summary", drained.summary()), ("docs/USING.md", "--splits", counted)]:
        page = (rows.TOP / name).read_text()
        shown = [lines for words, lines in rows.commands_of(page) if "examples/draining.pcap" in words and asked in words and "--json" not in words]
        check(f"the example's figures in {name}", shown[0] == expected, f"{shown} {expected}")
        steps = [line for line in page.splitlines() if line.startswith('    "install *')]
        check(f"the example's steps in {name}", all(line in text.splitlines() for line in steps), repr(steps))
    counts = dict(line.rsplit(" ", 1) for line in model.Run(text.replace("drain =", "down ="), data).summary().splitlines())
    said = f"{counts['changed']} connections change their server {counts['changes']} times"
    check("what README says without a drain", said in (rows.TOP / "README.md").read_text(), said)


if __name__ == "__main__":
    rows.run(["--help"])
    sys.exit(run_tests(globals()))
