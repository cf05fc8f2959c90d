#!/usr/bin/env python3
"""answers.py [FIRST COUNT]: who changed the server, when, where and why, and the tables of a scenario's services.

Rows of `--where`, `--per-backend`, `--per-node`, `--summary` and of `table`, `pick` and `compare` over a scenario are worked out by hand. So many random
scenarios, 400 in the gate, print what tests/model.py says; some run on threads. The last line is 'N passed, N failed'.
"""
import collections
import json
import random
import subprocess
import sys
import tempfile
from pathlib import Path

import end_to_end as rows
import format_three
import model
from end_to_end import ALL, B_DOWN, HEAD, TCP, capture, counts, faults, limited, misused, report, run, scenario, simulates, told, with_files
from harness import PROGRAM, TOP, check, run_tests

FIRST, COUNT = (int(word) for word in sys.argv[1:3]) if len(sys.argv) > 2 else (0, 400)
A1, C2 = "1 A@10.8.0.1", "2 C@10.8.0.3"
# When the records of `capture` came.
ONE = "1.999999"


def where(line, first, later, cause):
    """A split's line with where both packets were sent, each as record, time, node and worker."""
    return f"{line[:-1]} at {first} {later} {cause}\n"


def summary(connections, changed=0, **causes):
    """The lines of `--summary`."""
    lines = [f"connections {connections}", f"changed {changed}", f"changes {sum(causes.values())}"]
    lines += [f"changes {cause} {causes.get(cause, 0)}" for cause in ("down", "drained", "node", "restart", "worker", "idle", "evicted")]
    return "".join(line + "\n" for line in lines)


def answers(name, text, data, lines, rest, told_of):
    """`simulate` prints the splits with their places, and the summary behind the report; each alone too."""
    simulates(f"{name}: where", text, data, lines + rest, words=["--where"])
    simulates(f"{name}: the summary", text, data, rest + told_of, words=["--summary"])
    simulates(f"{name}: both", text, data, lines + rest + told_of, words=["--splits", "--where", "--summary"])


def test_causes():
    """Each cause, and which comes first of two that hold."""
    apart = scenario(["install 0 1", "install 1 2", "take 2"])
    line = where(told(1006, "3 5", 5, A1, C2, "moved"), f"0 {ONE} 0 0", f"1 {ONE} 1 0", "node")
    answers("another balancer", apart, capture("xx"), line + counts(1, 0, 1), report(2, 2), summary(1, 1, node=1))
    answers("nothing changes", apart, capture("yy"), counts(1, 0, 0), report(2, 2), summary(1))
    unsent = report(1, 0, drops="drop NoVersion 1\n")
    answers("nothing is sent", scenario(["take 1"]), capture("y"), counts(0, 0, 0), unsent, summary(0))
    text = scenario(["live 0", "install 0 1", "take 1", "install 0 2", "take 6"])
    line = where(told(1006, "9 15", 5, A1, C2, "moved"), f"3 {ONE} 0 0", f"6 {ONE} 0 0", "evicted")
    answers("pushed out", text, capture("xyyxyzx"), line + counts(3, 0, 1), report(7, 7), summary(3, 1, evicted=1))
    text = scenario(["live 0", "install 0 1", "take 1", "restart 0", "install 0 2", "take 1"])
    line = where(told(1006, "2 6", 5, A1, C2, "moved"), f"0 {ONE} 0 0", f"1 {ONE} 0 0", "restart")
    answers("a restart", text, capture("xx"), line + counts(1, 0, 1), report(2, 2), summary(1, 1, restart=1))
    text = scenario(["install 0 1", "install 1 2", "live 0", "take 1", "restart 0", "restart 1", "live 1", "take 1"])
    line = where(told(1006, "3 7", 5, A1, C2, "moved"), f"0 {ONE} 0 0", f"1 {ONE} 1 0", "node")
    answers("another balancer that was restarted", text, capture("xx"), line + counts(1, 0, 1), report(2, 2), summary(1, 1, node=1))
    text = scenario(["live 0", "install 0 1", "take 1", "install 0 2", "full 0 0", "take 1", "full 0 1", "take 1"], workers=2)
    found = model.Run(text, capture("xxx"))
    homes = [sent.at.worker for sent in found.sends()]
    check("two workers serve the flow", sorted(set(homes)) == [0, 1], homes)
    answers("another worker", text, capture("xxx"), found.splits(True), found.report(), found.summary())
    check("another worker is told", "changes worker 1\n" in found.summary() or "changes worker 2\n" in found.summary(), found.summary())


def test_idle():
    """An entry that was idle for too long, by its worker's clock."""
    steps = ["live 0", "install 0 1", "take 1", "install 0 2", "take 2"]
    text = limited(scenario(steps), 5_000_000)
    line = where(told(1006, "2 7", 5, A1, C2, "moved"), "0 10.000000 0 0", "2 12.000000 0 0", "idle")
    answers("another flow moved the clock", text, rows.timed("xyx", [10, 30, 12]), line + counts(2, 0, 1), report(3, 3), summary(2, 1, idle=1))
    line = where(told(1006, "2 7", 5, A1, C2, "moved"), "0 0.000000 0 0", "2 3.000000 0 0", "idle")
    dropped = report(3, 2, drops="drop NoService 1\n")
    answers("a drop moved the clock", text, rows.timed("xwx", [0, 10, 3]), line + counts(1, 0, 1), dropped, summary(1, 1, idle=1))
    steps = ["live 0", "install 0 1", "take 3", "install 0 2", "take 1"]
    line = where(told(1006, "2 9", 5, A1, C2, "moved"), "0 10.000000 0 0", "3 15.000000 0 0", "evicted")
    text = limited(scenario(steps), 5_000_000)
    answers("pushed out within the limit", text, rows.timed("xyzx", [10, 11, 12, 15]), line + counts(3, 0, 1), report(4, 4), summary(3, 1, evicted=1))
    line = line.replace("15.000000", "15.000001").replace("evicted", "idle")
    data = HEAD + b"".join(rows.record(rows.packet(letter), second, rest) for letter, second, rest in [("x", 10, 0), ("y", 11, 0), ("z", 12, 0), ("x", 15, 1000)])
    answers("pushed out, and past the limit", text, data, line + counts(3, 0, 1), report(4, 4), summary(3, 1, idle=1))


def test_down_and_drained():
    """A server that left is the cause, whatever else holds."""
    steps = ["install 0 1", "install 1 2", "take 2", "install 1 3", "take 2"]
    text = scenario(steps, [ALL, B_DOWN, rows.A_DOWN])
    lines = where(told(1006, "3 5", 5, A1, C2, "moved"), f"0 {ONE} 0 0", f"1 {ONE} 1 0", "node")
    lines += where(told(1006, "5 8", 5, C2, A1, "moved"), f"1 {ONE} 1 0", f"2 {ONE} 0 0", "node")
    lines += where(told(1006, "8 10", 5, A1, C2, "down"), f"2 {ONE} 0 0", f"3 {ONE} 1 0", "down")
    answers("three changes of one connection", text, capture("xxxx"), lines + counts(1, 1, 2), report(4, 4), summary(1, 1, node=2, down=1))
    text = format_three.alone(1, 1, 1, versions=[ALL, format_three.A_DRAINS, rows.A_DOWN])
    found = model.Run(text, capture("yyy"))
    check("a drain is told", "changes drained 1\n" in found.summary(), found.summary())
    answers("after it had drained", text, capture("yyy"), found.splits(True), found.report(), found.summary())


def share(who, version, packets, size, flows):
    """A line of `--per-backend` or of `--per-node`."""
    return f"{who} version {version} packets {packets} bytes {size} flows {flows}\n"


def shares(name, text, data, rest, backends, nodes, told_of):
    """`simulate` prints the shares behind the report, and before the summary; each alone too."""
    simulates(f"{name}: backends", text, data, rest + backends, words=["--per-backend"])
    simulates(f"{name}: nodes", text, data, rest + nodes, words=["--per-node"])
    simulates(f"{name}: both", text, data, rest + backends + nodes + told_of, words=["--summary", "--per-node", "--per-backend"])


def test_shares():
    """Each backend's share, and each node's, under each version under which packets were served."""
    a_one, c_two = share("backend A@10.8.0.1", 1, 1, 40, 1), share("backend C@10.8.0.3", 2, 1, 40, 1)
    apart = scenario(["install 0 1", "install 1 2", "take 2"])
    nodes = share("node 0", 1, 1, 40, 1) + share("node 1", 2, 1, 40, 1)
    shares("one flow at two nodes", apart, capture("xx"), report(2, 2), a_one + c_two, nodes, summary(1, 1, node=1))
    answer = rows.ran(apart, capture("xx"), ["--per-backend", "--per-node"])
    whole = report(2, 2) + "audit agrees\n" + a_one + c_two + nodes
    check("one flow at two nodes, on threads", answer[:3] == (0, whole.encode(), b""), answer)
    shares("nothing is sent", scenario(["take 1"]), capture("y"), report(1, 0, drops="drop NoVersion 1\n"), "", "", summary(0))
    kept = scenario(["live 0", "install 0 1", "take 2", "install 0 2", "take 2"])
    a_two = share("backend A@10.8.0.1", 1, 2, 80, 1) + share("backend A@10.8.0.1", 2, 2, 80, 1)
    nodes = share("node 0", 1, 2, 80, 1) + share("node 0", 2, 2, 80, 1)
    shares("an entry of an older version", kept, capture("xxxx"), report(4, 4), a_two, nodes, summary(1))
    few = scenario(["take 3", "install 0 1", "take 1"]).replace("A@", "received@")
    plain = rows.simulated(few, capture("xyyx"), ["-v"])
    for options in (["--per-backend", "--per-node"], ["--per-backend", "--summary"], ["--json", "--per-backend", "--per-node", "--summary"]):
        answer = rows.simulated(few, capture("xyyx"), ["-v", *options])
        told_of = "".join(f"warning: {json.loads(line)['detail']}\n" for line in answer[2].decode().splitlines()) if "--json" in options else answer[2].decode()
        check(f"what may be amiss is told with {options}", plain[2] != b"" and told_of == plain[2].decode(), f"{answer} {plain}")
    for seed in range(COUNT // 4):
        if seed % 2:
            _, text, data = format_three.random_case(80_000 + seed)
        else:
            text, data, _ = rows.idle_case(80_000 + seed)
        expected = model.Run(text, data)
        whole = expected.report() + expected.taken() + expected.taken(True) + expected.summary()
        simulates(f"shares {seed}", text, data, whole, expected.output(), ["--per-backend", "--per-node", "--summary"])
        sums = [[sum(column) for column in list(zip(*expected.shares(by_node)))[2:4]] or [0, 0] for by_node in (False, True)]
        check(f"shares {seed} add up", sums[0] == sums[1] and sums[0][0] == len(expected.sends()), sums)


def test_against_the_model():
    """What random scenarios print is what the plain model says. All causes come."""
    causes = collections.Counter()
    for seed in range(FIRST, FIRST + COUNT):
        if seed % 2:
            _, text, data = format_three.random_case(seed)
        else:
            text, data, _ = rows.idle_case(seed)
        expected = model.Run(text, data)
        causes.update(line.rsplit(" ", 1)[1] for line in expected.splits(True).splitlines() if line.startswith("split tcp"))
        whole = expected.listing() + expected.splits(True) + expected.report() + expected.summary()
        simulates(f"scenario {seed}", text, data, whole, expected.output(), ["--list", "--where", "--summary"])
        # (without an idle limit the summary alone is counted by another book)
        simulates(f"scenario {seed}: the summary", text, data, expected.report() + expected.summary(), expected.output(), ["--summary"])
    print(f"of {COUNT} scenarios, TCP flows: {dict(causes)}")
    check("all causes come", COUNT < 400 or all(causes[cause] for cause in model.CHANGES), causes)


def test_on_threads():
    """`run` says it in the order of its history."""
    for seed in range(60):
        source = random.Random(9000 + seed)
        text, data = rows.random_scenario(source, ("", "*2"), rows.steps_by_lives, 20), rows.random_capture(source)
        told_of = model.Run(text, data).on_threads()
        lines = told_of.splits(True) + told_of.report() + "audit agrees\n" + told_of.taken() + told_of.taken(True) + told_of.summary()
        answer = rows.ran(text, data, ["--where", "--per-backend", "--per-node", "--summary"])
        check(f"run {seed}", answer[:3] == (0, lines.encode(), b""), f"{answer} {lines}")
        answer = rows.ran(text, data, ["--per-node", "--summary", "--pace"])
        lines = told_of.report() + "audit agrees\n" + told_of.taken(True) + told_of.summary()
        check(f"run {seed}, paced", answer[:3] == (0, lines.encode(), b""), f"{answer} {lines}")


def done_by(words):
    """What a page's command over sent.pcap does, which lies in a folder that goes."""
    with tempfile.TemporaryDirectory() as folder:
        command = " ".join([PROGRAM, *words[1:]]).replace("sent.pcap", f"{folder}/sent.pcap")
        return subprocess.run(command, shell=True, capture_output=True, cwd=TOP, timeout=600, check=False)


def test_pages():
    """What USING.md shows of these answers is what is printed, and what the model says."""
    shown = [one for one in rows.commands_of((TOP / "docs" / "USING.md").read_text()) if {"--summary", "--where", "--per-backend"} & set(one[0])]
    check("USING.md shows each", len(shown) == 3, shown)
    for words, lines in shown:
        done = done_by(words)
        printed = done.stdout.decode()
        check(f"USING.md: {' '.join(words[:3])}", printed and lines.startswith(printed) and not done.stderr, f"{done} {lines}")
    text, data, _ = rows.example("failover", "failover")
    check("the summary of USING.md", shown and shown[0][1] == model.Run(text, data).summary(), shown)


def test_readme():
    """README's commands over the example of the drain, run one after another in its order, print what is shown, which is what the model
    says. Those of the page make one."""
    _, _, found = rows.example("draining", "draining")
    third = "".join(line for line in found.taken().splitlines(keepends=True) if line.startswith("backend web-3@"))
    expected = [found.summary(), found.splits(True) + found.report(), rows.last(found.taken(True), 8), third, "", "", ""]
    files = ("examples/draining.toml", "run.jsonl")
    shown = [one for one in rows.commands_of((TOP / "README.md").read_text()) if set(files) & set(one[0])]
    check("README has each", [lines for _, lines in shown] == expected, shown)
    with tempfile.TemporaryDirectory() as folder:
        for words, lines in shown:
            made = [f"{folder}/{word}" if word in ("sent.pcap", "run.jsonl", "run.html") else word for word in words]
            command = " ".join([PROGRAM if word == "bin/maglev" else word for word in made])
            done = subprocess.run(command, shell=True, capture_output=True, cwd=TOP, timeout=600, check=False)
            check(f"README: {' '.join(words[:4])}", (done.returncode, done.stdout.decode(), done.stderr) == (0, lines, b""), f"{done} {lines}")
        page = (Path(folder) / "run.html").read_text()
    check("README's page", "changed their server" in page and "What the plan moves" in page, page[:300])


def test_readme_paced():
    """README's paced run prints what is shown: each packet is sent, as the model says of a run in which no ring is full."""
    _, _, found = rows.example("rolling", "rolling")
    sent = [line for line in found.report().splitlines(keepends=True) if line.startswith("forwarded ")]
    ((words, lines),) = [one for one in rows.commands_of((TOP / "README.md").read_text()) if "--pace" in one[0]]
    check("README's paced run is the model's", lines == "".join([*sent, "audit agrees\n"]), f"{lines} {sent}")
    done = done_by(words)
    check("README's paced run", (done.returncode, done.stdout.decode(), done.stderr) == (0, lines, b""), done)


# tables of a scenario's services

TWO = """format = 1
size = 7
hash = "sum"
scheme = "SCHEME"
spread = "turn"
workers = 1
capacity = 2
nodes = ["10.9.0.1"]
steps = []
[[versions]]
number = 1
[[versions.services]]
vip = "192.0.2.1"
proto = "tcp"
port = 80
members = ["A@10.8.0.1", "B@10.8.0.2", "C@10.8.0.3"]
[[versions.services]]
vip = "192.0.2.1"
proto = "udp"
port = 53
members = ["D@10.8.0.4/down"]
[[versions]]
number = 2
[[versions.services]]
vip = "192.0.2.1"
proto = "tcp"
port = 80
members = ["A@10.8.0.1", "B@10.8.0.2/down", "C@10.8.0.3"]
"""
MAGLEV = TWO.replace("SCHEME", "maglev")
WEB, NAMES = "192.0.2.1:80/tcp", "192.0.2.1:53/udp"
DIGITS = TCP.encode()


def asks(name, text, words, expected, stdin=b""):
    """A command over a scenario prints this."""
    answer = with_files(text, None, lambda folder: run([*words[:1], "--scenario", "s.toml", *words[1:]], stdin=stdin, cwd=folder))
    check(name, answer == (0, expected.encode(), b""), f"{answer} {expected!r}")


def gives_up(name, text, words, fault, stdin=b""):
    """It ends with this fault."""
    answer = with_files(text, None, lambda folder: run([*words[:1], "--scenario", "s.toml", *words[1:]], stdin=stdin, cwd=folder))
    check(name, answer == (1, b"", f"fault: {fault}\n".encode()), answer)


def test_tables():
    """`table`, `pick` and `compare` over a scenario say what they say of its size, hash and members."""
    _, table, _ = run(["table", "--size", "7", "--hash", "sum", "A", "B", "C"])
    asks("table of a service", MAGLEV, ["table", "--version", "1", "--service", WEB], table.decode())
    _, table, _ = run(["table", "--size", "7", "--hash", "sum", "A", "C"])
    asks("table of the only service", MAGLEV, ["table", "--version", "2"], table.decode())
    nobody = "size 7 backends 0\n" + "".join(f"{slot} -\n" for slot in range(7))
    asks("table where nobody is up", MAGLEV, ["table", "--version", "1", "--service", NAMES], nobody)
    turns = "size 7 backends 2\n" + "".join(f"{slot} {'AC'[slot % 2]}\n" for slot in range(7)) + "count A 4\ncount C 3\n"
    for scheme in ("plain", "round"):
        asks(f"table of {scheme}", TWO.replace("SCHEME", scheme), ["table", "--version", "2"], turns)
    words = ["compare", "--size", "7", "--hash", "sum", "--old", " ".join(ALL), "--new", " ".join(B_DOWN)]
    _, moved, _ = run(words)
    asks("compare a service", MAGLEV, ["compare", "--from", "1", "--to", "2", "--service", WEB], moved.decode())
    asks("compare a service that goes", MAGLEV, ["compare", "--from", "1", "--to", "2", "--service", NAMES], "size 7 old 0 new 0 differ 0\n")
    _, picked, _ = run(["pick", "--size", "7", "--hash", "sum", "A", "B", "C"], stdin=DIGITS)
    asks("pick", MAGLEV, ["pick", "--version", "1"], picked.decode(), DIGITS)
    other = DIGITS.replace(b"03e80050", b"03e80051")
    asks("pick without a service", MAGLEV, ["pick", "--version", "1"], "drop NoService\n", other)
    asks("pick of a cut datagram", MAGLEV, ["pick", "--version", "1"], "drop Truncated\n", DIGITS[:50])


def test_tables_against_the_model():
    """The same of random scenarios."""
    for seed in range(150):
        source, text, _ = format_three.random_case(20_000 + seed)
        expected = model.Run(text, HEAD)
        first, second = (source.choice(sorted(expected.versions)) for _ in range(2))
        for service in expected.versions[first]:
            asks(f"table {seed} {service}", text, ["table", "--version", str(first), "--service", service], model.table_of(text, first, service))
            words = ["compare", "--from", str(first), "--to", str(second), "--service", service]
            asks(f"compare {seed} {service}", text, words, model.compared(text, first, second, service))
        if expected.scenario["scheme"] == "maglev":
            data = format_three.random_packet(source)
            asks(f"pick {seed}", text, ["pick", "--version", str(first)], model.picked(text, first, data), data.hex().encode())


def long_capture(source, packets):
    """A capture of so many TCP datagrams of some hundred flows, of which one in a hundred is of another protocol, and one is cut."""
    flows = [bytes(source.randrange(256) for _ in range(2)) for _ in range(300)]
    records = []
    for number in range(packets):
        one = bytearray(rows.P)
        one[14:16], one[21] = source.choice(flows), source.choice([0xE8, 0xE9])
        drawn = source.randrange(100)
        if drawn == 0:
            one[9] = 1
        elif drawn == 1:
            del one[30:]
        records.append(rows.record(bytes(one), 1 + number // 20_000, number % 20_000 * 1000))
    return HEAD + b"".join(records)


def test_long_captures():
    """What is told of connections and shares over captures of 60,050 records, with steps of each kind between their packets, is what
    the model says."""
    steps = ["install 0 1", "install 1 1", "take 20000", "install 0 2", "full 1 0", "take 7000", "hold 0", "take 900", "drain 0", "full 1", "take 100"]
    steps += ["restart 1", "take 50", "install 1 2", "again 7", "again 19000", "live 1", "take 15000", "install 0 3", "install 1 3", "live 0 1", "take 17000"]
    for seed, (workers, capacity) in enumerate([(1, 300), (3, 50)]):
        text = scenario(steps, [ALL, B_DOWN, rows.A_DOWN], workers=workers, more="check = false\n").replace("capacity = 2", f"capacity = {capacity}")
        data = long_capture(random.Random(seed), 60_050)
        found = model.Run(text, data)
        sent, rest, told_of = found.output(), found.report(), found.summary()
        check(f"long capture {seed} has drops", all(f"drop {cause} " in rest for cause in ("NotTcpUdp", "Truncated")), rest)
        check(f"long capture {seed} has changes", "changed 0\n" not in told_of, told_of)
        for words, whole in [
            (["--summary"], rest + told_of),
            (["--splits"], found.splits() + rest),
            (["--where", "--per-backend", "--per-node", "--summary"], found.splits(True) + rest + found.taken() + found.taken(True) + told_of),
        ]:
            simulates(f"long capture {seed}: {' '.join(words)}", text, data, whole, sent, words)


def test_any_step():
    """The commands that play no scenario read one with any step, also with steps that no one command plays; a text that is no step
    of any stays BadStep."""
    of_run, of_simulate = ["install 0 1", "stop 0", "take 2"], ["full 0 0", "hold 1", "take 2", "drain 1"]
    for steps in (of_run, of_simulate, of_run + of_simulate, ["stop *", "hold 0", "until 1.5"]):
        text = scenario(steps, versions=(ALL, B_DOWN))
        text = format_three.three(text) if steps[0] == "stop *" else text
        for words, expected in [(["1"], model.planned(text, 1)), (["1", "2"], model.plan(text, 1, 2)), (["--order", "1", "2"], model.ordered(text, 1, 2))]:
            rows.plans(f"plan {words}, {steps}", text, words, expected)
        asks(f"table, {steps}", text, ["table", "--version", "1"], model.table_of(text, 1, WEB))
        asks(f"compare, {steps}", text, ["compare", "--from", "1", "--to", "2"], model.compared(text, 1, 2, WEB))
        asks(f"pick, {steps}", text, ["pick", "--version", "1"], model.picked(text, 1, bytes.fromhex(TCP)), DIGITS)
    for steps, place in ((["stop 0", "take"], 1), (["stop 2"], 0), (["hold 0", "stop"], 1), (["stop *"], 0)):
        for words in (["table", "--version", "1"], ["compare", "--from", "1", "--to", "2"], ["pick", "--version", "1"]):
            gives_up(f"{words[0]}, {steps}", scenario(steps), words, f"BadStep {place}", DIGITS)


def test_refusals():
    """Each fault, in its order, and command lines that are none."""
    plain = TWO.replace("SCHEME", "plain")
    for name, text, words, fault in [
        ("no such version", MAGLEV, ["table", "--version", "3", "--service", WEB], "BadNumber"),
        ("no such service", MAGLEV, ["table", "--version", "2", "--service", NAMES], "BadService"),
        ("several services", MAGLEV, ["table", "--version", "1"], "BadService"),
        ("a service by another text", MAGLEV, ["table", "--version", "1", "--service", "192.0.2.1:080/tcp"], "BadService"),
        ("several services of two versions", MAGLEV, ["compare", "--from", "1", "--to", "2"], "BadService"),
        ("no version before", MAGLEV, ["compare", "--from", "3", "--to", "1", "--service", "x"], "BadNumber"),
        ("no version after", MAGLEV, ["compare", "--from", "1", "--to", "3", "--service", "x"], "BadNumber"),
        ("a scheme without tables", plain, ["pick", "--version", "9"], "BadScheme"),
        ("pick under no version", MAGLEV, ["pick", "--version", "9"], "BadNumber"),
        ("pick of no digits", MAGLEV, ["pick", "--version", "1"], "BadHex"),
        ("a scenario's fault comes first", plain.replace("size = 7", "size = 8"), ["pick", "--version", "9"], "BadKey"),
    ]:
        gives_up(name, text, words, fault, b"zz")
    faults("no file", ["table", "--scenario", "/nowhere/s.toml", "--version", "1"], "OpenScenario")
    for words in [
        ["table", "--scenario", "s.toml"],
        ["table", "--scenario", "s.toml", "--version", "1", "A"],
        ["table", "--scenario", "s.toml", "--version", "1", "--size", "7"],
        ["table", "--size", "7", "--hash", "sum", "--version", "1", "A"],
        ["table", "--size", "7", "--hash", "sum", "--service", WEB, "A"],
        ["pick", "--scenario", "s.toml"],
        ["compare", "--scenario", "s.toml", "--from", "1"],
        ["compare", "--scenario", "s.toml", "--from", "1", "--to", "2", "--old", "A@10.8.0.1"],
    ]:
        misused(" ".join(words), words)


if __name__ == "__main__":
    sys.exit(run_tests(globals()))
