#!/usr/bin/env python3
"""parts.py: what `simulate --node N` prints and writes, and how the parts of all nodes are joined.

Each part of random scenarios is the model's, to the byte, in words and as objects. The parts of all nodes together have each
event and each packet of the whole run once. Some rows are worked out by hand. The last line is 'N passed, N failed'.
"""
import sys

import end_to_end as rows
import model
import objects
from end_to_end import HEAD, capture, misused, report, run, says, scenario, simulates, stops, with_files
from harness import check, run_tests

# What comes before a report and after it, all of it.
ALL = ["--list", "--where", "--per-backend", "--per-node", "--summary"]


def whole_text(run_, words):
    """All that the model says `simulate` prints with these options."""
    text = run_.listing() if "--list" in words else ""
    if "--where" in words or "--splits" in words:
        text += run_.splits("--where" in words)
    text += run_.report()
    text += run_.taken() if "--per-backend" in words else ""
    text += run_.taken(True) if "--per-node" in words else ""
    return text + (run_.summary() if "--summary" in words else "")


def part_is(name, text, data, expected, node):
    """A node's part is the model's: in words, as objects, and what is written."""
    part = expected.part_of(node)
    here = ["--node", str(node)]
    simulates(f"{name}: part {node}", text, data, whole_text(part, ALL), part.output(), [*ALL, *here])
    simulates(f"{name}: splits of part {node}", text, data, whole_text(part, ["--splits"]), part.output(), ["--splits", *here])
    told = objects.text_of(objects.simulated(part, *ALL))
    simulates(f"{name}: part {node} as objects", text, data, told, part.output(), ["--json", *ALL, *here])


def parts_are(name, text, data):
    """Each node's part is the model's, and the parts have each event of the whole once."""
    expected = model.Run(text, data)
    nodes = len(expected.scenario["nodes"])
    for node in range(nodes):
        part_is(name, text, data, expected, node)
    events = [event for node in range(nodes) for event in expected.part_of(node).events]
    check(f"{name}: the parts are the whole", sorted(map(repr, events)) == sorted(map(repr, expected.events)))


def test_by_hand():
    """Two nodes take turns, and one of them holds a packet, drains and restarts."""
    text = scenario(["install 0 1", "install 1 2", "hold 1", "take 4", "drain 1", "restart 0", "take 1"])
    first = "0 install 0 1: installed\n1 arrive 0 0: placed 0\n2 serve 0 0 1: forward A@10.8.0.1 from 1\n"
    first += "3 arrive 0 2: placed 0\n4 serve 0 0 1: forward A@10.8.0.1 from 1\n5 restart 0: restarted 0\n"
    first += "6 arrive 0 4: placed 0\n7 serve 0 0 1: forward A@10.8.0.1 from 1\n"
    second = "0 install 1 2: installed\n1 arrive 1 1: placed 0\n2 arrive 1 3: placed 0\n"
    second += "3 serve 1 0 2: forward C@10.8.0.3 from 2\n4 serve 1 0 2: forward C@10.8.0.3 from 2\n"
    simulates("node 0 alone", text, capture("xxxxx"), first + report(5, 3, received=3), words=["--list", "--node", "0"])
    simulates("node 1 alone", text, capture("xxxxx"), second + report(5, 2, received=2), words=["--list", "--node", "1"])
    parts_are("a hold, a drain and a restart", text, capture("xxxxx"))


def test_records_that_go_elsewhere():
    """Records that are lost, skipped, left or find no live node count in each part; what is dropped, where it came."""
    text = scenario(["install 0 1", "take 2", "lose 1", "again 9", "live", "take 1", "live 1", "take 1"])
    parts_are("records that go elsewhere", text, capture("xyzxyz"))
    parts_are("no packet", scenario(["install 0 1"]), HEAD)
    parts_are("a full node beside another", scenario(["install 0 1", "install 1 1", "full 0 0", "take 6"]), capture("xyzxyz"))


def test_parts_against_the_model():
    """The parts of random scenarios: of every kind of step, of repeats, with weights and with an idle limit."""
    cases = [(f"scenario {seed}", *rows.plain_case(seed)[:2]) for seed in range(40)]
    cases += [(f"repeats {seed}", *rows.repeated_case(seed)) for seed in range(20)]
    cases += [(f"weighed scenario {seed}", *rows.weighed_case(seed)) for seed in range(20)]
    cases += [(f"idle scenario {seed}", *rows.idle_case(seed)[:2]) for seed in range(30)]
    for name, text, data in cases:
        parts_are(name, text, data)


def test_of_one_node():
    """The part of a cluster's only node is the whole run."""
    for seed in range(60):
        text, data, _ = rows.plain_case(seed)
        expected = model.Run(text, data)
        if len(expected.scenario["nodes"]) == 1:
            simulates(f"the only node of scenario {seed}", text, data, whole_text(expected, ALL), expected.output(), [*ALL, "--node", "0"])


def test_bad_nodes():
    """A node that the scenario lacks is refused by name before INPUT is read and OUTPUT made; a word that is no number is misuse."""
    text = scenario(["install 0 1", "take 1"])
    for node in ("2", "65535"):
        stops(f"node {node} of two", text, capture("x"), "BadNumber", None, ["--node", node])
    stops("a node that isn't there before a capture that isn't one", text, b"", "BadNumber", None, ["--node", "2"])
    stops("a scenario that isn't one before its nodes", "format = ", capture("x"), "BadToml", None, ["--node", "2"])
    stops("a capture that isn't one", text, b"", "ShortHeader", None, ["--node", "1"])
    says("a node that isn't there", text, capture("x"), "BadNumber", "--node: expected the number of a balancer", ("simulate", "--node", "2", "s.toml", "in.pcap", "out.pcap"))
    for word in ("x", "-1", "65536", "1.0", ""):
        misused(f"the node {word!r}", ["simulate", "--node", word, "s.toml", "in.pcap", "out.pcap"])
    misused("a node twice", ["simulate", "--node", "0", "--node", "1", "s.toml", "in.pcap", "out.pcap"])
    misused("run with a node", ["run", "--node", "0", "s.toml", "in.pcap", "out.pcap"])


def test_limits():
    """The share of a part's connections above which the status is another one is of the part alone."""
    text = scenario(["live 0", "install 0 1", "take 1", "restart 0", "install 0 2", "take 1", "live 1", "install 1 1", "take 1"])
    for node, wanted in (("0", 3), ("1", 0)):
        words = ["simulate", "--fail-above", "0.5", "--node", node, "s.toml", "in.pcap", "out.pcap"]
        status, _, err = with_files(text, capture("xxx"), lambda folder: run(words, cwd=folder))
        said = b"warning: 1 of 1 connections changed their server: --fail-above wants fewer\n" if wanted else b""
        check(f"the share of part {node}", (status, err) == (wanted, said), f"{status} {err!r}")


if __name__ == "__main__":
    sys.exit(run_tests(globals()))
