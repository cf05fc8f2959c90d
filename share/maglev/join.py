#!/usr/bin/env python3
"""join.py SCENARIO OUTPUT PART..: joins the parts that `maglev simulate --json --list --node N` wrote, one of each node.

PART is the name of two files without their ends: PART.pcap is what the node sent, and PART.jsonl what was printed. OUTPUT gets
the capture that one process writes over all nodes, to the byte, and standard output the report that it prints. Both rest on
this: a record that is delivered once is sent once at most, and the whole run sends in the order of the records. So a scenario
whose steps deliver a record again (`again`), or later than its turn (`hold`, `drain`), is refused. So are parts that aren't one
of each node of one run, and an OUTPUT that is a file which is read; then OUTPUT is left as it was.
"""
import heapq
import json
import os
import pathlib
import struct
import sys
import tomllib

# A capture's header has 24 bytes, and a record's 16, of which the third word is how many bytes come behind it.
HEAD, RECORD = 24, 16
# What each process counts of the whole capture, and what it counts of its own node.
SHARED = ["packets", "lost", "unrouted", "skipped", "left"]
OWN = ["received", "forwarded", "waiting", "refused"]


class Unjoinable(Exception):
    """The parts can't be joined, for this reason."""


def value_of(scenario, key):
    """The value of a key of a scenario."""
    document = tomllib.loads(scenario.read_text())
    if key not in document:
        raise Unjoinable(f"{scenario} has no {key!r}")
    return document[key]


def order_is_kept(scenario):
    """Refuses a scenario of which the records' order isn't that of the run."""
    for number, step in enumerate(value_of(scenario, "steps")):
        word = step.split(" ")[0]
        if word in ("again", "hold", "drain"):
            raise Unjoinable(f"step {number}, {word!r}: its packets don't come in the order of their records")


def objects_of(path):
    """The objects of a file, one a line."""
    with open(path, encoding="utf-8") as lines:
        for line in lines:
            yield json.loads(line)


def head_of(path):
    """The header of a capture."""
    with open(path, "rb") as capture:
        return capture.read(HEAD)


def records_of(path):
    """The records of a capture that the program wrote, each with its header."""
    with open(path, "rb") as capture:
        capture.read(HEAD)
        while head := capture.read(RECORD):
            length = struct.unpack_from("<I", head, 8)[0] if len(head) == RECORD else 1
            if len(body := capture.read(length)) < length:
                raise Unjoinable(f"{path} ends inside a record")
            yield head + body


def sent_of(part):
    """The record that each sent packet came in, with what was sent of it."""
    forwards = (one["record"] for one in objects_of(f"{part}.jsonl") if one.get("outcome") == "forward")
    return zip(forwards, records_of(f"{part}.pcap"), strict=True)


def join_captures(parts, output):
    """Writes what all nodes sent, in the order of the records that it came in."""
    with open(output, "wb") as joined:
        joined.write(head_of(f"{parts[0]}.pcap"))
        for _, record in heapq.merge(*map(sent_of, parts), key=lambda one: one[0]):
            joined.write(record)


def told_by(part):
    """The node of a part's events, none where it has no event, and the object of its report."""
    nodes, reports, sent = set(), [], 0
    for one in objects_of(f"{part}.jsonl"):
        if one["type"] == "event":
            nodes.add(one["node"])
            sent += one["outcome"] == "forward"
        elif one["type"] == "report":
            reports.append(one)
    if len(reports) != 1:
        raise Unjoinable(f"{part}.jsonl has {len(reports)} reports")
    if len(nodes) > 1:
        raise Unjoinable(f"{part}.jsonl has events of {len(nodes)} nodes")
    written = sum(1 for _ in records_of(f"{part}.pcap"))
    if written != sent:
        raise Unjoinable(f"{part}.pcap has {written} packets, and {part}.jsonl tells of {sent}")
    return next(iter(nodes), None), reports[0]


def output_is_apart(output, read):
    """Refuses an OUTPUT that is one of the files which are read, by whatever name."""
    for path in read if os.path.exists(output) else []:
        if os.path.samefile(path, output):
            raise Unjoinable(f"OUTPUT is {path}, which is read")


def nodes_are_apart(parts, found, nodes):
    """Refuses parts of which two are of one node, or one is of a node that isn't among so many."""
    for place, (part, node) in enumerate(zip(parts, found)):
        if node is not None and node >= nodes:
            raise Unjoinable(f"{part} is of node {node}, and the scenario has {nodes} nodes")
        if node is not None and node in found[:place]:
            raise Unjoinable(f"{parts[found.index(node)]} and {part} are both of node {node}")


def all_is_there(report):
    """Refuses a joined report in which a packet came to no part's node: the node's part isn't there."""
    came = report["packets"] - sum(report[word] for word in SHARED[1:])
    if report["received"] != came:
        raise Unjoinable(f"the parts have {report['received']} of the {came} packets that came to a node")


def read_parts(scenario, parts):
    """The report of the whole run, of parts that are one of each node of it."""
    nodes = len(value_of(scenario, "nodes"))
    if len(parts) != nodes:
        raise Unjoinable(f"the scenario has {nodes} nodes, and the parts are {len(parts)}")
    found = [told_by(part) for part in parts]
    nodes_are_apart(parts, [node for node, _ in found], nodes)
    report = join_reports([report for _, report in found])
    all_is_there(report)
    return report


def join_reports(reports):
    """The report of the whole run: what was counted of the capture once, and the sums of what each node counted."""
    first = reports[0]
    for word in (*SHARED, "cut"):
        if any(one[word] != first[word] for one in reports):
            raise Unjoinable(f"the parts are of several runs: they differ in {word!r}")
    joined = {"type": "report"} | {word: first[word] for word in SHARED} | {"cut": first["cut"]}
    joined |= {word: sum(one[word] for one in reports) for word in OWN[:2]}
    joined |= {"dropped": {cause: sum(one["dropped"][cause] for one in reports) for cause in first["dropped"]}}
    return joined | {word: sum(one[word] for one in reports) for word in OWN[2:]}


def text_of(report):
    """A report as `simulate` prints it without `--json`."""
    lines = [f"{word} {report[word]}" for word in SHARED] + [f"cut {'yes' if report['cut'] else 'no'}"]
    lines += [f"{word} {report[word]}" for word in OWN[:2]]
    lines += [f"drop {cause} {count}" for cause, count in report["dropped"].items() if count]
    return "".join(line + "\n" for line in [*lines, *(f"{word} {report[word]}" for word in OWN[2:])])


def join(scenario, output, parts):
    """Joins the parts, and gives the text of the whole run's report. Nothing is written before all is found well."""
    order_is_kept(pathlib.Path(scenario))
    report = read_parts(pathlib.Path(scenario), parts)
    output_is_apart(output, [scenario, *(f"{part}.{end}" for part in parts for end in ("pcap", "jsonl"))])
    join_captures(parts, output)
    return text_of(report)


def main():
    if len(sys.argv) < 4:
        sys.exit(f"usage: {sys.argv[0]} SCENARIO OUTPUT PART..")
    try:
        sys.stdout.write(join(sys.argv[1], sys.argv[2], sys.argv[3:]))
    except (Unjoinable, OSError, ValueError) as why:
        sys.exit(f"error: {why}")


if __name__ == "__main__":
    main()
