#!/usr/bin/env python3
"""soak_run.py [FIRST COUNT TIMES]: runs random scenarios on threads, one scenario that restarts and one that stops so many times
each, and as many nodes and workers as may be, with the smallest rings, and judges what is printed and written by the model.

Which version a packet is served under, which ring is full and how workers' packets mix is left to the schedule. What isn't
is compared with tests/model.py: the counts of records, what came to each node, which drops a driver judges, and that what a
node sends came to it in that life and went to a backend that is up or drains in a version that may have been used. Where no
ring gets full each worker sent exactly what the model's worker sends of what came to it, by its entries, their idle limit and
its turns, under some versions that it may have used. Where a life was stopped what its workers took is a beginning of what came
to them, and the rest is LostAtRestart. The last line is 'N passed, N failed'.
"""
import collections
import itertools
import os
import pathlib
import random
import subprocess
import sys
import tempfile
import time

import model
from harness import PROGRAM, judge_all

# A TCP and a UDP packet from the address with this last byte.
TCP = "450000280000400040066eb40a0000{:02x}c000020103e80050" + "00" * 8 + "5000" + "00" * 6
UDP = "4500001c00000000401100000a0000{:02x}c000020103e8003500080000"

Arrival = collections.namedtuple("Arrival", "place flow versions")


def datagram(text, number):
    """The datagram of these hexadecimal digits, with this identification, by which it is known again, and its header's checksum."""
    data = bytearray.fromhex(text)
    data[4:6] = number.to_bytes(2, "big")
    data[10:12] = bytes(2)
    data[10:12] = (65535 - model.folded(bytes(data[:20]))).to_bytes(2, "big")
    return data


def packet(source, number):
    """A datagram of one of a few flows, some of them spoiled."""
    data = datagram(source.choice([TCP, TCP, UDP]).format(source.randrange(1, 9)), number)
    if source.random() < 0.1:
        data[source.choice([0, 6, 8, 9, 12])] ^= 1 << source.randrange(8)
    return bytes(data)


def random_steps(source, nodes):
    """Steps of all kinds that a cluster on threads knows."""
    steps = [f"install {node} 1" for node in range(nodes) if source.random() < 0.9]
    for number in range(source.randrange(30)):
        node = source.randrange(nodes)
        live = " ".join(str(one) for one in source.sample(range(nodes), source.randrange(nodes + 1)))
        kinds = [f"install {node} {source.choice([source.randrange(1, 12), number // 2])}"] * 2
        kinds += [f"lose {source.randrange(3)}", f"again {source.randrange(40)}"]
        kinds += [f"take {source.randrange(20)}"] * 4 + [f"live {live}".strip(), f"restart {node}", f"stop {node}"]
        steps.append(source.choice(kinds))
    return steps


def random_scenario(source):
    """A scenario of any size, scheme and rings, often with an idle limit."""
    nodes, ring = source.randrange(1, 5), source.choice([1, 2, 8, 1024, 1024, 1024])
    text = source.choice(["format = 1\n", *(f"format = 2\nidle = {limit}\n" for limit in [0, 1, 500_000, 1_000_000, 3_000_000])])
    text += f'size = {source.choice([7, 13, 251])}\nhash = "{source.choice(["fnv", "sum"])}"\n'
    text += f'scheme = "{source.choice(["maglev", "maglev", "plain", "round"])}"\nspread = "{source.choice(["hash", "turn"])}"\n'
    text += f"workers = {source.randrange(1, 5)}\ncapacity = {source.choice([1, 2, 3, 4, 8])}\nring = {ring}\n"
    text += f"nodes = {[f'10.9.0.{node + 1}' for node in range(nodes)]}\nsteps = {random_steps(source, nodes)}\n"
    for number in range(1, 11):
        text += f"[[versions]]\nnumber = {number}\nservices = ["
        for proto, port in [("tcp", 80), ("udp", 53)]:
            if source.random() < 0.9:
                members = [f"{name}@10.8.0.{ord(name)}{source.choice(['', '', '/down'])}" for name in source.sample("ABCDEFG", 5)]
                text += f'{{ vip = "192.0.2.1", proto = "{proto}", port = {port}, members = {members} }}, '
        text += "]\n"
    return text


def lives_of(expected, node):
    """What was placed on a node by the model, life by life, with the versions under which each packet may be served."""
    lives, installed, open_ones = [[]], [], []
    for event, outcome, _ in expected.events:
        word, where, *more = event.split(" ")
        if int(where) != node:
            continue
        if outcome == "installed":
            installed.append(int(more[0]))
            for one in open_ones:
                one.versions.append(int(more[0]))
        elif word == "arrive" and outcome.startswith("placed"):
            place = int(more[0])
            flow, _ = model.read_packet(expected.link, expected.records[place][2], True)
            open_ones.append(Arrival(place, flow, [installed[-1]]))
            lives[-1].append(open_ones[-1])
        elif word == "restart":
            lives.append([])
            open_ones = []
    return lives


def stops_of(expected, node):
    """Of each life of a node, whether it was stopped."""
    ends = [place for place, (event, _, _) in enumerate(expected.events) if event == f"restart {node}"]
    return [place in expected.stops for place in ends] + [False]


def backends_of(expected, arrival):
    """The backends to which a packet may go."""
    return {at for version in arrival.versions for _, at in expected.backends(version, arrival.flow, "up", "drain")}


def fit(expected, life, sends):
    """How many of these sends, from the first on, are of packets that came in a life, each once, to a backend that each may go to.

    Of two arrivals of one record the later may go to no other backends than the earlier, so that it is taken first.
    """
    waiting = list(life)
    for count, (place, backend) in enumerate(sends):
        fits = [one for one in waiting if one.place == place and backend in backends_of(expected, one)]
        if not fits:
            return count
        waiting.remove(fits[-1])
    return len(sends)


def counts_of(expected, came, sends, stopped):
    """How many of these sends, from the first on, a worker may have done to which these packets came, each served under a
    version that isn't older than the one before. All were served, unless the life was stopped."""
    states, counts = {(0, 0, model.FRESH)}, set()
    for arrival in came:
        if stopped:
            counts |= {count for count, _, _ in states}
        states = {after for state in states for after in after_serving(expected, state, arrival, sends)}
    return counts | {count for count, _, _ in states}


def after_serving(expected, state, arrival, sends):
    """Behind one more packet: how many were sent, the version used last and what the worker knows; for each version that gives
    the next of the sends, or drops the packet."""
    count, used, knows = state
    for version in arrival.versions:
        if version >= used:
            after, answer = expected.answered(knows, arrival.place, arrival.flow, version)
            if isinstance(answer, str):
                yield count, version, after
            elif (arrival.place, answer.backend[1]) in sends[count : count + 1]:
                yield count + 1, version, after


def ends_of(expected, life, sends, stopped):
    """How many of a node's sends, from the first on, may be those of a life."""
    if len(life) > expected.scenario["ring"]:
        return range(fit(expected, life, sends) + 1)
    flows = {one.place: one.flow for one in life}
    known = list(itertools.takewhile(lambda send: send[0] in flows, sends))
    homes = {flow: expected.plain(b"w" + flow) % expected.workers for flow in flows.values()}
    own = [[send for send in known if homes[flows[send[0]]] == worker] for worker in range(expected.workers)]
    came = [[one for one in life if homes[one.flow] == worker] for worker in range(expected.workers)]
    may = [counts_of(expected, *both, stopped) for both in zip(came, own)]
    counts, ends = [0] * expected.workers, []
    for end in range(len(known) + 1):
        if all(count in some for count, some in zip(counts, may)):
            ends.append(end)
        if end < len(known):
            counts[homes[flows[known[end][0]]]] += 1
    return ends


def are_of(expected, node, sends):
    """Whether what a node sent is, life after life, what the life's workers may have sent."""
    starts = {0}
    for life, stopped in zip(lives_of(expected, node), stops_of(expected, node)):
        starts = {start + end for start in starts for end in ends_of(expected, life, sends[start:], stopped)}
    return len(sends) in starts


def sends_of(expected, output):
    """What each node sent, as places of records and backends; None where OUTPUT isn't such a capture, node after node."""
    _, records, cut = model.read_capture(output)
    nodes = [model.address(text) for text in expected.scenario["nodes"]]
    places = {model.read_packet(expected.link, frame, True)[1]: place for place, (_, _, frame) in enumerate(expected.records)}
    sends, order = [[] for _ in nodes], []
    for secs, micros, data in records:
        place, node = places.get(data[24:]), nodes.index(data[12:16])
        if place is None or (secs, micros) != expected.records[place][:2] or data != model.wrapped(data[24:], data[12:16], data[16:20]):
            return None
        order.append(node)
        sends[node].append((place, model.dotted(data[16:20])))
    return None if cut or order != sorted(order) else sends


def faults_of_report(expected, printed, sent):
    """What is wrong with a report."""
    lines = [line.rsplit(" ", 1) for line in printed.splitlines()]
    simulated = [line.rsplit(" ", 1) for line in expected.report().splitlines()]
    if lines.pop() != ["audit", "agrees"]:
        yield "the audit"
    told, known = dict(lines), dict(simulated)
    served = ["forwarded", "drop NoService", "drop NoBackend", "drop RingsFull"]
    if expected.stops:
        served.append("drop LostAtRestart")
    for key in known.keys() | told.keys():
        if key not in served and told.get(key) != known.get(key):
            yield f"{key}: {told.get(key)}, simulated {known.get(key)}"
    if sum(int(told.get(key, 0)) for key in served) != sum(int(known.get(key, 0)) for key in served):
        yield f"what was served: {told}"
    stopped = 0
    for node in range(len(expected.scenario["nodes"])):
        stopped += sum(len(life) for life, is_stopped in zip(lives_of(expected, node), stops_of(expected, node)) if is_stopped)
    if int(told.get("drop LostAtRestart", 0)) > stopped:
        yield f"{told['drop LostAtRestart']} lost, {stopped} came to lives that were stopped"
    if int(told["forwarded"]) != sent:
        yield f"{told['forwarded']} forwarded, {sent} written"


def faults_of(expected, printed, output):
    """What is wrong with a run."""
    sends = sends_of(expected, output)
    if sends is None:
        yield "OUTPUT isn't a capture of what the nodes send, node by node"
        return
    yield from faults_of_report(expected, printed, sum(map(len, sends)))
    for node, own in enumerate(sends):
        if not are_of(expected, node, own):
            yield f"node {node} sent what it may not: {own}"


def passing(source):
    """Times without end, in microseconds: a second passes or less, or none, and at times the clock steps back."""
    at = 1_000_000_000
    while True:
        at += source.choice([0, 1, 500_000, 500_000, 1_000_000, -1, -700_000])
        yield at


def captured(packets, times=itertools.repeat(1_000_000)):
    """A capture of these packets, at these times in microseconds, or all at one."""
    return model.written([(*divmod(at, 1_000_000), data) for data, at in zip(packets, times)])


def thrown(seed):
    """A random scenario and a random capture."""
    source = random.Random(seed)
    text = random_scenario(source)
    return text, captured([packet(source, number) for number in range(source.randrange(160))], passing(source))


def restarting(word):
    """Two nodes of two workers: a packet is lost, one is repeated, a version takes a server out, and a node restarts or stops."""
    text = 'format = 1\nsize = 7\nhash = "sum"\nscheme = "maglev"\nspread = "turn"\nworkers = 2\ncapacity = 8\nring = 16\n'
    steps = ["install 0 1", "install 1 1", "take 3", "lose 1", "again 0", "install 0 2", "install 1 2", "take 2", f"{word} 0", "take 2"]
    text += f'nodes = ["10.9.0.1", "10.9.0.2"]\nsteps = {steps}\n'
    for number, down in [(1, ""), (2, "/down")]:
        members = ["A@10.8.0.1", f"B@10.8.0.2{down}", "C@10.8.0.3"]
        text += f'[[versions]]\nnumber = {number}\n[[versions.services]]\nvip = "192.0.2.1"\nproto = "tcp"\nport = 80\nmembers = {members}\n'
    ports = ["03e8", "03e9"] * 4
    return text, captured([bytes(datagram(TCP.format(1).replace("03e8", port), number)) for number, port in enumerate(ports)])


def widest(ring):
    """64 nodes of 16 workers with rings of so many places: 1,152 threads at once. Each node gets 32 packets, half of them after
    one node restarted and one stopped."""
    text = f'format = 1\nsize = 251\nhash = "fnv"\nscheme = "maglev"\nspread = "turn"\nworkers = 16\ncapacity = 8\nring = {ring}\n'
    steps = [f"install {node} 1" for node in range(64)] + ["take 1024", "restart 0", "stop 63", "take 1024"]
    text += f"nodes = {[f'10.9.0.{node + 1}' for node in range(64)]}\nsteps = {steps}\n"
    text += '[[versions]]\nnumber = 1\nservices = [{ vip = "192.0.2.1", proto = "tcp", port = 80, members = ["A@10.8.0.1", "B@10.8.0.2"] }]\n'
    return text, captured([bytes(datagram(TCP.format(number % 251), number)) for number in range(2048)])


def last_of_four():
    """Four nodes of one worker, of which the last gets 5,000 packets and is stopped while they come."""
    text = 'format = 1\nsize = 7\nhash = "fnv"\nscheme = "maglev"\nspread = "turn"\nworkers = 1\ncapacity = 8\nring = 65536\n'
    steps = [f"install {node} 1" for node in range(4)] + ["take 4", "live 3", "take 5000", "stop 3", "take 1"]
    text += f"nodes = {[f'10.9.0.{node + 1}' for node in range(4)]}\nsteps = {steps}\n"
    text += '[[versions]]\nnumber = 1\nservices = [{ vip = "192.0.2.1", proto = "tcp", port = 80, members = ["A@10.8.0.1", "B@10.8.0.2"] }]\n'
    return text, captured([bytes(datagram(TCP.format(number % 251), number)) for number in range(5005)])


def case(name, text, data):
    """A run's name, its scenario and capture, and what the model says of them."""
    return name, text, data, model.Run(text, data)


def reported(text, data, expected, folder, processors=None):
    """What one run prints, and its faults. It has all processors, or these."""
    (folder / "s.toml").write_text(text)
    (folder / "in.pcap").write_bytes(data)
    words = [PROGRAM, "run", "s.toml", "in.pcap", "out.pcap"]
    pinned = processors and (lambda: os.sched_setaffinity(0, processors))
    try:
        done = subprocess.run(words, cwd=folder, capture_output=True, timeout=300, preexec_fn=pinned)
    except subprocess.TimeoutExpired:
        return "", ["it doesn't end in five minutes"]
    if done.returncode or done.stderr:
        return "", [f"status {done.returncode}: {done.stderr!r}"]
    printed = done.stdout.decode()
    return printed, list(faults_of(expected, printed, (folder / "out.pcap").read_bytes()))


def judged(text, data, expected, folder):
    """The faults of one run."""
    return reported(text, data, expected, folder)[1]


def widest_runs(folder):
    """Gives each of the widest runs with its faults, and prints how long it took: with rings of one place and of four, on all
    processors, and on one alone."""
    one = {min(os.sched_getaffinity(0))}
    for ring, processors in [(1, None), (4, None), (1, one)]:
        name = f"64 nodes of 16 workers, rings of {ring}, {'one processor' if processors else 'all processors'}"
        text, data = widest(ring)
        expected = model.Run(text, data)
        began = time.monotonic()
        _, faults = reported(text, data, expected, folder, processors)
        print(f"{name}: {time.monotonic() - began:.1f} s")
        yield name, faults


def stopped_in_traffic(folder):
    """The faults of a stop of the last node in full traffic: what waits is lost in one run of 20 at least. A stop that drained would
    lose nothing."""
    text, data = last_of_four()
    expected = model.Run(text, data)
    lost = 0
    for _ in range(20):
        printed, faults = reported(text, data, expected, folder)
        yield from faults
        lost += "drop LostAtRestart" in printed
    if not lost:
        yield "nothing was lost"


def main():
    first, count, times = (int(word) for word in sys.argv[1:4]) if len(sys.argv) > 3 else (0, 60, 1000)
    runs = [case(f"run {seed}", *thrown(seed)) for seed in range(first, first + count)]
    for word in ["restart", "stop"]:
        runs += [case(f"the run with a {word}", *restarting(word))] * times
    with tempfile.TemporaryDirectory() as folder:
        cases = [(name, judged(*run, pathlib.Path(folder))) for name, *run in runs]
        cases += widest_runs(pathlib.Path(folder))
        cases.append(("a stop of the last of four nodes", list(stopped_in_traffic(pathlib.Path(folder)))))
        return judge_all(cases)


if __name__ == "__main__":
    sys.exit(main())
