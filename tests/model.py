"""A plain model of the cluster: what a scenario does to a capture, worked out in the plainest way.

It shares nothing with the program but the documents: tables are filled turn by turn from written-out lists, connection tables
are lists, and a capture is read whole. It reads only scenarios and captures that nothing is wrong with.
"""
import collections
import copy
import fractions
import hashlib
import itertools
import struct
import tomllib

LINKS = {1: "ethernet", 101: "raw", 228: "raw"}
CAUSES = [
    "NotIpv4", "Truncated", "BadHeader", "BadChecksum", "Fragment", "NotTcpUdp", "BadTransport", "TooLarge", "NoService",
    "NoBackend", "NoVersion", "RingsFull", "LostAtRestart",
]


WORDS = {6: "tcp", 17: "udp"}


def fnv(data):
    """FNV-1a of 64 bits."""
    state = 0xCBF29CE484222325
    for byte in data:
        state = (state ^ byte) * 0x100000001B3 % 2**64
    return state


HASHES = {"fnv": fnv, "sha256": lambda data: int.from_bytes(hashlib.sha256(data).digest()[:8], "big"), "sum": sum}


def preferences(name, size, plain):
    """A backend's preference list."""
    offset = plain(b"o" + name.encode()) % size
    skip = plain(b"k" + name.encode()) % (size - 1) + 1
    return [(offset + place * skip) % size for place in range(size)]


def filled(weights, size, plain):
    """Which of the names each slot names, by the names' weights: the turns of a round are written out, pass by pass."""
    names = sorted(weights)
    turns = [name for number in range(1, 17) for name in names if weights[name] >= number]
    lists = {name: iter(preferences(name, size, plain)) for name in names}
    owner = {}
    while len(owner) < size:
        name = turns[0]
        slot = next(slot for slot in lists[name] if slot not in owner)
        owner[slot] = name
        turns = turns[1:] + [name]
    return owner


# A member of a service. One that is "up" gets flows and keeps those that it has; one that is in "drain" keeps them alone; one that
# is "down" does neither.
Member = collections.namedtuple("Member", "name at weight state")


def member_of(word, servers=None):
    """The member of a member word. One without an address is the server of its name."""
    word, _, state = word.partition("/")
    word, _, weight = word.partition("*")
    name, _, at = word.partition("@")
    return Member(name, at or servers[name], int(weight or 1), state or "up")


def changed(members, changes, servers):
    """The members of a service that a version by difference, or one of its services, changes."""
    listed = {key: changes.get(key, []) for key in ["remove", "down", "drain", "up", "weights", "add"]}
    members = [member for member in members if member.name not in listed["remove"]]
    for state in ["down", "drain", "up"]:
        members = [member._replace(state=state) if member.name in listed[state] else member for member in members]
    weights = dict(word.split("*") for word in listed["weights"])
    members = [member._replace(weight=int(weights.get(member.name, member.weight))) for member in members]
    return members + [member_of(word, servers) for word in listed["add"]]


def place_of(service):
    """What a service is for, as `plan` prints it."""
    return f"{service['vip']}:{service['port']}/{service['proto']}"


def versions_of(document):
    """The versions of a scenario by number, written out: of each the members of its services in order, by what a service is for."""
    servers, versions = document.get("servers", {}), {}
    for version in document["versions"]:
        base = versions.get(version.get("base"), {})
        services = {place: changed(members, version, servers) for place, members in base.items()}
        for service in version.get("services", []):
            place = place_of(service)
            if "members" in service:
                services[place] = [member_of(word, servers) for word in service["members"]]
            else:
                services[place] = changed(services[place], service, servers)
        versions[version["number"]] = services
    return versions


def address(text):
    """The bytes of an address."""
    return bytes(int(part) for part in text.split("."))


def dotted(data):
    return ".".join(str(byte) for byte in data)


def folded(data):
    """The folded sum of 16-bit words."""
    total = sum(struct.unpack(f">{len(data) // 2}H", data))
    return (total - 1) % 65535 + 1 if total else 0


def read_packet(link, frame, check):
    """A frame's flow and datagram, or the cause of its drop."""
    data = frame
    if link == "ethernet":
        if len(frame) < 14:
            return "Truncated", None
        if frame[12:14] != b"\x08\x00":
            return "NotIpv4", None
        data = frame[14:]
    if data and data[0] >> 4 != 4:
        return "NotIpv4", None
    if len(data) < 20:
        return "Truncated", None
    head = 4 * (data[0] & 15)
    total = int.from_bytes(data[2:4], "big")
    if len(data) < head or len(data) < total:
        return "Truncated", None
    if head < 20 or total < head:
        return "BadHeader", None
    if check and folded(data[:head]) != 0xFFFF:
        return "BadChecksum", None
    if int.from_bytes(data[6:8], "big") & 0x3FFF:
        return "Fragment", None
    if data[9] not in (6, 17):
        return "NotTcpUdp", None
    payload = data[head:total]
    if data[9] == 6:
        if len(payload) < 20 or payload[12] >> 4 < 5 or len(payload) < 4 * (payload[12] >> 4):
            return "BadTransport", None
    elif len(payload) < 8 or not 8 <= int.from_bytes(payload[4:6], "big") <= len(payload):
        return "BadTransport", None
    if total > 65511:
        return "TooLarge", None
    return data[12:20] + payload[:4] + data[9:10], data[:total]


def read_capture(data):
    """The link, the records as (seconds, microseconds, bytes), and whether the input ends inside one."""
    order = "<" if data[:4] in (bytes.fromhex("d4c3b2a1"), bytes.fromhex("4d3cb2a1")) else ">"
    divisor = 1000 if data[:4] in (bytes.fromhex("a1b23c4d"), bytes.fromhex("4d3cb2a1")) else 1
    link = LINKS[struct.unpack(order + "I", data[20:24])[0]]
    records, at = [], 24
    while at + 16 <= len(data):
        seconds, fraction, length, _ = struct.unpack(order + "4I", data[at : at + 16])
        if at + 16 + length > len(data):
            break
        records.append((seconds, fraction // divisor, data[at + 16 : at + 16 + length]))
        at += 16 + length
    return link, records, at < len(data)


def padded(data):
    """The capture with each record that was cut as long as its frame was, with zeros where bytes are missing: one that captured
    fewer bytes than its frame had, where the frame had no more than a record may have. All else is as it is, and what is no
    capture too. A header whose input ends behind it is mended as well."""
    magics = {"d4c3b2a1": "<", "4d3cb2a1": "<", "a1b2c3d4": ">", "a1b23c4d": ">"}
    order = magics.get(data[:4].hex())
    if order is None or len(data) < 24:
        return data
    out, at = data[:24], 24
    while at + 16 <= len(data):
        captured, original = struct.unpack(order + "2I", data[at + 8 : at + 16])
        was_cut = captured < original <= 262144
        out += data[at : at + 8] + (data[at + 12 : at + 16] if was_cut else data[at + 8 : at + 12]) + data[at + 12 : at + 16]
        at += 16
        if at + captured > len(data):
            break
        out += data[at : at + captured] + bytes(original - captured if was_cut else 0)
        at += captured
    return out + data[at:]


def wrapped(datagram, node, backend):
    """The datagram in GRE."""
    head = struct.pack(">BBHHHBBH", 0x45, 0, 24 + len(datagram), 0, 0x4000, 64, 47, 0) + node + backend
    head = head[:10] + (65535 - folded(head)).to_bytes(2, "big") + head[12:]
    return head + b"\x00\x00\x08\x00" + datagram


def written(records, link=101):
    """A capture of these records, of raw IP or of another link type."""
    head = struct.pack("<IHHIIII", 0xA1B2C3D4, 2, 4, 0, 0, 65535, link)
    return head + b"".join(struct.pack("<4I", secs, micros, len(data), len(data)) + data for secs, micros, data in records)


# An entry of a connection table: a flow, its backend, the version that chose it, and the worker's clock at its last touch.
Entry = collections.namedtuple("Entry", "flow backend origin last")

# What a worker knows in one life: its entries, newest first, how often it asked the scheme, and its clock, which is the
# greatest time of a packet that it served.
Forwarder = collections.namedtuple("Forwarder", "entries turns clock")

FRESH = Forwarder((), 0, 0)

# Where a packet is sent: a node, which life of it, a worker, and what the worker's clock shows.
At = collections.namedtuple("At", "node life worker clock")

# Why a connection changes its server, in the order in which they are asked for.
CHANGES = ["down", "drained", "node", "restart", "worker", "idle", "evicted"]


def segment(link, frame, check):
    """The flow and the flags of the TCP segment that a frame carries, however long its datagram is; None where there is none."""
    flow, datagram = read_packet(link, frame, check)
    if flow == "TooLarge":
        datagram = frame[14:] if link == "ethernet" else frame
        head = 4 * (datagram[0] & 15)
        flow = datagram[12:20] + datagram[head : head + 4] + datagram[9:10]
    if isinstance(flow, str) or flow[12] != 6:
        return None
    return flow, datagram[4 * (datagram[0] & 15) + 13]


FIN, SYN, RST, ACK = 1, 2, 4, 16


def ordinals(link, records, check=True, after=None):
    """Of each record which of its flow's connections it belongs to, from 0. A flow begins another connection with a SYN without ACK
    where the connection before it had FIN or RST, or, where a time is given, where that many microseconds have passed."""
    connections, found = {}, []
    for seconds, micros, frame in records:
        told, at = segment(link, frame, check), seconds * 1_000_000 + micros
        if told is None:
            found.append(0)
            continue
        flow, flags = told
        own = connections.setdefault(flow, [[]])
        if flags & SYN and not flags & ACK and own[-1]:
            ended = any(one & (FIN | RST) for one, _ in own[-1])
            late = after is not None and max(at - own[-1][-1][1], 0) >= after
            if ended or late:
                own.append([])
        own[-1].append((flags, at))
        found.append(len(own) - 1)
    return found


class Sent(tuple):
    """A packet that was sent: its node, its record, its flow, its backend and the version of its choice. `at` is where and when
    it was sent: the node, its life, the worker and what its clock showed then."""


class Run:
    """A scenario's run over a capture."""

    def __init__(self, scenario, capture):
        self.scenario = tomllib.loads(scenario)
        self.plain = HASHES[self.scenario["hash"]]
        self.link, self.records, self.cut = read_capture(capture)
        self.versions = versions_of(self.scenario)
        count = len(self.scenario["nodes"])
        self.workers = self.scenario["workers"]
        self.forwarders = [[FRESH] * self.workers for _ in range(count)]
        self.queues = [[[] for _ in range(self.workers)] for _ in range(count)]
        self.refused_homes = [0] * count
        self.newest = [None] * count
        self.live = list(range(count))
        self.full = [set() for _ in range(count)]
        self.held = [False] * count
        self.lives = [0] * count
        self.read = self.spread = self.lost = self.unrouted = self.skipped = 0
        self.events = []
        self.stops = []
        self.tables = {}
        self.ordinals = [0] * len(self.records)
        for step in self.scenario["steps"]:
            word, *numbers = step.split(" ")
            for own in self.spelled_out(word, numbers):
                getattr(self, "step_" + word)(*own)
        self.left = len(self.records) - self.read

    def spelled_out(self, word, numbers):
        """The numbers of each step that a step stands for: a `*` is as many records as there are, or each node in order."""
        if word == "until":
            return [map(fractions.Fraction, numbers)]
        if "*" not in numbers:
            return [map(int, numbers)]
        if word == "take":
            return [[len(self.records)]]
        return [[node, *map(int, numbers[1:])] for node in range(len(self.scenario["nodes"]))]

    def say(self, event, outcome, sent=None):
        self.events.append((event, outcome, sent))

    # steps

    def step_install(self, node, number):
        if number not in self.versions:
            return self.say(f"install {node} {number}", "refused UnknownVersion")
        if self.newest[node] is not None and number <= self.newest[node]:
            return self.say(f"install {node} {number}", "refused NotNewer")
        self.newest[node] = number
        return self.say(f"install {node} {number}", "installed")

    def step_take(self, count):
        for _ in range(min(count, len(self.records) - self.read)):
            self.read += 1
            self.deliver(self.read - 1)

    def time(self, place):
        """When a record came, in microseconds."""
        secs, micros, _ = self.records[place]
        return secs * 1_000_000 + micros

    def step_until(self, end):
        """Takes records up to the first that came so many seconds, or more, after the first of all."""
        while self.read < len(self.records) and max(self.time(self.read) - self.time(0), 0) < end * 1_000_000:
            self.step_take(1)

    def step_lose(self, count):
        count = min(count, len(self.records) - self.read)
        self.read += count
        self.lost += count

    def step_again(self, place):
        if place < self.read:
            self.deliver(place)
        else:
            self.skipped += 1

    def step_live(self, *nodes):
        self.live = list(nodes)

    def step_full(self, node, *workers):
        self.full[node] = set(workers)

    def step_hold(self, node):
        self.held[node] = True

    def step_drain(self, node):
        self.held[node] = False
        for worker in range(self.workers):
            while self.queues[node][worker]:
                self.serve(node, worker)

    def step_restart(self, node):
        waiting = sum(map(len, self.queues[node]))
        self.forwarders[node] = [FRESH] * self.workers
        self.queues[node] = [[] for _ in range(self.workers)]
        self.refused_homes[node] = 0
        self.held[node] = False
        self.lives[node] += 1
        self.say(f"restart {node}", f"restarted {waiting}", waiting)

    def step_stop(self, node):
        """A stop, as if the workers had been done."""
        self.step_restart(node)
        self.stops.append(len(self.events) - 1)

    # deliveries

    def deliver(self, place):
        flow, _ = read_packet(self.link, self.records[place][2], self.scenario.get("check", True))
        is_flow = not isinstance(flow, str)
        nth, self.spread = self.spread, self.spread + 1
        if not self.live:
            self.unrouted += 1
            return
        if self.scenario["spread"] == "hash" and is_flow:
            nth = self.plain(b"e" + flow)
        node = self.live[nth % len(self.live)]
        event = f"arrive {node} {place}"
        if not is_flow:
            return self.say(event, f"drop {flow}")
        if self.newest[node] is None:
            return self.say(event, "drop NoVersion")
        home = self.plain(b"w" + flow) % self.workers
        tries = [home]
        if home in self.full[node]:
            first = self.refused_homes[node] % self.workers
            self.refused_homes[node] += 1
            tries = [(first + step) % self.workers for step in range(self.workers)]
        worker = next((worker for worker in tries if worker not in self.full[node]), None)
        if worker is None:
            return self.say(event, "drop RingsFull")
        self.queues[node][worker].append((place, flow))
        self.say(event, f"placed {worker}")
        if not self.held[node]:
            self.serve(node, worker)

    def members(self, number, flow):
        """The members of a flow's service in a version, or None where it has no such service."""
        place = f"{dotted(flow[4:8])}:{int.from_bytes(flow[10:12], 'big')}/{WORDS[flow[12]]}"
        return self.versions[number].get(place)

    def service(self, number, flow):
        """The up members of a flow's service, as (name, address, weight), in ascending order; None where there is no service."""
        members = self.members(number, flow)
        return None if members is None else sorted(member[:3] for member in members if member.state == "up")

    def backends(self, number, flow, *states):
        """The backends, as (name, address), of a flow's members that are in one of these states in a version."""
        return [member[:2] for member in self.members(number, flow) or [] if member.state in states]

    def slot(self, flow):
        return self.plain(b"f" + flow) % self.scenario["size"]

    def chosen(self, ups, flow, turn):
        scheme = self.scenario["scheme"]
        if scheme == "round":
            return ups[turn % len(ups)][:2]
        if scheme == "plain":
            return ups[self.plain(b"f" + flow) % len(ups)][:2]
        key = tuple(ups)
        if key not in self.tables:
            self.tables[key] = filled({name: weight for name, _, weight in ups}, self.scenario["size"], self.plain)
        return next(up[:2] for up in ups if up[0] == self.tables[key][self.slot(flow)])

    def answered(self, forwarder, place, flow, number):
        """What a worker does with a record's packet under a version: what it knows then, and the entry by which the packet is
        sent, or the cause of its drop."""
        forwarder = forwarder._replace(clock=max(forwarder.clock, self.time(place)))
        ups = self.service(number, flow)
        if ups is None:
            return forwarder, "NoService"
        known = next((entry for entry in forwarder.entries if entry.flow == flow), None)
        others = tuple(entry for entry in forwarder.entries if entry.flow != flow)
        if known is not None and forwarder.clock - known.last <= self.scenario.get("idle", forwarder.clock):
            known = known._replace(last=forwarder.clock)
            forwarder = forwarder._replace(entries=(known, *others))
            if known.backend in self.backends(number, flow, "up", "drain"):
                return forwarder, known
        turn = forwarder.turns
        forwarder = forwarder._replace(turns=turn + 1)
        if not ups:
            return forwarder, "NoBackend"
        entry = Entry(flow, self.chosen(ups, flow, turn), number, forwarder.clock)
        return forwarder._replace(entries=(entry, *others)[: self.scenario["capacity"]]), entry

    def serve(self, node, worker):
        place, flow = self.queues[node][worker].pop(0)
        number = self.newest[node]
        event = f"serve {node} {worker} {number}"
        self.forwarders[node][worker], answer = self.answered(self.forwarders[node][worker], place, flow, number)
        if isinstance(answer, str):
            return self.say(event, f"drop {answer}")
        _, backend, origin, _ = answer
        sent = Sent((node, place, flow, backend, origin))
        sent.at = At(node, self.lives[node], worker, self.forwarders[node][worker].clock)
        return self.say(event, f"forward {'@'.join(backend)} from {origin}", sent)

    def part_of(self, node):
        """One node's part of the run: the events of that node, in their order, with their outcomes. All that is counted of the
        capture's records stays."""
        part = copy.copy(self)
        part.events = [one for one in self.events if int(one[0].split(" ")[1]) == node]
        return part

    # what is asked

    def sends(self):
        return [sent for _, outcome, sent in self.events if outcome.startswith("forward")]

    def output(self):
        records = []
        for node, place, _, backend, _ in self.sends():
            secs, micros, frame = self.records[place]
            _, datagram = read_packet(self.link, frame, self.scenario.get("check", True))
            records.append((secs, micros, wrapped(datagram, address(self.scenario["nodes"][node]), address(backend[1]))))
        return written(records)

    def listing(self):
        return "".join(f"{place} {event}: {outcome}\n" for place, (event, outcome, _) in enumerate(self.events))

    def report(self):
        outcomes = [outcome for _, outcome, _ in self.events]
        received = sum(event.startswith("arrive") and not outcome.startswith("refused") for event, outcome, _ in self.events)
        lost = sum(sent for event, _, sent in self.events if event.startswith("restart"))
        drops = [sum(outcome == f"drop {cause}" for outcome in outcomes) for cause in CAUSES[:-1]] + [lost]
        forwarded = len(self.sends())
        lines = [f"packets {len(self.records)}", f"lost {self.lost}", f"unrouted {self.unrouted}", f"skipped {self.skipped}"]
        lines += [f"left {self.left}", f"cut {'yes' if self.cut else 'no'}", f"received {received}", f"forwarded {forwarded}"]
        lines += [f"drop {cause} {count}" for cause, count in zip(CAUSES, drops) if count]
        lines += [f"waiting {received - forwarded - sum(drops)}"]
        lines += [f"refused {sum(outcome.startswith('refused') for outcome in outcomes)}"]
        return "".join(line + "\n" for line in lines)

    def on_threads(self):
        """The run with its events in the order of a history of threads: node by node, and of each life what the node was told,
        then the servings, worker by worker, and last the restart."""
        lives, placed = {}, []
        for event, outcome, sent in self.events:
            word, node, *rest = event.split(" ")
            life = lives.setdefault(node, 0)
            part = {"serve": 1, "restart": 2}.get(word, 0)
            lives[node] += word == "restart"
            placed.append(((int(node), life, part, int(rest[0]) if part == 1 else 0), (event, outcome, sent)))
        told = copy.copy(self)
        told.events = [event for _, event in sorted(placed, key=lambda one: one[0])]
        return told

    def begun_again(self, after=None):
        """The run, in which a flow that begins again is another connection."""
        told = copy.copy(self)
        told.ordinals = ordinals(self.link, self.records, self.scenario.get("check", True), after)
        return told

    def connection(self, sent):
        """The connection of a packet that was sent."""
        return sent[2], self.ordinals[sent[1]]

    def connections(self):
        """How many connections a packet was sent of."""
        return len({self.connection(sent) for sent in self.sends()})

    def cause(self, flow, backend, origin, later):
        """Why a flow that was sent to a backend by an entry of this origin was sent to another one under a later version."""
        if backend in self.backends(later, flow, "up", "drain"):
            return "moved"
        between = [number for number in self.versions if origin <= number < later]
        return "drained" if any(backend in self.backends(number, flow, "drain") for number in between) else "down"

    def drains(self):
        """Whether some member of some version drains."""
        services = [members for services in self.versions.values() for members in services.values()]
        return any(member.state == "drain" for members in services for member in members)

    def pairs(self):
        """Each two sends of one connection to different backends, with none of it between them: the number and the text of both
        events, and what was sent."""
        newest = {}
        for place, (event, outcome, sent) in enumerate(self.events):
            if outcome.startswith("forward"):
                one, key = (place, event, sent), self.connection(sent)
                before = newest.get(key)
                if before and before[2][3] != sent[3]:
                    yield before, one
                newest[key] = one

    def change(self, first, later):
        """Why a connection changed its server between two sends."""
        cause = self.cause(first[2][2], first[2][3], first[2][4], int(later[1].split(" ")[3]))
        if cause != "moved":
            return cause
        one, other = first[2].at, later[2].at
        if one.node != other.node:
            return "node"
        if one.life != other.life:
            return "restart"
        if one.worker != other.worker:
            return "worker"
        return "idle" if other.clock - one.clock > self.scenario.get("idle", other.clock) else "evicted"

    def place(self, sent):
        """Where and when a packet was sent, as a line of splits says it."""
        micros = self.time(sent[1])
        return f"{sent[1]} {micros // 1_000_000}.{micros % 1_000_000:06} {sent.at.node} {sent.at.worker}"

    def splits(self, where=False):
        """A line for each split, and their counts."""
        lines, causes = [], []
        for first, later in self.pairs():
            (place1, _, (_, _, flow, backend1, origin1)), (place2, event, (_, _, _, backend2, origin2)) = first, later
            causes.append(self.cause(flow, backend1, origin1, int(event.split(" ")[3])))
            name = WORDS[flow[12]]
            ports = int.from_bytes(flow[8:10], "big"), int.from_bytes(flow[10:12], "big")
            who = f"{name} {dotted(flow[:4])}:{ports[0]}>{dotted(flow[4:8])}:{ports[1]}"
            halves = f"version {origin1} {'@'.join(backend1)} version {origin2} {'@'.join(backend2)}"
            line = f"split {who} events {place1} {place2} slot {self.slot(flow)} {halves} {causes[-1]}"
            if where:
                line += f" at {self.place(first[2])} {self.place(later[2])} {self.change(first, later)}"
            lines.append(line)
        lines += [f"flows {self.connections()}", f"split {len(causes)}", f"down {causes.count('down')}", f"moved {causes.count('moved')}"]
        lines += [f"drained {causes.count('drained')}"] if self.drains() else []
        return "".join(line + "\n" for line in lines)

    def summary(self):
        """How many connections changed their server, how often, and why."""
        pairs = list(self.pairs())
        causes = [self.change(first, later) for first, later in pairs]
        changed = {self.connection(first[2]) for first, _ in pairs}
        lines = [f"connections {self.connections()}", f"changed {len(changed)}", f"changes {len(pairs)}"]
        lines += [f"changes {cause} {causes.count(cause)}" for cause in CHANGES]
        return "".join(line + "\n" for line in lines)

    def shares(self, by_node=False):
        """What each backend, or each node, took under each version: as the version under which packets were served, the backend
        or the node, and how many packets, bytes and flows."""
        served = {}
        for event, outcome, sent in self.events:
            if outcome.startswith("forward"):
                node, place, flow, backend, _ = sent
                served.setdefault((int(event.split(" ")[3]), node if by_node else backend), []).append((place, flow))
        order = (lambda key: key) if by_node else (lambda key: (key[0], key[1][0].encode(), address(key[1][1])))
        for version, holder in sorted(served, key=order):
            packets = served[version, holder]
            frames = [self.records[place][2] for place, _ in packets]
            size = sum(len(read_packet(self.link, frame, self.scenario.get("check", True))[1]) for frame in frames)
            yield version, holder, len(packets), size, len({flow for _, flow in packets})

    def taken(self, by_node=False):
        """A line for each of these shares."""
        lines = []
        for version, holder, packets, size, flows in self.shares(by_node):
            name = f"node {holder}" if by_node else f"backend {'@'.join(holder)}"
            lines.append(f"{name} version {version} packets {packets} bytes {size} flows {flows}\n")
        return "".join(lines)

    def told_of(self, *numbers):
        """The lines that the listing has of these events, where the run has them, each once and in its order."""
        lines = self.listing().splitlines(True)
        return "".join(lines[place] for place in sorted(set(numbers)) if place < len(lines))

    def explained(self, one, other):
        sent = [self.events[place][2] if place < len(self.events) else None for place in (one, other)]
        if not all(isinstance(part, tuple) for part in sent):
            return "not sent\n"
        (_, _, flow, backend1, origin1), (_, _, flow2, backend2, origin2) = sent
        if flow != flow2:
            return "other flow\n"
        if backend1 == backend2:
            return "same\n"
        halves = f"version {origin1} {'@'.join(backend1)} version {origin2} {'@'.join(backend2)}"
        later = int(self.events[other][0].split(" ")[3])
        drained = self.cause(flow, backend1, origin1, later) == "drained"
        return f"split slot {self.slot(flow)} {halves}{' drained' if drained else ''}\n"


def named_slots(document, members):
    """The member that each slot of a service names, as (name, address, weight), or None where nobody is up. A scheme without a
    table names whom it picks for the slot's number, taken for a hash or a turn."""
    size, plain = document["size"], HASHES[document["hash"]]
    ups = sorted(member[:3] for member in members if member.state == "up")
    if not ups:
        return [None] * size
    if document["scheme"] != "maglev":
        return [ups[slot % len(ups)] for slot in range(size)]
    owner = filled({name: weight for name, _, weight in ups}, size, plain)
    by_name = {up[0]: up for up in ups}
    return [by_name[owner[slot]] for slot in range(size)]


def planned(scenario, number):
    """What `plan` prints of one version."""
    document = tomllib.loads(scenario)
    lines = []
    for service, members in versions_of(document)[number].items():
        named = named_slots(document, members)
        lines += [f"service {service}", f"slots {len(named)}"]
        for name, at, weight, state in sorted(members):
            slots = sum(one is not None and one[:2] == (name, at) for one in named)
            lines.append(f"{name}@{at} weight {weight} slots {slots}{'' if state == 'up' else f' {state}'}")
    return "".join(line + "\n" for line in lines)


def table_of(scenario, number, service):
    """What `table` prints of a scenario's service."""
    document = tomllib.loads(scenario)
    members = versions_of(document)[number][service]
    named = [one[0] if one else "-" for one in named_slots(document, members)]
    ups = sorted(member[0] for member in members if member.state == "up")
    lines = [f"size {len(named)} backends {len(ups)}"]
    lines += [f"{slot} {name}" for slot, name in enumerate(named)]
    lines += [f"count {name} {named.count(name)}" for name in ups]
    return "".join(line + "\n" for line in lines)


def compared(scenario, first, second, service):
    """What `compare` prints of a scenario's service in two versions."""
    document = tomllib.loads(scenario)
    both = [versions_of(document)[number].get(service, []) for number in (first, second)]
    olds, news = (["@".join(one[:2]) if one else "-" for one in named_slots(document, members)] for members in both)
    counts = [sum(member.state == "up" for member in members) for members in both]
    moved = [(slot, *pair) for slot, pair in enumerate(zip(olds, news)) if pair[0] != pair[1]]
    lines = [f"size {len(olds)} old {counts[0]} new {counts[1]} differ {len(moved)}"]
    lines += [f"{slot} {old} {new}" for slot, old, new in moved]
    return "".join(line + "\n" for line in lines)


def picked(scenario, number, datagram, check=True):
    """What `pick` prints of a datagram under a version of a scenario of the scheme maglev."""
    document = tomllib.loads(scenario)
    flow, _ = read_packet("raw", datagram, check)
    if isinstance(flow, str):
        return f"drop {flow}\n"
    place = f"{dotted(flow[4:8])}:{int.from_bytes(flow[10:12], 'big')}/{WORDS[flow[12]]}"
    members = versions_of(document)[number].get(place)
    if members is None:
        return "drop NoService\n"
    slot = HASHES[document["hash"]](b"f" + flow) % document["size"]
    one = named_slots(document, members)[slot]
    if one is None:
        return "drop NoBackend\n"
    ports = int.from_bytes(flow[8:10], "big"), int.from_bytes(flow[10:12], "big")
    who = f"{WORDS[flow[12]]} {dotted(flow[:4])}:{ports[0]}>{dotted(flow[4:8])}:{ports[1]}"
    return f"{who} slot {slot} backend {one[0]}\n"


def plan(scenario, first, second):
    """What `plan` prints of two versions."""
    document = tomllib.loads(scenario)
    versions = versions_of(document)
    before, after = versions[first], versions[second]
    lines = []
    for service in [*after, *(service for service in before if service not in after)]:
        old, new = before.get(service, []), after.get(service, [])
        olds = [one and one[:2] for one in named_slots(document, old)]
        news = [one and one[:2] for one in named_slots(document, new)]
        ups, drains = ({member[:2] for member in new if member.state == state} for state in ("up", "drain"))
        changed = [one for one, other in zip(olds, news) if one != other]
        moved, drained = (sum(one in some for one in changed) for some in (ups, drains))
        least = len(olds) - sum((collections.Counter(olds) & collections.Counter(news)).values())
        counts = f"slots {len(olds)} changed {len(changed)} down {len(changed) - moved - drained} moved {moved} least {least}"
        lines += [f"service {service}", counts + (f" drained {drained}" if drains else "")]
        rows = {member[:2]: (0, member.weight) for member in old} | {member[:2]: (1, member.weight) for member in new}
        for (name, at), (_, weight) in sorted(rows.items(), key=lambda row: (row[0][0], row[1][0])):
            one = name, at
            end = "" if one in ups else " drain" if one in drains else " down"
            lines.append(f"{name}@{at} weight {weight} before {olds.count(one)} after {news.count(one)}{end}")
    return "".join(line + "\n" for line in lines)


def moved_slots(document, before, after):
    """How many slots of all services name another server though theirs is up still, between two versions."""
    count = 0
    for place in {*before, *after}:
        olds, news = ([one and one[:2] for one in named_slots(document, services.get(place, []))] for services in (before, after))
        ups = {member[:2] for member in after.get(place, []) if member.state == "up"}
        count += sum(one != other and one in ups for one, other in zip(olds, news))
    return count


def lost(before, after):
    """The names of servers that are up in a service of the first version and, by name and address, not up in that of the second."""
    ups = [{(place, *member[:2]) for place, members in services.items() for member in members if member.state == "up"} for services in (before, after)]
    return sorted({name for _, name, _ in ups[0] - ups[1]})


def between(before, after, leaving, joining, done):
    """The version in which these of the servers that leave are replaced, and as many of those that join are there."""
    if not done or len(done) >= len(leaving):
        return after if done or not leaving else before
    names = {*done, *joining[: len(done)]}
    return {
        place: [one for one in before.get(place, []) if one.name not in names] + [one for one in after.get(place, []) if one.name in names]
        for place in [*after, *(place for place in before if place not in after)]
    }


def ordered(scenario, first, second):
    """What `plan --order` prints of two versions: each order of up to six servers is walked step by step; of more each step is the
    one that moves the fewest slots."""
    document = tomllib.loads(scenario)
    before, after = (versions_of(document)[number] for number in (first, second))
    leaving, joining = lost(before, after), lost(after, before)
    if not leaving:
        return f"servers 0 orders 1\nmoved {moved_slots(document, before, after)}\n"
    known = {}

    def step(done, server):
        """What one more server moves; it is asked for again with the same servers done in another order."""
        key = frozenset(done), server
        if key not in known:
            known[key] = moved_slots(document, *(between(before, after, leaving, joining, some) for some in (done, [*done, server])))
        return known[key]

    def count(order):
        return sum(step(order[:place], server) for place, server in enumerate(order))

    if len(leaving) <= 6:
        orders = sorted(map(list, itertools.permutations(leaving)), key=count)
        return f"servers {len(leaving)} orders {len(orders)}\n" + "".join(f"moved {count(order)} {' '.join(order)}\n" for order in orders)
    order = []
    while len(order) < len(leaving):
        order.append(min((server for server in leaving if server not in order), key=lambda server: step(order, server)))
    return f"servers {len(leaving)} orders 1 greedy\nmoved {count(order)} {' '.join(order)}\n"


SKETCH = """# Destinations: {all}. Of more than 5 packets: {busy}. Without the other direction of these: {left}. The first 256 of them are services, the most frequent first.
format = 1
size = 65537
hash = "fnv"
scheme = "maglev"
spread = "hash"
workers = 1
capacity = 100000
nodes = ["10.9.0.1"]
steps = ["install 0 1", "take {records}"]

[[versions]]
number = 1
"""

SKETCHED_SERVICE = """
# {packets} packets
[[versions.services]]
vip = "{vip}"
proto = "{proto}"
port = {port}
members = []
# members = ["web-1@10.8.0.1", "web-2@10.8.0.2"]
"""


def is_other_direction(place, hops):
    """Whether a destination is the other direction of the one that its first packet came from: more than five packets went there,
    and it is the service of both. That is the one to which packets came from several places. Where they did to both or to
    neither, it is the one to which a packet went before the first one to the other."""
    comes = [at for at, (_, to) in enumerate(hops) if to == place]
    service = hops[comes[0]][0]
    to_service = [source for source, to in hops if to == service]
    has_several, service_has_several = len({hops[at][0] for at in comes}) > 1, len(set(to_service)) > 1
    is_answer = any(to == service for _, to in hops[: comes[0]])
    if len(to_service) <= 5:
        return False
    return is_answer if has_several == service_has_several else service_has_several


def sketched(data):
    """What `scenario` prints of a capture, and the services in it as (address, protocol, port)."""
    link, records, _ = read_capture(data)
    read = [read_packet(link, frame, True) for _, _, frame in records]
    hops = [((flow[:4], flow[12], flow[8:10]), (flow[4:8], flow[12], flow[10:12])) for flow, datagram in read if datagram]
    places = [to for _, to in hops]
    counts = collections.Counter(places)
    first = {place: at for at, place in reversed(list(enumerate(places)))}
    busy = sorted((place for place in counts if counts[place] > 5), key=lambda place: (-counts[place], first[place]))
    left = [place for place in busy if not is_other_direction(place, hops)]
    services = [(dotted(vip), WORDS[proto], int.from_bytes(port, "big")) for vip, proto, port in left[:256]]
    text = SKETCH.format(all=len(counts), busy=len(busy), left=len(left), records=len(records))
    for place, (vip, proto, port) in zip(left, services):
        text += SKETCHED_SERVICE.format(packets=counts[place], vip=vip, proto=proto, port=port)
    return text + ("" if services else "services = []\n"), services
