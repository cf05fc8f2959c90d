"""What `--json` prints, by the plain model: lists of objects, each with its keys in their order. Times are texts of seconds."""
import json
import re

from model import CAUSES, CHANGES, WORDS, dotted, read_packet

# The numbers behind each kind of event, by the names that they have in an object.
NUMBERS = {
    "install": ["node", "version"],
    "arrive": ["node", "record"],
    "serve": ["node", "worker", "version"],
    "restart": ["node"],
}


def text_of(objects):
    """The lines of these objects. A time is a number."""
    lines = (json.dumps(one, separators=(",", ":")) for one in objects)
    return "".join(re.sub(r'"time":"([0-9.]+)"', r'"time":\1', line) + "\n" for line in lines)


def head(command):
    """The first line of a command's output."""
    return {"type": "maglev", "version": 1, "command": command}


def flow_text(flow):
    ports = int.from_bytes(flow[8:10], "big"), int.from_bytes(flow[10:12], "big")
    return f"{WORDS[flow[12]]} {dotted(flow[:4])}:{ports[0]}>{dotted(flow[4:8])}:{ports[1]}"


def server(backend):
    return {"backend": backend[0], "address": backend[1]}


def seconds(micros):
    return f"{micros // 1_000_000}.{micros % 1_000_000:06}"


# a run


def arrived(run, place):
    """What is told of the datagram of a record, where it is one."""
    flow, datagram = read_packet(run.link, run.records[place][2], run.scenario.get("check", True))
    return {} if isinstance(flow, str) else {"time": seconds(run.time(place)), "bytes": len(datagram), "flow": flow_text(flow)}


def outcome(kind, text, sent, record):
    """What came of an event. `record` is that of a serving."""
    word, _, rest = text.partition(" ")
    found = {"outcome": word}
    if word == "placed":
        return found | {"worker": int(rest)}
    if word == "forward":
        return found | {"record": sent[1], "flow": flow_text(sent[2])} | server(sent[3]) | {"chosen": sent[4]}
    if word == "drop":
        return found | ({"record": record} if kind == "serve" else {}) | {"cause": rest}
    if word == "restarted":
        return found | {"lost": int(rest)}
    return found | ({"reason": rest} if word == "refused" else {})


def events(run):
    """An object for each event."""
    waiting, found = {}, []
    for number, (event, text, sent) in enumerate(run.events):
        kind, *numbers = event.split(" ")
        numbers = [int(one) for one in numbers]
        one = {"type": "event", "event": number, "kind": kind} | dict(zip(NUMBERS[kind], numbers))
        record = None
        if kind == "arrive":
            one |= arrived(run, numbers[1])
            if text.startswith("placed"):
                waiting.setdefault((numbers[0], int(text.split(" ")[1])), []).append(numbers[1])
        elif kind == "serve":
            record = waiting[numbers[0], numbers[1]].pop(0)
        elif kind == "restart":
            waiting = {place: records for place, records in waiting.items() if place[0] != numbers[0]}
        found.append(one | outcome(kind, text, sent, record))
    return found


def send(run, number, sent, where):
    found = {"event": number, "version": sent[4]} | server(sent[3])
    if where:
        found |= {"record": sent[1], "time": seconds(run.time(sent[1])), "node": sent.at.node, "worker": sent.at.worker}
    return found


def splits(run, where=False):
    """An object for each split, and one of their counts."""
    found, causes = [], []
    for first, later in run.pairs():
        flow = first[2][2]
        causes.append(run.cause(flow, first[2][3], first[2][4], int(later[1].split(" ")[3])))
        one = {"type": "split", "flow": flow_text(flow), "client": dotted(flow[:4]), "slot": run.slot(flow), "cause": causes[-1]}
        if where:
            one |= {"why": run.change(first, later)}
        found.append(one | {"first": send(run, first[0], first[2], where), "later": send(run, later[0], later[2], where)})
    flows = run.connections()
    counts = {"type": "splits", "flows": flows, "split": len(causes)} | {cause: causes.count(cause) for cause in ("down", "moved", "drained")}
    return [*found, counts]


def lines_of(text):
    """The lines of a report as pairs of words and a count."""
    return [(words, count) for words, _, count in (line.rpartition(" ") for line in text.splitlines())]


def report(run):
    told = dict(lines_of(run.report()))
    found = {"type": "report"} | {word: int(told[word]) for word in ("packets", "lost", "unrouted", "skipped", "left")}
    found |= {"cut": run.cut} | {word: int(told[word]) for word in ("received", "forwarded")}
    found |= {"dropped": {cause: int(told.get(f"drop {cause}", 0)) for cause in CAUSES}}
    return found | {word: int(told[word]) for word in ("waiting", "refused")}


def summary(run):
    told = dict(lines_of(run.summary()))
    counts = {word: int(told[word]) for word in ("connections", "changed", "changes")}
    return {"type": "summary"} | counts | {"why": {cause: int(told[f"changes {cause}"]) for cause in CHANGES}}


def shares(run, by_node):
    """An object for each backend's share, or for each node's, under each version."""
    found = []
    for version, holder, packets, size, flows in run.shares(by_node):
        named = {"node": holder} if by_node else server(holder)
        counts = {"packets": packets, "bytes": size, "flows": flows}
        found.append({"type": "node" if by_node else "backend", "version": version} | named | counts)
    return found


def behind(run, words):
    """What comes behind a report with these options."""
    found = shares(run, False) if "--per-backend" in words else []
    found += shares(run, True) if "--per-node" in words else []
    return found + ([summary(run)] if "--summary" in words else [])


def explained(run, one, other, *words):
    listed = [event for event in events(run) if event["event"] in (one, other)] if "--list" in words else []
    return [head("explain"), *listed, verdict(run, one, other)]


def verdict(run, one, other):
    text = run.explained(one, other).rstrip("\n")
    if not text.startswith("split"):
        return {"type": "explain", "verdict": text}
    first, later = (run.events[place][2] for place in (one, other))
    halves = [{"version": sent[4]} | server(sent[3]) for sent in (first, later)]
    found = {"type": "explain", "verdict": "split", "slot": run.slot(first[2]), "first": halves[0], "later": halves[1]}
    return found | {"drained": text.endswith(" drained")}


def simulated(run, *words):
    """All that `simulate --json` prints with these options."""
    found = [head("simulate")]
    found += events(run) if "--list" in words else []
    if "--where" in words or "--splits" in words:
        found += splits(run, "--where" in words)
    return [*found, report(run), *behind(run, words)]


def ran(run, *words):
    """All that `run --json` prints with these options, where the threads did as one would."""
    told = run.on_threads()
    found = [head("run")]
    if "--where" in words or "--splits" in words:
        found += splits(told, "--where" in words)
    return [*found, report(run), {"type": "audit", "agrees": True}, *behind(told, words)]


# tables


def name_or_none(word):
    return None if word == "-" else word


def server_or_none(word):
    return None if word == "-" else server(word.split("@"))


def tabled(text):
    """What `table --json` prints of a table, by its plain lines."""
    found = [head("table")]
    for line in text.splitlines():
        words = line.split(" ")
        if words[0] == "size":
            found.append({"type": "table", "size": int(words[1]), "backends": int(words[3])})
        elif words[0] == "count" and len(words) == 3:
            found.append({"type": "count", "backend": words[1], "slots": int(words[2])})
        else:
            found.append({"type": "slot", "slot": int(words[0]), "backend": name_or_none(words[1])})
    return found


def compared(text):
    """The same of `compare`."""
    first, *lines = (line.split(" ") for line in text.splitlines())
    counts = {word: int(count) for word, count in zip(first[0::2], first[1::2])}
    found = [head("compare"), {"type": "compare"} | counts]
    return found + [{"type": "slot", "slot": int(slot), "old": server_or_none(old), "new": server_or_none(new)} for slot, old, new in lines]


def picked(text):
    """The same of `pick`."""
    words = text.rstrip("\n").split(" ")
    if words[0] == "drop":
        return [head("pick"), {"type": "drop", "cause": words[1]}]
    return [head("pick"), {"type": "pick", "flow": " ".join(words[:2]), "slot": int(words[3]), "backend": words[5]}]


def member(service, words):
    """A member's line of a plan."""
    name, _, address = words[0].partition("@")
    state = words[-1] if len(words) % 2 == 0 else "up"
    counts = {word: int(count) for word, count in zip(words[1::2], words[2::2])}
    return {"type": "member", "service": service, "backend": name, "address": address} | counts | {"state": state}


def planned(text):
    """What `plan --json` prints of versions, by the plain lines."""
    found, service = [head("plan")], None
    for line in text.splitlines():
        words = line.split(" ")
        if words[0] == "service":
            service = words[1]
        elif words[0] == "slots":
            told = {word: int(count) for word, count in zip(words[0::2], words[1::2])}
            keys = ["slots", "changed", "down", "moved", "drained", "least"] if "least" in told else ["slots"]
            found.append({"type": "service", "service": service} | {key: told.get(key, 0) for key in keys})
        else:
            found.append(member(service, words))
    return found


def ordered(text):
    """The same of `plan --order`."""
    first, *lines = (line.split(" ") for line in text.splitlines())
    found = [head("plan"), {"type": "orders", "servers": int(first[1]), "orders": int(first[3]), "greedy": first[-1] == "greedy"}]
    return found + [{"type": "order", "moved": int(words[1]), "servers": words[2:]} for words in lines]
