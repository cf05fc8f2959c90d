#!/usr/bin/env python3
"""json_lines.py [FIRST COUNT]: what `--json` prints.

Each command's objects, of so many random scenarios, 300 in the gate, are those of tests/objects.py, to the byte. They are read
back by Python's `json`, and their facts are those of the plain text. Some rows are worked out by hand. The last line is
'N passed, N failed'.
"""
import json
import random
import sys

import end_to_end as rows
import format_three
import model
import objects
from end_to_end import ALL, B_DOWN, HEAD, TCP, capture, run, scenario, simulates, with_files
from harness import check, run_tests

FIRST, COUNT = (int(word) for word in sys.argv[1:3]) if len(sys.argv) > 2 else (0, 300)


def read_back(text):
    """The objects of a text, each line by Python's reader."""
    return [json.loads(line) for line in text.splitlines()]


# The numbers behind each kind of event in a plain line.
BEHIND = {"install": ["node", "version"], "arrive": ["node", "record"], "serve": ["node", "worker", "version"], "restart": ["node"]}
# What stands behind an outcome there.
REST = {"placed": ["worker"], "restarted": ["lost"], "drop": ["cause"], "refused": ["reason"]}


def server_of(one):
    return f"{one['backend']}@{one['address']}"


def event_line(one):
    """The plain line of an event."""
    rest = [server_of(one), "from", one["chosen"]] if one["outcome"] == "forward" else [one[key] for key in REST.get(one["outcome"], [])]
    numbers = [one[key] for key in BEHIND[one["kind"]]]
    return f"{' '.join(map(str, [one['event'], one['kind'], *numbers]))}: {' '.join(map(str, [one['outcome'], *rest]))}\n"


def halves_of(one):
    return " ".join(f"version {half['version']} {server_of(half)}" for half in (one["first"], one["later"]))


def split_line(one):
    """The plain line of a split, with where both packets were sent, if the object has that."""
    first, later = one["first"], one["later"]
    at = [f"{send['record']} {send['time']:.6f} {send['node']} {send['worker']}" for send in (first, later) if "why" in one]
    behind = f" at {' '.join(at)} {one['why']}" if at else ""
    client = one["flow"].split(" ")[1].split(":")[0]
    check(f"a client is its flow's source: {one['flow']}", one["client"] == client, one)
    return f"split {one['flow']} events {first['event']} {later['event']} slot {one['slot']} {halves_of(one)} {one['cause']}{behind}\n"


def counted(one, words):
    return "".join(f"{word} {one[word]}\n" for word in words)


def plain_line(one):
    """The plain lines of an object, but that none is left out where nothing drains."""
    kind = one["type"]
    if kind == "event":
        return event_line(one)
    if kind == "split":
        return split_line(one)
    if kind == "splits":
        return counted(one, ["flows", "split", "down", "moved", "drained"])
    if kind == "report":
        drops = "".join(f"drop {cause} {count}\n" for cause, count in one["dropped"].items() if count)
        whole = one | {"cut": "yes" if one["cut"] else "no"}
        words = ["packets", "lost", "unrouted", "skipped", "left", "cut", "received", "forwarded"]
        return counted(whole, words) + drops + counted(one, ["waiting", "refused"])
    if kind in ("backend", "node"):
        who = f"backend {server_of(one)}" if kind == "backend" else f"node {one['node']}"
        return f"{who} version {one['version']} packets {one['packets']} bytes {one['bytes']} flows {one['flows']}\n"
    if kind == "summary":
        return counted(one, ["connections", "changed", "changes"]) + "".join(f"changes {cause} {count}\n" for cause, count in one["why"].items())
    if kind == "explain":
        behind = f" slot {one['slot']} {halves_of(one)}{' drained' if one['drained'] else ''}" if one["verdict"] == "split" else ""
        return f"{one['verdict']}{behind}\n"
    return {"maglev": "", "audit": "audit agrees\n" if one.get("agrees") else "audit differs\n"}[kind]


def says(name, printed, expected):
    """What was printed, read back, says what the model's plain lines do."""
    found = "".join(map(plain_line, read_back(printed.decode())))
    check(f"{name}: read back", found == expected, f"{found!r} {expected!r}")


def plain_splits(run, options):
    """The model's lines of splits with these options, also that of drained ones where no member drains."""
    if not {"--splits", "--where"} & set(options):
        return ""
    return run.splits("--where" in options) + ("" if run.drains() else "drained 0\n")


def plain_behind(run, options):
    """The model's lines behind a report."""
    shares = [run.taken(option == "--per-node") for option in ("--per-backend", "--per-node") if option in options]
    return "".join(shares) + (run.summary() if "--summary" in options else "")


def prints(name, words, expected, text=None, stdin=b""):
    """A command prints these objects, and each line is read back."""
    answer = with_files(text, None, lambda folder: run(words, stdin=stdin, cwd=folder))
    check(name, answer == (0, objects.text_of(expected).encode(), b""), f"{answer} {objects.text_of(expected)!r}")
    if answer[0] == 0:
        check(f"{name}: read back", [one["type"] for one in read_back(answer[1].decode())] == [one["type"] for one in expected], answer)


def test_by_hand():
    """One run's objects, each written out."""
    text = scenario(["install 0 1", "install 1 2", "take 2"])
    expected = (
        '{"type":"maglev","version":1,"command":"simulate"}\n'
        '{"type":"event","event":0,"kind":"install","node":0,"version":1,"outcome":"installed"}\n'
        '{"type":"event","event":1,"kind":"install","node":1,"version":2,"outcome":"installed"}\n'
        '{"type":"event","event":2,"kind":"arrive","node":0,"record":0,"time":1.999999,"bytes":40,'
        '"flow":"tcp 10.0.0.1:1006>192.0.2.1:80","outcome":"placed","worker":0}\n'
        '{"type":"event","event":3,"kind":"serve","node":0,"worker":0,"version":1,"outcome":"forward","record":0,'
        '"flow":"tcp 10.0.0.1:1006>192.0.2.1:80","backend":"A","address":"10.8.0.1","chosen":1}\n'
        '{"type":"event","event":4,"kind":"arrive","node":1,"record":1,"time":1.999999,"bytes":40,'
        '"flow":"tcp 10.0.0.1:1006>192.0.2.1:80","outcome":"placed","worker":0}\n'
        '{"type":"event","event":5,"kind":"serve","node":1,"worker":0,"version":2,"outcome":"forward","record":1,'
        '"flow":"tcp 10.0.0.1:1006>192.0.2.1:80","backend":"C","address":"10.8.0.3","chosen":2}\n'
        '{"type":"split","flow":"tcp 10.0.0.1:1006>192.0.2.1:80","client":"10.0.0.1","slot":5,"cause":"moved","why":"node",'
        '"first":{"event":3,"version":1,"backend":"A","address":"10.8.0.1","record":0,"time":1.999999,"node":0,"worker":0},'
        '"later":{"event":5,"version":2,"backend":"C","address":"10.8.0.3","record":1,"time":1.999999,"node":1,"worker":0}}\n'
        '{"type":"splits","flows":1,"split":1,"down":0,"moved":1,"drained":0}\n'
        '{"type":"report","packets":2,"lost":0,"unrouted":0,"skipped":0,"left":0,"cut":false,"received":2,"forwarded":2,'
        '"dropped":{"NotIpv4":0,"Truncated":0,"BadHeader":0,"BadChecksum":0,"Fragment":0,"NotTcpUdp":0,"BadTransport":0,'
        '"TooLarge":0,"NoService":0,"NoBackend":0,"NoVersion":0,"RingsFull":0,"LostAtRestart":0},"waiting":0,"refused":0}\n'
        '{"type":"backend","version":1,"backend":"A","address":"10.8.0.1","packets":1,"bytes":40,"flows":1}\n'
        '{"type":"backend","version":2,"backend":"C","address":"10.8.0.3","packets":1,"bytes":40,"flows":1}\n'
        '{"type":"node","version":1,"node":0,"packets":1,"bytes":40,"flows":1}\n'
        '{"type":"node","version":2,"node":1,"packets":1,"bytes":40,"flows":1}\n'
        '{"type":"summary","connections":1,"changed":1,"changes":1,'
        '"why":{"down":0,"drained":0,"node":1,"restart":0,"worker":0,"idle":0,"evicted":0}}\n'
    )
    simulates("one run, by hand", text, capture("xx"), expected, words=["--json", "--list", "--where", "--per-backend", "--per-node", "--summary"])
    found = model.Run(text, capture("xx"))
    check("the model says so", objects.text_of(objects.simulated(found, "--list", "--where", "--per-backend", "--per-node", "--summary")) == expected)


def test_against_the_model():
    """What random scenarios print is what the plain model says, and adds up."""
    for seed in range(FIRST, FIRST + COUNT):
        if seed % 2:
            source, text, data = format_three.random_case(40_000 + seed)
        else:
            text, data, _ = rows.idle_case(40_000 + seed)
            source = random.Random(seed)
        expected = model.Run(text, data)
        options = source.sample(["--list", "--splits", "--where", "--per-backend", "--per-node", "--summary"], source.randrange(7))
        printed = objects.text_of(objects.simulated(expected, *options))
        status, out, err, made = rows.simulated(text, data, ["--json", *options])
        check(f"scenario {seed} {options}", (status, out, err) == (0, printed.encode(), b""), f"{status} {out!r} {err!r}")
        check(f"scenario {seed} {options}, what is written", made == expected.output(), repr(made))
        lines = (expected.listing() if "--list" in options else "") + plain_splits(expected, options)
        says(f"scenario {seed} {options}", out, lines + expected.report() + plain_behind(expected, options))


def test_explained():
    """`explain` says the same of two events."""
    for seed in range(60):
        source, text, data = format_three.random_case(50_000 + seed)
        expected = model.Run(text, data)
        sends = [place for place, (_, outcome, _) in enumerate(expected.events) if outcome.startswith("forward")]
        pairs = [(first[0], later[0]) for first, later in expected.pairs()][:3]
        pairs += [(source.choice(sends), source.choice(sends))] if sends else [(0, 1)]
        for one, other in pairs:
            words = ["explain", "--json", "s.toml", "in.pcap", str(one), str(other)]
            answer = with_files(text, data, lambda folder, words=words: run(words, cwd=folder))
            told = objects.text_of(objects.explained(expected, one, other))
            check(f"explain {seed} {one} {other}", answer == (0, told.encode(), b""), f"{answer} {told!r}")
            says(f"explain {seed} {one} {other}", answer[1], expected.explained(one, other))
        one, other = source.randrange(len(expected.events)), source.randrange(len(expected.events) + 2)
        words = ["explain", "--json", "--list", "s.toml", "in.pcap", str(one), str(other)]
        answer = with_files(text, data, lambda folder, words=words: run(words, cwd=folder))
        told = objects.text_of(objects.explained(expected, one, other, "--list"))
        check(f"explain --list {seed} {one} {other}", answer == (0, told.encode(), b""), f"{answer} {told!r}")
        lines = expected.listing().splitlines(True)
        listed = "".join(lines[place] for place in sorted({one, other}) if place < len(lines))
        says(f"explain --list {seed} {one} {other}", answer[1], listed + expected.explained(one, other))


def test_on_threads():
    """`run` says it in the order of its history."""
    for seed in range(40):
        source = random.Random(60_000 + seed)
        text, data = rows.random_scenario(source, ("", "*2"), rows.steps_by_lives, 20), rows.random_capture(source)
        options = source.sample(["--splits", "--where", "--per-backend", "--per-node", "--summary"], source.randrange(6))
        expected = model.Run(text, data)
        told = objects.text_of(objects.ran(expected, *options)).encode()
        answer = rows.ran(text, data, ["--json", *options])
        check(f"run {seed} {options}", answer[:3] == (0, told, b""), f"{answer} {told!r}")
        history = expected.on_threads()
        lines = plain_splits(history, options) + expected.report() + "audit agrees\n" + plain_behind(history, options)
        says(f"run {seed} {options}", answer[1], lines)


def test_tables():
    """`table`, `pick`, `compare` and `plan`, by names and over scenarios."""
    of_names = ["--size", "7", "--hash", "sum", "A", "B", "C"]
    _, plain, _ = run(["table", *of_names])
    prints("table", ["table", "--json", *of_names], objects.tabled(plain.decode()))
    _, plain, _ = run(["pick", *of_names], stdin=TCP.encode())
    prints("pick", ["pick", "--json", *of_names], objects.picked(plain.decode()), stdin=TCP.encode())
    prints("pick: a drop", ["pick", "--json", *of_names], [objects.head("pick"), {"type": "drop", "cause": "Truncated"}], stdin=TCP.encode()[:50])
    moved = ["--size", "7", "--hash", "sum", "--old", " ".join(ALL), "--new", " ".join(B_DOWN)]
    _, plain, _ = run(["compare", *moved])
    prints("compare", ["compare", "--json", *moved], objects.compared(plain.decode()))
    for seed in range(60):
        source, text, _ = format_three.random_case(70_000 + seed)
        expected = model.Run(text, HEAD)
        first, second = (source.choice(sorted(expected.versions)) for _ in range(2))
        over = ["--json", "--scenario", "s.toml"]
        for service in expected.versions[first]:
            words = ["table", *over, "--version", str(first), "--service", service]
            prints(f"table {seed} {service}", words, objects.tabled(model.table_of(text, first, service)), text)
            words = ["compare", *over, "--from", str(first), "--to", str(second), "--service", service]
            prints(f"compare {seed} {service}", words, objects.compared(model.compared(text, first, second, service)), text)
        if expected.scenario["scheme"] == "maglev":
            data = format_three.random_packet(source)
            words = ["pick", *over, "--version", str(first)]
            prints(f"pick {seed}", words, objects.picked(model.picked(text, first, data)), text, data.hex().encode())
        words = ["plan", "--json", "s.toml", str(first)]
        prints(f"plan {seed}", words, objects.planned(model.planned(text, first)), text)
        prints(f"plan {seed} both", [*words, str(second)], objects.planned(model.plan(text, first, second)), text)
        words = ["plan", "--json", "--order", "s.toml", str(first), str(second)]
        prints(f"orders {seed}", words, objects.ordered(model.ordered(text, first, second)), text)


def test_faults():
    """A fault is an object with its name and with what `-v` says of it; so is a warning. The status is the same."""
    good = scenario(["install 0 1", "take 1"])
    play = ["s.toml", "in.pcap", "out.pcap"]
    for name, text, words in [
        ("no TOML", "format = ", ["simulate", *play]),
        ("a key", good.replace("size = 7", "size = 8"), ["simulate", *play]),
        ("a key of run", good.replace("size = 7", "size = \"\\u00e9\\\\\""), ["run", *play]),
        ("a member", good.replace("A@", "A/"), ["explain", "s.toml", "in.pcap", "0", "1"]),
        ("a double name", good.replace("B@", "A@"), ["plan", "s.toml", "1"]),
        ("a step", scenario(["install 0 1", "take x"]), ["simulate", *play]),
        ("no input", good, ["simulate", "s.toml", "none.pcap", "out.pcap"]),
        ("a name", good, ["table", "--size", "7", "--hash", "sum", "A", "B!"]),
        ("a size", good, ["pick", "--size", "8", "--hash", "sum", "A"]),
        ("members", good, ["compare", "--size", "7", "--hash", "sum", "--old", "A@10.8.0.1", "--new", "A"]),
        ("no version", good, ["table", "--scenario", "s.toml", "--version", "9"]),
    ]:
        plain = with_files(text, capture("x"), lambda folder, words=words: run([words[0], "-v", *words[1:]], cwd=folder))
        told = plain[2].decode().splitlines()
        answer = with_files(text, capture("x"), lambda folder, words=words: run([words[0], "--json", *words[1:]], cwd=folder))
        check(f"{name}: the fault is told in lines", plain[0] == 1 and told[0].startswith("fault: ") and len(told) == 2, plain)
        found = read_back(answer[2].decode())
        expected = [{"type": "fault", "fault": told[0].removeprefix("fault: "), "detail": told[1]}]
        check(f"{name}: and as an object", (answer[0], answer[1], found) == (1, b"", expected), f"{answer} {expected}")
    short = scenario(["take 1"])
    plain = with_files(short, capture("xx"), lambda folder: run(["simulate", "-v", *play], cwd=folder))
    answer = with_files(short, capture("xx"), lambda folder: run(["simulate", "--json", "-v", *play], cwd=folder))
    expected = [{"type": "warning", "detail": line.removeprefix("warning: ")} for line in plain[2].decode().splitlines()]
    check("warnings are objects", len(expected) > 1 and (answer[0], read_back(answer[2].decode())) == (0, expected), f"{answer} {expected}")


def test_shares():
    """`--fail-above` ends with 3 where a greater share of the connections changed their server, and prints the summary."""
    apart = scenario(["install 0 1", "install 1 2", "take 4"])
    found = model.Run(apart, capture("xxyz"))
    changed, connections = (int(dict(objects.lines_of(found.summary()))[word]) for word in ("changed", "connections"))
    check("one of three changed", (changed, connections) == (1, 3), found.summary())
    lines = found.report() + found.summary()
    above = "warning: 1 of 3 connections changed their server: --fail-above wants fewer\n"
    for share, status in [("0", 3), ("0.333333", 3), ("0.3", 3), ("0.333334", 0), ("0.5", 0), ("1", 0), ("1.0", 0)]:
        answer = rows.simulated(apart, capture("xxyz"), ["--fail-above", share])
        said = above if status else ""
        check(f"above {share}", answer[:3] == (status, lines.encode(), said.encode()), answer)
        check(f"above {share}, by the rule", rows.judged(lines, round(float(share) * 1_000_000)) == ([said[9:-1]] * (said != ""), status), share)
    none = rows.simulated(scenario(["take 1"]), capture("x"), ["--fail-above", "0"])
    warned = b"warning: of 1 packets 1 got no server: --fail-above doesn't count them\n"
    warned += b"warning: nothing was sent, so that --fail-above had nothing to judge\n"
    check("no connection is no share", (none[0], none[2]) == (0, warned), none)
    told = objects.text_of([*objects.ran(found, "--summary")])
    answer = rows.ran(apart, capture("xxyz"), ["--json", "--fail-above", "0"])
    said = objects.text_of([{"type": "warning", "detail": above[9:-1]}])
    check("above on threads", answer[:3] == (3, told.encode(), said.encode()), f"{answer} {told}")
    for word in ("", "2", "1.1", "-0.1", ".5", "0.1234567", "0,5", "a", "1e-1"):
        answer = rows.simulated(apart, capture("x"), [f"--fail-above={word}"])
        check(f"no share: {word!r}", answer[0] == 2 and answer[1] == b"" and answer[2].startswith(b"error: "), answer)


def test_what_a_share_leaves_out():
    """`--fail-above` tells what connections don't count: packets that no server got, records that came to no balancer, events that
    were refused, a run without connections. Where `-v` tells some of these it tells each once."""
    gone = (ALL, B_DOWN, [])
    for name, steps, versions, letters in [
        ("no version", ["take 1"], (ALL,), "x"),
        ("a service without a server", ["live 0", "install 0 1", "take 2", "install 0 3", "take 2"], gone, "yzyz"),
        ("no service", ["live 0", "install 0 1", "take 3"], (ALL,), "xww"),
        ("a version that isn't there", ["live 0", "install 0 1", "take 1", "install 0 22", "take 1"], (ALL,), "xx"),
        ("one that isn't newer", ["live 0", "install 0 2", "install 0 1", "install 0 2", "take 2"], (ALL, B_DOWN), "xy"),
        ("all workers full", ["live 0", "install 0 1", "full 0 0", "take 2"], (ALL,), "xy"),
        ("what waited at a restart", ["live 0", "install 0 1", "hold 0", "take 2", "restart 0", "take 1"], (ALL,), "xyz"),
        ("what no balancer got", ["live 0", "install 0 1", "take 1", "live", "take 2"], (ALL,), "xyz"),
        ("what no step reads", ["live 0", "install 0 1", "take 1"], (ALL,), "xyz"),
        ("what waits at the end", ["live 0", "install 0 1", "take 1", "hold 0", "take 1"], (ALL,), "xy"),
        ("what can't be read", ["live 0", "install 0 1", "take 3"], (ALL,), "xvv"),
        ("both, and a change", ["live 0", "install 0 1", "take 1", "restart 0", "install 0 1", "install 0 2", "take 2"], (ALL, B_DOWN), "xxw"),
    ]:
        text, data = scenario(steps, versions), capture(letters)
        run_of = model.Run(text, data)
        lines, status = rows.judged(run_of.report() + run_of.summary(), 0)
        answer = rows.simulated(text, data, ["--fail-above", "0"])
        check(f"left out: {name}", lines and answer[::2] == (status, "".join(f"warning: {line}\n" for line in lines).encode()), f"{answer} {lines}")
        answer = rows.simulated(text, data, ["--json", "--fail-above", "0"])
        wanted = objects.text_of([{"type": "warning", "detail": line} for line in lines])
        check(f"left out, as objects: {name}", answer[::2] == (status, wanted.encode()), f"{answer} {wanted}")
        said = rows.simulated(text, data, ["-v", "--fail-above", "0"])[2].decode()
        check(f"left out, each line once with -v: {name}", all(said.count(line) == 1 for line in lines), f"{said} {lines}")


if __name__ == "__main__":
    sys.exit(run_tests(globals()))
