#!/usr/bin/env python3
"""page.py: the page that share/maglev/report.py makes of what `--json` prints.

Its numbers are those of tests/model.py. Names with signs of HTML, other scripts, a million splits, shares of 300 versions and a plan
of 100,000 servers are drawn too. Where Chromium is installed it draws the page, without a network, light and dark, and the texts and
shapes are looked for in what it made. The last line is 'N passed, N failed'.
"""
import collections
import html.parser
import json
import re
import resource
import subprocess
import sys
import tempfile
import time
from pathlib import Path

import end_to_end as rows
import model
import objects
from end_to_end import run
from harness import TOP, check, run_tests

sys.path.append(str(TOP / "tools"))
import page_picture  # noqa: E402

TOOL = TOP / "share" / "maglev" / "report.py"


class Shape(html.parser.HTMLParser):
    """The texts of a page, how often each tag stands in it, and whether each that is opened is closed."""

    ALONE = {"meta", "rect"}

    def __init__(self, page):
        super().__init__()
        self.tags, self.open, self.texts, self.links, self.torn = {}, [], [], [], []
        self.feed(page)

    def handle_starttag(self, tag, attrs):
        self.tags[tag] = self.tags.get(tag, 0) + 1
        self.links += [value for name, value in attrs if name in ("src", "href")]
        if tag not in self.ALONE or tag == "rect":
            self.open.append(tag)

    def handle_endtag(self, tag):
        if not self.open or self.open.pop() != tag:
            self.torn.append(tag)

    def handle_data(self, data):
        self.texts.append(data)


def drawn(lines, folder):
    """The page of these lines, and what the tool said."""
    (folder / "in.jsonl").write_text(lines)
    done = subprocess.run([sys.executable, TOOL, "in.jsonl", "out.html"], cwd=folder, capture_output=True, text=True, timeout=600, check=False)
    return (folder / "out.html").read_text() if done.returncode == 0 else "", done


def page_of(name, lines):
    """The same, with its shape. It is whole, and asks for nothing."""
    with tempfile.TemporaryDirectory() as folder:
        page, done = drawn(lines, Path(folder))
    check(f"{name}: it is drawn", done.returncode == 0 and not done.stderr, done)
    shape = Shape(page)
    check(f"{name}: it is whole", not shape.torn and not shape.open, f"{shape.torn} {shape.open}")
    check(f"{name}: it asks for nothing", not shape.links and "http" not in page and "url(" not in page and "<script" not in page, shape.links)
    return page, shape


def rolling():
    """The example of a rollout, as the model plays it."""
    text, data, _ = rows.example("rolling", "rolling")
    return text, data, model.Run(text, data)


def lines_of_rolling():
    text, _, found = rolling()
    told = objects.simulated(found, "--list", "--where", "--summary")
    return objects.text_of(told + objects.planned(model.plan(text, 1, 2)) + objects.ordered(model.ordered(text, 1, 4)))


def shows_reasons(name, page, said):
    """A page has each reason for which connections changed their server by this summary, and how often, and no other."""
    for cause in model.CHANGES:
        count = int(said[f"changes {cause}"])
        check(f"{name}: {cause}", (f"<td>{cause}</td>" in page) == (count > 0) and (not count or f'<td class="count">{count:,}</td>' in page), count)


def test_numbers():
    """What a rollout's page shows is what the model counts."""
    _, _, found = rolling()
    page, shape = page_of("a rollout", lines_of_rolling())
    said = dict(objects.lines_of(found.summary()))
    for name, count in [("connections", said["connections"]), ("changed their server", said["changed"]), ("packets", len(found.records))]:
        check(f"a rollout: {name}", f"<b>{int(count):,}</b><span>{name}</span>" in page, count)
    shows_reasons("a rollout", page, said)
    sends = found.sends()
    servers = {"@".join(sent[3]) for sent in sends}
    check("a rollout: each server has a line", all(server in page for server in servers), servers)
    for part in ("Over time", "Each server's share", "Each balancer's share", "What the plan moves", "Orders of replacement"):
        check(f"a rollout: {part}", any(part in one for one in shape.texts), part)
    check("a rollout: two time lines", shape.tags.get("svg") == 2 and shape.tags["rect"] > 20, shape.tags)


def test_what_the_program_prints():
    """The page of what the program prints is that of the model's objects."""
    text, data, found = rolling()
    answer = rows.with_files(text, data, lambda folder: run(["simulate", "--json", "--list", "--where", "--summary", "s.toml", "in.pcap", "out.pcap"], cwd=folder))
    told = objects.text_of(objects.simulated(found, "--list", "--where", "--summary"))
    check("the program prints it", answer == (0, told.encode(), b""), answer[2])


AWKWARD = "<q>\"&'</q> \u05d0\u4e2d"


def awkward_names():
    """Objects whose texts have signs of HTML and other scripts."""
    send = {"event": 1, "version": 1, "backend": AWKWARD, "address": "10.8.0.1", "record": 0, "time": 1.5, "node": 0, "worker": 0}
    told = [{"type": "maglev", "version": 1, "command": AWKWARD}]
    told += [{"type": "split", "flow": AWKWARD, "client": AWKWARD, "slot": 1, "cause": "moved", "why": AWKWARD, "first": send, "later": send}]
    told += [{"type": "service", "service": AWKWARD, "slots": 7}]
    return told + [{"type": "member", "service": AWKWARD, "backend": AWKWARD, "address": "", "weight": 1, "slots": 7, "state": AWKWARD}]


def test_awkward_names():
    """Signs of HTML and other scripts are shown as they are."""
    _, shape = page_of("awkward names", "".join(json.dumps(one) + "\n" for one in awkward_names()))
    check("awkward names: no tag is made", "q" not in shape.tags and any(AWKWARD in text for text in "".join(shape.texts).split("\n")), shape.tags)


def test_what_is_unknown():
    """Later types and keys are left out; a line that is no object ends it with a word on standard error."""
    with tempfile.TemporaryDirectory() as folder:
        _, done = drawn("", Path(folder))
        made = (Path(folder) / "out.html").exists()
    check("nothing is no page", done.returncode == 1 and "says nothing" in done.stderr and not made, done)
    head = json.dumps({"type": "maglev", "version": 1, "command": "simulate"}) + "\n"
    _, shape = page_of("a report that is missing", head)
    check("a report that is missing: the page says so", any("The report is missing" in one for one in shape.texts), shape.texts)
    page_of("a later type", '{"type":"later"}\n{"type":"report"' + "".join(f',"{word}":0' for word in ("packets", "received", "forwarded", "waiting", "refused", "lost", "unrouted", "skipped", "left", "more")) + ',"cut":true,"dropped":{}}\n')
    late = '{"type":"event","event":0,"kind":"arrive","node":0,"record":0,"time":1e400,"bytes":1,"flow":"","outcome":"drop","cause":""}\n'
    for line in ("fault: BadKey\n", "[1]\n", '{"type":"split"}\n', "\n", late, '{"type":"maglev","version":2,"command":"run"}\n'):
        with tempfile.TemporaryDirectory() as folder:
            page, done = drawn('{"type":"maglev","version":1,"command":"run"}\n' + line, Path(folder))
        check(f"no object: {line!r}", done.returncode == 1 and not page and "line 2" in done.stderr and "Traceback" not in done.stderr, done)


def test_what_lacks_keys():
    """Objects without their keys, and bytes that are no text, end it with a word too."""
    shares = [("a backend", b'{"type":"backend","version":1,"backend":"A"}\n'), ("a node", b'{"type":"node","version":1,"node":0,"packets":"1","bytes":1,"flows":1}\n')]
    for name, data in [("a summary", b'{"type":"summary"}\n'), ("a report", b'{"type":"report","version":1}\n'), ("no text", b"\xd4\xc3\xb2\xa1\xff\n"), *shares]:
        with tempfile.TemporaryDirectory() as folder:
            (Path(folder) / "in.jsonl").write_bytes(data)
            done = subprocess.run([sys.executable, TOOL, "in.jsonl", "out.html"], cwd=folder, capture_output=True, text=True, timeout=60, check=False)
        check(f"no keys: {name}", done.returncode == 1 and "maglev --json" in done.stderr and "Traceback" not in done.stderr, done)


def backend(version, name, address, *counts):
    """The object of a backend's share, with its packets, bytes and flows."""
    return {"type": "backend", "version": version, "backend": name, "address": address} | dict(zip(("packets", "bytes", "flows"), counts))


def node(version, number, *counts):
    """The same of a node's."""
    return {"type": "node", "version": version, "node": number} | dict(zip(("packets", "bytes", "flows"), counts))


def shares_in(page):
    """The part of a page that has the shares."""
    return page[page.index("<h3>Each ") : page.index("<h3>Connections that") if "<h3>Connections that" in page else page.index("</body>")]


def cells_of(page):
    """The texts of each row of a page's tables."""
    found = [Shape(row.partition("</tr>")[0]).texts for row in page.split("<tr>")[1:]]
    return [cells for cells in found if cells]


def apart(page):
    """The tables of a page that have the first version beside the last, and the page without them."""
    found = ENDS.findall(page)
    return [cells_of(one) for one in found], ENDS.sub("", page)


HEADS = ["packets, share", "packets", "bytes", "bytes, share", "flows"]
ENDS = re.compile("<h4>from version .*?(?=<details>|<h[34]>|</body>|$)")


def test_shares_by_hand():
    """A run without a listing has the shares that its objects tell, those with the most packets first."""
    head = {"type": "maglev", "version": 1, "command": "run"}
    backends = [backend(1, "A", "10.8.0.1", 1, 300, 1), backend(1, "B", "10.8.0.2", 3, 700, 2), backend(12345, "B", "10.8.0.2", 1500, 60000, 1200)]
    nodes = [node(1, 0, 4, 1000, 3), node(12345, 0, 500, 20000, 400), node(12345, 1, 1000, 40000, 1000)]
    servers = [["server", *HEADS], ["B@10.8.0.2", "75.0 %", "3", "700", "70.0 %", "2"], ["A@10.8.0.1", "25.0 %", "1", "300", "30.0 %", "1"]]
    servers += [["server", *HEADS], ["B@10.8.0.2", "100.0 %", "1,500", "60,000", "100.0 %", "1,200"]]
    balancers = [["balancer", *HEADS], ["balancer 0", "100.0 %", "4", "1,000", "100.0 %", "3"], ["balancer", *HEADS]]
    balancers += [["balancer 1", "66.7 %", "1,000", "40,000", "66.7 %", "1,000"], ["balancer 0", "33.3 %", "500", "20,000", "33.3 %", "400"]]
    heads = ["first: version 1", "share", "packets", "flows", "last: version 12345", "share", "packets", "flows"]
    server_ends = [["server", *heads], ["B@10.8.0.2", "75.0 %", "3", "2", "100.0 %", "1,500", "1,200"], ["A@10.8.0.1", "25.0 %", "1", "1", "0.0 %", "0", "0"]]
    node_ends = [["balancer", *heads], ["balancer 1", "0.0 %", "0", "0", "66.7 %", "1,000", "1,000"], ["balancer 0", "100.0 %", "4", "3", "33.3 %", "500", "400"]]
    for name, told, expected in [("both", backends + nodes, servers + balancers), ("backends", backends, servers), ("nodes", nodes, balancers)]:
        page, shape = page_of(f"shares of {name}", objects.text_of([head, *told]))
        ends, page = apart(page)
        check(f"shares of {name}: first and last", ends == [one for kind, one in ((backends, server_ends), (nodes, node_ends)) if kind[0] in told], ends)
        check(f"shares of {name}: the rows", cells_of(page) == expected, cells_of(page))
        titles = [text for text in shape.texts if text.startswith(("Each ", "version "))]
        parts = [part for part, kind in (("Each server's share", backends), ("Each balancer's share", nodes)) if kind[0] in told]
        check(f"shares of {name}: the parts", titles == [title for part in parts for title in (part, "version 1", "version 12345")], titles)
        check(f"shares of {name}: what they are of, once", page.count("<p>Of all services") == 1 and page.count("<p>A flow counts in each row") == 1, page[-900:])
        check(f"shares of {name}: no time line", "svg" not in shape.tags and '<i class="one" style="width:100.0%">' in page, shape.tags)


def modelled(found, by_node):
    """The name, packets, bytes and flows of each share by the model, version by version, those with the most packets first."""
    told = [(version, -packets, f"balancer {key}" if by_node else "@".join(key), size, flows) for version, key, packets, size, flows in found.shares(by_node)]
    return [[name, f"{-packets:,}", f"{size:,}", f"{flows:,}"] for _, packets, name, size, flows in sorted(told)]


def modelled_ends(found, name, by_node):
    """The first version's shares beside the last's, by the model, and the same without flows."""
    told = collections.defaultdict(dict)
    for version, key, packets, _, flows in found.shares(by_node):
        told[f"balancer {key}" if by_node else "@".join(key)][version] = packets, flows
    ends = min(map(min, told.values())), max(map(max, told.values()))
    sums = [sum(of.get(version, (0, 0))[0] for of in told.values()) for version in ends]
    rows, bare = [[name]], [[name]]
    for place, version in enumerate(ends):
        rows[0] += [f"{('first', 'last')[place]}: version {version}", "share", "packets", "flows"]
        bare[0] += rows[0][-4:-1]
    for key in sorted(told, key=lambda key: (-sum(told[key].get(version, (0, 0))[0] for version in ends), key)):
        sides = [told[key].get(version, (0, 0)) for version in ends]
        cells = [[f"{100 * packets / whole:.1f} %", f"{packets:,}", f"{flows:,}"] for (packets, flows), whole in zip(sides, sums)]
        rows.append([key, *cells[0], *cells[1]])
        bare.append([key, *cells[0][:2], *cells[1][:2]])
    return rows, bare


def test_shares_of_a_rollout():
    """The objects' shares are the listing's, and those of flows beside them. Nothing is there twice, and without both there are none."""
    _, _, found = rolling()
    asked = ("--per-backend", "--per-node")
    words = {"the listing": ("--list",), "both": ("--list", *asked), "the objects": asked, "backends and the listing": ("--list", asked[0]), "neither": ()}
    pages = {name: page_of(f"a rollout by {name}", objects.text_of(objects.simulated(found, "--where", "--summary", *some)))[0] for name, some in words.items()}
    pages["a run"], _ = page_of("a rollout by a run", objects.text_of(objects.ran(found, "--where", *asked)))
    check("a rollout by neither: no shares", "share</h3>" not in pages["neither"] and "flows" not in pages["neither"])
    (listed, listing), (ends, both) = (apart(shares_in(pages[name])) for name in ("the listing", "both"))
    listing, both = cells_of(listing), cells_of(both)
    check("a rollout by both: the listing's numbers", [cells[:-1] for cells in both] == listing and len(both) > 20, both[:9])
    expected = modelled_ends(found, "server", False), modelled_ends(found, "balancer", True)
    check("a rollout by both: first and last", ends == [rows for rows, _ in expected] and ["0.0 %", "0", "0"] in [cells[1:4] for cells in ends[0]], ends)
    check("a rollout by the listing: first and last", listed == [rows for _, rows in expected], listed)
    check("a rollout by both: nothing twice", pages["both"].count("share</h3>") == 2, pages["both"].count("share</h3>"))
    check("a rollout by the objects: the same", shares_in(pages["the objects"]) == shares_in(pages["both"]))
    half = pages["backends and the listing"]
    place = [one.index("<h3>Each balancer's") for one in (half, pages["both"], pages["the listing"])]
    check("a rollout by backends and the listing: servers", half[: place[0]] == pages["both"][: place[1]])
    check("a rollout by backends and the listing: balancers", half[place[0] :] == pages["the listing"][place[2] :])
    told = [[cells[0], cells[2], cells[3], cells[5]] for cells in both if cells[-1] != "flows"]
    expected = modelled(found, False) + modelled(found, True)
    check("a rollout by both: the model's numbers", told == expected, f"{told} {expected}")
    expected = cells_of(shares_in(page_of("a run's shares", objects.text_of([objects.head("run"), *objects.behind(found.on_threads(), asked)]))[0]))
    check("a rollout by a run: its shares", cells_of(shares_in(pages["a run"])) == expected and len(expected) > 20, expected[:9])


def test_awkward_shares():
    """Signs of HTML in an address, a node or a version are shown as they are."""
    name = "<q>\"&'</q> \u05d0"
    told = [backend(name, name, name, 0, 0, 0), node(name, name, 1, 40, 1)]
    page, shape = page_of("awkward shares", objects.text_of(told))
    check("awkward shares: no tag is made", "q" not in shape.tags and "<q" not in page, shape.tags)
    for shown in (f"{name}@{name}", f"balancer {name}", f"version {name}"):
        check(f"awkward shares: {shown}", shown in "".join(shape.texts), shape.texts[-30:])


def test_first_and_last():
    """A server that is in another version alone stands there with zeros. Past 40 rows it is told how many more there are."""
    told = [backend(2, "A", "10.8.0.1", 3, 300, 1), backend(3, "C", "10.8.0.3", 9, 900, 2), backend(5, "B", "10.8.0.2", 1, 100, 1), backend(5, "D", "10.8.0.4", 1, 100, 1)]
    page, _ = page_of("four servers", objects.text_of(told))
    (found,), _ = apart(page)
    expected = [["A@10.8.0.1", "100.0 %", "3", "1", "0.0 %", "0", "0"], ["B@10.8.0.2", "0.0 %", "0", "0", "50.0 %", "1", "1"]]
    expected += [["D@10.8.0.4", "0.0 %", "0", "0", "50.0 %", "1", "1"], ["C@10.8.0.3", "0.0 %", "0", "0", "0.0 %", "0", "0"]]
    check("four servers: the others' place", "</table></div><details><summary>By version</summary><h4>version 2</h4>" in page, page[-900:])
    check("four servers: first and last", found[1:] == expected and found[0][1::4] == ["first: version 2", "last: version 5"], found)
    ends, _ = apart(page_of("one version", objects.text_of(told[:1]))[0])
    check("one version: nothing to compare", ends == [], ends)
    told = [node(version, place, version + place, 40, 1) for version in (1, 2) for place in range(45)]
    page, _ = page_of("45 nodes", objects.text_of(told))
    (found,), rest = apart(page)
    check("45 nodes: those with the most packets", [cells[0] for cells in found[1:]] == [f"balancer {place}" for place in range(44, 4, -1)], found)
    check("45 nodes: the others", (page.count("and 5 more"), rest.count("and 5 more")) == (3, 2), page.count("and 5 more"))


def test_shares_of_many():
    """Of 300 versions the first 39 and the last are drawn, each with 40 of its servers, though the last has 400,000. The sums are of all."""
    with tempfile.TemporaryDirectory() as folder:
        with open(f"{folder}/in.jsonl", "w", encoding="utf-8") as lines:
            lines.write('{"type":"maglev","version":1,"command":"run"}\n')
            for version in range(1, 301):
                for place in range(100 if version < 300 else 400_000):
                    lines.write(objects.text_of([backend(version, f"web-{place:06}", f"10.8.{version % 256}.1", 1 + place, 100, 1)]))
            for version in range(1, 301):
                lines.write(objects.text_of([node(version, place, 1, 40, 1) for place in range(100)]))
        before = resource.getrusage(resource.RUSAGE_CHILDREN).ru_maxrss
        done = subprocess.run([sys.executable, TOOL, "in.jsonl", "out.html"], cwd=folder, capture_output=True, timeout=600, check=False)
        page = (Path(folder) / "out.html").read_text() if done.returncode == 0 else ""
    most = resource.getrusage(resource.RUSAGE_CHILDREN).ru_maxrss
    check("shares of many: drawn", done.returncode == 0 and 0 < len(page) < 1_000_000, f"{done} {len(page)}")
    check("shares of many: little memory", most <= max(before, 100_000), f"{most} KB")
    titles = [text for text in Shape(page).texts if text.startswith("version ")]
    check("shares of many: versions", titles == 2 * [f"version {version}" for version in [*range(1, 40), 300]], titles)
    check("shares of many: the others", page.count("<p>and 260 more versions, before the last</p><h4>version 300<") == 2, page.count("versions,"))
    check("shares of many: too many to compare", page.count("<p>Not compared: there are more than 20,000 of them.</p>") == 1, page.count("Not compared"))
    ends, page = apart(page)
    check("shares of many: first and last", [len(rows) for rows in ends] == [0, 41] and ends[1][40][0] == "balancer 39", ends)
    counts = [page.count(text) for text in ("<tr>", "<p>and 60 more</p>", "<p>and 399,960 more</p>")]
    check("shares of many: rows", counts == [80 * 41, 79, 1], counts)
    greatest = ["web-000099@10.8.39.1", "2.0 %", "100", "100", "1.0 %", "1"], ["web-000060@10.8.39.1", "1.2 %", "61", "100", "1.0 %", "1"]
    found = cells_of(page)[38 * 41 : 40 * 41]
    check("shares of many: the greatest, of all", (found[1], found[40]) == greatest, found)
    check("shares of many: the last's", [found[place][0] for place in (42, 81)] == [f"web-{place}@10.8.44.1" for place in (399_999, 399_960)], found)


def test_commands_apart():
    """What two commands print isn't added up: each has a part of its own."""
    page, shape = page_of("two runs", 2 * lines_of_rolling())
    once, _ = page_of("one run", lines_of_rolling())
    body = once[once.index("<h2>") : once.index("</body>")]
    check("two runs: each has its part", page.count("<h2>") == 2 * once.count("<h2>") and page.count(body) == 2, page.count("<h2>"))
    check("two runs: a time line each", shape.tags.get("svg") == 4, shape.tags)
    fault = '{"type":"fault","fault":"BadKey","detail":"size, line 2"}\n'
    page, _ = page_of("a fault", fault)
    check("a fault is told", "fault: BadKey. size, line 2" in page, page[-300:])


def test_bins():
    """Bins are whole bins of a millisecond, so that an even stream is drawn even: 1,500 packets, ten each millisecond."""
    event = '{"type":"event","event":%d,"kind":"arrive","node":0,"record":%d,"time":%d.%06d,"bytes":40,"flow":"f","outcome":"placed","worker":0}\n'
    lines = "".join(event % (number, number, 1_700_000_000, 100 * number) for number in range(1500))
    page, _ = page_of("an even stream", '{"type":"maglev","version":1,"command":"simulate"}\n' + lines)
    check("an even stream: at most", "1,500, at most 20 in 0.002 s" in page, page[-600:])
    check("an even stream: its bars", page.count("<title>20</title>") == 75 and page.count("<rect") == 75, page.count("<rect"))
    # over a day bins are many seconds wide, and the line begins with the first packet all the same
    lines = "".join(event % (number, number, 1_700_000_015 + 9 * number, 250_000) for number in range(10_000))
    page, _ = page_of("a day", '{"type":"maglev","version":1,"command":"simulate"}\n' + lines)
    check("a day: it begins with the first packet", "0 s is 1700000015.250 s of" in page and "10,000, at most " in page, page[-900:])


def test_a_summary_alone():
    """The summary tells the reasons where no line of a change does."""
    _, _, found = rolling()
    said = dict(objects.lines_of(found.summary()))
    page, _ = page_of("a summary alone", objects.text_of(objects.simulated(found, "--summary")))
    shows_reasons("a summary alone", page, said)


def test_a_million_splits():
    """A million splits take seconds and little memory, and the page stays small."""
    send = '"version":1,"backend":"A","address":"10.8.0.1","record":%d,"time":%d.%06d,"node":0,"worker":0}'
    with tempfile.TemporaryDirectory() as folder:
        with open(f"{folder}/in.jsonl", "w", encoding="utf-8") as lines:
            lines.write('{"type":"maglev","version":1,"command":"simulate"}\n')
            for number in range(1_000_000):
                place = f'{{"event":{number},' + send % (number, number // 1000, number % 1000 * 1000)
                lines.write(f'{{"type":"split","flow":"tcp {number}","client":"c","slot":1,"cause":"moved","why":"node","first":{place},"later":{place}}}\n')
        start = time.monotonic()
        before = resource.getrusage(resource.RUSAGE_CHILDREN).ru_maxrss
        done = subprocess.run([sys.executable, TOOL, "in.jsonl", "out.html"], cwd=folder, capture_output=True, timeout=600, check=False)
        size = (Path(folder) / "out.html").stat().st_size if done.returncode == 0 else 0
    most = resource.getrusage(resource.RUSAGE_CHILDREN).ru_maxrss
    check("a million splits: drawn", done.returncode == 0 and 0 < size < 500_000, f"{done} {size}")
    check("a million splits: little memory", most <= max(before, 100_000), f"{most} KB")
    print(f"a million splits: {time.monotonic() - start:.1f} s, {size} bytes")


def test_a_great_plan():
    """Of a service's members and of a table's counts 500 are shown, and 40 services. It is told how many more there are."""
    with tempfile.TemporaryDirectory() as folder:
        with open(f"{folder}/in.jsonl", "w", encoding="utf-8") as lines:
            lines.write('{"type":"maglev","version":1,"command":"plan"}\n')
            for service in range(100):
                lines.write('{"type":"service","service":"%d","slots":65537}\n' % service)
                for place in range(1000):
                    lines.write('{"type":"member","service":"%d","backend":"s%d-%d","address":"","weight":1,"slots":1,"state":"up"}\n' % (service, service, place))
            lines.write('{"type":"maglev","version":1,"command":"table"}\n')
            for place in range(100_000):
                lines.write('{"type":"count","backend":"c%d","slots":1}\n' % place)
        done = subprocess.run([sys.executable, TOOL, "in.jsonl", "out.html"], cwd=folder, capture_output=True, timeout=600, check=False)
        page = (Path(folder) / "out.html").read_text() if done.returncode == 0 else ""
    check("a great plan: drawn", done.returncode == 0 and 0 < len(page) < 6_000_000, f"{done} {len(page)}")
    shown = [page.count(text) for text in ("<td>s", "<td>s39-499@", "<td>s39-500@", "<td>s40-", "<td>c", "<td>c499<", "<td>c500<")]
    check("a great plan: the rows", shown == [40 * 500, 1, 0, 0, 500, 1, 0], shown)
    more = [page.count(text) for text in ("<p>and 500 more</p>", "<p>and 60 more services</p>", "<p>and 99,500 more</p>")]
    check("a great plan: the others", more == [40, 1, 1], more)


def refused(name, data):
    """These lines are refused with a word and no page is left, also none of an earlier time that is emptied."""
    for before in (None, "a page"):
        with tempfile.TemporaryDirectory() as folder:
            out = Path(folder) / "out.html"
            (Path(folder) / "in.jsonl").write_bytes(data)
            if before:
                out.write_text(before)
            done = subprocess.run([sys.executable, TOOL, "in.jsonl", "out.html"], cwd=folder, capture_output=True, text=True, timeout=60, check=False)
            left = out.read_text() if out.exists() else None
        check(f"{name}: it is refused", done.returncode == 1 and "isn't of maglev --json" in done.stderr and "Traceback" not in done.stderr, done)
        check(f"{name}: nothing is written", left == before, left)


def test_what_cannot_be_read_or_written():
    """Lines that are nested too deeply, and half a surrogate pair, in a text that is shown or in one that isn't."""
    for depth in (2_000, 1_000_000):
        refused(f"{depth} brackets", b'{"type":"later","rest":' + depth * b"[" + depth * b"]" + b"}\n")
        refused(f"{depth} braces", depth * b'{"type":' + b"1" + depth * b"}" + b"\n")
    for half in (b"\\ud800", b"\\udfff x", b"\\udc00\\ud800"):
        refused(f"half a pair, {half.decode()}", b'{"type":"maglev","version":1,"command":"' + half + b'"}\n')
        refused(f"half a pair in a name, {half.decode()}", b'{"type":"backend","version":1,"backend":"' + half + b'","address":"a","packets":1,"bytes":1,"flows":1}\n')
    refused("a capture", bytes.fromhex("d4c3b2a1") + bytes(range(256)) * 64)
    with tempfile.TemporaryDirectory() as folder:
        text = '{"type":"maglev","version":1,"command":"plan"}\n'
        (Path(folder) / "in.jsonl").write_text(text)
        (Path(folder) / "link.html").symlink_to("in.jsonl")
        same, none = "OUT is the file of IN", "[Errno 2] No such file or directory: 'none.jsonl'"
        for files, told in [(["in.jsonl", out], same) for out in ("in.jsonl", "./in.jsonl", "link.html")] + [(["none.jsonl", "in.jsonl"], none)]:
            done = subprocess.run([sys.executable, TOOL, *files], cwd=folder, capture_output=True, text=True, timeout=60, check=False)
            said = (done.returncode, done.stderr, (Path(folder) / "in.jsonl").read_text())
            check(f"{' '.join(files)}: {told}", said == (1, f"report.py: {told}\n", text), said)
    page, _ = page_of("a whole pair", '{"type":"maglev","version":1,"command":"\\ud83d\\ude00"}\n')
    check("a whole pair: it is shown", "\U0001f600" in page, page[-80:])


def draws(quiet, folder):
    """Whether the browser draws a page of one word here."""
    Path(folder, "word.html").write_text("<p>word</p>")
    try:
        done = subprocess.run([*quiet, "--dump-dom", f"file://{folder}/word.html"], capture_output=True, text=True, timeout=120, check=False)
    except subprocess.TimeoutExpired:
        return False
    return "word" in done.stdout


def test_in_a_browser():
    """Chromium draws it, in both colours, and the page of awkward names."""
    with tempfile.TemporaryDirectory() as folder:
        quiet = page_picture.quietly(f"{folder}/profile")
        if not quiet:
            print("no Chromium is installed: no page is drawn")
            return
        if not draws(quiet, folder):
            print("Chromium draws no page here: none is drawn")
            return
        drawn(objects.text_of(awkward_names()), Path(folder))
        found = subprocess.run([*quiet, "--dump-dom", f"file://{folder}/out.html"], capture_output=True, text=True, timeout=300, check=False).stdout
        shape = Shape(found)
        check("a browser: awkward names", "q" not in shape.tags and shape.texts.count(AWKWARD) > 5, shape.texts)
        drawn(lines_of_rolling(), Path(folder))
        found = subprocess.run([*quiet, "--dump-dom", f"file://{folder}/out.html"], capture_output=True, text=True, timeout=300, check=False).stdout
        shape = Shape(found)
        check("a browser: texts", "changed their server" in found and "its server left" in found, found[:300])
        check("a browser: shapes", shape.tags.get("svg") == 2 and shape.tags.get("rect", 0) > 20, shape.tags)
        sizes = []
        for dark in (False, True):
            page_picture.draw(quiet, f"{folder}/out.html", f"{folder}/page.png", 1400, dark)
            picture = (Path(folder) / "page.png").read_bytes()
            sizes.append(len(picture))
            check(f"a browser: a picture, dark {dark}", picture[:4] == b"\x89PNG" and len(picture) > 20_000, len(picture))
        check("a browser: dark isn't light", sizes[0] != sizes[1], sizes)


if __name__ == "__main__":
    sys.exit(run_tests(globals()))
