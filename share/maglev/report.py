#!/usr/bin/env python3
"""report.py IN.jsonl OUT.html: a page for people, of what `maglev .. --json` printed.

IN has the lines of one command or of several, one after another, and each has a part of the page. `simulate --json --list --where
--per-backend --per-node --summary` gives all that the page can show of a run, `plan --json` what a change of versions moves. The page
is one file, which asks nothing of the network. IN is read once, line by line, so that a run of any length fits into memory. `-` is
standard input or standard output.
"""
import collections
import html
import json
import os
import sys

# The version of the objects; the most rows of a table of splits, of a plan's or of an answer's, and of any other, which is how many
# versions have their shares too; and the most servers of which the first version is compared with the last.
VERSION, MOST_SPLITS, MOST_ROWS, MOST_NAMES = 1, 500, 40, 20_000
# The types of which a command prints one object.
WHOLE = ("report", "summary", "splits", "audit", "orders", "table", "compare", "fault")
# The most places of a time line, and the width and height of a drawing.
MOST_BINS, WIDTH, HEIGHT = 120, 960, 150
# What comes of lines that no command prints. A line of a thousand brackets is too deep to be read.
NOT_TOLD = (ValueError, KeyError, TypeError, AttributeError, OverflowError, RecursionError)
WHY = {
    "down": "its server left",
    "drained": "its server left, and a version before drains it",
    "node": "it came to another balancer",
    "restart": "the balancer was restarted",
    "worker": "it came to another worker",
    "idle": "its entry was idle for too long",
    "evicted": "its entry had been pushed out",
    "moved": "its server was still up",
}

STYLE = """
:root { --paper: #fcfcfb; --ink: #1d2129; --faint: #6b7280; --rule: #dfe1e5; --one: #2b6cb0; --two: #c2571a; --card: #ffffff }
@media (prefers-color-scheme: dark) {
  :root { --paper: #14171c; --ink: #e7e9ec; --faint: #9aa2ae; --rule: #2d323a; --one: #6fb1f0; --two: #f0965a; --card: #1b1f26 }
}
* { box-sizing: border-box }
body { margin: 0 auto; max-width: 1040px; padding: 24px 20px 60px; background: var(--paper); color: var(--ink);
  font: 15px/1.5 system-ui, sans-serif }
h1 { font-size: 24px; margin: 0 0 4px } h2 { font-size: 20px; margin: 30px 0 6px }
h3 { font-size: 17px; margin: 30px 0 8px } h4 { font-size: 14px; margin: 16px 0 4px }
p { margin: 4px 0 10px; color: var(--faint) } summary { margin: 8px 0; color: var(--faint); cursor: pointer }
.facts { display: flex; flex-wrap: wrap; gap: 10px; margin: 14px 0 }
.fact { background: var(--card); border: 1px solid var(--rule); border-radius: 8px; padding: 8px 14px; min-width: 116px }
.fact b { display: block; font-size: 21px; font-variant-numeric: tabular-nums } .fact span { color: var(--faint); font-size: 13px }
svg { width: 100%; height: auto; background: var(--card); border: 1px solid var(--rule); border-radius: 8px }
svg text { fill: var(--faint); font: 12px system-ui, sans-serif } .one { fill: var(--one) } .two { fill: var(--two) }
.scroll { overflow-x: auto } table { border-collapse: collapse; width: 100%; font-variant-numeric: tabular-nums }
th, td { text-align: left; padding: 4px 10px 4px 0; border-bottom: 1px solid var(--rule); white-space: nowrap }
th { color: var(--faint); font-weight: 500; font-size: 13px } td.count, th.count { text-align: right }
td.bar { width: 34%; min-width: 120px } td.bar i { display: block; height: 11px; border-radius: 3px; background: var(--one) }
td.bar i.two { background: var(--two) }
"""


class Bins:
    """Counts over time. Bins get wider as time goes on, so that there are never many."""

    def __init__(self):
        self.width, self.counts, self.first = 1_000, collections.Counter(), None

    def note(self, micros):
        self.first = micros if self.first is None else min(self.first, micros)
        self.counts[micros // self.width] += 1
        if len(self.counts) > 64 * MOST_BINS:
            self.widen(self.width * 2)

    def widen(self, width):
        """Makes bins of a width that is a multiple of today's."""
        wider = collections.Counter()
        for place, count in self.counts.items():
            wider[place * self.width // width] += count
        self.width, self.counts = width, wider

    def ends(self):
        return (self.first, (max(self.counts) + 1) * self.width) if self.counts else (0, 0)

    def over(self, first, last):
        """The counts of up to MOST_BINS bins between two times, and their width: so many whole bins of those here."""
        wide = self.width * max(1, -(-(last - first) // (self.width * MOST_BINS)))
        found = [0] * max(1, -(-(last - first) // wide))
        for place, count in self.counts.items():
            # a bin may begin before the first time that stands in it
            found[max(0, (place * self.width - first) // wide)] += count
        return found, wide


class Ranked:
    """Rows, each a key, its packets, its bytes, and maybe its flows. Of all of them the sums are kept, and those with the most packets."""

    def __init__(self):
        self.rows, self.count, self.packets, self.size = [], 0, 0, 0

    def note(self, one):
        self.count += 1
        self.packets += one[1]
        self.size += one[2]
        self.rows.append(one)
        if len(self.rows) > 2 * MOST_ROWS:
            self.rows = self.most()

    def most(self):
        return sorted(self.rows, key=lambda each: (-each[1], each[0]))[:MOST_ROWS]


class Shares:
    """The rows of each version. Versions ascend; where they are many the first are kept, and the last. Of these two all rows are kept
    by their keys, and the keys of all versions, while they aren't too many."""

    def __init__(self):
        self.versions, self.count = {}, 0
        self.keys, self.first, self.last = set(), {}, {}

    def note(self, version, one):
        if version not in self.versions:
            if len(self.versions) == MOST_ROWS:
                self.versions.popitem()
            self.versions[version] = Ranked()
            self.count += 1
            self.last = self.first if self.count == 1 else {}
        self.versions[version].note(one)
        if len(self.keys) <= MOST_NAMES:
            self.keys.add(one[0])
            self.last[one[0]] = one[1:]

    def ends(self):
        """Of each key what it has under the first version, and under the last. That may be nothing."""
        none = [0] * max(map(len, [*self.first.values(), *self.last.values()]))
        found = [(key, [*self.first.get(key, none)], [*self.last.get(key, none)]) for key in self.keys]
        return sorted(found, key=lambda each: (-each[1][0] - each[2][0], each[0]))


class Service:
    """A service of a plan, with the first of its members."""

    def __init__(self, one):
        self.one, self.members, self.count = one, [], 0

    def note(self, member):
        self.count += 1
        if len(self.members) < MOST_SPLITS:
            self.members.append(member)


def micros_of(time):
    """A time in seconds, as `json` gives it, in whole microseconds."""
    return round(time * 1_000_000)


def seconds(micros):
    """So many microseconds, in seconds."""
    return f"{micros / 1_000_000:,.6f}".rstrip("0").rstrip(".") + " s"


class Told:
    """What the lines of one command tell."""

    def __init__(self, command):
        self.command = command
        # the objects that come once, by their type
        self.whole = {}
        self.packets, self.changes = Bins(), Bins()
        # of each balancer the records that wait there, each with its bytes, and how often
        self.waiting = collections.defaultdict(dict)
        # what the listing has sent: packets and bytes by version and server, and by version and balancer
        self.servers, self.nodes = collections.defaultdict(lambda: [0, 0]), collections.defaultdict(lambda: [0, 0])
        # what the objects of shares tell of the same
        self.server_shares, self.node_shares = Shares(), Shares()
        self.splits, self.split_count, self.why = [], 0, collections.Counter()
        self.services, self.service_count, self.ways = [], 0, []
        # what is said of a table, a comparison, a datagram or two packets
        self.rows, self.row_count = [], 0

    def note(self, one):
        """Takes one object. What it doesn't know it leaves out, since later versions may tell more."""
        if one["type"] in WHOLE:
            self.whole[one["type"]] = one
        known = getattr(self, f"note_{one['type']}", None)
        if known:
            known(one)

    def note_event(self, one):
        if one["kind"] == "arrive" and "time" in one:
            self.packets.note(micros_of(one["time"]))
            if one["outcome"] == "placed":
                _, times = self.waiting[one["node"]].get(one["record"], (0, 0))
                self.waiting[one["node"]][one["record"]] = one["bytes"], times + 1
        elif one["kind"] == "serve" and "record" in one:
            size = self.served(one["node"], one["record"])
            if one["outcome"] == "forward":
                self.sent(one, size)
        elif one["outcome"] == "restarted":
            self.waiting[one["node"]].clear()

    def served(self, node, record):
        """A record's bytes. It waits once fewer at this balancer."""
        size, times = self.waiting[node].pop(record, (0, 1))
        if times > 1:
            self.waiting[node][record] = size, times - 1
        return size

    def sent(self, one, size):
        for counts in (self.servers[one["version"], server_of(one)], self.nodes[one["version"], one["node"]]):
            counts[0] += 1
            counts[1] += size

    def note_backend(self, one):
        self.server_shares.note(one["version"], (server_of(one), one["packets"], one["bytes"], one["flows"]))

    def note_node(self, one):
        self.node_shares.note(one["version"], (one["node"], one["packets"], one["bytes"], one["flows"]))

    def note_split(self, one):
        self.split_count += 1
        self.why[one.get("why", one["cause"])] += 1
        if "time" in one["later"]:
            self.changes.note(micros_of(one["later"]["time"]))
        if len(self.splits) < MOST_SPLITS:
            self.splits.append(one)

    def note_service(self, one):
        self.service_count += 1
        if len(self.services) < MOST_ROWS:
            self.services.append(Service(one))

    def note_member(self, one):
        if self.services and self.service_count == len(self.services):
            self.services[-1].note(one)

    def note_order(self, one):
        if len(self.ways) < MOST_ROWS:
            self.ways.append(one)

    def note_row(self, *cells):
        self.row_count += 1
        if len(self.rows) < MOST_SPLITS:
            self.rows.append(cells)

    def note_count(self, one):
        self.note_row(one["backend"], one["slots"])

    def note_slot(self, one):
        if "old" in one:
            self.note_row(one["slot"], *(server_of(one[word]) if one[word] else "nobody" for word in ("old", "new")))

    def note_pick(self, one):
        self.note_row(one["flow"], one["backend"])

    def note_drop(self, one):
        self.note_row("dropped", one["cause"])

    def note_explain(self, one):
        self.note_row("verdict", one["verdict"])
        for word in ("first", "later"):
            if word in one:
                self.note_row(word, f"version {one[word]['version']}, {server_of(one[word])}")


def server_of(one):
    return f"{one['backend']}@{one['address']}"


def text(value):
    """A value as the page's text."""
    return html.escape(f"{value:,}" if isinstance(value, int) else str(value))


def fact(name, value):
    return f'<div class="fact"><b>{text(value)}</b><span>{text(name)}</span></div>'


def facts(pairs):
    return f'<div class="facts">{"".join(fact(name, value) for name, value in pairs)}</div>'


def share(part, whole):
    return f"{100 * part / whole:.1f} %" if whole else "0 %"


def row(cells, tag="td"):
    """A row of a table. A cell is a value, or a pair of a class and markup."""
    found = []
    for cell in cells:
        if isinstance(cell, tuple):
            found.append(f'<{tag} class="{cell[0]}">{cell[1]}</{tag}>')
        else:
            found.append(f"<{tag}>{text(cell)}</{tag}>" if not isinstance(cell, int) else f'<{tag} class="count">{text(cell)}</{tag}>')
    return f"<tr>{''.join(found)}</tr>"


def table(heads, rows):
    return f'<div class="scroll"><table>{row(heads, "th")}{"".join(rows)}</table></div>'


def bar(part, most, kind="one"):
    return "bar", f'<i class="{kind}" style="width:{100 * part / most if most else 0:.1f}%"></i>'


def count_head(name):
    return "count", text(name)


# the parts of the page


def time_line(name, kind, bins, first, last):
    """How often something came, over time."""
    counts, wide = bins.over(first, last)
    most, step = max(counts) or 1, WIDTH / len(counts)
    tall = HEIGHT - 36
    marks = [
        f'<rect class="{kind}" x="{place * step:.1f}" y="{HEIGHT - 20 - tall * count / most:.1f}" width="{max(step - 1, 0.5):.1f}" '
        f'height="{tall * count / most:.1f}"><title>{text(count)}</title></rect>'
        for place, count in enumerate(counts)
        if count
    ]
    said = f"{name}: {sum(counts):,}, at most {max(counts):,} in {seconds(wide)}"
    return (
        f'<svg viewBox="0 0 {WIDTH} {HEIGHT}" role="img" aria-label="{text(said)}"><text x="6" y="13">{text(said)}</text>{"".join(marks)}'
        f'<text x="6" y="{HEIGHT - 5}">0 s</text><text x="{WIDTH - 6}" y="{HEIGHT - 5}" text-anchor="end">{seconds(last - first)}</text></svg>'
    )


def over_time(told):
    drawn = [("datagrams that came to a balancer", "one", told.packets), ("changes of a connection's server", "two", told.changes)]
    drawn = [each for each in drawn if each[2].counts]
    if not drawn:
        return ""
    ends = [each[2].ends() for each in drawn]
    first, last = min(end[0] for end in ends), max(end[1] for end in ends)
    lines = "<p></p>".join(time_line(*each, first, last) for each in drawn)
    return f"<h3>Over time</h3><p>0 s is {first / 1_000_000:.3f} s of the times in the table of connections.</p>{lines}"


def more_of(shown, count, of=""):
    return f"<p>and {count - shown:,} more{of}</p>" if count > shown else ""


def listed(counts):
    """The shares of what the listing has sent."""
    found = Shares()
    for version, key in sorted(counts):
        found.note(version, (key, *counts[version, key]))
    return found


def ranked_of(name, version, found, words):
    """A version's shares, those with the most packets first."""
    most = found.most()
    rows = [
        row([words(key), bar(sent, most[0][1]), ("count", share(sent, found.packets)), sent, size, ("count", share(size, found.size)), *flows])
        for key, sent, size, *flows in most
    ]
    heads = [name, ("bar", ""), count_head("packets, share"), count_head("packets"), count_head("bytes"), count_head("bytes, share")]
    heads += [count_head("flows")] if len(most[0]) > 3 else []
    return f"<h4>{text(f'version {version}')}</h4>{table(heads, rows)}{more_of(len(rows), found.count)}"


def side_of(counts, most, packets, kind):
    """The cells of a server's share under one version."""
    return [bar(counts[0], most, kind), ("count", share(counts[0], packets)), counts[0], *counts[2:]]


def ends_of(name, found, words):
    """The first version's shares beside the last's, with a row for each server of any version."""
    first, *_, last = found.versions
    title = f"<h4>{text(f'from version {first} to version {last}')}</h4>"
    if len(found.keys) > MOST_NAMES:
        return f"{title}<p>Not compared: there are more than {MOST_NAMES:,} of them.</p>"
    ends = found.ends()
    most = max(max(before[0], after[0]) for _, before, after in ends)
    sums = found.versions[first].packets, found.versions[last].packets
    rows = [
        row([words(key), *side_of(before, most, sums[0], "two"), *side_of(after, most, sums[1], "one")])
        for key, before, after in ends[:MOST_ROWS]
    ]
    flows = [count_head("flows")] if len(ends[0][1]) > 2 else []
    heads = [[("bar", text(each)), count_head("share"), count_head("packets"), *flows] for each in (f"first: version {first}", f"last: version {last}")]
    return f"{title}{table([name, *heads[0], *heads[1]], rows)}{more_of(len(rows), len(ends))}"


def shares_of(name, found, words):
    """The first version beside the last, and each version's shares, one version after another, for those who open them."""
    parts = [ranked_of(name, version, each, words) for version, each in found.versions.items()]
    if found.count > len(parts):
        parts.insert(len(parts) - 1, f"<p>and {found.count - len(parts):,} more versions, before the last</p>")
    drawn = "".join(parts)
    return drawn if found.count < 2 else f"{ends_of(name, found, words)}<details><summary>By version</summary>{drawn}</details>"


def shares(told):
    """Each server's share and each balancer's, by the objects that tell it, and else by the listing."""
    servers = told.server_shares if told.server_shares.count else listed(told.servers)
    nodes = told.node_shares if told.node_shares.count else listed(told.nodes)
    said = "<p>Of all services together, by the version under which packets were served.</p>"
    if told.server_shares.count or told.node_shares.count:
        said += "<p>A flow counts in each row that has packets of it. With --syn it may be several connections, and is counted once.</p>"
    drawn = []
    for name, found, words in [("server", servers, str), ("balancer", nodes, lambda node: f"balancer {node}")]:
        if found.count:
            drawn.append(f"<h3>Each {name}'s share</h3>{'' if drawn else said}{shares_of(name, found, words)}")
    return "".join(drawn)


def reasons(told):
    """Why connections changed their server, by their lines, and else by the summary."""
    why = told.why or collections.Counter({word: count for word, count in told.whole.get("summary", {}).get("why", {}).items() if count})
    if not why:
        return ""
    most = max(why.values())
    rows = [row([word, WHY.get(word, ""), bar(count, most, "two"), count]) for word, count in why.most_common()]
    heads = ["reason", "what happened", ("bar", ""), count_head("changes")]
    return f"<h3>Why connections changed their server</h3>{table(heads, rows)}"


def split_row(one, placed):
    first, later = one["first"], one["later"]
    found = [one["flow"], server_of(first), server_of(later), one.get("why", one["cause"])]
    if placed:
        found += [f"{send['node']}/{send['worker']}" for send in (first, later)]
        found += [f"{later['time']:.6f}", f"{first['record']}", f"{later['record']}"]
    return row(found)


def splits(told):
    if not told.splits:
        return ""
    placed = all("time" in one["later"] for one in told.splits)
    heads = ["connection", "from", "to", "reason"]
    heads += ["first at balancer/worker", "later at", "later time, s", "first record", "later record"] if placed else []
    rows = [split_row(one, placed) for one in told.splits]
    return f"<h3>Connections that changed their server</h3>{table(heads, rows)}{more_of(len(rows), told.split_count)}"


def planned_of(told):
    service, members = told.one, told.members
    counts = [(name, service[name]) for name in ("slots", "changed", "down", "moved", "drained", "least") if name in service]
    after = "after" if "least" in service else "slots"
    most = max([member[after] for member in members] + [member.get("before", 0) for member in members], default=0)
    rows = []
    for member in members:
        before = [bar(member["before"], most, "two"), member["before"]] if "before" in member else []
        rows.append(row([server_of(member), member["weight"], *before, bar(member[after], most), member[after], member["state"]]))
    heads = ["server", count_head("weight")]
    heads += [("bar", "before"), count_head("slots")] if "least" in service else []
    heads += [("bar", "after" if "least" in service else ""), count_head("slots"), "state"]
    return f"<h4>{text(service['service'])}</h4>{facts(counts)}{table(heads, rows)}{more_of(len(rows), told.count)}"


def plans(told):
    if not told.services:
        return ""
    moves = any("least" in service.one for service in told.services)
    drawn = "".join(map(planned_of, told.services))
    more = more_of(len(told.services), told.service_count, " services")
    return f"<h3>What the plan {'moves' if moves else 'shows'}</h3>{drawn}{more}"


def orders(told):
    found = told.whole.get("orders")
    if not found:
        return ""
    rows = [row([one["moved"], " ".join(one["servers"])]) for one in told.ways]
    said = "<p>One of many: each step moves the fewest.</p>" if found["greedy"] else ""
    shown = table([count_head("slots moved"), "servers"], rows)
    return f"<h3>Orders of replacement</h3>{said}{shown}{more_of(len(rows), found['orders'])}"


def answers(told):
    """What is said of a table, a comparison, a datagram or two packets."""
    found = told.whole.get("table") or told.whole.get("compare") or {}
    counts = [(word, count) for word, count in found.items() if word != "type"]
    shown = f'<div class="scroll"><table>{"".join(map(row, told.rows))}</table></div>' if told.rows else ""
    return (facts(counts) if counts else "") + shown + more_of(len(told.rows), told.row_count)


def totals(told):
    """The report and the summary, in a few numbers. What isn't as it mostly is has a number where there is some of it."""
    found = []
    report, summary, flows, audit = (told.whole.get(name) for name in ("report", "summary", "splits", "audit"))
    if report:
        found += [(name, report[name]) for name in ("packets", "received", "forwarded", "waiting", "refused")]
        found += [(name, report[name]) for name in ("lost", "unrouted", "skipped", "left") if report[name]]
        found += [("capture", "cut off in a record")] if report["cut"] else []
        found += [(f"dropped: {cause}", count) for cause, count in report["dropped"].items() if count]
    if summary:
        found += [("connections", summary["connections"]), ("changed their server", summary["changed"])]
        found += [("of all connections", share(summary["changed"], summary["connections"]))]
    elif flows:
        found += [("flows", flows["flows"]), ("splits", flows["split"])]
    if audit:
        found.append(("audit", "agrees" if audit["agrees"] else "differs"))
    return facts(found) if found else ""


def notes(told):
    """What has to be known of what a command told."""
    found = []
    if told.command in ("simulate", "run") and not {"report", "fault"} & told.whole.keys():
        found.append("The report is missing: what was told ends before it.")
    if told.command == "run" and "splits" in told.whole:
        found.append("Threads decide what is sent first. Changes are in the order of the run's history, balancer by balancer, and not of time.")
    return "".join(f"<p>{note}</p>" for note in found)


def part(told):
    """What one command told."""
    found = told.whole.get("fault")
    fault = f"<p>fault: {text(found['fault'])}. {text(found['detail'] or '')}</p>" if found else ""
    drawn = [notes(told), totals(told), over_time(told), reasons(told), shares(told), splits(told), plans(told), orders(told), answers(told)]
    return f"<h2>{text(told.command)}</h2>{fault}{''.join(drawn)}"


def page(commands):
    """The page's markup."""
    head = f'<meta charset="utf-8"><meta name="viewport" content="width=device-width"><title>maglev</title><style>{STYLE}</style>'
    parts = "".join(part(told) for told in commands)
    return f'<!doctype html><html lang="en"><head>{head}</head><body><h1>maglev</h1>{parts}</body></html>\n'


def told_by(lines):
    """What these lines tell, command by command. Each begins with an object that names it."""
    commands = []
    for number, line in enumerate(lines, 1):
        try:
            one = json.loads(line)
            if one["type"] == "maglev" and one["version"] != VERSION:
                sys.exit(f"report.py: line {number}: this reads version {VERSION} of the objects, and this is version {one['version']}")
            if one["type"] == "maglev" or not commands:
                commands.append(Told(one.get("command", "")))
            commands[-1].note(one)
        except NOT_TOLD as fault:
            sys.exit(f"report.py: line {number} isn't of maglev --json: {fault}")
    return commands


def opened(path, mode, stream):
    return stream if path == "-" else open(path, mode, encoding=None if "b" in mode else "utf-8")


def main(words):
    if len(words) != 2 or words[0] in ("-h", "--help"):
        print(__doc__.strip())
        return 0 if words[:1] in (["-h"], ["--help"]) else 2
    if "-" not in words and all(map(os.path.exists, words)) and os.path.samefile(*words):
        sys.exit("report.py: OUT is the file of IN")
    try:
        with opened(words[0], "r", sys.stdin) as lines:
            commands = told_by(lines)
        if not commands:
            sys.exit(f"report.py: {words[0]} says nothing: the command before it may have failed")
        # as bytes before anything is opened: a text may have half a surrogate pair, which is no text of UTF-8
        drawn = page(commands).encode()
        with opened(words[1], "wb", sys.stdout.buffer) as out:
            out.write(drawn)
    except OSError as fault:
        sys.exit(f"report.py: {fault}")
    except UnicodeDecodeError:
        sys.exit(f"report.py: {words[0]} isn't of maglev --json: it is no text of UTF-8")
    except NOT_TOLD as fault:
        sys.exit(f"report.py: {words[0]} isn't of maglev --json: {fault!r}")
    return 0


if __name__ == "__main__":
    sys.exit(main(sys.argv[1:]))
