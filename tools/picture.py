#!/usr/bin/env python3
"""Writes the picture of what the program does, docs/picture-light.svg and docs/picture-dark.svg: the same drawing in two sets
of colours.
"""
import pathlib

DOCS = pathlib.Path(__file__).resolve().parent.parent / "docs"
# The colours of words, of what is less important, of lines, of boxes, and of what a packet that changes its server meets.
COLOURS = {
    "light": {"ink": "#1f2328", "soft": "#59636e", "line": "#8c959f", "box": "#f6f8fa", "hit": "#bc4c00", "good": "#0969da"},
    "dark": {"ink": "#f0f6fc", "soft": "#9198a1", "line": "#656c76", "box": "#151b23", "hit": "#f0883e", "good": "#4493f8"},
}
WIDTH, HEIGHT = 880, 340


def box(x, y, width, height, title, *lines):
    """A box with a title and lines below it."""
    drawn = [f'<rect class="box" x="{x}" y="{y}" width="{width}" height="{height}" rx="8"/>']
    drawn.append(text(x + width / 2, y + 22, title, "title"))
    return drawn + [text(x + width / 2, y + 42 + 17 * at, line, "soft") for at, line in enumerate(lines)]


def text(x, y, words, kind):
    return f'<text class="{kind}" x="{x:g}" y="{y:g}">{words}</text>'


def arrow(path, kind="line"):
    return f'<path class="{kind}" d="{path}" marker-end="url(#{kind})"/>'


def balancer(y, name, entry):
    """One balancer of the cluster, with what its connection table has of the flow."""
    return box(358, y, 176, 62, name, entry)


def drawing():
    """The parts of the picture, from the left to the right."""
    parts = box(16, 60, 184, 88, "scenario.toml", "balancers, servers,", "versions of the servers,", "and what happens when")
    parts += box(16, 200, 184, 72, "in.pcap", "packets of clients,", "Ethernet or raw IP")
    parts.append('<rect class="frame" x="244" y="28" width="306" height="284" rx="12"/>')
    parts.append(text(397, 50, "the cluster: one thread or many", "title"))
    parts += [text(292, 158, "spreader", "ink"), text(292, 176, "packet to", "soft"), text(292, 192, "balancer", "soft")]
    parts += balancer(66, "balancer 0", "has an entry: keeps A")
    parts += balancer(142, "balancer 1", "never saw it: table says C")
    parts.append(text(446, 246, "one table, by version", "ink"))
    slots = ["good", "good", "line", "hit", "good", "line", "good", "hit", "line", "good", "line"]
    parts += [f'<rect class="{kind} slot" x="{360 + 16 * at}" y="256" width="13" height="13"/>' for at, kind in enumerate(slots)]
    parts.append(text(446, 290, "each slot names an up server", "soft"))
    parts.append(arrow("M200 104 H242"))
    parts.append(arrow("M200 236 H222 V168 H250"))
    parts.append(arrow("M330 156 C345 150 338 98 356 98", "good"))
    parts.append(arrow("M330 164 C345 168 340 174 356 174", "hit"))
    parts += box(618, 28, 246, 72, "sent.pcap", "each packet in a GRE tunnel,", "from its balancer to its server")
    parts += box(618, 124, 246, 72, "report", "packets sent, and dropped why;", "which connections were split")
    parts += box(618, 220, 246, 92, "explain", "split slot 172", "version 1 A, version 2 C:", "the tables differ at that slot")
    parts.append(arrow("M534 97 C580 97 570 64 616 64", "good"))
    parts.append(arrow("M534 173 C580 173 570 160 616 160", "hit"))
    parts.append(arrow("M534 180 C590 190 560 266 616 266", "hit"))
    return parts


def picture(colours):
    """The picture in these colours."""
    style = "text { font-family: system-ui, -apple-system, 'Segoe UI', Helvetica, Arial, sans-serif; text-anchor: middle; }\n"
    style += "text.title { font-size: 15px; font-weight: 600; fill: ink; } text.ink { font-size: 14px; fill: ink; }\n"
    style += "text.soft { font-size: 13px; fill: soft; } .box { fill: box; stroke: line; }\n"
    style += ".frame { fill: none; stroke: line; stroke-dasharray: 5 4; } path { fill: none; stroke-width: 1.6; }\n"
    style += "path.line { stroke: line; } path.good { stroke: good; } path.hit { stroke: hit; }\n"
    style += ".slot { stroke: none; } .slot.line { fill: line; } .slot.good { fill: good; } .slot.hit { fill: hit; }"
    for word, colour in colours.items():
        style = style.replace(f": {word};", f": {colour};")
    head = f'<svg xmlns="http://www.w3.org/2000/svg" viewBox="0 0 {WIDTH} {HEIGHT}" width="{WIDTH}" height="{HEIGHT}" role="img">'
    title = "<title>A scenario and a capture go into the cluster; a capture, a report and explanations come out</title>"
    point = '<marker id="{}" viewBox="0 0 8 8" refX="7" refY="4" markerWidth="7" markerHeight="7" orient="auto">'
    heads = [point.format(kind) + f'<path d="M0 0 L8 4 L0 8 z" style="fill: {colours[kind]}"/></marker>' for kind in ("line", "good", "hit")]
    return "\n".join([head, title, f"<style>\n{style}\n</style>", "<defs>", *heads, "</defs>", *drawing(), "</svg>"]) + "\n"


for name, chosen in COLOURS.items():
    (DOCS / f"picture-{name}.svg").write_text(picture(chosen))
