#!/usr/bin/env python3
"""Draws the crates in their layers, and which uses which, into docs/house.svg.

A layer is a section of crates.txt, the lowest first, and a crate uses only crates that stand before it there. An arrow goes from
a crate down to one that it uses. One that another way leads to is left out. Examples, tests and benchmarks are named without
arrows: nothing stands on them. `house.py --check` fails where docs/house.svg is another picture, at an arrow that points up,
and at a crate without a layer. The last line is 'N passed, N failed'.
"""
import pathlib
import sys
import textwrap

TOP = pathlib.Path(__file__).resolve().parent.parent
sys.path.append(str(TOP / "bin"))
import build

PICTURE = TOP / "docs" / "house.svg"
NAMED = ("examples", "tests", "benchmarks")
LETTER, ROW, HEIGHT, GAP, LEFT, EDGE = 7.25, 54, 24, 12, 190, 14
WAY, SORTED = 9, 48

# Colours in the light and in the dark: words, words beside, a layer, a box and its line; and of the arrows to each layer.
INKS = {"ink": ("#1f2328", "#f0f6fc"), "soft": ("#59636e", "#9198a1"), "line": ("#8c959f", "#656c76")}
INKS |= {"band": ("#f6f8fa", "#151b23"), "box": ("#ffffff", "#0d1117")}
ARROWS = [("#0969da", "#4493f8"), ("#1a7f37", "#3fb950"), ("#bc4c00", "#f0883e"), ("#8250df", "#ab7df8"), ("#bf3989", "#f778ba"), ("#57606a", "#9198a1")]


class House:
    """The layers with their words and crates, and from each crate to those of the repository that it uses."""

    def __init__(self, text):
        self.layers, self.loose, self.uses = [], [], build.stands_on()
        for line in text.splitlines():
            head, colon, words = line.partition(":")
            if line.startswith("#"):
                self.layers.append((head.strip("# "), words.strip(), []))
            elif colon:
                (self.layers[-1][2] if self.layers else self.loose).append(head.split()[0])
        self.layer = {name: at for at, (_, _, names) in enumerate(self.layers) for name in names}

    def faults(self):
        """What is wrong with each crate and each arrow, None where nothing is."""
        places = {name: place for place, name in enumerate(self.uses)}
        for name in sorted({path.parent.name for path in (TOP / "crates").glob("*/src")} | set(self.loose)):
            yield None if name in self.layer else f"{name} has no layer in crates.txt"
        for name, others in self.uses.items():
            for other in others:
                yield f"{name} uses {other}, which comes after it in crates.txt: the arrow points up" if places[other] > places[name] else None

    def drawn(self):
        """The arrows that no other way replaces."""
        found = {}
        for head, _, names in self.layers:
            for name in names if head not in NAMED else []:
                longer = {far for other in self.uses[name] for far in build.needed(other, self.uses) if far != other}
                found[name] = [other for other in self.uses[name] if other not in longer]
        return found

    def rows(self):
        """From each crate to its row, the lowest first: the rows of a layer stand above those of the layer below."""
        found, base = {}, 0
        for head, _, names in self.layers:
            if head in NAMED:
                continue
            for name in names:
                found[name] = max([base, *(found[other] + 1 for other in self.uses[name] if self.layer[other] == self.layer[name])])
            base = max(found[name] for name in names) + 1
        return found


class Drawing:
    """Where the boxes stand, and the ways of arrows between the boxes of other rows: one way down to each crate, which all that
    use it from above share. A node is a crate, or a crate and a row that its way crosses."""

    def __init__(self, house):
        self.house, self.row, self.below = house, dict(house.rows()), {}
        for name, others in house.drawn().items():
            self.below[name] = [self.way(other, self.row[name] - 1) for other in others]
        self.lines = [[node for node in self.row if self.row[node] == at] for at in range(max(self.row.values()) + 1)]
        self.beside = {node: [] for node in self.row}
        for node, others in self.below.items():
            for other in others:
                self.beside[node].append(other)
                self.beside[other].append(node)
        self.x = {}
        self.place()

    def way(self, name, row):
        """The node at which what stands above a row comes to a crate's way."""
        if row <= self.row[name]:
            return name
        if (name, row) not in self.row:
            self.row[name, row] = row
            self.below[name, row] = [self.way(name, row - 1)]
        return name, row

    def width(self, node):
        return WAY if isinstance(node, tuple) else LETTER * len(node) + 18

    def place(self):
        """Nodes of a row are put in the order of what they are tied to, and moved towards it."""
        for line in self.lines:
            self.spread(line, {node: 400 for node in line})
        for turn in range(400):
            for line in self.lines if turn % 2 else reversed(self.lines):
                wanted = {node: self.middle(node, turn) for node in line}
                if turn < SORTED:
                    line.sort(key=wanted.get)
                self.spread(line, wanted)
        least = min(self.x[node] - self.width(node) / 2 for node in self.x)
        self.x = {node: round(x - least + LEFT + EDGE, 1) for node, x in self.x.items()}

    def middle(self, node, turn):
        """Where what a node is tied to stands: below it and above it in turns, and at last both. A way goes straight on."""
        if turn < SORTED:
            others = [other for other in self.beside[node] if (self.row[other] < self.row[node]) == (turn % 2 == 1)]
        else:
            others = self.beside[node]
        places = [self.x[other] for other in others for _ in range(8 if isinstance(node, tuple) and isinstance(other, tuple) else 1)]
        return sum(places) / len(places) if places else self.x[node]

    def spread(self, line, wanted):
        """Places of a row as near to the wanted ones as its order and its widths allow."""
        groups = []
        for node in line:
            groups.append(([node], [wanted[node]]))
            while len(groups) > 1 and self.end(groups[-2]) > self.start(groups[-1]):
                nodes, places = groups.pop()
                offset = self.length(groups[-1][0])
                groups[-1] = (groups[-1][0] + nodes, groups[-1][1] + [place - offset for place in places])
        for group in groups:
            at = self.start(group)
            for node in group[0]:
                self.x[node] = at + self.width(node) / 2
                at += self.width(node) + GAP

    def length(self, nodes):
        return sum(self.width(node) + GAP for node in nodes)

    def start(self, group):
        nodes, places = group
        return sum(places) / len(places) - self.width(nodes[0]) / 2

    def end(self, group):
        return self.start(group) + self.length(group[0])


def text(x, y, words, kind):
    return f'<text class="{kind}" x="{x:g}" y="{y:g}">{words}</text>'


def band(y, height, width, head, words):
    """A layer: its ground, its name, and what it is for."""
    drawn = [f'<rect class="band" x="{EDGE}" y="{y:g}" width="{width - 2 * EDGE:g}" height="{height:g}" rx="10"/>']
    drawn.append(text(EDGE + 12, y + 22, head, "title"))
    return drawn + [text(EDGE + 12, y + 40 + 15 * at, line, "soft") for at, line in enumerate(textwrap.wrap(words, 25))]


def arrows(drawing, top):
    """The arrows, each in the colour of the layer that it leads to."""
    drawn = []
    for node, others in drawing.below.items():
        for other in others:
            name = other[0] if isinstance(other, tuple) else other
            a, b, start, end = drawing.x[node], drawing.x[other], top(node) + HEIGHT, top(other)
            bend = (end - start) * 0.55
            way = f"M{a:g} {start:g} C{a:g} {start + bend:g} {b:g} {end - bend:g} {b:g} {end:g}"
            kind = f"to{drawing.house.layer[name] % len(ARROWS)}"
            if isinstance(other, tuple):
                drawn.append(f'<path class="{kind}" d="{way} V{end + HEIGHT:g}"/>')
            else:
                drawn.append(f'<path class="{kind}" d="{way}" marker-end="url(#{kind})"/>')
    return drawn


def boxes(drawing, top):
    drawn = []
    for node in drawing.row:
        if not isinstance(node, tuple):
            width = drawing.width(node)
            drawn.append(f'<rect class="box" x="{drawing.x[node] - width / 2:g}" y="{top(node):g}" width="{width:g}" height="{HEIGHT}" rx="5"/>')
            drawn.append(text(drawing.x[node], top(node) + 16.5, node, "name"))
    return drawn


def style():
    """Colours by what the reader's system prefers."""
    words = {"text": "font-family: system-ui, sans-serif", ".title": "font-size: 15px; font-weight: 600; fill: {ink}", ".soft": "font-size: 12px; fill: {soft}"}
    letters = "font-family: ui-monospace, Menlo, Consolas, 'DejaVu Sans Mono', monospace; font-size: 12px; fill: "
    words |= {".name": letters + "{ink}; text-anchor: middle", ".list": letters + "{soft}"}
    words |= {".band": "fill: {band}", ".box": "fill: {box}; stroke: {line}", "path": "fill: none; stroke-width: 1.4", "marker path": "stroke: none"}
    words |= {f".to{at}": f"stroke: {{{at}}}" for at in range(len(ARROWS))} | {f"#to{at} path": f"fill: {{{at}}}" for at in range(len(ARROWS))}
    lines = []
    for dark in (0, 1):
        rules = [f"{where} {{ {what} }}" for where, what in words.items() if not dark or "{" in what]
        for word, colours in [*INKS.items(), *enumerate(ARROWS)]:
            rules = [rule.replace(f"{{{word}}}", colours[dark]) for rule in rules]
        lines += ["@media (prefers-color-scheme: dark) {", *rules, "}"] if dark else rules
    return lines


def picture(house):
    drawing = Drawing(house)
    width = max(drawing.x[node] + drawing.width(node) / 2 for node in drawing.x) + 2 * EDGE
    parts, y, tops = [], EDGE, {}
    for head, words, names in reversed(house.layers):
        wide = textwrap.wrap(", ".join(names), int((width - LEFT - 3 * EDGE) / LETTER))
        rows = sorted({drawing.row[name] for name in names if name in drawing.row}, reverse=True)
        height = max(len(rows) * ROW, 48 + 15 * len(textwrap.wrap(words, 25)), 22 + 18 * len(wide) if head in NAMED else 0)
        parts += band(y, height, width, head, words)
        if head in NAMED:
            parts += [text(LEFT + EDGE, y + 24 + 18 * at, line, "list") for at, line in enumerate(wide)]
        for at, row in enumerate(rows):
            tops[row] = y + (height - len(rows) * ROW) / 2 + at * ROW + (ROW - HEIGHT) / 2
        y += height + 8

    def top(node):
        return tops[drawing.row[node]]

    sheet = f'<svg xmlns="http://www.w3.org/2000/svg" viewBox="0 0 {width:g} {y + EDGE:g}" width="{width:g}" height="{y + EDGE:g}" role="img">'
    point = '<marker id="to{0}" viewBox="0 0 8 8" refX="7" refY="4" markerWidth="6" markerHeight="6" orient="auto"><path d="M0 0 L8 4 L0 8 z"/></marker>'
    heads = [point.format(at) for at in range(len(ARROWS))]
    return "\n".join([sheet, "<title>The crates in their layers, and what each uses</title>", "<style>", *style(), "</style>", "<defs>", *heads, "</defs>",
                      *parts, *arrows(drawing, top), *boxes(drawing, top), "</svg>"]) + "\n"


def main(words):
    house = House((TOP / "crates.txt").read_text())
    found = list(house.faults())
    drawn = picture(house) if not any(found) else ""
    if "--check" in words and drawn:
        found.append(None if PICTURE.exists() and PICTURE.read_text() == drawn else "docs/house.svg is another picture: tools/house.py draws it")
    elif drawn:
        PICTURE.write_text(drawn)
    failed = [fault for fault in found if fault]
    print("".join(f"FAILED house: {fault}\n" for fault in failed) + f"{len(found) - len(failed)} passed, {len(failed)} failed")
    return 1 if failed else 0


if __name__ == "__main__":
    sys.exit(main(sys.argv[1:]))
