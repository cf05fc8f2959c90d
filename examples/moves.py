#!/usr/bin/env python3
"""Draws which slots and flows a change moved: moves.py COMPARED SPLIT V1 V2 OUT.

COMPARED has what `maglev compare` printed of the members of versions V1 and V2, SPLIT what `maglev simulate --splits` printed.
OUT is an SVG picture, which a browser shows: a square for each slot of the table, coloured where its backend changed, and on it
a dot for each split of a flow of that slot whose choices were made under V1 and V2. Every dot stands on a coloured square: two
packets of one flow go to different backends only by tables that differ at its slot.
"""
import re
import sys

SIDE, COLUMNS, TOP = 15, 64, 84
SPLIT = re.compile(r"split .* slot (?P<slot>\d+) version (?P<one>\d+) \S+ version (?P<other>\d+) \S+ (?P<cause>down|moved)")
KEPT, LEFT, MOVED = "#e8e8e8", "#f4b6b0", "#b9d3f0"
DOTS = {"down": "#b3261e", "moved": "#1a56a8"}


def compared(text):
    """How many slots there are, and for each that changed its backends."""
    head, *lines = text.splitlines()
    return int(head.split()[1]), {int(slot): (old, new) for slot, old, new in (line.split() for line in lines)}


def splits(text, versions):
    """The slot and the cause of each split between these two versions."""
    lines = filter(None, map(SPLIT.fullmatch, text.splitlines()))
    return [(int(line["slot"]), line["cause"]) for line in lines if {int(line["one"]), int(line["other"])} == versions]


def colour(slot, changed, gone):
    """A slot's colour: it kept its backend, its backend took over none, or it moved though its backend took over others."""
    if slot not in changed:
        return KEPT
    return LEFT if changed[slot][0] in gone else MOVED


def place(slot):
    return slot % COLUMNS * SIDE, TOP + slot // COLUMNS * SIDE


def squares(size, changed, gone):
    for slot in range(size):
        across, down = place(slot)
        words = f"slot {slot}" + (": {} before, {} after".format(*changed[slot]) if slot in changed else "")
        fill = colour(slot, changed, gone)
        yield f'<rect x="{across}" y="{down}" width="{SIDE - 1}" height="{SIDE - 1}" fill="{fill}"><title>{words}</title></rect>'


def dots(found):
    """The dots of a slot's flows stand beside one another."""
    seen = {}
    for slot, cause in found:
        nth = seen[slot] = seen.get(slot, -1) + 1
        across, down = place(slot)
        middle = across + 3 + nth * 4 % 12, down + 4 + nth // 3 * 4 % 12
        yield f'<circle cx="{middle[0]}" cy="{middle[1]}" r="2" fill="{DOTS[cause]}"/>'


def words(row, fill, shape, text):
    """A line of the legend."""
    mark = f'<rect x="0" y="{row - 10}" width="12" height="12" fill="{fill}"/>'
    if shape == "dot":
        mark = f'<circle cx="6" cy="{row - 4}" r="3" fill="{fill}"/>'
    return f'{mark}<text x="20" y="{row}">{text}</text>'


def drawn(size, changed, found):
    gone = {old for old, _ in changed.values()} - {new for _, new in changed.values()}
    left = sum(old in gone for old, _ in changed.values())
    causes = [cause for _, cause in found]
    rows = -(-size // COLUMNS)
    parts = [
        f'<svg xmlns="http://www.w3.org/2000/svg" width="{COLUMNS * SIDE}" height="{TOP + rows * SIDE}" font-family="sans-serif" font-size="12">',
        '<rect width="100%" height="100%" fill="white"/>',
        words(14, LEFT, "square", f"{left} of {size} slots: their backend is gone"),
        words(32, MOVED, "square", f"{len(changed) - left} slots moved though their backend stayed"),
        words(50, DOTS["down"], "dot", f"{causes.count('down')} splits: the first backend was down"),
        words(68, DOTS["moved"], "dot", f"{causes.count('moved')} splits: it was up, and the flow moved"),
        *squares(size, changed, gone),
        *dots(found),
        "</svg>",
    ]
    return "\n".join(parts) + "\n"


def main():
    before, split, one, other, out = sys.argv[1:]
    with open(before) as compare, open(split) as report:
        size, changed = compared(compare.read())
        found = splits(report.read(), {int(one), int(other)})
    with open(out, "w") as file:
        file.write(drawn(size, changed, found))


if __name__ == "__main__":
    main()
