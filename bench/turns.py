"""turns.py: what the scripts share that let two programs run in turns."""
import os
import statistics

HEAD = "old, s | new, s | old / new |\n|---|---|---|---|"
# The same of least times, and of the ratios of the turns.
PAIRED = "old, s | new, s | new / old | turn by turn |\n|---|---|---|---|---|"


class Failure(Exception):
    """What went wrong."""


def seed_of(script, words):
    """The seed that a script's last words are: 1 where there is none."""
    seed = words[0] if words else "1"
    if not seed.isdecimal() or int(seed) >= 1 << 32:
        raise Failure(f"{script}: SEED is a number below 2^32")
    return seed


def sides():
    """The turns, each with the side that runs: 0 is the old one. Who is first changes from turn to turn."""
    for turn in range(max(7, int(os.environ.get("TURNS", "7")))):
        for side in (0, 1) if turn % 2 == 0 else (1, 0):
            yield turn, side


def row(name, before, after):
    """The row of the seconds of all turns."""
    one, other = statistics.median(before), statistics.median(after)
    return f"| {name} | {one:.3f} | {other:.3f} | {one / other:.2f} |"


def paired_row(name, before, after):
    """The row of the least seconds of all turns, and of the median of what the new one takes of the old one in each turn."""
    each = statistics.median(new / old for old, new in zip(before, after))
    return f"| {name} | {min(before):.3f} | {min(after):.3f} | {min(after) / min(before):.2f} | {each:.2f} |"
