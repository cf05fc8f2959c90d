#!/usr/bin/env python3
"""kept_records.py: of a long capture `run` keeps only the records that its steps take, also where a step is by time.

The capture has 400,000 records of which the first hundred come in the first second. What a run takes of memory is held to what
the same run by count takes, and a tenth more. The reports are worked out by hand, and by tests/model.py where a capture is
shorter. And of packets that are all sent, by a paced run, it keeps at most 200 bytes beside each record. The last line is 'N passed, N failed'.
"""
import sys

import model
from harness import check, run_tests
from hostile import P, head, measured, record, scenario

# The most bytes that `run` keeps of a packet beside its record.
MOST = 200
# How often that is measured again: on a busy machine four nodes' threads take 159 to 209 bytes, by how they are run.
TURNS = 8
# So many records in all, and in the first second. The next ones come half a second later, one a millisecond.
COUNT, EARLY = 400_000, 100


def times():
    """When each record came, in microseconds: a hundred in the first second, and one a millisecond from a second and a half on."""
    yield from (1_000_000 + place * 10_000 for place in range(EARLY))
    yield from (2_500_000 + place * 1_000 for place in range(COUNT - EARLY))


CAPTURE = head() + b"".join(record(P, at=at) for at in times())


def steps_text(*steps):
    """A scenario of these steps behind the first version."""
    return scenario(["install 0 1", *steps], format=3, ring=65536)


def report(packets, taken, lost=0):
    """The lines of a run's report where so many of the records were taken, and others lost."""
    counts = {"packets": packets, "lost": lost, "unrouted": 0, "skipped": 0, "left": packets - taken - lost, "cut": "no"}
    counts |= {"received": taken, "forwarded": taken, "waiting": 0, "refused": 0}
    return [f"{word} {count}" for word, count in counts.items()]


def plays(name, steps, taken, lost=0):
    """`run` and `simulate` report that so many records are taken, and as many are left as there are beside. Gives the kilobytes that
    `run` took."""
    text = steps_text(*steps)
    done, lines, kilobytes, _ = measured(text, CAPTURE, "run --pace")
    check(f"{name}: run", done and lines == [*report(COUNT, taken, lost), "audit agrees"], repr(lines)[:500])
    done, lines, _, _ = measured(text, CAPTURE)
    check(f"{name}: simulate", done and lines == report(COUNT, taken, lost), repr(lines)[:500])
    return kilobytes


def takes_no_more(name, kilobytes, most):
    """A run took at most a tenth more than another one."""
    print(f"{name}: {kilobytes} kB, by count {most} kB")
    check(f"{name}: memory", kilobytes <= 1.1 * most, f"{kilobytes} kB, by count {most} kB")


def bytes_a_packet(nodes):
    """What the second half of a capture adds to what `run` takes, beside the bytes of its records, for each of them."""
    addresses = [f"10.9.0.{node + 1}" for node in range(nodes)]
    text = scenario(["install * 1", "take *"], format=3, ring=65536, nodes=str(addresses))
    took = []
    for count in COUNT // 2, COUNT:
        data = CAPTURE[:len(head()) + count * len(record(P))]
        done, lines, kilobytes, _ = measured(text, data, "run --pace")
        check(f"{count} records, {nodes} nodes", done and lines == [*report(count, count), "audit agrees"], repr(lines)[:500])
        took.append(kilobytes)
    kept = (took[1] - took[0]) * 1024 / (COUNT // 2) - len(record(P))
    print(f"{nodes} nodes: {kept:.0f} bytes a packet")
    return kept


def test_bytes_a_packet():
    """It is at most MOST. A run that takes more is measured again."""
    for nodes in 1, 4:
        held = any(bytes_a_packet(nodes) <= MOST for _ in range(TURNS))
        check(f"bytes a packet, {nodes} nodes", held, f"more than {MOST} in each of {TURNS} turns")


def test_first_second():
    """A step by time ends with the first second, and a record too late for it is there."""
    most = plays("take 100", ["take 100"], EARLY)
    takes_no_more("until 1", plays("until 1", ["until 1"], EARLY), most)


def test_several():
    """Steps by time with steps by count between: up to half a second 50 records, then ten that are taken and five that are lost, then
    those up to a second and a half, and last three more. Two steps by time of which the later one ends earlier take nothing more."""
    steps = ["until 0.5", "take 10", "lose 5", "until 1.5", "until 0.2", "take 3"]
    most = plays("by count", ["take 50", "take 10", "lose 5", "take 35", "take 3"], 98, 5)
    takes_no_more("several", plays("several", steps, 98, 5), most)


def test_through_at_the_last():
    """A step by time that no record ends takes all. Where a step behind one takes as many as are left or more, the two take all."""
    plays("until 500", ["until 500"], COUNT)
    plays("until 1, take all", ["until 1", "take 400000"], COUNT)
    plays("until 1, take *", ["until 1", "take *"], COUNT)


def test_marks():
    """Around the counts at which it is asked whether the kept records are enough, what is reported is the model's."""
    for count in [1, 1022, 1023, 1024, 1025, 2047, 2048, 2049, 9215, 9216, 9217]:
        # the first records come in the first second, and three more behind it
        data = head() + b"".join(record(P, at=1_000_000 + place) for place in range(count))
        data += b"".join(record(P, at=2_000_000 + place) for place in range(3))
        for steps in [["until 1"], ["until 1", "take 1"], ["until 1", "take 2", "until 2"], ["until 1", "take 3"], ["until 1", "until 1", "take 4"]]:
            text = steps_text(*steps)
            done, lines, _, _ = measured(text, data, "run --pace")
            check(f"{count} records, {steps}", done and lines == [*model.Run(text, data).report().splitlines(), "audit agrees"], repr(lines)[:500])


if __name__ == "__main__":
    sys.exit(run_tests(globals()))
