#!/usr/bin/env python3
"""starts.py [FIRST COUNT]: `--syn` and `--syn-after` of `simulate` and `run`, where a flow that begins again is another connection.

Rows are worked out by hand. So many random scenarios, 300 in the gate, whose captures have flags of all kinds, print what
tests/model.py says. The last line is 'N passed, N failed'.
"""
import os
import pathlib
import random
import sys
import tempfile

import end_to_end as rows
import format_three
import model
import objects
from answers import A1, C2, ONE, summary, where
from end_to_end import HEAD, counts, packet, record, report, run, scenario, simulates, told
from harness import check, run_tests

FIRST, COUNT = (int(word) for word in sys.argv[1:3]) if len(sys.argv) > 2 else (0, 300)
FLAGS = {"S": model.SYN, "A": model.ACK, "F": model.FIN | model.ACK, "R": model.RST, "H": model.SYN | model.ACK}
# The first record of a flow goes to A under version 1, the second to C under version 2, and so on in turns.
APART = scenario(["install 0 1", "install 1 2", "take 9"])
# What `--fail-above` says of the changed connection of three.
ABOVE = b"warning: 1 of 3 connections changed their server: --fail-above wants fewer\n"


def flagged(letter, flag):
    """A packet of a flow with these flags."""
    data = packet(letter)
    return data[:33] + bytes([FLAGS[flag]]) + data[34:]


def capture(words, times=None):
    """A record for each word, as xS: a flow's letter and a flag's. They come at one time, or at these seconds. HEAD's records have nanoseconds."""
    packets = [flagged(*word) for word in words.split()]
    if times is None:
        return HEAD + b"".join(record(data) for data in packets)
    return HEAD + b"".join(record(data, *divmod(round(at * 1_000_000) * 1000, 1_000_000_000)) for data, at in zip(packets, times))


def changed(name, words, connections, pairs, options=("--syn",), times=None):
    """How many connections there are and how many of them changed their server, for the first flow in turns between two servers."""
    data = capture(words, times)
    found = model.Run(APART, data).begun_again() if options == ("--syn",) else None
    changes = sum(pairs)
    told_of = summary(connections, len([one for one in pairs if one]), node=changes)
    simulates(name, APART, data, report(len(words.split()), len(words.split()), left=0) + told_of, words=[*options, "--summary"])
    if found is not None:
        check(f"{name}: the model", found.summary() == told_of, f"{found.summary()} {told_of}")


def test_beginnings():
    """What begins a flow again, and what doesn't."""
    changed("without --syn a port that is used again is a change", "xF xS", 1, [1], ())
    changed("a port that is used again after FIN", "xF xS", 2, [0, 0])
    changed("after RST", "xR xS", 2, [0, 0])
    changed("a SYN with ACK begins nothing", "xF xH", 1, [1])
    changed("nor does a SYN that is sent again", "xS xS", 1, [1])
    changed("nor a SYN after data", "xA xS", 1, [1])
    changed("data after FIN belong to the connection that ended", "xF xA", 1, [1])
    changed("the FIN of another flow ends nothing", "xS yF xS", 2, [0])
    changed("one connection's changes aren't the other's", "xS xF xS xA", 2, [1, 1])
    changed("a SYN after the SYN that began again", "xF xS xS", 2, [0, 1])
    changed("a FIN later on", "xF xA xS", 2, [1, 0])


def test_times():
    """A time after which a SYN begins a flow again."""
    for times, after, begins in [([0, 60], "60", True), ([0, 59.999999], "60", False), ([0, 0.5], "0.5", True), ([0, 0.499999], "0.5", False),
                                 ([9, 0], "1", False), ([0, 0], "0", True), ([5, 0], "0", True)]:
        changed(f"{times} after {after}", "xA xS", 1 + begins, [not begins], ("--syn-after", after), times)
    changed("no SYN begins after a time", "xA xA", 1, [1], ("--syn-after", "1"), [0, 9])
    changed("the time is that of the flow", "xA yA xS", 2, [0], ("--syn-after", "2"), [0, 1.5, 1.9])
    changed("and FIN counts too", "xF xS", 2, [0, 0], ("--syn-after", "60"))


def test_splits():
    """The lines of the splits, plain and as objects, and the share."""
    data = capture("xS xF xS xA")
    one = told(1006, "3 5", 5, A1, C2, "moved")
    two = told(1006, "7 9", 5, A1, C2, "moved")
    places = where(one, f"0 {ONE} 0 0", f"1 {ONE} 1 0", "node") + where(two, f"2 {ONE} 0 0", f"3 {ONE} 1 0", "node")
    whole = report(4, 4)
    simulates("splits", APART, data, one + two + counts(2, 0, 2) + whole, words=["--syn", "--splits"])
    simulates("places", APART, data, places + counts(2, 0, 2) + whole, words=["--syn", "--where"])
    simulates("both, and the summary", APART, data, places + counts(2, 0, 2) + whole + summary(2, 2, node=2), words=["--syn", "--where", "--splits", "--summary"])
    simulates("none of these", APART, data, whole, words=["--syn"])
    expected = model.Run(APART, data).begun_again()
    simulates("the listing", APART, data, expected.listing() + one + two + counts(2, 0, 2) + whole, expected.output(), ["--syn", "--list", "--splits"])
    halves = capture("xS xF xS yA")
    for share, status in [("0.4", 0), ("0.3", 3)]:
        answer = rows.simulated(APART, halves, ["--syn", "--fail-above", share])
        said = ABOVE if status else b""
        check(f"a share above {share}", answer[:3] == (status, (report(4, 4) + summary(3, 1, node=1)).encode(), said), answer)


def test_again():
    """A record that is delivered again belongs to the connection that it had in the capture."""
    text = scenario(["install 0 1", "install 1 2", "live 0", "take 3", "live 1", "again 0"])
    data = capture("xS xF xS")
    line = told(1006, "3 9", 5, A1, C2, "moved")
    expected = model.Run(text, data).begun_again()
    check("again: the model", expected.splits() != model.Run(text, data).splits(), expected.splits())
    simulates("again", text, data, expected.splits(True) + expected.report() + expected.summary(), words=["--syn", "--where", "--summary"])
    check("again: the first connection's", "at 1 " in expected.splits(True), expected.splits(True) + line)


def ran(name, text, data, words, expected):
    """`run` prints this text."""
    answer = rows.ran(text, data, words)
    check(f"run: {name}", answer[:3] == (0, expected.encode(), b""), f"{answer} {expected!r}")


def test_on_threads():
    """The same of `run`: splits are those of the nodes' histories, one after the other, and connections those of INPUT."""
    data = capture("xS xF xS xA")
    # node 0: install, two arrivals, records 0 and 2 are served; node 1: the same of records 1 and 3
    whole = report(4, 4) + "audit agrees\n"
    flow = told(1006, "4 8", 5, A1, C2, "moved")
    one, two = told(1006, "3 8", 5, A1, C2, "moved"), told(1006, "4 9", 5, A1, C2, "moved")
    places = where(one, f"0 {ONE} 0 0", f"1 {ONE} 1 0", "node") + where(two, f"2 {ONE} 0 0", f"3 {ONE} 1 0", "node")
    ran("without --syn", APART, data, ["--splits"], flow + counts(1, 0, 1) + whole)
    ran("splits", APART, data, ["--syn", "--splits"], one + two + counts(2, 0, 2) + whole)
    ran("places", APART, data, ["--syn", "--where"], places + counts(2, 0, 2) + whole)
    ran("all", APART, data, ["--syn", "--where", "--splits", "--summary", "--pace"], places + counts(2, 0, 2) + whole + summary(2, 2, node=2))
    ran("the summary", APART, data, ["--syn", "--summary"], whole + summary(2, 2, node=2))
    ran("none of these", APART, data, ["--syn"], whole)
    expected = model.Run(APART, data).begun_again()
    asked = ["--where", "--per-backend", "--per-node", "--summary"]
    ran("objects", APART, data, ["--syn", "--json", *asked], objects.text_of(objects.ran(expected, *asked)))
    halves = capture("xS xF xS yA")
    for share, status in [("0.4", 0), ("0.3", 3)]:
        answer = rows.ran(APART, halves, ["--syn", "--fail-above", share])
        said = ABOVE if status else b""
        check(f"run: a share above {share}", answer[:3] == (status, (whole + summary(3, 1, node=1)).encode(), said), answer)
    late = capture("xA xS", [0, 60])
    for after, connections in [("60", 2), ("60.000001", 1)]:
        changes = {"node": 1} if connections == 1 else {}
        ran(f"a SYN after {after}", APART, late, ["--syn-after", after, "--summary"], report(2, 2, left=0) + "audit agrees\n" + summary(connections, len(changes), **changes))


def test_lives_and_workers():
    """`run` with balancers that begin anew, and with two workers each."""
    text = scenario(["install 0 1", "live 0", "take 2", "restart 0", "install 0 2", "take 9"])
    whole = report(4, 4) + "audit agrees\n"
    # install, two arrivals, two servings and the restart; then install, two arrivals and two servings
    ran("a restart, without --syn", text, capture("xS xF xS xA"), ["--where"], where(told(1006, "4 9", 5, A1, C2, "moved"), f"1 {ONE} 0 0", f"2 {ONE} 0 0", "restart") + counts(1, 0, 1) + whole)
    ran("a restart between connections", text, capture("xS xF xS xA"), ["--syn", "--where", "--summary"], counts(2, 0, 0) + whole + summary(2))
    line = where(told(1006, "4 9", 5, A1, C2, "moved"), f"1 {ONE} 0 0", f"2 {ONE} 0 0", "restart")
    ran("a restart within one", text, capture("xS xA xF xS"), ["--syn", "--where", "--summary"], line + counts(2, 0, 1) + whole + summary(2, 1, restart=1))
    # whether the first record was served before the stop is the schedule's to say
    stopping = text.replace("restart", "stop").replace("take 2", "take 1")
    for options, found in [([], [summary(1, 1, restart=1), summary(1)]), (["--syn"], [summary(2), summary(1)])]:
        for _ in range(20):
            answer = rows.ran(stopping, capture("xF xS"), [*options, "--summary"])
            behind = answer[1].decode().partition("audit agrees\n")[2]
            check(f"run: a stop {options}", answer[0] == 0 and behind in found, answer)
    workers = scenario(["install 0 1", "install 1 2", "take 9"], workers=2)
    for words in ("xS yS zS xF yF zF xS yS zS xA yA zA", "xF yF zF yS xS zS zA xA yA", "zR zS xA xS yR yS"):
        expected = model.Run(workers, capture(words)).begun_again().on_threads()
        told_of = expected.splits(True) + expected.report() + "audit agrees\n" + expected.summary()
        ran(f"two workers, {words}", workers, capture(words), ["--syn", "--where", "--summary", "--pace"], told_of)


def test_refusals():
    """INPUT is read twice, so that it is a file; a time is one."""
    with tempfile.TemporaryDirectory() as folder:
        folder = pathlib.Path(folder)
        (folder / "s.toml").write_text(APART)
        (folder / "in.pcap").write_bytes(capture("xF xS"))
        (folder / "bad.pcap").write_bytes(b"x" * 40)
        os.mkfifo(folder / "pipe")
        for command in ("simulate", "run"):
            refuses(folder, command)
        for command, step in [("simulate", "stop 0"), ("run", "hold 0")]:
            (folder / "step.toml").write_text(scenario(["install 0 1", step]))
            answer = run([command, "--syn", "-v", "step.toml", "none.pcap", "out.pcap"], cwd=folder)
            check(f"{command}: a step", answer[:2] == (1, b"") and answer[2].startswith(b"fault: BadStep 1\n") and b"steps[1], line 9" in answer[2], answer)


def refuses(folder, command):
    """What a command refuses over the files of a folder."""

    def is_refused(name, status, error, words):
        answer = run([command, *words, "out.pcap"], cwd=folder, stdin=b"")
        check(f"{command}: {name}", answer[:2] == (status, b"") and error in answer[2] and not (folder / "out.pcap").exists(), answer)

    twice = b"error: --syn reads INPUT twice, so that it can be neither - nor a pipe\n"
    for name in ("-", "pipe"):
        is_refused(f"INPUT {name}", 2, twice, ["--syn", "s.toml", name])
        is_refused(f"INPUT {name}, after a time", 2, twice, ["--syn-after", "60", "s.toml", name])
    for word in ("", ".", "1.", "x", "-1", "1.0000000", "1e3", "99999999999999999999", "18446744073710", "+1", "1 "):
        is_refused(f"a time {word!r}", 2, b"error: ", ["--syn-after", word, "s.toml", "in.pcap"])
    is_refused("no INPUT", 1, b"fault: OpenInput\n", ["--syn", "s.toml", "none.pcap"])
    is_refused("no capture", 1, b"fault: BadMagic\n", ["--syn", "s.toml", "bad.pcap"])


def spiced(source, data):
    """The capture, whose TCP segments have flags of all kinds."""
    link, records, _ = model.read_capture(data)
    found = []
    for seconds, micros, frame in records:
        if model.segment(link, frame, False) is not None:
            start = 14 if link == "ethernet" else 0
            place = start + 4 * (frame[start] & 15) + 13
            frame = frame[:place] + bytes([source.choice([2, 2, 16, 17, 4, 18, source.randrange(256)])]) + frame[place + 1 :]
        found.append((seconds, micros, frame))
    return model.written(found, 1 if link == "ethernet" else 101)


def test_against_the_model():
    """What random scenarios print is what the plain model says, as lines and as objects, whole and of one node."""
    apart = 0
    for seed in range(FIRST, FIRST + COUNT):
        source = random.Random(123_000 + seed)
        _, text, data = format_three.random_case(seed) if seed % 2 else (None, *rows.idle_case(seed)[:2])
        data = spiced(source, data)
        after = source.choice([None, None, 0, 1, 500_000, 2_000_000])
        options = ["--syn"] if after is None else ["--syn-after", f"{after // 1_000_000}.{after % 1_000_000:06}"]
        plain = model.Run(text, data)
        expected = plain.begun_again(after)
        apart += expected.summary() != plain.summary()
        whole = expected.splits(True) + expected.report() + expected.taken() + expected.summary()
        simulates(f"scenario {seed}", text, data, whole, expected.output(), [*options, "--where", "--summary", "--per-backend"])
        simulates(f"scenario {seed}, splits", text, data, expected.listing() + expected.splits() + expected.report(), None, [*options, "--splits", "--list"])
        told_of = [objects.head("simulate"), *objects.splits(expected, True), objects.report(expected), objects.summary(expected)]
        simulates(f"scenario {seed}, objects", text, data, objects.text_of(told_of), None, [*options, "--json", "--where", "--summary"])
        one = expected.part_of(0)
        simulates(f"scenario {seed}, node 0", text, data, one.splits(True) + one.report() + one.summary(), None, [*options, "--where", "--summary", "--node", "0"])
    print(f"in {apart} of {COUNT} scenarios --syn changes the summary")
    check("--syn tells something else", COUNT < 100 or apart > COUNT // 10, apart)


def test_threads_against_the_model():
    """What `run` prints of random scenarios is what the model says, in the order of its history, as lines and as objects."""
    apart = 0
    for seed in range(FIRST, FIRST + COUNT // 3):
        source = random.Random(321_000 + seed)
        text, data, by_lives = rows.idle_case(seed)
        if not by_lives or seed % 2:
            text, data = rows.random_scenario(source, ("", "*2"), rows.steps_by_lives, 20), rows.random_capture(source)
        data = spiced(source, data)
        after = source.choice([None, None, 0, 1, 500_000, 2_000_000])
        options = ["--syn"] if after is None else ["--syn-after", f"{after // 1_000_000}.{after % 1_000_000:06}"]
        found = model.Run(text, data).begun_again(after)
        expected = found.on_threads()
        apart += expected.summary() != model.Run(text, data).on_threads().summary()
        whole = expected.splits(True) + expected.report() + "audit agrees\n" + expected.taken() + expected.summary()
        ran(f"scenario {seed}", text, data, [*options, "--where", "--summary", "--per-backend"], whole)
        ran(f"scenario {seed}, splits", text, data, [*options, "--splits"], expected.splits() + expected.report() + "audit agrees\n")
        ran(f"scenario {seed}, objects", text, data, [*options, "--json", "--where", "--summary"], objects.text_of(objects.ran(found, "--where", "--summary")))
    print(f"in {apart} of {COUNT // 3} runs --syn changes the summary")
    check("run --syn tells something else", COUNT < 100 or apart > COUNT // 30, apart)


if __name__ == "__main__":
    sys.exit(run_tests(globals()))
