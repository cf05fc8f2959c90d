#!/usr/bin/env python3
"""mutants.py [SEED COUNT]: scenarios and captures that were spoiled at random, given to the program.

Whatever its files hold, a command ends in time with status 0 or 1. It says either what was asked for, on standard output, or
one fault, on standard error. Its memory stays below a bound, and what OUTPUT holds is empty or ends behind a whole record.
Where the capture alone was spoiled, and its header not, the report is the model's. The last line is 'N passed, N failed'.
"""
import os
import pathlib
import random
import re
import subprocess
import sys
import tempfile
import threading

import hostile
import model
from harness import PROGRAM, judge_all

SECONDS = 30
MEGABYTES = 700
# What may stand for a word or a number of a scenario.
WORDS = ["0", "1", "-1", "7", "65537", "4294967296", "9223372036854775807", "1e9", "nan", "true", '""', "[]", "{}", "'", '"""', "#", "\n"]
WORDS += ["1979-05-27", "0x7", '"install 0 1"', '"again 0"', '"take 18446744073709551615"', '"lose 9"', '"live"', '"stop 0"', "[[versions]]", "\0", "é"]


def spoiled_text(source, text):
    """A scenario with a few changes of words, lines and bytes."""
    for _ in range(source.randrange(1, 5)):
        lines = text.split("\n")
        place = source.randrange(len(lines))
        kind = source.randrange(6)
        if kind == 0:
            lines.insert(place, source.choice(lines))
        elif kind == 1:
            del lines[place]
        elif kind == 2:
            key = lines[place].split(" = ")[0]
            lines[place] = f"{key} = {source.choice(WORDS)}"
        elif kind == 3:
            at = source.randrange(len(lines[place]) + 1)
            lines[place] = lines[place][:at] + source.choice(WORDS) + lines[place][at:]
        elif kind == 4:
            at = source.randrange(len(lines[place]) + 1)
            lines[place] = lines[place][:at] + lines[place][at + source.randrange(1, 5) :]
        else:
            lines[place] = lines[place].replace(source.choice("0123456789"), source.choice("0123456789"))
        text = "\n".join(lines) or "\n"
    return text


def spoiled_bytes(source, data, first):
    """A capture with a few changes, from byte `first` on."""
    data = bytearray(data)
    for _ in range(source.randrange(1, 5)):
        if len(data) <= first:
            break
        at = source.randrange(first, len(data))
        kind = source.randrange(4)
        if kind == 0:
            data[at] ^= 1 << source.randrange(8)
        elif kind == 1:
            data[at] = source.choice([0, 1, 127, 128, 255])
        elif kind == 2:
            del data[at : at + source.randrange(1, 30)]
        else:
            data[at:at] = source.randbytes(source.randrange(1, 30))
    return bytes(data)


def random_capture(source):
    """Up to 40 packets, most of them whole."""
    flows = [hostile.P[:21] + bytes([port]) + hostile.P[22:] for port in range(0xE8, 0xF0)]
    return hostile.head() + b"".join(hostile.record(source.choice(flows)) for _ in range(source.randrange(1, 40)))


def random_scenario(source, command):
    """A scenario that any command takes."""
    steps = ["install 0 1", f"take {source.randrange(30)}"]
    kinds = ["take 5", "lose 1", "again 0", "again 3", "live 0", "live", "restart 0", "install 0 1", "take 40"]
    kinds += [] if command == "run" else ["hold 0", "drain 0", "full 0 0", "full 0"]
    steps += [source.choice(kinds) for _ in range(source.randrange(8))]
    workers = source.choice([1, 2, 3])
    limited = source.choice([{}, {"format": 2, "idle": source.choice([0, 1, 1_000_000, 4_294_967_295_000_000])}])
    return hostile.scenario(steps, workers=workers, capacity=source.choice([1, 4]), size=source.choice([7, 251]), **limited)


def called(words, folder):
    """Status, standard output, standard error and the megabytes that a call took. One that doesn't end in time is killed."""
    with open(folder / "said", "wb") as said, open(folder / "told", "wb") as told:
        child = subprocess.Popen([PROGRAM, *words], cwd=folder, stdout=said, stderr=told)
    timer = threading.Timer(SECONDS, child.kill)
    timer.start()
    _, status, usage = os.wait4(child.pid, 0)
    timer.cancel()
    child.returncode = os.waitstatus_to_exitcode(status)
    return child.returncode, (folder / "said").read_bytes(), (folder / "told").read_bytes(), usage.ru_maxrss // 1024


def is_whole(output):
    """OUTPUT wasn't made, is empty, or ends behind a whole record."""
    return not output.exists() or not output.read_bytes() or not model.read_capture(output.read_bytes())[2]


def faults_of(answer, output):
    """What is wrong with an answer, whatever was asked."""
    status, said, told, megabytes = answer
    if status not in (0, 1):
        yield f"status {status}"
    if status == 0 and (told or not said.endswith(b"\n")):
        yield f"{said[-100:]!r} and {told!r}"
    if status == 1 and (said or not re.fullmatch(rb"fault: [A-Z][A-Za-z]+( [0-9]+)?\n", told)):
        yield f"{said[:100]!r} and {told!r}"
    if megabytes > MEGABYTES:
        yield f"{megabytes} MB"
    if not is_whole(output):
        yield "OUTPUT ends inside a record"


def faults_of_report(text, data, answer):
    """Where a report isn't the model's."""
    _, said, told, _ = answer
    if any(length > 262_144 for length in lengths_of(data)):
        if told != b"fault: TooLong\n":
            yield f"{told!r} of a record that is too long"
        return
    report = model.Run(text, data).report()
    if said.decode() != report:
        yield f"the report is {said!r}, and the model's {report!r}"


def lengths_of(data):
    """The captured lengths that a capture's records say, as far as they can be read."""
    at = 24
    while at + 16 <= len(data):
        length = int.from_bytes(data[at + 8 : at + 12], "little")
        yield length
        at += 16 + length


def judged(seed, folder):
    """The faults of one call."""
    source = random.Random(seed)
    command = source.choice(["simulate", "simulate", "run", "explain"])
    text, data = random_scenario(source, command), random_capture(source)
    kind = source.choice(["scenario", "capture", "records"])
    given = spoiled_text(source, text) if kind == "scenario" else text
    spoiled = data if kind == "scenario" else spoiled_bytes(source, data, 24 if kind == "records" else 0)
    (folder / "s.toml").write_text(given)
    (folder / "in.pcap").write_bytes(spoiled)
    (folder / "out.pcap").unlink(missing_ok=True)
    words = [command, "s.toml", "in.pcap", *(["1", "4"] if command == "explain" else ["out.pcap"])]
    answer = called(words, folder)
    found = list(faults_of(answer, folder / "out.pcap"))
    if kind == "records" and command == "simulate":
        found += faults_of_report(text, spoiled, answer)
    return [f"{' '.join(words)}, spoiled in its {kind}: {fault}" for fault in found]


def main():
    first, count = (int(word) for word in sys.argv[1:3]) if len(sys.argv) > 2 else (0, 300)
    with tempfile.TemporaryDirectory() as folder:
        return judge_all((f"seed {seed}", judged(seed, pathlib.Path(folder))) for seed in range(first, first + count))


if __name__ == "__main__":
    sys.exit(main())
