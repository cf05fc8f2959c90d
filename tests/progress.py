#!/usr/bin/env python3
"""Tests of what is shown while a capture is read, played on threads or written: how far it is, on a terminal that this makes, and
never in a pipe.

What stands on the terminal is worked out from the bytes that it got, as a terminal does it. The last line is 'N passed, N failed'.
"""
import os
import pathlib
import re
import struct
import subprocess
import tempfile
import threading
import time
import tty

import model
from harness import PROGRAM, TOP, all_shown, check, run_tests

EXAMPLE = TOP / "examples" / "failover"
COMMANDS = {
    "simulate": ["simulate", "s.toml", "in.pcap", "out.pcap"],
    "run": ["run", "s.toml", "in.pcap", "out.pcap"],
    "explain": ["explain", "s.toml", "in.pcap", "13", "15"],
    "scenario": ["scenario", "in.pcap"],
}
# What a status says, of a file that has a length and of another.
SHARED = re.compile(r"(\d+) packets, (\d+) % of INPUT, (\d+) a second, (?:\d+ h )?(?:\d+ min ?)?(?:\d+ s )?left")
PLAIN = re.compile(r"(\d+) packets, (\d+) a second")
# What a status says of what the threads of `run` play.
PLAYED = re.compile(r"(\d+) packets played, (\d+) % of INPUT, (\d+) a second, (?:\d+ h )?(?:\d+ min ?)?(?:\d+ s )?left")
# What a status says of what `run` writes.
SENT = re.compile(r"(\d+) packets sent, (\d+) a second")
# What is said behind the reading.
BEHIND = {"simulate": "", "run": ", the balancers run", "explain": "", "scenario": ""}
CLEARED = "\r\x1b[K"


def screen(text):
    """The lines that a terminal shows at the end: a return goes to the line's start, and EL clears it from there."""
    lines = []
    for line in text.split("\n"):
        shown = ""
        for part in line.split("\r"):
            shown = part[3:] if part.startswith("\x1b[K") else part + shown[len(part):]
        lines.append(shown)
    return lines


class Terminal:
    """A program's run whose standard error is a terminal: what it got there, with the time of each piece."""

    def __init__(self, words, cwd, stdin=subprocess.DEVNULL):
        self.pieces = []
        self.end, writing = os.openpty()
        tty.setraw(writing)
        self.done = subprocess.Popen([PROGRAM, *words], cwd=cwd, stdin=stdin, stdout=subprocess.PIPE, stderr=writing)
        os.close(writing)
        self.thread = threading.Thread(target=self.read)
        self.thread.start()

    def read(self):
        """Reads what the terminal gets until nobody writes there any more."""
        while True:
            try:
                piece = os.read(self.end, 65536)
            except OSError:
                return
            if not piece:
                return
            self.pieces.append((time.monotonic(), piece.decode()))

    def ended(self):
        """The status, standard output and what the terminal got."""
        out = self.done.communicate(timeout=600)[0]
        self.thread.join()
        os.close(self.end)
        return self.done.returncode, out, "".join(piece for _, piece in self.pieces)


def example(folder):
    """The example's files in a folder."""
    (folder / "s.toml").write_bytes(EXAMPLE.with_suffix(".toml").read_bytes())
    (folder / "in.pcap").write_bytes(EXAMPLE.with_suffix(".pcap").read_bytes())


def many(records):
    """A capture of so many records, each a copy of one of the example's."""
    data = EXAMPLE.with_suffix(".pcap").read_bytes()
    length = 16 + struct.unpack_from("<I", data, 24 + 8)[0]
    return data[:24] + data[24:24 + length] * records


def spread(records):
    """The same, of 256 flows: each 256 records differ in their source ports, which no checksum that is looked at covers."""
    data = many(256)
    length = (len(data) - 24) // 256
    block = bytearray(data[24:])
    for flow in range(256):
        # Behind the record's, Ethernet's and IP's headers.
        struct.pack_into(">H", block, flow * length + 16 + 14 + 20, 1024 + flow)
    return data[:24] + bytes(block) * (records // 256)


def threaded(folder, nodes, workers, records):
    """The example's scenario and a capture of so many records, which all nodes play under version 1, in a folder."""
    text = EXAMPLE.with_suffix(".toml").read_text()
    installs = ", ".join(f'"install {node} 1"' for node in range(nodes))
    text = re.sub(r"(?ms)^steps = .*?\]\n", f'steps = [{installs}, "take {records}"]\n', text)
    text = re.sub(r"(?m)^nodes = .*$", f'nodes = {["10.9.0.1", "10.9.0.2"][:nodes]}'.replace("'", '"'), text)
    (folder / "s.toml").write_text(re.sub(r"(?m)^workers = .*$", f"workers = {workers}", text))
    (folder / "in.pcap").write_bytes(spread(records))


def statuses(shown, form):
    """What is shown, one after another, of one form."""
    return [tuple(map(int, found.groups())) for found in form.finditer(shown)]


def test_from_the_beginning_on():
    """With `--progress` a terminal shows how far it is however short the run is, and nothing of it is left. What is printed is as
    without it, and a terminal that isn't asked shows nothing of a short run."""
    for name, words in COMMANDS.items():
        with tempfile.TemporaryDirectory() as made:
            folder = pathlib.Path(made)
            example(folder)
            plain = subprocess.run([PROGRAM, *words], cwd=folder, capture_output=True, check=False)
            quiet = Terminal(words, folder).ended()
            asked = Terminal([words[0], "--progress", *words[1:]], folder).ended()
            check(f"{name}, not asked", quiet[:2] == (plain.returncode, plain.stdout) and CLEARED not in quiet[2], repr(quiet))
            check(f"{name}, asked", asked[:2] == (plain.returncode, plain.stdout), repr(asked))
            whole = len(model.read_capture((folder / "in.pcap").read_bytes())[1])
            found = statuses(asked[2], SHARED)
            check(f"{name}, the share", found == [(whole, 100, found[0][2] if found else 0)], repr(asked))
            check(f"{name}, no trace", screen(asked[2]) == screen(quiet[2]) and asked[2].count(CLEARED) >= 2, repr(asked))
            read = f"{CLEARED}{whole} packets, INPUT is read{BEHIND[name]}{CLEARED}" in asked[2]
            check(f"{name}, at the end", read == (name in ("simulate", "run")), repr(asked))
            check(f"{name}, what is written", len(statuses(asked[2], SENT)) == (name == "run"), repr(asked))


def test_standard_input():
    """Of standard input there is no share. The packets are those that came so far, and statuses come at most five times a second,
    from half a second on."""
    data = many(40_000)
    with tempfile.TemporaryDirectory() as made:
        folder = pathlib.Path(made)
        example(folder)
        start = time.monotonic()
        terminal = Terminal(["simulate", "s.toml", "-", "out.pcap"], folder, subprocess.PIPE)
        # 70 bytes are a record: so many of each piece's bytes are whole headers.
        for at in range(0, len(data), 65536):
            terminal.done.stdin.write(data[at:at + 65536])
            terminal.done.stdin.flush()
            time.sleep(0.06)
        status, _, shown = terminal.ended()
        found = statuses(shown, PLAIN)
        took = time.monotonic() - start
        check("standard input: status", status == 0, repr(shown[-300:]))
        check("standard input: it goes up", len(found) >= 3 and found == sorted(found) and found[-1][0] <= 40_000, repr(found))
        check("standard input: no share", "%" not in shown, repr(shown[:300]))
        times = [at for at, piece in terminal.pieces if "packets" in piece]
        check("standard input: not at first", times and times[0] - start >= 0.5, repr(times[:1]))
        most = max(sum(at <= other < at + 1 for other in times) for at in times)
        check("standard input: at most five a second", most <= 5 and len(found) >= 2 * (took - 1.5), f"{most} {len(found)} {took}")
        check("standard input: no trace", screen(shown)[-1] == "", repr(screen(shown)[-2:]))


def test_a_file_that_is_written_slowly():
    """The share goes up to a hundred, and the time that is left comes down, where a run takes as long as its reader does."""
    with tempfile.TemporaryDirectory() as made:
        folder = pathlib.Path(made)
        example(folder)
        (folder / "in.pcap").write_bytes(many(60_000))
        os.mkfifo(folder / "out.pcap")
        text = (folder / "s.toml").read_text()
        steps = 'steps = ["install 0 1", "install 1 1", "take 60000"]\n'
        (folder / "s.toml").write_text(re.sub(r"(?ms)^steps = .*?\]\n", steps, text))
        terminal = Terminal(["simulate", "s.toml", "in.pcap", "out.pcap"], folder)
        sent = 0
        with (folder / "out.pcap").open("rb", buffering=0) as pipe:
            while piece := pipe.read(65536):
                sent += len(piece)
                time.sleep(0.02)
        status, _, shown = terminal.ended()
        found = statuses(shown, SHARED)
        shares = [share for _, share, _ in found]
        check("a slow reader: status", status == 0 and sent > 1 << 20, f"{status} {sent} {shown[-300:]!r}")
        check("a slow reader: shares", len(set(shares)) >= 3 and shares == sorted(shares) and shares[-1] <= 100, repr(found))
        exact = all(abs(packets / 60_000 - share / 100) < 0.03 for packets, share, _ in found)
        check("a slow reader: packets by shares", exact, repr(found))
        check("a slow reader: no trace", screen(shown)[-1] == "", repr(screen(shown)[-2:]))


def test_what_run_writes():
    """`run` writes when its threads are done, and shows how many packets it has written and how fast: from half a second on, at most
    five times a second, and nothing of it stays. A pipe gets none of it."""
    with tempfile.TemporaryDirectory() as made:
        folder = pathlib.Path(made)
        example(folder)
        (folder / "in.pcap").write_bytes(many(60_000))
        text = (folder / "s.toml").read_text()
        steps = 'steps = ["install 0 1", "install 1 1", "take 60000"]\n'
        (folder / "s.toml").write_text(re.sub(r"(?ms)^steps = .*?\]\n", steps, text))
        words = ["run", "--pace", "s.toml", "in.pcap", "out.pcap"]
        plain = subprocess.run([PROGRAM, *words], cwd=folder, capture_output=True, check=False)
        piped = subprocess.run([PROGRAM, words[0], "--progress", *words[1:]], cwd=folder, capture_output=True, check=False)
        check("what run writes: a pipe", piped.stderr == plain.stderr == b"" and piped.returncode == 0, repr(piped.stderr[:300]))
        written = model.read_capture((folder / "out.pcap").read_bytes())[1]
        (folder / "out.pcap").unlink()
        os.mkfifo(folder / "out.pcap")
        terminal = Terminal(words, folder)
        sent = b""
        with (folder / "out.pcap").open("rb", buffering=0) as pipe:
            while piece := pipe.read(65536):
                sent += piece
                time.sleep(0.03)
        status, out, shown = terminal.ended()
        check("what run writes: the run", (status, out) == (0, plain.stdout) and len(model.read_capture(sent)[1]) == len(written), f"{status} {out!r}")
        found = [packets for packets, _ in statuses(shown, SENT)]
        check("what run writes: it goes up", len(found) >= 3 and found == sorted(set(found)) and found[-1] <= len(written), repr(found))
        times = [at for at, piece in terminal.pieces if "sent" in piece]
        most = max((sum(at <= other < at + 1 for other in times) for at in times), default=0)
        check("what run writes: at most five a second", 0 < most <= 5, repr(times))
        read = shown[: shown.rfind("INPUT") + 1]  # empty where the reading was too short to be shown
        check("what run writes: behind the reading", "sent" not in read, repr(shown[:500]))
        check("what run writes: no trace", screen(shown)[-1] == "", repr(screen(shown)[-2:]))


def is_of(played, records):
    """Whether each of the statuses of a playing is of 64s of these records with its share, and more than the one before."""
    packets = [found for found, _, _ in played]
    shares = all(found % 64 == 0 and found <= records and share == 100 * found // records for found, share, _ in played)
    return shares and packets == sorted(set(packets))


def check_playing(name, words, folder, records):
    """A run on a terminal that is asked how far it is: what it printed."""
    terminal = Terminal([words[0], "--progress", *words[1:]], folder)
    status, out, shown = terminal.ended()
    found = statuses(shown, PLAYED)
    forwarded = re.search(rb"(?m)^forwarded (\d+)$", out)
    most = int(forwarded[1]) if forwarded else 0
    check(f"{name}: status", status == 0 and out.endswith(b"audit agrees\n"), repr(out[-300:]))
    # Where rings are full packets are dropped at once, so that a run is soon over.
    paced = "--pace" in words
    check(f"{name}: each of its share", len(found) > paced and is_of(found, records) and found[-1][0] <= most, repr(found))
    check(f"{name}: all of it", not paced or most == records, repr(out))
    times = [at for at, piece in terminal.pieces if "played" in piece]
    fast = max((sum(at <= other < at + 1 for other in times) for at in times), default=0)
    check(f"{name}: at most five a second", 0 < fast <= 5, repr(times))
    kinds = re.findall(r"is read|played|sent", shown)
    check(f"{name}: read, played, sent", kinds == sorted(kinds, key=["is read", "played", "sent"].index), repr(kinds))
    left = [line for line in screen(shown) if "a second" in line or "INPUT" in line]
    check(f"{name}: no trace", not left, repr(left))
    return out


def test_what_run_plays():
    """`run` shows how many packets its workers have served, of those in INPUT: at most five times a second, behind the reading and
    before what it writes, and nothing of it stays. A pipe gets none of it, and a file one line in ten seconds."""
    records = 2_000_128
    for nodes, workers, paced in [(1, 3, True), (2, 2, False), (2, 2, True)]:
        with tempfile.TemporaryDirectory() as made:
            folder = pathlib.Path(made)
            threaded(folder, nodes, workers, records)
            words = ["run", *["--pace"] * paced, "s.toml", "in.pcap", os.devnull]
            name = f"what run plays, {nodes} nodes" + ", paced" * paced
            out = check_playing(name, words, folder, records)
            if nodes == 2 and paced:
                asked = [words[0], "--progress", *words[1:]]
                piped = subprocess.run([PROGRAM, *asked], cwd=folder, capture_output=True, check=False)
                check(f"{name}: a pipe", piped.stderr == b"" and piped.stdout == out, repr(piped.stderr[:300]))
                with (folder / "log").open("wb") as log:
                    start = time.monotonic()
                    subprocess.run([PROGRAM, *asked], cwd=folder, stdout=subprocess.DEVNULL, stderr=log, check=False)
                lines = (folder / "log").read_text().splitlines()
                slow = [line for line in lines if PLAYED.fullmatch(line)]
                check(f"{name}: a file", f"{records} packets, INPUT is read, the balancers run" in lines, repr(lines))
                check(f"{name}: a line in ten seconds", len(slow) <= (time.monotonic() - start) // 10, repr(lines))


def test_a_playing_that_is_not_asked():
    """A terminal that isn't asked shows a playing from half a second on, each status of its share, and nothing of it stays."""
    records = 3_000_064
    with tempfile.TemporaryDirectory() as made:
        folder = pathlib.Path(made)
        threaded(folder, 1, 1, records)
        start = time.monotonic()
        terminal = Terminal(["run", "--pace", "s.toml", "in.pcap", os.devnull], folder)
        status, out, shown = terminal.ended()
        found = statuses(shown, PLAYED)
        times = [at for at, piece in terminal.pieces if "played" in piece]
        check("a playing, not asked: status", status == 0 and out.endswith(b"audit agrees\n"), repr(out))
        check("a playing, not asked: each of its share", found and is_of(found, records), repr(found))
        check("a playing, not asked: not at first", times and times[0] - start >= 0.5, repr(times[:1]))
        left = [line for line in screen(shown) if "a second" in line or "INPUT" in line]
        check("a playing, not asked: no trace", not left, repr(left))


def test_a_short_playing():
    """With `--progress` a terminal shows a playing from the first 64 packets of a worker on, also where flows begin again and INPUT
    is read twice. A terminal that isn't asked shows nothing of a short one."""
    with tempfile.TemporaryDirectory() as made:
        folder = pathlib.Path(made)
        threaded(folder, 1, 1, 4096)
        words = ["run", "--pace", "s.toml", "in.pcap", "out.pcap"]
        plain = subprocess.run([PROGRAM, *words], cwd=folder, capture_output=True, check=False)
        quiet = Terminal(words, folder).ended()
        check("a short playing, not asked", quiet[:2] == (0, plain.stdout) and CLEARED not in quiet[2], repr(quiet))
        for more in ([], ["--syn"]):
            status, out, shown = Terminal([words[0], "--progress", *more, *words[1:]], folder).ended()
            found = [packets[:2] for packets in statuses(shown, PLAYED)]
            check(f"a short playing {more}", (status, out) == (0, plain.stdout) and found[:1] == [(64, 1)], repr(shown))
            check(f"a short playing {more}: no trace", screen(shown) == screen(quiet[2]), repr(shown))


def test_pipes_and_files():
    """A pipe gets nothing of it, asked or not. A file gets a line where INPUT is read, if that is asked for."""
    for name, words in COMMANDS.items():
        with tempfile.TemporaryDirectory() as made:
            folder = pathlib.Path(made)
            example(folder)
            asked = [words[0], "--progress", *words[1:]]
            plain = subprocess.run([PROGRAM, *words], cwd=folder, capture_output=True, check=False)
            piped = subprocess.run([PROGRAM, *asked], cwd=folder, capture_output=True, check=False)
            check(f"{name}, into a pipe", piped.stderr == plain.stderr and piped.stdout == plain.stdout, repr(piped))
            for line, form in [("", words), (f"packets, INPUT is read{BEHIND[name]}\n", asked)]:
                with (folder / "log").open("wb") as log:
                    done = subprocess.run([PROGRAM, *form], cwd=folder, stdout=subprocess.PIPE, stderr=log, check=False)
                text = (folder / "log").read_text()
                good = re.fullmatch(rf"\d+ {line}" if line else "", text) is not None
                check(f"{name}, into a file, {len(form)} words", good and done.stdout == plain.stdout, repr(text))


def test_beside_other_texts():
    """A fault's line stands alone, and a listing on the same terminal shows no progress."""
    with tempfile.TemporaryDirectory() as made:
        folder = pathlib.Path(made)
        example(folder)
        whole = (folder / "in.pcap").read_bytes()
        (folder / "in.pcap").write_bytes(whole + struct.pack("<4I", 0, 0, 1 << 30, 1 << 30))
        status, _, shown = Terminal(["simulate", "--progress", "s.toml", "in.pcap", "out.pcap"], folder).ended()
        check("a fault", status == 1 and screen(shown)[0] == "fault: TooLong", repr(shown))
        (folder / "in.pcap").write_bytes(whole)
        reading, writing = os.openpty()
        tty.setraw(writing)
        words = [PROGRAM, "simulate", "--list", "--progress", "s.toml", "in.pcap", "out.pcap"]
        done = subprocess.Popen(words, cwd=folder, stdin=subprocess.DEVNULL, stdout=writing, stderr=writing)
        os.close(writing)
        shown = all_shown(reading)
        os.close(reading)
        check("a listing on a terminal", done.wait() == 0 and CLEARED.encode() not in shown and b"packets " in shown, repr(shown[:300]))


if __name__ == "__main__":
    run_tests(globals())
