"""pairs.py: what the scripts share that time two programs over inputs that are made here."""
import dataclasses
import filecmp
import os
import pathlib
import random
import signal
import struct
import subprocess
import sys
import tempfile
import time
from collections.abc import Iterable

from turns import HEAD, Failure, row, seed_of, sides

sys.path.insert(0, str(pathlib.Path(__file__).resolve().parent.parent / "examples"))
from make_capture import checksum, write  # noqa: E402

# The words of a command over a scenario and a capture, in whose place OUTPUT stands what is written.
PLAYED = ("scenario.toml", "input.pcap", "OUTPUT")
# The bytes of Ethernet before a datagram.
ETHERNET = 14


@dataclasses.dataclass
class Job:
    """A row of the table: the words of a command, its scenario's text, the frames of its capture with their times, where they
    aren't those of the job before, whether what is sent goes into a file, and whether its order is that of threads."""

    name: str
    words: tuple[str, ...]
    text: str
    frames: Iterable[tuple[int, bytes]] | None = None
    kept: bool = False
    by_threads: bool = False


def headed(data, words):
    """A frame with other words in its IPv4 header, each by its place, and the checksum made anew."""
    head = bytearray(data[ETHERNET:ETHERNET + 20])
    for place, word in {**words, 10: 0}.items():
        struct.pack_into(">H", head, place, word)
    struct.pack_into(">H", head, 10, checksum(bytes(head)))
    return data[:ETHERNET] + bytes(head) + data[ETHERNET + 20:]


def longer(length):
    """What makes a frame's datagram so many bytes long."""
    return lambda data, number: headed(data, {2: length}) + bytes(length - 40)


def scenario(steps, members, nodes=1, workers=1, **more):
    """A scenario of a service in a version for each list of member words. A key given by name is one more."""
    return scenario_of(steps, ([words] for words in members), nodes, workers, **more)


def scenario_of(steps, versions, nodes=1, workers=1, **more):
    """The same where a version has a service for each list of member words that it has."""
    keys = {"format": 2, "size": 65537, "hash": '"fnv"', "scheme": '"maglev"', "spread": '"hash"'}
    keys |= {"capacity": 65536, "ring": 65536, "workers": workers, "nodes": [f"10.9.0.{at + 1}" for at in range(nodes)]}
    keys |= {"steps": steps, **more}
    text = "".join(f"{key} = {value}\n" for key, value in keys.items())
    for number, services in enumerate(versions, 1):
        text += f"[[versions]]\nnumber = {number}\n"
        for at, words in enumerate(services):
            vip = f"192.0.{2 + at // 256}.{1 + at % 256}"
            text += f'[[versions.services]]\nvip = "{vip}"\nproto = "tcp"\nport = 80\nmembers = {words}\n'
    return text


def program(word):
    """The program that a word names."""
    path = pathlib.Path(word).resolve()
    found = [path] if path.is_file() else [path / "crates" / "maglev" / "out" / "maglev", path / "dist" / "maglev"]
    for one in found:
        if one.is_file() and os.access(one, os.X_OK):
            return one
    raise Failure(f"{word} is no program, and no checkout that has one")


def timed(path, job, folder, output):
    """The seconds of one run in a folder, and what it printed."""
    words = [path, *(output if word == "OUTPUT" else word for word in job.words)]
    start = time.monotonic()
    done = subprocess.run(words, cwd=folder, stdin=subprocess.DEVNULL, capture_output=True, check=False)
    seconds = time.monotonic() - start
    if done.returncode != 0:
        raise Failure(f"{path} {job.name} ended with {done.returncode}: {done.stderr.decode(errors='replace').strip()}")
    return seconds, done.stdout


def are_alike(one, other, by_threads):
    """Whether two files are equal, or as long where that is all that can be."""
    return one.stat().st_size == other.stat().st_size if by_threads else filecmp.cmp(one, other, shallow=False)


def check_equal(programs, job, folder):
    """Has both programs do a job into files, which have to be equal, as what they print has to be: that is the answer. Where
    threads decide on the order of what is sent, the files have to be as long."""
    printed = {timed(path, job, folder, f"{side}.pcap")[1] for side, path in enumerate(programs)}
    if len(printed) > 1:
        raise Failure(f"{job.name}: the programs don't print the same")
    if "OUTPUT" in job.words and not are_alike(folder / "0.pcap", folder / "1.pcap", job.by_threads):
        raise Failure(f"{job.name}: the programs don't write the same")
    return min(printed)


def measured(programs, job, folder):
    """The seconds of all runs of a job: the old ones and the new ones."""
    (folder / "scenario.toml").write_text(job.text)
    if job.frames is not None:
        write(folder / "input.pcap", job.frames)
    expected, seconds = check_equal(programs, job, folder), ([], [])
    for turn, side in sides():
        took, printed = timed(programs[side], job, folder, f"{side}.pcap" if job.kept else os.devnull)
        seconds[side].append(took)
        if printed != expected:
            raise Failure(f"{job.name}: {programs[side]} printed something else in turn {turn + 1}")
    return seconds


def table(words, jobs, what, head, told):
    """Prints a row for each job, as it is told, of the programs that a script's words name, by inputs from a seed."""
    if len(words) not in (2, 3):
        raise Failure(f"usage: bench/{what} OLD NEW [SEED]")
    programs = [program(word) for word in words[:2]]
    seed = seed_of(f"bench/{what}", words[2:])
    with tempfile.TemporaryDirectory(prefix=f"{what}.") as folder:
        print(f"| {what} | {head}", flush=True)
        for job in jobs(random.Random(int(seed))):
            print(told(job.name, *measured(programs, job, pathlib.Path(folder))), flush=True)


def started(page, jobs, what, head=HEAD, told=row):
    """Does what a script's words ask for."""
    # So that the temporary folder goes where this is ended, too.
    signal.signal(signal.SIGTERM, lambda *_: sys.exit(143))
    words = sys.argv[1:]
    if words in (["--help"], ["-h"]):
        print(page.strip())
        return
    try:
        table(words, jobs, what, head, told)
    except (Failure, OSError) as failure:
        sys.exit(str(failure))
