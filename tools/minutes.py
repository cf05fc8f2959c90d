#!/usr/bin/env python3
"""minutes.py FILE: watches the checks that run on this machine, and keeps in FILE where their processor time went.

minutes.py --told FILE [LABEL=SECONDS ..]   prints it: minutes by part, and the ten dearest of each. Each LABEL is a script, with its seconds.

A check is a process of `rattle`. Its command and its folder say what it does: a crate's proof, the proof of its tests, the seed that
its must-fail edits begin with, or an edit. Processes are looked at twice a second, so that a short one may be missed.
"""
import collections
import json
import os
import pathlib
import re
import sys
import time

TOP = pathlib.Path(__file__).resolve().parent.parent
TICKS = os.sysconf("SC_CLK_TCK")
PARTS = ("proofs", "seeds", "edits", "tests", "scripts")


def words_of(pid):
    """The words of a process's command, if it still runs."""
    try:
        return pathlib.Path(f"/proc/{pid}/cmdline").read_bytes().decode(errors="replace").split("\0")
    except OSError:
        return []


def seconds_of(pid):
    """When a process began, and the seconds of a processor that it took by itself."""
    try:
        fields = pathlib.Path(f"/proc/{pid}/stat").read_text().rpartition(")")[2].split()
    except OSError:
        return None
    return fields[19], (int(fields[11]) + int(fields[12])) / TICKS


def edit_named(crate, number):
    """The name of an edit by its place among those of its crate."""
    names = sorted(path.stem for path in (TOP / "crates" / crate / "must-fail").glob("*.edit"))
    return f"{crate}/{names[number]}" if number < len(names) else f"{crate}/{number}"


def job_of(words):
    """What a check is for: the part of the gate, and the crate or the edit."""
    if len(words) < 4 or not words[0].endswith("/rattle") or words[1] not in ("check", "build") or "--crate-name" not in words:
        return None
    crate = words[words.index("--crate-name") + 1]
    kept = words[words.index("--incremental") + 1] if "--incremental" in words else ""
    over = re.search(r"/rt-edits-\d+-[^/]+/(seed|\d+)$", kept)
    if over and over[1] == "seed":
        return "seeds", crate
    if over:
        return "edits", edit_named(crate, int(over[1]))
    return ("tests" if "--test" in words else "proofs"), crate


def watch(file):
    """Looks at the processes until it is ended."""
    jobs, seen = {}, {}
    while True:
        for pid in filter(str.isdigit, os.listdir("/proc")):
            now = seconds_of(pid)
            if now is None:
                continue
            key = f"{pid} {now[0]}"
            if key not in jobs:
                jobs[key] = job_of(words_of(pid))
            if jobs[key]:
                seen[key] = (*jobs[key], now[1])
        pathlib.Path(f"{file}.new").write_text(json.dumps([*seen.values()]))
        os.replace(f"{file}.new", file)
        time.sleep(0.5)


def told(file, scripts):
    """Prints the minutes by part, and the ten dearest of each."""
    parts = {part: collections.Counter() for part in PARTS}
    for part, name, seconds in json.loads(pathlib.Path(file).read_text()):
        parts[part][name] += seconds
    for script in scripts:
        name, _, seconds = script.partition("=")
        parts["scripts"][name] += float(seconds)
    whole = sum(sum(part.values()) for part in parts.values())
    print(f"minutes of a processor: {whole / 60:.0f}, " + ", ".join(f"{part} {sum(parts[part].values()) / 60:.0f}" for part in PARTS))
    for part in PARTS:
        dearest = ", ".join(f"{name} {seconds:.0f} s" for name, seconds in parts[part].most_common(10))
        print(f"  {part}: {dearest or 'none'}")


if __name__ == "__main__":
    if sys.argv[1] == "--told":
        told(sys.argv[2], sys.argv[3:])
    else:
        watch(sys.argv[1])
