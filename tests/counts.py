#!/usr/bin/env python3
"""counts.py [--write]: what the benchmark's workloads cost, counted in place of timed.

valgrind's callgrind runs each workload of crates/bench_jobs at a twentieth of its size and counts instructions, misses of a
first cache and of a last one, and branches that were foretold wrongly. A program's instructions are the same at each run, and
of `threads` to one in a thousand, so that a change which costs is seen however busy the machine is. bench/counts.txt has a row
for each kit and workload. More than 1.02 of a row's instructions or 1.05 of its misses is a failure. Less than 0.98 of the
instructions isn't, but asks for the file to be brought up to date, so that what was gained is guarded too. Under a kit that has
no row, another kit's is taken, and 1.10 of it is allowed.

A change that costs changes the file, by `counts.py --write`, and its commit says why. The last line is 'N passed, N failed'.
"""
import os
import pathlib
import re
import shutil
import statistics
import subprocess
import sys
import tempfile

import harness

TOP = harness.TOP
ROWS = TOP / "bench" / "counts.txt"
PROGRAM = TOP / "crates" / "bench_jobs" / "out" / "bench_jobs"
SEED, SIZE = "1", "5"
# The caches that are played, each by its bytes, its ways and the bytes of a line.
CACHES = ("--I1=32768,8,64", "--D1=32768,8,64", "--LL=1048576,16,64")
COLUMNS = ("instructions", "first", "last", "branches")
# What a count may be of its row, by the same kit and by another.
SAME_KIT = {"instructions": 1.02, "first": 1.05, "last": 1.05, "branches": 1.05}
OTHER_KIT = dict.fromkeys(COLUMNS, 1.10)
# Without the widest of the processor's instructions the C library copies alike on all machines.
ENVIRONMENT = {"PATH": "/usr/bin:/bin", "GLIBC_TUNABLES": "glibc.cpu.hwcaps=-AVX2,-AVX512F,-AVX512VL,-ERMS,-FSRM"}
# How often a workload is counted again where it is over its row: threads' schedules change the misses of `threads` a little.
TURNS = 4
# Less than this of the row's instructions is worth a new row.
GAINED = 0.98
HEADER = """# What the workloads cost at a twentieth of their size, with the seed 1, as tests/counts.py counts it: instructions, misses of
# a first cache of 32 KiB for data, misses of a last cache of 1 MiB for data, branches foretold wrongly.
# kit workload instructions first last branches
"""


def kit():
    """The name of the kit that is here."""
    return subprocess.run(["rt", "version"], capture_output=True, text=True, check=True).stdout.split()[0]


def workloads():
    """The workloads' names, as the benchmark lists them."""
    lines = (TOP / "bench" / "workloads.txt").read_text().splitlines()
    return [line.split()[0] for line in lines if line.strip() and not line.startswith("#")]


def counted(name, folder):
    """The counts of a workload. The program has one name and one environment everywhere, since both move the stack."""
    tool = ["valgrind", "--tool=callgrind", "--callgrind-out-file=/dev/null", "--cache-sim=yes", "--branch-sim=yes", *CACHES]
    command = [*tool, "./" + PROGRAM.name, name, SEED, SIZE]
    done = subprocess.run(command, cwd=folder, env=ENVIRONMENT, capture_output=True, text=True)
    events = re.search(r"Events +: ([\w ]+)", done.stderr)
    numbers = re.search(r"Collected +: ([\d ]+)", done.stderr)
    if done.returncode or " fault " in done.stdout or not events or not numbers:
        raise SystemExit(f"counts.py: {name} ended with {done.returncode}: {done.stderr}{done.stdout}")
    each = dict(zip(events[1].split(), map(int, numbers[1].split())))
    return {
        "instructions": each["Ir"],
        "first": each["D1mr"] + each["D1mw"],
        "last": each["DLmr"] + each["DLmw"],
        "branches": each["Bcm"] + each["Bim"],
    }


def least(counts, others):
    return {column: min(counts[column], others[column]) for column in COLUMNS}


def settled(name, folder):
    """The counts for a row: the medians of several runs, where two runs differ."""
    runs = [counted(name, folder), counted(name, folder)]
    if runs[0]["instructions"] != runs[1]["instructions"]:
        runs += [counted(name, folder) for _ in range(TURNS - 1)]
    return {column: statistics.median_low(run[column] for run in runs) for column in COLUMNS}


def is_over(counts, row, allowed):
    return any(counts[column] > allowed[column] * row[column] for column in COLUMNS)


def read_rows():
    """The rows of the file, by kit and workload."""
    rows = {}
    for line in ROWS.read_text().splitlines() if ROWS.exists() else []:
        if line and not line.startswith("#"):
            name, work, *numbers = line.split()
            rows[name, work] = dict(zip(COLUMNS, map(int, numbers)))
    return rows


def write_rows(rows):
    """Writes the file anew, kit by kit."""
    lines = [" ".join([*key, *(str(row[column]) for column in COLUMNS)]) for key, row in rows.items()]
    ROWS.write_text(HEADER + "".join(line + "\n" for line in lines))


def row_for(rows, here, name):
    """The row that a workload is held to, and what it may be of it; none where no kit has one."""
    if (here, name) in rows:
        return rows[here, name], SAME_KIT
    others = sorted(one for one, work in rows if work == name)
    if not others:
        return None, None
    print(f"no row of {here} for {name}: held to {others[-1]}'s, at {OTHER_KIT['instructions']:.2f}")
    return rows[others[-1], name], OTHER_KIT


def judge(name, counts, row, allowed):
    """Holds a workload's counts to its row."""
    shares = {column: counts[column] / max(row[column], 1) for column in COLUMNS}
    print(f"{name}: " + ", ".join(f"{column} {counts[column]} ({shares[column]:.3f})" for column in COLUMNS))
    for column in COLUMNS:
        holds = shares[column] <= allowed[column]
        harness.check(f"{name}: {column}", holds, f"{counts[column]} is {shares[column]:.3f} of {row[column]}, over {allowed[column]:.2f}")
    if shares["instructions"] < GAINED and allowed is SAME_KIT:
        print(f"{name} takes {shares['instructions']:.3f} of its row: bring bench/counts.txt up to date with tests/counts.py --write")


def judge_workload(name, folder, row, allowed):
    """Counts a workload, again where it is over its row, and judges it by the least counts."""
    if row is None:
        harness.check(name, False, "bench/counts.txt has no row of it")
        return
    counts = counted(name, folder)
    for _ in range(TURNS):
        if not is_over(counts, row, allowed):
            break
        counts = least(counts, counted(name, folder))
    judge(name, counts, row, allowed)


def main():
    if sys.argv[1:] not in ([], ["--write"]):
        raise SystemExit("usage: counts.py [--write]")
    if not PROGRAM.exists():
        raise SystemExit(f"counts.py: {PROGRAM} isn't built: `rt run -- usual 1 1` in crates/bench_jobs builds it")
    if not shutil.which("valgrind"):
        raise SystemExit("counts.py: valgrind isn't installed")
    rows, here = read_rows(), kit()
    with tempfile.TemporaryDirectory() as folder:
        os.symlink(PROGRAM, pathlib.Path(folder) / PROGRAM.name)
        for name in workloads():
            if sys.argv[1:] == ["--write"]:
                rows[here, name] = settled(name, folder)
            else:
                judge_workload(name, folder, *row_for(rows, here, name))
    if sys.argv[1:] == ["--write"]:
        write_rows(rows)
    return harness.told(harness.passed, harness.failed)


if __name__ == "__main__":
    sys.exit(main())
