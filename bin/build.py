#!/usr/bin/env python3
"""build.py NAME: proves and builds a program of this repository, or a static library, with all that it uses, as many crates
side by side as there are processors and memory for, those with the longest way to NAME first. It prints a line for each crate
when it is proved; where one isn't, its lines. `build.py --sources NAME` only lists what NAME is built from.

`rt` keeps others out of each crate that it reads, so that two runs of it over one lower crate wait for each other. So each
library is proved in a tree of its own, whose files are links to those here. `build.py --rt WORD..` is `rt WORD..`, which
works out a crate's sum once where `rt` alone does so for each way that leads down to the crate.
"""
import concurrent.futures
import fcntl
import importlib.machinery
import importlib.util
import os
import pathlib
import re
import shutil
import subprocess
import sys
import tempfile
import threading
import time

TOP = pathlib.Path(__file__).resolve().parent.parent
CRATES = TOP / "crates"
# What one check may take, in bytes.
ROOM = 3 << 30


def stands_on():
    """From each crate to those that it uses, in this repository."""
    found = {}
    for line in (TOP / "crates.txt").read_text().splitlines():
        words = line.split("#")[0].partition(":")
        if words[1]:
            found[words[0].split()[0]] = words[2].split()
    return {name: [other for other in others if other in found] for name, others in found.items()}


def needed(name, below):
    """The crate and all below it, from the crate down."""
    seen = []
    waiting = [name]
    while waiting:
        one = waiting.pop()
        if one not in seen:
            seen.append(one)
            waiting += below[one]
    return seen


def lines_of(name):
    """The lines of a crate, by which the time of its proof is guessed."""
    files = [path for part in ("src", "specs", "proofs") for path in (CRATES / name / part).rglob("*") if path.is_file()]
    return sum(path.read_bytes().count(b"\n") for path in files)


def ways(crates, below):
    """From each crate to the lines of the longest way from it up to the program, its own among them."""
    found = {}
    for one in sorted(crates, key=lambda one: -len(needed(one, below))):
        above = [found[other] for other in crates if one in below[other]]
        found[one] = lines_of(one) + max(above, default=0)
    return found


def memory():
    """The bytes of memory that can be had, what the system only keeps of files among them."""
    found = re.search(r"MemAvailable: +(\d+)", pathlib.Path("/proc/meminfo").read_text())
    return int(found[1]) << 10


def jobs():
    """How many checks run side by side."""
    return max(1, min(len(os.sched_getaffinity(0)), memory() // ROOM))


def taken(seconds):
    minutes, seconds = divmod(round(seconds), 60)
    return f"{minutes} min {seconds} s" if minutes else f"{seconds} s"


def sum_once(crates):
    """Has a crate's sum, which is made of the sums below it, worked out once for each question. From the program 18,720 ways
    lead down to crates, which took `rt` minutes of a processor."""
    plain, known = crates.stamp, threading.local()

    def stamp(crate):
        if getattr(known, "sums", None) is None:
            known.sums = {}
            try:
                return stamp(crate)
            finally:
                known.sums = None
        if crate.folder not in known.sums:
            known.sums[crate.folder] = plain(crate)
        return known.sums[crate.folder]

    crates.stamp = stamp


def run_rt(words):
    """Does what `rt` does with these words, and answers its status. Another `rt` than the kit's is run as it is."""
    path = pathlib.Path(shutil.which("rt") or "rt").resolve()
    if not (path.parent / "rtlib.py").is_file():
        return subprocess.run(["rt", *words], check=False).returncode
    loader = importlib.machinery.SourceFileLoader("rt", str(path))
    rt = importlib.util.module_from_spec(importlib.util.spec_from_loader("rt", loader))
    loader.exec_module(rt)
    if hasattr(rt.rtlib.Crate, "stamp"):
        sum_once(rt.rtlib.Crate)
    return rt.main(words)


def rt_in(crate, *words):
    """Runs `rt` in a crate's folder, and answers what became of it."""
    command = [sys.executable, __file__, "--rt", *words]
    return subprocess.run(command, cwd=crate, capture_output=True, text=True, check=False)


def link(source, target):
    """Makes a file that is another one's, or a copy of it where that can't be."""
    try:
        os.link(source, target)
    except OSError:
        shutil.copy2(source, target)


def make_tree(tree, name, below):
    """Links the crate, with what its earlier checks kept, and the libraries below it."""
    for one in needed(name, below):
        left = shutil.ignore_patterns("must-fail", *([] if one == name else ["incremental"]))
        shutil.copytree(CRATES / one, tree / "crates" / one, copy_function=link, ignore=left)
    (tree / "crates.txt").write_text("".join(f"{one}: {line}\n" for one, line in listed(needed(name, below))))


def listed(crates):
    """What crates.txt says of some crates, each with its words after the colon."""
    lines = [line.partition(":") for line in (TOP / "crates.txt").read_text().splitlines()]
    return [(head, tail.strip()) for head, colon, tail in lines if colon and head.split()[0] in crates]


def prove_library(name, below, trees, at_once):
    """Proves a library in a tree of its own. What rt answered; and the seconds."""
    start = time.monotonic()
    with tempfile.TemporaryDirectory(dir=trees) as folder:
        make_tree(pathlib.Path(folder), name, below)
        crate = pathlib.Path(folder) / "crates" / name
        done = rt_in(crate, "lib", "--jobs", str(at_once))
        shutil.rmtree(CRATES / name / "out", ignore_errors=True)
        if (crate / "out").exists():
            shutil.move(crate / "out", CRATES / name / "out")
    return done, time.monotonic() - start


class Progress:
    """What is reported of each crate."""

    def __init__(self, whole):
        self.whole = whole
        self.proved = set()

    def takes(self, name, done, seconds):
        """Reports what became of a crate, and answers whether it was proved."""
        if done.returncode:
            print(f"{done.stdout}{done.stderr}{name} is not proved", flush=True)
            return False
        self.proved.add(name)
        print(f"{len(self.proved)}/{self.whole} {name}, {taken(seconds)}", flush=True)
        return True


def shares(ready, unproved, way, free):
    """The crates that are begun now, each with its jobs: two for the one on the longest way of all that isn't proved yet, since the
    others wait for it, and where fewer crates are ready than processors are free, more for each."""
    found, longest = {}, max(way[one] for one in unproved)
    for number, one in enumerate(ready):
        even = free // (len(ready) - number)
        at_once = min(free, max(even, 2 if way[one] == longest else 1))
        if at_once:
            found[one] = at_once
            free -= at_once
    return found


def prove_libraries(crates, below, trees, progress):
    """Proves libraries, each once those below it are. Whether that worked."""
    way = ways(crates, below)
    waiting, running, free = set(crates), {}, jobs()
    with concurrent.futures.ThreadPoolExecutor(free) as pool:
        while waiting or running:
            ready = sorted((one for one in waiting if progress.proved.issuperset(below[one])), key=lambda one: -way[one])
            for one, at_once in shares(ready, waiting | {name for name, _ in running.values()}, way, free).items():
                waiting.remove(one)
                free -= at_once
                running[pool.submit(prove_library, one, below, trees, at_once)] = one, at_once
            for future in concurrent.futures.wait(running, return_when=concurrent.futures.FIRST_COMPLETED).done:
                one, at_once = running.pop(future)
                free += at_once
                if not progress.takes(one, *future.result()):
                    return False
    return True


def sources(name):
    """The code that a program is built from, and its folders. A definition or a proof changes no program."""
    folders = [CRATES / one / "src" for one in needed(name, stands_on())]
    return [TOP / "crates.txt", *(path for folder in folders for path in [folder, *folder.rglob("*")])]


def write_sources(name):
    """Lists what the program is built from, as words for the shell."""
    words = "\n".join(str(path.relative_to(TOP)) for path in sources(name))
    (CRATES / name / "out" / "sources").write_text(f'paths="{words}"\n')


def toolchain():
    """The kit's folder of tools: compilers, linkers, archivers."""
    told = subprocess.run(["rt", "doc"], capture_output=True, check=True, text=True).stdout
    return pathlib.Path(told.split()[0]).parent / "toolchain" / "bin"


def archive_of(name):
    """Where the archive of a static library is built."""
    return CRATES / name / "out" / f"lib{name}.a"


def is_static(name):
    """Whether crates.txt has it as a static library."""
    return any(head.split()[1:] == ["staticlib"] for head, _ in listed([name]))


def is_current(name):
    """Whether a program, or a static library, was built, and nothing of what it is built from is newer."""
    program = archive_of(name) if is_static(name) else CRATES / name / "out" / name
    return program.exists() and all(path.stat().st_mtime <= program.stat().st_mtime for path in sources(name))


def prove_program(name, progress):
    """Proves and builds the program, over proved libraries. Whether that worked."""
    start = time.monotonic()
    # rt run proves what it builds, and builds what it runs.
    done = rt_in(CRATES / name, *(["lib"] if is_static(name) else ["run", "--", "--help"]))
    return progress.takes(name, done, time.monotonic() - start)


def build(name):
    """Proves the program and all below it, and builds it. Whether that worked."""
    start = time.time()
    below = stands_on()
    libraries = [one for one in needed(name, below) if one != name]
    progress = Progress(len(libraries) + 1)
    out = CRATES / name / "out"
    out.mkdir(exist_ok=True)
    with open(out / "building", "w") as held:
        fcntl.flock(held, fcntl.LOCK_EX)
        trees = out / "trees"
        shutil.rmtree(trees, ignore_errors=True)
        trees.mkdir()
        done = prove_libraries(libraries, below, trees, progress)
        shutil.rmtree(trees)
        if not (done and prove_program(name, progress)):
            return False
        # What was changed since the build began is newer.
        os.utime(archive_of(name) if is_static(name) else out / name, (start, start))
        write_sources(name)
    return True


if __name__ == "__main__":
    if sys.argv[1] == "--sources":
        write_sources(sys.argv[2])
    elif sys.argv[1] == "--rt":
        sys.exit(run_rt(sys.argv[2:]))
    else:
        sys.exit(0 if build(sys.argv[1]) else 1)
