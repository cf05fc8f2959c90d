#!/usr/bin/env python3
"""Refuses each thread of a run in turn, and each growth of a node's memory, and compares what the program then says.

The program `example_node` runs a node of two workers through two lives, on threads; `maglev run` runs two such nodes, of which
one has two lives, with `--splits` two of a worker, with `--pace` one of a worker over 40,000 records, and one of sixteen workers
whose lives have a packet or none. They print their whole answer, or why there is none, alone: `fault: ThreadLost` where a thread
couldn't be started, and `fault: Memory` where memory was refused, which comes first where both were. A thread of the audit may be
refused: the caller's thread then audits that node, or all of them, and the run says what it always says. A thread that reads a
part of a large capture may be refused too: the caller's thread then reads that part. `refuse_thread.c` refuses threads, and
`refused_growths.py` has how growths are refused. A growth that the system refuses while it starts a thread loses the thread.

The last line is 'N passed, N failed', which counts runs.
"""
import os
import pathlib
import subprocess
import sys
import tempfile

import refused_growths as growths
from harness import told

NODE = growths.Case(["node"], "1 from 1\n2 from 1\n1 from 2\n1 from 2\n")
# Two workers and a mux in each of two lives.
NODE_THREADS = 6
CLUSTER = growths.Case(["run", "s.toml", "in.pcap", "out.pcap"], growths.RESTARTED, files=growths.CLUSTER)
# The nodes' drivers, a worker and the mux of each of node 0's two lives, whose packets are all at home at worker 0, and those of node
# 1's life, which has packets for both of its workers.
CLUSTER_THREADS = 9
# Those of its audit, at most: one for each node, and where splits are told one that audits them.
AUDIT_THREADS = 3
# Two nodes of a worker, each with one life, and what is told of the splits.
SPLIT = growths.Case(["run", "--splits", "s.toml", "in.pcap", "out.pcap"], growths.FLOW.format("2 5") + growths.TWO + "audit agrees\n", files=growths.SPLIT)
SPLIT_THREADS = 6
# 40,000 records, which three threads read, and a node of one worker with one life.
ALONE = growths.SCENARIO.replace(b', "10.9.0.2"', b"").replace(b'"take 1"', b'"take 40000"')
MANY = {"s.toml": ALONE, "in.pcap": growths.CAPTURE + 39_999 * growths.CAPTURE[24:]}
READ = growths.Case(["run", "--pace", "s.toml", "in.pcap", "out.pcap"], growths.AUDITED.replace(" 1\n", " 40000\n"), files=MANY)
# Those that read beside the caller's, and those of the node.
READING_THREADS = 2
READ_THREADS = 3
# A node of 16 workers with three lives, of which the second has no packets: only workers that can get one have a thread, and the mux
# has one where a worker has.
LIVES = ALONE.replace(b"workers = 1", b"workers = 16").replace(b'"take 40000"', b'"take 1", "restart 0", "restart 0", "take 1"')
SPARING = growths.Case(["run", "s.toml", "in.pcap", "out.pcap"], growths.TWO + "audit agrees\n", files={"s.toml": LIVES, "in.pcap": growths.CAPTURE + growths.CAPTURE[24:]})
# The node's driver, and a worker and the mux of its first and its third life.
SPARING_THREADS = 5
LOST = growths.LOST
# The thread that is refused, and what is said where the first growth of any thread but the first one is refused too. An 'r' in
# front tells that one was. Where the first driver isn't started no other thread is; where the second one isn't, the first is
# refused memory.
AT_ONCE = [("1", b"fault: ThreadLost\n"), ("2", b"rfault: Memory\n")]


def refuse_threads(library, words, case, threads, spared=0, before=0):
    """Refuses one thread after the other, those that the run can spare before and behind them, and one that is never started.
    Gives how many runs were as they must be, and were not."""
    passed = failed = 0
    with tempfile.TemporaryDirectory() as folder:
        for name, content in case.files.items():
            (pathlib.Path(folder) / name).write_bytes(content)
        for number in range(1, before + threads + spared + 2):
            env = {"LD_PRELOAD": library, "REFUSED_THREAD": str(number)}
            done = subprocess.run(words, capture_output=True, cwd=folder, env=env, timeout=60)
            wanted = LOST if before < number <= before + threads else (0, case.text.encode(), b"")
            if (done.returncode, done.stdout, done.stderr) == wanted:
                passed += 1
            else:
                failed += 1
                print(f"FAILED {case.arguments[0]}, thread {number} refused: {done}")
    print(f"{case.arguments[0]}: {before + threads} threads, each refused")
    return passed, failed


def explains_why(library, program):
    """With `-v` one more line says what a run needs whose first thread is refused. Gives how many runs were as they must be, and not."""
    with tempfile.TemporaryDirectory() as folder:
        for name, content in CLUSTER.files.items():
            (pathlib.Path(folder) / name).write_bytes(content)
        words = [program, "run", "-v", *CLUSTER.arguments[1:]]
        done = subprocess.run(words, capture_output=True, cwd=folder, env={"LD_PRELOAD": library, "REFUSED_THREAD": "1"}, timeout=60)
    lines = done.stderr.decode().splitlines()
    is_right = (done.returncode, done.stdout, lines[:1], len(lines)) == (1, b"", ["fault: ThreadLost"], 2) and "allow more threads" in lines[-1]
    if not is_right:
        print(f"FAILED run -v, a thread refused: {done}")
    return int(is_right), int(not is_right)


def refuse_both(libraries, program):
    """Refuses a thread of a cluster's run, and memory to those that were started. Gives how many runs were as they must be, and not."""
    passed = failed = 0
    with tempfile.TemporaryDirectory() as folder:
        for name, content in CLUSTER.files.items():
            (pathlib.Path(folder) / name).write_bytes(content)
        for thread, wanted in AT_ONCE:
            env = {"LD_PRELOAD": ":".join(libraries), "REFUSED": "1t", "TOLD": "2", "REFUSED_THREAD": thread}
            done = subprocess.run([program, *CLUSTER.arguments], cwd=folder, capture_output=True, env=env, timeout=60)
            is_right = (done.returncode, done.stdout, done.stderr) == (1, b"", wanted)
            passed += is_right
            failed += not is_right
            if not is_right:
                print(f"FAILED run, thread {thread} and memory refused: {done}")
    return passed, failed


def main():
    growths.FAULTS.append(LOST)
    program = growths.PROGRAM
    growths.PROGRAM = growths.built("example_node")
    with tempfile.TemporaryDirectory() as folder:
        library = growths.compiled(folder, "refuse_thread.c")
        counts = [refuse_threads(library, [growths.PROGRAM], NODE, NODE_THREADS)]
        counts.append(refuse_threads(library, [program, *CLUSTER.arguments], CLUSTER, CLUSTER_THREADS, AUDIT_THREADS))
        counts.append(refuse_threads(library, [program, *SPLIT.arguments], SPLIT, SPLIT_THREADS, AUDIT_THREADS))
        counts.append(refuse_threads(library, [program, *READ.arguments], READ, READ_THREADS, before=READING_THREADS))
        counts.append(refuse_threads(library, [program, *SPARING.arguments], SPARING, SPARING_THREADS, AUDIT_THREADS))
        counts.append(explains_why(library, program))
        counts.append(refuse_both([library, growths.compiled(folder)], program))
        counts.append(growths.refuse_all(folder, [NODE]))
    return told(sum(passed for passed, _ in counts), sum(failed for _, failed in counts))


if __name__ == "__main__":
    os.chdir(growths.TOP)
    sys.exit(main())
