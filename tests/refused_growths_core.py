#!/usr/bin/env python3
"""Refuses each growth of memory of a replay in turn, and of wrapping, and compares what is then said.

The program `example_replay` replays one list of events on all three connection tables, and `example_tunnel` wraps a datagram. Each
prints its whole answer where it never needed what was refused, and `fault: Memory` alone otherwise. `refused_growths.py` has
how it is done.

The last line is 'N passed, N failed', which counts runs.
"""
import os
import sys
import tempfile

import refused_growths as growths
from harness import told

SENT = "1 from 1\n1 from 2\n1 from 2\n1 from 1\n1 from 2\n1 from 2\n3 from 2\n"
OUTER = "4500004000004000402f267d0a0900010a080001" + "00000800"
DATAGRAM = "45000028000100004006aecd0a000001c0000201" + "03e80050000000010000000050022000" + "00000000"
CASES = {
    "example_replay": growths.Case(["replay"], SENT * 3),
    "example_tunnel": growths.Case(["wrap"], f"{OUTER}{DATAGRAM}\n"),
}


def refuse_all(program, case):
    """Refuses each growth of one of these programs in turn."""
    growths.PROGRAM = growths.built(program)
    with tempfile.TemporaryDirectory() as folder:
        return growths.refuse_all(folder, [case])


def main():
    counts = [refuse_all(program, case) for program, case in CASES.items()]
    return told(sum(passed for passed, _ in counts), sum(failed for _, failed in counts))


if __name__ == "__main__":
    os.chdir(growths.TOP)
    sys.exit(main())
