"""What the scripts of this folder share: comparisons that are counted, and a module's tests, run in turn."""
import os
import pathlib

TOP = pathlib.Path(__file__).resolve().parent.parent
# The program that the scripts run: what bin/maglev chooses, if no other is named.
PROGRAM = os.environ.get("MAGLEV_PROGRAM", str(TOP / "bin" / "maglev"))

passed = 0
failed = 0


def check(name, holds, detail=""):
    """Counts one comparison, and says which failed."""
    global passed, failed
    passed += bool(holds)
    failed += not holds
    if not holds:
        print(f"FAILED {name}: {detail}")


def told(passed, failed):
    """Prints how many comparisons held and how many didn't, a script's last line. The status to end with."""
    print(f"{passed} passed, {failed} failed")
    return 1 if failed else 0


def judge_all(cases):
    """Counts cases, each a name with the faults that were found, and prints each fault. The status to end with."""
    counts = [0, 0]
    for name, faults in cases:
        counts[bool(faults)] += 1
        for fault in faults:
            print(f"FAILED {name}: {fault}")
    return told(*counts)


def all_shown(reading):
    """All that comes through a terminal until nobody has it open any more."""
    found = b""
    while True:
        try:
            piece = os.read(reading, 4096)
        except OSError:
            return found
        if not piece:
            return found
        found += piece


def run_tests(names):
    """Calls each test among a module's names, in their order, from the top of the repository. The last line is
    'N passed, N failed'; the answer is the status to end with."""
    os.chdir(TOP)
    for name, test in sorted(names.items()):
        if name.startswith("test_"):
            test()
    return told(passed, failed)
