#!/usr/bin/env python3
"""dependencies.py: whether each library that a line of crates.txt names is named by a file of the crate.

A library is read at each check of a crate that names it, whether the crate needs it or not. It is needed where a word of a
file in the crate's src/, specs/ or proofs/ is its name. The last line is 'N passed, N failed'.
"""
import pathlib
import re
import sys

TOP = pathlib.Path(__file__).resolve().parent.parent
CRATES = TOP / "crates"


def listed():
    """From each crate to the libraries that crates.txt names for it."""
    lines = [line.split("#")[0].partition(":") for line in (TOP / "crates.txt").read_text().splitlines()]
    return {head.split()[0]: libraries.split() for head, colon, libraries in lines if colon}


def words_of(crate):
    """The words of a crate's files."""
    files = [path for part in ("src", "specs", "proofs") for path in (CRATES / crate / part).rglob("*")]
    return {word for path in files if path.suffix in (".rt", ".antt") for word in re.findall(r"\w+", path.read_text())}


def main():
    passed = failed = 0
    for crate, libraries in listed().items():
        unused = sorted(set(libraries) - words_of(crate))
        passed, failed = passed + len(libraries) - len(unused), failed + len(unused)
        for library in unused:
            print(f"FAILED crates.txt: {crate}: no file of it names {library}")
    print(f"{passed} passed, {failed} failed")
    return 1 if failed else 0


if __name__ == "__main__":
    sys.exit(main())
