#!/usr/bin/env python3
"""dist.py release | check | compare: the program and the library of dist/, and what they were made from.

dist/maglev is the program that the gate proved and built, without what isn't loaded when it runs. Below dist/lib is libmaglev for
each machine, as bin/library.py writes it, with the header and what pkg-config says of the one for x86-64 (maglev.h, maglev.pc).
Beside them are their SHA-256 (maglev.sha256, lib.sha256), the line of the kit that made them (kit), and the SHA-256 of crates.txt
and of each file that they are made from (sources.sha256, lib_sources.sha256).
`sha256sum -c dist/*.sha256`, at the top, holds dist/ and the tree to them.

`release` writes dist/ from the program in crates/maglev/out/, where nothing that it is made from is newer, and from the library,
which is proved first where it isn't. `check` is the gate's: it fails where the sums aren't the tree's, and where the program or the
library that was built here is another one by the kit of dist/. Under another kit they may be others: then the program of dist/ has
to answer the rows of the end-to-end tests as the one that was built here did, and the library of dist/ those of tests/embed.py. Its
last line is 'N passed, N failed'. `compare` says whether the program that was built here is that of dist/, by its status too.
"""
import hashlib
import os
import pathlib
import re
import struct
import shutil
import subprocess
import sys
import tempfile

import build
import library

TOP = build.TOP
DIST = TOP / "dist"
LIB = DIST / "lib"
# What dist/lib has of each machine.
MADE = {"x86_64-unknown-linux-gnu": ["libmaglev.a", "libmaglev.so.0"], "aarch64-unknown-linux-gnu": ["libmaglev.a"]}
HEADER = TOP / "share" / "include" / "maglev.h"
PACKAGE = TOP / "share" / "lib" / "maglev.pc.in"
BUILT = TOP / "crates" / "maglev" / "out" / "maglev"
# A segment of notes, and a note that has the linker's sum of the whole file.
NOTES, BUILD_ID = 4, 3


def segments(program):
    """The type, the place and the length of each segment of a program."""
    at, size, count = *struct.unpack_from("<Q", program, 32), *struct.unpack_from("<HH", program, 54)
    for head in range(at, at + size * count, size):
        kind, place, length = *struct.unpack_from("<I", program, head), *struct.unpack_from("<Q16xQ", program, head + 8)
        yield kind, place, length


def clear_build_id(program, at, end):
    """Writes zeros for the linker's sum among these notes: it is one of symbols and comments too."""
    while at < end:
        name, length, kind = struct.unpack_from("<III", program, at)
        text = at + 12 + (name + 3) // 4 * 4
        if kind == BUILD_ID and program[at + 12:at + 16] == b"GNU\0":
            program[text:text + length] = bytes(length)
        at = text + (length + 3) // 4 * 4


def stripped(program):
    """A program of 64 bits without what isn't loaded: its sections' names and table, symbols and comments."""
    program = bytearray(program)
    assert program[:6] == b"\x7fELF\x02\x01", "the program isn't one for x86-64 Linux"
    for kind, place, length in segments(program):
        if kind == NOTES:
            clear_build_id(program, place, place + length)
    # no table of sections, whose entries are 64 bytes long
    struct.pack_into("<Q", program, 40, 0)
    struct.pack_into("<HHH", program, 58, 64, 0, 0)
    return bytes(program[:max(place + length for _, place, length in segments(program))])


def sum_of(data):
    return hashlib.sha256(data).hexdigest()


def sums_text(files):
    """The lines of sha256sum for some files, by their paths from the top."""
    lines = [(str(path.relative_to(TOP)), sum_of(path.read_bytes())) for path in files]
    return "".join(f"{digest}  {path}\n" for path, digest in sorted(lines))


def sources_text():
    return sums_text(path for path in build.sources("maglev") if path.is_file())


def lib_sources_text():
    """The sums of what the library is made from, and of the header that says what it has."""
    code = [path for path in build.sources(library.CRATE) if path.is_file()]
    return sums_text([*code, library.HEAP, HEADER])


def machine_files():
    """The files of dist/lib that are made for a machine."""
    return [lib_folder(target) / name for target, names in MADE.items() for name in names]


def common_files():
    """The other files of dist/lib, with what they should hold: the header, and what pkg-config says of the library for x86-64,
    which it finds beside that file."""
    told = subprocess.run([DIST / "maglev", "--version"], capture_output=True, text=True, check=True).stdout.split()
    words = {"PREFIX": "${pcfiledir}", "INCLUDE": "", "LIB": lib_folder(library.HERE).name, "VERSION": told[1]}
    package = re.sub(r"@(\w+)@", lambda found: words[found[1]], PACKAGE.read_text())
    return {LIB / HEADER.name: HEADER.read_bytes(), LIB / PACKAGE.stem: package.encode()}


def lib_files():
    """The files of dist/lib, as they should be."""
    return [*machine_files(), *common_files()]


def lib_folder(target):
    """Where dist/ has the library of a machine, which is named without its vendor."""
    return LIB / target.replace("-unknown", "")


def kit():
    """The kit's line; none where there is no kit."""
    try:
        return subprocess.run(["rt", "version"], capture_output=True, text=True, check=True).stdout.strip()
    except OSError:
        return ""


def read(name):
    """The text of a file of dist/, none where it isn't there."""
    path = DIST / name
    return path.read_text() if path.exists() else ""


def put(path, data, mode=0o644):
    """Writes a file of dist/, and the folders that it's in."""
    path.parent.mkdir(parents=True, exist_ok=True)
    path.write_bytes(data)
    path.chmod(mode)


def write(program, libraries):
    """Writes dist/: this program, and of each machine the library in a folder."""
    put(DIST / "maglev", program, 0o755)
    shutil.rmtree(LIB, ignore_errors=True)
    for target, names in MADE.items():
        for name in names:
            put(lib_folder(target) / name, (libraries[target] / name).read_bytes())
    for path, data in common_files().items():
        put(path, data)
    (DIST / "maglev.sha256").write_text(sums_text([DIST / "maglev"]))
    (DIST / "sources.sha256").write_text(sources_text())
    (DIST / "lib.sha256").write_text(sums_text(lib_files()))
    (DIST / "lib_sources.sha256").write_text(lib_sources_text())
    (DIST / "kit").write_text(kit() + "\n")


def built_libraries(room):
    """The folder of each machine's library that is built here, below a folder."""
    found = {target: room / target for target in MADE}
    for target, folder in found.items():
        folder.mkdir()
        library.write(folder, target)
    return found


def release():
    """Writes dist/. Whether that could be done."""
    if not build.is_current("maglev"):
        print("dist: the program isn't built from this tree: run bin/prove, or the gate, first", file=sys.stderr)
        return False
    with tempfile.TemporaryDirectory() as room:
        try:
            write(stripped(BUILT.read_bytes()), built_libraries(pathlib.Path(room)))
        except library.Missing as why:
            print(f"dist: libmaglev isn't built: {why}", file=sys.stderr)
            return False
    for path in [DIST / "maglev", *lib_files()]:
        print(f"{path.relative_to(TOP)}, {path.stat().st_size} bytes, by {kit()}")
    return True


def changed(name="sources.sha256", text=None):
    """The paths whose sums in a list of dist/ aren't those of the tree."""
    ours = sources_text() if text is None else text
    return sorted({line[66:] for line in set(read(name).splitlines()) ^ set(ours.splitlines())})


def is_same():
    """Whether the program that was built here is that of dist/, to the byte."""
    return BUILT.exists() and stripped(BUILT.read_bytes()) == (DIST / "maglev").read_bytes()


def passes(script, **said):
    """Whether a script of tests/ ends well with these words in its environment."""
    words = [sys.executable, str(TOP / "tests" / script)]
    return subprocess.run(words, env={**os.environ, **said}, check=False).returncode == 0


def check_program():
    """What has to hold of the program of dist/, and whether it does."""
    if not BUILT.exists():
        print(f"no program was built here: there is no {BUILT.relative_to(TOP)}")
    if changed():
        print(f"changed since dist/ was made: {' '.join(changed()[:8])}")
    yield "dist/ has the sums of this tree", not changed()
    yield "dist/maglev has the sum that dist/ gives", sums_text([DIST / "maglev"]) == read("maglev.sha256")
    if kit() == read("kit").strip():
        yield "the program that was built here is dist/maglev to the byte", is_same()
    elif is_same():
        yield "by another kit too the program is dist/maglev to the byte", True
    else:
        print(f"the kit is {kit()}, and dist/ was made by {read('kit').strip()}: their programs are compared by what they print")
        yield "dist/maglev prints what the program that was built here prints", passes("end_to_end.py", MAGLEV_PROGRAM=str(DIST / "maglev"))


def unlike():
    """The files of dist/lib that aren't what is built here, to the byte."""
    with tempfile.TemporaryDirectory() as room:
        built = built_libraries(pathlib.Path(room))
        pairs = [(lib_folder(target) / name, built[target] / name) for target, names in MADE.items() for name in names]
        return [ours for ours, theirs in pairs if ours.read_bytes() != theirs.read_bytes()]


def check_library():
    """What has to hold of the library of dist/, and whether it does."""
    missing = [str(path.relative_to(TOP)) for path in lib_files() if not path.exists()]
    if missing:
        print(f"there is no {' '.join(missing)}: bin/release writes it")
        yield "dist/lib has the library of each machine", False
        return
    others = changed("lib_sources.sha256", lib_sources_text())
    if others:
        print(f"changed since dist/lib was made: {' '.join(others[:8])}")
    yield "dist/lib has the sums of this tree", not others
    yield "the files of dist/lib have the sums that dist/ gives", sums_text(lib_files()) == read("lib.sha256")
    for path, data in common_files().items():
        yield f"{path.relative_to(TOP)} is what the tree says", path.read_bytes() == data
    try:
        differ = unlike()
    except library.Missing as why:
        print(f"libmaglev isn't built: {why}")
        yield "the library is built here", False
        return
    if differ and kit() != read("kit").strip():
        print(f"the kit is {kit()}, and dist/ was made by {read('kit').strip()}: their libraries are compared by what callers get")
        yield "callers get of dist/lib what the tests expect", passes("embed.py", MAGLEV_LIB=str(LIB))
        return
    for path in machine_files():
        yield f"the library that was built here is {path.relative_to(TOP)} to the byte", path not in differ


def check():
    """Holds dist/ to the tree and to what was built here. Whether all is well."""
    found = []
    for what, holds in [*check_program(), *check_library()]:
        print(f"{'ok' if holds else 'FAILED'}: {what}")
        found.append(holds)
    print(f"{found.count(True)} passed, {found.count(False)} failed")
    return all(found)


def compare():
    """Says whether the program that was built here is that of dist/."""
    if is_same():
        print(f"the program that was built here is dist/maglev to the byte, SHA-256 {sum_of((DIST / 'maglev').read_bytes())}")
        return True
    print("the program that was built here isn't dist/maglev")
    if changed():
        print(f"the code isn't that of dist/: {' '.join(changed()[:8])}")
    if kit() != read("kit").strip():
        print(f"the kit is {kit()}, and dist/ was made by {read('kit').strip()}")
    return False


if __name__ == "__main__":
    if sys.argv[1] != "release" and not (DIST / "maglev").exists():
        sys.exit("dist: there is no dist/maglev: bin/release writes it")
    sys.exit(0 if {"release": release, "check": check, "compare": compare}[sys.argv[1]]() else 1)
