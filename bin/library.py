#!/usr/bin/env python3
"""library.py FOLDER [TARGET]: writes libmaglev.a, and for x86-64 libmaglev.so.0 too, into a folder.

The archive has the object of the crate maglev_ffi, which is proved before it is built, and the heap of share/lib/heap.c. The kit's
own tools compile, link and archive, so that the bytes are the same on each machine that has the kit. TARGET is the machine that
the library is for, x86_64-unknown-linux-gnu if none is named. Status 3: it can't be built, and a line says why.
"""
import fcntl
import pathlib
import shutil
import subprocess
import sys
import tempfile

import build

CRATE = "maglev_ffi"
HERE = "x86_64-unknown-linux-gnu"
HEAP = build.TOP / "share" / "lib" / "heap.c"
HEAP_BY = ["-O2", "-fPIC", "-ffreestanding", "-fno-ident"]
# The whole archive with nothing left open, tables of addresses that can't be written, and the C library alone behind it.
SHARED = ["-shared", "-soname", "libmaglev.so.0", "-z", "defs", "-z", "now", "-z", "relro", "--hash-style=gnu", "--strip-all"]


class Missing(Exception):
    """What the library can't be built without."""


def proved():
    """Where the archive of the crate is, which is proved and built first where its code is newer. Of two calls at once one does so."""
    out = build.CRATES / CRATE / "out"
    out.mkdir(exist_ok=True)
    with open(out / "library", "w") as held:
        fcntl.flock(held, fcntl.LOCK_EX)
        if not build.is_current(CRATE) and not build.build(CRATE):
            raise Missing(f"the crate {CRATE} isn't proved")
    return build.archive_of(CRATE)


def archive(target):
    """The archive of the crate for a machine, as bytes."""
    made = proved()
    if target == HERE:
        return made.read_bytes()
    # Not below a folder that is copied.
    room = build.CRATES / "maglev" / "out"
    room.mkdir(exist_ok=True)
    with tempfile.TemporaryDirectory(dir=room) as folder:
        build.make_tree(pathlib.Path(folder), CRATE, build.stands_on())
        crate = pathlib.Path(folder) / "crates" / CRATE
        done = build.rt_in(crate, "lib", "--target", target)
        if done.returncode:
            raise Missing(f"rt lib --target {target}: {done.stdout}{done.stderr}")
        return (crate / "out" / made.name).read_bytes()


def write(folder, target):
    """Writes the library of a machine into a folder."""
    if not shutil.which("rt"):
        raise Missing("there is no rt on the PATH, which proves it")
    tools, whole = build.toolchain(), folder / "libmaglev.a"
    whole.write_bytes(archive(target))
    with tempfile.TemporaryDirectory() as room:
        heap = pathlib.Path(room) / "heap.o"
        subprocess.run([tools / "clang", f"--target={target}", *HEAP_BY, "-c", "-o", heap, HEAP], check=True)
        subprocess.run([tools / "llvm-ar", "rsD", whole, heap], check=True, capture_output=True)
    if target == HERE:
        words = ["--whole-archive", whole, "--no-whole-archive", tools.parent / "lib" / "libc.so.6"]
        subprocess.run([tools / "ld.lld", *SHARED, "-o", folder / "libmaglev.so.0", *words], check=True)


if __name__ == "__main__":
    try:
        write(pathlib.Path(sys.argv[1]), sys.argv[2] if len(sys.argv) > 2 else HERE)
    except Missing as why:
        print(f"library: libmaglev isn't built: {why}", file=sys.stderr)
        sys.exit(3)
