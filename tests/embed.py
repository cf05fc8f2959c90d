#!/usr/bin/env python3
"""Tests of libmaglev through C, Python and Go: beside the program's `table` and `pick` over random cases, its faults, memory that
is refused, the example of a data plane, the commands of docs/EMBEDDING.md in a clone that has it in dist/lib, and what bin/install
puts below a prefix and takes away again.

embed.py [SEED [COUNT]]: by default COUNT is 1,000. The library is built, or that of the folder that MAGLEV_LIB names, which is as
dist/lib. What a tool that isn't installed would show is skipped with a word. The last line is 'N passed, N failed'.
"""
import doctest
import os
import pathlib
import random
import re
import shlex
import shutil
import subprocess
import sys
import tempfile

from harness import PROGRAM, TOP, check, run_tests

sys.path.append(str(TOP / "bin"))
import build
import dist

EXAMPLES = TOP / "examples" / "embed"
SEED, COUNT = [int(word) for word in sys.argv[1:3] + ["1", "1000"][len(sys.argv) - 1:]][:2]
STRICT = ["-Wall", "-Wextra", "-Wpedantic", "-Werror", "-I", str(TOP / "share" / "include")]
COMPILER = next((word for word in (os.environ.get("CC", "cc"), "gcc", "clang") if shutil.which(word)), None)
WRAPPED = ["-Wl,--wrap=malloc,--wrap=realloc,--wrap=free", "-lpthread"]
LETTERS = "ABCDEFGHIJKLMNOPQRSTUVWXYZabcdefghijklmnopqrstuvwxyz0123456789"
FOLDER = tempfile.TemporaryDirectory()
MADE = pathlib.Path(FOLDER.name)
HERE, OTHER = dist.MADE
# The folder of the machine's library that the tests use.
LIBRARIES = {HERE: MADE, OTHER: MADE / "other"}
ASKED = ["7", "sum", "A", "B", "C*2"]


def did(words, **more):
    """Runs a command, and gives status and both outputs."""
    done = subprocess.run([str(word) for word in words], capture_output=True, timeout=600, check=False, **more)
    return done.returncode, done.stdout, done.stderr


def compiled(source, *options, name=None, compiler=COMPILER, folder=MADE):
    """Compiles and links a caller with the archive of a folder, and gives its program; none where that can't be done."""
    program = folder / (name or source.stem)
    words = [compiler, "-O2", "-std=c11", *STRICT, source, folder / "libmaglev.a", *options, "-o", program]
    status, _, err = did(words)
    return program if status == 0 else check(f"{source.name} {options} is compiled", False, err.decode())


def library_of(target):
    """Puts the library of a machine into its folder, built or as it is given."""
    folder, given = LIBRARIES[target], os.environ.get("MAGLEV_LIB")
    folder.mkdir(exist_ok=True)
    if given:
        for name in dist.MADE[target]:
            shutil.copy(pathlib.Path(given) / dist.lib_folder(target).name / name, folder)
        return
    made = did([sys.executable, TOP / "bin" / "library.py", folder, target])
    check(f"the library for {target}", made[0] == 0, made[2].decode())


def test_a_build():
    """The library is built, and the module finds it."""
    library_of(HERE)
    os.environ["LIBMAGLEV"] = str(MADE / "libmaglev.so.0")
    sys.path.insert(0, str(EXAMPLES))
    import maglev

    shown = doctest.testmod(maglev)
    check("the module's own example", (shown.failed, shown.attempted) == (0, 1), shown)


def test_header():
    """The header is one of C++ too, and the library needs memory and copies of it alone."""
    if shutil.which("g++"):
        text = b'#include "maglev.h"\nint main() { return 0; }\n'
        check("the header in C++", did(["g++", *STRICT, "-x", "c++", "-fsyntax-only", "-"], input=text)[0] == 0)
    if shutil.which("nm"):
        named = {line.split()[-1] for line in did(["nm", "-u", MADE / "libmaglev.a"])[1].decode().splitlines() if " U " in line}
        heap = {"rattle_alloc", "rattle_realloc", "rattle_dealloc"}
        check("what it needs", named == {"malloc", "realloc", "free", "memcpy", "memmove", "memset"} | heap, named)
        shown = did(["nm", "-D", "--defined-only", MADE / "libmaglev.so.0"])[1].decode().split()[2::3]
        check("what it shows", shown == [f"maglev_{name}" for name in ("differing", "slot", "slots", "table")], shown)


def test_calls():
    """Faults and their numbers, each allocation refused in turn, and calls from threads; also under sanitizers and valgrind."""
    source = TOP / "tests" / "embed_calls.c"
    plain = compiled(source, *WRAPPED)
    if plain:
        answer = did([plain])
        check("calls in C", answer == (0, b"calls 44 wrong 0\n", b""), answer)
    if plain and shutil.which("valgrind"):
        answer = did(["valgrind", "-q", "--leak-check=full", "--error-exitcode=9", plain])
        check("calls under valgrind", answer == (0, b"calls 44 wrong 0\n", b""), answer)
    hollow = ["-fsanitize=address,undefined", "-fno-sanitize-recover=all"]
    if did([COMPILER, *hollow, "-x", "c", "-", "-o", MADE / "hollow"], input=b"int main(void) { return 0; }")[0]:
        print("sanitizers aren't installed: what they show is skipped")
        return
    watched = compiled(source, *hollow, *WRAPPED, name="watched")
    answer = did([watched]) if watched else None
    check("calls under sanitizers", answer == (0, b"calls 44 wrong 0\n", b""), answer)


def random_case(rng):
    """A size, a hash, names with weights, and a flow."""
    size = rng.choice([7, 7, 13, 13, 251, 251, 251, 1021] if rng.random() < 0.98 else [8191, 65537])
    names = {"".join(rng.choices(LETTERS, k=1)) + "".join(rng.choices(LETTERS + "-.", k=rng.randrange(9))) for _ in range(rng.randint(1, min(size, 40)))}
    names = rng.sample(sorted(names), len(names))
    weights = [rng.randint(1, 16) for _ in names] if rng.random() < 0.5 else []
    flow = (rng.getrandbits(32), rng.getrandbits(32), rng.getrandbits(16), rng.getrandbits(16), rng.choice([6, 17]))
    return size, rng.choice(["fnv", "sha256", "sum"]), names, weights, flow


def datagram(flow):
    """A datagram of a flow, as hex. Its checksum isn't that of the header."""
    src, dst, sport, dport, proto = flow
    ports = sport.to_bytes(2, "big") + dport.to_bytes(2, "big")
    payload = ports + (bytes(8) + b"\x50" + bytes(7) if proto == 6 else b"\x00\x08\x00\x00")
    head = b"\x45\x00" + (20 + len(payload)).to_bytes(2, "big") + bytes(4) + bytes([64, proto]) + bytes(2)
    return (head + src.to_bytes(4, "big") + dst.to_bytes(4, "big") + payload).hex().encode()


def compare(case, callers):
    """What the program prints of a case, beside both callers in C, each the words that run it, and the module."""
    import maglev

    size, hash_word, names, weights, flow = case
    words = [f"{name}*{weight}" for name, weight in zip(names, weights)] or names
    asked = ["--size", str(size), "--hash", hash_word, *words]
    table = did([PROGRAM, "table", *asked])[1]
    pick = did([PROGRAM, "pick", "--no-check", *asked], input=datagram(flow))[1]
    owners = [line.split()[1] for line in table.decode().splitlines()[1 : size + 1]]
    slot = maglev.slot_of(size, hash_word, maglev.Flow(*flow))
    line = f" slot {slot} backend {owners[slot]}\n".encode()
    in_c = [did([*caller, size, hash_word, *words], input=" ".join(map(str, flow)).encode())[1] for caller in callers]
    return in_c[0] == table and maglev.table(size, hash_word, names, weights) == owners and pick.endswith(line) and in_c[1] == line[1:]


def compare_cases(count, callers, where=""):
    """Compares so many random cases."""
    rng = random.Random(SEED)
    for number in range(count):
        case = random_case(rng)
        check(f"case {number} of seed {SEED}{where}", compare(case, callers), case)


def test_random_cases():
    """1,000 random tables and flows."""
    callers = [compiled(EXAMPLES / "table.c"), compiled(EXAMPLES / "flows.c")]
    if all(callers):
        compare_cases(COUNT, [[caller] for caller in callers])


def raised(call, *words):
    """The name of what a call raises."""
    try:
        call(*words)
    except Exception as error:  # noqa: BLE001
        return type(error).__name__
    return None


def test_exceptions():
    """Each fault has its exception; where several reasons hold the first is raised."""
    import maglev

    rows = [("BadSize", 8, "md5", [""]), ("BadSize", -1, "sum", ["A"]), ("BadSize", 2**32 + 7, "sum", ["A"]), ("BadHash", 7, "md5", [""])]
    rows += [("BadName", 7, "sum", []), ("BadName", 7, "sum", ["A", "B\nC"]), ("BadName", 7, "sum", ["A", "A", "é"], [1]), ("BadName", 7, "sum", ["a" * 33])]
    rows += [("TooMany", 7, "sum", list("AABCDEFG"), [1]), ("BadWeight", 7, "sum", ["A", "A"], [1]), ("BadWeight", 7, "sum", ["A"], [257])]
    rows += [("DoubleName", 7, "sum", ["A", "B", "A"], [1, 2, 3]), (None, 7, "sum", ["A", "B"], [16, 1])]
    for fault, *words in rows:
        check(f"{fault} of {words}", raised(maglev.table, *words) == fault, raised(maglev.table, *words))
    check("slots of a bad size", raised(maglev.slots_of, 8, "md5", []) == "BadSize")
    check("slots by a bad hash", raised(maglev.slots_of, 7, "md5", []) == "BadHash")
    check("no slots", maglev.slots_of(7, "sum", []) == [])
    check("tables of two sizes", raised(maglev.differing, [0] * 7, [0] * 13) == "BadRoom")
    check("slots that differ", maglev.differing([0, 1, 2, 0, 1, 2, 0], [0, 1, 2, 0, 2, 1, 0]) == 2)


def runner(target):
    """The words that run a program of a machine: none here, qemu's name for another; None where it isn't installed."""
    machine = target.partition("-")[0]
    if machine == os.uname().machine:
        return []
    return next(([tool] for tool in (f"qemu-{machine}", f"qemu-{machine}-static") if shutil.which(tool)), None)


def bare(folder, target):
    """A caller without a C library, linked with the archive in a folder for a machine by the kit; what its run answered, if it ran."""
    kit = build.toolchain()
    headers = did([COMPILER, "-print-file-name=include"])[1].decode().strip()
    options = ["-O1", "-ffreestanding", "-fno-builtin", "-nostdinc", "-isystem", headers, "-I", TOP / "share" / "include"]
    linked = ["-nostdlib", "-static", "-fuse-ld=lld", "-B", kit, folder / "libmaglev.a", "-o", folder / "bare"]
    made = did([kit / "clang", f"--target={target}", *options, TOP / "tests" / "embed_bare.c", *linked])
    check(f"a caller without a C library, for {target}", made[0] == 0, made[2].decode())
    by = runner(target)
    if by is None:
        print(f"qemu for {target} isn't installed: what it shows is skipped")
        return None
    return did([*by, folder / "bare"])


def from_c(folder, target):
    """Callers in C for a machine: calls, faults and refused memory, and a twentieth of the random cases."""
    machine = target.partition("-")[0]
    cross, by = shutil.which(f"{machine}-linux-gnu-gcc"), runner(target)
    if cross is None or by is None:
        print(f"a C compiler or qemu for {target} isn't installed: what callers in C show there is skipped")
        return
    sources = [(TOP / "tests" / "embed_calls.c", WRAPPED), (EXAMPLES / "table.c", []), (EXAMPLES / "flows.c", [])]
    made = [compiled(source, *options, "-static", compiler=cross, folder=folder) for source, options in sources]
    if not all(made):
        return
    answer = did([*by, made[0]])
    check(f"calls in C for {target}", answer == (0, b"calls 44 wrong 0\n", b""), answer)
    compare_cases(COUNT // 20, [[*by, caller] for caller in made[1:]], f" for {target}")


def test_b_machines():
    """The archive needs no C library. That of another machine is built and linked too, and runs where qemu is."""
    check("a run without a C library", bare(MADE, HERE) == (0, b"", b""))
    library_of(OTHER)
    check("its run", bare(LIBRARIES[OTHER], OTHER) in (None, (0, b"", b"")))
    from_c(LIBRARIES[OTHER], OTHER)


def test_data_plane():
    """The example of a data plane picks what simulate sent."""
    played = did([PROGRAM, "simulate", "--list", TOP / "examples" / "failover.toml", TOP / "examples" / "failover.pcap", MADE / "sent.pcap"])[1]
    (MADE / "listing").write_bytes(played)
    status, out, err = did([sys.executable, EXAMPLES / "failover.py", MADE / "listing"])
    lines = out.decode().splitlines()
    check("it ends well", (status, err) == (0, b""), err)
    check("each packet that was forwarded", len(lines) == played.count(b": forward "), out)
    check("choices that are new, and one that was remembered", [line.split()[4] for line in lines].count("remembered,") == 1, out)
    for words in [[], ["a", "b"]]:
        answer = did([sys.executable, EXAMPLES / "failover.py", *words])
        check(f"failover.py {words}", answer[:2] == (2, b"") and answer[2].startswith(b"usage: "), answer)
    check("servers of clients", [line.split()[3] for line in lines] == "web-1 web-2 web-2 web-3 web-1 web-3 web-3 web-3 web-3".split(), out)


def path_without(tools, room):
    """A PATH without some tools: for each of its folders one with links to all else that is there."""
    folders = [pathlib.Path(folder) for folder in os.environ["PATH"].split(os.pathsep) if os.path.isdir(folder)]
    for place, folder in enumerate(folders):
        (room / str(place)).mkdir(parents=True)
        for tool in folder.iterdir():
            if tool.name not in tools:
                (room / str(place) / tool.name).symlink_to(tool)
    return os.pathsep.join(str(room / str(place)) for place in range(len(folders)))


def cloned(top):
    """Copies the tree as it would be cloned after bin/release: nothing built, and dist/ with the program and the library that are
    tested."""
    left = shutil.ignore_patterns("out", "__pycache__", ".git")
    shutil.copytree(TOP, top, ignore=left)
    program = dist.stripped((dist.BUILT if build.is_current("maglev") else dist.DIST / "maglev").read_bytes())
    write = f"import dist, pathlib; dist.write(pathlib.Path({str(MADE / 'program')!r}).read_bytes(), {{{HERE!r}: pathlib.Path({str(MADE)!r}), {OTHER!r}: pathlib.Path({str(LIBRARIES[OTHER])!r})}})"
    (MADE / "program").write_bytes(program)
    made = did([sys.executable, "-c", write], cwd=top / "bin")
    check("dist/ of a clone", made[0] == 0, made[2].decode())
    shutil.rmtree(top / "bin" / "__pycache__", ignore_errors=True)


def without(tools, **more):
    """The environment without some tools, without a word for a C compiler, and without a library that is named."""
    env = {name: word for name, word in os.environ.items() if name not in ("CC", "LIBMAGLEV", "MAGLEV_LIB")}
    return {**env, "PATH": path_without(tools, pathlib.Path(tempfile.mkdtemp(dir=MADE))), **more}


def page(start):
    """The command of docs/EMBEDDING.md that begins so: a line that stands alone."""
    text = (TOP / "docs" / "EMBEDDING.md").read_text()
    return re.search(rf"^    ({re.escape(start)}.*)$", text, re.MULTILINE).group(1)


def files_below(folder):
    """All that lies below a folder, but for the program's list of what it has."""
    return {str(path.relative_to(folder)) for path in folder.rglob("*")}


def test_clone():
    """In a clone, without the kit: the commands of docs/EMBEDDING.md, in C, Python and Go, print what the program prints."""
    top, env = MADE / "clone", without(["rt"])
    cloned(top)
    sums = did(["sh", "-c", "sha256sum -c --quiet dist/*.sha256"], cwd=top)
    check("the sums of dist/", sums == (0, b"", b""), sums)
    check("its header", (top / "dist" / "lib" / "maglev.h").read_bytes() == (TOP / "share" / "include" / "maglev.h").read_bytes())
    table = did([PROGRAM, "table", "--size", "7", "--hash", *ASKED[1:]])[1]
    made = did(["sh", "-c", page("cc examples/embed/table.c")], cwd=top, env=env)
    check("C from a clone", made[0] == 0 and did([top / "table", *ASKED])[1] == table, made)
    if shutil.which("pkg-config"):
        (top / "table").unlink(missing_ok=True)
        made = did(["sh", "-c", page("cc examples/embed/table.c $(PKG_CONFIG_PATH")], cwd=top, env=env)
        check("C by pkg-config from a clone", made == (0, b"", b"") and did([top / "table", *ASKED])[1] == table, made)
    else:
        print("pkg-config isn't installed: what it shows is skipped")
    answer = did(["sh", "-c", page("PYTHONPATH=examples/embed")], cwd=top, env=env)
    check("Python from a clone", answer == (0, b"['B', 'A', 'B', 'C', 'C', 'A', 'A']\n", b""), answer)
    for start in ["cc examples/embed/table.c", "PYTHONPATH=examples/embed"]:
        check(f"README has the same command: {start}", f"    $ {page(start)}\n" in (TOP / "README.md").read_text())
    if shutil.which("go"):
        in_go(top, {**env, "GOCACHE": str(MADE / "go"), "GOPATH": str(MADE / "go")}, table)
    else:
        print("go isn't installed: what it shows is skipped")


def in_go(top, env, table):
    """The page's command for Go prints a table in a clone; so does the program that it makes of random cases, and each fault."""
    answer = did(["sh", "-c", page("go run examples/embed/table.go")], cwd=top, env=env)
    check("Go from a clone", answer == (0, table, b""), answer)
    made = did(["go", "build", "-o", MADE / "in_go", "examples/embed/table.go"], cwd=top, env=env)
    check("a program in Go", made == (0, b"", b""), made)
    rng = random.Random(SEED)
    for number in range(COUNT // 20):
        size, hash_word, names, weights, _ = random_case(rng)
        words = [f"{name}*{weight}" for name, weight in zip(names, weights)] or names
        theirs = did([PROGRAM, "table", "--size", str(size), "--hash", hash_word, *words])
        answer = did([MADE / "in_go", size, hash_word, *words])
        check(f"case {number} of seed {SEED} in Go", answer == theirs, answer)
    for fault, *words in [("BadSize", 8, "sum", "A"), ("BadHash", 7, "md5", "A"), ("BadName", 7, "sum", ""), ("TooMany", 7, "sum", *"ABCDEFGH"), ("BadWeight", 7, "sum", "A*17"), ("DoubleName", 7, "sum", "A", "A")]:
        answer = did([MADE / "in_go", *words])
        check(f"{fault} in Go", answer == (1, b"", f"fault: {fault}\n".encode()), answer)


def test_clone_install():
    """bin/install in a clone, without the kit and without a C compiler: all of it, and no more than --uninstall takes away."""
    top, prefix = MADE / "clone", MADE / "a prefix"
    env = without(["rt", "cc", "gcc", "clang"])
    prefix.mkdir()
    (prefix / "lib").mkdir()
    (prefix / "lib" / "other").write_text("")
    before = files_below(prefix)
    done = did([top / "bin" / "install", prefix], env=env)
    check("bin/install", done[0] == 0 and b"library:" not in done[2], done)
    for name in dist.MADE[HERE]:
        check(f"{name} is that of dist/", (prefix / "lib" / name).read_bytes() == (MADE / name).read_bytes())
    check("the header", (prefix / "include" / "maglev.h").read_bytes() == (top / "share" / "include" / "maglev.h").read_bytes())
    there = prefix / "share" / "doc" / "maglev"
    for folder in ["docs", "examples"]:
        check(f"{folder}/", files_below(there / folder) == files_below(top / folder), files_below(there / folder) ^ files_below(top / folder))
    manual = (prefix / "share" / "man" / "man1" / "maglev.1").read_text()
    named = {pathlib.Path(word) for word in re.findall(r"(/\S+/(?:docs|examples)/[\w.]*\w)", manual.replace("a prefix", "a_prefix").replace("\\-", "-"))}
    named = {pathlib.Path(str(path).replace("a_prefix", "a prefix")) for path in named}
    check("the page names files where they are", len(named) > 3 and all(path.exists() for path in named), named)
    if shutil.which("pkg-config"):
        told = did(["pkg-config", "--cflags", "--libs", "maglev"], env={**env, "PKG_CONFIG_PATH": str(prefix / "lib" / "pkgconfig")})
        check("pkg-config of a prefix with a space", shlex.split(told[1].decode()) == [f"-I{prefix}/include", f"-L{prefix}/lib", "-lmaglev"], told)
    listed = {line.rstrip("/") for line in (there / "installed").read_text().splitlines()}
    check("the list has all that was put there", listed == files_below(prefix) - before, listed ^ (files_below(prefix) - before))
    again = did([top / "bin" / "install", prefix], env=env)
    check("bin/install again", again[0] == 0 and {line.rstrip("/") for line in (there / "installed").read_text().splitlines()} == listed, again)
    gone = did([top / "bin" / "install", "--uninstall", prefix], env=env)
    check("--uninstall", gone == (0, b"", b"") and files_below(prefix) == before, (gone, files_below(prefix) ^ before))
    gone = did([top / "bin" / "install", "--uninstall", prefix], env=env)
    check("nothing is left to take away", gone[:2] == (1, b"") and files_below(prefix) == before, gone)
    done = did([top / "bin" / "install", "--target", OTHER, prefix], env=env)
    check("the library of another machine", done[0] == 0 and (prefix / "lib" / "libmaglev.a").read_bytes() == (LIBRARIES[OTHER] / "libmaglev.a").read_bytes(), done)
    check("nothing else of it", not (prefix / "bin").exists() and not (prefix / "lib" / "libmaglev.so.0").exists())


def test_clone_made_folders():
    """--uninstall removes PREFIX too, and the folders above it that bin/install made, where nothing else is in them."""
    install, above = MADE / "clone" / "bin" / "install", MADE / "made"
    above.mkdir()
    for word in ("it", "for/it", "for/../it"):
        done = did([install, "--target", OTHER, word], cwd=above)
        put = above / os.path.normpath(word) / "lib" / "libmaglev.a"
        check(f"bin/install {word}", done[0] == 0 and put.exists(), done)
        gone = did([install, "--uninstall", os.path.normpath(word)], cwd=above)
        check(f"nothing of {word} is left", gone == (0, b"", b"") and not files_below(above), (gone, files_below(above)))
    did([install, "--target", OTHER, "for/it"], cwd=above)
    (above / "for" / "kept").write_text("")
    gone = did([install, "--uninstall", "it"], cwd=above / "for")
    check("--uninstall beside a file", gone == (0, b"", b"") and files_below(above) == {"for", "for/kept"}, (gone, files_below(above)))


def test_clone_of_changes():
    """Where the library of dist/ isn't the tree's, or isn't whole, bin/install doesn't take it: without the kit the rest is installed."""
    top, env = MADE / "clone", without(["rt"])
    missing = "library: libmaglev isn't built: there is no rt on the PATH, which proves it\n"
    for place, name in enumerate(["share/lib/heap.c", "share/include/maglev.h", "dist/lib/x86_64-linux-gnu/libmaglev.a"]):
        kept, prefix = (top / name).read_bytes(), MADE / f"prefix{place}"
        (top / name).write_bytes(kept + b"\n")
        # As in a new clone, in which bin/install has to look which program it is that runs.
        shutil.rmtree(top / "crates" / "maglev" / "out", ignore_errors=True)
        status, _, err = did([top / "bin" / "install", prefix], env=env)
        check(f"{name} changed: bin/install says so", status == 0 and err.decode().endswith(missing), err)
        check("it installs the rest", (prefix / "bin" / "maglev").exists() and not (prefix / "lib").exists())
        other = did([top / "bin" / "install", "--target", OTHER, MADE / "none"], env=env)
        check("there is no library of another machine", other[:2] == (3, b"") and not (MADE / "none").exists(), other)
        (top / name).write_bytes(kept)


def test_install():
    """Callers are compiled and run from what bin/install put below a prefix, as docs/EMBEDDING.md says."""
    prefix = MADE / "prefix"
    status, _, err = did([MADE / "clone" / "bin" / "install", prefix])
    files = ["include/maglev.h", "lib/libmaglev.a", "lib/libmaglev.so", "lib/libmaglev.so.0", "lib/pkgconfig/maglev.pc"]
    check("bin/install", status == 0 and all((prefix / name).exists() for name in files), err)
    options = [f"-I{prefix}/include", f"-L{prefix}/lib", "-lmaglev"]
    theirs = did([PROGRAM, "table", "--size", "7", "--hash", *ASKED[1:]])
    env = without([], PREFIX=str(prefix))
    if shutil.which("pkg-config"):
        told = did(["pkg-config", "--cflags", "--libs", "maglev"], env={**env, "PKG_CONFIG_PATH": str(prefix / "lib" / "pkgconfig")})
        check("pkg-config", told[1].decode().split() == options, told)
        room = MADE / "room"
        room.mkdir()
        lines = [page("export PKG_CONFIG_PATH="), page("export LD_LIBRARY_PATH="), page("cc $PREFIX"), "./table 7 sum A B 'C*2'"]
        answer = did(["sh", "-e", "-c", "\n".join(lines)], cwd=room, env=env)
        check("the page's commands for an install", answer == theirs, answer)
    module = {**env, "PYTHONPATH": str(prefix / "share" / "doc" / "maglev" / "examples" / "embed"), "PYTHONDONTWRITEBYTECODE": "1"}
    module.pop("LD_LIBRARY_PATH", None)
    answer = did([sys.executable, "-c", "import maglev; print(maglev._named(), *maglev.table(7, 'sum', ['A', 'B', 'C']))"], env=module, cwd="/")
    check("the module that was installed", answer == (0, f"{prefix}/lib/libmaglev.so.0 B A B C C A A\n".encode(), b""), answer)
    words = [COMPILER, "-std=c11", EXAMPLES / "table.c", *options, f"-Wl,-rpath,{prefix}/lib", "-o", MADE / "shared"]
    check("a caller of the shared library", did(words)[0] == 0)
    ours = did([MADE / "shared", *ASKED])
    check("what it prints", ours == theirs and ours[0] == 0, ours)


def test_install_misused():
    """What bin/install refuses, and its help."""
    told = did([TOP / "bin" / "install", "--help"])
    check("its help", told[::2] == (0, b"") and told[1].startswith(b"usage: install [--target TARGET] PREFIX\n"), told)
    for words in [[], ["--target", "x"], ["--uninstall"], ["--all"], ["a", "b"], [""], ["--uninstall", "--help"]]:
        check(f"bin/install {words}", did([TOP / "bin" / "install", *words])[:2] == (2, b""))
    for target in ["riscv64-unknown-linux-gnu", "x86_64-linux-gnu", "x", ""]:
        answer = did([TOP / "bin" / "install", "--target", target, MADE / "nowhere"])
        named = target and f"install: there is no library for {target}: TARGET is {HERE} or {OTHER}\n"
        check(f"a machine {target!r} that isn't offered", answer[:2] == (2, b"") and answer[2].decode().startswith(named), answer)
        check(f"nothing is made for {target!r}", not (MADE / "nowhere").exists())


if __name__ == "__main__":
    sys.exit(run_tests(globals()))
