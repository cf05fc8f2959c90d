#!/usr/bin/env python3
"""Tests of what stands around the program: its man page and completions, bin/install, and the commands of docs/USING.md.

What a tool that isn't installed would show is skipped with a word. The last line is 'N passed, N failed'.
"""
import hashlib
import os
import pathlib
import re
import shutil
import struct
import subprocess
import sys
import tempfile

import model
from harness import TOP, check, run_tests

EXAMPLE = TOP / "examples" / "failover"


def has(tool):
    """Whether a tool is installed; where it isn't its tests are skipped."""
    there = shutil.which(tool) is not None
    if not there:
        print(f"{tool} isn't installed: what it shows is skipped")
    return there


def did(words, **more):
    """Runs a command, and gives status and both outputs."""
    done = subprocess.run(words, capture_output=True, timeout=600, check=False, **more)
    return done.returncode, done.stdout, done.stderr


def capture(link, header):
    """The example's datagrams, whose frames are Ethernet, as a capture of another link type, each behind a header."""
    _, records, _ = model.read_capture(EXAMPLE.with_suffix(".pcap").read_bytes())
    return model.written([(secs, micros, header + frame[14:]) for secs, micros, frame in records], link)


def reply(frame):
    """A frame's datagram the other way round, whose checksums stay as they are."""
    datagram = frame[14:]
    at = 4 * (datagram[0] & 15)
    addresses, ports = datagram[16:20] + datagram[12:16], datagram[at + 2 : at + 4] + datagram[at : at + 2]
    return datagram[:12] + addresses + datagram[20:at] + ports + datagram[at + 4 :]


def both_directions():
    """The example's datagrams, with a reply to each, as a capture of raw IP."""
    _, records, _ = model.read_capture(EXAMPLE.with_suffix(".pcap").read_bytes())
    return model.written([(secs, micros, data) for secs, micros, frame in records for data in (frame[14:], reply(frame))], 101)


def using(start):
    """The command of docs/USING.md that begins so, as words."""
    page = (TOP / "docs" / "USING.md").read_text()
    return re.search(rf"`?({re.escape(start)}[^`\n]*)", page).group(1)


def played(folder, name):
    """What the program writes of a capture with the example's scenario: its report and OUTPUT."""
    words = [TOP / "bin" / "maglev", "simulate", EXAMPLE.with_suffix(".toml"), folder / name, folder / "sent.pcap"]
    status, out, err = did(words)
    return status, out, err, (folder / "sent.pcap").read_bytes() if status == 0 else b""


def pack(folder):
    """Packs in.pcap by gzip, and by zstd where that is installed."""
    for tool in ("gzip", "zstd"):
        if shutil.which(tool):
            subprocess.run([tool, "-q", "-k", "-f", "in.pcap"], cwd=folder, check=True)


def test_captures_that_work():
    """Captures of other forms, made so by the page's commands, are played like the example's own."""
    ethernet = bytes.fromhex("020000000002020000000001")
    cooked = bytes.fromhex("0000000100060200000000010000") + b"\x08\x00"
    cooked_again = bytes.fromhex("0800000000000002000100060200000000010000")
    with tempfile.TemporaryDirectory() as made:
        folder = pathlib.Path(made)
        shutil.copy(EXAMPLE.with_suffix(".pcap"), folder / "own.pcap")
        expected = played(folder, "own.pcap")
        (folder / "in.pcap").write_bytes(capture(1, ethernet + b"\x08\x00"))
        check("the example's datagrams in a capture of ours", played(folder, "in.pcap") == expected)
        ways = [("VLAN", capture(1, ethernet + b"\x81\x00\x00\x05\x08\x00"), using("editcap -F pcap -L -C 12:4"))]
        ways.append(("cooked", capture(113, cooked), using("editcap -F pcap -L -C 16")))
        ways.append(("cooked, version 2", capture(276, cooked_again), using("editcap -F pcap -L -C 16").replace("16", "20")))
        ways.append(("two VLAN tags", capture(1, ethernet + bytes.fromhex("88a80005810000070800")), using("editcap -F pcap -L -C 12:8")))
        ways.append(("raw IP under another number", capture(12, b""), using("editcap -F pcap -T rawip")))
        ways.append(("BSD's loopback", capture(0, bytes.fromhex("02000000")), using("editcap -F pcap -L -C 4")))
        ways.append(("gzip", None, using("gunzip -c")))
        ways.append(("zstd", None, using("zstd -d -c")))
        ways.append(("both directions", both_directions(), using("tshark -r in.pcap -Y 'ip.dst")))
        there = {tool for tool in ("editcap", "gunzip", "zstd", "tshark") if has(tool)}
        for name, text, words in ways:
            if words.split()[0] in there:
                (folder / "in.pcap").write_bytes(text or capture(101, b""))
                pack(folder)
                done = subprocess.run(words, shell=True, cwd=folder, capture_output=True, check=False)
                check(f"{name}: made a capture that works", done.returncode == 0 and played(folder, "out.pcap") == expected, repr(done))
        (folder / "in.pcap").write_bytes(both_directions())
        check("replies are played where they are left in", played(folder, "in.pcap")[0] == 0 and played(folder, "in.pcap") != expected)
        (folder / "in.pcap").write_bytes(capture(101, b""))
        if has("editcap"):
            subprocess.run(["editcap", "-F", "pcapng", "in.pcap", "in.pcapng"], cwd=folder, check=True)
            check("pcapng isn't read", played(folder, "in.pcapng")[2] == b"fault: BadMagic\n")
            subprocess.run(using("editcap -F pcap in.pcapng"), shell=True, cwd=folder, check=True)
            check("pcapng: made a capture that works", played(folder, "out.pcap") == expected)
        if has("editcap") and has("mergecap"):
            _, records, _ = model.read_capture(capture(101, b""))
            for place in (0, 1):
                (folder / f"in.pcap{place}").write_bytes(model.written(records[4:] if place else records[:4], 101))
            subprocess.run(using("mergecap -F pcap -w out.pcap in.pcap0"), shell=True, cwd=folder, check=True)
            check("rotated files: made a capture that works", played(folder, "out.pcap") == expected)
        if has("tshark") and has("mergecap"):
            tags = [ethernet + b"\x81\x00\x00\x05\x08\x00", ethernet + b"\x08\x00"]
            mixed = [(secs, micros, tags[place % 2] + frame) for place, (secs, micros, frame) in enumerate(model.read_capture(capture(101, b""))[1])]
            (folder / "in.pcap").write_bytes(model.written(mixed, 1))
            subprocess.run(using("tshark -r in.pcap -Y vlan"), shell=True, cwd=folder, check=True, capture_output=True)
            check("frames with a tag and without: made a capture that works", played(folder, "out.pcap") == expected)


def example_in(folder):
    """Copies the example into a folder, as s.toml and in.pcap, and gives its report and what it sends."""
    shutil.copy(EXAMPLE.with_suffix(".toml"), folder / "s.toml")
    shutil.copy(EXAMPLE.with_suffix(".pcap"), folder / "in.pcap")
    _, report, _, sent = played(folder, "in.pcap")
    return report, sent


def in_shell(folder, words):
    """What a command of the shell does in a folder, where `maglev` is the program."""
    program = f"maglev() {{ '{TOP / 'bin' / 'maglev'}' \"$@\"; }}\n"
    done = subprocess.run(["bash", "-c", program + words], cwd=folder, capture_output=True, timeout=600, check=False)
    return done.returncode, done.stdout, done.stderr


def test_standard_streams():
    """`-` stands for standard input and output, whose bytes nothing else mixes with; a closed stream is no file's."""
    with tempfile.TemporaryDirectory() as made:
        folder = pathlib.Path(made)
        report, sent = example_in(folder)
        check("INPUT from standard input", in_shell(folder, "maglev simulate s.toml - out.pcap < in.pcap") == (0, report, b""))
        check("what it sent", (folder / "out.pcap").read_bytes() == sent)
        check("SCENARIO from standard input", in_shell(folder, "maglev simulate - in.pcap out.pcap < s.toml") == (0, report, b""))
        explained = in_shell(folder, "maglev explain s.toml - 13 15 < in.pcap")
        check("explain from standard input", explained == in_shell(folder, "maglev explain s.toml in.pcap 13 15") and explained[0] == 0)
        check("OUTPUT to standard output", in_shell(folder, "maglev simulate s.toml in.pcap -") == (0, sent, report))
        check("OUTPUT to /dev/stdout", in_shell(folder, "maglev simulate s.toml in.pcap /dev/stdout") == (0, sent, report))
        check("all in a pipe", in_shell(folder, "cat in.pcap | maglev simulate s.toml - - 2>/dev/null | cat") == (0, sent, b""))
        closed = in_shell(folder, "maglev simulate s.toml in.pcap out.pcap <&- >&-")
        check("standard output is closed", closed == (1, b"", b"fault: Write\n"), repr(closed))
        check("OUTPUT is no standard stream", (folder / "out.pcap").read_bytes() == sent)
        check("all are closed", in_shell(folder, "maglev simulate s.toml in.pcap out.pcap <&- >&- 2>&-")[0] == 1)
        check("OUTPUT still isn't", (folder / "out.pcap").read_bytes() == sent)
        check("standard input is closed", in_shell(folder, "maglev pick --size 7 --hash sum A <&-") == (0, b"drop Truncated\n", b""))


def test_one_file():
    """OUTPUT that is a file which is read, by whatever name, isn't emptied."""
    with tempfile.TemporaryDirectory() as made:
        folder = pathlib.Path(made)
        example_in(folder)
        (folder / "soft.pcap").symlink_to("in.pcap")
        (folder / "hard.pcap").hardlink_to(folder / "in.pcap")
        before = {name: (folder / name).read_bytes() for name in ("in.pcap", "s.toml")}
        for output in ("in.pcap", "./in.pcap", "soft.pcap", "hard.pcap", "s.toml"):
            answer = in_shell(folder, f"maglev simulate s.toml in.pcap {output}")
            check(f"OUTPUT {output} is read", answer == (1, b"", b"fault: OpenOutput\n"), repr(answer))
        answer = in_shell(folder, "maglev simulate s.toml - in.pcap < in.pcap")
        check("OUTPUT is standard input's file", answer == (1, b"", b"fault: OpenOutput\n"), repr(answer))
        check("nothing was emptied", before == {name: (folder / name).read_bytes() for name in before})
        check("a device may be both", in_shell(folder, "maglev simulate s.toml /dev/null /dev/null") == (1, b"", b"fault: ShortHeader\n"))


def test_sent_as_frames():
    """What was sent, with Ethernet in front, holds the same datagrams."""
    if not (has("tshark") and has("text2pcap")):
        return
    with tempfile.TemporaryDirectory() as made:
        folder = pathlib.Path(made)
        shutil.copy(EXAMPLE.with_suffix(".pcap"), folder / "in.pcap")
        sent = played(folder, "in.pcap")[3]
        subprocess.run(using("tshark -r sent.pcap -x"), shell=True, cwd=folder, capture_output=True, check=True)
        frames = (folder / "frames.pcap").read_bytes()
        length = struct.unpack_from("<I", sent, 24 + 8)[0]
        check("the first datagram in a frame", frames[24 + 16 + 12:24 + 16 + 14 + length] == b"\x08\x00" + sent[40:40 + length])


def test_manual():
    """The man page and the completions are those of the help texts."""
    check("share/ is what tools/manual.py writes", did([sys.executable, TOP / "tools" / "manual.py", "--check"])[0] == 0)
    page = TOP / "share" / "man" / "man1" / "maglev.1"
    if has("mandoc"):
        check("the man page", did(["mandoc", "-T", "lint", page]) == (0, b"", b""))
    words = 'source share/bash-completion/completions/maglev; COMP_WORDS=(maglev %s); COMP_CWORD=%d; _maglev; echo "${COMPREPLY[*]}"'
    syn = "--splits --syn --syn-after --summary"
    behind = [("-", 1, "-v --verbose --help --version"), ("simulate --s", 2, syn), ("-v simulate --s", 3, syn), ("--verbose simulate --s", 3, syn)]
    behind += [("-v si", 2, "simulate"), ("-v h", 2, ""), ("-v table --hash s", 4, "sha256 sum"), ("-v simulate --cut = ", 5, "pad")]
    for typed, at, expected in [*behind, ("si", 1, "simulate"), ("table --hash s", 3, "sha256 sum"), ("pick --no", 2, "--no-check"), ("table --size =", 3, "7 13 251 1021 8191 65537"), ("pick --hash = sh", 4, "sha256")]:
        answer = did(["bash", "-c", words % (typed, at)], cwd=TOP)
        check(f"completion of {typed}", answer == (0, expected.encode() + b"\n", b""), repr(answer))
    answer = did(["bash", "-c", "source share/bash-completion/completions/maglev; complete -p maglev"], cwd=TOP)
    check("commands aren't completed as names of files", answer == (0, b"complete -F _maglev maglev\n", b""), repr(answer))


def test_layers():
    """docs/DESIGN.md has each crate, in the order and the sections of crates.txt."""
    page = (TOP / "docs" / "DESIGN.md").read_text()
    layers = page[page.index("## The layers"):page.index("## What flows where")].splitlines()
    cells = [line.split("|")[1] for line in layers if line.startswith("| `")] + [line for line in layers if line.startswith("**Bench")]
    named = [name for cell in cells for name in re.findall(r"`(\w+)`", cell)]
    lines = (TOP / "crates.txt").read_text().splitlines()
    listed = [line.split(":")[0].split()[0] for line in lines if line and not line.startswith("#")]
    check("each crate has its line in DESIGN, in order", named == listed, f"{[one for one in zip(named, listed) if one[0] != one[1]][:2]}")
    heads = [line[2:].split(",")[0].split(":")[0].lower() for line in layers if line.startswith("**")]
    sections = [line[2:].split(":")[0] for line in lines if line.startswith("# ")]
    check("the sections are the same", [head.strip("* ") for head in heads] == sections, f"{heads} {sections}")


def as_put(name):
    """A document as it is installed: links to share/maglev lead to where that is put, and what isn't put has no link."""
    data = (TOP / name).read_bytes()
    if name.parent.name == "docs" and name.suffix == ".md":
        data = data.replace(b"](../share/maglev/", b"](../../../maglev/")
        data = re.sub(rb"\[([^]]*)\]\((\.\./)?(crates|dist)[^)]*\)", rb"\1", data)
    return data


def test_install():
    """The program, its page and its completions are put below a prefix, and the program runs there."""
    with tempfile.TemporaryDirectory() as made:
        prefix = pathlib.Path(made)
        check("bin/install", did([TOP / "bin" / "install", prefix])[0] == 0)
        help_text = (TOP / "tests" / "texts" / "maglev.txt").read_bytes()
        check("the installed program", did([prefix / "bin" / "maglev", "--help"], cwd="/") == (0, help_text, b""))
        share = TOP / "share"
        kinds = ("man", "bash-completion", "fish", "zsh")
        files = [path.relative_to(share) for kind in kinds for path in (share / kind).rglob("*") if path.is_file()]
        same = [(prefix / "share" / name).read_bytes() == (share / name).read_bytes() for name in files if not name.match("man1/*")]
        check("what is beside it", len(same) == 3 and all(same))
        there = prefix / "share" / "doc" / "maglev"
        page = (share / "man" / "man1" / "maglev.1").read_text()
        named = re.sub(r"(?m)(^|[ (])(docs|examples)/", lambda found: f"{found[1]}{str(there).replace('-', chr(92) + '-')}/{found[2]}/", page)
        check("the man page names files where they are", (prefix / "share" / "man" / "man1" / "maglev.1").read_text() == named != page)
        documents = [path.relative_to(TOP) for folder in ("docs", "examples") for path in (TOP / folder).rglob("*") if path.is_file() and "__pycache__" not in path.parts]
        check("the documents", documents and all((there / name).read_bytes() == as_put(name) for name in documents))
        links = [(page, link) for page in there.rglob("*.md") for link in re.findall(r"\]\(([^)#]+)", page.read_text()) if "://" not in link]
        lost = [f"{page.name}: {link}" for page, link in links if not (page.parent / link).exists()]
        check("each link of the installed pages leads somewhere", links and not lost, lost)
        check("the licences", (there / "LICENSE").exists() and (there / "LICENSE-MIT").exists() and (there / "LICENSE-APACHE").exists())
    check("bin/install of nothing", did([TOP / "bin" / "install"])[0] == 2)


# An rt that takes every library for proved but those that have a file `wrong`, and whose programs print their arguments.
RT = """#!/bin/sh
if [ -e src/wrong ]; then echo "src/lib.rt: not proved"; exit 1; fi
mkdir -p out
if [ "$1" = run ]; then printf '#!/bin/sh\\necho "ran $*"\\n' > out/maglev; chmod +x out/maglev; fi
"""


def small_repository(top):
    """A program over one library, a crate that it doesn't need, and an rt; gives the words and the environment of a call."""
    shutil.copytree(TOP / "bin", top / "bin")
    (top / "crates.txt").write_text("low:\nother: low\nmaglev: low clap\n")
    for name, file in [("low", "lib.rt"), ("other", "lib.rt"), ("maglev", "main.rt")]:
        (top / "crates" / name / "src").mkdir(parents=True)
        (top / "crates" / name / "src" / file).write_text("code\n")
    (top / "kit").mkdir()
    (top / "kit" / "rt").write_text(RT)
    (top / "kit" / "rt").chmod(0o755)
    return [top / "bin" / "maglev", "a"], {**os.environ, "PATH": f"{top / 'kit'}:{os.environ['PATH']}"}


def test_first_run():
    """bin/maglev builds what the program needs where a source is newer than it, with a line for each crate, and not else."""
    built = b"maglev: proving and building the program\n1/2 low\n2/2 maglev\n"

    def call():
        status, out, err = did(words, env=env)
        return status, out, re.sub(rb", \d+ s", b"", err)

    with tempfile.TemporaryDirectory() as made:
        top = pathlib.Path(made)
        words, env = small_repository(top)
        sources = top / "crates" / "low" / "src"
        check("the first run builds", call() == (0, b"ran a\n", built))
        check("the second doesn't", call() == (0, b"ran a\n", b""))
        check("nor from another folder", did(words, env=env, cwd="/") == (0, b"ran a\n", b""))
        (top / "crates" / "other" / "src" / "lib.rt").write_text("changed\n")
        check("nor where another crate changed", call() == (0, b"ran a\n", b""))
        (sources / "lib.rt").write_text("changed\n")
        check("a changed source", call() == (0, b"ran a\n", built))
        (sources / "more.rt").write_text("code\n")
        check("a new source", call() == (0, b"ran a\n", built))
        check("neither is newer any more", call() == (0, b"ran a\n", b""))
        (sources / "wrong").write_text("")
        status, out, err = call()
        lines = b"src/lib.rt: not proved\nlow is not proved\nmaglev: the program can't be built\n"
        check("a crate that isn't proved", (status, out) == (126, b"") and err.endswith(lines), repr(err))


def ship(top):
    """Writes a dist/ whose program says that it is that one's, with the sums of the small repository as it is."""
    (top / "dist").mkdir(exist_ok=True)
    program = top / "dist" / "maglev"
    program.write_text('#!/bin/sh\necho "shipped $*"\n')
    program.chmod(0o755)
    code = ["crates.txt", "crates/low/src/lib.rt", "crates/maglev/src/main.rt"]
    for name, paths in [("maglev.sha256", ["dist/maglev"]), ("sources.sha256", code)]:
        lines = [f"{hashlib.sha256((top / path).read_bytes()).hexdigest()}  {path}\n" for path in paths]
        (top / "dist" / name).write_text("".join(lines))


def test_shipped_program():
    """bin/maglev runs the program of dist/ where its sums are the tree's and none was built here, and says so once."""
    first = b"maglev: running the program of dist/, proved by the gate; bin/prove proves and builds it here\n"
    with tempfile.TemporaryDirectory() as made:
        top = pathlib.Path(made)
        words, env = small_repository(top)
        ship(top)
        no_kit = {**os.environ, "PATH": "/usr/bin:/bin"}
        check("the first call, without a kit", did(words, env=no_kit) == (0, b"shipped a\n", first))
        check("the second says nothing", did(words, env=no_kit, cwd="/") == (0, b"shipped a\n", b""))
        source = top / "crates" / "low" / "src" / "lib.rt"
        source.write_text("changed\n")
        status, out, err = did(words, env=env)
        check("a changed source is built", (status, out) == (0, b"ran a\n") and err.startswith(b"maglev: proving"), repr(err))
        source.write_text("code\n")
        check("it is as it was", did(words, env=env) == (0, b"shipped a\n", b""))
        (top / "dist" / "maglev").write_text('#!/bin/sh\necho "another $*"\n')
        check("another program isn't run", did(words, env=env)[:2] == (0, b"ran a\n"))
        ship(top)
        check("what was built here comes first", did(words, env=env) == (0, b"ran a\n", b""))
        shutil.rmtree(top / "crates" / "maglev" / "out")
        check("nothing was built", did(words, env=no_kit) == (0, b"shipped a\n", first))
        (top / "crates" / "low" / "src" / "lib.rt").unlink()
        check("a source that is gone", did(words, env=no_kit)[:2] != (0, b"shipped a\n"))


if __name__ == "__main__":
    sys.exit(run_tests(globals()))
