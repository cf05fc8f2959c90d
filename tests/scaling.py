#!/usr/bin/env python3
"""scaling.py: how the parts of a run that `simulate --node N` wrote are joined, by the scripts of share/maglev.

What join.py makes of the parts, what nodes.sql finds in them, and what on_dask.py does on four workers of Dask, is compared with
the whole run. What a tool that isn't installed would show is skipped with a word. The last line is 'N passed, N failed'.
"""
import json
import os
import pathlib
import random
import re
import shutil
import sqlite3
import subprocess
import sys
import tempfile

import end_to_end as rows
from end_to_end import capture, scenario, timed
from harness import PROGRAM, TOP, check, run_tests

SHARE = TOP / "share" / "maglev"
COLUMNS = ["node", "event", "kind", "record", "bytes", "flow", "worker", "version", "outcome", "backend", "address", "chosen"]


def did(words, **more):
    """Runs a command, and gives status and both outputs."""
    done = subprocess.run([str(word) for word in words], capture_output=True, timeout=300, check=False, **more)
    return done.returncode, done.stdout.decode(), done.stderr.decode()


def nodes_of(text):
    return range(text.count("10.9.0."))


def played(folder, text, data):
    """Plays all parts of a scenario over a capture, and gives their names."""
    (folder / "s.toml").write_text(text)
    (folder / "in.pcap").write_bytes(data)
    parts = [str(folder / f"part-{node}") for node in nodes_of(text)]
    for node, part in enumerate(parts):
        words = [PROGRAM, "simulate", "--json", "--list", "--node", node, folder / "s.toml", folder / "in.pcap", f"{part}.pcap"]
        status, out, err = did(words)
        check(f"part {node}", (status, err) == (0, ""), err)
        pathlib.Path(f"{part}.jsonl").write_text(out)
    return parts


def whole(folder, *words):
    """What one process prints and writes of the same."""
    status, out, err = did([PROGRAM, "simulate", *words, folder / "s.toml", folder / "in.pcap", folder / "whole.pcap"])
    check("the whole run", (status, err) == (0, ""), err)
    return out, (folder / "whole.pcap").read_bytes()


def steps_in_order(source, nodes, workers):
    """Steps of every kind but those after which a packet isn't sent in the order of the records."""
    return [step for step in rows.random_steps(source, nodes, workers) if step.split(" ")[0] not in ("again", "hold", "drain")]


def case(seed):
    """A random scenario whose records are sent in their order, and a capture."""
    source = random.Random(7000 + seed)
    return rows.random_scenario(source, ("", "*2"), steps_in_order), rows.random_capture(source)


def selected(parts):
    """What the two queries of nodes.sql find in the parts' events."""
    base = sqlite3.connect(":memory:")
    base.execute(f"CREATE TABLE events ({', '.join(COLUMNS)})")
    for part in parts:
        for line in pathlib.Path(f"{part}.jsonl").read_text().splitlines():
            one = json.loads(line)
            if one["type"] == "event":
                base.execute(f"INSERT INTO events VALUES ({', '.join('?' * len(COLUMNS))})", [one.get(column) for column in COLUMNS])
    text = re.sub(r"--[^\n]*", "", (SHARE / "nodes.sql").read_text())
    return [base.execute(query).fetchall() for query in text.split(";") if query.strip()]


def send(one):
    """A send of a split as a row of the first query has it."""
    return one["record"], one["node"], one["worker"], one["version"], one["backend"], one["address"]


def found_in(out):
    """The splits and the shares of what `simulate --json --where --per-backend` printed, as rows."""
    objects = [json.loads(line) for line in out.splitlines()]
    splits = [(one["flow"], *send(one["first"]), *send(one["later"])) for one in objects if one["type"] == "split"]
    keys = ["version", "backend", "address", "packets", "bytes", "flows"]
    return splits, [tuple(one[key] for key in keys) for one in objects if one["type"] == "backend"]


def test_joined():
    """The parts of random scenarios joined are the whole run: OUTPUT, report, splits and shares."""
    for seed in range(40):
        text, data = case(seed)
        with tempfile.TemporaryDirectory() as made:
            folder = pathlib.Path(made)
            parts = played(folder, text, data)
            joined = did([sys.executable, SHARE / "join.py", folder / "s.toml", folder / "joined.pcap", *parts])
            report, sent = whole(folder)
            check(f"the joined report of {seed}", joined == (0, report, ""), f"{joined} {report!r}")
            check(f"the joined capture of {seed}", (folder / "joined.pcap").read_bytes() == sent)
            out, _ = whole(folder, "--json", "--where", "--per-backend")
            splits, shares = found_in(out)
            rows_of_splits, rows_of_shares = selected(parts)
            check(f"the splits of {seed} by SQL", rows_of_splits == splits, f"{rows_of_splits} {splits}")
            check(f"the shares of {seed} by SQL", sorted(rows_of_shares) == sorted(shares), f"{rows_of_shares} {shares}")


def test_refused():
    """A scenario whose packets don't come in the order of their records, and parts of several runs, aren't joined."""
    for step in ("again 0", "hold 1", "drain 1"):
        with tempfile.TemporaryDirectory() as made:
            folder = pathlib.Path(made)
            parts = played(folder, scenario(["install 0 1", "take 2", step]), capture("xy"))
            status, out, err = did([sys.executable, SHARE / "join.py", folder / "s.toml", folder / "joined.pcap", *parts])
            why = f"error: step 2, {step.split()[0]!r}: its packets don't come in the order of their records\n"
            check(f"a scenario with {step}", (status, out, err) == (1, "", why), f"{status} {out!r} {err!r}")
            check("nothing is joined", not (folder / "joined.pcap").exists())
    with tempfile.TemporaryDirectory() as one, tempfile.TemporaryDirectory() as other:
        parts = played(pathlib.Path(one), scenario(["install 0 1", "take 2"]), capture("xy"))[:1]
        parts += played(pathlib.Path(other), scenario(["install 0 1", "take 2"]), capture("xyz"))[1:]
        status, out, err = did([sys.executable, SHARE / "join.py", f"{one}/s.toml", f"{one}/joined.pcap", *parts])
        check("parts of two captures", (status, out) == (1, "") and "they differ in 'packets'" in err, err)
    status, out, err = did([sys.executable, SHARE / "join.py"])
    check("no words", (status, out) == (1, "") and err.startswith("usage: "), err)


def files_in(folder):
    """What the files of a folder hold."""
    return {path.name: path.read_bytes() for path in folder.iterdir()}


def isnt_joined(name, folder, words, why):
    """join.py refuses these words for this reason, and leaves all files of the folder as they were."""
    before = files_in(folder)
    answer = did([sys.executable, SHARE / "join.py", *words], cwd=folder)
    check(name, answer == (1, "", f"error: {why}\n"), answer)
    check(f"{name}: nothing is written", files_in(folder) == before)


def test_parts_of_each_node():
    """As many parts are joined as the scenario has nodes, one of each; else OUTPUT is neither made nor emptied."""
    with tempfile.TemporaryDirectory() as made:
        folder = pathlib.Path(made)
        played(folder, scenario(["install 0 1", "install 1 2", "take 9"]), capture("xyzxyzzyx"))
        (folder / "kept.pcap").write_bytes(b"kept")
        (folder / "both.jsonl").write_text(did([PROGRAM, "simulate", "--json", "--list", "s.toml", "in.pcap", "both.pcap"], cwd=folder)[1])
        for end in ("pcap", "jsonl"):
            shutil.copy(folder / f"part-0.{end}", folder / f"again-0.{end}")
        for output in ("new.pcap", "kept.pcap"):
            for parts in (["part-0"], ["part-0", "part-1", "part-1"]):
                isnt_joined(f"{len(parts)} parts to {output}", folder, ["s.toml", output, *parts], f"the scenario has 2 nodes, and the parts are {len(parts)}")
            for other in ("part-0", "again-0"):
                isnt_joined(f"part-0 and {other} to {output}", folder, ["s.toml", output, "part-0", other], f"part-0 and {other} are both of node 0")
            isnt_joined("a part of all nodes", folder, ["s.toml", output, "part-0", "both"], "both.jsonl has events of 2 nodes")
        (folder / "again-0.pcap").write_bytes((folder / "part-0.pcap").read_bytes()[:-1])
        isnt_joined("a capture that was cut short", folder, ["s.toml", "new.pcap", "again-0", "part-1"], "again-0.pcap ends inside a record")
        (folder / "again-0.pcap").write_bytes(rows.HEAD)
        sent = did([PROGRAM, "simulate", "--node", "0", "s.toml", "in.pcap", "/dev/null"], cwd=folder)[1].split("forwarded ")[1].split()[0]
        why = f"again-0.pcap has 0 packets, and again-0.jsonl tells of {sent}"
        isnt_joined("a capture of another run", folder, ["s.toml", "new.pcap", "again-0", "part-1"], why)


def test_parts_of_fewer_nodes():
    """A part of a node that the scenario lacks isn't joined, nor one without events in place of one that has them."""
    with tempfile.TemporaryDirectory() as made:
        folder = pathlib.Path(made)
        text = scenario(["install 0 1", "live 0", "take 3"]).replace('"10.9.0.1", "10.9.0.2"', '"10.9.0.1", "10.9.0.2", "10.9.0.3"')
        played(folder, text, capture("xyz"))
        why = "the parts have 0 of the 3 packets that came to a node"
        isnt_joined("a part without events twice", folder, ["s.toml", "new.pcap", "part-1", "part-2", "part-1"], why)
        played(folder, text.replace("install 0 1", "install 2 1").replace("live 0", "live 2"), capture("xyz"))
        (folder / "s.toml").write_text(text.replace(', "10.9.0.3"', ""))
        isnt_joined("a node that isn't there", folder, ["s.toml", "new.pcap", "part-1", "part-2"], "part-2 is of node 2, and the scenario has 2 nodes")


def test_output_that_is_read():
    """OUTPUT that is a file which is read, by whatever name, isn't emptied."""
    with tempfile.TemporaryDirectory() as made:
        folder = pathlib.Path(made)
        played(folder, scenario(["install 0 1", "take 4"]), capture("xyxy"))
        (folder / "soft").symlink_to("part-1.jsonl")
        (folder / "hard").hardlink_to(folder / "part-0.pcap")
        names = {"part-0.pcap": "part-0.pcap", "./part-1.jsonl": "part-1.jsonl", "soft": "part-1.jsonl", "hard": "part-0.pcap", "s.toml": "s.toml"}
        for output, path in names.items():
            isnt_joined(f"OUTPUT {output}", folder, ["s.toml", output, "part-0", "part-1"], f"OUTPUT is {path}, which is read")
        before = files_in(folder)
        status, out, err = did(["bash", "-c", f"'{sys.executable}' '{SHARE / 'join.py'}' s.toml part-*"], cwd=folder)
        check("parts by their ends", (status, out) == (1, "") and err.startswith("error: ") and files_in(folder) == before, err)


def page_has(start):
    """The block of docs/SCALING.md that begins so, as a script."""
    page = (TOP / "docs" / "SCALING.md").read_text()
    blocks = re.findall(r"(?:^    [^\n]*\n)+", page, re.M)
    return next(re.sub(r"^    ", "", block, flags=re.M) for block in blocks if block.startswith(f"    {start}"))


def with_program(folder):
    """An environment whose `maglev` is the program."""
    tools = folder / "tools"
    tools.mkdir()
    (tools / "maglev").symlink_to(PROGRAM)
    return os.environ | {"PATH": f"{tools}:{os.environ['PATH']}"}


def of_four(steps):
    """A scenario of four nodes, as the page's commands are for."""
    servers = ", ".join(f'"10.9.0.{node}"' for node in range(1, 5))
    return scenario([f"install {node} 1" for node in range(4)] + steps).replace('"10.9.0.1", "10.9.0.2"', servers)


def follows(name, start, more=""):
    """What a block of the page leaves is what one process writes."""
    text = of_four(["take 20"])
    with tempfile.TemporaryDirectory() as made:
        folder = pathlib.Path(made)
        (folder / "scenario.toml").write_text(text)
        (folder / "in.pcap").write_bytes(capture("xyzxxyzzyx"))
        script = page_has(start).replace("share/maglev", str(SHARE)) + more
        done = did(["bash", "-c", script], cwd=folder, env=with_program(folder))
        sent = (folder / "sent.pcap").read_bytes() if (folder / "sent.pcap").exists() else b""
        (folder / "scenario.toml").rename(folder / "s.toml")
        report, wanted = whole(folder)
        check(name, done[:2] == (0, report) and sent == wanted, done)


def test_page():
    """The page's loop, and its command of GNU parallel, leave what one process writes."""
    join = page_has("for node").splitlines()[-1].replace("share/maglev", str(SHARE))
    follows("the page's loop", "for node")
    if shutil.which("parallel"):
        follows("GNU parallel", "parallel maglev", f"\n{join}\n")
    else:
        print("parallel isn't installed: what it shows is skipped")


def test_sqlite():
    """The page's commands of SQLite's own program print what the queries find; nodes.sql makes the table alike."""
    view = re.search(r"CREATE TABLE events AS SELECT line->>.*", page_has("sqlite3")).group()
    comment = re.sub(r"(?m)^--\s*", "", (SHARE / "nodes.sql").read_text())
    check("nodes.sql has the page's view", view in " ".join(comment.split()), view)
    if not shutil.which("sqlite3"):
        print("sqlite3 isn't installed: what it shows is skipped")
        return
    with tempfile.TemporaryDirectory() as made:
        folder = pathlib.Path(made)
        parts = played(folder, of_four(["take 5", "install 1 2", "restart 2", "install 2 2", "take 20"]), capture("xyzxxyzzyx"))
        found = [row for query in selected(parts) for row in query]
        done = did(["bash", "-c", page_has("sqlite3").replace("share/maglev", str(SHARE))], cwd=folder)
        check("the page's commands of SQLite", found and done == (0, "".join("|".join(map(str, row)) + "\n" for row in found), ""), done)


def test_mergecap():
    """Where times ascend the page's mergecap leaves what one process writes."""
    if not shutil.which("mergecap"):
        print("mergecap isn't installed: what it shows is skipped")
        return
    data = timed("xyzyxzzyxy", range(1, 11))
    with tempfile.TemporaryDirectory() as made:
        folder = pathlib.Path(made)
        played(folder, scenario(["install 0 1", "install 1 2", "take 10"]), data)
        command = re.search(r"`(mergecap [^`]*)`", (TOP / "docs" / "SCALING.md").read_text()).group(1)
        status, _, err = did(["bash", "-c", command], cwd=folder)
        _, sent = whole(folder)
        check("mergecap", status == 0 and (folder / "sent.pcap").read_bytes() == sent, err)


# Runs the script that is named, with the scheduler of a local cluster of four workers.
CLUSTER = """
import subprocess
import sys
from dask.distributed import LocalCluster
if __name__ == "__main__":
    with LocalCluster(n_workers=4, threads_per_worker=1, processes=True, dashboard_address=None) as cluster:
        words = [sys.executable, sys.argv[1], "--scheduler", cluster.scheduler_address, *sys.argv[2:]]
        sys.exit(subprocess.run(words).returncode)
"""


def python_with_dask():
    """A Python that has Dask distributed: this one, or the system's."""
    for python in (sys.executable, "/usr/bin/python3"):
        if shutil.which(python) and did([python, "-c", "import dask.distributed, tomllib"])[0] == 0:
            return python
    print("python3-distributed isn't installed: what it shows is skipped")
    return None


def test_without_dask():
    """Without Dask on_dask.py says what it needs, and prints its help; an OUTPUT that is read is refused before that."""
    with tempfile.TemporaryDirectory() as made:
        folder = pathlib.Path(made)
        (folder / "dask.py").write_text("raise ModuleNotFoundError(\"No module named 'dask'\")\n")
        (folder / "s.toml").write_text(scenario(["install 0 1", "take 2"]))
        (folder / "in.pcap").write_bytes(capture("xy"))
        before = files_in(folder)

        def answer(*words):
            return did([sys.executable, "-B", SHARE / "on_dask.py", *words], cwd=folder, env=os.environ | {"PYTHONPATH": made})

        status, out, err = answer("--help")
        check("its help", (status, err) == (0, "") and out.startswith("usage: on_dask.py ") and "python3-distributed" in out, err)
        check("no words for Dask", answer()[0] == 2)
        missing = "error: No module named 'dask': on_dask.py needs Dask distributed (Debian: apt-get install python3-distributed)\n"
        check("no Dask", answer("s.toml", "in.pcap", "new.pcap") == (1, "", missing), answer("s.toml", "in.pcap", "new.pcap"))
        for output in ("in.pcap", "s.toml"):
            check(f"OUTPUT {output} by Dask", answer("s.toml", "in.pcap", output) == (1, "", f"error: OUTPUT is {output}, which is read\n"))
        check("nothing is written without Dask", files_in(folder) == before)


def test_dask():
    """Four workers of Dask play a part each, and what is joined is what one process writes."""
    python = python_with_dask()
    if python is None:
        return
    source = random.Random(7)
    text = rows.random_scenario(source, ("", "*2"), steps_in_order)
    four = ", ".join(f'"10.9.0.{node}"' for node in range(4))
    steps = rows.listed([*(f"install {node} 1" for node in range(4)), "take 30", "install 1 2", "restart 2", "take 60"])
    text = re.sub(r"(?m)^steps = .*$", f"steps = {steps}", re.sub(r"(?m)^nodes = .*$", f"nodes = [{four}]", text))
    with tempfile.TemporaryDirectory() as made:
        folder = pathlib.Path(made)
        (folder / "s.toml").write_text(text)
        (folder / "in.pcap").write_bytes(capture("xyzyxzzyxy" * 9))
        (folder / "cluster.py").write_text(CLUSTER)
        (folder / "parts").mkdir()
        files = [folder / "s.toml", folder / "in.pcap", folder / "joined.pcap"]
        words = [python, folder / "cluster.py", SHARE / "on_dask.py", "--program", PROGRAM, "--keep", folder / "parts", *files]
        status, out, err = did(words, cwd=folder)
        report, sent = whole(folder)
        check("the report by Dask", (status, out) == (0, report), f"{status} {out!r} {err}")
        joined = (folder / "joined.pcap").read_bytes() if (folder / "joined.pcap").exists() else b""
        check("the capture by Dask", joined == sent)
        parts = sorted(path.name for path in (folder / "parts").iterdir())
        check("the parts that are kept", parts == [f"part-{node}.{end}" for node in range(4) for end in ("jsonl", "pcap")], parts)
        (folder / "s.toml").write_text(text.replace('"take 30"', '"hold 1", "take 30"'))
        status, out, err = did(words, cwd=folder)
        check("a scenario that isn't joined", status == 1 and out == "" and "error: step 4, 'hold'" in err, err)


if __name__ == "__main__":
    sys.exit(run_tests(globals()))
