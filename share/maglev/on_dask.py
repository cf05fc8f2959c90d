#!/usr/bin/env python3
"""on_dask.py [--scheduler ADDRESS] [--program MAGLEV] [--keep FOLDER] SCENARIO INPUT OUTPUT

Plays a scenario over a capture on the workers of a Dask cluster, one node's part a task, and joins the parts: OUTPUT and the
report that is printed are those of `maglev simulate SCENARIO INPUT OUTPUT`. The cluster is that of ADDRESS, or one on this
machine with a process for each processor. All workers see the same files. The parts are kept in FOLDER, where it is given.

It needs Python 3.11 and Dask distributed (Debian: python3-distributed).
"""
import argparse
import os
import pathlib
import subprocess
import sys
import tempfile
import tomllib

sys.path.insert(0, str(pathlib.Path(__file__).resolve().parent))
import join  # noqa: E402


def play(words, part):
    """Plays one node's part by these words, and gives what the program said where it failed."""
    with open(f"{part}.jsonl", "wb") as told:
        done = subprocess.run([*words, f"{part}.pcap"], stdout=told, stderr=subprocess.PIPE, check=False)
    return done.returncode, done.stderr.decode(errors="replace").strip()


def played(client, asked, folder):
    """Plays all parts, a task each, and gives their names in the order of the nodes."""
    scenario, source = (os.path.abspath(path) for path in (asked.scenario, asked.input))
    nodes = len(tomllib.loads(pathlib.Path(scenario).read_text())["nodes"])
    words = [[asked.program, "simulate", "--json", "--list", "--node", str(node), scenario, source] for node in range(nodes)]
    parts = [os.path.join(folder, f"part-{node}") for node in range(nodes)]
    for node, (status, said) in enumerate(client.gather(client.map(play, words, parts, pure=False))):
        if status != 0:
            raise join.Unjoinable(f"node {node}: {said or f'status {status}'}")
    return parts


def cluster_of(asked):
    """A client of the cluster that is asked for."""
    from dask.distributed import Client, LocalCluster

    if asked.scheduler:
        return Client(asked.scheduler)
    return Client(LocalCluster(threads_per_worker=1, processes=True, dashboard_address=None))


def words_of(arguments):
    options = argparse.ArgumentParser(description=__doc__.split("\n\n")[1], epilog=__doc__.split("\n\n")[2])
    options.add_argument("--scheduler", metavar="ADDRESS", help="the scheduler of a Dask cluster")
    options.add_argument("--program", metavar="MAGLEV", default="maglev", help="the program on each worker")
    options.add_argument("--keep", metavar="FOLDER", help="a folder that all workers see, which keeps the parts")
    options.add_argument("scenario", metavar="SCENARIO")
    options.add_argument("input", metavar="INPUT")
    options.add_argument("output", metavar="OUTPUT")
    return options.parse_args(arguments)


def main():
    asked = words_of(sys.argv[1:])
    try:
        join.order_is_kept(pathlib.Path(asked.scenario))
        join.output_is_apart(asked.output, [asked.scenario, asked.input])
        with tempfile.TemporaryDirectory(dir=os.path.dirname(os.path.abspath(asked.output))) as made, cluster_of(asked) as client:
            parts = played(client, asked, os.path.abspath(asked.keep) if asked.keep else made)
            sys.stdout.write(join.join(asked.scenario, asked.output, parts))
    except ModuleNotFoundError as why:
        sys.exit(f"error: {why}: on_dask.py needs Dask distributed (Debian: apt-get install python3-distributed)")
    except (join.Unjoinable, OSError, ValueError) as why:
        sys.exit(f"error: {why}")


if __name__ == "__main__":
    main()
