#!/usr/bin/env python3
"""failover.py LISTING: a data plane of its own beside `maglev simulate`, over the example of the folder above.

It has no connection tables. For each version of examples/failover.toml it fills the table of the servers that are up, and for
each flow of examples/failover.pcap it finds the server. LISTING is what `maglev simulate --list` printed. For each packet that
was forwarded the script prints the client, the server that simulate chose and whether the choice was new, and the server by
libmaglev's table of the version that was chosen under. It ends with status 1 where two differ.
"""
import pathlib
import re
import struct
import sys
import tomllib

import maglev

EXAMPLE = pathlib.Path(__file__).resolve().parent.parent / "failover"
ARRIVED = re.compile(r"\d+ arrive (\d+) (\d+): placed (\d+)")
SERVED = re.compile(r"\d+ serve (\d+) (\d+) (\d+): (?:forward (\S+) from (\d+)|drop \w+)")


def flows(data: bytes) -> list[maglev.Flow]:
    """The flow of each frame of a little-endian capture of Ethernet, whose datagrams are plain TCP or UDP."""
    found, at = [], 24
    while at < len(data):
        length = struct.unpack_from("<I", data, at + 8)[0]
        datagram = data[at + 16 + 14 : at + 16 + length]
        ports = struct.unpack_from(">HH", datagram, 4 * (datagram[0] & 15))
        found.append(maglev.Flow(*struct.unpack_from(">II", datagram, 12), *ports, datagram[9]))
        at += 16 + length
    return found


def tables(scenario: dict) -> dict[int, list[str]]:
    """For each version the server of each slot of its one service."""
    made = {}
    for version in scenario["versions"]:
        members = version["services"][0]["members"]
        names = [member.partition("@")[0] for member in members if not member.endswith("/down")]
        made[version["number"]] = maglev.table(scenario["size"], scenario["hash"], names)
    return made


def sends(listing: str):
    """Of each packet that was forwarded: the record, its server, and the versions that it was served and chosen under."""
    waiting: dict[tuple[str, str], list[int]] = {}
    for line in listing.splitlines():
        if arrived := ARRIVED.fullmatch(line):
            node, record, worker = arrived.groups()
            waiting.setdefault((node, worker), []).append(int(record))
        elif served := SERVED.fullmatch(line):
            node, worker, version, server, origin = served.groups()
            record = waiting[node, worker].pop(0)
            if server:
                yield record, server.partition("@")[0], int(version), int(origin)


def main(listing: str) -> int:
    scenario = tomllib.loads(EXAMPLE.with_suffix(".toml").read_text())
    found = flows(EXAMPLE.with_suffix(".pcap").read_bytes())
    slots = maglev.slots_of(scenario["size"], scenario["hash"], found)
    by_version, wrong = tables(scenario), 0
    for record, server, version, origin in sends(pathlib.Path(listing).read_text()):
        ours = by_version[origin][slots[record]]
        wrong += ours != server
        client = ".".join(str(byte) for byte in found[record].src.to_bytes(4, "big"))
        print(f"{client}:{found[record].sport} slot {slots[record]} {server} {'chosen' if version == origin else 'remembered'}, libmaglev {ours}")
    return 1 if wrong else 0


if __name__ == "__main__":
    if len(sys.argv) != 2:
        print(f"usage: {sys.argv[0]} LISTING", file=sys.stderr)
        sys.exit(2)
    sys.exit(main(sys.argv[1]))
