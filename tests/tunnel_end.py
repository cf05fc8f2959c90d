#!/usr/bin/env python3
"""Sends what `maglev simulate` wrote over a real link, and takes it off at the other end of the tunnels.

Two network namespaces of this script's own are joined by a pair of virtual Ethernet devices. tcpreplay sends OUTPUT into
one end; in the other namespace, which has the backends' addresses, a raw socket of protocol 47 takes off what its kernel
accepts as GRE for that host. What stands behind the GRE headers is compared with the datagrams of the input. Nothing leaves
the two namespaces, which are taken down at the end. Where namespaces, tcpreplay or a raw socket can't be had it says so and
counts nothing. The last line is 'N passed, N failed'.
"""
import ctypes
import os
import pathlib
import shutil
import socket
import subprocess
import sys
import tempfile

import model
from harness import TOP

NEAR, FAR = f"maglev-near-{os.getpid()}", f"maglev-far-{os.getpid()}"
# Of frames that are sent, the far device's address and the near one's.
TO, FROM = "02:00:00:00:00:02", "02:00:00:00:00:01"


def quiet(*words):
    """Runs a command, and gives whether it worked."""
    return subprocess.run(words, capture_output=True, check=False).returncode == 0


def as_frames(datagrams):
    """A capture of Ethernet frames, since a link wants frames."""
    header = bytes.fromhex((TO + FROM).replace(":", "")) + b"\x08\x00"
    return model.written([(0, 0, header + datagram) for datagram in datagrams], 1)


def joined(backends):
    """Makes the namespaces and the link. Whether that worked."""
    return (
        all(quiet("ip", "netns", "add", name) for name in (NEAR, FAR))
        and quiet("ip", "link", "add", "near0", "mtu", "9000", "netns", NEAR, "type", "veth", "peer", "name", "far0", "mtu", "9000", "netns", FAR)
        and quiet("ip", "-n", NEAR, "link", "set", "near0", "address", FROM, "up")
        and quiet("ip", "-n", FAR, "link", "set", "far0", "address", TO, "up")
        and quiet("ip", "-n", FAR, "link", "set", "lo", "up")
        and all(quiet("ip", "-n", FAR, "addr", "add", f"{backend}/32", "dev", "far0") for backend in backends)
        # The nodes' addresses are reached over the link, so that the kernel takes them as senders.
        and quiet("ip", "-n", FAR, "route", "add", "default", "dev", "far0")
    )


def parted():
    """Takes the namespaces down."""
    for name in (NEAR, FAR):
        quiet("ip", "netns", "del", name)


def far_socket():
    """A raw socket for GRE in the far namespace."""
    libc = ctypes.CDLL(None)
    with open("/proc/self/ns/net", "rb") as home, open(f"/var/run/netns/{FAR}", "rb") as far:
        if libc.setns(far.fileno(), 0) != 0:
            raise OSError("the namespace can't be entered")
        try:
            return socket.socket(socket.AF_INET, socket.SOCK_RAW, 47)
        finally:
            libc.setns(home.fileno(), 0)


def taken_off(link, count):
    """What came through the tunnels: up to so many datagrams, by backend."""
    link.settimeout(5)
    found = []
    while len(found) < count:
        try:
            outer = link.recv(65536)
        except TimeoutError:
            break
        behind = outer[(outer[0] & 15) * 4:]
        if behind[:4] == b"\x00\x00\x08\x00":
            found.append((socket.inet_ntoa(outer[16:20]), behind[4:]))
    return found


def compare():
    """Plays the example, sends OUTPUT, and compares. None where something that this needs isn't there."""
    if shutil.which("tcpreplay") is None or shutil.which("ip") is None:
        return None, "tcpreplay and ip aren't both here"
    with tempfile.TemporaryDirectory() as folder:
        sent, frames = pathlib.Path(folder) / "sent.pcap", pathlib.Path(folder) / "frames.pcap"
        example = TOP / "examples" / "failover"
        subprocess.run([TOP / "bin" / "maglev", "simulate", f"{example}.toml", f"{example}.pcap", sent], capture_output=True, check=True)
        datagrams = [datagram for _, _, datagram in model.read_capture(sent.read_bytes())[1]]
        frames.write_bytes(as_frames(datagrams))
        expected = [(socket.inet_ntoa(datagram[16:20]), datagram[24:]) for datagram in datagrams]
        try:
            if not joined(sorted({backend for backend, _ in expected})):
                return None, "network namespaces can't be made here"
            with far_socket() as link:
                if not quiet("ip", "netns", "exec", NEAR, "tcpreplay", "--intf1=near0", "--pps=1000", str(frames)):
                    return None, "tcpreplay can't send here"
                return taken_off(link, len(expected)) == expected, f"{len(expected)} datagrams"
        except OSError as refusal:
            return None, f"a raw socket can't be had: {refusal}"
        finally:
            parted()


def main():
    same, words = compare()
    if same is None:
        print(f"skipped: {words}")
    elif not same:
        print(f"FAILED what came through the tunnels isn't what was sent: {words}")
    print(f"{int(same is True)} passed, {int(same is False)} failed")
    sys.exit(1 if same is False else 0)


if __name__ == "__main__":
    main()
