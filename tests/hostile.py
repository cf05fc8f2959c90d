#!/usr/bin/env python3
"""Input that means harm, each with the answer that it must get.

Captures cut at each byte, headers with each value of a field, and scenarios and captures at the edges of what may be read.
The last line is 'N passed, N failed'.
"""
import ctypes
import os
import pathlib
import random
import struct
import subprocess
import sys
import tempfile

import model
import refused_growths as growths
from harness import PROGRAM, check, run_tests

# A datagram of 40 bytes from port 1000 of 10.0.0.1 to port 80 of 192.0.2.1.
HEADER = bytes.fromhex("450000280000400040060000" + "0a000001" + "c0000201")
P = HEADER[:10] + (65535 - model.folded(HEADER)).to_bytes(2, "big") + HEADER[12:]
P += bytes.fromhex("03e80050" + "00000001" + "00000000" + "50022000" + "00000000")

# Calls a program, and prints last how many kilobytes and how many seconds of a processor it took. A process of its own does so,
# since what a caller's took counts.
MEASURE = "import resource, subprocess, sys; status = subprocess.run(sys.argv[1:]).returncode; "
MEASURE += "took = resource.getrusage(resource.RUSAGE_CHILDREN); print(took.ru_maxrss, took.ru_utime + took.ru_stime); sys.exit(status)"


def scenario(steps=("install 0 1", "take 1"), **more):
    """A scenario of one node and one service of three backends; a key given by name is put in place of its own."""
    keys = {"format": 1, "size": 7, "hash": '"sum"', "scheme": '"maglev"', "spread": '"turn"', "workers": 1, "capacity": 2}
    keys |= {"nodes": '["10.9.0.1"]', "steps": str(list(steps))} | more
    text = "".join(f"{key} = {value}\n" for key, value in keys.items())
    members = ["A@10.8.0.1", "B@10.8.0.2", "C@10.8.0.3"]
    return text + f'[[versions]]\nnumber = 1\nservices = [{{ vip = "192.0.2.1", proto = "tcp", port = 80, members = {members} }}]\n'


def head(link=101, magic=0xA1B2C3D4, version=(2, 4), order="<"):
    """A capture's header."""
    return struct.pack(order + "IHHiIII", magic, *version, 0, 0, 65535, link)


def record(data, length=None, original=None, at=1_000_000):
    """A record, whose two lengths may lie, at a time in microseconds."""
    length = len(data) if length is None else length
    return struct.pack("<4I", *divmod(at, 1_000_000), length, length if original is None else original) + data


def answered(text, data, command="simulate"):
    """Status, the lines of the report, standard error and OUTPUT (None where there is none)."""
    with tempfile.TemporaryDirectory() as name:
        folder = pathlib.Path(name)
        (folder / "s.toml").write_bytes(text if isinstance(text, bytes) else text.encode())
        (folder / "in.pcap").write_bytes(data)
        words = [PROGRAM, command, "s.toml", "in.pcap", "out.pcap"]
        done = subprocess.run(words, cwd=folder, capture_output=True, timeout=60)
        output = folder / "out.pcap"
        made = output.read_bytes() if output.exists() else None
        return done.returncode, done.stdout.decode().splitlines(), done.stderr.decode(), made


def measured(text, data, command="simulate"):
    """Whether a command ended well, the lines of the report, and the kilobytes and the seconds of a processor that it took."""
    with tempfile.TemporaryDirectory() as name:
        folder = pathlib.Path(name)
        (folder / "s.toml").write_text(text)
        (folder / "in.pcap").write_bytes(data)
        words = [sys.executable, "-c", MEASURE, PROGRAM, *command.split(), "s.toml", "in.pcap", "out.pcap"]
        done = subprocess.run(words, cwd=folder, capture_output=True, text=True, timeout=60)
        *lines, took = done.stdout.splitlines()
        kilobytes, seconds = took.split()
        return (done.returncode, done.stderr) == (0, ""), lines, int(kilobytes), float(seconds)


def is_fault(answer, fault, output=None):
    """The answer is this fault alone, with this OUTPUT."""
    return answer == (1, [], f"fault: {fault}\n", output)


def reports(answer, *lines):
    """The answer is a report that has these lines."""
    return answer[0] == 0 and answer[2] == "" and set(lines) <= set(answer[1])


def test_cuts():
    """A capture of one record, cut behind each of its bytes."""
    data = head() + record(P)
    whole = answered(scenario(), data)
    sent = whole[3]
    check("the whole capture", reports(whole, "packets 1", "cut no", "forwarded 1") and len(sent) == 24 + 16 + 64, repr(whole))
    for command in ["simulate", "run"]:
        for length in range(len(data)):
            answer = answered(scenario(), data[:length], command)
            if length < 24:
                holds = is_fault(answer, "ShortHeader")
            else:
                cut = "no" if length == 24 else "yes"
                holds = reports(answer, "packets 0", f"cut {cut}", "forwarded 0") and answer[3] == sent[:24]
            check(f"{command}: the first {length} bytes", holds, repr(answer))


def dropped(name, packets, forwarded, causes):
    """Each of these packets is forwarded or dropped, as often for each cause as is said."""
    text = scenario(["install 0 1", f"take {len(packets)}"], check="false")
    answer = answered(text, head() + b"".join(map(record, packets)))
    lines = [f"received {len(packets)}", f"forwarded {forwarded}", *(f"drop {cause} {count}" for cause, count in causes.items())]
    drops = [line for line in answer[1] if line.startswith("drop ")]
    check(name, reports(answer, *lines) and len(drops) == len(causes), repr(answer[:3]))


def test_fields():
    """Each value of the first byte and of the total length, and some of the flags and the fragment's place."""
    firsts = [bytes([value]) + P[1:] for value in range(256)]
    causes = {"NotIpv4": 240, "BadHeader": 5, "BadTransport": 5, "Truncated": 5}
    dropped("each value of the first byte", firsts, 1, causes)
    lengths = [P[:2] + value.to_bytes(2, "big") + P[4:] for value in range(65536)]
    dropped("each total length", lengths, 1, {"BadHeader": 20, "BadTransport": 20, "Truncated": 65495})
    offsets = [bytes([flags, low]) for flags in (0x00, 0x20, 0x40, 0x60, 0x80, 0x1F) for low in (0, 1, 255)]
    # More fragments and the place; the two bits in front say nothing of it.
    whole = [one for one in offsets if one[0] & 0x3F == 0 and one[1] == 0]
    dropped("fragments", [P[:6] + one + P[8:] for one in offsets], len(whole), {"Fragment": len(offsets) - len(whole)})


def test_records():
    """Records whose lengths lie, and those of the greatest and the least length."""
    one = scenario(["install 0 1", "take 9"])
    sent = answered(scenario(), head() + record(P))[3]
    most = head() + record(bytes(262144)) + record(P)
    check("262,144 bytes", reports(answered(one, most), "packets 2", "drop NotIpv4 1", "forwarded 1"))
    over = answered(one, head() + record(P) + record(b"", 262145))
    check("262,145 bytes", is_fault(over, "TooLong", sent), repr(over))
    over = answered(one, head() + record(P) + record(b"", 2**32 - 1))
    check("the greatest length that can be said", is_fault(over, "TooLong", sent), repr(over))
    empty = answered(one, head() + record(b"") * 3 + record(P))
    check("records without bytes", reports(empty, "packets 4", "drop Truncated 3", "forwarded 1"), repr(empty))
    for original in [0, 39, 41, 2**32 - 1]:
        said = answered(one, head() + record(P, original=original))
        check(f"an original length of {original}", reports(said, "packets 1", "forwarded 1") and said[3] == sent, repr(said))
    lies = answered(one, head() + record(P, 41))
    check("a record that says one byte more", reports(lies, "packets 0", "cut yes"), repr(lies))


def test_headers():
    """Capture headers that are nearly right."""
    one = scenario()
    for name, data, fault in [
        ("pcapng", bytes.fromhex("0a0d0d0a") + bytes(40), "BadMagic"),
        ("the magic's bytes mixed", bytes.fromhex("b2a1d4c3") + head()[4:], "BadMagic"),
        ("a modified capture's magic", head(magic=0xA1B2CD34), "BadMagic"),
        ("gzip", bytes.fromhex("1f8b0800") + bytes(40), "BadMagic"),
        ("version 2.3", head(version=(2, 3)), "BadVersion"),
        ("version 4.2", head(version=(4, 2)), "BadVersion"),
        ("a bad version of an unknown link", head(113, version=(3, 4)), "BadVersion"),
        ("Linux cooked", head(113), "BadLink"),
        ("null link", head(0), "BadLink"),
        ("raw IP by the number of one system", head(12), "BadLink"),
        ("a link type with a bit set above", head(101 + 2**31), "BadLink"),
        ("a short header of a bad magic", bytes(23), "ShortHeader"),
    ]:
        for command in ["simulate", "run"]:
            answer = answered(one, data, command)
            check(f"{command}: {name}", is_fault(answer, fault), repr(answer))


def test_scenarios():
    """Scenarios at the edges of TOML and of what a scenario may say."""
    good = scenario()
    deep = "steps = " + "[" * 200_000
    for name, text, fault in [
        ("nothing", "", "BadFormat"),
        ("zeros", bytes(1000), "BadToml"),
        ("no UTF-8", b"\xff\xfe" + good.encode(), "BadToml"),
        ("a surrogate's three bytes", b'format = "\xed\xa0\x80"\n', "BadToml"),
        ("200,000 opened brackets", deep, "BadToml"),
        ("200,000 tables in one another", "a = " + "{a=" * 200_000, "BadToml"),
        ("a key of 100,000 parts", "a" + ".a" * 100_000 + " = 1\n", "BadToml"),
        ("a key given twice", good.replace("size = 7\n", "size = 7\nsize = 7\n"), "BadToml"),
        ("a number of 5,000 digits", scenario(size="9" * 5000), "BadToml"),
        ("a format of 2^63", scenario(format=2**63), "BadToml"),
        ("a format that is real", scenario(format="1.0"), "BadFormat"),
        ("a format in words", scenario(format='"1"'), "BadFormat"),
        ("a size below 0", scenario(size=-7), "BadKey"),
        ("a size of 7 + 2^32", scenario(size=7 + 2**32), "BadKey"),
        ("a capacity of 0", scenario(capacity=0), "BadKey"),
        ("workers of 2^63 - 1", scenario(workers=2**63 - 1), "BadKey"),
        ("an idle limit of 2^63 - 1", scenario(format=2, idle=2**63 - 1), "BadKey"),
        ("an idle limit of 2^63", scenario(format=2, idle=2**63), "BadToml"),
        ("an idle limit that is a time", scenario(format=2, idle="00:00:05"), "BadKey"),
        ("a node's address of five parts", scenario(nodes='["10.9.0.1.1"]'), "BadKey"),
        ("a node's address of Arabic digits", scenario(nodes='["10.9.0.\u0661"]'), "BadKey"),
        ("a step with a space in front", scenario([" take 1"]), "BadStep 0"),
        ("a step with two spaces", scenario(["take  1"]), "BadStep 0"),
        ("a step of 2^64", scenario(["take 18446744073709551616"]), "BadStep 0"),
        ("a step with a sign", scenario(["take +1"]), "BadStep 0"),
        ("a step with leading zeros", scenario(["take 01"]), "BadStep 0"),
        ("a member with a space", good.replace("A@10.8.0.1", "A @10.8.0.1"), "BadMember"),
        ("a member's name of 64 bytes", good.replace("A@", "A" * 64 + "@"), "BadMember"),
    ]:
        answer = answered(text, head())
        check(f"a scenario of {name}", is_fault(answer, fault), repr(answer)[:300])
    for name, text in [
        ("with lines that two bytes end", good.replace("\n", "\r\n")),
        ("with numbers of other bases", scenario(size="0x7", capacity="0b10", workers="0o1")),
    ]:
        answer = answered(text, head() + record(P))
        check(f"a scenario {name}", reports(answer, "forwarded 1"), repr(answer)[:300])


def from_port(port):
    """The datagram from this port."""
    return P[:20] + struct.pack(">H", port) + P[22:]


def test_floods():
    """A packet of each of 60,000 flows, in tables of one entry and of 1,000, and in rings of 64 places."""
    data = head() + b"".join(record(from_port(1000 + place)) for place in range(60_000))
    for capacity in [1, 1000]:
        text = scenario(["install 0 1", "take 60000"], capacity=capacity, ring=64)
        for command in ["simulate", "run"]:
            answer = answered(text, data, command)
            lines = dict(line.rsplit(" ", 1) for line in answer[1])
            told = int(lines["forwarded"]) + int(lines.get("drop RingsFull", 0))
            holds = reports(answer, "received 60000", "waiting 0") and told == 60_000
            check(f"{command} with tables of {capacity}", holds, repr(answer[:3]))


def test_floods_with_a_limit():
    """60,000 packets, a microsecond apart: of flows that come once and push each other out, and of flows that all have an entry
    when they come again. Where each entry is past its limit at the next packet, and where none is, they are sent as without a
    limit, and take neither more memory nor twice the time."""
    for flows, capacity in [(60_000, 1000), (30_000, 30_000), (1000, 1000)]:
        data = head() + b"".join(record(from_port(1000 + place % flows), at=place) for place in range(60_000))
        keys = {"steps": ["install 0 1", "take 60000"], "capacity": capacity, "ring": 65536}
        # Threads that wait take time too.
        for command, slack in [("simulate", 0.5), ("run", 2)]:
            plain = measured(scenario(**keys), data, command)
            check(f"{command} of {flows} flows", plain[0] and "forwarded 60000" in plain[1], repr(plain))
            for limit in [0, 60_000]:
                limited = measured(scenario(format=2, idle=limit, **keys), data, command)
                name = f"{command} of {flows} flows with a limit of {limit}"
                check(name, limited[:2] == plain[:2], repr(limited))
                check(f"{name}: memory", limited[2] < plain[2] + 8192, f"{limited[2]} and {plain[2]} kB")
                check(f"{name}: time", limited[3] < 2 * plain[3] + slack, f"{limited[3]} and {plain[3]} s")


def test_repeats():
    """Each of 40,000 records comes again right behind it: those of 1,400 bytes take no more memory than those of 40."""
    steps = ["install 0 1"]
    for place in range(40_000):
        steps += ["take 1", f"again {place}"]
    peaks = []
    for length in [40, 1400]:
        ended, lines, peak, _ = measured(scenario(steps), head() + record(P + bytes(length - 40)) * 40_000)
        peaks.append(peak)
        check(f"repeats of {length} bytes", ended and "forwarded 80000" in lines, repr(lines))
    # The larger records are 56,000 kilobytes.
    check("memory of repeats", peaks[1] < peaks[0] + 8192, repr(peaks))


def test_waiting_repeats():
    """One record comes again 90,000 times at a node that is held. One of 60,000 bytes takes no more memory than one of 40, and no
    more where all of them are served at the end than where a restart loses them."""
    peaks = []
    for last, length, line in [("restart 0", 40, "drop LostAtRestart 90000"), ("restart 0", 60_000, "drop LostAtRestart 90000"), ("drain 0", 60_000, "forwarded 90001")]:
        steps = ["install 0 1", "take 1", "hold 0", *["again 0"] * 90_000, last]
        ended, lines, peak, _ = measured(scenario(steps), head() + record(P + bytes(length - 40)))
        peaks.append(peak)
        check(f"repeats of {length} bytes that wait, then {last}", ended and line in lines, repr(lines))
    # The larger records are 5,400,000 kilobytes, and a list of the servings would be 12,600.
    check("memory of repeats that wait", max(peaks) < peaks[0] + 8192, repr(peaks))


# How many flows are chosen, and in how many bits their hashes by the fixed key agree: in those that say in which of the 4,096
# groups a map of so many flows keeps one.
FLOWS = 32_768
BITS = 12


def from_client(address, port):
    """The datagram from this port of this address, with a checksum that isn't its own."""
    return P[:12] + struct.pack(">I", address) + P[16:20] + struct.pack(">H", port) + P[22:]


def chosen_flows():
    """A datagram of each of the flows that a map by the fixed key would keep in one group."""
    clients, ports = (ctypes.c_uint32 * FLOWS)(), (ctypes.c_uint16 * FLOWS)()
    with tempfile.TemporaryDirectory() as folder:
        ctypes.CDLL(growths.compiled(folder, "choose.c")).choose(FLOWS, BITS, clients, ports)
    return [from_client(*client) for client in zip(clients, ports)]


def drawn_flows():
    """A datagram of each of as many flows that are drawn."""
    dice = random.Random(1)
    return [from_client(0x0A000001 + dice.randrange(1 << 20), dice.randrange(1024, 65536)) for _ in range(FLOWS)]


def test_chosen_flows():
    """Two packets of each of the flows that were chosen for the fixed key take no longer than two of each of as many drawn ones.
    With the fixed key each search in a connection table, or in the book of the splits, would look at all of them. A command
    counts by the least time of three runs of each, in turns, and may take three times as long. So it is behind a restart, which
    empties the tables."""
    keys = {"capacity": 65536, "ring": 65536, "check": "false"}
    whole = scenario(["install 0 1", f"take {2 * FLOWS}"], **keys)
    restarted = scenario(["install 0 1", "take 1", "restart 0", f"take {2 * FLOWS}"], **keys)
    captures = [head() + b"".join(map(record, 2 * flows)) for flows in (chosen_flows(), drawn_flows())]
    cases = [(command, command, whole) for command in ["simulate", "simulate --splits", "run", "run --splits"]]
    cases += [(f"{command} behind a restart", command, restarted) for command in ["simulate", "run"]]
    for name, command, text in cases:
        runs = [[measured(text, data, command) for data in captures] for _ in range(3)]
        ended = all(holds and f"forwarded {2 * FLOWS}" in lines for both in runs for holds, lines, *_ in both)
        check(f"{name} of chosen flows", ended, repr(runs))
        chosen, drawn = (min(seconds for *_, seconds in one) for one in zip(*runs))
        check(f"{name} of chosen flows: time", chosen < 3 * drawn, f"{chosen} and {drawn} s")


# What std's `FoldHasher` multiplies a flow's hash by, after xor with one of the flow's two words of 8 bytes, least byte first. The
# first word is source and destination, the second the ports and the protocol. Only the other operand of the product is secret.
KNOWN_MULTIPLIER = 0x9E3779B97F4A7C15
# With these ports a UDP flow's second word makes both halves of the known operand the same 32 bits, so that sums in the product
# cancel when its halves are joined. With the others it makes the lower half of the operand zero bits alone.
SAME_HALVES = (48389, 32225)
ZERO_HALF = (5500, 19071)
# 192.0.2.1, and how many flows of a family there are.
ADDRESS = 0xC0000201
COLLIDING = 65_536


def turned(number):
    """A number of four bytes with its bytes in the other order."""
    return int.from_bytes(number.to_bytes(4, "big"), "little")


# An address of the service, and a client's, that are the known multiplier as a first word: one operand would be zero.
TURNED_ADDRESS, TURNED_CLIENT = turned(KNOWN_MULTIPLIER >> 32), turned(KNOWN_MULTIPLIER & 0xFFFFFFFF)

# Families of flows that make a known operand regular: from a flow's number to source, destination and ports. Those of the same
# halves collide under `FoldHasher`; ports do where the first word's operand is the known one; for the other none was seen.
FAMILIES = {
    "sources from the highest byte down": lambda place: (turned(0x0A ^ place << 8), ADDRESS, *SAME_HALVES),
    "sources that count": lambda place: (0x0A000000 + place, ADDRESS, *SAME_HALVES),
    "sources and a half of zero bits": lambda place: (turned(0x0A ^ place << 8), ADDRESS, *ZERO_HALF),
    "sources and destinations": lambda place: (0x0A000000 + (place >> 8), ADDRESS + (place & 255), *SAME_HALVES),
    "ports": lambda place: (TURNED_CLIENT, TURNED_ADDRESS, place, SAME_HALVES[1]),
}
# Two packets of each flow; the second ones with a restart in front of them.
WHOLE = ["install 0 1", f"take {2 * COLLIDING}"]
RESTARTED = ["install 0 1", f"take {COLLIDING}", "restart 0", f"take {COLLIDING}"]


def udp(source, destination, port, service):
    """A UDP datagram without payload, and without a checksum of its header."""
    return struct.pack(">BBHHHBBHIIHHHH", 0x45, 0, 28, 1, 0, 64, 17, 0, source, destination, port, service, 8, 0)


def destinations_of(flows):
    """The services of flows, as a scenario's keys say them."""
    text = ""
    for address, port in sorted({(destination, service) for _, destination, _, service in flows}):
        dotted = ".".join(map(str, address.to_bytes(4, "big")))
        text += f'[[versions.services]]\nvip = "{dotted}"\nproto = "udp"\nport = {port}\nmembers = ["A@10.8.0.1", "B@10.8.0.2", "C@10.8.0.3"]\n'
    return text


def timed(words, folder):
    """Status and lines of a command, and the seconds of a processor that it took."""
    with subprocess.Popen(words, cwd=folder, stdout=subprocess.PIPE, text=True) as running:
        lines = running.stdout.read().splitlines()
        _, status, took = os.wait4(running.pid, 0)
        running.returncode = os.waitstatus_to_exitcode(status)
    return running.returncode, lines, took.ru_utime + took.ru_stime


def least_times(folder, command):
    """Whether each run forwards all packets, and the least time of a command with each of two captures, in turns: at least of three,
    and of up to ten while the first takes more than half as long again as the second."""
    times = {"chosen.pcap": [], "drawn.pcap": []}
    chosen, drawn = times.values()
    ended = True
    while len(drawn) < 3 or (len(drawn) < 10 and min(chosen) > 1.5 * min(drawn)):
        for name, one in times.items():
            status, lines, seconds = timed([PROGRAM, *command.split(), "s.toml", name, "/dev/null"], folder)
            ended = ended and status == 0 and f"forwarded {2 * COLLIDING}" in lines
            one.append(seconds)
    return ended, min(chosen), min(drawn)


def judge_family(folder, family, services, commands, steps):
    """Times commands over a family's flows, beside drawn ones. Two workers' rings take as many packets as come."""
    for command in commands:
        keys = {"capacity": COLLIDING, "ring": 65536, "check": "false", "workers": 2 if command == "run" else 1}
        text = scenario(steps, **keys)
        (folder / "s.toml").write_text(text[: text.index("services")] + services)
        ended, one, other = least_times(folder, command)
        name = f"{command} of {family}{' with a restart' if steps == RESTARTED else ''}"
        check(name, ended)
        check(f"{name}: time", one <= 1.5 * other, f"{one:.3f} and {other:.3f} s")


def test_known_multiplier():
    """Two packets of each of the flows of a family take at most half as long again as two of each of as many flows from drawn
    clients and ports to the same services. Families don't depend on the key, so that to draw one doesn't help where an operand is
    known: with the first family the program of commit 5ce00ac took four times as long, and that of cac554b up to thirty times."""
    dice = random.Random(1)
    for number, (family, flow_of) in enumerate(FAMILIES.items()):
        chosen = [flow_of(place) for place in range(COLLIDING)]
        drawn = [(dice.randrange(1 << 32), destination, dice.randrange(65_536), service) for _, destination, _, service in chosen]
        services = destinations_of(chosen)
        with tempfile.TemporaryDirectory() as name:
            folder = pathlib.Path(name)
            for file, flows in [("chosen.pcap", chosen), ("drawn.pcap", drawn)]:
                (folder / file).write_bytes(head() + b"".join(2 * [record(udp(*flow)) for flow in flows]))
            judge_family(folder, family, services, ["simulate", "simulate --splits", "run"], WHOLE)
            if number == 0:
                judge_family(folder, family, services, ["simulate", "run"], RESTARTED)


def test_no_random_bytes():
    """Where the system gives no random bytes a command ends with a fault, and not with the fixed key, for which flows were chosen."""
    with tempfile.TemporaryDirectory() as name:
        folder = pathlib.Path(name)
        (folder / "s.toml").write_text(scenario())
        (folder / "in.pcap").write_bytes(head() + record(P))
        environment = {"LD_PRELOAD": growths.compiled(folder, "refuse_random.c")}
        for words in [["simulate", "s.toml", "in.pcap", "out.pcap"], ["run", "s.toml", "in.pcap", "out.pcap"], ["explain", "s.toml", "in.pcap", "2", "2"]]:
            done = subprocess.run([growths.PROGRAM, *words], cwd=folder, capture_output=True, env=environment, timeout=60)
            answer = (done.returncode, done.stdout, done.stderr)
            check(f"{words[0]} without random bytes", answer == (1, b"", b"fault: NoRandom\n"), repr(answer))
        check("OUTPUT without random bytes", not (folder / "out.pcap").exists())


if __name__ == "__main__":
    sys.exit(run_tests(globals()))
