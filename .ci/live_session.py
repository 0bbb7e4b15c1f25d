#!/usr/bin/env python3
"""Runs a session of `serve` over loopback in real time, and compares what its listeners get with what `bridge alone` sends them.

    live_session.py SERVE BRIDGE G726 ROSTER CAPTURE FOLDER

examples/live/receive.py is each listener, and examples/live/send.py each talker: it sends the capture's packets in the middle of ticks. Beside
them go datagrams that are to be refused, and reports. What was sent is made a capture by the times at which it went, and `bridge alone` gives
its answer, which has to be what came, packet for packet (a talker's first packet may have come a tick sooner or later than it went, which is
tried). Where they differ, the loudness of both has to rise and fall together, unless the machine was too busy: a thread that only sleeps tells
how late it is waked. FOLDER is for what comes and goes.
"""
import itertools
import os
import socket
import struct
import subprocess
import sys
import threading
import time

TOP = os.path.join(os.path.dirname(os.path.realpath(__file__)), "..")
sys.path.insert(0, os.path.join(TOP, "tools"))
from captures.codec import g726  # noqa: E402
from captures.rosters import TICK, read_roster  # noqa: E402
from captures.rtpdump import HEAD, Fault, records, write_record  # noqa: E402

LIMIT = 36  # seconds, for all
BUSY = 0.005  # seconds
ALIKE = 0.8
BEGUN = time.monotonic()

HOSTILE = {
    "empty": (b"", 0, 0),
    "torn": (bytes([0x80, 0]), 1, 0),
    "of another version": (struct.pack(">BBHII", 0, 0, 1, 1, 1001) + bytes(160), 1, 0),
    "from nobody": (struct.pack(">BBHII", 0x80, 0, 1, 1, 7777) + bytes(160), 1, 0),
    "of another payload type": (struct.pack(">BBHII", 0x80, 13, 1, 1, 1001) + bytes(1), 1, 0),
    "a receiver's report": (bytes.fromhex("80c9000100000007"), 0, 1),
    "a sender's report with a BYE": (bytes.fromhex("80c80006000000070000000000000000000000000000000000000000") + bytes.fromhex("81cb000100000007"), 0, 1),
    "a report that is cut": (bytes.fromhex("80c90002") + bytes(4), 1, 0),
    "a BYE before any report": (bytes.fromhex("81cb000100000007"), 1, 0),
    "a report of another version": (bytes.fromhex("40c9000100000007"), 1, 0),
    "a report with broken padding": (bytes.fromhex("a0c9000100000003"), 1, 0),
}
"""Datagrams, with how many of `refused` and of `heard` each is."""


class Differs(Exception):
    pass


class Pulse(threading.Thread):
    """Tells how late this machine wakes what sleeps, at worst."""

    def __init__(self):
        super().__init__(daemon=True)
        self.worst = 0.0

    def run(self):
        while True:
            begun = time.monotonic()
            time.sleep(0.01)
            self.worst = max(self.worst, time.monotonic() - begun - 0.01)


PULSE = Pulse()


def left():
    """The seconds that are left, but one at least."""
    return max(1.0, BEGUN + LIMIT - time.monotonic())


def need(fact, text):
    if not fact:
        raise Differs(text)


def free_ports(count):
    """As many ports that are free, with the port above each, none of them twice; and one more, for serve."""
    found, held = [], []
    while len(found) < count + 1:
        low, high = (socket.socket(socket.AF_INET, socket.SOCK_DGRAM) for _ in range(2))
        held += [low, high]
        low.bind(("127.0.0.1", 0))
        port = low.getsockname()[1]
        try:
            high.bind(("127.0.0.1", port + 1))
            found.append(port)
        except (OSError, OverflowError):
            pass
    for one in held:
        one.close()
    return found


def run(words, roster, folder):
    """The session; gives the line of serve, and how many ms after its begin the sender's offset 0 is."""
    serve, _, _, roster_path, capture = words
    ports = free_ports(len(roster.listeners()))
    peers = os.path.join(folder, "peers")
    with open(peers, "w") as file:
        file.writelines(f"{member.number} 127.0.0.1 {port}\n" for member, port in zip(roster.listeners(), ports))
    live = os.path.join(TOP, "examples/live")
    started = []

    def start(*command):
        one = subprocess.Popen(command, stdout=subprocess.PIPE, stderr=subprocess.PIPE, text=True)
        started.append(one)
        return one

    try:
        receiver = start(sys.executable, f"{live}/receive.py", roster_path, peers, "-o", f"{folder}/heard", "--idle", "4", "--wait", "10", "--strict")
        need("listeners at" in receiver.stderr.readline(), "the receiver doesn't begin")
        server = start(serve, str(ports[-1]), peers, roster_path)
        line = receiver.stderr.readline()
        need(line.startswith("first packet at "), "serve sends nothing: " + (server.stderr.read() if server.poll() is not None else ""))
        begin = float(line.split()[-1]) - TICK / 1000
        ahead = TICK * int((time.time() - begin + 1.5) * 1000 / TICK) + TICK // 2
        sender = start(sys.executable, f"{live}/send.py", roster_path, "--to", f"127.0.0.1:{ports[-1]}", "--capture", capture, "--record", f"{folder}/sent", "--at", f"{begin + ahead / 1000:.6f}")
        harass(ports[-1])
        said, ill = sender.communicate(timeout=left())
        need(sender.returncode == 0, ill)
        _, line = server.communicate(timeout=left())
        need(server.returncode == 0, f"serve ended with {server.returncode}: {line}")
        told, ill = receiver.communicate(timeout=left())
        print(f"{said}{line}{told}", end="")
        need(receiver.returncode == 0, "a listener didn't get what the roster promises")
        return line.split(), int(ahead)
    finally:
        for one in started:
            if one.poll() is None:
                one.kill()
                one.wait()


def harass(port):
    with socket.socket(socket.AF_INET, socket.SOCK_DGRAM) as out:
        for octets, _, _ in HOSTILE.values():
            out.sendto(octets, ("127.0.0.1", port))


def read(path):
    with open(path, "rb") as file:
        return [(offset, octets) for offset, _, octets in records(file, path)]


def by_source(packets):
    """The packets of each SSRC, in the order of what they carry."""
    found = {}
    for _, octets in packets:
        found.setdefault(int.from_bytes(octets[8:12], "big"), []).append(octets)
    return found


def answer(bridge, roster_path, sent, moved, folder):
    """What `bridge alone` sends, and its line, where each talker's packets come so many ms later."""
    path = os.path.join(folder, "moved")
    with open(path, "wb") as file:
        file.write(HEAD)
        for offset, octets in sorted(((max(0, offset + moved[int.from_bytes(octets[8:12], "big")]), octets) for offset, octets in sent), key=lambda one: one[0]):
            write_record(file, offset, len(octets), octets)
    with open(path, "rb") as file, open(f"{folder}/answer", "wb") as out:
        done = subprocess.run([bridge, "alone", roster_path], stdin=file, stdout=out, stderr=subprocess.PIPE, text=True, timeout=left())
    need(done.returncode == 0, f"bridge alone ended with {done.returncode}: {done.stderr}")
    return by_source(read(f"{folder}/answer")), done.stderr.split()


def loudness(program, rate, packets):
    samples = g726(program, "decode", rate, b"".join(octets[12:] for octets in packets))
    samples = struct.unpack(f"<{len(samples) // 2}h", samples)
    return [sum(map(abs, samples[at : at + 160])) for at in range(0, len(samples), 160)]


def alike(first, second):
    """How much two lists rise and fall together, at the best of some shifts: 1 is wholly, 0 not at all."""
    best = -1.0
    for shift in range(-6, 7):
        x, y = first[max(0, shift) :], second[max(0, -shift) :]
        count = min(len(x), len(y))
        x, y = x[:count], y[:count]
        mx, my = sum(x) / count, sum(y) / count
        xx, yy = sum((a - mx) ** 2 for a in x), sum((b - my) ** 2 for b in y)
        xy = sum((a - mx) * (b - my) for a, b in zip(x, y))
        best = max(best, xy / (xx * yy) ** 0.5 if xx and yy else float(xx == yy))
    return best


def compare(words, roster, line, ahead, folder):
    _, bridge, program, roster_path, _ = words
    heard = by_source(read(f"{folder}/heard"))
    sent = [(offset + ahead, octets) for offset, octets in read(f"{folder}/sent")]
    sources = sorted({int.from_bytes(octets[8:12], "big") for _, octets in sent})
    tries = sorted(itertools.product((0, -TICK, TICK), repeat=len(sources)), key=lambda moves: sum(map(abs, moves)))
    first = None
    for moves in tries:
        if first and time.monotonic() > BEGUN + LIMIT - 8:
            break
        try:
            right, told = answer(bridge, roster_path, sent, dict(zip(sources, moves)), folder)
        except subprocess.TimeoutExpired:
            if first is None:
                raise
            break
        first = first or right
        if right == heard:
            refused = sum(one[1] for one in HOSTILE.values())
            need(line[3] == told[3], f"serve made {line[3]} runs, and bridge alone {told[3]}")
            need(int(line[7]) == int(told[7]) + refused, f"serve refused {line[7]}, and bridge alone {told[7]}, beside {refused} that only serve was sent")
            moved = sum(move != 0 for move in moves)
            return f"each packet as bridge alone sends it ({moved} talkers heard a tick sooner or later than they were sent)" if moved else "each packet as bridge alone sends it"
    least = min((alike(loudness(program, one.rate, heard[one.source]), loudness(program, one.rate, first[one.source])) for one in roster.listeners()), default=1.0)
    need(least >= ALIKE or PULSE.worst > BUSY, f"what is heard is too unlike what bridge alone sends: {least:.2f}")
    return f"the machine was busy ({1000 * PULSE.worst:.0f} ms late): payloads differ, and loudness is alike by {least:.2f}"


def totals(roster, line):
    """What the line of serve has to say, but for runs and refusals."""
    last = (roster.end + TICK - 1) // TICK
    packets = reports = 0
    for one in roster.listeners():
        begin, until = one.ticks(roster.end)
        count = (until - begin + one.bundle - 1) // one.bundle
        packets += count
        reports += sum(begin + one.bundle - 1 <= tick < until for tick in range(249, last, 250)) + (count > 0)
    heard = sum(one[2] for one in HOSTILE.values())
    wanted = ["ticks", str(last), "runs", line[3], "packets", str(packets), "refused", line[7], "unsent", "0", "reports", str(reports), "heard", str(heard)]
    need(line == wanted, f"serve says `{' '.join(line)}`, and `{' '.join(wanted)}` is right")


def main():
    *words, folder = sys.argv[1:]
    if len(words) != 5:
        sys.exit(__doc__)
    PULSE.start()
    try:
        roster = read_roster(words[3])
        line, ahead = run(words, roster, folder)
        totals(roster, line)
        print(compare(words, roster, line, ahead, folder))
    except subprocess.TimeoutExpired as late:
        if PULSE.worst < BUSY:
            sys.exit(f"live session: {late.cmd[0]} doesn't end")
        print(f"the machine was too busy ({1000 * PULSE.worst:.0f} ms late), nothing was compared")
    except (Differs, Fault, OSError) as fault:
        sys.exit(f"live session: {fault}")


main()
