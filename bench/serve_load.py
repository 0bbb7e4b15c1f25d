#!/usr/bin/env python3
"""Loads the program `serve` over loopback: three talkers, and listeners by the hundred.

    serve_load.py SERVE LOAD session LISTENERS SECONDS [RATE [apart]]    one session: a row of a table
    serve_load.py SERVE LOAD most SECONDS [RATE]                         the most listeners of whom none hears a tick over 20 ms late

SERVE is the program, LOAD what bench/serve_load.c becomes, RATE how many hostile datagrams a second come to the port beside the talkers'. The
listeners have the four rates in turn, and begin together, so that a tick has four runs; `apart` lets them join one a tick, so that each has an
encoder of its own. Ticks are late beside the session's promptest one, by the time at which the system saw a packet. bench/serve.sh runs it all.
"""
import os
import random
import socket
import statistics
import struct
import subprocess
import sys
import tempfile
import time

TICK = 20  # ms
PORTS = 16
RATES = (16, 24, 32, 40)
TALKERS = 3
MOST = 1024 - TALKERS
LATE, TOO_LATE = 5, 20  # ms
CLOCK = os.sysconf("SC_CLK_TCK")


class Failed(Exception):
    pass


def free_run(count):
    """The first of so many ports in a row that are free."""
    for first in random.sample(range(20000, 30000, 2), 200):
        held = []
        try:
            for port in range(first, first + count):
                one = socket.socket(socket.AF_INET, socket.SOCK_DGRAM)
                held.append(one)
                one.bind(("127.0.0.1", port))
            return first
        except OSError:
            continue
        finally:
            for one in held:
                one.close()
    raise Failed("there are no free ports")


def write_files(folder, listeners, seconds, first, apart):
    """The roster and the peers. A packet's sequence number is its tick."""
    with open(f"{folder}/roster", "w") as roster, open(f"{folder}/peers", "w") as peers:
        for member in range(1, TALKERS + 1):
            roster.write(f"0 join {member} {('pcmu', 'pcma')[member % 2]}:{1000 + member} -\n")
        for place in range(listeners):
            tick = min(place, 50 * seconds - 1) if apart else 0
            member, which = 1000 + place, place % 4
            roster.write(f"{TICK * tick} join {member} - {RATES[which]} {96 + which} {2000 + place} {tick} 0\n")
            peers.write(f"{member} 127.0.0.1 {first + 2 * (place % PORTS)}\n")
        roster.write(f"{1000 * seconds} end\n")


def of(pid):
    """Processor time in seconds, and megabytes held, of a process."""
    with open(f"/proc/{pid}/stat") as file:
        fields = file.read().rpartition(")")[2].split()
    with open(f"/proc/{pid}/status") as file:
        held = next(int(line.split()[1]) for line in file if line.startswith("VmRSS"))
    return (int(fields[11]) + int(fields[12])) / CLOCK, held / 1000


def dropped(port):
    """How many datagrams the system dropped for want of room at a port."""
    with open("/proc/net/udp") as file:
        for line in file:
            fields = line.split()
            if fields[1].endswith(f":{port:04X}"):
                return int(fields[-1])
    return 0


def talk(port, seconds, server, samples):
    """Sends what three talkers say, in real time, while serve runs; takes samples of it on the way."""
    chance = random.Random(1)
    noise = [bytes(chance.randrange(0x10, 0x30) | chance.randrange(2) << 7 for _ in range(160)) for _ in range(64)]
    sockets = [socket.socket(socket.AF_INET, socket.SOCK_DGRAM) for _ in range(TALKERS)]
    begun, number = time.monotonic(), 0
    while number < 50 * seconds and server.poll() is None:
        wait = begun + number * TICK / 1000 - time.monotonic()
        if wait > 0:
            time.sleep(wait)
        for place, one in enumerate(sockets, 1):
            law = 8 if place % 2 else 0
            head = struct.pack(">BBHII", 0x80, law, number & 0xFFFF, 160 * number & 0xFFFFFFFF, 1000 + place)
            one.sendto(head + noise[(number + 7 * place) % len(noise)], ("127.0.0.1", port))
        number += 1
        if number in (100, 50 * (seconds - 1)):
            samples.append((*of(server.pid), number, dropped(port)))
    for one in sockets:
        one.close()


def session(serve, load, listeners, seconds, rate=0, apart=False):
    """Runs one; gives what was measured, by name."""
    started = []
    with tempfile.TemporaryDirectory() as folder:
        first = free_run(2 * PORTS + 1)
        port = first + 2 * PORTS
        write_files(folder, listeners, seconds, first, apart)
        try:
            receiver = subprocess.Popen([load, "receive", str(first), str(PORTS), str(50 * seconds), str(seconds + 20)], stdout=subprocess.PIPE, text=True)
            started.append(receiver)
            if receiver.stdout.readline() != "ready\n":
                raise Failed("the receiver doesn't begin")
            server = subprocess.Popen([serve, str(port), f"{folder}/peers", f"{folder}/roster"], stderr=subprocess.PIPE, text=True)
            started.append(server)
            time.sleep(0.05)
            if rate:
                started.append(subprocess.Popen([load, "flood", str(port), str(rate), str(seconds)], stdout=subprocess.PIPE, text=True))
            samples = []
            talk(port, seconds, server, samples)
            told = receiver.communicate(timeout=60)[0].splitlines()
            said = server.communicate(timeout=60)[1].strip()
            if server.returncode or len(samples) < 2:
                raise Failed(f"serve ended with {server.returncode}: {said}")
            return measures(told, said, samples, seconds)
        finally:
            for one in started:
                if one.poll() is None:
                    one.kill()
                one.wait()


def measures(told, said, samples, seconds):
    ticks = [tuple(map(int, line.split())) for line in told if line[0].isdigit()]
    if not ticks:
        raise Failed("nothing came")
    begin = min(first - TICK * 1_000_000 * (tick + 1) for tick, first, _, _ in ticks)
    firsts = [(first - begin) / 1e6 - TICK * (tick + 1) for tick, first, _, _ in ticks]
    lasts = [(last - begin) / 1e6 - TICK * (tick + 1) for tick, _, last, _ in ticks]
    packets = sum(one[3] for one in ticks)
    (used, held, at, lost), (used_then, held_then, then, lost_then) = samples[0], samples[-1]
    words = said.split()
    return {
        "Ticks": len(ticks),
        "Packets a second": round(packets / seconds),
        "lost": int(words[5]) - packets,
        "Ticks over 5 ms late": sum(late > LATE for late in firsts),
        "latest, ms": round(max(firsts), 1),
        "Last listener: usual, ms": round(statistics.median(lasts), 1),
        "its latest, ms": round(max(lasts), 1),
        "Processor ms a tick": round(1000 * (used_then - used) / (then - at), 2),
        "MB at 2 s": round(held, 1),
        "MB at the end": round(held_then, 1),
        "Datagrams dropped by the system": lost_then,
        "Line": said,
    }


def table(rows):
    names = list(rows[0][1])
    print("| Session | " + " | ".join(names) + " |\n|---" * 1 + "|" + "---|" * (len(names) + 1))
    for name, row in rows:
        print(f"| {name} | " + " | ".join(str(value) for value in row.values()) + " |")


def most(serve, load, seconds, rate):
    """Bisects for the most listeners of whom none hears a tick over 20 ms late; what the roster lets in is the limit."""
    def prompt(listeners):
        row = session(serve, load, listeners, seconds, rate)
        late, lost = row["its latest, ms"], row["lost"]
        print(f"  {listeners} listeners: at most {late} ms late, {lost} packets lost", file=sys.stderr, flush=True)
        return late <= TOO_LATE and not lost

    if prompt(MOST) or prompt(MOST):
        return MOST
    low, high = 0, MOST
    while high - low > 16:
        middle = (low + high) // 2
        if prompt(middle) or prompt(middle):
            low = middle
        else:
            high = middle
    return low


def main():
    words = sys.argv[1:]
    try:
        if len(words) in (5, 6, 7) and words[2] == "session":
            serve, load, _, listeners, seconds, *more = words
            rate, apart = int(more[0]) if more else 0, more[1:] == ["apart"]
            name = f"{listeners} listeners{', apart' if apart else ''}{f', {rate} hostile datagrams a second' if rate else ''}"
            table([(name, session(serve, load, int(listeners), int(seconds), rate, apart))])
        elif len(words) in (4, 5) and words[2] == "most":
            serve, load, _, seconds, *more = words
            rate = int(more[0]) if more else 0
            found = most(serve, load, int(seconds), rate)
            note = ", which is the most that a session with three talkers takes" if found == MOST else ""
            print(f"{found} listeners of whom none hears a tick over 20 ms late{f', under {rate} hostile datagrams a second' if rate else ''}{note}")
        else:
            sys.exit(__doc__)
    except (Failed, OSError, subprocess.TimeoutExpired) as fault:
        sys.exit(f"serve_load: {fault}")
    except ValueError:
        sys.exit(__doc__)


main()
