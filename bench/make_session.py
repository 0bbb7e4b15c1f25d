#!/usr/bin/env python3
"""Makes rosters and captures to measure `bridge alone` and `bridge shared` with. Python's standard library is all that it needs.

    make_session.py demo NUMBER ROSTER > CAPTURE          the demo session of a number: 12 members, 1,500 ticks
    make_session.py long TICKS ROSTER > CAPTURE           12 members who stay, and talk in turn as the demo's do
    make_session.py day TICKS ROSTER > CAPTURE            the same, as a stream: what is drawn comes again after 2,000 packets
    make_session.py listeners MEMBERS TICKS ROSTER [BUNDLE] > CAPTURE
                                                          three members who always talk, and others who only listen; BUNDLE
                                                          is how many ticks a packet to a member carries
    make_session.py apart LISTENERS TICKS ROSTER > CAPTURE
                                                          four members who always talk and are sent nothing, and listeners who come
                                                          a tick after one another, a fourth at each rate, so that hardly any two
                                                          of them share an encoder run
    make_session.py coded MEMBERS TICKS ROSTER > CAPTURE  members who all talk in G.726 at 32 kbit/s, and one who listens
    make_session.py skipped OCTETS SIZE ROSTER > CAPTURE  one member in 1,500 ticks, and OCTETS octets of records of SIZE
                                                          octets that nobody hears, as a stream

The roster goes to the file ROSTER, the capture to standard output. docs/FORMATS.md says what both mean, and what the
demo session is. All that is drawn comes from the demo's generator, so one command line makes the same octets each time.

A helper for measurements: nothing of it is proved.
"""
import struct
import sys

RATES = {1: 16, 2: 24, 3: 32, 0: 40}
FILE_HEAD = b"#!rtpplay1.0 0.0.0.0/0\n" + bytes(16)


class Draws:
    """The demo's generator: the top octet of each number of a linear congruence."""

    def __init__(self, number):
        self.number = number

    def octets(self, count):
        number = self.number
        drawn = bytearray(count)
        for at in range(count):
            number = (1664525 * number + 1013904223) & 0xFFFFFFFF
            drawn[at] = number >> 24
        self.number = number
        return bytes(drawn)


def record(offset, packet, on_wire=None):
    return struct.pack(">HHI", len(packet) + 8, len(packet) if on_wire is None else on_wire, offset) + packet


def rtp(marker, payload_type, sequence, stamp, source, payload):
    head = struct.pack(">BBHII", 0x80, marker << 7 | payload_type, sequence & 0xFFFF, stamp & 0xFFFFFFFF, source)
    return head + payload


def law(member):
    return ("pcma", 8) if member % 2 == 0 else ("pcmu", 0)


def listening(member):
    return f"{RATES[member % 4]} {96 + member % 4} {2000 + member} {100 * member % 65536} {1000 * member}"


def write_roster(path, lines):
    with open(path, "w") as file:
        file.write("".join(line + "\n" for line in lines))


class Again:
    """What the demo's generator draws for some packets, over and over."""

    def __init__(self, number, packets):
        draws = Draws(number)
        self.drawn = [draws.octets(160) for _ in range(packets)]
        self.at = 0

    def octets(self, count):
        self.at = (self.at + 1) % len(self.drawn)
        return self.drawn[self.at][:count]


def turns(ticks, draws, present, write):
    """The demo's plan of turns: four of twelve talk at a time, and each holds the floor for a hundred ticks."""
    talked = set()
    for tick in range(ticks):
        now = {m for m in range(1, 13) if present(m, tick) and (tick // 25 + 5 * m) % 12 < 4}
        for member in sorted(now):
            marker = int(tick == 0 or member not in talked)
            packet = rtp(marker, law(member)[1], tick, 160 * tick, 1000 + member, draws.octets(160))
            made = record(20 * tick, packet)
            write(made + made if tick % 50 == 7 else made)
        talked = now


def demo(number, path, write):
    begins = {m: 0 if m <= 8 else 2000 * (m - 8) for m in range(1, 13)}
    leaves = {m: 20000 + 1000 * m for m in range(1, 5)}
    lines = [f"{begins[m]} join {m} {law(m)[0]}:{1000 + m} {listening(m)}" for m in range(1, 13)]
    lines += [f"{leaves[m]} leave {m}" for m in range(1, 5)]
    write_roster(path, order(lines) + ["30000 end"])
    write(FILE_HEAD)
    turns(1500, Draws(number), lambda m, k: begins[m] // 20 <= k and (m not in leaves or k < leaves[m] // 20), write)


def order(lines):
    return sorted(lines, key=lambda line: int(line.split()[0]))


def long(ticks, draws, path, write):
    lines = [f"0 join {m} {law(m)[0]}:{1000 + m} {listening(m)}" for m in range(1, 13)]
    write_roster(path, lines + [f"{20 * ticks} end"])
    write(FILE_HEAD)
    turns(ticks, draws, lambda m, k: True, write)


def coded(members, ticks, path, write):
    lines = [f"0 join {m} g726-32:100:{1000 + m} -" for m in range(1, members + 1)]
    write_roster(path, lines + [f"0 join {members + 1} - {listening(members + 1)}", f"{20 * ticks} end"])
    write(FILE_HEAD)
    draws = Draws(1)
    for tick in range(ticks):
        for member in range(1, members + 1):
            write(record(20 * tick, rtp(int(tick == 0), 100, tick, 160 * tick, 1000 + member, draws.octets(80))))


def listeners(members, ticks, path, bundle, write):
    talks = {m: f"{law(m)[0]}:{1000 + m}" if m <= 3 else "-" for m in range(1, members + 1)}
    lines = [f"0 join {m} {talks[m]} {listening(m)}{bundle}" for m in range(1, members + 1)]
    write_roster(path, lines + [f"{20 * ticks} end"])
    write(FILE_HEAD)
    draws = Draws(1)
    for tick in range(ticks):
        for member in (1, 2, 3):
            packet = rtp(int(tick == 0), law(member)[1], tick, 160 * tick, 1000 + member, draws.octets(160))
            write(record(20 * tick, packet))


def apart(listeners, ticks, path, write):
    talkers = (1, 2, 3, 4)
    lines = [f"0 join {m} {law(m)[0]}:{1000 + m} -" for m in talkers]
    lines += [f"{20 * (m - 5)} join {m} - {listening(m)}" for m in range(5, listeners + 5)]
    write_roster(path, lines + [f"{20 * ticks} end"])
    write(FILE_HEAD)
    draws = Draws(1)
    for tick in range(ticks):
        for member in talkers:
            packet = rtp(int(tick == 0), law(member)[1], tick, 160 * tick, 1000 + member, draws.octets(160))
            write(record(20 * tick, packet))


def skipped(octets, size, path, write):
    """One packet a tick that is heard, and round it records that aren't, spread evenly over 1,500 ticks."""
    ticks = 1500
    write_roster(path, [f"0 join 1 pcmu:1001 {listening(1)}", f"{20 * ticks} end"])
    write(FILE_HEAD)
    draws = Draws(1)
    left = octets
    for tick in range(ticks):
        stamp = 1000000 + 160 * tick
        heard = record(20 * tick, rtp(int(tick == 0), 0, tick, stamp, 1001, draws.octets(160)))
        group = b"".join(record(20 * tick, packet, on_wire) for packet, on_wire in refused(size, stamp))
        # copies of what was heard change nothing, but for the line's count of packets outside its window: so it never restarts
        group += heard
        share = max(left, 0) // (ticks - tick) // len(group)
        write(heard + group * share)
        left -= len(group) * share


def refused(size, stamp):
    """Packets of records of SIZE octets that are not heard, with their lengths on the wire: all but the RTCP are counted as refused."""
    payload = bytes(size - 20)
    return [
        (bytes(size - 8), None),  # no RTP: version 0
        (rtp(0, 0, 1, stamp, 7777, payload), None),  # an SSRC that nobody talks with
        (rtp(0, 96, 1, stamp, 1001, payload), None),  # another payload type than the talker's
        (rtp(0, 72, 1, stamp, 1001, payload), 0),  # RTCP
        (rtp(0, 0, 1, stamp, 1001, payload), size),  # cut where it was captured
        (rtp(0, 0, 1, stamp - 500000, 1001, payload), None),  # late, or of more than 1,600 samples
    ]


def main(words):
    write = sys.stdout.buffer.write
    if len(words) == 3 and words[0] == "demo":
        demo(int(words[1]), words[2], write)
    elif len(words) == 3 and words[0] == "long":
        long(int(words[1]), Draws(1), words[2], write)
    elif len(words) == 3 and words[0] == "day":
        long(int(words[1]), Again(1, 2000), words[2], write)
    elif len(words) in (4, 5) and words[0] == "listeners":
        bundle = "".join(" " + word for word in words[4:])
        listeners(int(words[1]), int(words[2]), words[3], bundle, write)
    elif len(words) == 4 and words[0] == "apart":
        apart(int(words[1]), int(words[2]), words[3], write)
    elif len(words) == 4 and words[0] == "coded":
        coded(int(words[1]), int(words[2]), words[3], write)
    elif len(words) == 4 and words[0] == "skipped":
        skipped(int(words[1]), int(words[2]), words[3], write)
    else:
        sys.exit(__doc__)


main(sys.argv[1:])
