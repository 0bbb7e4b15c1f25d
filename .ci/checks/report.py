"""Says of a session what the program `report` says, apart from it, and compares.

usage: report.py PROGRAM BRIDGE ROSTER CAPTURE ANSWER SUMMARY

ANSWER and SUMMARY are what `bridge alone` wrote for the session. What arrived is worked out here from the roster and the capture, by the
rules of the documents; the packets of each listener are counted in the answer; ticks, runs, packets and refusals are the summary's; and the
runs of a rate are those that `bridge alone`, BRIDGE, tells of the session in which none but the listeners of that rate listen. Where a
talker sends G.726, its voice isn't decoded here, and who was heard isn't compared but for the number of ticks.
"""

import json
import subprocess
import sys
import tempfile

from audit import listeners_of, records_of

KINDS = ["restarted", "late", "early", "unknown", "other_type", "empty", "too_long", "ragged"]


def mu_law(octet):
    """The sample of a code of PCMU, on the scale of 14 bits."""
    octet = ~octet & 255
    size = (2 * (octet & 15) + 33 << (octet >> 4 & 7)) - 33
    return -size if octet & 128 else size


def a_law(octet):
    """The sample of a code of PCMA, on the scale of 14 bits."""
    octet ^= 0x55
    segment = octet >> 4 & 7
    size = 2 * (octet & 15) + 1
    if segment:
        size = size + 32 << segment - 1
    size *= 2
    return size if octet & 128 else -size


class Line:
    """The jitter line of a talker."""

    def __init__(self):
        self.position = None
        self.places = {}
        self.outside = 0

    def start(self, stamp, samples):
        self.position = (stamp - 480) % 2**32
        self.outside = 0
        self.places = {480 + i: x for i, x in enumerate(samples)}

    def put(self, stamp, samples):
        if self.position is None:
            self.start(stamp, samples)
            return "taken", len(samples)
        offset = (stamp - self.position + 2**31) % 2**32 - 2**31
        end = offset + len(samples)
        if end <= 0 or end > 3200:
            self.outside += 1
            if self.outside == 25:
                self.start(stamp, samples)
                return "restarted", 0
            return ("late" if end <= 0 else "early"), 0
        self.outside = 0
        new = 0
        for i, x in enumerate(samples):
            if offset + i >= 0 and offset + i not in self.places:
                self.places[offset + i] = x
                new += 1
        return "taken", new

    def pull(self):
        if self.position is None:
            return [0] * 160
        frame = [self.places.get(i, 0) for i in range(160)]
        self.places = {i - 160: x for i, x in self.places.items() if i >= 160}
        self.position = (self.position + 160) % 2**32
        return frame


class Talker:
    def __init__(self, member, word):
        law, rest = word.split(":", 1)
        self.member = member
        self.law = law
        self.bits = None
        if law.startswith("g726-"):
            self.bits = int(law[5:]) // 8
            kind, rest = rest.split(":")
            self.type = int(kind)
        else:
            self.type = 0 if law == "pcmu" else 8
        self.ssrc = int(rest)
        self.line = Line()

    def samples(self, payload):
        return len(payload) if self.bits is None else 8 * len(payload) // self.bits

    def take(self, stamp, payload):
        if not payload:
            return "empty", 0
        if len(payload) > (1600 if self.bits is None else 200 * self.bits):
            return "too_long", 0
        if self.bits is not None:
            if 8 * len(payload) % self.bits:
                return "ragged", 0
            return self.line.put(stamp, [1] * self.samples(payload))
        law = mu_law if self.law == "pcmu" else a_law
        return self.line.put(stamp, [law(x) for x in payload])


def commands_of(roster):
    """The commands with their times, the talkers that they bring, and the time of the end."""
    commands = []
    for line in roster.decode("latin-1").split("\n"):
        words = line.split()
        if not words or words[0].startswith("#"):
            continue
        if words[1] == "end":
            return commands, int(words[0])
        commands.append((int(words[0]), words))
    raise ValueError("no end")


def records_in(capture):
    place = capture.index(b"\n") + 17
    while place < len(capture):
        length = int.from_bytes(capture[place : place + 2], "big")
        wire = int.from_bytes(capture[place + 2 : place + 4], "big")
        offset = int.from_bytes(capture[place + 4 : place + 8], "big")
        yield wire, offset, capture[place + 8 : place + length]
        place += length


def head_of(packet):
    """The fault of a packet's head, or its payload type, number, stamp, SSRC and payload (RFC 3550, section 5.1)."""
    if len(packet) < 12:
        return "short", None
    if packet[0] >> 6 != 2:
        return "version", None
    begin = 12 + 4 * (packet[0] & 15)
    if len(packet) < begin:
        return "sources", None
    if packet[0] & 16:
        if len(packet) < begin + 4:
            return "extension", None
        begin += 4 + 4 * int.from_bytes(packet[begin + 2 : begin + 4], "big")
        if len(packet) < begin:
            return "extension", None
    end = len(packet)
    if packet[0] & 32:
        if end == begin or packet[-1] == 0 or end - packet[-1] < begin:
            return "padding", None
        end -= packet[-1]
    number = int.from_bytes(packet[2:4], "big")
    stamp = int.from_bytes(packet[4:8], "big")
    ssrc = int.from_bytes(packet[8:12], "big")
    return None, (packet[1] & 127, number, stamp, ssrc, packet[begin:end])


class Session:
    def __init__(self):
        self.torn = dict.fromkeys(["cut", "short", "version", "sources", "extension", "padding"], 0)
        self.streams = {}
        self.present = []
        self.heard = {}
        self.crowd = [0, 0, 0, 0]

    def arrive(self, wire, octets):
        if wire > len(octets):
            self.torn["cut"] += 1
            return
        fault, head = head_of(octets[:wire])
        if fault:
            self.torn[fault] += 1
            return
        kind, number, stamp, ssrc, payload = head
        row = self.streams.get(ssrc)
        if row is None:
            row = dict.fromkeys(["packets", "missing", "taken", "octets", "new", "lost"] + KINDS, 0)
            row["numbers"] = [number]
            self.streams[ssrc] = row
        row["packets"] += 1
        highest = row["numbers"][-1]
        ahead = (number - highest) % 2**16
        if 0 < ahead <= 2**15:
            row["numbers"].append(highest + ahead)
        talker = next((t for t in self.present if t.ssrc == ssrc), None)
        if talker is None:
            row["unknown"] += 1
        elif talker.type != kind:
            row["other_type"] += 1
        else:
            fate, new = talker.take(stamp, payload)
            row[fate] += 1
            if fate == "taken":
                row["octets"] += len(payload)
                row["new"] += new
                row["lost"] += talker.samples(payload) - new

    def end_tick(self):
        loud = []
        for talker in self.present:
            size = sum(abs(x) for x in talker.line.pull())
            if size >= 1600:
                loud.append((-size, talker.member))
        chosen = sorted(loud)[:3]
        for _, member in chosen:
            self.heard[member] += 1
        self.crowd[len(chosen)] += 1


def runs_at(rate, bridge, roster, capture):
    """The runs of the session in which none but the listeners of a rate listen."""
    lines = []
    gone = set()
    for line in roster.decode("latin-1").split("\n"):
        words = line.split()
        if len(words) > 4 and words[1] == "join" and words[4] not in ["-", str(rate)]:
            if words[3] == "-":
                gone.add(words[2])
                continue
            line = " ".join(words[:4] + ["-"])
        elif len(words) > 2 and words[1] == "leave" and words[2] in gone:
            continue
        lines.append(line)
    with tempfile.NamedTemporaryFile("w", encoding="latin-1") as file:
        file.write("\n".join(lines))
        file.flush()
        end = subprocess.run([bridge, "alone", file.name], input=capture, capture_output=True)
    words = end.stderr.decode().split()
    return int(words[words.index("runs") + 1])


def work_out(bridge, roster, capture, answer, summary):
    commands, end = commands_of(roster)
    ticks = (end + 19) // 20
    session = Session()
    talkers = []
    stays = {}
    records = list(records_in(capture))
    coded = False
    for k in range(ticks):
        while commands and commands[0][0] < 20 * (k + 1):
            _, words = commands.pop(0)
            member = int(words[2])
            if words[1] == "leave":
                session.present = [t for t in session.present if t.member != member]
                if member in stays and stays[member][1] is None:
                    stays[member][1] = k
                continue
            if words[3] != "-":
                talker = Talker(member, words[3])
                coded = coded or talker.bits is not None
                session.present.append(talker)
                session.heard[member] = 0
            if words[4] != "-":
                stays[member] = [k, None, int(words[4])]
        while records and records[0][1] < 20 * (k + 1):
            wire, _, octets = records.pop(0)
            if wire:
                session.arrive(wire, octets)
        session.end_tick()
    for line in roster.decode("latin-1").split("\n"):
        words = line.split()
        if len(words) > 3 and not words[0].startswith("#") and words[1] == "join" and words[3] != "-":
            ssrc = int(words[3].split(":")[-1])
            talkers.append({"member": int(words[2]), "ssrc": ssrc, "heard": session.heard.get(int(words[2]), 0)})
    sent = {}
    for record in records_of(answer, listeners_of(roster)):
        sent[record[3]] = sent.get(record[3], 0) + 1
    streams = []
    for ssrc, row in session.streams.items():
        numbers = row.pop("numbers")
        row["missing"] = max(0, numbers[-1] + 1 - numbers[0] - row["packets"])
        streams.append({"ssrc": ssrc, **row})
    words = summary.split()
    report = {
        "session": {words[i]: int(words[i + 1]) for i in range(0, 8, 2)},
        "torn": session.torn,
        "heard": dict(zip(["none", "one", "two", "three"], session.crowd)),
        "talker": talkers,
        "stream": streams,
        "listener": [
            {
                "member": member,
                "rate": rate,
                "ticks": (ticks if left is None else left) - came,
                "packets": sent.get(member, 0),
            }
            for member, (came, left, rate) in stays.items()
        ],
        "rate": [],
    }
    for rate in [16, 24, 32, 40]:
        listeners = [row for row in report["listener"] if row["rate"] == rate]
        packets = sum(row["packets"] for row in listeners)
        runs = runs_at(rate, bridge, roster, capture) if listeners else 0
        whole = 100 * packets // runs if runs else 0
        report["rate"].append({"rate": rate, "packets": packets, "runs": runs, "packets_per_100_runs": whole})
    return report, coded


def rows_of(table):
    report = {"talker": [], "stream": [], "listener": [], "rate": []}
    for line in table.splitlines():
        name, *words = line.split()
        row = {words[i]: int(words[i + 1]) for i in range(0, len(words), 2)}
        if name in ["session", "torn", "heard"]:
            report[name] = row
        else:
            report[name].append(row)
    return report


def without_voices(report):
    report["heard"] = sum(report["heard"].values())
    for talker in report["talker"]:
        talker["heard"] = 0
    return report


def main():
    program, bridge, roster, capture, answer, summary = sys.argv[1:]
    with open(roster, "rb") as file:
        text = file.read()
    with open(capture, "rb") as file:
        octets = file.read()
    with open(answer, "rb") as file:
        sent = file.read()
    with open(summary) as file:
        line = file.read()
    right, coded = work_out(bridge, text, octets, sent, line)
    forms = []
    for words in [["json", roster], [roster]]:
        end = subprocess.run([program, *words], input=octets, capture_output=True)
        if end.returncode != 0 or end.stderr:
            sys.exit(f"report: {roster}: status {end.returncode}: {end.stderr!r}")
        forms.append(json.loads(end.stdout) if len(words) == 2 else rows_of(end.stdout.decode()))
    refused = sum(right["torn"].values()) + sum(sum(row[k] for k in KINDS[1:]) for row in right["stream"])
    if refused != right["session"]["refused"]:
        sys.exit(f"report: {roster}: {refused} refusals are worked out here")
    if sum(row["runs"] for row in right["rate"]) != right["session"]["runs"]:
        sys.exit(f"report: {roster}: the runs of the four rates aren't all")
    if coded:
        right, *forms = [without_voices(report) for report in [right, *forms]]
    for form in forms:
        for part, rows in right.items():
            if form[part] != rows:
                sys.exit(f"report: {roster}: {part}: {form[part]}, and {rows} is worked out here")


if __name__ == "__main__":
    main()
