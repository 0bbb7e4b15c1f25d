"""What the bridge hears of a capture: its rules, followed tick by tick for a roster's talkers, and why not more is heard.

docs/FORMATS.md has the rules. Talkers of G.726 are followed up to their lines; whether they are loud enough isn't decoded here.
"""
import re
from array import array

from .codec import OCTETS
from .rtpdump import Fault, open_input, records
from .sound import MAGNITUDES, PAYLOAD_TYPES
from .streams import rtp, signed

FRAME, HOLE, VOICES, GATE = 160, 256, 3, 1600
BEFORE, AHEAD, RUN = 480, 3200, 24
HOLES = array("H", [HOLE]) * FRAME
TABLES = {law: table + [0] for law, table in MAGNITUDES.items()}


class Talker:
    """A member that talks, the line of what it sends, and what became of that."""

    def __init__(self, member, codes, payload_type, source, joined):
        self.member, self.codes, self.payload_type, self.source = member, codes, payload_type, source
        self.joined, self.left = joined, None
        self.bits = 8 if codes in PAYLOAD_TYPES else OCTETS[int(codes[5:])] // 20
        self.position, self.late_run = None, 0
        self.window = array("H", [HOLE]) * AHEAD
        self.counts = dict.fromkeys(("taken", "late", "early", "samples"), 0)
        self.restarts, self.cut_off, self.other_types, self.types = [], 0, 0, {}
        self.stamp, self.last = 0, None
        self.sent, self.got = {}, {}

    def put(self, tick, stamp, samples):
        """Puts samples into the line by their timestamp, and gives the reason where it is refused."""
        self.stamp += 0 if self.last is None else signed(stamp - self.last, 32)
        self.last = stamp
        remember(self.sent, self.stamp, samples)
        if self.position is None:
            self.position = self.stamp - BEFORE
        place = self.stamp - self.position
        if place + len(samples) <= 0 or place > AHEAD - len(samples):
            self.late_run += 1
            if self.late_run <= RUN:
                reason = "late" if place + len(samples) <= 0 else "early"
                self.counts[reason] += 1
                return reason
            self.position, place = self.stamp - BEFORE, BEFORE
            self.window = array("H", [HOLE]) * AHEAD
            self.restarts.append(tick)
        self.late_run = 0
        self.counts["taken"] += 1
        self.cut_off += max(0, -place)
        self.counts["samples"] += len(samples)
        keep(self.window, max(0, place), samples[max(0, -place) :])
        return None

    def pull(self):
        """The next frame, and where it stands in the timestamps."""
        if self.position is None:
            return 0, HOLES
        at, frame = self.position, self.window[:FRAME]
        self.window = self.window[FRAME:] + HOLES
        self.position += FRAME
        return at, frame

    def loudness(self, frame):
        if self.codes not in TABLES or frame == HOLES:
            return 0
        return sum(map(TABLES[self.codes].__getitem__, frame))

    def hear(self, at, frame):
        remember(self.got, at, frame)

    def loud_frames(self):
        """How many frames that were sent are loud, and of how many of these less than half is heard."""
        loud = silent = 0
        for number, frame in self.sent.items():
            if self.loudness(frame) >= GATE:
                loud += 1
                heard = self.got.get(number, HOLES)
                silent += 2 * sum(code != HOLE for code in heard) < sum(code != HOLE for code in frame)
        return loud, silent


def keep(window, place, samples):
    """Each sample at a place that holds none is kept."""
    end = place + len(samples)
    if window[place:end].count(HOLE) == len(samples):
        window[place:end] = samples
        return
    for at, code in enumerate(samples, place):
        if window[at] == HOLE:
            window[at] = code


def remember(frames, at, samples):
    """Keeps samples by frames of 160 timestamps; what was there before stays."""
    done = 0
    while done < len(samples):
        number, inside = divmod(at + done, FRAME)
        part = samples[done : done + FRAME - inside]
        frame = frames.get(number)
        if frame is None:
            frame = frames[number] = HOLES[:]
        keep(frame, inside, part)
        done += len(part)


def commands(path):
    """Time and words of each command of a roster, which is taken to be lawful: the bridge says what is wrong with others."""
    try:
        with open(path, encoding="ascii", errors="replace", newline="") as file:
            lines = file.read().split("\n")
    except OSError as error:
        raise Fault(f"{path}: {error.strerror.lower()}") from None
    for number, line in enumerate(lines, 1):
        words = re.split("[ \t\r]+", line.strip(" \t\r"))
        if words == [""] or words[0].startswith("#"):
            continue
        kind = words[1] if len(words) > 1 else ""
        least = {"join": 5, "leave": 3, "end": 2}.get(kind)
        if least is None or len(words) < least or not all(word.isdigit() for word in (words[0], *words[2:3])):
            raise Fault(f"{path}: line {number} is no command; the bridge says what is wrong with it")
        yield int(words[0]), kind, words[2:]


def talker(words, time):
    codes, *numbers = words[1].split(":")
    kinds = {**{law: 1 for law in PAYLOAD_TYPES}, **{f"g726-{rate}": 2 for rate in OCTETS}}
    if kinds.get(codes) != len(numbers) or not all(n.isdigit() for n in numbers):
        raise Fault(f"{words[1]}: no talker; the bridge says what is wrong with it")
    payload_type = PAYLOAD_TYPES[codes] if len(numbers) == 1 else int(numbers[0])
    return Talker(int(words[0]), codes, payload_type, int(numbers[-1]), time)


def codes_of(bits, payload):
    if bits == 8:
        return array("H", list(payload))
    whole = int.from_bytes(payload, "little")
    return array("H", [whole >> at & (1 << bits) - 1 for at in range(0, 8 * len(payload), bits)])


class Session:
    """A session over a roster and a capture, up to what its listeners are mixed of."""

    def __init__(self, roster):
        self.plan = list(commands(roster))
        ends = [time for time, kind, _ in self.plan if kind == "end"]
        if not ends:
            raise Fault(f"{roster}: no end")
        self.ticks, self.talkers, self.present, self.refused = (ends[0] + 19) // 20, [], {}, {}
        self.read, self.strangers, self.last = 0, {}, 0

    def refuse(self, reason):
        self.refused[reason] = self.refused.get(reason, 0) + 1

    def command(self, time, kind, words):
        if kind == "join" and words[1] != "-":
            made = talker(words, time)
            self.present[made.source] = made
            self.talkers.append(made)
        for source, member in list(self.present.items()):
            if kind == "leave" and member.member == int(words[0]):
                member.left = time
                del self.present[source]

    def arrive(self, tick, wire, octets):
        """What becomes of one record."""
        self.read += 1
        if wire == 0:
            return
        if wire > len(octets):
            return self.refuse("cut where it was captured")
        packet = rtp(octets[:wire], control=False)
        if packet is None:
            return self.refuse("no RTP")
        member = self.present.get(packet.source)
        if member is None:
            known = any(other.source == packet.source for other in self.talkers)
            self.strangers[packet.source] = self.strangers.get(packet.source, 0) + 1
            return self.refuse("of a member that isn't there then" if known else "of an SSRC that no member talks with")
        if packet.payload_type != member.payload_type:
            member.other_types += 1
            member.types[packet.payload_type] = member.types.get(packet.payload_type, 0) + 1
            return self.refuse("of another payload type than the member's")
        if not packet.payload or len(packet.payload) > 200 * member.bits:
            return self.refuse("without a sample, or of more than 200 ms")
        if 8 * len(packet.payload) % member.bits or len(packet.payload) % member.bits and member.bits in (3, 5):
            return self.refuse("of no whole codes")
        reason = member.put(tick, packet.stamp, codes_of(member.bits, packet.payload))
        if reason:
            self.refuse(reason)

    def run(self, capture, mixed=lambda tick, chosen: None):
        """Follows the session; `mixed` is given each tick's chosen voices: (talker, frame)."""
        commands_left = iter(self.plan)
        command = next(commands_left, None)
        with open_input(capture) as file:
            left = records(file, capture)
            record = next(left, None) if self.ticks else None
            for tick in range(self.ticks):
                limit = 20 * (tick + 1)
                while command and command[0] < limit:
                    self.command(*command)
                    command = next(commands_left, None)
                while record and record[0] < limit:
                    self.last = record[0]
                    self.arrive(tick, *record[1:])
                    record = next(left, None)
                mixed(tick, self.voices())
            self.unread = record is not None

    def voices(self):
        voices = []
        for member in self.present.values():
            at, frame = member.pull()
            loudness = member.loudness(frame)
            if loudness >= GATE:
                voices.append((-loudness, member.member, at, member, frame))
        voices.sort(key=lambda voice: voice[:2])
        for _, _, at, member, frame in voices[:VOICES]:
            member.hear(at, frame)
        return [(member, frame) for *_, member, frame in voices[:VOICES]]


def lines(roster, capture):
    """What there is to know, for a person."""
    session = Session(roster)
    session.run(capture)
    for member in session.talkers:
        counts = member.counts
        yield (
            f"member {member.member}, SSRC {member.source}: {counts['taken']} packets taken, {counts['late']} late, {counts['early']} early, "
            f"{member.other_types} of another payload type"
        )
        if member.types:
            yield f"  other payload types: {', '.join(map(str, sorted(member.types)))}; where one of them is its speech, the roster has to say it"
        if member.codes in PAYLOAD_TYPES:
            loud, silent = member.loud_frames()
            yield f"  {len(member.sent)} frames sent, {loud} of them loud enough to be heard; {silent} of these are silent in the answer"
        if member.cut_off:
            yield f"  {member.cut_off // 8} ms of taken packets came too late, and are counted nowhere else; use --retime"
        for tick in member.restarts[:5]:
            yield f"  its clock begins anew at {20 * tick} ms"
        if not counts["taken"]:
            yield "  warning: nothing of it is heard: compare its SSRC and its times with the capture's (bridge-captures streams)"
    for source, count in list(session.strangers.items())[:20]:
        yield f"SSRC {source} (0x{source:08X}): {count} packets that no present member talks with"
    reasons = "".join(f"; {count} {reason}" for reason, count in session.refused.items())
    yield f"{session.read} records read, the last at {session.last} ms; refused {sum(session.refused.values())}{reasons}"
    if session.unread:
        yield f"warning: the capture goes on behind the session's end, {20 * session.ticks} ms: those packets aren't read"
    elif session.last + 1000 < 20 * session.ticks:
        yield f"warning: the capture ends {(20 * session.ticks - session.last) / 1000:.1f} s before the session does"
