"""The RTP streams of a capture: what each sent, what is missing, how its times waver, and a roster to begin with."""
import datetime
import ipaddress
from collections import namedtuple

STATIC = {0: "pcmu", 8: "pcma"}
NAMES = {0: "PCMU", 8: "PCMA", 13: "comfort noise"}
SAMPLES_A_MS = 8
KEY_TONE = 4  # octets of a payload of RFC 4733
RESTART = 3000  # numbers: a greater step is a sender that began anew (RFC 3550, appendix A.1)
STEP = 5000  # ms: where times and timestamps part by more between one packet and the next, a clock was set or the sender stalled
BACK = 1000  # ms: where the times of a capture go back by more, a packet before was dated too late

Rtp = namedtuple("Rtp", "payload_type marker number stamp source payload")


def rtp(octets, control=True):
    """The packet in these octets (RFC 3550, section 5.1), or None where they are none; `control`: RTCP is none either."""
    if len(octets) < 12 or octets[0] >> 6 != 2 or control and 192 <= octets[1] <= 223:
        return None
    at = 12 + 4 * (octets[0] & 15)
    if octets[0] & 0x10:
        if len(octets) < at + 4:
            return None
        at += 4 + 4 * int.from_bytes(octets[at + 2 : at + 4], "big")
    end = len(octets)
    if octets[0] & 0x20 and at < end:
        end -= octets[-1]
    if at > end:
        return None
    number, stamp, source = (int.from_bytes(octets[a:b], "big") for a, b in ((2, 4), (4, 8), (8, 12)))
    return Rtp(octets[1] & 127, octets[1] >> 7, number, stamp, source, octets[at:end])


def is_control(octets):
    """Whether these octets are RTCP beside RTP (RFC 5761, section 4)."""
    return len(octets) >= 2 and octets[0] >> 6 == 2 and 192 <= octets[1] <= 223


def signed(difference, bits):
    """A difference of numbers that wrap, brought near 0."""
    half = 1 << bits - 1
    return (difference + half) % (2 * half) - half


class Stream:
    """One sender's packets of one SSRC."""

    def __init__(self, key, offset, packet):
        self.source, self.sender, self.receiver = key
        self.types, self.longest = {}, {}
        self.packets, self.cut, self.doubled, self.reordered, self.anew, self.gone = 0, 0, 0, 0, 0, 0
        self.first = self.last = self.came = offset
        self.highest = self.base = packet.number
        self.seen, self.unique, self.steps = set(), 0, []
        self.last_stamp, self.stamp, self.jitter, self.transit = packet.stamp, 0, 0.0, None
        self.sums = [0.0] * 5

    def add(self, offset, packet, wire, kept):
        kind = packet.payload_type
        self.types[kind] = self.types.get(kind, 0) + 1
        self.longest[kind] = max(self.longest.get(kind, 0), len(packet.payload))
        self.packets += 1
        self.cut += kept < wire
        self.last = max(self.last, offset)
        if not self.numbered(packet.number):
            return
        step = signed(packet.stamp - self.last_stamp, 32)
        if abs(offset - self.came - step / SAMPLES_A_MS) > STEP:
            self.steps.append((offset, offset - self.came - step / SAMPLES_A_MS))
            self.transit = None
        self.came = offset
        self.stamp += step
        self.last_stamp = packet.stamp
        transit = offset - self.stamp / SAMPLES_A_MS
        if self.transit is not None:
            self.jitter += (abs(transit - self.transit) - self.jitter) / 16  # RFC 3550, section 6.4.1
        self.transit = transit
        x, y = self.stamp / SAMPLES_A_MS, transit
        for at, value in enumerate((1.0, x, y, x * x, x * y)):
            self.sums[at] += value

    def numbered(self, number):
        """Counts what a sequence number says. False where the packet came before."""
        step = signed(number - self.highest, 16)
        if abs(step) > RESTART:
            self.gone += self.highest - self.base + 1 - self.unique
            self.anew += 1
            self.seen, self.unique, self.highest, self.base, step = set(), 0, number, number, 0
        number = self.highest + step
        if number in self.seen:
            self.doubled += 1
            return False
        self.seen.add(number)
        self.unique += 1
        self.reordered += step < 0
        if len(self.seen) > 4 * RESTART:
            self.seen = {n for n in self.seen if n >= self.highest - RESTART}
        self.highest, self.base = max(self.highest, number), min(self.base, number)
        return True

    @property
    def lost(self):
        return self.gone + self.highest - self.base + 1 - self.unique

    @property
    def uncounted(self):
        """Whether its sequence numbers jump all the time, and its timestamps don't: some senders number by chance."""
        return 5 * self.anew > self.packets > 5 * len(self.steps)

    def skew(self):
        """How much longer the capture's clock says than the sender's, in millionths; None of less than a minute, and where a clock was set."""
        count, x, y, xx, xy = self.sums
        if self.last - self.first < 60000 or self.steps or count * xx == x * x:
            return None
        return 1e6 * (count * xy - x * y) / (count * xx - x * x)

    def payload_type(self):
        return max(self.types, key=self.types.get)

    def kinds(self):
        """The payload types, each with its name where it has one, and its packets where there are several."""
        for kind, count in self.types.items():
            name = NAMES.get(kind) or ("key tones" if kind > 95 and self.longest[kind] == KEY_TONE else "")
            yield str(kind) + (f" ({name})" if name else "") + (f" {count} times" if len(self.types) > 1 else "")


class Streams:
    def __init__(self, mended=False):
        self.streams, self.control, self.others, self.begin = {}, 0, 0, None
        self.advice = "--retime mends it" if mended else "use --retime"
        self.latest, self.back = 0, []

    def add(self, offset, octets, wire, sender=None, receiver=None):
        if offset < self.latest - BACK:
            self.back.append((self.latest, offset))
        self.latest = offset if self.back and self.back[-1][0] == self.latest else max(self.latest, offset)
        if is_control(octets):
            self.control += 1
            return
        packet = rtp(octets)
        if packet is None:
            self.others += 1
            return
        key = (packet.source, sender, receiver)
        if key not in self.streams:
            self.streams[key] = Stream(key, offset, packet)
        self.streams[key].add(offset, packet, wire, len(octets))

    def lines(self):
        """What there is to know, for a person."""
        if self.begin is not None:
            try:
                moment = datetime.datetime.fromtimestamp(self.begin, datetime.timezone.utc)
                yield f"offset 0 is {moment:%Y-%m-%d %H:%M:%S}.{moment.microsecond // 1000:03} UTC"
            except (ValueError, OverflowError, OSError):
                yield f"offset 0 is {self.begin:g} seconds after 1970: the recorder's clock was wrong"
        for stream in self.streams.values():
            times = f"{stream.packets} packets, {stream.first} to {stream.last} ms"
            yield f"SSRC {stream.source} (0x{stream.source:08X}): payload type {', '.join(stream.kinds())}, {times}"
            if stream.sender:
                yield f"  from {place(stream.sender)} to {place(stream.receiver)}"
            skew = stream.skew()
            counted = f"lost {stream.lost}, doubled {stream.doubled}, out of order {stream.reordered}"
            if stream.uncounted:
                counted = "its sequence numbers don't count packets, so losses can't be told"
            drift = "" if skew is None else f", skew {skew:+.0f} ppm"
            yield f"  {counted}, cut {stream.cut}; jitter {stream.jitter:.1f} ms{drift}"
            yield from self.warnings(stream, skew)
        for source, count in self.shared().items():
            yield f"warning: {count} senders have SSRC {source}: the bridge hears them as one talker, and most of them is lost"
        for late, offset in self.back[:3]:
            yield f"warning: a packet is dated {late} ms, and one behind it {offset} ms: the bridge holds back what follows until then; {self.advice}"
        if self.control:
            yield f"{self.control} packets of RTCP, which the bridge passes over"
        if self.others:
            yield f"warning: {self.others} datagrams are no RTP, and the bridge refuses them: give the members' port by --ports"

    def warnings(self, stream, skew):
        if stream.cut:
            yield "  warning: cut packets are refused: capture whole ones (tcpdump -s 0)"
        kind = stream.payload_type()
        if stream.longest[kind] > 1600 and kind in STATIC:
            yield f"  warning: packets of {stream.longest[kind] // 8} ms are refused: the bridge takes up to 200 ms"
        elif stream.longest[kind] > 960 and kind in STATIC:
            yield f"  warning: packets of {stream.longest[kind] // 8} ms: what comes late of one is lost without being counted; {self.advice}"
        for offset, step in stream.steps[:3]:
            yield f"  warning: at {offset} ms times and timestamps part by {step / 1000:.1f} s: a clock was set, or the sender stalled or began anew; {self.advice}"
        if stream.anew and not stream.uncounted:
            yield f"  warning: its sequence numbers begin anew {stream.anew} times: its sender did, or two senders have one SSRC"
        if skew is not None and abs(skew) * (stream.last - stream.first) > 40e6:
            yield f"  warning: sender and recorder drift apart by over 40 ms, so parts can come too late; {self.advice}"

    def shared(self):
        counts = {}
        for source, _, _ in self.streams:
            counts[source] = counts.get(source, 0) + 1
        return {source: count for source, count in counts.items() if count > 1}

    def roster(self):
        """A roster in which each talker also listens, at 32 kbit/s."""
        talkers, commands, used = [], [], {stream.source for stream in self.streams.values()}
        for stream in self.streams.values():
            if stream.source not in (other.source for other in talkers):
                talkers.append(stream)
        yield "# MEMBER talks with an SSRC of the capture and is sent 32 kbit/s: payload type 97, SSRC, first sequence number and timestamp"
        own = 1
        for member, stream in enumerate(sorted(talkers, key=lambda stream: stream.first), 1):
            while own in used:
                own += 1
            law = STATIC.get(stream.payload_type())
            talk = f"{law}:{stream.source}" if law else "-"
            if not law:
                kind = stream.payload_type()
                commands.append(f"# SSRC {stream.source} sends payload type {kind}: where that is G.726 at RATE kbit/s, write g726-RATE:{kind}:{stream.source} for the -")
            commands.append(f"{stream.first} join {member} {talk} 32 97 {own} 0 0")
            own += 1
        yield from commands
        yield f"{max((stream.last for stream in talkers), default=0) + 200} end"


def place(address):
    host, port = address
    text = str(ipaddress.ip_address(host))
    return f"[{text}]:{port}" if ":" in text else f"{text}:{port}"
