"""Offsets by each stream's own timestamps, so that jitter, bursts, stalls and drift lose nothing of a recording.

A packet's offset is its stream's anchor and what its timestamp says since the stream's first packet. The anchor is moved only in
a pause of speech, where the stream's packets have come over 40 ms earlier or later than it says, and where the sender began its
timestamps anew. Then the stream's timestamps are moved as far, so that the bridge goes on without a gap: what is moved is a pause,
and nothing is cut out of speech.
"""
import struct

from .sound import loudness
from .streams import SAMPLES_A_MS, STATIC, STEP, rtp, signed

WINDOW = 100  # packets whose least delay is the stream's delay
TOLERATED = 40  # ms
QUIET = 1600  # the bridge's own threshold of a frame of 160 samples
ANEW = 2000  # ms: where a timestamp steps by more, and the time of the packets doesn't, the sender began its timestamps anew


class Line:
    def __init__(self, offset, packet):
        self.anchor, self.elapsed, self.last, self.end, self.moved = offset, 0, packet.stamp, 0, 0
        self.delays, self.came = [0], offset

    def place(self, offset, packet):
        """The offset that the packet gets, and how far its timestamp is moved, in samples."""
        step = signed(packet.stamp - self.last, 32)
        self.last = packet.stamp
        own = self.anchor + (self.elapsed + step) // SAMPLES_A_MS
        if abs(step) > ANEW * SAMPLES_A_MS and abs(offset - self.came - step // SAMPLES_A_MS) > ANEW:
            passed = max(0, offset - self.anchor - min(self.delays)) * SAMPLES_A_MS
            self.moved += passed - self.elapsed - step
            step = passed - self.elapsed
            own = self.anchor + passed // SAMPLES_A_MS
        self.elapsed += step
        self.came = offset
        self.delays = (self.delays + [offset - own])[-WINDOW:]
        delay = min(self.delays)
        if abs(delay) > TOLERATED and (len(self.delays) == WINDOW or delay < 0) and self.is_pause(packet):
            self.anchor += delay
            self.moved += delay * SAMPLES_A_MS
            self.delays = [d - delay for d in self.delays]
            own += delay
        self.end = self.elapsed + len(packet.payload)
        return max(0, own), self.moved

    def is_pause(self, packet):
        if self.elapsed > self.end:
            return True  # nothing was sent before it
        law = STATIC.get(packet.payload_type)
        return law is not None and loudness(law, packet.payload) < QUIET


class Clock:
    """Takes the steps out of a recorder's clock: where it jumps between two packets, and a stream that goes on by one number doesn't."""

    def __init__(self):
        self.shift, self.before, self.streams, self.steps = 0, None, {}, []

    def mended(self, moment, octets, key):
        packet = rtp(octets)
        if packet is None:
            return moment + self.shift
        passed = 0 if self.before is None else moment - self.before
        self.before = moment
        number, stamp = self.streams.get(key, (packet.number, packet.stamp))
        own = signed(packet.stamp - stamp, 32) // SAMPLES_A_MS
        if abs(passed) > STEP and packet.number == (number + 1) & 0xFFFF and 0 <= own < STEP // 2:
            self.shift -= passed - own
            self.steps.append((moment + self.shift, passed - own))
        self.streams[key] = packet.number, packet.stamp
        return moment + self.shift


class Retimer:
    def __init__(self):
        self.lines = {}

    def retimed(self, offset, octets, key):
        packet = rtp(octets)
        if packet is None:
            return offset, octets
        if key not in self.lines:
            self.lines[key] = Line(offset, packet)
        own, moved = self.lines[key].place(offset, packet)
        stamp = (packet.stamp + moved) & 0xFFFFFFFF
        return own, octets[:4] + struct.pack(">I", stamp) + octets[8:]
