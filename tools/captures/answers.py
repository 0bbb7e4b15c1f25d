"""Answers of the bridge: who is sent what, and its way to Wireshark, to sound files and to a player on the network."""
import os
import socket
import struct
import time
import wave

from .codec import OCTETS, g726
from .rtpdump import Fault, Output, open_input, records
from .streams import SAMPLES_A_MS, rtp, signed

FIRST_PORT = 20000


class Listener:
    """One listener's packets. Its first has the marker."""

    def __init__(self, offset, packet):
        self.source, self.payload_type, self.offset = packet.source, packet.payload_type, offset
        self.packets, self.octets, self.ticks, self.last = 0, 0, None, packet.stamp
        self.first_length = len(packet.payload)
        self.payloads = []

    def add(self, packet, keep):
        if self.packets == 1:
            self.ticks = signed(packet.stamp - self.last, 32) // 160
        self.packets += 1
        self.octets += len(packet.payload)
        self.last = packet.stamp
        if keep:
            self.payloads.append(packet.payload)

    def rates(self):
        """The rates that its first packet can have: one, once a second packet tells how many ticks it had."""
        ticks = [self.ticks] if self.ticks else [1, 2, 3, 4]
        return sorted({rate for rate, size in OCTETS.items() for t in ticks if size * t == self.first_length})

    def line(self):
        rates = " or ".join(map(str, self.rates())) or "?"
        bundle = f", {self.ticks} ticks a packet" if self.ticks and self.ticks > 1 else ""
        return f"SSRC {self.source}: payload type {self.payload_type}, {rates} kbit/s{bundle}, {self.packets} packets from {self.offset} ms on"


def packets(path):
    """Offset and RTP packet of each record of an answer, with its octets."""
    with open_input(path) as file:
        for offset, _, octets in records(file, path):
            packet = rtp(octets)
            if packet is None:
                raise Fault(f"{path}: a record that is no RTP: this is no answer of the bridge")
            if packet.payload_type < 96:
                raise Fault(f"{path}: packets of payload type {packet.payload_type}: this is a capture of talkers, and no answer of the bridge")
            yield offset, packet, octets


def listeners(path, keep=lambda source: False):
    """The listeners in the order of their first packets; the payloads of those that are to be kept."""
    found, latest = [], {}
    for offset, packet, _ in packets(path):
        if packet.marker:
            latest[packet.source] = Listener(offset, packet)
            found.append(latest[packet.source])
        if packet.source not in latest:
            raise Fault(f"{path}: SSRC {packet.source} begins without a marker: this is no answer of the bridge")
        latest[packet.source].add(packet, keep(packet.source))
    return found


def chosen(path, source, which):
    of_source = [listener for listener in listeners(path, lambda other: other == source) if listener.source == source]
    if not of_source:
        raise Fault(f"{path}: nobody is sent SSRC {source}")
    if not 1 <= which <= len(of_source):
        raise Fault(f"{path}: SSRC {source} has {len(of_source)} listeners, one after the other")
    return of_source[which - 1]


def to_pcap(path, output, begin):
    """A pcap file of raw IPv4: each SSRC goes to a port of its own, from 20000 on, by twos."""
    ports = {}
    with Output(output) as file:
        file.write(struct.pack("<IHHiIII", 0xA1B2C3D4, 2, 4, 0, 0, 65535, 101))
        for offset, packet, octets in packets(path):
            port = ports.setdefault(packet.source, FIRST_PORT + 2 * len(ports))
            moment = begin * 1000 + offset
            udp = struct.pack(">HHHH", 5004, port, len(octets) + 8, 0) + octets
            head = struct.pack(">BBHHHBBH4s4s", 0x45, 0, len(udp) + 20, 0, 0, 64, 17, 0, b"\x7f\0\0\1", b"\x7f\0\0\1")
            total = sum(struct.unpack(">10H", head))
            total = (total & 0xFFFF) + (total >> 16)
            frame = head[:10] + struct.pack(">H", ~(total + (total >> 16)) & 0xFFFF) + head[12:] + udp
            file.write(struct.pack("<IIII", moment // 1000, moment % 1000 * 1000, len(frame), len(frame)) + frame)
    return ports


def to_wav(path, folder, program):
    """A wav file for each listener, decoded by the program `g726`; gives name and listener of each."""
    everyone = listeners(path, lambda source: True)
    os.makedirs(folder, exist_ok=True)
    counts = {}
    for listener in everyone:
        rates = listener.rates()
        if len(rates) != 1:
            raise Fault(f"{path}: SSRC {listener.source} has one packet of {listener.first_length} octets, whose rate can't be told")
        samples = g726(program, "decode", rates[0], b"".join(listener.payloads))
        counts[listener.source] = counts.get(listener.source, 0) + 1
        name = f"{listener.source}.wav" if counts[listener.source] == 1 else f"{listener.source}-{counts[listener.source]}.wav"
        with Output(os.path.join(folder, name)) as file, wave.open(file, "wb") as sound:
            sound.setnchannels(1)
            sound.setsampwidth(2)
            sound.setframerate(1000 * SAMPLES_A_MS)
            sound.writeframes(samples)
        yield name, listener


def ports(path, source, port, apart):
    """The listeners that are played, by SSRC, and each one's port: the same, or its own, by twos."""
    found = {}
    for listener in listeners(path):
        if source in (None, listener.source) and listener.source not in found:
            found[listener.source] = (listener, port + (2 * len(found) if apart else 0))
    if not found:
        raise Fault(f"{path}: nobody is sent SSRC {source}" if source is not None else f"{path}: nobody is sent anything")
    if max(where for _, where in found.values()) > 65535:
        raise Fault(f"{len(found)} listeners have no room in the ports from {port} on")
    return found


def session_text(found, host):
    """A description (SDP) of what is played, which ffmpeg, VLC and others want to be given."""
    family = "IP6" if ":" in host else "IP4"
    lines = ["v=0", f"o=- 0 0 IN {family} {host}", "s=bridge", f"c=IN {family} {host}", "t=0 0"]
    streams = {}
    for listener, port in found.values():
        streams.setdefault(port, {})[listener.payload_type] = (listener.rates() or [32])[0]
    for port, rates in streams.items():
        lines.append(f"m=audio {port} RTP/AVP {' '.join(map(str, rates))}")
        lines += [f"a=rtpmap:{kind} G726-{rate}/8000" for kind, rate in rates.items()]
    return "".join(line + "\r\n" for line in lines).encode()


def play(path, found, host):
    """Sends these listeners' packets as they would have been sent, and gives their number."""
    sent, begin, first = 0, time.monotonic(), None
    try:
        targets = {source: socket.getaddrinfo(host, port, type=socket.SOCK_DGRAM)[0] for source, (_, port) in found.items()}
    except OSError as error:
        raise Fault(f"{host}: {(error.strerror or str(error)).lower()}") from None
    with socket.socket(next(iter(targets.values()))[0], socket.SOCK_DGRAM) as out:
        for offset, packet, octets in packets(path):
            if packet.source not in targets:
                continue
            first = offset if first is None else first
            wait = (offset - first) / 1000 - (time.monotonic() - begin)
            if wait > 0:
                time.sleep(wait)
            try:
                out.sendto(octets, targets[packet.source][4])
            except ConnectionRefusedError:
                pass  # nobody takes them there yet
            sent += 1
    return sent
