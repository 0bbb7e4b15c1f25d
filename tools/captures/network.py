"""UDP datagrams out of capture files of the network: pcap and pcapng, also packed by gzip, in the order of their times.

Frames are taken apart by dpkt. Its pcapng reader knows one interface, so the blocks of pcapng are read here.
"""
import gzip
import heapq
import io
import struct
import sys
import zlib
from collections import namedtuple

from .rtpdump import Fault, open_input, take

try:
    import dpkt
except ImportError:
    sys.exit("bridge-captures: the Python library dpkt is missing: install Debian's python3-dpkt, and run it by /usr/bin/python3")

# time in seconds since 1970; addresses as octets; length on the wire; the octets that were kept of the payload
Datagram = namedtuple("Datagram", "time sender source receiver port wire octets")

ETHERNET, NULL, RAW, LOOP, COOKED, IP4, IP6, COOKED2 = 1, 0, (12, 14, 101), 108, 113, 228, 229, 276
VLAN_TAGS = (b"\x81\0", b"\x88\xa8", b"\x91\0")
UDP, FRAGMENT = 17, 44
OLDEST = 30  # seconds after which a fragment's number stands for another datagram
INCOMPLETE = "datagrams of which a fragment is missing"
SECTION, INTERFACE, PACKET, SIMPLE, ENHANCED = 0x0A0D0D0A, 1, 2, 3, 6
LONGEST_BLOCK = 1 << 26


def unpacked(file):
    """The file, or what gzip packed in it."""
    buffered = file if hasattr(file, "peek") else io.BufferedReader(file)
    return gzip.GzipFile(fileobj=buffered) if buffered.peek(2)[:2] == b"\x1f\x8b" else buffered


def frames(path):
    """Time, link type and octets of each frame of a file."""
    try:
        with open_input(path) as file:
            plain = unpacked(file)
            magic = take(plain, 4)
            if magic == b"\n\r\r\n":
                yield from pcapng_frames(plain, path)
            else:
                yield from pcap_frames(plain, path, magic)
    except (EOFError, gzip.BadGzipFile, zlib.error):
        raise Fault(f"{path}: what gzip packed is cut or broken") from None
    except (struct.error, IndexError):
        raise Fault(f"{path}: a block that is too short: the file is broken") from None


def pcap_frames(file, path, magic):
    orders = {b"\xd4\xc3\xb2\xa1": ("<", 1e6), b"\xa1\xb2\xc3\xd4": (">", 1e6), b"\x4d\x3c\xb2\xa1": ("<", 1e9), b"\xa1\xb2\x3c\x4d": (">", 1e9)}
    head = take(file, 20)
    if magic not in orders or len(head) < 20:
        raise Fault(f"{path}: neither pcap nor pcapng")
    order, parts = orders[magic]
    link = struct.unpack(order + "I", head[16:])[0] & 0xFFFF
    while head := take(file, 16):
        if len(head) < 16:
            warn(f"{path}: cut inside its last frame, which is left out")
            return
        seconds, fraction, kept, _ = struct.unpack(order + "IIII", head)
        if kept > LONGEST_BLOCK:
            raise Fault(f"{path}: a frame of {kept} octets: the file is broken")
        octets = take(file, kept)
        if len(octets) < kept:
            warn(f"{path}: cut inside its last frame, which is left out")
            return
        yield seconds + fraction / parts, link, octets


def pcapng_frames(file, path):
    """Blocks of pcapng, each section with its own byte order and interfaces."""
    order, interfaces, pending = "<", [], b"\n\r\r\n"
    while True:
        head = pending + take(file, 8 - len(pending))
        pending = b""
        if len(head) < 8:
            if head:
                warn(f"{path}: cut inside its last block, which is left out")
            return
        if head[:4] == b"\n\r\r\n":
            mark = take(file, 4)
            if mark not in (b"\x1a\x2b\x3c\x4d", b"\x4d\x3c\x2b\x1a"):
                raise Fault(f"{path}: a section of no byte order: the file is broken")
            order, interfaces = (">" if mark[0] == 0x1A else "<"), []
            length = struct.unpack(order + "I", head[4:])[0]
            if not 28 <= length <= LONGEST_BLOCK:
                raise Fault(f"{path}: a section's head of {length} octets: the file is broken")
            take(file, length - 12)
            continue
        kind, length = struct.unpack(order + "II", head)
        if not 12 <= length <= LONGEST_BLOCK:
            raise Fault(f"{path}: a block of {length} octets: the file is broken")
        body = take(file, length - 8)
        if len(body) < length - 8:
            warn(f"{path}: cut inside its last block, which is left out")
            return
        if kind == INTERFACE:
            interfaces.append(interface(order, body))
        elif kind == SIMPLE:
            raise Fault(f"{path}: its packets have no times")
        elif kind in (ENHANCED, PACKET):
            which = struct.unpack_from(order + ("I" if kind == ENHANCED else "H"), body)[0]
            high, low, kept, _ = struct.unpack_from(order + "IIII", body, 4)
            if which >= len(interfaces):
                raise Fault(f"{path}: a packet of an interface that it does not describe")
            link, parts, begin = interfaces[which]
            yield begin + (high << 32 | low) / parts, link, body[20 : 20 + kept]


def interface(order, body):
    """Link type, parts of a second, and the seconds to add, of an interface's block."""
    link, parts, begin, at = struct.unpack_from(order + "H", body)[0], 1e6, 0, 8
    while at + 4 <= len(body) - 4:
        code, length = struct.unpack_from(order + "HH", body, at)
        value = body[at + 4 : at + 4 + length]
        if code == 9 and length == 1:
            parts = float(2 ** (value[0] & 127) if value[0] & 128 else 10 ** value[0])
        elif code == 14 and length == 8:
            begin = struct.unpack(order + "q", value)[0]
        at += 4 + (length + 3) // 4 * 4
        if code == 0:
            break
    return link, parts, begin


def network_layer(link, octets):
    """The IP packet in a frame, or why there is none."""
    if link == ETHERNET:
        layer = dpkt.ethernet.Ethernet(octets).data
    elif link == COOKED:
        layer = by_kind(octets[14:16], octets[16:])
    elif link == COOKED2:
        layer = by_kind(octets[:2], octets[20:])
    elif link in (NULL, LOOP):
        layer = by_version(octets[4:])
    elif link in RAW or link in (IP4, IP6):
        layer = by_version(octets)
    else:
        return f"of link type {link}: capture on Ethernet, 'any' or loopback"
    return layer if isinstance(layer, (dpkt.ip.IP, dpkt.ip6.IP6)) else "not IP"


def by_kind(kind, octets):
    """What follows a head that ends with this EtherType, behind its VLAN tags."""
    while kind in VLAN_TAGS:
        kind, octets = octets[2:4], octets[4:]
    return by_version(octets) if kind in (b"\x08\0", b"\x86\xdd") else None


def by_version(octets):
    return dpkt.ip6.IP6(octets) if octets[:1] and octets[0] >> 4 == 6 else dpkt.ip.IP(octets)


class Fragments:
    """Puts fragments of datagrams together, and gives each whole one once."""

    def __init__(self):
        self.open, self.given_up = {}, 0

    def add(self, time, key, at, more, octets):
        """The datagram's octets, or None while some are missing."""
        parts, total, begun = self.open.get(key, ({}, None, time))
        if abs(time - begun) > OLDEST:
            parts, total, begun = {}, None, time
            self.given_up += 1
        parts[at] = octets
        if not more:
            total = at + len(octets)
        self.open[key] = (parts, total, begun)
        if total is None:
            return None
        whole, reached = [], 0
        for begin in sorted(parts):
            if begin > reached:
                return None
            whole.append(parts[begin][reached - begin :])
            reached = max(reached, begin + len(parts[begin]))
        if reached < total:
            return None
        del self.open[key]
        return b"".join(whole)[:total]

    def missing(self):
        return len(self.open) + self.given_up


def transport(time, layer, fragments):
    """The octets of the UDP datagram, head included, in an IP packet; why there is none; or None where fragments are to come."""
    if isinstance(layer, dpkt.ip.IP):
        if layer.p != UDP:
            return "not UDP"
        if not (layer.mf or layer.offset):
            return bytes(layer.data)
        key, at, more, rest = (layer.src, layer.dst, layer.id), layer.offset * 8, layer.mf, bytes(layer.data)
    else:
        part = layer.extension_hdrs.get(FRAGMENT)
        if part is None:
            return bytes(layer.data) if layer.p == UDP else "not UDP"
        if part.nxt != UDP:
            return "not UDP"
        key, at, more, rest = (layer.src, layer.dst, part.id), part.frag_off * 8, part.m_flag, bytes(layer.data)
    return fragments.add(time, key, at, more, rest)


def datagrams(path, fragments, left_out):
    """The UDP datagrams of a file. What is no datagram is counted in left_out, by its reason."""
    for time, link, octets in frames(path):
        try:
            layer = network_layer(link, octets)
            segment = layer if isinstance(layer, str) else transport(time, layer, fragments)
        except (dpkt.UnpackError, struct.error, IndexError):
            segment = "cut before the end of their heads"
        if segment is None:
            continue
        if not isinstance(segment, str) and len(segment) < 8:
            segment = "cut before the end of their heads"
        if isinstance(segment, str):
            left_out[segment] = left_out.get(segment, 0) + 1
            continue
        source, port, length = struct.unpack_from(">HHH", segment)
        if length < 8:
            left_out["broken UDP"] = left_out.get("broken UDP", 0) + 1
            continue
        yield Datagram(time, layer.src, source, layer.dst, port, length - 8, segment[8:length])


def all_datagrams(paths, left_out):
    """Those of several files, by rising time."""
    fragments = Fragments()
    yield from heapq.merge(*(datagrams(path, fragments, left_out) for path in paths), key=lambda datagram: datagram.time)
    if fragments.missing():
        left_out[INCOMPLETE] = fragments.missing()


def warn(text):
    print(f"bridge-captures: {text}", file=sys.stderr)
