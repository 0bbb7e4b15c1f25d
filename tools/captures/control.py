"""RTCP as the bridge sends it (RFC 3550, section 6): a sender report, a name, and at a stream's end a BYE."""
import struct
from typing import NamedTuple

from .rtpdump import Fault

SENDER_REPORT, RECEIVER_REPORT, NAME, BYE = 200, 201, 202, 203


class Report(NamedTuple):
    source: int
    stamp: int
    packets: int
    octets: int
    name: str
    bye: bool


def parts(octets):
    """Count, type and body of each packet of a compound."""
    at = 0
    while at < len(octets):
        if len(octets) < at + 4:
            raise Fault("a packet of RTCP is cut")
        head, kind, length = struct.unpack_from(">BBH", octets, at)
        if head >> 6 != 2 or len(octets) < at + 4 * length + 4:
            raise Fault("a packet of RTCP has a wrong version or length")
        yield head & 31, kind, octets[at + 4 : at + 4 * length + 4]
        at += 4 * length + 4


def report_of(octets):
    """The report in these octets; a Fault where they are none of the bridge's."""
    packets = list(parts(octets))
    if [kind for _, kind, _ in packets] not in ([SENDER_REPORT, NAME], [SENDER_REPORT, NAME, BYE]):
        raise Fault("no report of the bridge")
    body, named = packets[0][2], packets[1][2]
    if len(body) != 24 or len(named) < 8 or named[4] != 1 or len(named) < 7 + named[5]:
        raise Fault("a report of another form than the bridge's")
    source, _, stamp, count, sent = struct.unpack(">IQIII", body)
    if any(int.from_bytes(other[2][:4], "big") != source for other in packets[1:]):
        raise Fault("a report that names two sources")
    return Report(source, stamp, count, sent, named[6 : 6 + named[5]].decode("ascii", "replace"), len(packets) == 3)
