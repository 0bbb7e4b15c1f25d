#!/usr/bin/env python3
"""Receives what `serve` sends to a roster's listeners, compares it with what the roster promises them, and keeps it as captures.

    receive.py ROSTER PEERS -o heard.capture

It binds the port of each listener whose address is this machine's, for packets, and the port above it, for reports. It ends by itself when each
of them has had its BYE, when nothing has come for some seconds, or after a given time, and it ends at a signal. Then it has a line for each
listener: packets, those that are lost, that came twice, out of order, or that aren't what the roster says (payload type, SSRC, sequence number,
timestamp, marker, length), the jitter (RFC 3550, A.8), and the reports. Nothing here is proved.
"""
import argparse
import os
import resource
import selectors
import signal
import socket
import struct
import sys
import time

sys.path.insert(0, os.path.join(os.path.dirname(os.path.realpath(__file__)), "../../tools"))
from captures.control import report_of  # noqa: E402
from captures.rosters import FRAME, read_peers, read_roster  # noqa: E402
from captures.rtpdump import HEAD, Fault, Output, write_record  # noqa: E402
from captures.streams import SAMPLES_A_MS, signed  # noqa: E402

STAMPED = 35  # SO_TIMESTAMPNS: the system says when a datagram came


class Heard:
    """What came to one listener."""

    def __init__(self, member):
        self.member = member
        self.packets, self.highest, self.seen = [], -1, set()
        self.doubled = self.reordered = self.odd = self.reports = self.odd_reports = 0
        self.jitter, self.transit = 0.0, None
        self.bye = None

    def add(self, moment, octets):
        self.packets.append((moment, octets))
        if len(octets) < 12:
            self.odd += 1
            return
        number = struct.unpack_from(">H", octets, 2)[0]
        near = max(self.highest, 0)
        place = near + signed(number - self.member.sequence - near, 16)
        if place in self.seen:
            self.doubled += 1
            return
        self.seen.add(place)
        self.reordered += place < self.highest
        self.highest = max(self.highest, place)
        self.odd += octets[:12] != self.head(place) or not self.fits(len(octets) - 12)
        transit = moment * SAMPLES_A_MS * 1000 - FRAME * self.member.bundle * place
        if self.transit is not None:
            self.jitter += (abs(transit - self.transit) - self.jitter) / 16
        self.transit = transit

    def head(self, place):
        member = self.member
        marker = 0x80 if place == 0 else 0
        sequence, stamp = (member.sequence + place) & 0xFFFF, (member.stamp + FRAME * member.bundle * place) & 0xFFFFFFFF
        return struct.pack(">BBHII", 0x80, marker | member.payload_type, sequence, stamp, member.source)

    def fits(self, length):
        return length % self.member.frame() == 0 and 0 < length <= self.member.bundle * self.member.frame()

    def control(self, octets):
        try:
            report = report_of(octets)
        except Fault:
            self.odd_reports += 1
            return
        self.reports += 1
        self.odd_reports += report.source != self.member.source or report.name != f"m{self.member.number}@bridge" or self.bye is not None
        if report.bye:
            self.bye = report

    def missing(self):
        """How many packets never came, as far as sequence numbers and the BYE's count tell."""
        return max(self.highest + 1, self.bye.packets if self.bye else 0) - len(self.seen)

    def well(self, due):
        """Whether all of `due` packets came, once each and in order, as the roster says, and the BYE counts them."""
        faults = self.missing() or self.doubled or self.reordered or self.odd or self.odd_reports
        return not faults and (due == 0 or self.bye is not None and self.bye.packets == due == len(self.seen))

    def line(self, due):
        member = self.member
        bye = "a BYE among them" if self.bye else "no BYE"
        return (
            f"{member.number}: SSRC {member.source}, {member.rate} kbit/s, {len(self.packets)} packets of {due}, lost {self.missing()}, "
            f"doubled {self.doubled}, out of order {self.reordered}, odd {self.odd}; jitter {self.jitter / SAMPLES_A_MS:.2f} ms; "
            f"{self.reports} reports, {bye}, odd {self.odd_reports}"
        )


class Ports:
    """The sockets of the listeners that are here, and what came to them."""

    def __init__(self, listeners, peers, end):
        self.selector, self.heard, self.sockets, self.end = selectors.DefaultSelector(), {}, [], end
        self.strange, self.elsewhere = 0, []
        shared = {}
        for member in listeners:
            if member.number not in peers:
                raise Fault(f"the peers do not say where member {member.number} is")
            address, port = peers[member.number]
            if (address, port) not in shared:
                shared[address, port] = self.pair(address, port)
            here = shared[address, port]
            if here is None:
                self.elsewhere.append(member.number)
            else:
                here[member.source] = here.get(member.source, []) + [member.number]
                self.heard[member.number] = Heard(member)
        if not self.heard:
            raise Fault("none of the listeners' addresses is this machine's")

    def pair(self, address, port):
        """Binds a port and the one above; gives the listeners there, by their SSRC, to be filled. None where the address is another machine's."""
        by_source, made = {}, []
        for where in (port, port + 1):
            one = socket.socket(socket.AF_INET, socket.SOCK_DGRAM)
            made.append(one)
            try:
                one.bind((address, where))
            except OSError as error:
                if error.errno == 99:  # EADDRNOTAVAIL
                    return None
                raise Fault(f"{address}:{where}: {error.strerror.lower()}") from None
            one.setblocking(False)
            one.setsockopt(socket.SOL_SOCKET, socket.SO_RCVBUF, 1 << 20)
            try:
                one.setsockopt(socket.SOL_SOCKET, STAMPED, 1)
            except OSError:
                pass
        for one, control in zip(made, (False, True)):
            self.selector.register(one, selectors.EVENT_READ, (by_source, control))
        self.sockets += made
        return by_source

    def take(self, wait):
        """Takes what has come; gives how many datagrams."""
        count = 0
        for key, _ in self.selector.select(wait):
            by_source, control = key.data
            while True:
                try:
                    octets, extra, _, _ = key.fileobj.recvmsg(65535, 64)
                except (BlockingIOError, InterruptedError):
                    break
                count += 1
                self.sort(when(extra), octets, by_source, control)
        return count

    def sort(self, moment, octets, by_source, control):
        place = 4 if control else 8
        numbers = by_source.get(int.from_bytes(octets[place : place + 4], "big"), [])
        if not numbers:
            self.strange += 1
            return
        # listeners that come one after another may have one SSRC: the first of them that had no BYE yet
        waiting = [number for number in numbers if self.heard[number].bye is None] or numbers[-1:]
        if control:
            self.heard[waiting[0]].control(octets)
        else:
            self.heard[waiting[0]].add(moment, octets)

    def over(self):
        return all(one.bye or not due(one.member, self.end) for one in self.heard.values())


def when(extra):
    for level, kind, octets in extra:
        if level == socket.SOL_SOCKET and kind == STAMPED and len(octets) >= 16:
            seconds, nanos = struct.unpack("@qq", octets[:16])
            return seconds + nanos / 1e9
    return time.time()


def earliest(ports):
    return min((moment for one in ports.heard.values() for moment, _ in one.packets), default=None)


def receive(ports, words):
    """Until it is over; gives when the first datagram came, or None."""
    first, last, begun = None, None, time.monotonic()
    while not ports.over():
        now = time.monotonic()
        if words.at_most is not None and now > begun + words.at_most:
            break
        if now > (last or begun) + (words.idle if last else words.wait):
            break
        if ports.take(0.1):
            last = time.monotonic()
            if first is None and (first := earliest(ports)) is not None:
                print(f"first packet at {first:.6f}", file=sys.stderr, flush=True)
    ports.take(0.05)
    return first


def write_capture(path, packets, first):
    with Output(path) as file:
        file.write(HEAD)
        for moment, octets in sorted(packets, key=lambda packet: packet[0]):
            write_record(file, max(0, int(1000 * (moment - first))), len(octets), octets)


def due(member, end):
    begin, until = member.ticks(end)
    return max(0, until - begin + member.bundle - 1) // member.bundle


def more_files(wanted):
    soft, hard = resource.getrlimit(resource.RLIMIT_NOFILE)
    if soft < wanted:
        resource.setrlimit(resource.RLIMIT_NOFILE, (min(wanted, hard), hard))


def command_line():
    top = argparse.ArgumentParser(description=__doc__, formatter_class=argparse.RawDescriptionHelpFormatter)
    top.add_argument("roster", metavar="ROSTER")
    top.add_argument("peers", metavar="PEERS")
    top.add_argument("-o", "--output", metavar="CAPTURE", help="writes all packets as one capture; offset 0 is --begin, or the first packet")
    top.add_argument("--into", metavar="FOLDER", help="writes the packets of each listener as MEMBER.capture")
    top.add_argument("--begin", type=float, metavar="SECONDS", help="the time of offset 0, in seconds since 1970")
    top.add_argument("--idle", type=float, default=5, metavar="SECONDS", help="ends where nothing has come for so long (5)")
    top.add_argument("--wait", type=float, default=60, metavar="SECONDS", help="ends where nothing has come at all (60)")
    top.add_argument("--at-most", type=float, metavar="SECONDS", help="ends after this time, whatever comes")
    top.add_argument("--strict", action="store_true", help="exit status 1 unless each listener got all that the roster promises, and nothing else")
    return top


def run(words):
    roster = read_roster(words.roster)
    listeners = roster.listeners()
    more_files(2 * len(listeners) + 64)
    ports = Ports(listeners, read_peers(words.peers), roster.end)
    print(f"{len(ports.heard)} listeners at {len(ports.sockets)} ports", file=sys.stderr, flush=True)
    if ports.elsewhere:
        print(f"not here: {', '.join(map(str, ports.elsewhere))}", file=sys.stderr, flush=True)
    try:
        first = receive(ports, words)
    except KeyboardInterrupt:
        ports.take(0.05)
        first = earliest(ports)
    begin = words.begin if words.begin is not None else first or 0.0
    if words.output:
        write_capture(words.output, [packet for one in ports.heard.values() for packet in one.packets], begin)
    if words.into:
        os.makedirs(words.into, exist_ok=True)
        for number, one in ports.heard.items():
            write_capture(os.path.join(words.into, f"{number}.capture"), one.packets, begin)
    ill = 0
    for one in ports.heard.values():
        count = due(one.member, roster.end)
        ill += not one.well(count)
        print(one.line(count))
    print(f"{sum(len(one.packets) for one in ports.heard.values())} packets, {sum(one.reports for one in ports.heard.values())} reports, {ports.strange} of others")
    return 1 if words.strict and (ill or ports.strange) else 0


def main():
    words = command_line().parse_args()
    signal.signal(signal.SIGTERM, signal.default_int_handler)
    try:
        sys.exit(run(words))
    except Fault as fault:
        sys.exit(f"receive: {fault}")
    except OSError as error:
        sys.exit(f"receive: {(error.strerror or str(error)).lower()}")
    except KeyboardInterrupt:
        sys.exit(130)


main()
