#!/usr/bin/env python3
"""Sends what a roster's talkers say to the program `serve`, in real time, each talker from a UDP port of its own.

    send.py ROSTER --to 127.0.0.1:5004 --capture call.capture
    send.py ROSTER --to 127.0.0.1:5004 --sound 1 200 hello.wav --sound 2 2500 reply.wav

From a capture (docs/FORMATS.md) it sends the packets of the roster's talkers, known by their SSRCs, at their offsets; what others sent is left
out and counted. A sound file is sent in packets of 20 ms from so many ms on, in the codes that the roster says: mu-law, A-law, or G.726, for
which the program `g726` is needed. It ends when all is sent. Nothing here is proved.
"""
import argparse
import os
import random
import socket
import struct
import sys
import time

sys.path.insert(0, os.path.join(os.path.dirname(os.path.realpath(__file__)), "../../tools"))
from captures.main import address, number  # noqa: E402
from captures.rosters import read_roster  # noqa: E402
from captures.rtpdump import HEAD, LAST_OFFSET, Fault, Output, open_input, records, write_record  # noqa: E402
from captures.sound import packets as spoken  # noqa: E402

RECORDED = 86_400_000  # ms


def from_capture(path, sources):
    """Offset and octets of what these sources sent, RTCP too; and how many records others sent."""
    kept, others = [], 0
    with open_input(path) as file:
        for offset, wire, octets in records(file, path):
            place = slice(8, 12) if wire else slice(4, 8)
            if int.from_bytes(octets[place], "big") in sources and len(octets) >= 8:
                kept.append((offset, octets))
            else:
                others += 1
    return kept, others


def from_sounds(sounds, talkers, program):
    """Offset and octets of these sound files: (MEMBER, START, WAV) as the words of the command line."""
    streams = []
    for member, start, path in sounds:
        try:
            talker, begin = talkers.get(number(member, 0, 0xFFFFFFFF)), number(start, 0, RECORDED)
        except argparse.ArgumentTypeError as error:
            raise Fault(f"--sound {member} {start} {path}: {error}") from None
        if talker is None:
            raise Fault(f"--sound {member} {start} {path}: the roster has no talker {member}")
        streams.append((talker.talk, begin, path))
    return list(spoken(streams, program)) if streams else []


def disturbed(plan, words):
    """The plan with packets lost and late by chance, and a talker's clock that goes wrong, as the options say."""
    chance = random.Random(words.seed)
    changed = []
    for offset, octets in plan:
        if chance.random() * 100 < words.loss:
            continue
        late = chance.uniform(0, words.jitter)
        changed.append((offset * (1 + words.skew / 1e6) + late, octets))
    return sorted(changed, key=lambda packet: packet[0])


def source_of(octets):
    place = 4 if len(octets) > 1 and 192 <= octets[1] <= 223 else 8
    return int.from_bytes(octets[place : place + 4], "big")


def send(plan, to, begin, sockets):
    """Sends the plan from `begin` on, a time in seconds since 1970; gives the time at which each packet went, in ms since then."""
    went, failed = [], 0
    for offset, octets in plan:
        while (wait := begin + offset / 1000 - time.time()) > 0:
            time.sleep(wait)
        try:
            sockets[source_of(octets)].sendto(octets, to)
        except OSError:
            failed += 1
        went.append((1000 * (time.time() - begin), octets))
    return went, failed


def record(path, went):
    with Output(path) as file:
        file.write(HEAD)
        for moment, octets in went:
            wire = 0 if len(octets) > 1 and 192 <= octets[1] <= 223 else len(octets)
            write_record(file, min(max(0, int(moment)), LAST_OFFSET), wire, octets)


def command_line():
    top = argparse.ArgumentParser(description=__doc__, formatter_class=argparse.RawDescriptionHelpFormatter)
    top.add_argument("roster", metavar="ROSTER")
    top.add_argument("--to", required=True, type=address, metavar="ADDRESS:PORT", help="where serve listens")
    top.add_argument("--capture", metavar="CAPTURE", help="a capture in rtpdump format, or - for standard input")
    top.add_argument("--sound", nargs=3, action="append", default=[], metavar=("MEMBER", "START", "WAV"), help="a wav file of 16 bits, one channel, 8,000 a second; may be repeated")
    top.add_argument("--g726", default="g726", metavar="PROGRAM", help="the program g726, for sound of a talker of G.726")
    top.add_argument("--record", metavar="CAPTURE", help="writes what was sent, when it went, as a capture")
    top.add_argument("--at", type=float, metavar="SECONDS", help="when offset 0 is, in seconds since 1970; without it, now")
    top.add_argument("--loss", type=float, default=0, metavar="PERCENT", help="leaves out packets by chance")
    top.add_argument("--jitter", type=float, default=0, metavar="MS", help="sends each packet up to so much later, by chance")
    top.add_argument("--skew", type=float, default=0, metavar="PPM", help="sends as a talker does whose clock is slow by so many millionths")
    top.add_argument("--seed", type=int, default=1, help="of what happens by chance (1)")
    return top


def resolved(to):
    try:
        return socket.gethostbyname(to[0]), to[1]
    except OSError:
        raise Fault(f"{to[0]}: no host of this name or address in IPv4 is known") from None


def run(words):
    talkers = {member.number: member for member in read_roster(words.roster).talkers()}
    if not talkers:
        raise Fault(f"{words.roster}: nobody talks")
    if not words.capture and not words.sound:
        raise Fault("give --capture or --sound: what is to be sent")
    plan, others = from_sounds(words.sound, talkers, words.g726), 0
    if words.capture:
        recorded, others = from_capture(words.capture, {talker.talk.source for talker in talkers.values()})
        plan += recorded
    plan = disturbed(plan, words)
    to = resolved(words.to)
    sockets = {talker.talk.source: socket.socket(socket.AF_INET, socket.SOCK_DGRAM) for talker in talkers.values()}
    for one in sockets.values():
        one.bind(("", 0))
    begin = time.time() if words.at is None else words.at
    if time.time() > begin + 1:
        raise Fault(f"--at {words.at}: that is past")
    went, failed = send(plan, to, begin, sockets)
    if words.record:
        record(words.record, went)
    ports = ", ".join(f"SSRC {source} from port {one.getsockname()[1]}" for source, one in sockets.items())
    print(f"{len(went)} datagrams sent to {to[0]}:{to[1]} ({ports}), {failed} failed, {others} of others left out")


def main():
    words = command_line().parse_args()
    try:
        run(words)
    except Fault as fault:
        sys.exit(f"send: {fault}")
    except OSError as error:
        sys.exit(f"send: {(error.strerror or str(error)).lower()}")
    except struct.error:
        sys.exit("send: what is to be sent does not fit a packet")
    except KeyboardInterrupt:
        sys.exit(130)


main()
