#!/usr/bin/env python3
"""Tries tools/bridge-captures over files that are made here: each kind of recording, each way back, and each usual mistake.

Needs dpkt (Debian's python3-dpkt) for the recordings. usage: captures_test.py [PROGRAM_G726 [PART..]]
"""
import gzip
import os
import signal
import socket
import struct
import subprocess
import sys
import tempfile
import time
import traceback
import wave

TOP = os.path.dirname(os.path.dirname(os.path.abspath(__file__)))
sys.path.insert(0, os.path.join(TOP, "tools"))
try:
    import dpkt  # noqa: F401
except ImportError:
    print("captures: skipped, dpkt isn't installed")
    sys.exit(0)
from captures.main import main as command  # noqa: E402

TOOL = os.path.join(TOP, "tools", "bridge-captures")
SESSIONS = os.path.join(TOP, "examples", "sessions")
G726 = sys.argv[1] if len(sys.argv) > 1 else None
FOUR = socket.inet_aton("10.0.0.1"), socket.inet_aton("10.0.0.2")
SIX = socket.inet_pton(socket.AF_INET6, "fd00::1"), socket.inet_pton(socket.AF_INET6, "fd00::2")
BEGIN = 1764600000
passed, failed = 0, 0


def check(name, holds, said=""):
    global passed, failed
    if holds:
        passed += 1
    else:
        failed += 1
        print(f"captures: {name} {said}")


def run(*words, given=b"", folder=None):
    """What the command ends with, and what it writes: run in a child of this process, so that Python needn't begin anew."""
    with tempfile.TemporaryFile() as taken, tempfile.TemporaryFile() as out, tempfile.TemporaryFile() as err:
        taken.write(given)
        taken.seek(0)
        child = os.fork()
        if child == 0:
            for number, file in enumerate((taken, out, err)):
                os.dup2(file.fileno(), number)
            os._exit(end_of_command(words, folder))
        code = os.waitstatus_to_exitcode(os.waitpid(child, 0)[1])
        out.seek(0)
        err.seek(0)
        return code, out.read(), err.read().decode(errors="replace")


def end_of_command(words, folder):
    os.chdir(folder or ".")
    sys.argv = [TOOL, *words]
    code = 0
    try:
        command()
    except SystemExit as end:
        code = end.code if isinstance(end.code, int) else 0 if end.code is None else 1
        if isinstance(end.code, str):
            print(end.code, file=sys.stderr)
    except BaseException:
        traceback.print_exc()
        code = 99
    sys.stdout.flush()
    sys.stderr.flush()
    return code


def rtp(number, source=7, payload=b"\x55" * 160, kind=0, stamp=None):
    return struct.pack(">BBHII", 0x80, kind, number & 0xFFFF, (160 * number if stamp is None else stamp) & 0xFFFFFFFF, source) + payload


def udp(octets, port=5004, source=40000):
    return struct.pack(">HHHH", source, port, 8 + len(octets), 0) + octets


def ip4(segment, at=0, more=0, number=1, options=b""):
    head = 20 + len(options)
    return struct.pack(">BBHHHBBH", 0x40 + head // 4, 0, head + len(segment), number, more << 13 | at // 8, 64, 17, 0) + FOUR[0] + FOUR[1] + options + segment


def ip6(segment, kind=17, extensions=()):
    """Each extension is its number and its octets behind the number of the next."""
    chain, kinds = b"", [number for number, _ in extensions] + [kind]
    for place, (_, octets) in enumerate(extensions):
        chain += bytes([kinds[place + 1]]) + octets
    return struct.pack(">IHBB", 6 << 28, len(chain) + len(segment), kinds[0], 64) + SIX[0] + SIX[1] + chain + segment


def ethernet(packet, tags=()):
    kind = b"\x86\xdd" if packet[0] >> 4 == 6 else b"\x08\0"
    return bytes(12) + b"".join(struct.pack(">HH", *tag) for tag in tags) + kind + packet


def cooked(packet):
    return bytes(14) + (b"\x86\xdd" if packet[0] >> 4 == 6 else b"\x08\0") + packet


def cooked2(packet):
    return (b"\x86\xdd" if packet[0] >> 4 == 6 else b"\x08\0") + bytes(18) + packet


def pcap(frames, link, order="<", magic=0xA1B2C3D4, parts=10**6, kept=65535):
    """Frames are (milliseconds, octets)."""
    made = struct.pack(order + "IHHiIII", magic, 2, 4, 0, 0, kept, link)
    for offset, frame in frames:
        second, rest = divmod(offset, 1000)
        made += struct.pack(order + "IIII", BEGIN + second, rest * parts // 1000, len(frame[:kept]), len(frame)) + frame[:kept]
    return made


def block(kind, body, order="<"):
    body += bytes(-len(body) % 4)
    return struct.pack(order + "II", kind, len(body) + 12) + body + struct.pack(order + "I", len(body) + 12)


def pcapng(frames, links, order="<", resolution=6):
    """Frames are (milliseconds, interface, octets)."""
    made = block(0x0A0D0D0A, struct.pack(order + "IHHq", 0x1A2B3C4D, 1, 0, -1), order)
    for link in links:
        made += block(1, struct.pack(order + "HHIHHBxxxHH", link, 0, 0, 9, 1, resolution, 0, 0), order)
    for offset, interface, frame in frames:
        units = (1000 * BEGIN + offset) * 10**resolution // 1000
        made += block(6, struct.pack(order + "IIIII", interface, units >> 32, units & 0xFFFFFFFF, len(frame), len(frame)) + frame, order)
    return made


def capture(packets):
    """The capture that these (offset, RTP packet) are."""
    made = b"#!rtpplay1.0 0.0.0.0/0\n" + bytes(16)
    return made + b"".join(struct.pack(">HHI", len(packet) + 8, len(packet), offset) + packet for offset, packet in packets)


PACKETS = [(20 * n, rtp(n)) for n in range(5)]
WANTED = capture(PACKETS)


def frames(wrap):
    return [(offset, wrap(packet)) for offset, packet in PACKETS]


def recording(name, octets, wanted=WANTED, words=(), says=()):
    code, out, err = run("from-network", "-", *words, given=octets)
    check(name, code == 0 and out == wanted and all(text in err for text in says), f"{code} {err[-500:]}")
    return err


def kinds_of_recordings(_):
    four = [(0, ip4(udp(packet))) for _, packet in PACKETS]
    for link, name, wrap in (
        (1, "Ethernet", ethernet),
        (113, "cooked", cooked),
        (276, "cooked v2", cooked2),
        (0, "loopback", lambda p: struct.pack("<I", 2 if p[0] >> 4 == 4 else 30) + p),
        (108, "OpenBSD's loopback", lambda p: struct.pack(">I", 2 if p[0] >> 4 == 4 else 24) + p),
        (101, "raw IP", lambda p: p),
        (12, "raw IP, another number", lambda p: p),
    ):
        recording(name, pcap(frames(lambda p: wrap(ip4(udp(p)))), link))
        recording(name + ", IPv6", pcap(frames(lambda p: wrap(ip6(udp(p)))), link))
    check("frames", len(four) == 5)
    recording("link type of IPv4", pcap(frames(lambda p: ip4(udp(p))), 228))
    recording("link type of IPv6", pcap(frames(lambda p: ip6(udp(p))), 229))
    recording("VLAN", pcap(frames(lambda p: ethernet(ip4(udp(p)), [(0x8100, 5)])), 1))
    recording("VLAN in VLAN", pcap(frames(lambda p: ethernet(ip4(udp(p)), [(0x88A8, 5), (0x8100, 6)])), 1))
    recording("VLAN, IPv6", pcap(frames(lambda p: ethernet(ip6(udp(p)), [(0x8100, 5)])), 1))
    recording("VLAN in a cooked head", pcap(frames(lambda p: bytes(14) + b"\x81\0\0\5\x08\0" + ip4(udp(p))), 113))
    recording("options of IPv4", pcap(frames(lambda p: ethernet(ip4(udp(p), options=bytes([1, 1, 1, 0])))), 1))
    recording("padded Ethernet", pcap(frames(lambda p: ethernet(ip4(udp(p))) + bytes(9)), 1))
    for name, extensions in (
        ("hop by hop", [(0, b"\0\1\4\0\0\0\0")]),
        ("destination", [(60, b"\0\1\4\0\0\0\0")]),
        ("routing", [(43, b"\0\0\0\0\0\0\0")]),
        ("hop by hop, routing and destination", [(0, b"\0\1\4\0\0\0\0"), (43, b"\0\0\0\0\0\0\0"), (60, b"\0\1\4\0\0\0\0")]),
        ("a lone fragment's head", [(44, b"\0\0\0\0\0\0\1")]),
    ):
        recording(f"IPv6, {name}", pcap(frames(lambda p: ethernet(ip6(udp(p), extensions=extensions))), 1))
    for order in "<>":
        recording(f"pcap {order}", pcap(frames(lambda p: ethernet(ip4(udp(p)))), 1, order))
        recording(f"pcap {order} in nanoseconds", pcap(frames(lambda p: ethernet(ip4(udp(p)))), 1, order, 0xA1B23C4D, 10**9))
        for resolution in (3, 6, 9):
            mixed = [(offset, n % 3, (ethernet, cooked, cooked2)[n % 3](ip4(udp(p)))) for n, (offset, p) in enumerate(PACKETS)]
            recording(f"pcapng {order} of mixed interfaces, 10^-{resolution}", pcapng(mixed, [1, 113, 276], order, resolution))
    recording("gzip", gzip.compress(pcap(frames(lambda p: ethernet(ip4(udp(p)))), 1)))
    strange = [(0, 1, bytes(30))] + [(offset, 0, ethernet(ip4(udp(p)))) for offset, p in PACKETS]
    recording("an interface that can't be read", pcapng(strange, [1, 195]), says=["left out: 1 (of link type 195"])
    arp = [(0, bytes(12) + b"\x08\x06" + bytes(28))] + frames(lambda p: ethernet(ip4(udp(p))))
    recording("ARP", pcap(arp, 1), says=["left out: 1 (not IP)"])


def fragments(_):
    def four(packet, n, cut=96):
        segment = udp(packet)
        return [ip4(segment[:cut], 0, 1, n), ip4(segment[cut:], cut, 0, n)]

    def six(packet, n, cut=96):
        segment = udp(packet)
        head = [struct.pack(">BHI", 0, at | more, n) for at, more in ((0, 1), (cut, 0))]
        return [ip6(segment[:cut], extensions=[(44, head[0])]), ip6(segment[cut:], extensions=[(44, head[1])])]

    for name, cut in (("IPv4", four), ("IPv6", six)):
        pieces = [(offset, cut(packet, n)) for n, (offset, packet) in enumerate(PACKETS, 1)]
        recording(f"fragments of {name}", pcap([(offset, ethernet(p)) for offset, both in pieces for p in both], 1))
        recording(f"fragments of {name}, swapped", pcap([(offset, ethernet(p)) for offset, both in pieces for p in both[::-1]], 1))
        missing = [(offset, ethernet(p)) for n, (offset, both) in enumerate(pieces) for p in (both if n != 2 else both[:1])]
        says = ["left out: 1 (datagrams of which a fragment is missing)", "lost 1,"]
        recording(f"fragments of {name}, one missing", pcap(missing, 1), capture(PACKETS[:2] + PACKETS[3:]), says=says)


def files_and_ports(folder):
    def ether(packet, port=5004):
        return ethernet(ip4(udp(packet, port)))

    for name, part in (("1", PACKETS[:2]), ("2", PACKETS[2:])):
        with open(os.path.join(folder, name + ".pcap"), "wb") as file:
            file.write(pcap([(offset, ether(packet)) for offset, packet in part], 1))
    code, out, err = run("from-network", "2.pcap", "1.pcap", folder=folder)
    check("several files come in the order of their times", code == 0 and out == WANTED, err)
    several = [(offset, ether(packet, 5002 + 2 * n)) for n, (offset, packet) in enumerate(PACKETS)]
    wanted = capture([(offset - 20, packet) for offset, packet in PACKETS[1:3]])
    recording("a range of ports", pcap(several, 1), wanted, ["--ports", "5003-5005,5006"], ["left out: 3 (other ports)"])
    says = ["from 10.0.0.1:40000 to 10.0.0.2:5004", "offset 0 is 2025-12-01 14:40:00.000 UTC", "SSRC 7 (0x00000007): payload type 0 (PCMU)"]
    err = recording("what is listed", pcap([(offset, ether(packet)) for offset, packet in PACKETS], 1), says=says)
    check("no warning for a whole stream", "warning" not in err, err)
    whole = [(offset, ether(packet)) for offset, packet in PACKETS]
    code, out, err = run("from-network", "-", given=pcap(whole, 1, kept=96))
    check("cut packets", code == 0 and "cut 5;" in err and "warning: cut packets are refused" in err, err)
    both = sorted(whole + [(offset, ethernet(ip4(udp(packet, source=41000)))) for offset, packet in PACKETS])
    code, out, err = run("from-network", "-", given=pcap(both, 1))
    check("two senders with one SSRC", code == 0 and "warning: 2 senders have SSRC 7" in err, err)
    cn = [(100, rtp(5, kind=13, payload=b"\x40")), (120, rtp(6, kind=101, payload=b"\1\2\3\4"))]
    code, out, err = run("streams", "-", given=capture(PACKETS + cn))
    check("comfort noise and key tones", b"payload type 0 (PCMU) 5 times, 13 (comfort noise) 1 times, 101 (key tones) 1 times" in out, out)
    worse = [PACKETS[0], PACKETS[2], PACKETS[2], PACKETS[1], PACKETS[4]]
    code, out, err = run("streams", "-", given=capture(worse))
    check("losses, doubles and order", b"lost 1, doubled 1, out of order 1, cut 0" in out, out)


def clocks(_):
    drifting = [(round(20 * n * 1.0002), rtp(n, payload=b"\xff" * 160)) for n in range(15000)]
    code, out, err = run("streams", "-", given=capture(drifting))
    check("skew", b"skew +200 ppm" in out and b"drift apart by over 40 ms" in out, out)
    far = [PACKETS[0], (86400000, PACKETS[1][1]), *PACKETS[2:]]
    code, out, err = run("streams", "-", given=capture(far))
    check("a packet that is dated a day later", b"warning: a packet is dated 86400000 ms" in out, out)
    wraps = [(offset, ethernet(ip4(udp(packet)))) for offset, packet in far]
    recording("the same with --retime", pcap(wraps, 1), words=["--retime"], says=["the recorder's clock was set by +86400.0 s"])
    stepped = [(offset + 3600000 * (n > 2), ethernet(ip4(udp(packet)))) for n, (offset, packet) in enumerate(PACKETS)]
    recording("a clock that was set", pcap(stepped, 1), words=["--retime"], says=["the recorder's clock was set by +3600.0 s"])
    code, out, err = run("from-network", "-", given=pcap(stepped, 1))
    check("a warning of that", "warning: at 3600060 ms times and timestamps part by 3600.0 s" in err, err)
    large = [(1024 * n // 8 + 150 * (n > 0), ethernet(ip4(udp(rtp(n, payload=b"\x20" * 1024, stamp=1024 * n))))) for n in range(5)]
    wanted = capture([(128 * n, rtp(n, payload=b"\x20" * 1024, stamp=1024 * n)) for n in range(5)])
    recording("large packets that come late", pcap(large, 1), wanted, ["--retime"], ["warning: packets of 128 ms"])
    anew = PACKETS + [(100 + 20 * n, rtp(40000 + n, stamp=3000000000 + 160 * n)) for n in range(5)]
    wanted = capture(PACKETS + [(100 + 20 * n, rtp(40000 + n, stamp=160 * (5 + n))) for n in range(5)])
    recording("a sender that began anew", pcap([(o, ethernet(ip4(udp(p)))) for o, p in anew], 1), wanted, ["--retime"], ["begin anew 1 times"])


def rosters(folder):
    path = os.path.join(folder, "roster")
    recording("a roster", pcap(frames(lambda p: ethernet(ip4(udp(p)))), 1), words=["--roster", path])
    with open(path) as file:
        commands = [line for line in file.read().splitlines() if not line.startswith("#")]
    check("what it says", commands == ["0 join 1 pcmu:7 32 97 1 0 0", "280 end"], commands)
    for name in sorted(os.listdir(SESSIONS)):
        base = os.path.join(SESSIONS, name[:-7])
        if not name.endswith(".roster") or open(base + ".status").read().strip() != "0":
            continue
        code, out, err = run("heard", base + ".roster", base + ".capture")
        refused = open(base + ".summary").read().split()[-1]
        check(f"heard {name[:-7]}", code == 0 and f"; refused {refused}".encode() in out + b"\n", err + out.decode())


def ways_back(folder):
    answer = os.path.join(SESSIONS, "bundles_2.answer")
    with open(answer, "rb") as file:
        octets = file.read()
    path = os.path.join(folder, "answer.pcap")
    code, _, err = run("to-pcap", answer, "-o", path, "--begin", str(BEGIN))
    check("to-pcap", code == 0 and "UDP port 20000" in err, err)
    code, out, err = run("from-network", path)
    shift = int.from_bytes(octets[43:47], "big")
    moved, at = octets[:39], 39
    while at < len(octets):
        length, wire, offset = struct.unpack_from(">HHI", octets, at)
        moved += struct.pack(">HHI", length, wire, offset - shift) + octets[at + 8 : at + length]
        at += length
    check("an answer's pcap is the answer again", code == 0 and out == moved, err)
    speech = os.path.join(SESSIONS, "no_ticks.answer")
    code, out, err = run("listeners", speech)
    check("an answer without packets", code == 0 and out == b"", err)
    receiver = socket.socket(socket.AF_INET, socket.SOCK_DGRAM)
    receiver.bind(("127.0.0.1", 0))
    receiver.settimeout(5)
    port = receiver.getsockname()[1]
    short = os.path.join(SESSIONS, "loud_and_quiet.answer")
    sdp = os.path.join(folder, "answer.sdp")
    begun = time.monotonic()
    code, out, err = run("play", short, "--to", f"127.0.0.1:{port}", "--sdp", sdp)
    took = time.monotonic() - begun
    with open(short, "rb") as file:
        octets = file.read()
    got, at, offsets = [], 39, []
    while at < len(octets):
        length, _, offset = struct.unpack_from(">HHI", octets, at)
        got.append(receiver.recv(2048) == octets[at + 8 : at + length])
        offsets.append(offset)
        at += length
    check("play", code == 0 and all(got) and took >= (offsets[-1] - offsets[0]) / 1000, f"{err} {took}")
    with open(sdp) as file:
        text = file.read()
    check("its SDP file", f"m=audio {port} RTP/AVP" in text and "G726-" in text, text)
    if G726 and os.path.exists(G726):
        into = os.path.join(folder, "heard")
        code, out, err = run("to-wav", os.path.join(SESSIONS, "conference.answer"), "--into", into, "--g726", G726)
        check("to-wav", code == 0 and sorted(os.listdir(into)) == [f"{n}.wav" for n in range(2001, 2006)], err)
        with wave.open(os.path.join(into, "2003.wav"), "rb") as sound:
            check("its length", (sound.getframerate(), sound.getnframes()) == (8000, 425 * 160))


def mistakes(folder):
    """Each has to end with one line that says what is wrong, and without a file."""
    def file(name, octets):
        with open(os.path.join(folder, name), "wb") as out:
            out.write(octets)

    file("good.pcap", pcap(frames(lambda p: ethernet(ip4(udp(p)))), 1))
    file("nothing", b"")
    file("text", b"hello\n")
    file("talk.flac", b"fLaC" + bytes(100))
    file("cut.gz", gzip.compress(pcap(frames(lambda p: ethernet(ip4(udp(p)))), 1))[:60])
    file("broken.pcapng", pcapng([(0, 7, b"x")], [1]))
    file("short.pcapng", pcapng([], [1]) + block(6, b""))
    file("section.pcapng", b"\n\r\r\n\4\0\0\0\x4d\x3c\x2b\x1a")
    file("cut.capture", WANTED[:-5])
    file("roster", b"hello\n")
    for name, width, rate, channels in (("24", 3, 8000, 1), ("fast", 2, 44100, 1), ("two", 2, 8000, 2), ("good", 2, 8000, 1)):
        with wave.open(os.path.join(folder, name + ".wav"), "wb") as sound:
            sound.setnchannels(channels)
            sound.setsampwidth(width)
            sound.setframerate(rate)
            sound.writeframes(bytes(width * channels * 800))
    file("law.wav", b"RIFF\x32\0\0\0WAVEfmt \x12\0\0\0\x07\0\1\0\x40\x1f\0\0\x40\x1f\0\0\1\0\x08\0\0\0data\0\0\0\0")
    answer = os.path.join(SESSIONS, "conference.answer")
    network = "from-network"
    for words, status, says in (
        ([], 2, "COMMAND"),
        (["tidy"], 2, "invalid choice"),
        ([network], 2, "required"),
        ([network, "none.pcap"], 1, "none.pcap: no such file or directory"),
        ([network, "."], 1, ".: is a directory"),
        ([network, "nothing"], 1, "neither pcap nor pcapng"),
        ([network, "text"], 1, "neither pcap nor pcapng"),
        ([network, "cut.gz"], 1, "is cut or broken"),
        ([network, "short.pcapng"], 1, "a block that is too short"),
        ([network, "section.pcapng"], 1, "a section's head of 4 octets"),
        ([network, "broken.pcapng"], 1, "interface that it does not describe"),
        ([network, "good.pcap", "--ports", "99999"], 2, "from 1 to 65535"),
        ([network, "good.pcap", "--ports", "5004-"], 2, "from 1 to 65535"),
        ([network, "good.pcap", "--ports", "5006-5004"], 2, "goes backward"),
        ([network, "good.pcap", "--ports", "x"], 2, "from 1 to 65535"),
        ([network, "good.pcap", "--ports", "6000"], 1, "no RTP was found"),
        ([network, "good.pcap", "-o", "none/out"], 1, "none/out: no such file or directory"),
        ([network, "good.pcap", "-o", "out", "--roster", "none/out"], 1, "none/out: no such file or directory"),
        (["from-sound", "pcmu:1", "0"], 1, "for each stream"),
        (["from-sound", "pcmu:1", "0", "none.wav"], 1, "none.wav: no such file or directory"),
        (["from-sound", "pcmu:1", "0", "talk.flac"], 1, "sox talk.flac"),
        (["from-sound", "pcmu:1", "0", "24.wav"], 1, "16 bits"),
        (["from-sound", "pcmu:1", "0", "fast.wav"], 1, "8,000 samples"),
        (["from-sound", "pcmu:1", "0", "two.wav"], 1, "one channel"),
        (["from-sound", "pcmu:1", "0", "law.wav"], 1, "no wav file of 16-bit samples"),
        (["from-sound", "pcmu:1", "0", "nothing"], 1, "no wav file"),
        (["from-sound", "pcmu:4294967296", "0", "good.wav"], 1, "4294967295"),
        (["from-sound", "pcmu:1", "-5", "good.wav"], 1, "from 0 to 86400000"),
        (["from-sound", "opus:1", "0", "good.wav"], 1, "give pcmu:SSRC"),
        (["from-sound", "pcmu:1", "0", "good.wav", "pcmu:1", "50", "good.wav"], 1, "still speaks then"),
        (["from-sound", "g726-32:100:1", "0", "good.wav", "--g726", "./none"], 1, "give the program g726"),
        (["streams", "good.pcap"], 1, "not a capture"),
        (["streams", "cut.capture"], 1, "cut inside the record"),
        (["listeners", "good.pcap"], 1, "not a capture"),
        (["listeners", os.path.join(SESSIONS, "speech.capture")], 1, "no answer of the bridge"),
        (["payloads", answer, "9"], 1, "nobody is sent SSRC 9"),
        (["payloads", answer, "0x7D1", "2"], 1, "has 1 listeners"),
        (["payloads", answer, "0x7g"], 2, "decimal number"),
        (["payloads", answer, "2001", "-o", "/dev/full"], 1, "no space left on device"),
        (["to-wav", answer, "--into", "text", "--g726", "true"], 1, "file exists"),
        (["to-wav", answer, "--into", "wavs", "--g726", "./none"], 1, "give the program g726"),
        (["play", answer, "--to", "nowhere"], 2, "ADDRESS:PORT"),
        (["play", answer, "--to", "127.0.0.1:0"], 2, "from 1 to 65535"),
        (["play", answer, "--to", "no.such.host.invalid:5004"], 1, "no.such.host.invalid"),
        (["heard", "roster", "cut.capture"], 1, "line 1 is no command"),
        (["heard", "none", "cut.capture"], 1, "none: no such file or directory"),
    ):
        into = ["-o", "out"] if words and words[0] in (network, "from-sound", "payloads") and "-o" not in words else []
        code, out, err = run(*words, *into, folder=folder)
        right = code == status and says in err and "Traceback" not in err and err.count("\n") <= (9 if status == 2 else 4)
        check(f"the mistake {' '.join(words)}", right and not os.path.exists(os.path.join(folder, "out")), f"{code} {err[-700:]}")
    left = [name for name in os.listdir(folder) if name.startswith((".capture", "out"))]
    check("nothing half-made stays behind", not left, left)


def interrupted(folder):
    """A converter that is ended while its input still comes leaves nothing behind; one whose reader goes away says nothing."""
    made = pcap([(20 * n, ethernet(ip4(udp(rtp(n))))) for n in range(1000)], 1)  # more than a pipe holds, so it is being read
    for ending in (signal.SIGTERM, signal.SIGINT, signal.SIGKILL):
        with subprocess.Popen([sys.executable, TOOL, "from-network", "-", "-o", "half"], stdin=subprocess.PIPE, stderr=subprocess.PIPE, cwd=folder) as process:
            process.stdin.write(made)
            process.stdin.flush()
            process.send_signal(ending)
            process.stdin.close()
            said = process.stderr.read().decode()
        left = [name for name in os.listdir(folder) if name.startswith((".capture", "half"))]
        check(f"{ending.name} leaves nothing", not left and "Traceback" not in said, f"{left} {said}")
    done = subprocess.run(
        f"{sys.executable} {TOOL} to-pcap {SESSIONS}/conference.answer | head -c 1 | wc -c", shell=True, capture_output=True
    )
    check("a reader that goes away", b"Traceback" not in done.stderr and b"Exception" not in done.stderr, done.stderr)


def helps(_):
    code, out, _ = run("--help")
    check("--help", code == 0 and b"from-network" in out)
    for name in "from-network from-sound streams heard listeners payloads to-pcap to-wav play".split():
        code, out, err = run(name, "--help")
        check(f"{name} --help", code == 0 and b"usage: bridge-captures" in out, err)


PARTS = [helps, kinds_of_recordings, fragments, files_and_ports, clocks, rosters, ways_back, mistakes, interrupted]


def main():
    names = sys.argv[2:] or [part.__name__ for part in PARTS]
    for part in PARTS:
        if part.__name__ in names:
            with tempfile.TemporaryDirectory() as folder:
                part(folder)
    print(f"captures: {passed} passed, {failed} failed")
    return 1 if failed or not passed else 0


sys.exit(main())
