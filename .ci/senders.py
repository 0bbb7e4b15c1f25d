#!/usr/bin/env python3
"""usage: senders.py BRIDGE

From senders to a listener's ear: ffmpeg and GStreamer send three streams over IPv6, a relay here puts them on the loopback in frames with a
VLAN tag, dumpcap takes them into a pcapng, bridge-captures makes a capture and a roster of it, BRIDGE runs the session, and tshark has to find
each listener of the roster in what to-pcap makes of the answer: its SSRC, a packet for each tick, and none lost.

It takes some ten seconds. Exit status 0: all held; 1: something didn't; 77: a tool or a right is missing, which is said.
"""
import os
import shutil
import socket
import struct
import subprocess
import sys
import tempfile
import threading
import time

TOP = os.path.dirname(os.path.dirname(os.path.abspath(__file__)))
TOOL = [sys.executable, os.path.join(TOP, "tools", "bridge-captures")]
SECONDS, VLAN, FIRST = 5, 42, 30004
HERE = socket.inet_pton(socket.AF_INET6, "::1")


def skipped(why):
    print(f"senders: skipped, {why}")
    sys.exit(77)


def ffmpeg(port, source, law):
    sound = f"sine=frequency={200 + source}:sample_rate=8000:duration={SECONDS}"
    codes = ["-af", "volume=4,asetnsamples=n=160", "-c:a", law, "-ssrc", str(source), "-f", "rtp", f"rtp://[::1]:{port}"]
    return ["ffmpeg", "-v", "error", "-re", "-f", "lavfi", "-i", sound, *codes]


def gstreamer(port, source):
    sound = f"audiotestsrc is-live=true num-buffers={50 * SECONDS} samplesperbuffer=160 ! audio/x-raw,rate=8000,channels=1"
    payer = f"alawenc ! rtppcmapay ssrc={source} min-ptime=20000000 max-ptime=20000000"
    return ["gst-launch-1.0", "-q", *f"{sound} ! {payer} ! udpsink host=::1 port={port}".split()]


def frame(octets, source, port):
    """An Ethernet frame with a VLAN tag, of IPv6 and UDP."""
    head = struct.pack(">HHHH", source, port, 8 + len(octets), 0)
    total = sum(struct.unpack(f">{len(HERE + HERE) // 2}H", HERE + HERE)) + len(head) + len(octets) + 17
    padded = head + octets + bytes(len(octets) % 2)
    total += sum(struct.unpack(f">{len(padded) // 2}H", padded))
    while total >> 16:
        total = (total & 0xFFFF) + (total >> 16)
    head = head[:6] + struct.pack(">H", ~total & 0xFFFF or 0xFFFF)
    ip = struct.pack(">IHBB", 6 << 28, len(head) + len(octets), 17, 64) + HERE + HERE
    return bytes(12) + struct.pack(">HHH", 0x8100, VLAN, 0x86DD) + ip + head + octets


def relay(receiver, out, port, ended):
    while not ended.is_set():
        try:
            octets, sender = receiver.recvfrom(4096)
        except socket.timeout:
            continue
        out.send(frame(octets, sender[1], port))


def recorded(path):
    """Runs the senders, and gives the file that dumpcap wrote of them."""
    try:
        out = socket.socket(socket.AF_PACKET, socket.SOCK_RAW)
        out.bind(("lo", 0))
    except (AttributeError, OSError) as error:
        skipped(f"frames can't be put on the loopback ({error})")
    dumpcap = subprocess.Popen(["dumpcap", "-q", "-i", "lo", "-f", "ip6 or vlan", "-w", path], stderr=subprocess.PIPE, text=True)
    said = dumpcap.stderr.readline() + dumpcap.stderr.readline()
    if "File:" not in said:
        dumpcap.kill()
        skipped(f"dumpcap can't capture: {said}")
    ended, senders = threading.Event(), []
    for number in range(3):
        receiver = socket.socket(socket.AF_INET6, socket.SOCK_DGRAM)
        receiver.bind(("::1", 0))
        receiver.settimeout(0.2)
        threading.Thread(target=relay, args=(receiver, out, FIRST + 2 * number, ended)).start()
        port, source = receiver.getsockname()[1], 1001 + number
        command = gstreamer(port, source) if number == 2 else ffmpeg(port, source, ("pcm_mulaw", "pcm_alaw")[number])
        senders.append(subprocess.Popen(command, stdin=subprocess.DEVNULL, stdout=subprocess.DEVNULL))
    for sender in senders:
        sender.wait(60)
    time.sleep(1)
    ended.set()
    dumpcap.terminate()
    dumpcap.communicate(timeout=20)


def done(*words, **how):
    ran = subprocess.run(words, capture_output=True, **how)
    if ran.returncode:
        sys.exit(f"senders: {' '.join(words)}: {ran.stderr.decode()}")
    return ran


def main(bridge):
    for tool in ("dumpcap", "tshark", "ffmpeg", "gst-launch-1.0"):
        shutil.which(tool) or skipped(f"{tool} isn't installed")
    try:
        import dpkt  # noqa: F401
    except ImportError:
        skipped("dpkt isn't installed")
    os.access(bridge, os.X_OK) or skipped(f"no program at {bridge}")
    with tempfile.TemporaryDirectory() as folder:
        name = os.path.join(folder, "call")
        recorded(name + ".pcapng")
        ports = f"{FIRST}-{FIRST + 4}"
        said = done(*TOOL, "from-network", name + ".pcapng", "--ports", ports, "--retime", "-o", name + ".capture", "--roster", name + ".roster").stderr.decode()
        with open(name + ".capture", "rb") as capture:
            ran = done(bridge, "alone", name + ".roster", stdin=capture)
        with open(name + ".answer", "wb") as answer:
            answer.write(ran.stdout)
        line = ran.stderr.decode().split()
        to_pcap = done(*TOOL, "to-pcap", name + ".answer", "-o", name + "-back.pcap")
        decoded = [word for port in range(20000, 20006, 2) for word in ("-d", f"udp.port=={port},rtp")]
        listed = done("tshark", "-r", name + "-back.pcap", *decoded, "-q", "-z", "rtp,streams").stdout.decode()
        rows = [row for row in listed.splitlines() if " 0x" in row]
        with open(name + ".roster") as roster:
            joins = [words for words in map(str.split, roster) if len(words) > 1 and words[1] == "join"]
    wanted = {int(words[6]): int(line[1]) - int(words[0]) // 20 for words in joins}
    found = {int(row.split(" 0x")[1].split()[0], 16): row for row in rows}
    right = len(joins) == 3 and set(found) == set(wanted) and all(words[3].startswith("pcm") for words in joins)
    for source, ticks in wanted.items():
        words = found.get(source, "").split()
        right &= str(ticks) in words and "0" in words and "(0.0%)" in words
    right &= said.count("lost 0,") == 3
    if not right:
        print(said, " ".join(line), to_pcap.stderr.decode(), listed, sep="\n")
    print(f"senders: three streams over VLAN and IPv6, {' '.join(line)}; tshark lists {len(found)} listeners without loss" if right else "senders: failed")
    return 0 if right else 1


if len(sys.argv) != 2:
    sys.exit(__doc__)
sys.exit(main(sys.argv[1]))
