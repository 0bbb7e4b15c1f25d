#!/usr/bin/env python3
"""usage: bench/lost_speech.py [--short] [BRIDGE [G726]]

Says how much of recorded speech is silent in an answer, without and with `bridge-captures from-network --retime`, where the sender's clock
and the recorder's drift apart, packets waver, are large and late, or ffmpeg sends them with a stalled start.

Speech is the lecture of examples/sessions, again and again, with its pauses, by one talker of mu-law to one listener at 40 kbit/s. A
frame is 20 ms; it is loud where the bridge would let it be heard, and silent where less than half of it is in the answer. What is
counted is what `bridge-captures heard` says, and that is compared with the answer that BRIDGE makes: each of its payloads has to be what
G726 makes of the frames that are said to be heard. Recordings are pcap files, which the converter reads.

--short takes three minutes, with ten times the drift, in place of half an hour, and ends with 1 where over 1 % is silent with --retime.
ffmpeg is run in real time, for 40 seconds, where it is installed. A line is NAME, frames sent, loud ones, and how many of these are
silent without and with --retime; lines go to standard output as a table.
"""
import os
import random
import socket
import struct
import subprocess
import sys
import tempfile
import time
import wave
from array import array
from itertools import cycle

TOP = os.path.dirname(os.path.dirname(os.path.abspath(__file__)))
sys.path.insert(0, os.path.join(TOP, "tools"))
from captures.heard import FRAME, HOLE, Session  # noqa: E402
from captures.rtpdump import open_input, records  # noqa: E402
from captures.sound import values  # noqa: E402
from captures.streams import rtp  # noqa: E402

SOURCE, MOST = 1001, 0.01
VALUES = [4 * value for value in values("pcmu")] + [0]
BEGIN = 1764600000


def lecture():
    """The lecture's speech of SSRC 1001, as codes of 20 ms, with its pauses."""
    path = os.path.join(TOP, "examples/sessions/lecture.capture")
    said, until = [], 0
    with open_input(path) as file:
        for offset, _, octets in records(file, path):
            packet = rtp(octets)
            if packet.source == SOURCE:
                said += [b"\xff" * FRAME] * ((offset - until) // 20) + [packet.payload]
                until = offset + 20
    return said


def packets(seconds, size):
    """Timestamp and payload of each packet of `size` samples."""
    source = cycle(lecture())
    whole = b"".join(next(source) for _ in range(50 * seconds))
    return [(at, whole[at : at + size]) for at in range(0, len(whole), size)]


def datagram(number, stamp, payload, kind=0):
    octets = struct.pack(">BBHII", 0x80, kind, number & 0xFFFF, stamp & 0xFFFFFFFF, SOURCE) + payload
    udp = struct.pack(">HHHH", 40000, 5004, 8 + len(octets), 0) + octets
    return struct.pack(">BBHHHBBHII", 0x45, 0, 20 + len(udp), 0, 0, 64, 17, 0, 0x7F000001, 0x7F000001) + udp


def pcap(path, frames):
    """Frames are (seconds, IP packet)."""
    with open(path, "wb") as file:
        file.write(struct.pack("<IHHiIII", 0xA1B2C3D4, 2, 4, 0, 0, 65535, 101))
        for moment, octets in frames:
            second, part = divmod(round(moment * 1e6), 10**6)
            file.write(struct.pack("<IIII", BEGIN + second, part, len(octets), len(octets)) + octets)


def drifting(seconds, millionths, jitter):
    """Packets of 20 ms of a sender whose clock is slow, each up to `jitter` ms late."""
    draws = random.Random(1)
    came = [(at / 8000 * (1 + millionths / 1e6) + draws.uniform(0, jitter) / 1000, n, at, payload) for n, (at, payload) in enumerate(packets(seconds, 160))]
    return [(moment, datagram(n, at, payload)) for moment, n, at, payload in sorted(came)]


def large(seconds, late):
    """Packets of 128 ms, of which all but the first come `late` ms late."""
    return [(at / 8000 + (late / 1000 if n else 0), datagram(n, at, payload)) for n, (at, payload) in enumerate(packets(seconds, 1024))]


def ffmpeg(seconds, folder, words):
    """What ffmpeg sends of a sound file over loopback, as it comes."""
    path = os.path.join(folder, "talk.wav")
    with wave.open(path, "wb") as file:
        file.setnchannels(1)
        file.setsampwidth(2)
        file.setframerate(8000)
        codes = b"".join(payload for _, payload in packets(seconds, 160))
        file.writeframes(array("h", map(VALUES.__getitem__, codes)).tobytes())
    if words.pop(0) == "flac":
        subprocess.run(["ffmpeg", "-v", "error", "-y", "-i", path, path[:-3] + "flac"], check=True)
        path = path[:-3] + "flac"
    frames, receiver = [], socket.socket(socket.AF_INET, socket.SOCK_DGRAM)
    receiver.bind(("127.0.0.1", 0))
    receiver.settimeout(3)
    before = words[: words.index("-i")]
    after = words[words.index("-i") + 1 :]
    target = f"rtp://127.0.0.1:{receiver.getsockname()[1]}"
    command = ["ffmpeg", "-v", "error", *before, "-i", path, *after, "-c:a", "pcm_mulaw", "-ar", "8000", "-ssrc", str(SOURCE), "-f", "rtp", target]
    with subprocess.Popen(command, stdout=subprocess.DEVNULL, stdin=subprocess.DEVNULL) as sender:
        begun = time.time()
        while True:
            try:
                octets = receiver.recv(4096)
            except socket.timeout:
                if sender.poll() is not None or time.time() - begun > seconds + 60:
                    break
                continue
            if octets[1] & 127 == 0:
                number, stamp = struct.unpack_from(">HI", octets, 2)
                frames.append((time.time() - begun, datagram(number, stamp, octets[12:])))
    return frames


class Judge:
    def __init__(self, folder, bridge, coder):
        self.folder, self.bridge, self.coder = folder, bridge, coder

    def silent(self, path, retime):
        """Frames, loud ones, and how many of these are silent in the answer, which has to agree."""
        base = os.path.join(self.folder, "session")
        tool = [sys.executable, os.path.join(TOP, "tools/bridge-captures")]
        convert = [*tool, "from-network", path, "-o", base + ".capture"] + ["--retime"] * retime
        done = subprocess.run(convert, capture_output=True, text=True)
        if done.returncode:
            sys.exit(done.stderr)
        with open_input(base + ".capture") as file:
            end = max(offset for offset, _, _ in records(file, path)) + 300
        with open(base + ".roster", "w") as file:
            file.write(f"0 join 1 pcmu:{SOURCE} -\n0 join 2 - 40 99 2 0 0\n{end} end\n")
        session, mixes = Session(base + ".roster"), []
        session.run(base + ".capture", lambda tick, chosen: mixes.append(chosen[0][1] if chosen else None))
        self.compare(base, mixes)
        return (len(session.talkers[0].sent), *session.talkers[0].loud_frames())

    def compare(self, base, mixes):
        if not self.bridge:
            return
        silence = array("H", [HOLE]) * FRAME
        samples = array("h")
        for frame in mixes:
            samples.extend(array("h", map(VALUES.__getitem__, frame or silence)))
        right = subprocess.run([self.coder, "encode", "40"], input=samples.tobytes(), capture_output=True, check=True).stdout
        with open(base + ".capture", "rb") as file:
            answer = subprocess.run([self.bridge, "alone", base + ".roster"], stdin=file, capture_output=True, check=True).stdout
        got = b"".join(answer[at + 20 : at + 120] for at in range(39, len(answer), 120))
        if got != right:
            sys.exit(f"{base}: the answer isn't what the frames that are heard make")

    def row(self, name, frames):
        path = os.path.join(self.folder, "recording.pcap")
        pcap(path, frames)
        sent, loud, plain = self.silent(path, False)
        _, _, mended = self.silent(path, True)
        print(f"| {name} | {sent} | {loud} | {plain} ({100 * plain / loud:.1f} %) | {mended} ({100 * mended / loud:.1f} %) |", flush=True)
        return mended <= MOST * loud


def main(words):
    short = "--short" in words
    words = [word for word in words if word != "--short"]
    if len(words) > 2 or any(word.startswith("-") for word in words):
        sys.exit(__doc__)
    bridge = words[0] if words else os.path.join(TOP, "crates/bridge_cli/out/bridge_cli")
    coder = words[1] if len(words) > 1 else os.path.join(TOP, "crates/g726_cli/out/g726_cli")
    if not (os.access(bridge, os.X_OK) and os.access(coder, os.X_OK)):
        print("no programs: what is heard is only followed by its rules", file=sys.stderr)
        bridge = None
    seconds, faster, right = (180, 10, True) if short else (1800, 1, True)
    print("| Recording | Frames | Loud | Silent | Silent with `--retime` |\n|---|---|---|---|---|")
    with tempfile.TemporaryDirectory() as folder:
        judge = Judge(folder, bridge, coder)
        for millionths, jitter in ((60, 15), (200, 30), (-200, 30)):
            name = f"{millionths * faster:+} ppm, up to {jitter} ms of jitter, {seconds // 60} minutes"
            right &= judge.row(name, drifting(seconds, millionths * faster, jitter))
        right &= judge.row(f"packets of 128 ms that come 150 ms late, {seconds // 60} minutes", large(seconds, 150))
        if not short and subprocess.run(["sh", "-c", "command -v ffmpeg"], stdout=subprocess.DEVNULL).returncode == 0:
            for kind, sends in (("flac", "-re -i"), ("flac", "-i"), ("wav", "-re -i"), ("wav", "-re -i -af asetnsamples=n=160")):
                right &= judge.row(f"`ffmpeg {sends.replace('-i', f'-i talk.{kind}')}`, 40 seconds", ffmpeg(40, folder, [kind, *sends.split()]))
    return 0 if right else 1


sys.exit(main(sys.argv[1:]))
