#!/usr/bin/env python3
"""What a talker's clock that runs slow or fast costs in a long session: how many of its loud frames a listener hears as silence.

    bench/drift.py [--hours H] [--program BRIDGE] [--codec G726] [--ppm 20,60,200] [--jitter 0,15,40] [--resync]

One talker sends packets of 20 ms of mu-law without a pause, eight seconds loud and two silent in turn, by a clock that is wrong by so many
millionths; each packet comes up to so many ms later by chance. `bridge alone` gives one listener its G.726 at 40 kbit/s, `g726` decodes it, and
frames that should be loud and aren't are counted. With --resync the talker sets its timestamps anew at the begin of each loud stretch, to what
the bridge's clock says. The programs are those that the gate built, and the draws are the same each time. Nothing here is proved.
"""
import argparse
import array
import os
import random
import struct
import subprocess
import sys
import tempfile

TOP = os.path.join(os.path.dirname(os.path.realpath(__file__)), "..")
HEAD = b"#!rtpplay1.0 0.0.0.0/0\n" + bytes(16)
LOUD, ROUND = 400, 500  # packets
TONE, QUIET = bytes([0x10, 0x90] * 80), bytes([0xFF] * 160)
LEAST = 40_000  # of a loud frame, decoded, on the scale of 16 bits


def capture(path, seconds, ppm, jitter, resync):
    """Writes what comes; gives the number of loud packets. A positive ppm is a clock that is slow: its packets come later and later."""
    chance, coming = random.Random(1), []
    stamp = shift = loud = 0
    for number in range(int(50 * seconds / (1 + ppm / 1e6))):
        true = 20 * number * (1 + ppm / 1e6)  # ms, by the bridge's clock
        place = number % ROUND
        if resync and place == 0:
            shift = round(8 * true) - 160 * number
        stamp = 160 * number + shift
        loud += place < LOUD
        head = struct.pack(">BBHII", 0x80, 0x80 if place == 0 else 0, number & 0xFFFF, stamp & 0xFFFFFFFF, 1001)
        coming.append((int(true + chance.uniform(0, jitter)), head + (TONE if place < LOUD else QUIET)))
    coming.sort(key=lambda one: one[0])
    with open(path, "wb") as file:
        file.write(HEAD)
        for offset, octets in coming:
            file.write(struct.pack(">HHI", len(octets) + 8, len(octets), offset) + octets)
    return loud


def payloads(path, into):
    with open(path, "rb") as file, open(into, "wb") as out:
        file.read(len(HEAD))
        while head := file.read(8):
            out.write(file.read(int.from_bytes(head[:2], "big") - 8)[12:])


def heard(path):
    """For each frame whether it is loud."""
    found = []
    with open(path, "rb") as file:
        while part := file.read(320):
            samples = array.array("h", part)
            if sys.byteorder == "big":
                samples.byteswap()
            found.append(sum(map(abs, samples)) >= LEAST)
    return found


def measured(words, folder, ppm, jitter, resync):
    seconds = int(3600 * words.hours)
    name = lambda end: os.path.join(folder, end)  # noqa: E731
    with open(name("roster"), "w") as file:
        file.write(f"0 join 1 pcmu:1001 -\n0 join 2 - 40 99 2002 0 0\n{1000 * seconds} end\n")
    sent = capture(name("capture"), seconds, ppm, jitter, resync)
    with open(name("capture"), "rb") as given, open(name("answer"), "wb") as out:
        done = subprocess.run([words.program, "alone", name("roster")], stdin=given, stdout=out, stderr=subprocess.PIPE, text=True, check=True)
    payloads(name("answer"), name("codes"))
    with open(name("codes"), "rb") as given, open(name("samples"), "wb") as out:
        subprocess.run([words.codec, "decode", "40"], stdin=given, stdout=out, check=True)
    loud = heard(name("samples"))
    minutes = [sum(loud[at : at + 3000]) for at in range(0, len(loud) - 2999, 3000)]
    usual = 3000 * LOUD // ROUND
    first = next((minute for minute, count in enumerate(minutes[1:], 1) if count < usual - 10), None)
    return sent - sum(loud), usual - min(minutes[1:-1] or minutes), first, usual, done.stderr.split()[7]


def numbers(text):
    return [int(word) for word in text.split(",")]


def main():
    top = argparse.ArgumentParser(description=__doc__, formatter_class=argparse.RawDescriptionHelpFormatter)
    top.add_argument("--hours", type=float, default=4)
    top.add_argument("--program", default=f"{TOP}/crates/bridge_cli/out/bridge_cli")
    top.add_argument("--codec", default=f"{TOP}/crates/g726_cli/out/g726_cli")
    top.add_argument("--ppm", type=numbers, default=[20, 60, 200])
    top.add_argument("--jitter", type=numbers, default=[0, 15, 40])
    top.add_argument("--resync", action="store_true")
    words = top.parse_args()
    for program in (words.program, words.codec):
        if not os.access(program, os.X_OK):
            sys.exit(f"drift: no program at {program}")
    print("| Clock | ppm | Jitter, ms | Loud frames lost an hour | of them, % | Worst minute, % | First after, minutes | Refused |")
    print("|---|---|---|---|---|---|---|---|")
    with tempfile.TemporaryDirectory() as folder:
        for way, sign in (("slow", 1), ("fast", -1)):
            for ppm in words.ppm:
                for jitter in words.jitter:
                    lost, worst, first, usual, refused = measured(words, folder, sign * ppm, jitter, words.resync)
                    share = 100 * lost / (3600 * 50 * LOUD / ROUND * words.hours)
                    print(f"| {way} | {ppm} | {jitter} | {lost / words.hours:.0f} | {share:.2f} | {100 * worst / usual:.0f} | {'-' if first is None else first} | {refused} |", flush=True)


main()
