#!/usr/bin/env bash
# A bridge behind a bridge: whoever is sent G.726 by one conference may talk with it in another.
# The answer of the session `conference` is given to `bridge alone` again as a capture. In the second session one listener of the first,
# at each of the four rates in turn, is the only talker (`g726-RATE:PT:SSRC`), and the one listener is sent 40 kbit/s.
# What it is sent has to be what `g726` makes of the first session's payloads: decoded, silent where a frame is below the gate, and
# encoded anew, four ticks later. The sound of both lies in FOLDER as relay_RATE.s16 (16 bits, low octet first, 8,000 a second).
# usage: examples/relay.sh FOLDER   (needs python3, and both programs in crates/*/out)
set -u
top=$(cd "$(dirname "$0")/.." && pwd)
into=${1:?usage: examples/relay.sh FOLDER}
exec python3 - "$top" "$into" <<'PYTHON'
import array
import os
import subprocess
import sys

top, into = sys.argv[1:]
BRIDGE, G726 = (os.path.join(top, "crates", name, "out", name) for name in ("bridge_cli", "g726_cli"))
FRAME, GATE, END = 160, 1600, 9000
sys.path.insert(0, os.path.join(top, "tools"))


def said(program, *words, given):
    return subprocess.run([program, *words], input=given, stdout=subprocess.PIPE, stderr=subprocess.DEVNULL, check=True).stdout


def payloads(answer, ssrc):
    """The payloads to one SSRC, in order, out of an rtpdump file."""
    at, found = answer.index(b"\n") + 17, []
    while at < len(answer):
        length = int.from_bytes(answer[at : at + 2], "big")
        packet = answer[at + 8 : at + length]
        if int.from_bytes(packet[8:12], "big") == ssrc:
            found.append(packet[12:])
        at += length
    return found


def frames(octets):
    samples = array.array("h", octets)
    if sys.byteorder == "big":
        samples.byteswap()
    return [samples[i : i + FRAME] for i in range(0, len(samples), FRAME)]


def octets_of(some):
    whole = array.array("h")
    for frame in some:
        whole.extend(frame)
    if sys.byteorder == "big":
        whole.byteswap()
    return whole.tobytes()


with open(os.path.join(top, "examples/sessions/conference.answer"), "rb") as file:
    first = file.read()
silence, failed = array.array("h", [0] * FRAME), 0
for rate, payload_type, ssrc in (("16", 96, 2001), ("24", 97, 2002), ("32", 98, 2003), ("40", 99, 2004)):
    roster = f"0 join 1 g726-{rate}:{payload_type}:{ssrc} -\n0 join 2 - 40 99 1 0 0\n{END} end\n"
    name = os.path.join(into, f"relay_{rate}.roster")
    with open(name, "w") as file:
        file.write(roster)
    second = payloads(said(BRIDGE, "alone", name, given=first), 1)
    heard = frames(said(G726, "decode", rate, given=b"".join(payloads(first, ssrc))))
    heard = [f if sum(abs(x) // 4 for x in f) >= GATE else silence for f in heard]
    sound = said(G726, "decode", "40", given=b"".join(second))
    with open(os.path.join(into, f"relay_{rate}.s16"), "wb") as file:
        file.write(sound)
    size = FRAME * 5 // 8
    for before in range(len(second)):
        due = ([silence] * before + heard + [silence] * len(second))[: len(second)]
        coded = said(G726, "encode", "40", given=octets_of(due))
        if [coded[i : i + size] for i in range(0, len(coded), size)] == second:
            print(f"at {rate} kbit/s: {len(second)} payloads as they have to be, the first sound {before} ticks after the session's begin")
            break
    else:
        print(f"at {rate} kbit/s: the payloads differ")
        failed += 1
sys.exit(1 if failed else 0)
PYTHON
