"""Speech as codes of ITU-T G.711 and G.726, from sound files of 16-bit samples, one channel, 8,000 a second."""
import bisect
import struct
import wave
from typing import NamedTuple

from .codec import OCTETS, g726
from .rtpdump import Fault

FRAME = 160


def values(law):
    """The 14-bit value of each code, by ITU-T G.711."""
    for code in range(256):
        bits = code ^ (0xFF if law == "pcmu" else 0x55)
        exponent, mantissa = bits >> 4 & 7, bits & 15
        if law == "pcmu":
            magnitude = ((2 * mantissa + 33) << exponent) - 33
            yield -magnitude if bits & 0x80 else magnitude
        else:
            magnitude = 2 * (2 * mantissa + 1 if exponent == 0 else (2 * mantissa + 33) << exponent - 1)
            yield magnitude if bits & 0x80 else -magnitude


MAGNITUDES = {law: [abs(value) for value in values(law)] for law in ("pcmu", "pcma")}
PAYLOAD_TYPES = {"pcmu": 0, "pcma": 8}
RATES = {f"g726-{rate}": rate for rate in OCTETS}


class Talk(NamedTuple):
    """What a talker sends: the name of its codes (`pcmu`, `g726-32`), and its packets' payload type and SSRC."""

    codes: str
    payload_type: int
    source: int


def loudness(law, codes):
    """The loudness of a frame of 160 samples like these."""
    table = MAGNITUDES[law]
    return sum(table[code] for code in codes) * FRAME // max(1, len(codes))


def coder(law):
    """Gives 16-bit samples the codes whose values are nearest to a fourth of them."""
    table = sorted((value, code) for code, value in enumerate(values(law)))
    limits = [2 * (low[0] + high[0]) for low, high in zip(table, table[1:])]
    return lambda samples: bytes(table[bisect.bisect_right(limits, sample)][1] for sample in samples)


def samples_of(path):
    hint = f"make one by: sox {path} -r 8000 -c 1 -b 16 -e signed OUT.wav"
    try:
        with wave.open(path, "rb") as file:
            if (file.getnchannels(), file.getsampwidth(), file.getframerate()) != (1, 2, 8000):
                raise Fault(f"{path}: not of one channel, 16 bits and 8,000 samples a second; {hint}")
            octets = file.readframes(file.getnframes())
    except OSError as error:
        raise Fault(f"{path}: {error.strerror.lower()}") from None
    except (wave.Error, EOFError):
        raise Fault(f"{path}: no wav file of 16-bit samples; {hint}") from None
    return struct.unpack(f"<{len(octets) // 2}h", octets)


def frames(talk, parts, program):
    """Time and payload of each 20 ms that a talker says in these parts, by one encoder from its first part on."""
    times = [start + at // 8 for start, samples in parts for at in range(0, len(samples), FRAME)]
    samples = [sample for _, part in parts for sample in part]
    if talk.codes in PAYLOAD_TYPES:
        octets, size = coder(talk.codes)(samples), FRAME
    else:
        rate = RATES[talk.codes]
        octets, size = g726(program, "encode", rate, struct.pack(f"<{len(samples)}h", *samples)), OCTETS[rate]
    return [(time, octets[size * place : size * (place + 1)]) for place, time in enumerate(times)]


def packets(streams, program):
    """Offset and RTP packet of each 20 ms of speech: streams are (Talk, start in ms, path of a wav file)."""
    parts, until, spoken = {}, {}, []
    for talk, start, path in streams:
        samples = samples_of(path)
        samples += (0,) * (-len(samples) % FRAME)
        begin, end = start, start + len(samples) // 8
        for other in until.setdefault(talk.source, []):
            if begin < other[1] and other[0] < end:
                raise Fault(f"{path}: SSRC {talk.source} still speaks then, from {other[0]} to {other[1]} ms")
        until[talk.source].append((begin, end))
        parts.setdefault(talk, []).append((start, samples))
    for talk in parts:
        parts[talk].sort(key=lambda part: part[0])
        spoken.extend((time, talk, payload) for time, payload in frames(talk, parts[talk], program))
    spoken.sort(key=lambda frame: (frame[0], frame[1].source))
    number, ended = {}, {}
    for time, talk, payload in spoken:
        source = talk.source
        marker = 0x80 if ended.get(source) != time else 0
        ended[source] = time + FRAME // 8
        number[source] = number.get(source, -1) + 1
        yield time, struct.pack(">BBHII", 0x80, marker | talk.payload_type, number[source] & 0xFFFF, 8 * time & 0xFFFFFFFF, source) + payload
