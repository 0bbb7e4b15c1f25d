#!/usr/bin/env python3
"""Moves a session to a later time: later_session.py MILLISECONDS ROSTER CAPTURE ANSWER INTO

Writes INTO.roster, INTO.capture and INTO.answer: each command, each record that the capture has and each packet that was sent is so many
milliseconds later, and all else is as it was. A bridge that is given the first two has to write the third, whenever that may be: its
members come so much later, and nothing else happened before.
"""
import struct
import sys


def later_roster(text, by):
    for line in text.split(b"\n"):
        words = line.split(None, 1)
        if words and words[0].isdigit():
            yield b" ".join([b"%d" % (int(words[0]) + by)] + words[1:])
        else:
            yield line


def later_records(octets, by):
    """The line and the file head, and each whole record moved; what follows the first broken one is left as it is."""
    at = octets.index(b"\n") + 17
    yield octets[:at]
    while at + 8 <= len(octets):
        length, on_wire, offset = struct.unpack_from(">HHI", octets, at)
        if length < 8 or at + length > len(octets):
            break
        yield struct.pack(">HHI", length, on_wire, min(offset + by, 0xFFFFFFFF)) + octets[at + 8 : at + length]
        at += length
    yield octets[at:]


def main(by, roster, capture, answer, into):
    def read(path):
        with open(path, "rb") as file:
            return file.read()

    def write(path, pieces):
        with open(path, "wb") as file:
            file.writelines(pieces)

    write(into + ".roster", [b"\n".join(later_roster(read(roster), by))])
    write(into + ".capture", later_records(read(capture), by))
    write(into + ".answer", later_records(read(answer), by))


main(int(sys.argv[1]), *sys.argv[2:])
