"""Says where octets first differ from an answer, apart from the program `audit`, and compares what the program says.

usage: audit.py PROGRAM ROSTER CAPTURE ANSWER SCRATCH

ANSWER is the right answer of the session. Its records are read here, and each is given to the member that was sent it: the listener of
the roster with its SSRC whose next payload type, sequence number and timestamp it has. The program is then run on the answer with each
octet changed in turn (all of the first packets, and after them each seventh), cut at such lengths, and with octets more.
"""

import os
import subprocess
import sys

HEAD = 39
ALL_TO = 450


class Listener:
    def __init__(self, time, member, words):
        self.time = time
        self.member = member
        self.type = int(words[1])
        self.ssrc = int(words[2])
        self.number = int(words[3])
        self.stamp = int(words[4])
        self.step = 160 * (int(words[5]) if len(words) > 5 else 1)

    def has(self, packet, tick):
        return (
            self.time <= 20 * (tick + 1)
            and packet[1] & 127 == self.type
            and int.from_bytes(packet[2:4], "big") == self.number
            and int.from_bytes(packet[4:8], "big") == self.stamp
            and int.from_bytes(packet[8:12], "big") == self.ssrc
        )

    def go_on(self):
        self.number = (self.number + 1) % 2**16
        self.stamp = (self.stamp + self.step) % 2**32


def listeners_of(roster):
    found = []
    for line in roster.decode("latin-1").split("\n"):
        words = line.split()
        if len(words) > 4 and words[1] == "join" and words[4] != "-":
            found.append(Listener(int(words[0]), int(words[2]), words[4:]))
    return found


def records_of(answer, listeners):
    """Each record's begin and end, its tick, and its member."""
    records = []
    place = HEAD
    while place < len(answer):
        end = place + int.from_bytes(answer[place : place + 2], "big")
        tick = int.from_bytes(answer[place + 4 : place + 8], "big") // 20 - 1
        packet = answer[place + 8 : end]
        sender = next(listener for listener in listeners if listener.has(packet, tick))
        sender.go_on()
        records.append((place, end, tick, sender.member))
        place = end
    return records


def verdict(answer, records, octets):
    """The line and the exit status that are right for these octets."""
    if octets == answer:
        return "yes\n", 0
    place = 0
    while place < min(len(answer), len(octets)) and answer[place] == octets[place]:
        place += 1
    number = sum(1 for record in records if record[1] <= place)
    if place == len(octets):
        part = "missing"
    elif place == len(answer):
        part = "extra"
    elif place < HEAD:
        part = "file head"
    else:
        within = place - records[number][0]
        part = "record head" if within < 8 else "RTP head" if within < 20 else "payload"
    named = ""
    if part not in ("file head", "extra") and number < len(records):
        named = f" packet {number} tick {records[number][2]} member {records[number][3]}"
    return f"no at {place}: {part}{named}\n", 16


def variants(answer):
    places = [at for at in range(len(answer)) if at < ALL_TO or at % 7 == 0 or at == len(answer) - 1]
    for at in places:
        yield answer[:at] + bytes([answer[at] ^ (1 << at % 8)]) + answer[at + 1 :]
    for length in places:
        yield answer[:length]
    yield answer
    yield answer + b"\0"
    yield answer + answer
    yield answer[HEAD:]


def main():
    program, roster, capture, answer, scratch = sys.argv[1:]
    with open(answer, "rb") as file:
        right = file.read()
    with open(roster, "rb") as file:
        records = records_of(right, listeners_of(file.read()))
    told = os.path.join(scratch, "octets")
    wrong = 0
    runs = 0
    for octets in variants(right):
        with open(told, "wb") as file:
            file.write(octets)
        with open(capture, "rb") as source:
            run = subprocess.run([program, roster, told], stdin=source, capture_output=True, check=False)
        line, status = verdict(right, records, octets)
        runs += 1
        if run.stdout.decode() != line or run.returncode != status:
            wrong += 1
            print(f"audit: {run.stdout.decode()!r} with status {run.returncode} in place of {line!r} with {status}")
    print(f"audit: {os.path.basename(answer)}: {runs} variants, {wrong} wrong")
    sys.exit(wrong > 0)


if __name__ == "__main__":
    main()
