#!/usr/bin/env python3
"""Compares the program `serve` with scripts of live sessions, whose right ends an independent program made.

    live_scripts.py [--bridge BRIDGE] PROGRAM FOLDER [NAME..]

FOLDER/NAME.script has the words of the command line (`words`), the files that they name (`filehex NAME HEX`, or `file NAME` and its lines up to
one with a point alone), and what link and clock tell, as .ci/told_link.c reads it, which is preloaded in their place. NAME.tries has what is to
be tried, the number of looks for a datagram, and the line on standard error; NAME.status the exit status. Where BRIDGE names the program `bridge`,
what a session heard is also made a capture, each datagram at the tick in which it was heard, and `bridge alone` has to send the same packets.
It needs a C compiler, and a program that asks the C library for its socket and its clock.
"""
import os
import subprocess
import sys
import tempfile

HERE = os.path.dirname(os.path.realpath(__file__))
sys.path.insert(0, os.path.join(HERE, "..", "tools"))
from captures.rosters import TICK  # noqa: E402
from captures.rtpdump import HEAD, records, write_record  # noqa: E402

ROUNDS = 65536
"""How often a tick looks for a datagram, at most."""
LONGEST = 65527
"""The octets of a datagram that are looked at."""


def told(path, folder):
    """The words, with the files put into the folder."""
    words, content, name = [], [], None
    with open(path) as file:
        for line in file:
            text = line.rstrip("\n")
            if name is not None:
                if text != ".":
                    content.append(line)
                    continue
                write(folder, name, "".join(content).encode())
                name, content = None, []
            elif text.startswith("words "):
                words = text.split()[1:]
            elif text.startswith("filehex "):
                _, name_of, *octets = text.split(" ")
                write(folder, name_of, bytes.fromhex("".join(octets)))
            elif text.startswith("file "):
                name = text.split()[1]
    return words


def write(folder, name, octets):
    with open(os.path.join(folder, name), "wb") as file:
        file.write(octets)


def run(program, library, path, folder):
    """What was tried, with the line, and the exit status."""
    words = told(path, folder)
    around = {**os.environ, "LD_PRELOAD": library, "TOLD_SCRIPT": path, "TOLD_TRIES": os.path.join(folder, "tries.of")}
    done = subprocess.run([program, *words], cwd=folder, env=around, capture_output=True, text=True, timeout=120)
    with open(os.path.join(folder, "tries.of")) as file:
        return file.read() + done.stderr, done.returncode


def is_control(octets):
    """Whether a datagram is of RTCP (RFC 3550, section 12.1)."""
    return len(octets) > 1 and 200 <= octets[1] <= 204


def coming(path):
    """What a link tells, as octets or None, and what a clock answers."""
    turns, answers = [], []
    with open(path) as file:
        for line in file:
            word, *more = line.split() or [""]
            if word == "turn":
                turns.append(bytes.fromhex("".join(more)))
            elif word in ("nothing", "fault"):
                turns.extend([None] * int(more[0] if more else 1))
            elif word == "clock":
                answers.extend(map(int, more))
    return turns, answers


def heard(path, ticks):
    """The datagrams but those of RTCP, each with its tick: a tick looks for one, then at the clock, until the next tick begins."""
    turns, answers = coming(path)
    turns, last = iter(turns), answers[-1]
    answers = iter(answers)
    start = next(answers)
    for tick in range(ticks):
        for _ in range(ROUNDS):
            octets = next(turns, None)
            if octets and not is_control(octets):
                yield tick, octets[:LONGEST]
            if next(answers, last) - start >= TICK * (tick + 1):
                break


def sent_offline(bridge, path, roster, folder):
    """What `bridge alone` sends where a capture has what the session heard."""
    with open(roster, "rb") as file:
        end = int([line for line in file.read().replace(b"\r", b"").split(b"\n") if line.split()[1:2] == [b"end"]][-1].split()[0])
    capture, answer = os.path.join(folder, "capture"), os.path.join(folder, "answer")
    with open(capture, "wb") as file:
        file.write(HEAD)
        for tick, octets in heard(path, -(-end // TICK)):
            write_record(file, TICK * tick, len(octets), octets)
    with open(capture, "rb") as file, open(answer, "wb") as out:
        subprocess.run([bridge, "alone", roster], stdin=file, stdout=out, stderr=subprocess.DEVNULL, timeout=120, check=True)
    with open(answer, "rb") as file:
        return [octets for _, _, octets in records(file, answer)]


def is_same_offline(bridge, path, folder, made):
    """Whether the packets that were tried are those that `bridge alone` sends, in its order."""
    tried = [bytes.fromhex(line.split()[3]) for line in made.splitlines() if line.startswith("try ")]
    return [octets for octets in tried if not is_control(octets)] == sent_offline(bridge, path, os.path.join(folder, told(path, folder)[2]), folder)


def first_difference(right, made):
    for place, (one, other) in enumerate(zip(right.splitlines() + ["(nothing)"], made.splitlines() + ["(nothing)"]), 1):
        if one != other:
            return f"line {place} is `{other[:120]}`, and `{one[:120]}` is right"
    return "the ends differ"


def main():
    words = sys.argv[1:]
    bridge = os.path.abspath(words[1]) if words[:1] == ["--bridge"] else None
    words = words[2:] if bridge else words
    if len(words) < 2:
        sys.exit(__doc__)
    program, folder = os.path.abspath(words[0]), words[1]
    names = words[2:] or sorted(name[:-7] for name in os.listdir(folder) if name.endswith(".script"))
    passed = failed = 0
    with tempfile.TemporaryDirectory() as scratch:
        library = os.path.join(scratch, "told.so")
        subprocess.run(["cc", "-O2", "-shared", "-fPIC", "-o", library, os.path.join(HERE, "told_link.c")], check=True)
        for name in names:
            path = os.path.abspath(os.path.join(folder, name))
            with tempfile.TemporaryDirectory() as here:
                made, status = run(program, library, path + ".script", here)
                same = not bridge or status != 0 or is_same_offline(bridge, path + ".script", here, made)
            with open(path + ".tries") as file, open(path + ".status") as other:
                right, due = file.read(), int(other.read())
            if made == right and status == due and same:
                passed += 1
            elif made == right and status == due:
                failed += 1
                print(f"live scripts: {name}: `bridge alone` sends other packets for what was heard")
            else:
                failed += 1
                print(f"live scripts: {name}: status {status}, {due} is right; {first_difference(right, made)}")
    print(f"live scripts: {passed} passed, {failed} failed")
    sys.exit(1 if failed or not passed else 0)


main()
