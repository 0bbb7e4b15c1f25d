"""Rosters and lists of peers, as far as helpers have to know them. Whether a line is lawful, the bridge says."""
import ipaddress

from .codec import OCTETS
from .rtpdump import Fault
from .sound import PAYLOAD_TYPES, RATES, Talk

TICK = 20  # ms
FRAME = 160


class Member:
    """Who joins when, what it says and what it is sent: `talk` and `rate` are None where it says or is sent nothing."""

    def __init__(self, number, time, talk, heard):
        self.number, self.joined, self.left, self.talk = number, time, None, talk
        self.rate = self.payload_type = self.source = self.sequence = self.stamp = None
        self.bundle = 1
        if heard:
            self.rate, self.payload_type, self.source, self.sequence, self.stamp, self.bundle = (*heard, 1)[:6]

    @property
    def listens(self):
        return self.rate is not None

    def frame(self):
        """How many octets 20 ms are that it is sent."""
        return OCTETS[self.rate]

    def ticks(self, end):
        """The ticks that it hears, the last excluded, in a session that ends at `end` ms."""
        last = (end + TICK - 1) // TICK
        return min(self.joined // TICK, last), min(last if self.left is None else self.left // TICK, last)


class Roster:
    def __init__(self, members, end):
        self.members, self.end = members, end

    def talkers(self):
        return [member for member in self.members.values() if member.talk]

    def listeners(self):
        return [member for member in self.members.values() if member.listens]


def lines(path):
    """Number and words of each line that isn't skipped."""
    try:
        with open(path, "rb") as file:
            text = file.read()
    except OSError as error:
        raise Fault(f"{path}: {error.strerror.lower()}") from None
    for place, line in enumerate(text.split(b"\n"), 1):
        words = line.replace(b"\r", b" ").replace(b"\t", b" ").decode("ascii", "replace").split(" ")
        words = [word for word in words if word]
        if words and not words[0].startswith("#"):
            yield place, words


def numbers(words):
    if not all(word.isascii() and word.isdigit() for word in words):
        raise ValueError
    return [int(word) for word in words]


def talk_of(word):
    if word == "-":
        return None
    codes, *fields = word.split(":")
    fields = numbers(fields)
    if codes in PAYLOAD_TYPES and len(fields) == 1:
        return Talk(codes, PAYLOAD_TYPES[codes], fields[0])
    if codes in RATES and len(fields) == 2:
        return Talk(codes, *fields)
    raise ValueError


def command(words, members):
    """Does one line; gives the time of an end, else None."""
    time = numbers(words[:1])[0]
    if words[1:] == ["end"]:
        return time
    if words[1] == "leave" and len(words) == 3:
        members[numbers(words[2:])[0]].left = time
        return None
    if words[1] != "join" or len(words) not in (5, 9, 10):
        raise ValueError
    heard = None if words[4:] == ["-"] else numbers(words[4:])
    if heard is not None and (len(heard) < 5 or heard[0] not in OCTETS):
        raise ValueError
    number = numbers(words[2:3])[0]
    if number in members:
        raise ValueError
    members[number] = Member(number, time, talk_of(words[3]), heard)
    return None


def read_roster(path):
    members, end = {}, None
    for place, words in lines(path):
        try:
            if end is not None:
                raise ValueError
            end = command(words, members)
        except (ValueError, IndexError, KeyError):
            raise Fault(f"{path}: line {place} is no line of a roster: {' '.join(words)[:80]}") from None
    if end is None:
        raise Fault(f"{path}: the roster has no end")
    return Roster(members, end)


def read_peers(path):
    """Address and port of each member."""
    peers = {}
    for place, words in lines(path):
        try:
            member, port = numbers((words[0], words[2]))
            if len(words) != 3 or not 1 <= port <= 65534 or member in peers:
                raise ValueError
            peers[member] = (str(ipaddress.IPv4Address(words[1])), port)
        except (ValueError, IndexError):
            raise Fault(f"{path}: line {place} is no line of peers: {' '.join(words)[:80]}") from None
    return peers
