"""The command line of bridge-captures."""
import argparse
import signal
import sys
import tempfile
from array import array

from . import answers, heard, sound
from .retime import Clock, Retimer
from .rtpdump import HEAD, Fault, Output, open_input, records, write_record
from .streams import Streams, is_control

TALKS = "pcmu:SSRC, pcma:SSRC or g726-RATE:PT:SSRC, as a roster says it"


def number(text, least, most):
    if not (text.isascii() and text.isdigit()) or not least <= int(text) <= most:
        raise argparse.ArgumentTypeError(f"{text}: give a decimal number from {least} to {most}")
    return int(text)


def ssrc(text):
    """An SSRC, decimal as in rosters, or hexadecimal as Wireshark shows it: 0x2265B1F6."""
    if text[:2] in ("0x", "0X") and 2 < len(text) <= 10 and all(digit in "0123456789abcdefABCDEF" for digit in text[2:]):
        return int(text, 16)
    return number(text, 0, 0xFFFFFFFF)


def port(text):
    return number(text, 1, 65535)


def ports(text):
    """Ports and ranges, as 5004,5006,16384-16390."""
    found = set()
    for part in text.split(","):
        low, dash, high = part.partition("-")
        low, high = port(low), port(high) if dash else port(low)
        if high < low:
            raise argparse.ArgumentTypeError(f"{part}: the range goes backward")
        found.update(range(low, high + 1))
    return found


def address(text):
    host, colon, last = text.rpartition(":")
    if not colon or not host:
        raise argparse.ArgumentTypeError(f"{text}: give ADDRESS:PORT")
    return host.strip("[]"), port(last)


def listed(streams):
    for line in streams.lines():
        print(line, file=sys.stderr)


def left_out_lines(left_out):
    for reason, count in left_out.items():
        print(f"left out: {count} ({reason})", file=sys.stderr)


class Kept:
    """Records that are written by rising offset at the end. They wait on the disk, so that memory holds but their places."""

    def __init__(self):
        self.offsets, self.places, self.file = array("Q"), array("Q"), tempfile.TemporaryFile()

    def add(self, offset, octets, wire):
        self.offsets.append(offset)
        self.places.append(self.file.tell())
        write_record(self.file, offset, wire, octets)

    def write(self, file):
        for number in sorted(range(len(self.offsets)), key=self.offsets.__getitem__):
            self.file.seek(self.places[number])
            head = self.file.read(8)
            file.write(head + self.file.read(int.from_bytes(head[:2], "big") - 8))


def from_network(words):
    from .network import all_datagrams

    left_out, streams, retimer, clock = {}, Streams(words.retime), Retimer() if words.retime else None, Clock()
    kept, first = Kept(), 0
    with Output(words.output) as file:
        file.write(HEAD)
        for datagram in all_datagrams(words.files, left_out):
            if words.ports and datagram.port not in words.ports:
                left_out["other ports"] = left_out.get("other ports", 0) + 1
                continue
            if not datagram.octets:
                left_out["empty"] = left_out.get("empty", 0) + 1
                continue
            moment = round(1e6 * datagram.time) // 1000
            if streams.begin is None:
                streams.begin, first = datagram.time, moment
            sender, receiver = (datagram.sender, datagram.source), (datagram.receiver, datagram.port)
            if retimer:
                moment = clock.mended(moment, datagram.octets, (datagram.octets[8:12], sender))
            offset = max(0, moment - first)
            streams.add(offset, datagram.octets, datagram.wire, sender, receiver)
            wire = 0 if is_control(datagram.octets) else datagram.wire
            if retimer is None:
                write_record(file, offset, wire, datagram.octets)
            else:
                kept.add(*retimer.retimed(offset, datagram.octets, (datagram.octets[8:12], sender)), wire)
        kept.write(file)
        if not streams.streams:
            left_out_lines(left_out)
            raise Fault("no RTP was found: look at --ports, and at what was left out")
        if words.roster:
            with Output(words.roster) as roster:
                roster.write("".join(f"{line}\n" for line in streams.roster()).encode())
    listed(streams)
    for moment, step in clock.steps[:10]:
        print(f"warning: the recorder's clock was set by {step / 1000:+.1f} s at {moment - first} ms; --retime took that out", file=sys.stderr)
    left_out_lines(left_out)


def talk_of(text):
    """What a talker sends, by the word that a roster has for it."""
    codes, *fields = text.split(":")
    if codes in sound.PAYLOAD_TYPES and len(fields) == 1:
        return sound.Talk(codes, sound.PAYLOAD_TYPES[codes], ssrc(fields[0]))
    if codes in sound.RATES and len(fields) == 2:
        return sound.Talk(codes, number(fields[0], 96, 127), ssrc(fields[1]))
    raise Fault(f"{text}: give {TALKS}")


def from_sound(words):
    streams = []
    if len(words.streams) % 3:
        raise Fault(f"give TALK START WAV for each stream, TALK as {TALKS}")
    for talk, start, path in zip(*(iter(words.streams),) * 3):
        try:
            streams.append((talk_of(talk), number(start, 0, 86_400_000), path))
        except argparse.ArgumentTypeError as error:
            raise Fault(str(error)) from None
    with Output(words.output) as file:
        file.write(HEAD)
        for offset, octets in sound.packets(streams, words.g726):
            write_record(file, offset, len(octets), octets)


def look_into(words):
    streams = Streams()
    with open_input(words.capture) as file:
        for offset, wire, octets in records(file, words.capture):
            streams.add(offset, octets, wire or len(octets))
    for line in streams.lines():
        print(line)
    if words.roster:
        with Output(words.roster) as roster:
            roster.write("".join(f"{line}\n" for line in streams.roster()).encode())


def tell_heard(words):
    for line in heard.lines(words.roster, words.capture):
        print(line)


def tell_listeners(words):
    for listener in answers.listeners(words.answer):
        print(listener.line())


def write_payloads(words):
    listener = answers.chosen(words.answer, words.ssrc, words.which)
    with Output(words.output) as file:
        file.writelines(listener.payloads)


def write_pcap(words):
    for source, where in answers.to_pcap(words.answer, words.output, words.begin).items():
        print(f"SSRC {source}: UDP port {where}", file=sys.stderr)


def write_wav(words):
    for name, listener in answers.to_wav(words.answer, words.into, words.g726):
        print(f"{name}: {listener.line()}")


def send(words):
    if words.answer == "-":
        raise Fault("give the answer as a file: it is read twice")
    host, first = words.to
    found = answers.ports(words.answer, words.ssrc, first, words.apart)
    if words.sdp:
        with Output(words.sdp) as file:
            file.write(answers.session_text(found, host))
    for listener, where in found.values():
        print(f"port {where}: {listener.line()}", flush=True)
    print(f"{answers.play(words.answer, found, host)} packets sent")


def command_line():
    top = argparse.ArgumentParser(prog="bridge-captures", description="Makes captures for the bridge, looks into them, and brings its answers to where they are heard.")
    commands = top.add_subparsers(metavar="COMMAND", required=True)

    def command(name, does, text):
        made = commands.add_parser(name, help=text, description=text[0].upper() + text[1:] + ".")
        made.set_defaults(does=does)
        return made

    network = command("from-network", from_network, "makes a capture of what tcpdump, dumpcap or Wireshark wrote: pcap or pcapng, also .gz, several files by their times")
    network.add_argument("files", nargs="+", metavar="FILE", help="a file, or - for standard input")
    network.add_argument("--ports", type=ports, help="only datagrams to these UDP ports, as 5004,5006,16384-16390")
    network.add_argument("--retime", action="store_true", help="offsets by each stream's own timestamps, so that jitter, bursts and drift lose nothing")
    network.add_argument("--roster", metavar="FILE", help="writes a roster to begin with")
    network.add_argument("-o", "--output", metavar="CAPTURE", help="the capture; without it, standard output")

    voices = command("from-sound", from_sound, "makes a capture of sound files")
    voices.add_argument("streams", nargs="+", metavar="TALK START WAV", help=f"{TALKS}; when it begins, in ms; a wav file of 16 bits, one channel, 8,000 a second")
    voices.add_argument("--g726", default="g726", metavar="PROGRAM", help="the program g726, which a talker of G.726 wants")
    voices.add_argument("-o", "--output", metavar="CAPTURE", help="the capture; without it, standard output")

    streams = command("streams", look_into, "says which streams a capture has, what is lost, and how their times waver")
    streams.add_argument("capture", metavar="CAPTURE", help="a capture, or - for standard input")
    streams.add_argument("--roster", metavar="FILE", help="writes a roster to begin with")

    told = command("heard", tell_heard, "says what the bridge hears of each talker of a roster, and why not more: follows its rules, tick by tick")
    told.add_argument("roster", metavar="ROSTER")
    told.add_argument("capture", metavar="CAPTURE", help="a capture, or - for standard input")

    who = command("listeners", tell_listeners, "says who is sent what in an answer")
    who.add_argument("answer", metavar="ANSWER", help="an answer, or - for standard input")

    one = command("payloads", write_payloads, "picks one listener's payloads out of an answer: a G.726 stream, packed as RFC 3551 says")
    one.add_argument("answer", metavar="ANSWER")
    one.add_argument("ssrc", type=ssrc, metavar="SSRC")
    one.add_argument("which", type=int, nargs="?", default=1, metavar="N", help="the Nth listener with this SSRC, where one came after another had left")
    one.add_argument("-o", "--output", metavar="FILE", help="the payloads; without it, standard output")

    pcap = command("to-pcap", write_pcap, "makes a pcap file of an answer, for Wireshark and tshark: each SSRC to a UDP port of its own")
    pcap.add_argument("answer", metavar="ANSWER")
    pcap.add_argument("-o", "--output", metavar="PCAP", help="the pcap file; without it, standard output")
    pcap.add_argument("--begin", type=int, default=0, metavar="SECONDS", help="the time of offset 0, in seconds since 1970")

    wav = command("to-wav", write_wav, "makes a wav file for each listener of an answer, in one pass, by the program g726")
    wav.add_argument("answer", metavar="ANSWER")
    wav.add_argument("--into", required=True, metavar="FOLDER")
    wav.add_argument("--g726", default="g726", metavar="PROGRAM", help="the program g726")

    player = command("play", send, "sends an answer to an address as RTP, in real time")
    player.add_argument("answer", metavar="ANSWER")
    player.add_argument("--to", required=True, type=address, metavar="ADDRESS:PORT")
    player.add_argument("--ssrc", type=ssrc, help="only this listener's packets")
    player.add_argument("--apart", action="store_true", help="each listener to a port of its own, from PORT on by twos")
    player.add_argument("--sdp", metavar="FILE", help="writes what is sent as SDP, for ffplay and others, before it begins")
    return top


def plain_end(number, frame):
    """What is half-made is deleted on the way out."""
    sys.exit(128 + number)


def main():
    for end in (signal.SIGTERM, signal.SIGHUP):
        signal.signal(end, plain_end)
    words = command_line().parse_args()
    try:
        words.does(words)
    except Fault as fault:
        sys.exit(f"bridge-captures: {fault}")
    except BrokenPipeError:
        sys.exit(1)
    except OSError as error:
        sys.exit(f"bridge-captures: {(error.strerror or str(error)).lower()}")
    except KeyboardInterrupt:
        sys.exit(130)
