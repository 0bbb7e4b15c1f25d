"""The program `g726`, which turns sound into codes of ITU-T G.726 and back."""
import subprocess

from .rtpdump import Fault

OCTETS = {16: 40, 24: 60, 32: 80, 40: 100}
"""How many octets 20 ms of codes are, by the rate in kbit/s."""


def g726(program, way, rate, octets):
    """What the program makes of these octets, one way (`encode` or `decode`) at a rate."""
    try:
        done = subprocess.run([program, way, str(rate)], input=octets, capture_output=True)
    except OSError as error:
        raise Fault(f"{program}: {error.strerror.lower()}: give the program g726 by --g726") from None
    if done.returncode:
        raise Fault(f"{program}: {done.stderr.decode(errors='replace').strip()}")
    return done.stdout
