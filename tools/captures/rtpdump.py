"""The capture format (rtptools' rtpdump): records read one by one, and files that stand whole or not at all."""
import errno
import os
import struct
import sys
import tempfile

LINE = b"#!rtpplay1.0"
HEAD = LINE + b" 0.0.0.0/0\n" + bytes(16)
LAST_OFFSET = 0xFFFFFFFF


class Fault(Exception):
    """What is wrong, in one line for whoever typed the command."""


def take(file, count):
    """Just so many octets, or as many as are left."""
    parts = []
    while count and (part := file.read(count)):
        parts.append(part)
        count -= len(part)
    return b"".join(parts)


def open_input(path):
    if path == "-":
        return sys.stdin.buffer
    try:
        return open(path, "rb")
    except OSError as error:
        raise Fault(f"{path}: {error.strerror.lower()}") from None


def records(file, name):
    """Offset in ms, length on the wire (0: RTCP) and octets of each record."""
    line = file.readline(1024)
    if not line.startswith(LINE) or not line.endswith(b"\n"):
        raise Fault(f"{name}: not a capture, it does not begin with {LINE.decode()}")
    place = len(line) + 16
    if len(take(file, 16)) < 16:
        raise Fault(f"{name}: cut inside its head")
    while head := take(file, 8):
        if len(head) < 8:
            raise Fault(f"{name}: cut inside the record at {place}")
        length, wire, offset = struct.unpack(">HHI", head)
        if length < 8:
            raise Fault(f"{name}: no record at {place}")
        octets = take(file, length - 8)
        if len(octets) < length - 8:
            raise Fault(f"{name}: cut inside the record at {place}")
        yield offset, wire, octets
        place += length


class Output:
    """A file that is there only once it is whole: it has no name, or one beside its place, until it is moved there at the end.

    What is no plain file (a pipe, a device, standard output where no path is given) is written at the end too.
    """

    def __init__(self, path):
        self.path = None if path in (None, "-") else os.path.realpath(path)
        self.plain = self.path is not None and (os.path.isfile(self.path) or not os.path.exists(self.path))
        self.shown = path if self.path else "standard output"
        try:
            self.file = nameless(os.path.dirname(self.path) if self.plain else tempfile.gettempdir())
        except OSError as error:
            raise Fault(f"{self.shown}: {error.strerror.lower()}") from None

    def __enter__(self):
        return self.file

    def __exit__(self, kind, value, trace):
        try:
            if kind is None:
                self.publish()
        except OSError as error:
            raise Fault(f"{self.shown}: {error.strerror.lower()}") from None
        finally:
            self.file.close()
            if isinstance(self.file.name, str) and os.path.exists(self.file.name):
                os.unlink(self.file.name)

    def publish(self):
        self.file.flush()
        if self.plain:
            mask = os.umask(0)
            os.umask(mask)
            os.fchmod(self.file.fileno(), 0o666 & ~mask)
            os.replace(named(self.file, self.path), self.path)
            return
        self.file.seek(0)
        with open(self.path, "wb") if self.path else os.fdopen(os.dup(1), "wb") as out:
            while part := self.file.read(1 << 20):
                out.write(part)


def nameless(folder):
    """A file in this folder that vanishes with the process where the system can do that (Linux), else one that is deleted at the end."""
    try:
        return open(os.open(folder, os.O_TMPFILE | os.O_RDWR, 0o600), "wb+")
    except (AttributeError, IsADirectoryError, OSError) as error:
        if getattr(error, "errno", None) in (errno.ENOENT, errno.EACCES, errno.ENOSPC, errno.EROFS, errno.ENOTDIR):
            raise
        return tempfile.NamedTemporaryFile("wb+", dir=folder, prefix=".capture-", delete=False)


def named(file, path):
    """The file's name; one beside `path` where it had none."""
    if isinstance(file.name, str):
        return file.name
    name = f"{path}.{os.getpid()}"
    if os.path.exists(name):
        os.unlink(name)
    os.link(f"/proc/self/fd/{file.fileno()}", name, src_dir_fd=file.fileno())  # (only with a folder is the link of /proc followed)
    return name


def write_record(file, offset, wire, octets):
    if not 0 <= offset <= LAST_OFFSET:
        raise Fault(f"an offset of {offset} ms does not fit a capture")
    file.write(struct.pack(">HHI", len(octets) + 8, wire, offset) + octets)
