"""Programs that read and write frames, and what carries packets between two of them. docs/FORMATS.md, "Streams of frames"."""
import os
import selectors
import struct
import subprocess

CONFIGURATION = b"""responder 8 1024 4096 64 30 mhkc
block 1 1 0 000102030405060708090a0b0c0d0e0f101112131415161718191a1b1c1d1e1f
requester 9 1024 4096 64 0 hkc 71 31323334353637383930313233343536 -
end
"""
PACKET, TICK, COMMAND, LINE = 1, 2, 3, 4
# How long both ends may be silent before they are taken to have nothing more to say, in seconds; and how long where an end
# owes an answer, or has not said anything yet, and may be starting.
SILENCE = 0.3
STARTING = 10


class Ended(Exception):
    """A program ended, or cannot be started."""


class End:
    """A program that is given a text and then frames. `command` is a list of words, or a line for the shell; it runs in `folder`."""

    def __init__(self, name, command, text, folder=None):
        self.name, self.ahead = name, b""
        # In a session of its own: Ctrl-C in a terminal is for the program that carries, which then ends this one.
        try:
            self.process = subprocess.Popen(
                command,
                shell=isinstance(command, str),
                stdin=subprocess.PIPE,
                stdout=subprocess.PIPE,
                cwd=folder,
                start_new_session=True,
            )
        except OSError as error:
            raise Ended(f"{name} cannot be started: {error}") from error
        self.write(text)

    def write(self, data):
        try:
            self.process.stdin.write(data)
            self.process.stdin.flush()
        except BrokenPipeError as error:
            raise self.ended() from error

    def ended(self):
        status = self.process.wait()
        return Ended(f"{self.name} was killed by signal {-status}" if status < 0 else f"{self.name} ended with status {status}")

    def give(self, kind, content):
        self.write(struct.pack("<BH", kind, len(content)) + content)

    def tick(self, seconds):
        self.write(struct.pack("<BI", TICK, seconds))

    def frames(self):
        """The whole frames that it wrote since."""
        read = os.read(self.process.stdout.fileno(), 65536)
        if not read:
            raise self.ended()
        self.ahead += read
        found = []
        while len(self.ahead) >= 3:
            kind, size = struct.unpack("<BH", self.ahead[:3])
            if len(self.ahead) < 3 + size:
                break
            found.append((kind, self.ahead[3 : 3 + size]))
            self.ahead = self.ahead[3 + size :]
        return found

    def close(self):
        """Ends its input, and gives its status."""
        try:
            self.process.stdin.close()
        except BrokenPipeError:
            pass
        return self.process.wait()


class Carrier:
    """Carries packets between a requester and a responder. `take(end, kind, content)` is told every frame that one of them
    writes, and gives what is carried of it: packets, for the other end."""

    def __init__(self, requester, responder, take):
        self.requester, self.responder, self.take = requester, responder, take
        # Whether the responder was given a packet, and has not written anything yet.
        self.starts = None
        self.readable = selectors.DefaultSelector()
        for end in (requester, responder):
            self.readable.register(end.process.stdout, selectors.EVENT_READ, end)

    def replace(self, old, new):
        """Another end stands in the place of this one, which has ended."""
        self.readable.unregister(old.process.stdout)
        if old is self.responder:
            self.responder, self.starts = new, None
        else:
            self.requester = new
        self.readable.register(new.process.stdout, selectors.EVENT_READ, new)

    def other(self, end):
        return self.responder if end is self.requester else self.requester

    def give(self, to, packet):
        if to is self.responder and self.starts is None:
            self.starts = True
        to.give(PACKET, packet)

    def settle(self, owes=lambda: False, silence=SILENCE):
        """Carries until both ends are silent for so many seconds; longer where `owes()` holds."""
        while ready := self.readable.select(STARTING if owes() or self.starts else silence):
            for key, _ in ready:
                for kind, content in key.data.frames():
                    if key.data is self.responder:
                        self.starts = False
                    for packet in self.take(key.data, kind, content):
                        self.give(self.other(key.data), packet)
        self.starts = False
