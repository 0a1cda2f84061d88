"""Frames of MCTP on a serial line (DSP0253), worked out apart from examples/c/serial.c: the check sequence as a remainder of
polynomials, frames cut at flags; and a line between two processes on which frames are lost and altered."""
import os
import pty
import random
import re
import select
import subprocess
import tty

FLAG, ESCAPE, REVISION = 0x7E, 0x7D, 1
# RFC 1662, appendix C.2: entries of its table, and the check sequence of bytes with their inverted check sequence behind them.
TABLE = {0: 0x0000, 1: 0x1189, 2: 0x2312, 3: 0x329B, 4: 0x4624, 5: 0x57AD, 6: 0x6536, 7: 0x74BF, 8: 0x8C48, 255: 0x0F78}
GOOD = 0xF0B8


def fcs(data):
    """The remainder of the bits of the data, the lowest of each byte first, the first sixteen inverted, times x^16, by
    x^16 + x^12 + x^5 + 1, with the lowest bit for the highest power."""
    bits = "".join(f"{byte:08b}"[::-1] for byte in data)
    value = int(bits + "0" * 16, 2) ^ 0xFFFF << len(bits)
    for place in range(len(bits) - 1, -1, -1):
        if value >> (place + 16) & 1:
            value ^= 0x11021 << place
    return int(f"{value:016b}"[::-1], 2)


def framed(packet):
    head = bytes([REVISION, len(packet)])
    inside = re.sub(rb"[\x7d\x7e]", lambda it: bytes([ESCAPE, it[0][0] & ~0x20]), packet)
    return bytes([FLAG]) + head + inside + fcs(head + packet).to_bytes(2, "big") + bytes([FLAG])


def unframed(data):
    """The packet of the frame with which the data begin, and how long it is; None if they begin with none, or with too
    little of it."""
    found = re.match(rb"\x7e\x01(.)", data, re.S)
    if not found or not found[1][0]:
        return None
    whole = re.match(rb"\x7e\x01.((?:[^\x7d\x7e]|\x7d.){%d})(..)\x7e" % found[1][0], data, re.S)
    if not whole:
        return None
    packet = re.sub(rb"\x7d(.)", lambda it: bytes([it[1][0] | 0x20]), whole[1], flags=re.S)
    return (packet, whole.end()) if fcs(data[1:3] + packet) == int.from_bytes(whole[2], "big") else None


def answers(program, lines):
    done = subprocess.run([program], input="\n".join(lines) + "\n", capture_output=True, text=True, check=True)
    return done.stdout.split("\n")[:-1]


def taken(program, streams):
    """The packets that the program takes from each of these, one after the other."""
    found, packets = [], []
    for line in answers(program, [f"take {stream.hex()}" for stream in streams]):
        if line == ".":
            found.append(packets)
            packets = []
        else:
            packets.append(bytes.fromhex(line))
    return found


def unlike(program, seed):
    """Compares the framing of tests/c/serial.c with this one: what is not alike, in words."""
    chance = random.Random(seed)
    wrong = []
    # The table of RFC 1662, from the check sequence of one byte.
    shown = answers(program, [f"fcs {0xFF ^ at:02x}" for at in TABLE])
    if [int(it, 16) ^ 0x00FF for it in shown] != list(TABLE.values()):
        wrong.append("the table of RFC 1662")
    packets = [bytes(chance.choice([chance.randrange(256), FLAG, ESCAPE, 0x5E, 0x01]) for _ in range(size))
               for size in [1, 4, 68, 254, 255, *(chance.randint(1, 255) for _ in range(300))]]
    shown = answers(program, [f"fcs {it.hex()}" for it in packets])
    if [int(it, 16) for it in shown] != [fcs(it) for it in packets]:
        wrong.append("check sequences")
    ended = [it + (0xFFFF ^ fcs(it)).to_bytes(2, "little") for it in packets]
    if {int(it, 16) for it in answers(program, [f"fcs {it.hex()}" for it in ended])} != {GOOD}:
        wrong.append("the good check sequence of RFC 1662")
    if [bytes.fromhex(it) for it in answers(program, [f"frame {it.hex()}" for it in packets])] != [framed(it) for it in packets]:
        wrong.append("frames")
    if answers(program, ["frame", f"frame {bytes(256).hex()}"]) != ["", ""]:
        wrong.append("packets of no bytes, or too many")
    # Frames with noise between them, and with one flag between two.
    noise = lambda: bytes(chance.choice([1, ESCAPE, 0x5E, 0]) if i else 0 for i in range(chance.choice([0, 0, 1, 40])))
    streams = [b"".join(noise() + framed(it) for it in packets), b"".join(framed(it)[:-1] for it in packets) + bytes([FLAG])]
    if taken(program, streams) != [packets, packets]:
        wrong.append("frames one after the other")
    # A frame with a byte altered, lost or put in, and frames behind it: it is not taken, and of these at most one is lost.
    behind = [b"behind", b"and then", b"and last"]
    harmed = []
    for packet in packets:
        frame = framed(packet)
        at = chance.randrange(1, len(frame) - 1)
        harmed += [frame[:at] + bytes([frame[at] ^ chance.randint(1, 255)]) + frame[at + 1 :], frame[:at] + frame[at + 1 :],
                   frame[:at] + bytes([chance.randrange(256)]) + frame[at:]]
    good = [[unframed(it)[0], *behind] if unframed(it) and unframed(it)[1] == len(it) else behind for it in harmed]
    after = b"".join(framed(it) for it in behind)
    for frame, packets_of, told in zip(harmed, good, taken(program, [it + after for it in harmed])):
        if [it for it in packets_of if it in told] != told or told[-2:] != behind[-2:]:
            wrong.append(f"a harmed frame, {frame.hex()}")
    return wrong


class Wire:
    """A serial line between two terminals: it takes what it carries apart, and loses or alters a frame now and then."""

    def __init__(self, seed, harm):
        self.chance, self.harm = random.Random(seed), harm
        self.masters, self.terminals = zip(*(pty.openpty() for _ in range(2)))
        for master in self.masters:
            tty.setraw(master)
        self.paths = [os.ttyname(it) for it in self.terminals]
        self.ahead = {it: b"" for it in self.masters}
        self.frames, self.harmed, self.wrong = 0, 0, []

    def carry(self, seconds):
        """Carries what comes within so many seconds."""
        for master in select.select(self.masters, [], [], seconds)[0]:
            other = self.masters[self.masters[0] == master]
            self.ahead[master] += os.read(master, 65536)
            while b"\x7e" in self.ahead[master][3:]:
                found = unframed(self.ahead[master])
                if found is None:
                    if len(self.ahead[master]) > 600:
                        self.wrong.append(self.ahead[master].hex())
                        self.ahead[master] = b""
                    break
                frame, self.ahead[master] = self.ahead[master][: found[1]], self.ahead[master][found[1] :]
                self.frames += 1
                if self.chance.random() < self.harm:
                    self.harmed += 1
                    at = self.chance.randrange(len(frame))
                    frame = self.chance.choice([b"", frame[:at], frame[:at] + b"\x00" + frame[at:], b"\x7e\x7d\x01" + frame])
                os.write(other, frame)

    def close(self):
        for end in [*self.masters, *self.terminals]:
            os.close(end)
