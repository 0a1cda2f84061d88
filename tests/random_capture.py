"""Captures for `spdm check`: those of the traces of scripts, changes of a capture, and those of ends that choose every
free value at random.

    random_capture.py FOLDER SEED

prints the capture of a seed that the ends of a package `spdm_reference` in that folder make, an independent program
whose ends take their free values from an object of a class that is put in place of their own here: every length from
the least to the most that still goes, handles, nonces, contexts, opaque data, padding and ids."""
import importlib
import random
import sys

from random_script import Script

# What stands in PSK_EXCHANGE beside its hint, context and opaque data.
EXCHANGE_FIELDS = 12


def configuration(script):
    """The lines of a configuration, up to `end`."""
    lines = script.split("\n")
    return lines[: lines.index("end") + 1]


def capture_of(lines, packets):
    numbered = [f"packet {number} {packet}" for number, packet in enumerate(packets, 1)]
    return ("\n".join([*lines, *numbered]) + "\n").encode()


def packets_in(trace):
    return [line.split()[2] for line in trace.split("\n") if line.startswith("packet ")]


def of_trace(script, trace):
    """The capture of all packets that a script sends, whether they were delivered or not."""
    return capture_of(configuration(script), packets_in(trace))


def split(capture):
    lines = capture.decode().split("\n")[:-1]
    at = lines.index("end") + 1
    return lines[:at], [line.split()[2] for line in lines[at:]]


def altered(packet, draw):
    """The packet with a bit of one byte changed, or with another byte."""
    some = bytearray.fromhex(packet)
    place = draw.randrange(len(some))
    some[place] = some[place] ^ 1 << draw.randrange(8) if draw.random() < 0.5 else draw.randrange(256)
    return some.hex()


def changes(capture, draw):
    """Twelve changes of a capture with at least two packets: twice each a bit or a byte is another, a packet is left
    out, doubled, exchanged with another, cut; and twice a packet of another place comes in."""
    lines, packets = split(capture)
    for turn in range(12):
        kind, now = turn % 6, list(packets)
        at = draw.randrange(len(now))
        if kind == 0:
            now[at] = altered(now[at], draw)
        elif kind == 1:
            del now[at]
        elif kind == 2:
            now.insert(at, now[at])
        elif kind == 3:
            other = draw.choice([min(at + 1, len(now) - 1), draw.randrange(len(now))])
            now[at], now[other] = now[other], now[at]
        elif kind == 4:
            now[at] = now[at][: 2 * draw.randrange(len(now[at]) // 2)] or "-"
        else:
            now.insert(draw.randrange(len(now) + 1), now[at])
        yield capture_of(lines, now)


# ---- Ends that choose every free value at random.


class RandomAnswers:
    """What a responder chooses, each at random among what may be chosen."""

    def __init__(self, draw, conn):
        self.draw, self.conn = draw, conn

    def some(self, most):
        return self.draw.randbytes(self.draw.choice([0, 1, self.draw.randint(0, 64), self.draw.randint(0, most)]))

    def context(self, size):
        return self.draw.randbytes(size) + self.some(self.draw.choice([64, 3000]))

    def nonce(self):
        return self.draw.randbytes(32)

    def used(self):
        pass

    def rsp_id(self, taken):
        free = [number for number in range(1, 5) if number not in taken]
        return self.draw.choice(free) if free else 0

    def exchange_opaque(self):
        return self.some(1024)

    def measure_opaque(self):
        return self.some(1024)

    def handle(self, _count):
        return self.draw.randrange(256)

    def app(self):
        return self.some(1024)

    def pad(self):
        return self.draw.randbytes(self.draw.randint(0, 16))


class RandomRequests:
    """What a requester chooses. PSK_EXCHANGE is no longer than what the responder takes, in one message where there are
    no chunks."""

    def __init__(self, draw, requester):
        self.draw, self.core, self.room = draw, requester.core, 0

    def some(self, most):
        most = max(0, most)
        return self.draw.randbytes(self.draw.choice([0, min(1, most), self.draw.randint(0, min(64, most)), self.draw.randint(0, most)]))

    def req_id(self, taken):
        return self.draw.choice([number for number in range(1, 5) if number not in taken])

    def context(self, size):
        common = self.core.common
        most = common.r_max if common.chunk else min(common.r_max, common.r_transfer)
        self.room = most - EXCHANGE_FIELDS - len(self.core.cfg.hint) - size
        more = self.some(min(self.room, self.draw.choice([64, 2000])))
        self.room -= len(more)
        return self.draw.randbytes(size) + more

    def opaque(self):
        return self.some(min(self.room, 1024))

    def ask_pad(self):
        return self.draw.randbytes(self.draw.randint(0, 16))


def quiet(lines, draw):
    """Most scripts without packets that nobody made or that come twice: what answers them is out of turn."""
    if draw.random() < 0.2:
        return lines
    return [line for line in lines if not line.startswith(("inject", "deliver"))]


def of_random_ends(folder, seed):
    """The capture of a random script whose ends choose so."""
    if folder not in sys.path:
        sys.path.insert(0, folder)
    ends = importlib.import_module("spdm_reference.responder")
    texts = importlib.import_module("spdm_reference.script")
    worlds = importlib.import_module("spdm_reference.world")
    draw = random.Random(f"free {seed}")
    own, ends.DoesFree = ends.DoesFree, lambda _responder, conn: RandomAnswers(draw, conn)
    try:
        text = "\n".join(quiet(Script(seed).text().split("\n"), draw))
        config, events = texts.parse_script(text.encode())
        world = worlds.World(config)
        for requester in world.requesters:
            requester.core.free = RandomRequests(draw, requester)
        world.start()
        for line, event in events:
            world.step(line, event)
        return of_trace(text, "".join(world.out))
    finally:
        ends.DoesFree = own


def main():
    sys.stdout.write(of_random_ends(sys.argv[1], int(sys.argv[2])).decode())


if __name__ == "__main__":
    main()
