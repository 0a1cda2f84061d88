#!/usr/bin/env python3
"""A random script for `spdm run`, the same for the same seed: random_script.py SEED

It has one to three requesters of random sizes, flags and suites, sessions that are opened, used, updated and ended,
large messages by chunks, measurements, packets that are lost, repeated, or injected, and seconds that pass."""
import random
import sys

CODES = [0x84, 0xE1, 0xE3, 0x85, 0x86, 0xE0, 0xE5, 0xE6, 0xE7, 0xE8, 0xE9, 0xEA, 0xEC, 0xFF, 0x04, 0x00]


def hexadecimal(bytes_):
    return bytes(bytes_).hex() or "-"


class Script:
    def __init__(self, seed):
        self.draw = random.Random(seed)
        # Most scripts have ends that suit each other.
        self.suits = self.draw.random() < 0.7
        self.lines = []
        self.eids = []
        self.packets = 0

    def add(self, line):
        self.lines.append(line)

    def one_of(self, *choices):
        return self.draw.choice(choices)

    def some_bytes(self, least, most):
        return hexadecimal(self.draw.randbytes(self.draw.randint(least, most)))

    # ---- The configuration.

    def sizes(self, chunk):
        transfer = self.one_of(42, 42, 64, 100, 256, 1024, 4096)
        largest = self.one_of(transfer, 2048, 4096) if chunk else transfer
        return transfer, max(transfer, largest)

    def flags(self, letters, likely):
        if self.suits:
            return letters
        return "".join(f for f in letters if self.draw.random() < likely) or "-"

    def suite(self, end):
        if self.draw.random() < 0.6:
            hash_ = "both" if self.suits else self.one_of("256", "384", "both", "both")
            aead = "both" if self.suits else self.one_of("128", "256", "both", "both")
            self.add(f"suite {end} {hash_} {aead}")

    def configure(self):
        self.add(f"seed {hexadecimal(self.draw.randbytes(32))}")
        flags = self.flags("mhkc", 0.85)
        transfer, largest = self.sizes("c" in flags)
        unit = self.one_of(64, 64, 100, 512, 1024)
        self.add(f"responder 8 {transfer} {largest} {unit} {self.one_of(0, 1, 30)} {flags}")
        if self.draw.random() < 0.3:
            self.add(f"opaque {self.some_bytes(0, 40)}")
        for index in self.draw.sample(range(1, 255), self.draw.randint(0, 4)):
            self.add(f"block {index} {self.draw.randint(0, 255)} {self.one_of(0, 1)} {self.some_bytes(0, 300)}")
        self.suite("r")
        self.eids = self.draw.sample(range(9, 255), self.one_of(1, 1, 2, 3))
        for number, eid in enumerate(self.eids, 1):
            self.requester(number, eid)
        self.add("end")

    def requester(self, number, eid):
        flags = self.flags("hkc", 0.85)
        transfer, largest = self.sizes("c" in flags)
        unit = self.one_of(64, 64, 100, 512, 1024)
        hint = self.some_bytes(0, 20)
        psk = hexadecimal(bytes([number]) + self.draw.randbytes(self.draw.randint(0, 40)))
        opaque = self.some_bytes(0, 60) if self.draw.random() < 0.5 else "-"
        self.add(f"requester {eid} {transfer} {largest} {unit} {self.draw.randint(0, 16)} {flags} {hint} {psk} {opaque}")
        self.suite(f"q{number}")

    # ---- The events.

    def pump(self):
        self.add(f"pump {self.one_of(1, 1, 2, 5, 100, 100, 100)}")

    def some_requester(self):
        return self.draw.randint(1, len(self.eids))

    def some_session(self):
        return self.one_of(1, 1, 1, 2, 3, 4)

    def some_packet(self):
        return self.draw.randint(1, 10 + 3 * len(self.lines))

    def command(self):
        q, s = self.some_requester(), self.some_session()
        return self.one_of(
            f"q{q} open {self.one_of(0, 1, 255)}",
            f"q{q} send {s} {self.some_bytes(0, 60)}",
            f"q{q} send {s} {self.some_bytes(0, 60)}",
            f"q{q} send {s} {self.some_bytes(900, 1030)}",
            f"q{q} beat {s}",
            f"q{q} update {s} {self.one_of('key', 'all')}",
            f"q{q} measure {self.one_of('-', s)} {self.one_of(0, 1, 2, 254, 255, self.draw.randint(0, 255))}",
            f"q{q} measure {s} 255",
            f"q{q} retry",
            f"reply q{q} {self.some_bytes(0, 80)}",
        )

    def injected(self):
        """Bytes that nobody made: of no form, or a packet with a message of a known code."""
        if self.draw.random() < 0.2:
            return self.some_bytes(0, 40)
        ends = [8] + self.eids
        to, source = self.draw.choice(ends), self.draw.choice(ends)
        message = bytes([self.one_of(0x10, 0x12, 0x12), self.draw.choice(CODES) & self.one_of(0xFF, 0x7F)])
        body = bytes([self.one_of(5, 5, 5, 6)]) + message + self.draw.randbytes(self.draw.randint(0, 30))
        return hexadecimal(bytes([1, to, source, self.one_of(0xC0, 0xC8) | self.draw.randint(0, 7)]) + body)

    def event(self):
        kind = self.draw.random()
        if kind < 0.45:
            self.add(self.command())
            if self.draw.random() < 0.8:
                self.pump()
        elif kind < 0.55:
            self.pump()
        elif kind < 0.65:
            self.add(f"lose {self.some_packet()}")
        elif kind < 0.77:
            self.add(f"deliver {self.some_packet()}")
        elif kind < 0.87:
            self.add(f"inject {self.injected()}")
        elif kind < 0.91:
            self.add(f"tick {self.one_of(0, 1, 29, 31, 60, 1000000)}")
        elif kind < 0.94:
            self.add(f"q{self.some_requester()} {self.one_of('end 1', 'end 2', 'connect')}")
            self.pump()
        else:
            self.add("show")

    def opening(self):
        for number in range(1, len(self.eids) + 1):
            if self.draw.random() < 0.97:
                self.add(f"q{number} connect")
                self.add("pump 100")
            if self.draw.random() < 0.9:
                self.add(f"q{number} open {self.one_of(0, 1, 255)}")
                self.add("pump 200")

    def text(self):
        self.configure()
        if self.draw.random() < 0.95:
            self.opening()
        for _ in range(self.draw.randint(10, 60)):
            self.event()
        self.add("show")
        return "\n".join(self.lines) + "\n"


def main():
    sys.stdout.write(Script(int(sys.argv[1])).text())


if __name__ == "__main__":
    main()
