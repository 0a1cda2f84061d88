#!/usr/bin/env python3
"""Random scripts of several lives for `spdm lives`, the same for the same seed.

    random_lives.py SEED PROGRAM [ARGUMENT ..]

prints the script of a seed: a configuration of random_script.py, and two to four lives of random events with a line `cycle`
between them. PROGRAM has the words of `spdm`; it runs the script once, and packets that it sends in one life are then injected in
the others, earlier and later ones."""
import random
import subprocess
import sys

from random_script import Script


class Lives:
    def __init__(self, seed):
        self.draw = random.Random(f"lives {seed}")
        first = Script(seed)
        first.configure()
        self.configuration = first.lines
        self.lives = [self.events(first)]
        for number in range(self.draw.choice([1, 1, 2, 3])):
            other = Script(f"{seed} {number}")
            other.suits, other.eids = first.suits, first.eids
            self.lives.append(self.events(other))

    def events(self, script):
        script.lines = []
        if self.draw.random() < 0.95:
            script.opening()
        for _ in range(self.draw.randint(3, 30)):
            script.event()
        script.add("show")
        return script.lines

    def text(self, lives):
        return "\n".join([*self.configuration, "\ncycle\n".join("\n".join(life) for life in lives)]) + "\n"

    def plain(self):
        return self.text(self.lives)

    def joined(self, trace):
        """The script with packets of each life injected into the others. `trace` is that of the plain script."""
        packets = [[]]
        for line in trace.split("\n"):
            if line.startswith("cycle "):
                packets.append([])
            elif line.startswith("packet "):
                packets[-1].append(line.split()[2])
        lives = []
        for number, life in enumerate(self.lives):
            others = [packet for at, sent in enumerate(packets) for packet in sent if at != number]
            life = list(life)
            for _ in range(self.draw.randint(1, 12) if others else 0):
                at = self.draw.randint(0, len(life))
                first = self.draw.randrange(len(others))
                run = others[first : first + self.draw.choice([1, 1, 2, 6])]
                life[at:at] = [f"inject {packet}" for packet in run]
            lives.append(life)
        return self.text(lives)


def script_of(seed, command):
    lives = Lives(seed)
    done = subprocess.run([*command, "lives"], input=lives.plain().encode(), capture_output=True, check=False)
    return lives.joined(done.stdout.decode())


def main():
    sys.stdout.write(script_of(sys.argv[1], sys.argv[2:]))


if __name__ == "__main__":
    main()
