"""The instructions of a run of the program `spdm`, by valgrind's callgrind: what `bench/command` and `bench/streams` count
with. What cannot be counted is said, and ends a bench with status 2."""
import argparse
import pathlib
import re
import shutil
import subprocess
import sys
import tempfile

WRAPPER = pathlib.Path(__file__).resolve().parent.parent / "spdm"
BLOCKS = ("aes::", "ghash::", "sha2::")


class NotCounted(Exception):
    """Why nothing can be counted."""


# The words of a command that ends with another status where all went well.
ENDS = {("attest",): (0, 14)}


class Counted:
    """The instructions of a run, and those in functions of blocks. `text` is bytes, or a file that is open."""

    def __init__(self, program, words, text=b""):
        given = {"input": text} if isinstance(text, bytes) else {"stdin": text}
        with tempfile.NamedTemporaryFile(suffix=".callgrind") as out:
            command = ["valgrind", "--tool=callgrind", f"--callgrind-out-file={out.name}", program, *words]
            done = subprocess.run(command, **given, capture_output=True, check=False)
            if done.returncode not in ENDS.get(tuple(words), (0,)):
                said = [it for it in done.stderr.decode(errors="replace").splitlines() if not it.startswith("==")]
                raise NotCounted(f"{' '.join(words)} ended under valgrind with status {done.returncode}: {' '.join(said)}")
            self.all, self.blocks = self.read(out.name)
        if not self.all:
            raise NotCounted(f"callgrind counted no instruction of {' '.join(words)}")

    @staticmethod
    def read(path):
        names, function, whole, blocks, called = {}, "", 0, 0, False
        for line in open(path, errors="replace"):
            if line.startswith(("fn=", "cfn=")):
                found = re.match(r"c?fn=\((\d+)\)(?: (.*))?", line)
                if found[2]:
                    names[found[1]] = found[2]
                if line.startswith("fn="):
                    function = names[found[1]]
            elif line.startswith("calls="):
                called = True
            elif line[0] in "+-*0123456789":
                cost = int(line.split()[-1]) if len(line.split()) > 1 else 0
                if not called:
                    whole += cost
                    blocks += cost if function.startswith(BLOCKS) else 0
                called = False
        return whole, blocks

    @property
    def ratio(self):
        """All instructions by those of the blocks."""
        if not self.blocks:
            raise NotCounted("callgrind names no function of aes, ghash or sha2, so the program is not spdm, or has no names")
        return self.all / self.blocks


def has_valgrind():
    if not shutil.which("valgrind"):
        raise NotCounted("valgrind is missing")


def is_program(path):
    """That the file is a program for the machine, and no script, as the wrapper is: valgrind stops at its `exec`."""
    with open(path, "rb") as file:
        if file.read(4) != b"\x7fELF":
            raise NotCounted(f"{path} is no program that valgrind can count. Without --spdm the proved program is taken")


def with_program(usage, bench):
    """Runs a bench on the program that is named, or else on the proved one, which the wrapper finds or builds."""
    parser = argparse.ArgumentParser(usage=usage)
    parser.add_argument("--spdm")
    program = parser.parse_args().spdm
    try:
        if not program:
            found = subprocess.run([WRAPPER, "--program"], stdout=subprocess.PIPE, text=True, check=False)
            if found.returncode:
                raise NotCounted("the proved program is not here, and could not be built")
            program = found.stdout.strip()
        is_program(program)
        bench(program)
    except (NotCounted, OSError, subprocess.CalledProcessError) as why:
        sys.stdout.flush()
        print(f"bench: nothing more is counted: {why}", file=sys.stderr)
        sys.exit(2)
