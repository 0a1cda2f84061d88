"""The proved programs, for tests that run them often."""
import pathlib
import subprocess
import sys

TOP = pathlib.Path(__file__).resolve().parent.parent


def proved_program(name="spdm"):
    """Where the program of this name is. The wrapper finds it, or proves and builds it first; where it cannot, it says why,
    and the test ends with its status."""
    found = subprocess.run([TOP / name, "--program"], stdout=subprocess.PIPE, text=True, check=False)
    if found.returncode:
        sys.exit(found.returncode)
    return found.stdout.strip()
