"""Runs the definitions of captures beside another checker, capture by capture.

    python3 captures.py CRATES OTHER FILE-OR-FOLDER...

CRATES is the project's folder crates, OTHER a folder that holds a package spdm_reference, an independent program.

The definitions say that some walk conforms; `walks.py` guesses what is not seen (values at what the capture shows, lengths
at their borders) and lets the definitions decide each guess. A line for each capture whose verdict, packet, reason or table
differs, or whose first difference has no reason or two, or that has two tables; the counts at the end.
"""
import collections
import importlib
import os
import sys
import threading

sys.dont_write_bytecode = True
sys.setrecursionlimit(1 << 20)
threading.stack_size(1 << 29)
HERE = os.path.dirname(os.path.abspath(__file__))
sys.path.insert(0, HERE)
import walks


def reference(said):
    lines = said[1].decode().split("\n")[:-1]
    if lines and lines[0] == "conforms":
        return None, lines[1:]
    if lines and lines[0].startswith("differs "):
        return int(lines[0].split()[1]), lines[0].split()[2]
    return "fault", said


def files(paths):
    for p in paths:
        if os.path.isdir(p):
            yield from (os.path.join(p, n) for n in sorted(os.listdir(p)) if n.endswith(".capture"))
        else:
            yield p


def main():
    crates, folder, paths = sys.argv[1], sys.argv[2], sys.argv[3:]
    sys.path.insert(0, folder)
    other, script = importlib.import_module("spdm_reference"), importlib.import_module("spdm_reference.script")
    w, total = walks.Walks(crates, False), collections.Counter()
    for path in files(paths):
        text = open(path, "rb").read()
        number, what = w.judge(*script.parse_capture(text))
        there = reference(other.check_capture(text))
        total["captures"] += 1
        total["conforming" if number is None else "not conforming"] += 1
        said = []
        if len(what) != 1:
            said.append("%d %s" % (len(what), "tables" if number is None else "reasons: " + " ".join(what)))
        if number != there[0]:
            said.append("verdict")
        elif there[1] not in what:
            said.append("table" if number is None else "reason")
        if said:
            total["different"] += 1
            print("%s: %s | definitions %s %s | other %s" % (path, ", ".join(said), number, str(what)[:300], str(there)[:300]), flush=True)
    print("\n".join("%8d %s" % (n, k) for k, n in total.items()))


if __name__ == "__main__":
    t = threading.Thread(target=main)
    t.start()
    t.join()
