"""Compares the definitions of the whole machine with another program, script by script.

    python3 compare.py CRATES OTHER SCRIPT-OR-FOLDER... [--no-laws] [--every N] [--by-zero N] [--part I/N] [--unseen FILE]

CRATES is the project's folder crates, OTHER a folder that holds a package spdm_reference, an independent program. --every N judges the statements after every N events, and not at the end alone.
--by-zero N lets a division by zero give N in place of 0.  --part I/N takes every N-th script from the I-th on.
--unseen FILE writes which clauses and branches of the definitions no script reached (FILE is read first, if it is
there, and then holds what neither run reached).
"""
import collections
import importlib
import os
import sys
import threading
import time

sys.dont_write_bytecode = True
sys.setrecursionlimit(1 << 20)
threading.stack_size(1 << 29)
HERE = os.path.dirname(os.path.abspath(__file__))
sys.path.insert(0, HERE)
import laws
import values as V
import world


def scripts_in(paths):
    for p in paths:
        if os.path.isdir(p):
            for n in sorted(os.listdir(p)):
                if n.endswith(".script"):
                    yield os.path.join(p, n)
        else:
            yield p


def difference(groups, want):
    """the first difference: the event's line, and both lines"""
    mine = [(n, l) for n, g in groups for l in g]
    for i in range(max(len(mine), len(want))):
        a = mine[i][1] if i < len(mine) else "(no line)"
        b = want[i] if i < len(want) else "(no line)"
        if a != b:
            return (mine[i][0] if i < len(mine) else None), a, b
    return None


def main():
    args = sys.argv[1:]
    option = lambda o, default: args[args.index(o) + 1] if o in args else default
    valued = ("--every", "--by-zero", "--part", "--unseen")
    every = int(option("--every", 0))
    V.BY_ZERO[0] = int(option("--by-zero", 0))
    part, parts = map(int, option("--part", "0/1").split("/"))
    words = [a for i, a in enumerate(args) if not a.startswith("--") and (i == 0 or args[i - 1] not in valued)]
    crates, reference, paths = words[0], words[1], words[2:]
    sys.path.insert(0, reference)
    b = importlib.import_module("spdm_reference")
    parser = importlib.import_module("spdm_reference.script")
    unseen = option("--unseen", None)
    m = world.Machine(crates, unseen is not None)
    judge = None if "--no-laws" in args else laws.Judge(m)
    total = collections.Counter()
    kinds = collections.Counter()
    slow = []
    for path in list(scripts_in(paths))[part::parts]:
        V.forget()
        text = open(path, "rb").read()
        start = time.time()
        try:
            config, entries = parser.parse_script(text)
        except parser.LineError as e:
            total["not read by the other program"] += 1
            continue
        total["scripts"] += 1
        total["events"] += len(entries)
        try:
            worlds = [] if judge else None
            w, last, groups = m.run(config, entries, worlds)
        except Exception as e:
            total["broke"] += 1
            print("BROKE %s: %s: %s" % (path, type(e).__name__, e), flush=True)
            continue
        want_b = b.run_script(text)[2].decode().split("\n")[:-1]
        bad = False
        for who, want in (("the other program", want_b),):
            d = difference(groups, want)
            if d:
                bad = True
                print("DIFF %s (%s) at line %s:\n  definitions: %s\n  other:       %s" % (path, who, d[0], d[1][:300], d[2][:300]), flush=True)
        total["different"] += bad
        total["lines"] += sum(len(g) for _, g in groups)
        for _, g in groups:
            for l in g:
                p = l.split()
                kinds["state" if p[0] == "state" else
                      "session " + p[4 if p[1] == "r" else 3] if p[0] == "session" else
                      "@" if l[0] == "@" else p[0] if p[0] in ("packet", "record", "data", "nobody", "no") else
                      ("r " if p[1] == "r" else "q ") + " ".join(p[2:4] if p[2] in ("done", "ignored", "stopped", "refused", "answered") else p[2:3]) if p[0] == "to" else
                      ("q " if p[0][0] == "q" else "r ") + " ".join(p[1:])] += 1
        es = V.from_items([m.entry(n, e) for n, e in entries])
        if m.text(m.trace_lines(w, es)) != [l for _, g in groups for l in g]:
            total["trace_lines is not the lines of the steps"] += 1
            print("TRACE", path, flush=True)
        if m.world_after(w, es) is not last:
            total["world_after is not the last world"] += 1
        if judge:
            chosen = [last] if not every else sorted({id(x): i for i, x in enumerate(worlds) if i % every == 0}.values())
            for x in ([worlds[i] for i in chosen] + [last] if every else chosen):
                for line in judge.world(w, x, total):
                    print("STATEMENT %s: %s" % (path, line), flush=True)
        took = time.time() - start
        slow.append((took, path))
        if total["scripts"] % 50 == 0:
            print("… %d scripts, %d differ, %d broke, %.0f s for the last" % (total["scripts"], total["different"], total["broke"], took), flush=True)
    if unseen:
        p, s = m.antt.places, m.antt.seen
        rows = {"%s:%d %s: %s" % (os.path.relpath(x[0], crates), x[1], x[2], x[3]) for i, x in enumerate(p) if i not in s}
        rows -= {"%s:%d %s: %s" % (os.path.relpath(p[i][0], crates), p[i][1], p[i][2], p[i][3]) for i in s}
        if os.path.exists(unseen):
            rows &= set(open(unseen).read().split("\n"))
        open(unseen, "w").write("\n".join(sorted(rows)) + "\n")
        total["places"], total["places seen"] = len(p), len(s)
    total["divisions by zero"] = V.ZEROS[0]
    print("\n".join("%8d %s" % (v, k) for k, v in total.items()))
    print("kinds of lines:\n" + "\n".join("%8d %s" % (v, k) for k, v in sorted(kinds.items())))
    print("slowest: %s" % ", ".join("%.1f s %s" % x for x in sorted(slow)[-3:]))


if __name__ == "__main__":
    t = threading.Thread(target=main)
    t.start()
    t.join()
