#!/usr/bin/env python3
"""Tells what a task, a scope, an entry and an event cost in bytes, and which call took them.

Run it by hand: python3 bench/bytes.py [--program P] [--least BYTES] [SERIES..]. It needs valgrind, whose massif writes down who had taken the
memory when most was taken. Each series is run with n and with 2n things; a line is the difference of what one call had taken, for each thing
more. Calls that took less than --least bytes a thing (1) are summed up as others. Lists grow by doubling; the sizes are such that those of
one item for each thing are nearly full, and at other sizes a list costs up to twice as much.
"""

import argparse
import pathlib
import re
import shutil
import subprocess
import sys
import tempfile
from collections import Counter

TOP = pathlib.Path(__file__).resolve().parent.parent
PROGRAM = str(TOP / "crates" / "rx10" / "out" / "rx10")


def tasks(n):
    """n tasks alive at once under one finish, and for each the entry of its start."""
    return ["step"], "finish { repeat %d { async { print 1; } } }" % n


def scopes(n):
    """n scopes open at once, each opened by a task of its own that waits for a task in it: two tasks and five entries before the first ends."""
    return ["step"], "finish { repeat %d { async { finish { async { print 1; } } } } }" % n


def entries(n):
    """n entries of one task, each with the path of a statement."""
    return ["step"], "repeat %d { print 1; }" % n


def batches(n):
    """n entries of one task, each with a statement begun before it."""
    return ["step"], "repeat %d { set x = 1; print 1; }" % n


def events(n):
    """n events of one store."""
    return ["step", "--heap", "16"], "new r = 4; repeat %d { put r[1] = 7; }" % n


SERIES = {"tasks": (tasks, 4000), "scopes": (scopes, 4000), "entries": (entries, 16000), "batches": (batches, 16000), "events": (events, 16000)}

NODE = re.compile(r"^( *)n(\d+): (\d+) (.*)$")
CALL = re.compile(r"^0x[0-9A-F]+: (.*?) \(")
OWN = re.compile(r"^(rx_\w+|rx10)::")


def taken(program, words, script):
    """Bytes at the greatest size, by the call that took them."""
    with tempfile.NamedTemporaryFile() as out:
        subprocess.run(["valgrind", "--tool=massif", "--threshold=0.01", "--peak-inaccuracy=0.1", "--depth=14", "--massif-out-file=" + out.name,
                        program, *words], input=script.encode(), stdout=subprocess.DEVNULL, stderr=subprocess.DEVNULL)
        text = out.read().decode()
    peak = next(part for part in text.split("#-----------\nsnapshot=") if "heap_tree=peak" in part)
    found, stack = Counter(), []
    lines = [NODE.match(line) for line in peak.split("\n")]
    for at, line in enumerate(lines):
        if not line:
            continue
        depth, below, size, rest = len(line[1]), int(line[2]), int(line[3]), line[4]
        del stack[depth:]
        call = CALL.match(rest)
        stack.append(call[1] if call else "")
        # a leaf, or the first call of our own above the library's
        if any(OWN.match(name) for name in stack[:-1]):
            continue
        if OWN.match(stack[-1]):
            found[stack[-1].split("<")[0].rstrip(":")] += size
        elif below == 0:
            found["others"] += size
    return found


def main():
    parser = argparse.ArgumentParser(description=__doc__.splitlines()[0])
    parser.add_argument("series", nargs="*", metavar="SERIES", help="of " + ", ".join(SERIES))
    parser.add_argument("--program", default=PROGRAM)
    parser.add_argument("--least", type=float, default=1)
    given = parser.parse_args()
    unknown = [name for name in given.series if name not in SERIES]
    if unknown or not shutil.which("valgrind") or not pathlib.Path(given.program).exists():
        sys.exit("no such series: %s" % unknown[0] if unknown else "valgrind and the built program are needed")
    for name in given.series or SERIES:
        make, n = SERIES[name]
        few, many = taken(given.program, *make(n)), taken(given.program, *make(2 * n))
        more = Counter({call: (many[call] - few[call]) / n for call in many})
        print("%s: %.0f bytes each (%s)" % (name, sum(more.values()), make.__doc__.strip(".")))
        small = sum(cost for call, cost in more.items() if cost < given.least)
        for call, cost in sorted(more.items(), key=lambda item: -item[1]):
            if cost >= given.least:
                print("  %7.1f  %s" % (cost, call))
        print("  %7.1f  less than %g each" % (small, given.least))


if __name__ == "__main__":
    main()
