#!/usr/bin/env python3
"""Times `rx10 step` and `rx10 gen` over growing sizes, and prints how the time grows.

Run it by hand from anywhere: python3 bench/growth.py [--rounds N] [SERIES..]. The launcher ./rx10 builds the program where it is missing.
Each row is the least processor time of some rounds, so that other work on the machine counts little. `growth` is the exponent between this size and the one before: about 1 where the time grows in
proportion to the size, about 2 where it grows with its square.
"""

import argparse
import math
import pathlib
import resource
import subprocess
import sys

TOP = pathlib.Path(__file__).resolve().parent.parent
LAUNCHER = str(TOP / "rx10")
PROGRAM = str(TOP / "crates" / "rx10" / "out" / "rx10")


def alive(n):
    """n activities alive at once under one finish."""
    return ["step"], "finish { repeat %d { async { print 1; } } }" % n


def alive_seeded(n):
    """n activities alive at once, moved in the order of a seed."""
    return ["step", "--seed", "5"], "finish { repeat %d { async { print 1; } } }" % n


def alive_at_places(n):
    """n activities alive at once on 16 places, one of which dies."""
    words = ["step", "--places", "16", "--kill", "3@%d" % (n + 1)]
    return words, "finish { repeat %d { set p = 0; repeat 16 { at p async { print 1; } set p = (p + 1); } } }" % (n // 16)


def scopes(n):
    """n scopes open at once, each with its waiting task."""
    return ["step"], "finish { repeat %d { async { finish { async { print 1; } } } } }" % n


def entries(n):
    """n entries of one activity."""
    return ["step"], "repeat %d { print 1; }" % n


def heap(n):
    """8,000 blocks made and forgotten in a heap of n words, half of which are taken in blocks of one word."""
    script = "repeat %d { new r = 1; } repeat 8000 { new q = 2; forget q; }" % (n // 2)
    return ["step", "--heap", str(n)], script


def generated(n):
    """the generated script of n lines."""
    return ["gen", "--size", str(n)], ""


def generated_seeded(n):
    """the generated script of n lines, under a seed, while a place dies."""
    return ["gen", "--size", str(n), "--places", "4", "--seed", "5", "--kill", "3@%d" % (4 * n)], ""


SERIES = {
    "alive": (alive, [1000, 2000, 4000, 8000, 16000, 33000]),
    "alive-seeded": (alive_seeded, [1000, 2000, 4000, 8000, 16000, 33000]),
    "alive-at-places": (alive_at_places, [1000, 2000, 4000, 8000, 16000]),
    "scopes": (scopes, [1000, 2000, 4000, 8000, 16000]),
    "entries": (entries, [1000, 10000, 20000, 49000]),
    "heap": (heap, [64, 256, 1024, 4096]),
    "generated": (generated, [100, 1000, 2500, 5000, 10000]),
    "generated-seeded": (generated_seeded, [100, 1000, 2500, 5000, 10000]),
}


def spent():
    """The processor time of all programs that were run so far."""
    usage = resource.getrusage(resource.RUSAGE_CHILDREN)
    return usage.ru_utime + usage.ru_stime


def measure(words, script, rounds):
    """The least processor time of some rounds."""
    best = math.inf
    for _ in range(rounds):
        before = spent()
        done = subprocess.run([PROGRAM] + words, input=script.encode(), stdout=subprocess.DEVNULL)
        best = min(best, spent() - before)
        if done.returncode not in (0, 1):
            sys.exit("rx10 %s ended with %d" % (" ".join(words), done.returncode))
    return best


def main():
    parser = argparse.ArgumentParser(description=__doc__.splitlines()[0])
    parser.add_argument("--rounds", type=int, default=3)
    parser.add_argument("series", nargs="*", metavar="SERIES", help="of " + ", ".join(SERIES))
    args = parser.parse_args()
    unknown = [name for name in args.series if name not in SERIES]
    if unknown:
        parser.error("no such series: " + ", ".join(unknown))
    # The launcher builds the program where it is missing.
    subprocess.run([LAUNCHER, "check"], input=b"", stdout=subprocess.DEVNULL, check=True)
    base = measure(["check"], "", max(args.rounds, 5))
    print("start and end of the program alone: %.4f s" % base)
    for name in args.series or SERIES:
        make, sizes = SERIES[name]
        print("\n%s: %s" % (name, make.__doc__))
        print("%10s %10s %8s" % ("size", "seconds", "growth"))
        before = None
        for size in sizes:
            words, script = make(size)
            took = measure(words, script, args.rounds)
            own = max(took - base, 1e-5)
            growth = ""
            if before is not None:
                growth = "%.2f" % (math.log(own / before[1]) / math.log(size / before[0]))
            print("%10d %10.4f %8s" % (size, took, growth), flush=True)
            before = (size, own)


if __name__ == "__main__":
    main()
