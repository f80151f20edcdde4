#!/usr/bin/env python3
"""Times `rx10 live` with 1, 4 and 8 workers beside `rx10 step` on seven kinds of script, and holds the ratios against their bounds.

Run it by hand from anywhere: python3 bench/workers.py [--rounds N] [--program P] [--against OTHER] [--real-time] [KIND..]. The launcher ./rx10
builds the program where it is missing. All commands take turns in each round, in one order and then in the other, and of each the median
and the least wall time are told. The bounds are on the medians. Four and eight workers are held against one worker of the program, or of
another one that is given, against which one worker is held too. With --real-time each runs with real-time priority, so that other work on
the machine counts little. The exit status is 1 where a ratio is above its bound.
"""

import argparse
import pathlib
import statistics
import subprocess
import sys
import time

TOP = pathlib.Path(__file__).resolve().parent.parent
LAUNCHER = str(TOP / "rx10")
PROGRAM = str(TOP / "crates" / "rx10" / "out" / "rx10")


def at_each_place(body):
    return b"finish { set p = 0; repeat 4 { at p async { %s } set p = (p + 1); } }" % body


SCRIPTS = {
    # 33,000 activities at one place, and 30,400 at four.
    "act1": b"finish { repeat 33000 { async { print 1; } } }",
    "act4": b"finish { repeat 7600 { at 0 async { print 1; } at 1 async { print 1; } at 2 async { print 1; } at 3 async { print 1; } } }",
    # Calls to other places and back, from four places.
    "calls": at_each_place(b"repeat 600 { at 0 { set x = 1; } at 3 { set y = 2; } }"),
    # Finishes in finishes.
    "nested": at_each_place(b"repeat 300 { finish { async { print 1; } finish { async { print 2; } async { print 3; } } } }"),
    # Finishes of two activities of 100 local steps.
    "mixed": at_each_place(b"repeat 100 { finish { async { repeat 50 { set x = 1; } } async { repeat 50 { set x = 2; } } } }"),
    # Activities that ask the stores of four places, each its own.
    "stores": at_each_place(b"new a = 8; repeat 3000 { put a[3] = 7; get b = a[3]; }"),
    # Activities at four places that go on by themselves.
    "steps": at_each_place(b"set x = 0; repeat 60 { repeat 199 { set x = (x + 1); } }"),
}
SHORT = ("act1", "act4", "calls", "nested", "mixed")        # kinds whose turns are short, or short and long by turns

COMMANDS = {"step": ["step", "--places", "4"]}
COMMANDS.update({"%d" % many: ["live", "--places", "4", "--workers", "%d" % many] for many in (1, 4, 8)})

# the most that one worker takes of the time of `step`; several workers, of one; and one, of one of the other program
OF_STEP, TOGETHER, APART, OF_OTHER = 1.5, 1.05, 0.6, 1.0


def timed(program, words, script, front):
    """The wall time of one run."""
    before = time.monotonic()
    done = subprocess.run([*front, program, *words], input=script, stdout=subprocess.DEVNULL, check=False)
    took = time.monotonic() - before
    if done.returncode != 0:
        sys.exit("rx10 %s ended with %d" % (" ".join(words), done.returncode))
    return took


def measured(program, other, script, rounds, front):
    """The times of each command: `step`, so many workers, and one worker of the other program."""
    lines = [(name, program, words) for name, words in COMMANDS.items()]
    lines += [("other", other, COMMANDS["1"])] if other else []
    times = {name: [] for name, _, _ in lines}
    for number in range(rounds):
        for name, path, words in lines[::-1] if number % 2 else lines:
            times[name].append(timed(path, words, script, front))
    return times


def ratios(kind, has_other):
    """Which command is held against which, and how often its time it may take."""
    one = "other" if has_other else "1"
    yield "1", "step", OF_STEP
    if has_other:
        yield "1", one, OF_OTHER
    for many in ("4", "8"):
        yield many, one, TOGETHER if kind in SHORT else APART


def main():
    parser = argparse.ArgumentParser(description=__doc__.splitlines()[0])
    parser.add_argument("kinds", nargs="*", metavar="KIND", help="of " + ", ".join(SCRIPTS))
    parser.add_argument("--rounds", type=int, default=20)
    parser.add_argument("--program")
    parser.add_argument("--against", metavar="OTHER")
    parser.add_argument("--real-time", action="store_true")
    args = parser.parse_args()
    unknown = [kind for kind in args.kinds if kind not in SCRIPTS]
    if unknown:
        parser.error("no such kind: %s" % unknown[0])
    if not args.program:
        # The launcher builds the program where it is missing.
        subprocess.run([LAUNCHER, "check"], input=b"", stdout=subprocess.DEVNULL, check=True)
    program, front = args.program or PROGRAM, ["chrt", "-r", "10"] if args.real_time else []
    above = False
    for kind in args.kinds or SCRIPTS:
        times = measured(program, args.against, SCRIPTS[kind], args.rounds, front)
        middle, least = ({name: of(each) for name, each in times.items()} for of in (statistics.median, min))
        print("%-7s" % kind, "  ".join("%s %.1f ms (%.1f)" % (name, 1e3 * middle[name], 1e3 * least[name]) for name in times), flush=True)
        for name, base, bound in ratios(kind, bool(args.against)):
            ratio = middle[name] / middle[base]
            above = above or ratio > bound
            note = "" if ratio <= bound else ", ABOVE"
            print("        %s / %s: %.2f, at most %.2f%s; by the least %.2f" % (name, base, ratio, bound, note, least[name] / least[base]))
    return 1 if above else 0


if __name__ == "__main__":
    sys.exit(main())
