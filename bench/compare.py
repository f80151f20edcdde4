#!/usr/bin/env python3
"""Measures rx10 beside another program that gives the same answers, and prints a table of ratios.

    python3 bench/compare.py --other COMMAND [--rounds N] [--program P] [--write]
    python3 bench/compare.py --counts [--program P] [--write]

COMMAND takes the words of rx10 behind its own. Both are run on the largest size of each series of growth.py, on pairs for `verify` and `span`,
and for `live`; their outputs have to be the same, but for `live`, where only the status is. A time is the least processor time of some rounds,
in which the two take turns. Instructions are those of one run in user mode, counted by valgrind, where it is there; they repeat to a percent,
but with several workers, where none are told. Memory is the greatest resident size of one more run, told by /usr/bin/time, and left out where
that is missing. With --write the table goes into bench/ratios.md.

The second counts the instructions of rx10 alone, and warns of each case that takes 3 % more than bench/instructions.txt says; --write writes
that file. The gate does so with the program that it has proved, and does not fail.
"""

import argparse
import math
import os
import pathlib
import platform
import re
import shlex
import shutil
import subprocess
import sys
import tempfile

import growth

HERE = pathlib.Path(__file__).resolve().parent
TABLE = HERE / "ratios.md"
COUNTS = HERE / "instructions.txt"
TIME = "/usr/bin/time"
VALGRIND = ["valgrind", "--tool=cachegrind", "--cache-sim=no", "--cachegrind-out-file=/dev/null"]
MORE = 1.03                     # of what bench/instructions.txt says; then a case is warned of

# what `verify` and `span` are asked about: the words of the run that leaves the trace, and its script
PAIRS = {
    "activities": (["step"], "finish { repeat 16000 { async { print 1; } } }"),
    "stores": (["step", "--heap", "4096"], "new r = 4; repeat 12000 { put r[1] = 7; get x = r[1]; }"),
    "calls": (["step", "--places", "4"], "finish { set p = 0; repeat 4 { at p async { repeat 3000 { at 0 { set x = 1; } } } set p = (p + 1); } }"),
}

# runs of `live`, each with 1 and with 4 workers
LIVE = {
    "activities": "finish { repeat 2500 { set p = 0; repeat 4 { at p async { print 1; } set p = (p + 1); } } }",
    "stores": "finish { set p = 0; repeat 4 { at p async { new a = 8; repeat 3000 { put a[3] = 7; get b = a[3]; } } set p = (p + 1); } }",
}


def cases():
    """Name, words, and what makes the input of each case: a script, or the words of a run and a script."""
    for name, (make, sizes) in growth.SERIES.items():
        words, script = make(sizes[-1])
        yield "%s, %d" % (name, sizes[-1]), words, None, script
    for command in ("verify", "span"):
        for name, (made_by, script) in PAIRS.items():
            yield "%s, %s" % (command, name), [command], made_by, script
    for name, script in LIVE.items():
        for workers in ("1", "4"):
            yield "live, %s, %s workers" % (name, workers), ["live", "--places", "4", "--workers", workers], None, script


def inputs(program):
    """Name, words and input of each case. The traces of pairs are made by the program."""
    for name, words, made_by, script in cases():
        given = script.encode()
        if made_by is not None:
            trace = run(program, made_by, given)[2]
            given = b"rx10 pair %d\n" % len(given) + given + trace
        yield name, words, given


def repeats(words):
    """Whether a run takes the same instructions each time: not where several workers take turns."""
    return words[0] != "live" or words[words.index("--workers") + 1] == "1"


def instructions(command, words, given):
    """Instructions of one run, in user mode, or None where they do not repeat or valgrind is missing."""
    if not repeats(words) or shutil.which(VALGRIND[0]) is None:
        return None
    with tempfile.TemporaryFile() as source:
        source.write(given)
        source.seek(0)
        done = subprocess.run(VALGRIND + command + words, stdin=source, stdout=subprocess.DEVNULL, stderr=subprocess.PIPE, check=False)
    found = re.search(rb"I +refs: +([\d,]+)", done.stderr)
    return int(found[1].replace(b",", b"")) if found else None


def run(command, words, given):
    """Processor seconds, the status, and the output of one run."""
    with tempfile.TemporaryFile() as source, tempfile.TemporaryFile() as out:
        source.write(given)
        source.seek(0)
        before = growth.spent()
        done = subprocess.run(command + words, stdin=source, stdout=out, stderr=subprocess.DEVNULL)
        seconds = growth.spent() - before
        out.seek(0)
        return seconds, done.returncode, out.read()


def size_of(command, words, given):
    """The greatest resident size of one run in MB, as text. (A child's own usage is never below the size of this script.)"""
    if not os.path.exists(TIME):
        return "-"
    with tempfile.NamedTemporaryFile("r") as told:
        run([TIME, "-q", "-f", "%M", "-o", told.name] + command, words, given)
        return "%.1f" % (int(told.read().split()[-1]) / 1024)


def compared(programs, words, given, rounds):
    """The least time and the memory of each program, which have to answer the same."""
    best, answers = [math.inf, math.inf], [None, None]
    for number in range(rounds):
        for which in (number % 2, 1 - number % 2):
            seconds, status, text = run(programs[which], words, given)
            best[which] = min(best[which], seconds)
            answers[which] = (status, b"" if words[0] == "live" else text)
    if answers[0] != answers[1]:
        sys.exit("other answers to %s: %s and %s" % (" ".join(words), answers[0][0], answers[1][0]))
    return best, [size_of(program, words, given) for program in programs]


def ratio_of(pair):
    """The ratio of two counts, or None where one is missing."""
    return pair[0] / pair[1] if None not in pair else None


def rows(programs, rounds):
    """A line for each case, and the ratios of times and of instructions."""
    lines, times, counts = [], [], []
    for name, words, given in inputs(programs[0]):
        seconds, size = compared(programs, words, given, rounds)
        counted = [instructions(program, words, given) for program in programs]
        times.append(seconds[0] / max(seconds[1], 1e-4))
        counts.append(ratio_of(counted))
        millions = ["-" if it is None else "%.1f" % (it / 1e6) for it in counted]
        lines.append("| %s | %s | %s | %s | %.4f | %.4f | %.2f | %s | %s |" % (
            name, *millions, "-" if counts[-1] is None else "%.2f" % counts[-1], *seconds, times[-1], *size))
        print(lines[-1], flush=True)
    return lines, times, [it for it in counts if it is not None]


def mean(ratios):
    """The geometric mean."""
    return math.exp(sum(map(math.log, ratios)) / len(ratios))


def warn_of_more(program, write):
    """Counts the instructions of each case, and warns where they are more than the file says. With `write` they go into it."""
    if shutil.which(VALGRIND[0]) is None:
        print("skipped: there is no valgrind, so no instructions are counted")
        return 0
    known = {}
    if COUNTS.exists():
        known = {name: int(count) for name, count in (line.rsplit("\t", 1) for line in COUNTS.read_text().splitlines() if "\t" in line)}
    found = {name: instructions(program, words, given) for name, words, given in inputs(program) if repeats(words)}
    for name, count in found.items():
        before = known.get(name)
        if count is None:
            print("%s: not counted" % name)
        elif before is None or count > MORE * before:
            print("warning: %s takes %d instructions, %s" % (name, count, "%d in bench/instructions.txt" % before if before else "a new case"))
    ratios = [count / known[name] for name, count in found.items() if count and name in known]
    if ratios:
        print("%d cases, %.3f of the instructions of bench/instructions.txt in the mean" % (len(ratios), mean(ratios)))
    if write:
        COUNTS.write_text("".join("%s\t%d\n" % it for it in found.items() if it[1]))
    return 0


def processor():
    """What the system says of its processor."""
    for line in pathlib.Path("/proc/cpuinfo").read_text().splitlines():
        if line.startswith("model name"):
            return line.split(":", 1)[1].strip()
    return platform.machine()


def main():
    parser = argparse.ArgumentParser(description=__doc__.splitlines()[0])
    which = parser.add_mutually_exclusive_group(required=True)
    which.add_argument("--other")
    which.add_argument("--counts", action="store_true")
    parser.add_argument("--program", default=growth.PROGRAM)
    parser.add_argument("--rounds", type=int, default=6)
    parser.add_argument("--write", action="store_true")
    args = parser.parse_args()
    if args.counts:
        return warn_of_more(shlex.split(str(args.program)), args.write)
    head = [
        "| Case | rx10, M instructions | other | ratio | rx10, s | other, s | ratio | rx10, MB | other, MB |",
        "|---|---|---|---|---|---|---|---|---|",
    ]
    print("\n".join(head))
    lines, times, counts = rows([shlex.split(str(args.program)), shlex.split(args.other)], args.rounds)
    last = "Geometric means of the ratios: times %.2f" % mean(times) + (", instructions %.2f." % mean(counts) if counts else ".")
    print(last)
    if args.write:
        about = (
            "# rx10 beside another program\n\nMade by `python3 bench/compare.py --other COMMAND --write`, from one run of both on %d processors that"
            "\ncall themselves %s. The other program is written in plain Rust, with its standard library"
            "\nalone and no proofs; it has the answers of rx10. Instructions of one run in user mode, in millions, as valgrind counts them; processor"
            "\ntime, least of %d rounds; greatest resident size.\n\n"
        ) % (os.cpu_count(), processor(), args.rounds)
        TABLE.write_text(about + "\n".join(head + lines) + "\n\n" + last + "\n")
    return 0


if __name__ == "__main__":
    sys.exit(main())
