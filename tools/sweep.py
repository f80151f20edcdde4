#!/usr/bin/env python3
"""Runs a script under every single death, and groups the runs by what came of them.

usage: rx10 sweep FILE [OPTION..]

Each place but 0 dies at each moment of the run, a place that joins at each moment from then on, one death a run; and the script runs once
without these deaths. Runs with the same exit status, prints, faults at the root, lost places and masked faults make one line of the table,
with the least kills that lead to it.

  --places N --heap W --kill P@M .. --join M .. --pick K,.. --seed S   as for step; these kills and joins are in every run
  --pairs            two deaths a run as well: every pair of places and moments
  --seeds N          all of this under each of the schedules of the seeds 0 to N - 1
  --no-deaths        no deaths but those of --kill: with --seeds, the schedules alone
  --any-order        runs that print the same values in another order count as the same
  --require TEXT     what each run must have, as in --require 'status=0 prints=42'. The fields are status, prints, thrown, lost and masked,
                     with commas between values, and - for none. What breaks it is told by the words of the least such run
  --max N            N runs at most: first those without a death, then single deaths, then pairs. Of the kind that does not fit as a whole
                     so many as fit are made, evenly spread
  --jobs N           so many runs at a time; as many as there are processors where it is left out
  --expect FILE      compares the table with FILE, which an earlier sweep wrote, and shows what differs

The table goes to standard output and is the same each time. Standard error has the progress, and for a sweep of more than some seconds how
long it may take. Ctrl-C ends the sweep with the table of the runs so far. FILE may be -, for standard input.

Exit status: 0; 1 where a run breaks --require, or the table is not that of --expect; 2 to 8 where the words are bad or the program
refuses; 125 where the sweep could not be made, 130 after Ctrl-C. This tool is not proved.
"""

import contextlib
import difflib
import functools
import os
import resource
import sys
import tempfile
import time

import command_words
import ends
import explain
import inputs
import options
import sweep_plan
import sweep_runs
import sweep_table
from sweep_runs import Run
from sweep_table import many

LONG, VERY_LONG = 2, 60     # seconds from which on an estimate, and a warning, is told
WORDS = ("--places", "--heap", "--pick", "--seed")


def spoken(seconds):
    """A time as one says it."""
    for unit, size in (("h", 3600), ("min", 60)):
        if seconds >= 2 * size:
            return "%.0f %s" % (seconds / size, unit)
    return "%.0f s" % seconds


class Progress:
    """How far the sweep is, on standard error: one line that is written over on a terminal, else a line every ten seconds."""

    def __init__(self):
        self.done, self.expected, self.began = 0, 0, time.monotonic()
        self.is_terminal = sys.stderr.isatty()
        self.next = self.began + (0.2 if self.is_terminal else 10)

    def step(self):
        self.done += 1
        now = time.monotonic()
        if now < self.next:
            return
        self.next = now + (0.1 if self.is_terminal else 10)
        left = (now - self.began) / self.done * max(0, self.expected - self.done)
        text = "%d of about %d runs, %s; about %s left" % (self.done, self.expected, spoken(now - self.began), spoken(left))
        print("\r\033[K" + text if self.is_terminal else "rx10: " + text, end="" if self.is_terminal else "\n", file=sys.stderr, flush=True)

    def end(self):
        if self.is_terminal:
            print("\r\033[K", end="", file=sys.stderr, flush=True)


class Sweep:
    """The runs of one script, and their groups."""

    def __init__(self, program, script, given, base):
        self.program, self.script, self.given, self.base = program, script, given, base
        self.groups = sweep_table.Groups(given.any_order)
        self.plan = sweep_plan.Plan(int(given.places or 2), map(int, given.join), {int(it.split("@")[0]) for it in given.kill})
        self.firsts = [Run(seed, ()) for seed in ([None] if given.seeds is None else range(given.seeds))]
        self.progress = Progress()
        self.total, self.is_exact, self.is_stopped = 0, False, False
        self.seconds, self.stages = 1, []       # (of a processor, for a run)

    def estimate(self, length, seconds):
        """Tells how many runs there may be and how long they take, by one run with so many entries that took so long."""
        runs = len(self.firsts)
        if not self.given.no_deaths:
            pairs = self.plan.expected_pairs(length) if self.given.pairs else 0
            runs *= 1 + self.plan.count_singles(length) + pairs
        self.total = runs
        made = min(runs, self.given.max or runs)
        self.progress.expected = made
        took = made * seconds / min(self.given.jobs, len(os.sched_getaffinity(0)))
        if took >= LONG:
            more = "; --max N makes N of them, and Ctrl-C ends it with the table so far" if took >= VERY_LONG else ""
            warning = "this is a long sweep: " if took >= VERY_LONG else ""
            print("rx10: %sabout %s, about %s%s" % (warning, many(made, "run"), spoken(took), more), file=sys.stderr, flush=True)

    def stage(self, workers, name, sources):
        """Makes these runs, or so many as may still be made, evenly spread; gives each with the number of its entries."""
        total = sum(count for count, _ in sources)
        left = total if self.given.max is None else min(total, self.given.max - self.progress.done)
        made = []
        for run, outcome, length in workers.results(sweep_plan.spread(sources, total, left)):
            self.groups.add(run, outcome)
            made.append((run, length))
            self.progress.step()
        if len(made) < total:
            part = "%d of %d" % (len(made), total) if made else "no"
        else:
            part = "all %d" % total if total > 1 else str(total)
        self.stages.append("%s %s" % (part, name))
        return total, sorted(made, key=lambda it: (it[0].seed or 0, it[0].kills))

    def make(self):
        """Makes all runs, and knows in the end how many there are, where that can be known."""
        plan = self.plan
        with sweep_runs.Workers(self.given.jobs, self.seconds, self.program, self.script, self.base) as workers:
            total, made = self.stage(workers, "without a death", [(len(self.firsts), lambda: self.firsts)])
            if not self.given.no_deaths:
                sources = [(plan.count_singles(length), functools.partial(plan.singles, run.seed, length)) for run, length in made]
                is_whole = len(made) == total
                singles, made = self.stage(workers, "single deaths", sources)
                total += singles
                if self.given.pairs:
                    is_whole = is_whole and len(made) == singles
                    sources = [(plan.count_pairs(run, length), functools.partial(plan.pairs, run, length)) for run, length in made]
                    if is_whole:
                        self.progress.expected = min(total + sum(count for count, _ in sources), self.given.max or sys.maxsize)
                    total += self.stage(workers, "pairs", sources)[0]
                self.is_exact = is_whole
            else:
                self.is_exact = True
        if self.is_exact:
            self.total = total

    def table(self):
        """The table: its head says how many runs there are, and how many of them were made where that is not all."""
        runs = self.groups.runs()
        name = " ".join([os.path.basename(self.given.file), *self.base])
        made = many(runs, "run")
        if self.is_stopped:
            made = "stopped after %d of about %d runs" % (runs, max(self.total, runs))
        elif self.given.max is not None and (runs < self.total or not self.is_exact):
            made = "%d of %s%s (%s, evenly spread)" % (runs, "" if self.is_exact else "about ", many(self.total, "run"), ", ".join(self.stages))
        order = ", prints in any order" if self.given.any_order else ""
        head = "%s: %s, %s%s" % (name, made, many(len(self.groups.found), "outcome"), order)
        with_lost = bool(self.given.kill) or not self.given.no_deaths
        return "\n".join([head, "", *self.groups.lines(self.base, with_lost)]) + "\n"


def arguments(words):
    """The words of the sweep, the text of --require read."""
    parser = options.Parser("sweep", "--require", "--require 'status=0 prints=7,8'")
    parser.add_argument("file", metavar="FILE")
    for option in (*WORDS, "--expect", "--require"):
        parser.add_argument(option)
    for option in ("--kill", "--join"):
        parser.add_argument(option, action="append", default=[])
    for option in ("--pairs", "--no-deaths", "--any-order"):
        parser.add_argument(option, action="store_true")
    for option in ("--seeds", "--jobs", "--max"):
        parser.add_argument(option, type=int)
    given = parser.taken(words)
    if given.seeds is not None and (given.seed is not None or given.pick is not None):
        parser.error("--seeds excludes --seed and --pick")
    if given.pairs and given.no_deaths:
        parser.error("--pairs and --no-deaths exclude each other")
    for option in ("seeds", "jobs", "max"):
        if getattr(given, option) is not None and getattr(given, option) < 1:
            parser.error("--%s takes a number from 1" % option)
    given.jobs = given.jobs or len(os.sched_getaffinity(0))
    try:
        given.require = None if given.require is None else sweep_table.Requirement(given.require, given.any_order)
    except ValueError as why:
        parser.error("--require: %s; it takes fields as in --require 'status=0 prints=7,8 lost=-'" % why)
    return given


def base_of(given):
    """The words that are in every run."""
    base = []
    for option in WORDS:
        value = getattr(given, option[2:])
        base += [option, value] if value is not None else []
    for option, values in (("--join", given.join), ("--kill", given.kill)):
        base += [it for value in values for it in (option, value)]
    return base


def refused(refusal, given, base, text):
    """Tells why the program refused, and gives the exit status."""
    number = refusal.said.partition(" ")[2]
    if refusal.status == 2 and number.isdigit():
        words, k = [given.file, *base], int(number)
        shown = command_words.shown(words, k, "rx10 sweep").replace("\n", "\n  ")
        more = "rx10: %s\n  %s\n  `rx10 sweep --help` tells the words" % (command_words.why(refusal.words, k), shown)
    else:
        more = explain.explained(refusal.status, refusal.said, given.file, text, refusal.words)
        more = "\n".join(it for it in (refusal.said, more) if it)
    print(more or "rx10: the program ended with %d" % refusal.status, file=sys.stderr)
    return refusal.status if refusal.status > 0 else ends.FAILED


def concluded(sweep, expected, given):
    """The text for standard output, and the exit status: the table or what differs from it, and what became of --require."""
    table, status = sweep.table(), 0
    if expected is None or sweep.is_stopped:
        text = table
    elif table == expected:
        text = "%s: as expected\n" % table.split("\n", 1)[0]
    else:
        lines = difflib.unified_diff(expected.splitlines(), table.splitlines(), given.expect, "this sweep", lineterm="")
        text, status = "".join(it + "\n" for it in lines), 1
    if given.require and sweep.groups.found:
        is_met, told = given.require.judged(sweep.groups, sweep.base, given.file)
        text, status = "%s\n%s\n" % (text, told), status if is_met else 1
    return text, ends.STOPPED if sweep.is_stopped else status


def processor_time():
    """The seconds that all runs so far have taken of a processor."""
    used = resource.getrusage(resource.RUSAGE_CHILDREN)
    return used.ru_utime + used.ru_stime


def swept(sweep, expected, given):
    """Makes the sweep: the text for standard output, and the exit status."""
    # (bad words and a bad script are refused before anything is counted; the first run also brings the program into memory)
    with contextlib.closing(sweep_runs.Maker(sweep.program, sweep.script, sweep.base)) as maker:
        _, length = maker.make(Run(None, ()))
        began, spent = time.monotonic(), processor_time()
        for _ in range(3):
            maker.make(Run(None, ()))
        sweep.seconds = (processor_time() - spent) / 3
        sweep.estimate(length, (time.monotonic() - began) / 3)
    try:
        sweep.make()
    except KeyboardInterrupt:
        sweep.is_stopped = True
    finally:
        sweep.progress.end()
    return concluded(sweep, expected, given)


def main(words):
    if "-h" in words or "--help" in words:
        print(__doc__.split("\n\n", 1)[1].rstrip())
        return 0
    given = arguments(words)
    try:
        text = inputs.read(given.file, "script", "sweep")
        expected = inputs.read(given.expect).decode("utf-8", "replace") if given.expect else None
        if expected is not None and not sweep_table.is_table(expected):
            print("rx10: %s is no table that a sweep has written" % given.expect, file=sys.stderr)
            return ends.FAILED
    except OSError as why:
        return inputs.refused(why.filename or given.file, why)
    base = base_of(given)
    # (a copy, so that an edit meanwhile does not mix two scripts)
    with tempfile.TemporaryFile() as script:
        script.write(text)
        script.flush()
        try:
            told, status = swept(Sweep(os.environ["RX10_PROGRAM"], script, given, base), expected, given)
        except sweep_runs.Refused as refusal:
            return refused(refusal, given, base, text)
        except (OSError, sweep_runs.NoTrace) as why:
            print("rx10: the sweep could not be made: %s" % why, file=sys.stderr)
            return ends.FAILED
    print(told, end="")
    return status


if __name__ == "__main__":
    sys.exit(ends.guarded(main, sys.argv[1:]))
