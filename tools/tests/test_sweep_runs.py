"""A sweep's table is that of its runs: compared with every run made by itself, for each option; and its words, statuses and ends."""

import contextlib
import io
import os
import pathlib
import re
import subprocess
import tempfile
import unittest
import unittest.mock

import retold
import sweep
import sweep_runs
import sweep_table
from called import call
from places import EXAMPLES, PROGRAM
from sweep_runs import Outcome, Run

JUMBLED = "finish { repeat 2 { async { print 1; print 2; } } at 1 async { print 3; } }"
LOSING = "try { finish { at 1 async { at 2 { print 1; throw 4; } } at 2 async { print here; } } } catch dead { print 9; }"


def outcome_of(words, script):
    """What came of one run, from the lines of its trace, and how many entries it has."""
    done = subprocess.run([PROGRAM, "step", *words], input=script.encode(), capture_output=True, timeout=60, check=False)
    told = retold.retold(done.stdout.decode())
    lost, masked, thrown = set(), 0, ()
    for it in told.entries:
        if it.verb == "release":
            parts = retold.parts_of(it.words[3:]) + ","
            lost.update(map(int, re.search(r", lost ([\d ]+),|$", parts)[1].split() if ", lost" in parts else []))
            masked += int(re.search(r", masked (\d+)", parts)[1]) if ", masked" in parts else 0
            thrown = tuple(it.line.partition(" thrown ")[2].split()) if it.task == "host" else thrown
    return (done.returncode, tuple(int(it.words[3]) for it in told.entries if it.verb == "print"), thrown, tuple(sorted(lost)), masked), len(told.entries)


def in_a_row(values):
    """Values in a row, with repeats counted."""
    runs = []
    for it in map(str, values):
        if runs and runs[-1][0] == it:
            runs[-1][1] += 1
        else:
            runs.append([it, 1])
    return " ".join(it if many == 1 else "%s x%d" % (it, many) for it, many in runs) or "-"


class Brute:
    """Every run of a sweep, one after the other."""

    def __init__(self, script, base=(), places=2, joins=(), killed=(), seeds=None, deaths=True, pairs=False, any_order=False):
        self.script, self.base, self.places, self.joins, self.killed, self.any_order = script, list(base), places, sorted(joins), killed, any_order
        self.found, self.with_lost = {}, deaths or bool(killed)
        for seed in [None] if seeds is None else range(seeds):
            length = self.make(seed, ())
            for one in self.deaths(length) if deaths else []:
                longer = self.make(seed, (one,))
                for two in self.deaths(longer) if pairs else []:
                    if two > one and two[1] != one[1]:
                        self.make(seed, (one, two))

    def deaths(self, length):
        """Moments and places, in order."""
        return [(moment, place) for moment in range(length) for place in range(1, self.places + sum(it <= moment for it in self.joins))
                if place not in self.killed]

    def words(self, seed, kills):
        return ([] if seed is None else ["--seed", str(seed)]) + [word for moment, place in kills for word in ("--kill", "%d@%d" % (place, moment))]

    def make(self, seed, kills):
        outcome, length = outcome_of([*self.base, *self.words(seed, kills)], self.script)
        if self.any_order:
            outcome = (outcome[0], tuple(sorted(outcome[1])), *outcome[2:])
        rank = len(kills), kills, seed or 0
        count, least = self.found.get(outcome, (0, (rank, seed, kills)))
        self.found[outcome] = count + 1, min(least, (rank, seed, kills), key=lambda it: it[0])
        return length

    def table(self, name):
        rows = [["runs", "status", "prints", "thrown", "lost", "masked", "least words that lead to it"]]
        for (status, prints, thrown, lost, masked), (count, (_, seed, kills)) in sorted(
                self.found.items(), key=lambda it: (bool(it[1][1][2]), -it[1][0], it[1][1][0])):
            rows.append([str(count), str(status), in_a_row(prints), in_a_row(thrown), in_a_row(lost) if lost else "nothing", str(masked or "-"),
                         " ".join(self.words(seed, kills)) or "(none)"])
        left_out = {k for k in (3, 5) if all(row[k] == "-" for row in rows[1:])} | (set() if self.with_lost else {4})
        rows = [[it for k, it in enumerate(row) if k not in left_out] for row in rows]
        widths = [max(len(row[k]) for row in rows) for k in range(len(rows[0]))]
        runs = sum(count for count, _ in self.found.values())
        lines = ["  ".join([row[0].rjust(widths[0])] + [it.ljust(wide) for it, wide in zip(row[1:], widths[1:])]).rstrip() for row in rows]
        head = "%s: %d run%s, %d outcome%s%s" % (" ".join([name, *self.base]), runs, "s" * (runs != 1), len(self.found), "s" * (len(self.found) != 1),
                                                 ", prints in any order" if self.any_order else "")
        return "\n".join([head, "", *lines]) + "\n"


class Tables(unittest.TestCase):
    maxDiff = None

    def compare(self, script, *words, **how):
        """Holds the table of these words to the runs made one by one."""
        base = [it for it in words if it not in ("--pairs", "--no-deaths", "--any-order")]
        if "--seeds" in base:
            at = base.index("--seeds")
            how["seeds"] = int(base[at + 1])
            del base[at:at + 2]
        wanted = Brute(script, base, deaths="--no-deaths" not in words, pairs="--pairs" in words, any_order="--any-order" in words, **how)
        with tempfile.TemporaryDirectory() as room:
            path = pathlib.Path(room, "it.rx")
            path.write_text(script)
            for jobs in ("1", "3") if "--pairs" not in words else ("2",):
                done = call("sweep", path, *words, "--jobs", jobs)
                # (on a busy machine it may tell how far it is)
                said = re.sub(r"rx10: (this is a long sweep: )?(\d+ of )?about .*\n", "", done.stderr)
                self.assertEqual((done.returncode, done.stdout, said), (0, wanted.table("it.rx"), ""))

    def test_plain(self):
        self.compare((EXAMPLES / "caught.rx").read_text())
        self.compare(LOSING, "--places", "3", places=3)
        self.compare("print 1;")

    def test_one_place(self):
        self.compare("print 1;", "--places", "1", places=1)

    def test_base_words(self):
        """What is in every run is in every run, and stands in the head of the table."""
        self.compare("new r = 9; print 1;", "--heap", "5")
        self.compare((EXAMPLES / "picks.rx").read_text(), "--pick", "1,0,1")
        self.compare((EXAMPLES / "picks.rx").read_text(), "--seed", "3")

    def test_kills_of_every_run(self):
        self.compare(LOSING, "--places", "3", "--kill", "1@3", places=3, killed=(1,))
        self.compare(LOSING, "--places", "3", "--kill", "1@3", "--no-deaths", places=3, killed=(1,))
        self.compare(LOSING, "--places", "3", "--kill", "1@3", "--kill", "2@9", places=3, killed=(1, 2))

    def test_joins(self):
        joining = "finish { at 1 async { print here; } } print 7; print 8;"
        self.compare(joining, "--join", "4", joins=(4,))
        self.compare(joining, "--join", "6", "--join", "2", joins=(2, 6))

    def test_seeds(self):
        self.compare(JUMBLED, "--seeds", "4")
        self.compare(JUMBLED, "--seeds", "1", "--no-deaths")
        self.compare(JUMBLED, "--seeds", "6", "--no-deaths", "--any-order")
        self.compare(JUMBLED, "--any-order")

    def test_pairs(self):
        self.compare((EXAMPLES / "hello.rx").read_text(), "--places", "3", "--pairs", places=3)
        self.compare("finish { at 1 async { } } print 7;", "--join", "3", "--pairs", joins=(3,))

    def test_masked_faults(self):
        self.compare((EXAMPLES / "masked.rx").read_text(), "--places", "3", places=3)


class Asked(unittest.TestCase):
    """--require, --max, --expect, --jobs."""

    maxDiff = None
    HELLO = EXAMPLES / "hello.rx"

    def test_each_field_is_required(self):
        """The command that is told breaks it, and no earlier run does."""
        for text, broken in (("status=1", 5), ("status=0", 6), ("prints=7,8", 6), ("thrown=-", 6), ("thrown=dead:1", 5), ("lost=1", 5), ("lost=-", 6),
                             ("masked=0", 0), ("masked=1", 11), ("status=1 lost=1 prints=7", 10)):
            done = call("sweep", self.HELLO, "--require", text)
            if not broken:
                self.assertEqual((done.returncode, done.stdout.split("\n")[-2]), (0, "%s: true of all 11 runs" % text))
                continue
            *_, told, command, _ = done.stdout.split("\n")
            self.assertEqual((done.returncode, told), (1, "%s: not true of %d of 11 runs; the least words:" % (text, broken)))
            words = command.split()
            self.assertEqual((words[:2], words[-1]), (["rx10", "step"], str(self.HELLO)))
            outcome = Outcome(*outcome_of(words[2:-1], self.HELLO.read_text())[0])
            self.assertFalse(sweep_table.Requirement(text, False).is_met(outcome))

    def test_what_is_required_of_one_run(self):
        done = call("sweep", self.HELLO, "--no-deaths", "--require", "status=0")
        self.assertTrue(done.stdout.endswith("\n\nstatus=0: true of the one run\n"), done.stdout)
        done = call("sweep", self.HELLO, "--no-deaths", "--places", "3", "--require", "status=1")
        self.assertTrue(done.stdout.endswith("not true of 1 of 1 run; the least words:\n  rx10 step --places 3 %s\n" % self.HELLO), done.stdout)

    def test_a_name_that_a_shell_would_split(self):
        with tempfile.TemporaryDirectory(prefix="rx10 sweep ") as room:
            path = pathlib.Path(room, "it's.rx")
            path.write_text("print 1;")
            done = call("sweep", path, "--require", "status=1")
        told = done.stdout.split("\n")[-2].strip()
        self.assertEqual(subprocess.run(["bash", "-c", "printf '%%s|' %s" % told], capture_output=True, text=True, check=True).stdout,
                         "rx10|step|%s|" % path)

    def test_require_and_expect_together(self):
        with tempfile.TemporaryDirectory() as room:
            kept = pathlib.Path(room, "kept")
            kept.write_text(call("sweep", self.HELLO).stdout)
            for words, status, said in ((["--require", "masked=0"], 0, "hello.rx: 11 runs, 3 outcomes: as expected\n\nmasked=0: true of all 11 runs\n"),
                                        (["--require", "status=0"], 1, "hello.rx: 11 runs, 3 outcomes: as expected\n\nstatus=0: not true of 6 of 11 runs;")):
                done = call("sweep", self.HELLO, "--expect", kept, *words)
                self.assertEqual(done.returncode, status)
                self.assertTrue(done.stdout.startswith(said), done.stdout)
            kept.write_text(kept.read_text().replace("   5  1", "   4  1"))
            done = call("sweep", self.HELLO, "--expect", kept, "--require", "masked=0")
            self.assertEqual(done.returncode, 1)
            self.assertEqual(done.stdout.split("\n")[:3], ["--- %s" % kept, "+++ this sweep", "@@ -2,5 +2,5 @@"])
            self.assertIn("\n-   4  1       -", done.stdout)
            self.assertIn("\n+   5  1       -", done.stdout)
            self.assertTrue(done.stdout.endswith("\n\nmasked=0: true of all 11 runs\n"), done.stdout)

    def test_what_is_no_table(self):
        table = call("sweep", self.HELLO).stdout
        self.assertTrue(sweep_table.is_table(table))
        for text in ("", "runs\n", table.split("\n", 2)[2], table.replace("runs  status", "run  status"), table.replace("outcomes", ""), table.split("\n")[0]):
            self.assertFalse(sweep_table.is_table(text), text)
        for one in ("a: 1 run, 1 outcome\n\nruns  status\n   1  0\n", "a: 3 of 9 runs (x), 1 outcome, prints in any order\n\nruns  status\n   1  0\n"):
            self.assertTrue(sweep_table.is_table(one), one)

    def test_runs_at_most(self):
        """So many runs, of each kind as many as fit, evenly spread."""
        made = []
        add = sweep_table.Groups.add

        def noted(groups, run, outcome):
            made.append(run)
            add(groups, run, outcome)

        for most, wanted in ((1, [()]), (4, [(), ((0, 1),), ((3, 1),), ((6, 1),)]), (11, None), (12, None)):
            made.clear()
            with unittest.mock.patch.object(sweep_table.Groups, "add", noted):
                done = call("sweep", self.HELLO, "--max", most, "--jobs", "1")
            self.assertEqual([it.kills for it in made], wanted or [(), *(((moment, 1),) for moment in range(10))])
            self.assertIn("hello.rx: %s, " % {1: "1 of 11 runs (1 without a death, no single deaths, evenly spread)",
                                              4: "4 of 11 runs (1 without a death, 3 of 10 single deaths, evenly spread)"}.get(most, "11 runs"), done.stdout)
        made.clear()
        with unittest.mock.patch.object(sweep_table.Groups, "add", noted):
            done = call("sweep", self.HELLO, "--no-deaths", "--seeds", "10", "--max", "4", "--jobs", "1")
        self.assertEqual(made, [Run(0, ()), Run(2, ()), Run(5, ()), Run(7, ())])
        self.assertIn("hello.rx: 4 of 10 runs (4 of 10 without a death, evenly spread), ", done.stdout)

    def test_jobs(self):
        """So many workers; where none is said, one for each processor."""
        counts = []
        workers = sweep_runs.Workers

        def noted(count, *rest):
            counts.append(count)
            return workers(count, *rest)

        with unittest.mock.patch.object(sweep_runs, "Workers", noted):
            for words in (["--jobs", "1"], ["--jobs", "3"], []):
                call("sweep", self.HELLO, "--no-deaths", *words)
        self.assertEqual(counts, [1, 3, len(os.sched_getaffinity(0))])


class Ends(unittest.TestCase):
    """Statuses and words where something is wrong."""

    HELLO = EXAMPLES / "hello.rx"

    def test_refusals(self):
        for words, status, said in (
                (["--places", "17"], 2, "rx10: `--places` takes the number of places, from 1 to 16\n"),
                (["--kill", "0@3"], 2, "place 0 never dies"),
                (["--seeds", "0"], 2, "--seeds takes a number from 1"), (["--jobs", "0"], 2, "--jobs takes a number from 1"),
                (["--max", "-1"], 2, "--max takes a number from 1"), (["--seeds", "two"], 2, "`--seeds` takes a number, and `two` is none"),
                (["--seeds", "2", "--pick", "0"], 2, "--seeds excludes --seed and --pick"), (["--expect", "/none"], 2, "there is no file `/none` here"),
                (["--require", "status=0 status=1"], 2, "--require: `status` stands twice"), (["--require", "prints=x"], 2, "`prints=` takes whole numbers"),
                (["--require", "masked=1,2"], 2, "`masked=` takes one number"), (["--require", "status=2"], 2, "`status=` takes 0 or 1"),
                (["--require", "status=0,lost=-"], 2, "a blank stands between two fields")):
            done = call("sweep", self.HELLO, *words)
            self.assertEqual((done.returncode, done.stdout), (status, ""), words)
            self.assertIn(said, done.stderr)
        for text, status, said in (("print x;", 4, ":1:7: `x` is not known here"), ("prin", 3, ":1:1: "), ("#" * 65537, 5, "has more than the 65,536 bytes that a script may have")):
            with tempfile.NamedTemporaryFile("w", suffix=".rx") as file:
                file.write(text)
                file.flush()
                done = call("sweep", file.name)
            self.assertEqual((done.returncode, done.stdout), (status, ""))
            self.assertIn(said, done.stderr)

    def test_a_program_that_is_none(self):
        for text, status, said in (("#!/bin/sh\nkill -9 $$\n", 125, "rx10: the program ended with -9\n"), ("#!/bin/sh\nexit 8\n", 8, "rx10: the program ended with 8\n"),
                                   ("#!/bin/sh\necho hello\n", 125, "rx10: the sweep could not be made: the program wrote no trace\n"),
                                   ("#!/bin/sh\necho 'rx10 trace 2'\n", 125, "rx10: the sweep could not be made: the root is never released\n")):
            with tempfile.TemporaryDirectory() as room:
                path = pathlib.Path(room, "program")
                path.write_text(text)
                path.chmod(0o755)
                with unittest.mock.patch.dict(os.environ, RX10_PROGRAM=str(path)):
                    done = call("sweep", self.HELLO)
            self.assertEqual((done.returncode, done.stdout, done.stderr), (status, "", said))

    def test_a_fault_of_a_worker_ends_the_sweep(self):
        """The program is right at first, and then no more."""
        with tempfile.TemporaryDirectory() as room:
            path = pathlib.Path(room, "program")
            path.write_text('#!/bin/sh\ncase "$*" in *--kill*) exit 8 ;; esac\nexec %s "$@"\n' % PROGRAM)
            path.chmod(0o755)
            with unittest.mock.patch.dict(os.environ, RX10_PROGRAM=str(path)):
                done = call("sweep", self.HELLO)
        self.assertEqual((done.returncode, done.stdout, done.stderr), (8, "", "rx10: the program ended with 8\n"))

    def test_times(self):
        for seconds, text in ((0, "0 s"), (119, "119 s"), (120, "2 min"), (7199, "120 min"), (7200, "2 h"), (36000, "10 h")):
            self.assertEqual(sweep.spoken(seconds), text)

    def estimated(self, length, seconds, *words):
        given = sweep.arguments(["x.rx", "--jobs", "2", *words])
        said = io.StringIO()
        made = sweep.Sweep(PROGRAM, None, given, sweep.base_of(given))
        with contextlib.redirect_stderr(said), unittest.mock.patch("os.sched_getaffinity", lambda _: range(4)):
            made.estimate(length, seconds)
        return said.getvalue(), made.total, made.progress.expected

    def test_estimates(self):
        """A sweep of two seconds is told, one of a minute is warned of, by the runs that there will be."""
        self.assertEqual(self.estimated(10, 0.3), ("", 11, 11))
        self.assertEqual(self.estimated(10, 0.4), ("rx10: about 11 runs, about 2 s\n", 11, 11))
        self.assertEqual(self.estimated(10, 4, "--seeds", "3"), ("rx10: this is a long sweep: about 33 runs, about 66 s; --max N makes N of them, and Ctrl-C "
                                                                 "ends it with the table so far\n", 33, 33))
        self.assertEqual(self.estimated(10, 4, "--seeds", "3", "--max", "5"), ("rx10: about 5 runs, about 10 s\n", 33, 5))
        self.assertEqual(self.estimated(10, 4, "--no-deaths"), ("rx10: about 1 run, about 2 s\n", 1, 1))
        self.assertEqual(self.estimated(10, 0.01, "--pairs", "--places", "3")[1:], (121, 121))

    def test_progress(self):
        for is_terminal, steps, wanted in ((False, [3, 5, 11, 12, 22], "rx10: 3 of about 8 runs, 11 s; about 18 s left\nrx10: 5 of about 8 runs, 22 s; about 13 s left\n"),
                                           (True, [0.1, 0.4, 0.45, 0.6], "\r\033[K2 of about 8 runs, 0 s; about 1 s left\r\033[K4 of about 8 runs, 1 s; about 1 s left")):
            said = io.StringIO()
            said.isatty = lambda is_terminal=is_terminal: is_terminal
            with contextlib.redirect_stderr(said), unittest.mock.patch("time.monotonic") as clock:
                clock.return_value = 100.0
                progress = sweep.Progress()
                progress.expected = 8
                for at in steps:
                    clock.return_value = 100.0 + at
                    progress.step()
                self.assertEqual(said.getvalue(), wanted)
                progress.end()
            self.assertEqual(said.getvalue(), wanted + ("\r\033[K" if is_terminal else ""))

    def test_rows(self):
        for values, text in (([], "-"), ([1], "1"), ([1, 2, 2, 2, 1], "1 2 x3 1"), (range(24), " ".join(map(str, range(24)))),
                             (range(25), " ".join(map(str, range(20))) + " .. 5 more"), (["dead:1", "dead:1"], "dead:1 x2")):
            self.assertEqual(sweep_table.listed(values), text)

    def test_help(self):
        for words in (["--help"], ["-h"], ["x", "--help"]):
            done = call("sweep", *words)
            self.assertEqual((done.returncode, done.stderr), (0, ""))
            for option in ("--places N --heap W --kill P@M .. --join M .. --pick K,.. --seed S", "--pairs", "--seeds N", "--no-deaths", "--any-order",
                           "--require TEXT", "--max N", "--jobs N", "--expect FILE", "Exit status: 0;"):
                self.assertEqual(done.stdout.count("\n  %s" % option) or done.stdout.count("\n%s" % option), 1, option)
