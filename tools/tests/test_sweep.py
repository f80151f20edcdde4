"""Sweeps: which runs there are, groups with their least kills, what every run must have, and ends of every kind."""

import pathlib
import signal
import subprocess
import sys
import tempfile
import time
import unittest

import sweep_plan
import sweep_runs
import sweep_table
from places import EXAMPLES, TOP
from sweep_runs import Outcome, Run
from test_launcher import launch

HELLO = """hello.rx: 11 runs, 3 outcomes

runs  status  prints  thrown  lost     least words that lead to it
   5  0       7 8     -       nothing  (none)
   5  1       -       dead:1  1        --kill 1@0
   1  1       7       dead:1  1        --kill 1@5
"""
PRINTS = b"finish { repeat 3 { async { print 1; print 2; } } }"
# (some seconds long by any machine)
LONG = b"repeat 200 { at 1 { print 1; } at 2 { print 2; } }"


class Plans(unittest.TestCase):
    def test_counts_are_those_of_the_lists(self):
        for places, joins, killed, length in ((3, [], (), 7), (2, [0, 2, 5], (), 9), (4, [3], (2, 4), 8), (1, [4, 4], (), 6), (2, [9], (), 5)):
            plan = sweep_plan.Plan(places, joins, killed)
            singles = list(plan.singles(None, length))
            self.assertEqual(len(singles), plan.count_singles(length))
            self.assertEqual(singles, sorted(set(singles)))
            pairs = []
            for single in singles:
                mine = list(plan.pairs(single, length))
                self.assertEqual(len(mine), plan.count_pairs(single, length), (places, joins, single))
                pairs += mine
            # (each pair of different places once, whichever death comes first)
            wanted = {tuple(sorted((one.kills[0], two.kills[0]))) for one in singles for two in singles if one.kills[0][1] != two.kills[0][1]}
            self.assertEqual(sorted(it.kills for it in pairs), sorted(wanted))
            self.assertEqual(plan.expected_pairs(length), len(pairs))

    def test_spread(self):
        def sources():
            return [(3, lambda: "abc"), (0, lambda: ""), (1, lambda: "d"), (6, lambda: "efghij")]
        for most, wanted in ((99, "abcdefghij"), (10, "abcdefghij"), (5, "acegi"), (3, "adg"), (1, "a"), (0, "")):
            self.assertEqual("".join(sweep_plan.spread(sources(), 10, most)), wanted)


class Requirements(unittest.TestCase):
    FOUND = Outcome(0, (2, 1), ("dead:1",), (1, 3), 0)

    def test_met(self):
        for text in ("status=0", "prints=2,1", "lost=3,1", "thrown=dead:1 masked=0", "masked=-", "status=0 prints=2,1 lost=1,3"):
            self.assertTrue(sweep_table.Requirement(text, False).is_met(self.FOUND), text)
        for text in ("status=1", "prints=1,2", "prints=-", "lost=1", "thrown=", "masked=1", "status=0 lost=-"):
            self.assertFalse(sweep_table.Requirement(text, False).is_met(self.FOUND), text)
        self.assertTrue(sweep_table.Requirement("prints=2,1", True).is_met(self.FOUND._replace(prints=(1, 2))))

    def test_refused(self):
        for text in ("", " ", "status=0,lost=-", "print=1", "status", "status=2", "status=-", "status=0 status=0", "prints=a", "lost=1;2", "masked=1,2"):
            with self.assertRaises(ValueError, msg=text):
                sweep_table.Requirement(text, False)


class Outcomes(unittest.TestCase):
    def test_what_is_read_of_a_trace(self):
        for name, words in (("masked", 1), ("lost_place", 1), ("supervisor", 0), ("stale", None)):
            text = (EXAMPLES / (name + ".trace")).read_bytes()
            outcome, length = sweep_runs.outcome_of(0, text)
            history = text.split(b"history\n")[1].split(b"journal 0\n")[0].decode().splitlines()
            self.assertEqual(length, len(history))
            self.assertEqual(outcome.prints, tuple(int(it.split()[3]) for it in history if it.split()[1] == "print"))
            self.assertEqual(" thrown %s" % " ".join(outcome.thrown) if outcome.thrown else "", history[-1][len("%d release host s0" % (length - 1)):])
        self.assertEqual(sweep_runs.outcome_of(1, b"0 release t0 s1 lost 2 3 masked 2 thrown code:-1 | 0\n"
                                                  b"1 release host s0 lost 1 masked 1 thrown dead:2 dead:3 code:-1\n")[0],
                         Outcome(1, (), ("dead:2", "dead:3", "code:-1"), (1, 2, 3), 3))
        with self.assertRaises(sweep_runs.NoTrace):
            sweep_runs.outcome_of(0, b"0 print t0 1 0\n")


class Sweeps(unittest.TestCase):
    maxDiff = None

    def test_every_single_death(self):
        done = launch("sweep", EXAMPLES / "hello.rx")
        self.assertEqual((done.returncode, done.stdout), (0, HELLO))

    def test_jobs_and_the_source_change_nothing(self):
        self.assertEqual(launch("sweep", EXAMPLES / "hello.rx", "--jobs", "1").stdout, HELLO)
        with open(EXAMPLES / "hello.rx", "rb") as source:
            self.assertEqual(launch("sweep", "-", stdin=source).stdout, HELLO.replace("hello.rx", "-"))

    def test_pairs(self):
        done = launch("sweep", EXAMPLES / "hello.rx", "--places", "3", "--pairs")
        # (1 with no death, 10 moments for each of two places, and the pairs, each counted once though it could be begun by either death)
        self.assertIn("hello.rx --places 3: 120 runs, 3 outcomes", done.stdout)
        self.assertNotIn("--kill 2@0 --kill 1@0", done.stdout)

    def test_seeds_alone(self):
        done = launch("sweep", EXAMPLES / "picks.rx", "--seeds", "14", "--no-deaths")
        self.assertIn("picks.rx: 14 runs, 2 outcomes", done.stdout)
        self.assertIn("1 2", done.stdout)
        self.assertIn("2 1", done.stdout)

    def test_prints_in_any_order(self):
        done = launch("sweep", "-", "--seeds", "20", "--no-deaths", input=PRINTS)
        self.assertNotIn(" 1 outcome", done.stdout)
        done = launch("sweep", "-", "--seeds", "20", "--no-deaths", "--any-order", "--require", "prints=2,1,2,1,2,1", input=PRINTS)
        self.assertEqual(done.returncode, 0)
        self.assertIn("-: 20 runs, 1 outcome, prints in any order", done.stdout)
        self.assertIn("1 x3 2 x3", done.stdout)

    def test_a_kill_of_every_run(self):
        done = launch("sweep", EXAMPLES / "supervisor.rx", "--places", "3", "--kill", "1@0", "--no-deaths")
        self.assertIn("lost", done.stdout)
        self.assertRegex(done.stdout, r"\n +1 .* 1 +\(none\)\n")

    def test_require(self):
        done = launch("sweep", EXAMPLES / "caught.rx", "--require", "status=0")
        self.assertEqual(done.returncode, 0)
        self.assertTrue(done.stdout.endswith("\n\nstatus=0: true of all 11 runs\n"))
        done = launch("sweep", EXAMPLES / "caught.rx", "--require", "status=0  prints=7,8")
        self.assertEqual(done.returncode, 1)
        told = "status=0 prints=7,8: not true of 6 of 11 runs; the least words:\n  rx10 step --kill 1@0 %s\n" % (EXAMPLES / "caught.rx")
        self.assertTrue(done.stdout.endswith(told), done.stdout)
        done = launch("sweep", EXAMPLES / "caught.rx", "--require", "print=7")
        self.assertEqual(done.returncode, 2)
        self.assertIn("the fields are status, prints, thrown, lost, masked", done.stderr)
        # a value that has lost its quotes, and one with a blank for a comma
        done = launch("sweep", EXAMPLES / "caught.rx", "--require", "prints=7", "8")
        self.assertEqual(done.returncode, 2)
        self.assertIn("`8` is one more; the value of `--require` is one word, in quotes where it has blanks", done.stderr)
        done = launch("sweep", EXAMPLES / "caught.rx", "--require=prints=7 8")
        self.assertEqual(done.returncode, 2)
        self.assertIn("values have commas between them", done.stderr)

    def test_max(self):
        done = launch("sweep", EXAMPLES / "hello.rx", "--places", "3", "--pairs", "--max", "40")
        self.assertIn("hello.rx --places 3: 40 of 120 runs (1 without a death, all 20 single deaths, 19 of 99 pairs, evenly spread), ", done.stdout)
        done = launch("sweep", EXAMPLES / "hello.rx", "--places", "3", "--pairs", "--max", "6")
        self.assertIn("hello.rx --places 3: 6 of about 121 runs (1 without a death, 5 of 20 single deaths, no pairs, ", done.stdout)
        self.assertEqual(launch("sweep", EXAMPLES / "hello.rx", "--max", "11").stdout, HELLO)

    def test_expect(self):
        with tempfile.TemporaryDirectory() as room:
            kept = pathlib.Path(room) / "kept"
            kept.write_text(HELLO)
            done = launch("sweep", EXAMPLES / "hello.rx", "--expect", kept)
            self.assertEqual((done.returncode, done.stdout), (0, "hello.rx: 11 runs, 3 outcomes: as expected\n"))
            kept.write_text(HELLO.replace("   1  1", "   2  1"))
            done = launch("sweep", EXAMPLES / "hello.rx", "--expect", kept)
            self.assertEqual(done.returncode, 1)
            self.assertIn("+   1  1       7", done.stdout)
            done = launch("sweep", EXAMPLES / "hello.rx", "--expect", EXAMPLES / "hello.rx")
            self.assertEqual((done.returncode, done.stdout), (125, ""))
            self.assertIn("hello.rx is no table that a sweep has written", done.stderr)

    def test_refusals(self):
        done = launch("sweep", EXAMPLES / "hello.rx", "--places", "17")
        self.assertEqual(done.returncode, 2)
        self.assertIn("from 1 to 16", done.stderr)
        self.assertIn("rx10 sweep %s --places 17" % (EXAMPLES / "hello.rx"), done.stderr)
        self.assertEqual(launch("sweep", "none.rx").returncode, 2)
        self.assertEqual(launch("sweep").returncode, 2)
        done = launch("sweep", EXAMPLES / "hello.trace")
        self.assertEqual(done.returncode, 3)
        self.assertIn("hello.trace:1:1: ", done.stderr)
        for words, told in ((["--paris"], "is `--pairs` meant?"), (["--max", "0"], "from 1"), (["more"], "takes one file"),
                            (["--pairs", "--no-deaths"], "exclude"), (["--require", ""], "nothing is required"), (["--seeds", "2", "--seed", "1"], "excludes")):
            done = launch("sweep", EXAMPLES / "hello.rx", *words)
            self.assertEqual(done.returncode, 2, words)
            self.assertIn(told, done.stderr)

    def test_outputs_that_can_not_be_written(self):
        for words, said in (["--help"], b"standard output could not be written"), ([str(EXAMPLES / "hello.rx")], b"standard output can't be written: No space left on device"):
            with open("/dev/full", "wb") as full:
                done = subprocess.run([TOP / "rx10", "sweep", *words], stdout=full, stderr=subprocess.PIPE, check=False)
            self.assertEqual((done.returncode, done.stderr), (125, b"rx10: %s\n" % said))

    def test_a_long_sweep_is_told_and_can_be_stopped(self):
        with tempfile.NamedTemporaryFile(suffix=".rx") as source:
            source.write(LONG)
            source.flush()
            words = [sys.executable, TOP / "tools" / "sweep.py", source.name, "--places", "16", "--pairs", "--require", "status=1"]
            # (where the tests run in the background, a Ctrl-C is ignored from the start)
            with subprocess.Popen(words, stdout=subprocess.PIPE, stderr=subprocess.PIPE,
                                  preexec_fn=lambda: signal.signal(signal.SIGINT, signal.SIG_DFL)) as started:
                first = started.stderr.readline()
                time.sleep(2.5)
                started.send_signal(signal.SIGINT)
                out, _ = started.communicate(timeout=60)
        self.assertRegex(first, rb"^rx10: this is a long sweep: about \d+ runs, about \d+ h; --max N makes N of them, and Ctrl-C ends it")
        self.assertEqual(started.returncode, 130)
        self.assertRegex(out, rb"^\S+ --places 16: stopped after \d+ of about \d+ runs, \d+ outcomes?\n\nruns ")
        self.assertIn(b"status=1: not true of ", out)


if __name__ == "__main__":
    unittest.main()
