"""The model of the rules: it comes to the verdicts of the program, and says why."""

import collections
import concurrent.futures
import subprocess
import sys
import unittest

from places import EXAMPLES, PROGRAM, TOP

sys.path.append(str(TOP / "tests" / "hostile"))

import trace_text
import verdicts
from model.laws import History
from model.lines import first_bad_line
from model.verdict import judge
from program import Answer

SEED = 57
SCRIPTS = 230       # with ten traces each
HELLO = (EXAMPLES / "hello.rx").read_bytes()


def run(words, text):
    done = subprocess.run([PROGRAM, *words], input=text, capture_output=True, timeout=120, check=False)
    return Answer(done.returncode, done.stdout, done.stderr)


def trace_of(*changes, name="hello"):
    """The trace of an example with lines replaced (by text, or by None to leave them out); numbers are those of the text, from 1."""
    lines = (EXAMPLES / (name + ".trace")).read_text().split("\n")
    for number, text in sorted(changes, reverse=True):
        lines[number - 1:number] = [] if text is None else [text]
    return "\n".join(lines)


class Agreement(unittest.TestCase):
    """Random scripts under deaths and joins, with damaged traces."""

    def test_program_and_model_agree(self):
        counts = collections.Counter()
        with concurrent.futures.ThreadPoolExecutor(4) as pool:
            found = pool.map(lambda number: verdicts.judged_case(run, SEED, number, counts), range(SCRIPTS))
            self.assertEqual([wrong for wrong in found if wrong], [])
        self.assertGreaterEqual(sum(counts.values()), 2000, counts)
        for word, least in (("entry", 500), ("event", 50), ("end", 50), ("bad", 50), ("run", 200)):
            self.assertGreaterEqual(counts[word], least, counts)

    def test_laws_hold_of_runs(self):
        for path in sorted(EXAMPLES.glob("*.trace")):
            history = History(trace_text.read_trace(path.read_text()).entries)
            self.assertEqual((history.early(), history.inexact(), history.unmasked()), ({}, {}, {}), path.name)


class Laws(unittest.TestCase):
    """Histories of which a law does not hold."""

    def laws(self, *changes, name="hello"):
        history = History(trace_text.read_trace(trace_of(*changes, name=name)).entries)
        return [sorted(found) for found in (history.early(), history.inexact(), history.unmasked())]

    def test_a_release_that_is_early(self):
        self.assertEqual(self.laws((11, "5 release t0 s1"), (12, "6 end t1")), [[5], [], []])
        self.assertEqual(self.laws((11, "5 arrive t1 1")), [[6, 9], [], []])

    def test_a_loss_that_is_not_exact(self):
        self.assertEqual(self.laws((10, "4 release t0 s1"), name="lost_place"), [[], [4], []])
        self.assertEqual(self.laws((12, "6 release t0 s1 lost 1")), [[], [6], []])

    def test_a_masked_fault_without_a_loss(self):
        self.assertEqual(self.laws((12, "6 release t0 s1 masked 1")), [[], [], [6]])


class Lines(unittest.TestCase):
    """The line at which a text is no trace."""

    def test_bad_lines(self):
        for changes, line in [
            ([(1, "rx10 trace 1")], 1), ([(2, "places 17 heap 1")], 2), ([(3, "kills 0@1")], 3), ([(3, "kills 2@1")], 4),
            ([(3, "kills 2@1"), (4, "joins 1")], 18), ([(3, "kills 2@1"), (4, "joins 2")], 4), ([(4, "joins 2 1")], 4),
            ([(6, "1 open t0 s1 in s0 0")], 6), ([(6, "0 open t0 s1 in s0 0 ")], 6), ([(10, "4 print t1 -0 0.0.0")], 10),
            ([(10, "4 print t1 9223372036854775808 0.0.0")], 10), ([(12, "6 release t0 s1 masked 0")], 12),
            ([(12, "6 release t0 s1 lost 1 0")], 12), ([(12, "6 release t0 s1 thrown code:1 lost 1")], 12),
            ([(15, "9 release host s0 | 0")], 15), ([(17, None)], 17), ([(18, "done\nx")], 19), ([(18, None)], 18), ([], None),
        ]:
            with self.subTest(changes=changes):
                text = trace_of(*changes)
                self.assertEqual(first_bad_line(text), line)
                answer = run(["verify"], verdicts.pair(HELLO, text.encode()))
                self.assertEqual(answer.err.decode(), "" if line is None else "bad line %d\n" % line)


# What is changed in the trace of hello.rx or of another example, the verdict, and a part of the reason.
REASONS = [
    ("hello", [(11, "5 release t0 s1"), (12, "6 end t1")], "entry 5", "s1 is not quiet: t1 is live at place 1"),
    ("hello", [(9, "3 release t0 s1")], "entry 3", "s1 is not quiet: t1 still travels from place 0 to place 1"),
    ("hello", [(10, "4 print t1 8 0.0.0")], "entry 4", "by the script t1 now prints 7"),
    ("hello", [(10, "4 print t1 7 0.0.1")], "entry 4", "the path of this statement is 0.0.0"),
    ("hello", [(10, "4 print t1 7 0.0.0 | 0")], "entry 4", "t1 has begun no statement that stands in a batch"),
    ("hello", [(11, "5 end t1 thrown code:1")], "entry 5", "by the script t1 now ends"),
    ("hello", [(11, "5 print t0 8 1")], "entry 5", "t0 waits at s1, so it can do nothing else"),
    ("hello", [(12, "6 release t0 s1 lost 1")], "entry 6", "lost are none; the entry names 1"),
    ("hello", [(12, "6 release t0 s1 masked 2")], "entry 6", "0 faults are masked below s1; the entry tells of 2"),
    ("hello", [(15, None)], "end", "no task is left"),
    ("hello", [(14, None), (15, None)], "end", "t0 is live at place 0"),
    ("hello", [(3, "kills 1@3")], "entry 3", "the death of place 1 is due from moment 3 on, and comes first"),
    ("hello", [(9, "3 death 1")], "entry 3", "no death and no join is left"),
    ("lost_place", [(3, "kills 1@4")], "entry 3", "the death of place 1 is due from moment 4 on, and no sooner"),
    ("lost_place", [(15, None)], "open 1", "place 1 dies at entry 3, and its journal has no close"),
    ("lost_place", [(15, "0 4 close")], "event 1 0", "place 1 dies at entry 3"),
    ("lost_place", [(15, "0 3 close\n1 3 close")], "event 1 1", "the journal is closed"),
    ("stale", [], "run", None),
]


class Reasons(unittest.TestCase):
    def test_reasons(self):
        for name, changes, verdict, part in REASONS:
            with self.subTest(name=name, changes=changes):
                script = (EXAMPLES / (name + ".rx")).read_bytes()
                text = trace_of(*changes, name=name)
                found = judge(script, trace_text.read_trace(text))
                self.assertEqual(found.text, verdict)
                self.assertEqual(run(["verify"], verdicts.pair(script, text.encode())).out.decode(), verdict + "\n")
                if part is not None:
                    self.assertIn(part, found.reason)
