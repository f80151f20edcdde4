"""Each example gives the trace that stands beside it, by the words that it names. One of `live` has none: its traces differ."""

import itertools
import pathlib
import re
import subprocess
import unittest

from places import EXAMPLES, PICTURES, PROGRAM, TOP
from test_launcher import pair_of

import trace_text

RUN = re.compile(r"Run it with: \./rx10 (step.*) (examples/\S+)$", re.M)
LIVE = re.compile(r"Run it with: \./rx10 (live.*) (examples/\S+)$", re.M)


def judged(path, trace):
    """The verdict on a trace of a script."""
    pair = pair_of(path.read_bytes(), trace)
    return subprocess.run([PROGRAM, "verify"], input=pair, capture_output=True, timeout=60, check=False).stdout


class Examples(unittest.TestCase):
    """One test for each script; they are made below."""

    maxDiff = None

    def try_example(self, path):
        found = RUN.search(path.read_text())
        self.assertIsNotNone(found, "the example names no words: `Run it with: ./rx10 step .. examples/%s`" % path.name)
        self.assertEqual(TOP / found[2], path)
        with open(path, "rb") as source:
            done = subprocess.run([PROGRAM, *found[1].split()], stdin=source, capture_output=True, timeout=60, check=False)
        self.assertEqual(done.stdout.decode(), path.with_suffix(".trace").read_text())
        self.assertEqual(judged(path, done.stdout), b"run\n")
        root = trace_text.read_trace(done.stdout.decode()).root()
        self.assertEqual(done.returncode, 1 if root.lost or root.thrown else 0)
        self.assertEqual(done.stderr, b"")

    def test_each_has_a_trace(self):
        self.assertEqual({it.stem for it in SCRIPTS} | {"lost_update"}, {it.stem for it in EXAMPLES.glob("*.trace")})

    def test_a_run_that_no_picks_give(self):
        path = EXAMPLES / "lost_update.rx"
        trace = path.with_suffix(".trace").read_bytes()
        self.assertEqual(judged(path, trace), b"run\n")
        self.assertIn(b" print t0 1 ", trace)
        # the turns at which several tasks can move are the third to the sixth
        lists = [["--pick", ",".join("00" + "".join(it))] for it in itertools.product("012", repeat=4)]
        for words in [*lists, *(["--seed", str(it)] for it in range(20))]:
            with open(path, "rb") as source:
                done = subprocess.run([PROGRAM, "step", *words], stdin=source, capture_output=True, timeout=60, check=False)
            self.assertIn(b" print t0 2 ", done.stdout, words)

    def test_workers_differ_in_nothing_that_the_example_names(self):
        path = EXAMPLES / "workers.rx"
        words = LIVE.search(path.read_text())[1].split()
        for _ in range(20):
            with open(path, "rb") as source:
                done = subprocess.run([PROGRAM, *words], stdin=source, capture_output=True, timeout=60, check=False)
            self.assertEqual(done.returncode, 0)
            self.assertEqual(judged(path, done.stdout), b"run\n")
            acts = [line.split()[1:] for line in done.stdout.decode().splitlines()]
            printed = [act[2] for act in acts if act[:1] == ["print"]]
            self.assertEqual(sorted(printed), ["1", "2", "3", "6"])
            self.assertEqual(printed[-1], "6")
            # three activities and their three calls
            before = acts[: acts.index(["release", "t0", "s1"])]
            self.assertEqual(sum(act[:1] == ["end"] for act in before), 6)

    def test_pictures_are_of_the_traces(self):
        for picture in PICTURES.glob("*.svg"):
            trace = EXAMPLES / (picture.stem + ".trace")
            if not trace.exists():
                continue
            done = subprocess.run([TOP / "rx10", "draw", trace, "--svg", "-o", "-"], capture_output=True, timeout=60, check=False)
            self.assertEqual(done.stdout.decode(), picture.read_text(), "make it again: ./rx10 draw %s -o %s" % (trace, picture))


def add(path):
    setattr(Examples, "test_" + path.stem, lambda self: self.try_example(path))


SCRIPTS = [it for it in sorted(EXAMPLES.glob("*.rx")) if not LIVE.search(it.read_text())]

for it in SCRIPTS:
    add(pathlib.Path(it))
