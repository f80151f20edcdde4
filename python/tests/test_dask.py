"""Over Dask, where a Python of this machine has it: each situation ends as it should, and random jobs keep what is promised."""

import concurrent.futures
import os
import unittest

import alone
from dask_situations import SITUATIONS
from rx10.engines.dask import Dask
from rx10.engines.door import Refused

AT_A_TIME = 3                   # most of their time they wait
JOBS = os.environ.get("RX10_DASK_JOBS", "6")
PYTHON = alone.python_with("distributed")


class Future:
    """What a client of Dask gives for a task."""

    def __init__(self):
        self.is_cancelled = False

    def cancel(self):
        self.is_cancelled = True


class Keepers(unittest.TestCase):
    """A keeper is submitted once its worker has answered, which may be after its place has died or the job is over. No Dask is needed."""

    def setUp(self):
        self.engine, self.futures = Dask(self, ["tcp://a", "tcp://b", "tcp://c"], [], None), []

    def submit(self, *args, **options):
        """The client's call."""
        self.futures.append(Future())
        return self.futures[-1]

    def test_one_that_comes_late_is_cancelled(self):
        self.engine.ended((1, "tcp://a"))
        self.engine._keep(1, "tcp://a")
        self.engine._keep(2, "tcp://b")
        self.assertEqual([it.is_cancelled for it in self.futures], [True, False])
        self.assertEqual(self.engine._take_keepers(), [self.futures[1]])
        self.engine._keep(3, "tcp://c")
        self.assertEqual([it.is_cancelled for it in self.futures], [True, False, True])
        self.assertEqual(self.engine._take_keepers(), [])


class Newcomers(unittest.TestCase):
    """Who comes over the network is one that was asked to, and still wanted. No Dask is needed."""

    def setUp(self):
        self.engine = Dask(self, ["tcp://a"], [], None)
        self.engine._unused.clear()
        self.engine._expected.update({1: ("tcp://a", 7), 2: ("tcp://b", 8)})

    def test_who_was_not_asked(self):
        self.engine.check(1)
        self.assertRaises(Refused, self.engine.check, 3)
        self.assertIn("no place came from tcp://a, tcp://b", self.engine.describe())

    def test_who_was_given_up(self):
        self.engine.job, told = self, []
        self.no_place = lambda *words: told.append(words)
        self.engine.give_up(7, "it is late")
        self.assertEqual(told, [(7, "it is late")])
        self.assertRaises(Refused, self.engine.check, 1)
        self.engine.check(2)
        self.assertEqual(self.engine._unused, ["tcp://a"])


@unittest.skipUnless(PYTHON, "no Python of this machine has Dask's distributed")
class OverDask(unittest.TestCase):
    @classmethod
    def setUpClass(cls):
        cls.pool = concurrent.futures.ThreadPoolExecutor(AT_A_TIME)
        cls.results = {"jobs": cls.run_it("-m", "jobs", "--dask", "--jobs", JOBS, "--seed", "5", limit=alone.LIMIT * (1 + int(JOBS))),
                       "sweep": cls.run_it(str(alone.PYTHON / "examples" / "sweep.py"), "--dask", "--kill")}
        cls.results.update((name, cls.run_it("-m", "dask_situations", name)) for name in SITUATIONS)

    @classmethod
    def run_it(cls, *words, limit=alone.LIMIT):
        return cls.pool.submit(alone.run, [PYTHON, *words], limit)

    @classmethod
    def tearDownClass(cls):
        cls.pool.shutdown()

    def test_random_jobs(self):
        result = self.results["jobs"].result()
        result.check(self)
        self.assertRegex(result.output, r"\d jobs, 0 with problems")

    def test_the_sweep(self):
        result = self.results["sweep"].result()
        result.check(self)
        self.assertIn("100 points done, the sum is 328350", result.output)


def add(name):
    def test(self):
        self.results[name].result().check(self)
    setattr(OverDask, f"test_{name}", test)


for each in SITUATIONS:
    add(each)
