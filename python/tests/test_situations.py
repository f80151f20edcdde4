"""Each situation of situations.py ends as it should, and leaves no process behind."""

import concurrent.futures
import signal
import unittest

import alone
from situations import SITUATIONS

AT_A_TIME = 3                   # most of their time they wait
KILLED = {"driver_killed", "driver_killed_and_its_child_lives"}


def run(name):
    return alone.run([*alone.BARE, "-m", "situations", name])


class Situations(unittest.TestCase):
    wanted = []                 # the tests that were asked for, of which there may be one

    def __init__(self, method="runTest"):
        super().__init__(method)
        self.wanted.append(method)

    @classmethod
    def setUpClass(cls):
        cls.pool = concurrent.futures.ThreadPoolExecutor(AT_A_TIME)
        cls.results = {name: cls.pool.submit(run, name) for name in SITUATIONS if f"test_{name}" in cls.wanted}

    @classmethod
    def tearDownClass(cls):
        cls.pool.shutdown(cancel_futures=True)


def add(name):
    def test(self):
        result = self.results[name].result()
        result.check(self, -signal.SIGKILL if name in KILLED else 0)
        if name == "driver_killed_and_its_child_lives":
            self.assertIn("none is left", result.output)
    setattr(Situations, f"test_{name}", test)


for each in SITUATIONS:
    add(each)
