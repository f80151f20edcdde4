"""Each situation of task_situations.py ends as it should, and leaves no process behind."""

import concurrent.futures
import sys
import unittest

import alone
from task_situations import SITUATIONS

AT_A_TIME = 3                   # most of their time they wait


OTHERS = {minor: alone.python_of(minor) for minor in range(9, 14) if minor != sys.version_info[1]}
OF_EACH = ["groups", "lines_of_ours_in_a_traceback"]     # what is not the same in each Python: groups and tracebacks


def run(name, python=sys.executable):
    return alone.run([python, "-S", "-m", "task_situations", name])


class TaskSituations(unittest.TestCase):
    wanted = []                 # the tests that were asked for, of which there may be one

    def __init__(self, method="runTest"):
        super().__init__(method)
        self.wanted.append(method)

    @classmethod
    def setUpClass(cls):
        cls.pool = concurrent.futures.ThreadPoolExecutor(AT_A_TIME)
        cls.results = {name: cls.pool.submit(run, name) for name in SITUATIONS if f"test_{name}" in cls.wanted}

    @classmethod
    def tearDownClass(cls):
        cls.pool.shutdown()


def add(name):
    def test(self):
        self.results[name].result().check(self)
    setattr(TaskSituations, f"test_{name}", test)


for each in SITUATIONS:
    add(each)


class OtherPythons(unittest.TestCase):
    """Groups of faults and tracebacks, in each Python from 3.9 to 3.13 that is here."""


def add_python(minor, python):
    @unittest.skipUnless(python, f"Python 3.{minor} is not here")
    def test(self):
        for name in OF_EACH:
            with self.subTest(name):
                run(name, python).check(self)
    setattr(OtherPythons, f"test_3_{minor:02}", test)


for each in OTHERS.items():
    add_python(*each)
