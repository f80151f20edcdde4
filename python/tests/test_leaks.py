"""Jobs leave nothing in their driver, and tasks nothing in their job. RX10_LEAKS=1 runs the whole: 200 jobs of each engine, 100,000 tasks."""

import concurrent.futures
import os
import sys
import unittest

import alone

WHOLE = bool(os.environ.get("RX10_LEAKS"))
JOBS = {"local": 40, "launched": 12, "dask": 8}
TASKS = 100_000 if WHOLE else 10_000
PYTHONS = {"local": sys.executable, "launched": sys.executable, "dask": alone.python_with("distributed")}
TESTS = {"local": "test_many_local_jobs", "launched": "test_many_launched_jobs", "dask": "test_many_jobs_over_dask"}
AT_A_TIME = 2                   # most of their time they wait


class Leaks(unittest.TestCase):
    wanted = []                 # the tests that were asked for, of which there may be one

    def __init__(self, method="runTest"):
        super().__init__(method)
        self.wanted.append(method)

    @classmethod
    def setUpClass(cls):
        cls.pool = concurrent.futures.ThreadPoolExecutor(AT_A_TIME)
        cls.results = {}
        if "test_many_tasks" in cls.wanted:
            cls.results["tasks"] = cls.start(sys.executable, "tasks", str(TASKS))
        for engine, python in PYTHONS.items():
            if python is not None and TESTS[engine] in cls.wanted:
                cls.results[engine] = cls.start(python, "jobs", engine, str(200 if WHOLE else JOBS[engine]))

    @classmethod
    def start(cls, python, *words):
        bare = alone.BARE if python == sys.executable else [python]
        return cls.pool.submit(alone.run, [*bare, "-m", "leaks", *words], alone.LIMIT * (5 if WHOLE else 1))

    @classmethod
    def tearDownClass(cls):
        cls.pool.shutdown()

    def check(self, name):
        self.results[name].result().check(self)

    def test_many_tasks(self):
        self.check("tasks")

    def test_many_local_jobs(self):
        self.check("local")

    def test_many_launched_jobs(self):
        self.check("launched")

    @unittest.skipUnless(PYTHONS["dask"], "no Python of this machine has Dask's distributed")
    def test_many_jobs_over_dask(self):
        self.check("dask")
