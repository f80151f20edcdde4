"""Each wrong runtime is refused, and the right one is not."""

import concurrent.futures
import unittest

from mutants import CONTROL, MUTANTS, refusal

AT_A_TIME = 2
RUNS, JOBS = 500, 8             # of a wrong runtime at most: most are refused by the first few
FEW = 2                         # jobs of the right one, which other tests try


class Mutants(unittest.TestCase):
    @classmethod
    def setUpClass(cls):
        cls.pool = concurrent.futures.ThreadPoolExecutor(AT_A_TIME)
        cls.refusals = {name: cls.pool.submit(refusal, name, RUNS, FEW if name == CONTROL else JOBS) for name in MUTANTS}

    @classmethod
    def tearDownClass(cls):
        cls.pool.shutdown()


def add(name):
    def test(self):
        said = self.refusals[name].result()
        if name == CONTROL:
            self.assertIsNone(said, said)
        else:
            self.assertIsNotNone(said)
    setattr(Mutants, f"test_{name.replace(' ', '_')}", test)


for each in MUTANTS:
    add(each)
