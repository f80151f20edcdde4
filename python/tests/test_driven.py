"""The hub's core over every order of events, without a process."""

import os
import unittest

import driven

RUNS = int(os.environ.get("RX10_DRIVEN_RUNS", "3000"))


class Driven(unittest.TestCase):
    def test_many_orders(self):
        counts = driven.run_many(RUNS, 1)
        self.assertGreater(counts["deaths"], RUNS)
        self.assertGreater(counts["late"], 0)
