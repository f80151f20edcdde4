"""Random jobs whose places are killed: 100 here, some of them wide. RX10_JOBS=1000 runs more."""

import concurrent.futures
import os
import re
import unittest

import alone

JOBS = int(os.environ.get("RX10_JOBS", "100"))
MOST, WIDE = JOBS * 9 // 20, JOBS - 2 * (JOBS * 9 // 20)
PARTS = [["--jobs", str(MOST), "--seed", "1"], ["--jobs", str(MOST), "--seed", "2"], ["--jobs", str(WIDE), "--seed", "3", "--wide"]]


def play(words):
    return alone.run([*alone.BARE, "-m", "jobs", *words], limit=alone.LIMIT + 10 * JOBS)


class Jobs(unittest.TestCase):
    def test_many_jobs(self):
        with concurrent.futures.ThreadPoolExecutor(2) as pool:
            results = list(pool.map(play, PARTS))
        for result in results:
            result.check(self)
            self.assertRegex(result.output, " 0 with problems")
        deaths = sum(int(re.search(r"'deaths': (\d+)", result.output)[1]) for result in results)
        self.assertGreater(deaths, JOBS // 3)
