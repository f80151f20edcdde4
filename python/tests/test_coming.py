"""Each situation of coming.py ends as it should, and leaves no process behind."""

import concurrent.futures
import secrets
import tempfile
import unittest

import alone
from coming import SITUATIONS

AT_A_TIME = 3                   # most of their time they wait


def run(name):
    with tempfile.TemporaryDirectory() as folder:
        return alone.run([*alone.BARE, "-m", "coming", name], env={"RX10_TOKEN": secrets.token_hex(16), "FOLDER": folder}, limit=300)


class Coming(unittest.TestCase):
    @classmethod
    def setUpClass(cls):
        cls.pool = concurrent.futures.ThreadPoolExecutor(AT_A_TIME)
        cls.results = {name: cls.pool.submit(run, name) for name in SITUATIONS}

    @classmethod
    def tearDownClass(cls):
        cls.pool.shutdown()


def add(name):
    def test(self):
        self.results[name].result().check(self)
    setattr(Coming, f"test_{name}", test)


for each in SITUATIONS:
    add(each)
