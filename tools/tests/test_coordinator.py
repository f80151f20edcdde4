"""The session of docs/coordinator.md is what the program answers, and its greeting and words are the program's."""

import os
import re
import subprocess
import tempfile
import unittest

from places import COORDINATOR, TOP

TEXT = (TOP / "docs" / "coordinator.md").read_text()
BLOCKS = re.findall(r"^```\n(.*?)^```$", TEXT, re.M | re.S)


def run(*words, given=""):
    return subprocess.run([COORDINATOR, *words], input=given, capture_output=True, text=True, timeout=60, check=False)


@unittest.skipUnless(os.path.exists(COORDINATOR), "the program is not built")
class Coordinator(unittest.TestCase):
    maxDiff = None

    def test_session(self):
        session = next(block for block in BLOCKS if "> " in block)
        requests = re.findall(r"^> (.*)$", session, re.M)
        replies = re.sub(r"^> .*\n", "", session, flags=re.M)
        self.assertEqual(run(given="".join(line + "\n" for line in requests)).stdout, replies)

    def test_log(self):
        session = next(block for block in BLOCKS if "> " in block)
        requests = "".join(line + "\n" for line in re.findall(r"^> (.*)$", session, re.M))
        begins = next(block for block in BLOCKS if block.startswith("0 join"))
        with tempfile.TemporaryDirectory() as folder:
            log = os.path.join(folder, "log")
            self.assertEqual(run("--log", log, given=requests).returncode, 0)
            with open(log, encoding="ascii") as file:
                self.assertTrue(file.read().startswith(begins))
            again = run("--log", log, given=requests)
        self.assertEqual((again.returncode, again.stdout), (12, ""))
        self.assertRegex(again.stderr, r"\Ano log: .* has bytes already\n\Z")

    def test_greeting(self):
        self.assertEqual(run().stdout, BLOCKS[0])
        self.assertIn("places 16 most 16", run("--places", "16").stdout)

    def test_each_request_is_told(self):
        told = set(re.findall(r"^\| `(\w+)(?: T| P|` \|)", TEXT, re.M))
        self.assertEqual(told - {"bad", "full", "malformed"},
                         {"open", "spawn", "send", "at", "arrive", "wait", "release", "end", "death", "join", "root"})

    def test_words(self):
        self.assertIn("--places N", run("--help").stdout)
        self.assertIn("--log FILE", run("--help").stdout)
        self.assertRegex(run("--version").stdout, r"\Arx10-coordinator \d+\n\Z")
        for words in (["--places"], ["--places", "0"], ["--places", "17"], ["--places", "1", "x"], ["x"], ["--help", "x"], ["--log"],
                      ["--log", "/nowhere/x", "--log", "/nowhere/y"]):
            self.assertEqual(run(*words).returncode, 2, words)
