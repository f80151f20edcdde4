"""`rx10 verify --why` and `rx10 laws`, as a user meets them, and the runtimes of docs/own-traces.md."""

import pathlib
import re
import subprocess
import sys
import tempfile
import unittest

from places import EXAMPLES, TOP
from test_launcher import launch, pair_of

import why

EARLY = """early.trace:11:1: entry 5: s1 is not quiet: t1 is live at place 1
   |
11 | 5 release t0 s1
   | ^^^^^^^^^^^^^^^
   = before it: t0 waits at s1; t1 is live at place 1
hello.rx:3:1: s1 is opened here (statement 0)
  |
3 | finish { at 1 async { print 7; } } print 8;
  | ^^^^^^
hello.rx:3:10: t1 is started here (statement 0.0)
  |
3 | finish { at 1 async { print 7; } } print 8;
  |          ^^
"""


class Room(unittest.TestCase):
    def setUp(self):
        room = tempfile.TemporaryDirectory(prefix="rx10 why ")
        self.addCleanup(room.cleanup)
        self.room = pathlib.Path(room.name)
        self.env = {"TMPDIR": room.name}
        self.script, self.trace = self.room / "hello.rx", self.room / "early.trace"
        self.script.write_bytes((EXAMPLES / "hello.rx").read_bytes())
        text = (EXAMPLES / "hello.trace").read_text()
        self.trace.write_text(text.replace("5 end t1\n6 release t0 s1", "5 release t0 s1\n6 end t1"))


class Why(Room):
    def test_two_files(self):
        for words in (["--why", "hello.rx", "early.trace"], ["hello.rx", "early.trace", "--why"]):
            done = launch("verify", *words, cwd=self.room, env=self.env)
            self.assertEqual((done.returncode, done.stdout, done.stderr), (1, "entry 5\n", EARLY))
        done = launch("verify", "hello.rx", "early.trace", cwd=self.room, env=self.env)
        self.assertEqual((done.returncode, done.stdout, done.stderr), (1, "entry 5\n", ""))
        self.assertEqual(sorted(it.name for it in self.room.iterdir()), ["early.trace", "hello.rx"])

    def test_pairs_and_pipes(self):
        pair = self.room / "pair"
        pair.write_bytes(pair_of(self.script.read_bytes(), self.trace.read_bytes()))
        done = launch("verify", "--why", "pair", cwd=self.room, env=self.env)
        self.assertIn("pair (its trace):11:1: entry 5: s1 is not quiet", done.stderr)
        self.assertIn("pair (its script):3:1: s1 is opened here", done.stderr)
        done = launch("verify", "--why", input=pair.read_bytes(), env=self.env)
        self.assertEqual((done.returncode, done.stdout), (1, "entry 5\n"))
        self.assertIn("standard input (its trace):11:1: entry 5: s1 is not quiet", done.stderr)
        done = launch("verify", "--why", self.script, "-", input=self.trace.read_bytes(), env=self.env)
        self.assertIn("standard input:11:1: entry 5: s1 is not quiet", done.stderr)

    def test_a_run_needs_no_reason(self):
        done = launch("verify", "--why", EXAMPLES / "hello.rx", EXAMPLES / "hello.trace", env=self.env)
        self.assertEqual((done.returncode, done.stdout, done.stderr), (0, "run\n", ""))

    def test_what_is_refused_is_told_as_before(self):
        script, trace = self.script, self.trace
        for words in ([script, script], [trace, trace], [script, "none.trace"], [script] * 3, ["--places", "2"], []):
            asked = launch("verify", "--why", *words, cwd=self.room, env=self.env)
            plain = launch("verify", *words, cwd=self.room, env=self.env)
            self.assertGreater(plain.returncode, 1)
            self.assertEqual((asked.returncode, asked.stdout, asked.stderr), (plain.returncode, plain.stdout, plain.stderr))

    def test_nothing_is_told_where_the_model_differs(self):
        files = self.script.read_bytes(), self.trace.read_bytes(), "hello.rx", "early.trace"
        self.assertEqual(why.reason("entry 5", *files) + "\n", EARLY)
        for verdict in ("entry 6", "end", "run", ""):
            self.assertIsNone(why.reason(verdict, *files))


class Laws(Room):
    def test_answers(self):
        done = launch("laws", EXAMPLES / "hello.trace", env={"RX10_PROGRAM": "/none"})
        self.assertEqual((done.returncode, done.stderr), (0, ""))
        self.assertEqual([line.split()[-1] for line in done.stdout.splitlines()], ["yes", "yes", "yes", "yes", "proved)"])
        done = launch("laws", "-", input=self.trace.read_bytes())
        self.assertEqual((done.returncode, done.stderr), (1, ""))
        wanted = "nothing is released early       no: entry 5: t1 is under s1, and no end and no death of it comes before"
        self.assertEqual(done.stdout.splitlines()[1], wanted)

    def test_wrong_input(self):
        done = launch("laws", "hello.rx", cwd=self.room)
        self.assertEqual((done.returncode, done.stdout, done.stderr.split("\n")[:2]),
                         (10, "", ["bad line 1", "hello.rx:1:1: line 1 of the trace can't stand here"]))
        for words, status in (([], 2), (["a", "b"], 2), (["--all"], 2), (["none.trace"], 2), ([self.room], 2), (["--help"], 0)):
            self.assertEqual(launch("laws", *words, cwd=self.room).returncode, status, words)
        self.assertEqual(launch("laws", "-", input=b"\xff\n").returncode, 10)


class OwnTraces(Room):
    """The runtimes of docs/own-traces.md write traces of runs, however their threads go."""

    def judged(self, program):
        files = self.room / "own.rx", self.room / "own.trace"
        done = subprocess.run([sys.executable, EXAMPLES / program, *files], capture_output=True, timeout=60, check=False)
        self.assertEqual((done.returncode, done.stderr), (0, b""))
        done = launch("verify", "--why", *files, env=self.env)
        self.assertEqual((done.stdout, done.stderr), ("run\n", ""))
        self.assertEqual(launch("laws", files[1]).returncode, 0)
        return files[1].read_text()

    def test_two_threads(self):
        for _ in range(3):
            self.judged("two_threads.py")

    def test_two_places(self):
        seen = set()
        for _ in range(60):
            trace = self.judged("two_places.py")
            seen.add(("death 1" in trace, "lost 1" in trace))
            if len(seen) > 1 and (True, True) in seen:
                return
        self.fail("the place dies always, or never while the task is there: %s" % seen)

    def test_a_runtime_that_does_not_wait(self):
        text = (EXAMPLES / "two_threads.py").read_text().replace("    for thread in threads:\n        thread.join()\n", "")
        hasty = self.room / "hasty.py"
        hasty.write_text(text.replace("def work(task, path):\n", "def work(task, path):\n    __import__('time').sleep(0.2)\n"))
        subprocess.run([sys.executable, hasty, "two.rx", "two.trace"], cwd=self.room, timeout=60, check=True)
        done = launch("verify", "--why", "two.rx", "two.trace", cwd=self.room, env=self.env)
        self.assertEqual((done.returncode, done.stdout), (1, "entry 4\n"))
        self.assertIn("```\n%s```" % done.stderr, (TOP / "docs" / "own-traces.md").read_text())

    def test_the_page_shows_them(self):
        page = (TOP / "docs" / "own-traces.md").read_text()
        shown = re.findall(r"```python\n(.*?)```", page, re.S)
        self.assertTrue(shown)
        programs = [(EXAMPLES / name).read_text() for name in ("two_threads.py", "two_places.py")]
        for part in shown:
            self.assertTrue(any(part in text for text in programs), part)
