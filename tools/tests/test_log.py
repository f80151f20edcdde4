"""The log of a session of the coordinator, as `rx10 draw` and `rx10 laws` take it."""

import pathlib
import subprocess
import sys
import tempfile
import unittest

import log_text
import trace_text
from places import TOP

LOG = """0 join 1
1 join 2
2 open t0 s1 in s0 0
3 spawn t0 t1 in s1 0 1 0
4 spawn t0 t2 in s1 0 2 0
5 arrive t2 2
6 wait t0 s1
7 death 2
8 arrive t1 1
9 end t1 thrown code:5
10 release t0 s1 lost 2 thrown code:5
11 end t0
12 release host s0
"""


def tool(name, log, *words):
    with tempfile.TemporaryDirectory() as folder:
        path = pathlib.Path(folder, "job.log")
        path.write_text(log)
        return subprocess.run([sys.executable, str(TOP / "tools" / name), str(path), *words], capture_output=True, text=True, timeout=60, check=False)


class Log(unittest.TestCase):
    def test_the_trace_of_a_log(self):
        lines = log_text.trace_of(LOG).split("\n")
        self.assertEqual(lines[:5], ["rx10 trace 2", "places 1 heap 1", "kills 2@7", "joins 0 1", "history"])
        self.assertEqual(lines[-6:], ["journal 0", "journal 1", "journal 2", "0 7 close", "done", ""])
        self.assertEqual([entry.line for entry in trace_text.read_trace("\n".join(lines)).entries], LOG.splitlines())

    def test_what_is_a_log(self):
        self.assertTrue(log_text.is_log(LOG))
        for text in ("", "rx10 trace 2\n", "0 print t0 5 0\n", "1 join 1\n"):
            self.assertFalse(log_text.is_log(text), text)

    def test_places_that_no_join_tells(self):
        self.assertEqual(log_text.opening(["0 spawn t0 t1 in s0 0 3 0", "1 arrive t1 3"]), 4)
        self.assertEqual(log_text.opening(["0 release t0 s1 lost 2 5 masked 9 thrown code:7"]), 6)
        self.assertEqual(log_text.opening(["0 end t0"]), 1)

    def test_laws(self):
        for log in (LOG, LOG + "13 joi", LOG[:LOG.index("8 arrive")]):
            done = tool("laws.py", log)
            self.assertEqual((done.returncode, done.stdout.count(" yes")), (0, 4), done)
        done = tool("laws.py", LOG.replace("lost 2 ", ""))
        self.assertEqual(done.returncode, 1)
        self.assertIn("entry 10", done.stdout)

    def test_a_line_that_is_none(self):
        done = tool("laws.py", LOG.replace("6 wait", "7 wait"))
        self.assertEqual((done.returncode, done.stderr.split("\n")[0]), (10, "bad line 7"))
        done = tool("draw.py", LOG.replace("6 wait", "7 wait"), "-o", "-")
        self.assertEqual(done.returncode, 10)
        self.assertIn("from line 7 on", done.stderr)

    def test_a_picture(self):
        done = tool("draw.py", LOG, "-o", "-", "--svg")
        self.assertEqual(done.returncode, 0, done.stderr)
        self.assertIn("<svg", done.stdout)


if __name__ == "__main__":
    unittest.main()
