"""What --coverage lists."""

import pathlib
import re
import subprocess
import sys
import tempfile
import unittest

import alone
import reached


class Lines(unittest.TestCase):
    def test_in_words(self):
        for numbers, text in (([], ""), ([3], "3"), ([3, 4], "3-4"), ([1, 3, 4, 5, 9], "1, 3-5, 9")):
            self.assertEqual(reached.in_words(numbers), text)

    def test_what_is_missing(self):
        with tempfile.TemporaryDirectory() as folder:
            package = pathlib.Path(folder)
            (package / "__init__.py").write_text("a = 1\n")
            (package / "it.py").write_text("def f(x):\n    if x:\n        return 1\n\n    return 2\n\n\nclass C:\n    def g(self):\n        f(1)\n")
            self.assertEqual(list(reached.missing(package, {"it.py": {1, 2, 3, 8, 9}})), ["not reached: rx10/it.py: 5, 10"])
            self.assertEqual(list(reached.missing(package, {"it.py": {1, 2, 3, 5, 8, 9, 10}})), [])
            self.assertEqual(list(reached.missing(package, {})), ["not reached: rx10/it.py: 1-3, 5, 8-10"])

    def test_a_run(self):
        """Lines that a test reaches are not listed, also those that another process reaches; others are."""
        done = subprocess.run([sys.executable, str(alone.HERE / "run.py"), "--coverage", "test_errors", "test_around.Traces.test_a_record"], capture_output=True,
                              text=True, timeout=alone.LIMIT, check=False)
        self.assertEqual(done.returncode, 0, done.stdout + done.stderr)
        told = dict(re.findall(r"(?m)^not reached: rx10/(\S+): (.*)$", done.stdout))
        self.assertNotIn("version.py", told)
        self.assertIn("hub/core.py", told)
        source = (alone.PYTHON / "rx10" / "trace.py").read_text(encoding="utf-8").split("\n")
        left = {number for span in told["trace.py"].split(", ") for first, _, last in [span.partition("-")] for number in range(int(first), int(last or first) + 1)}
        self.assertNotIn(source.index("    history = History()") + 1, left)
        self.assertIn(source.index('        sys.stderr.write("usage: python -m rx10.trace RECORD\\n")') + 1, left)
