"""The programs that docs/python.md shows run, and end as it says."""

import pathlib
import re
import sys
import tempfile
import unittest

import alone

PAGE = alone.PYTHON.parent / "docs" / "python.md"


def programs():
    """The code of the page that is whole, in order."""
    blocks = re.findall(r"^```python\n(.*?)^```$", PAGE.read_text(encoding="utf-8"), re.DOTALL | re.MULTILINE)
    return [block for block in blocks if "__main__" in block]


class Programs(unittest.TestCase):
    def play(self, number):
        with tempfile.TemporaryDirectory() as folder:
            path = pathlib.Path(folder, "shown.py")
            path.write_text(programs()[number], encoding="utf-8")
            done = alone.run([sys.executable, str(path)])
        done.check(self)
        return done.output

    def test_the_first(self):
        output = self.play(0)
        self.assertIn(f"```\n{output}```", PAGE.read_text(encoding="utf-8"))

    def test_the_tutorial(self):
        self.assertEqual(self.play(1), "328350\n")

    def test_no_others(self):
        self.assertEqual(len(programs()), 2)
