"""The tables of the tutorial are those that its sweeps make, and its pictures and scripts are there."""

import re
import unittest

from places import TOP
from test_launcher import launch

TEXT = (TOP / "docs" / "tutorial.md").read_text()


class Tutorial(unittest.TestCase):
    maxDiff = None

    def test_sweeps(self):
        blocks = re.findall(r"^```\n(.*?)^```$", TEXT, re.M | re.S)
        sweeps = [(it, blocks[i + 1]) for i, it in enumerate(blocks[:-1]) if it.startswith("./rx10 sweep") and ">" not in it]
        self.assertEqual(len(sweeps), 2)
        for command, table in sweeps:
            self.assertEqual(launch(*command.split()[1:], cwd=TOP).stdout, table)

    def test_scripts_and_pictures_are_there(self):
        for name in re.findall(r"examples/\w+\.\w+", TEXT):
            self.assertTrue((TOP / name).exists(), name)
        for name in re.findall(r"\]\((pictures/[^)]*)\)", TEXT):
            self.assertTrue((TOP / "docs" / name).exists(), name)

    def test_scripts_stand_as_they_are(self):
        for name in ("outlives", "caught", "hello"):
            script = re.sub(r"\A(#.*\n)*", "", (TOP / "examples" / (name + ".rx")).read_text())
            self.assertIn("```\n%s```" % script, TEXT)
