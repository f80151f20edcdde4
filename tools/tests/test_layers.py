"""The layers of crates.txt: each crate stands on those above its line, and the picture and the table of crates show the same."""

import re
import unittest
import xml.dom.minidom

import layers
from places import TOP

LISTED = (TOP / "crates.txt").read_text()
EXAMPLE = "# low things\nlow:\nlow_too: kit\n\n# on top\nmid: low kit # (a comment)\nhigh: mid low_too\n"


class Layers(unittest.TestCase):
    def test_each_crate_stands_on_crates_above_it(self):
        found, below = layers.read(LISTED)
        above = []
        for layer in found:
            self.assertTrue(layer.name and layer.crates, "layer %d has a name and crates" % layer.number)
            for crate in layer.crates:
                self.assertEqual([it for it in below[crate] if it in below and it not in above], [], "%s stands above these" % crate)
                above.append(crate)

    def test_the_table_has_the_same_layers(self):
        rows = re.findall(r"^\| (\*\*)?([^|*]+)(?:\*\*)? \|", (TOP / "docs" / "architecture.md").read_text().partition("| Crate | What it is |")[2], re.M)
        found, below = layers.read(LISTED)
        wanted = [it for layer in found for it in [layer.name, *layer.crates]]
        self.assertEqual([name for bold, name in rows if bold or name in below][:len(wanted)], wanted)

    def test_the_picture_is_of_these_crates(self):
        self.assertEqual(layers.PICTURE.read_text(), layers.drawn(LISTED), "draw it again: python3 tools/layers.py")
        self.assertEqual(re.findall(r"!\[[^]]*\]\(([^)]*)\)", (TOP / "docs" / "architecture.md").read_text())[0], layers.PICTURE.name)

    def test_what_is_drawn(self):
        found, below = layers.read(EXAMPLE)
        self.assertEqual([(it.number, it.name, it.crates) for it in found], [(1, "low things", ["low", "low_too"]), (2, "on top", ["mid", "high"])])
        self.assertEqual(below["mid"], ["low", "kit"])
        self.assertEqual(layers.longest_chain(below), ["low", "mid", "high"])
        picture = xml.dom.minidom.parseString(layers.drawn(EXAMPLE))
        words = [it.firstChild.data for it in picture.getElementsByTagName("text")]
        self.assertEqual(words, ["2 on top", "stands on 1", "mid", "high", "1 low things", "low", "low_too", "4 crates. Thick: the longest chain, of 3."])
        self.assertEqual([it.firstChild.data for it in picture.getElementsByTagName("title")][1], "high: mid low_too")

    def test_numbers_of_layers(self):
        for numbers, words in [([], ""), ([3], "3"), ([1, 2], "1, 2"), ([5, 1, 2, 3], "1 to 3, 5")]:
            self.assertEqual(layers.spelt(numbers), words)
