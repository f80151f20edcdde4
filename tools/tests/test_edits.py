"""The wrong edits, those that the gate tries and those of tests/edits: each can still be made."""

import pathlib
import re
import unittest

TOP = pathlib.Path(__file__).resolve().parents[2]
PLACES = {"crates": "crates/*/must-fail/*.edit", "tests": "tests/edits/*/*.edit"}
MOST = 120                      # edits that each gate tries


def crate_of(edit):
    """The crate that an edit changes."""
    return edit.parent.parent if edit.parent.name == "must-fail" else TOP / "crates" / edit.parent.name


def flaw(edit):
    """What is wrong with an edit, or nothing."""
    texts, path = {}, None
    old = None
    for line in edit.read_text().splitlines():
        word, _, text = line.partition(":")
        text = text[1:] if text.startswith(" ") else text
        if word == "file":
            path = crate_of(edit) / text.strip()
            if not path.is_file():
                return "there is no %s" % text
            texts.setdefault(path, path.read_text())
        elif word == "old":
            old = text
            if texts[path].count(old) != 1:
                return "its file has this %d times: %s" % (texts[path].count(old), old)
        elif word == "new":
            if text == old:
                return "it changes nothing"
            texts[path] = texts[path].replace(old, text)
        else:
            return "a line that is none of file, old, new: %s" % line
    return None if old is not None else "it has no change"


class Edits(unittest.TestCase):
    def test_each_can_be_made(self):
        for glob in PLACES.values():
            found = sorted(TOP.glob(glob))
            self.assertTrue(found, glob)
            for edit in found:
                with self.subTest(edit=str(edit.relative_to(TOP))):
                    self.assertIsNone(flaw(edit))

    def test_one_place_a_crate(self):
        tried = {it.parent.parent.name for it in TOP.glob(PLACES["crates"])}
        dear = {it.parent.name for it in TOP.glob(PLACES["tests"])}
        self.assertEqual(tried & dear, set(), "the edits of a crate stand in one place")
        self.assertLessEqual(len(list(TOP.glob(PLACES["crates"]))), MOST)

    def test_names_are_of_mistakes(self):
        for glob in PLACES.values():
            for edit in TOP.glob(glob):
                self.assertRegex(edit.stem, re.compile(r"^[a-z0-9]+(_[a-z0-9]+)+$"))


if __name__ == "__main__":
    unittest.main()
