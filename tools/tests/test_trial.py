"""`rx10 test`: every test and every part of hostile use once, and what is counted."""

import contextlib
import io
import os
import pathlib
import re
import shutil
import tempfile
import unittest
import unittest.mock

import kit_checks
import trial
from places import COORDINATOR, TOP


class Trials(unittest.TestCase):
    def test_everything_is_tried(self):
        known = re.findall(r'"(\w+)": \1\.run', (TOP / "tests/hostile/run").read_text())
        self.assertEqual(sorted(it for row in trial.HOSTILE for it in row), sorted(known))
        words = [it[1] for it in trial.jobs([])]
        self.assertEqual(sorted(it[-1] for it in words if it[0].name == "check.py"), sorted(it.stem for it in (TOP / "tools/tests").glob("test_*.py")))
        tried = [part for it in words if it[0].name == "run" for part in it[3:]]
        self.assertEqual(sorted(tried), sorted(known if os.path.exists(COORDINATOR) else set(known) - {"coordinator"}))
        modules = {it.stem for it in (TOP / "python/tests").glob("test_*.py")}
        self.assertLess(trial.NOT_QUICK, modules)
        self.assertEqual({it[-1] for it in words if it[0].name == "run.py"}, modules - trial.NOT_QUICK if os.path.exists(COORDINATOR) else set())
        # (what two of them try is tried once, but where hostile use tries its tables alone)
        self.assertTrue(all("--without" in it for it in words if it[0].name == "check.py"))
        self.assertFalse(any("--without" in it for _, it in trial.jobs(["tables"])))

    def test_every_program_is_tried(self):
        tried = {"rx10", "rx10_coordinator", trial.BY_HAND}
        self.assertEqual({it.parent.parent.name for it in (TOP / "crates").glob("*/src/main.rt")}, tried)

    def test_what_is_left_out_is_told(self):
        told = "\n".join(trial.left_out(["tables"]))
        for name in (*trial.NOT_QUICK, "rt ci", "hostile use but for tables"):
            self.assertIn(name, told)
        self.assertNotIn("hostile use", "\n".join(trial.left_out([])))
        with unittest.mock.patch("shutil.which", return_value=None), unittest.mock.patch("trial.COORDINATOR", "/nonexistent"):
            told = "\n".join(trial.left_out([]))
            self.assertEqual([it for it in trial.jobs([]) if it[0].startswith(("rt ", "Python"))], [])
        for name in ("rt fmt", "the Python package"):
            self.assertIn("left out: " + name, told)

    @unittest.skipUnless(shutil.which("rt"), "the kit is not on the path")
    def test_a_file_that_is_not_laid_out(self):
        with tempfile.TemporaryDirectory() as room:
            top = pathlib.Path(room)
            shutil.copy(TOP / "crates.txt", top)
            shutil.copytree(TOP / "crates/rx_base", top / "crates/rx_base", ignore=shutil.ignore_patterns("out", "must-fail"))
            wrote = io.StringIO()
            with unittest.mock.patch("kit_checks.TOP", top), contextlib.redirect_stdout(wrote):
                self.assertEqual(kit_checks.main(["format"]), 0)
                source = top / "crates/rx_base/src/lib.rt"
                source.write_text(source.read_text() + "fn   f( ) { }\n")
                before = source.read_bytes()
                self.assertEqual(kit_checks.main(["format", "rx_base"]), 1)
            self.assertIn("crates/rx_base: `rt fmt` would change src/lib.rt\n0 passed, 1 failed\n", wrote.getvalue())
            self.assertEqual(source.read_bytes(), before)

    def test_last_lines(self):
        for text, wanted in (("a\n12 passed, 0 failed\n", (12, 0)), ("0 passed, 3 failed", (0, 3)), ("4 passed, 1 failed, 2 skipped\n", (4, 1)), ("", (0, 1)), ("1 passed, 0 failed\nmore\n", (0, 1))):
            self.assertEqual(trial.counted(text), wanted, text)

    def test_what_is_counted(self):
        for words, last, status in (([["-c", "print('2 passed, 0 failed')"], ["-c", "print('3 passed, 0 failed')"]], "5 passed, 0 failed", 0),
                                    ([["-c", "print('2 passed, 0 failed')"], ["-c", "print(1 / 0)"]], "2 passed, 1 failed", 1), ([], "0 passed, 0 failed", 1)):
            wrote = io.StringIO()
            with unittest.mock.patch("trial.jobs", return_value=[("a job", it) for it in words]), contextlib.redirect_stdout(wrote):
                self.assertEqual(trial.main([]), status)
            self.assertEqual(wrote.getvalue().splitlines()[-1], last)
            self.assertEqual("ZeroDivisionError" in wrote.getvalue(), status == 1 and bool(words))
