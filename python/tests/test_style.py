"""The package and its tests are as mypy and flake8 want them, where these are installed: pyproject.toml and .flake8 have the words for them."""

import os
import shutil
import subprocess
import tempfile
import unittest

import alone

TYPED = ["tests/plant.py", "tests/reached.py"]        # of the tests: those that have types


def found_by(name, *words):
    """What a tool says of the package."""
    env = {name: value for name, value in os.environ.items() if not name.startswith("PYTHON")}
    done = subprocess.run([shutil.which(name), *words], cwd=alone.PYTHON, env=env, capture_output=True, text=True, timeout=alone.LIMIT, check=False)
    return done.returncode, done.stdout + done.stderr


class Style(unittest.TestCase):
    maxDiff = None

    @unittest.skipUnless(shutil.which("flake8"), "there is no flake8 here; Debian's package flake8 has it")
    def test_flake8(self):
        self.assertEqual(found_by("flake8", "rx10", "tests", "make_wheel.py", "examples"), (0, ""))

    @unittest.skipUnless(shutil.which("mypy"), "there is no mypy here; Debian's package mypy has it")
    def test_mypy(self):
        with tempfile.TemporaryDirectory() as cache:
            status, said = found_by("mypy", "--config-file", "pyproject.toml", "--cache-dir", cache, "rx10", *TYPED)
        self.assertEqual(status, 0, said)


if __name__ == "__main__":
    unittest.main()
