#!/usr/bin/env python3
"""Tests of the Python package. Run it from anywhere: python3 python/tests/run.py [--first] [--coverage] [NAME ..]

It takes the coordinator that the package finds (RX10_COORDINATOR names one). Where there is none the model of these tests stands in for it,
and that is said. What is not on this machine is skipped by name; nothing is installed (`setup` does that). No terminal is needed, and the
machine may be busy: what a test waits for ends the wait, and no test measures speed. A name is that of a test module, class or test, as
`test_driven`. With `--first` the first test that fails is the last, and with `--coverage` the lines of the package are listed that no process
of the tests reached. The last line is `N passed, N failed, N skipped`; only the lists stand behind it.
"""

import argparse
import os
import pathlib
import signal
import sys
import tempfile
import unittest

if sys.version_info < (3, 9):
    print("skipped: the tests of the Python package: it needs Python 3.9, and this is %d.%d" % sys.version_info[:2])
    sys.exit(0)

HERE = pathlib.Path(__file__).resolve().parent
sys.path[:0] = [str(HERE.parent), str(HERE)]

from rx10 import program      # noqa: E402


def with_coordinator(folder):
    """Has a coordinator for the tests."""
    try:
        found = program.find()
        print(f"coordinator: {found.path} ({found.where})", flush=True)
    except OSError as fault:
        stand_in = pathlib.Path(folder, program.NAME)
        stand_in.write_text(f'#!/bin/sh\nexec "{sys.executable}" "{HERE / "model.py"}" "$@"\n', encoding="utf-8")
        stand_in.chmod(0o755)
        os.environ["RX10_COORDINATOR"] = str(stand_in)
        print(f"skipped: the proved coordinator, for which the model stands in: {fault}", flush=True)


def main(words):
    parser = argparse.ArgumentParser(prog="python/tests/run.py", description=__doc__.split("\n", maxsplit=1)[0])
    parser.add_argument("names", nargs="*", metavar="NAME")
    parser.add_argument("--first", action="store_true", help="end with the first test that fails")
    parser.add_argument("--coverage", action="store_true", help="list the lines of the package that no process of the tests reaches")
    given = parser.parse_args(words)
    if given.coverage:
        import reached
        with tempfile.TemporaryDirectory(prefix="rx10-tests-") as folder:
            return reached.run([*given.names, *["--first"] * given.first], folder)
    os.environ.pop("PYTHONDONTWRITEBYTECODE", None)             # some thousand processes would each compile the package anew
    # (where the tests run in the background, a Ctrl-C is ignored from the start, and so it would be in all that they start)
    signal.signal(signal.SIGINT, signal.default_int_handler)
    with tempfile.TemporaryDirectory(prefix="rx10-tests-") as folder:
        with_coordinator(folder)
        loader = unittest.TestLoader()
        tests = loader.loadTestsFromNames(given.names) if given.names else loader.discover(str(HERE))
        result = unittest.TextTestRunner(stream=sys.stdout, verbosity=0, failfast=given.first).run(tests)
    for test, why in result.skipped:
        print(f"skipped: {test.id()}: {why}")
    failed = len({it[0].id() for it in [*result.failures, *result.errors]}) + len(result.unexpectedSuccesses)
    print(f"{result.testsRun - failed - len(result.skipped)} passed, {failed} failed, {len(result.skipped)} skipped")
    return 1 if failed or not result.testsRun else 0


if __name__ == "__main__":
    sys.exit(main(sys.argv[1:]))
