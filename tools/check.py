#!/usr/bin/env python3
"""Holds the examples to the program, and tries the launcher and the tools. Run it by hand from anywhere: python3 tools/check.py [NAME..]

A NAME is a module of tests, or a class or a test in it. With `--without NAME` the tests of this name are left out,
and with `--first` the first test that fails is the last.
It uses the program that crates/rx10/out/rx10 is; RX10_PROGRAM names another one, and `./rx10 test` gives it the one that there is. The last
line is `N passed, N failed`. Nothing here is proved; what is proved `rt ci` says.
"""

import argparse
import os
import pathlib
import sys
import unittest

HERE = pathlib.Path(__file__).resolve().parent
sys.dont_write_bytecode = True


def left_out(tests, name):
    """These tests without those of this name."""
    kept = unittest.TestSuite()
    for it in tests:
        if isinstance(it, unittest.TestSuite):
            kept.addTest(left_out(it, name))
        elif name not in it.id().split("."):
            kept.addTest(it)
    return kept


def main(words):
    parser = argparse.ArgumentParser(prog="tools/check.py", description=__doc__.split("\n")[0])
    parser.add_argument("names", nargs="*", metavar="NAME")
    parser.add_argument("--without", metavar="NAME")
    parser.add_argument("--first", action="store_true", help="end with the first test that fails")
    given = parser.parse_args(words)
    names = given.names
    program = os.environ.get("RX10_PROGRAM") or HERE.parent / "crates" / "rx10" / "out" / "rx10"
    if not os.access(program, os.X_OK):
        print("there is no program %s: `./rx10 test` tries the one that there is" % program)
        print("0 passed, 1 failed")
        return 1
    os.environ["RX10_PROGRAM"] = str(program)
    # (the python3 of the launcher is this one: one that first looks for another costs more than many a test)
    here = pathlib.Path(sys.executable).parent
    if (here / "python3").exists():
        os.environ["PATH"] = "%s:%s" % (here, os.environ.get("PATH", os.defpath))
    # (these are read where the tests are loaded)
    os.environ["PYTHONDONTWRITEBYTECODE"] = "1"
    sys.path[:0] = [str(HERE), str(HERE / "tests")]
    loader = unittest.TestLoader()
    found = loader.loadTestsFromNames(names) if names else loader.discover(str(HERE / "tests"))
    found = left_out(found, given.without) if given.without else found
    result = unittest.TextTestRunner(stream=sys.stdout, verbosity=0, failfast=given.first).run(found)
    failed = len({it[0].id() for it in [*result.failures, *result.errors]}) + len(result.unexpectedSuccesses)
    print("%d passed, %d failed" % (result.testsRun - failed - len(result.skipped), failed))
    return 1 if failed or not result.testsRun else 0


if __name__ == "__main__":
    sys.exit(main(sys.argv[1:]))
