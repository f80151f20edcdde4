#!/usr/bin/env python3
"""Tries all that needs no proof, over the programs that RX10_PROGRAM and RX10_COORDINATOR name: what `./rx10 test` does.

usage: tools/trial.py [PART..]

It runs the modules of tools/tests, the parts of tests/hostile, the quick modules of python/tests, and by the kit's rt, where it is on the path,
the format of all crates and the program that has no other test. They run side by side in processes, as many at a time as there are processors
and one more, since some wait. The parts of hostile use may be named; without any it takes all. Each process ends with a line
`N passed, N failed`, and so does this one. What is left out is told by name. Nothing here is proved.
"""

import concurrent.futures
import os
import pathlib
import re
import shutil
import signal
import subprocess
import sys
import threading
import time

HERE = pathlib.Path(__file__).resolve().parent
TOP = HERE.parent
# The parts of hostile use, those of a row one after the other: a process compiles what it needs first, so there are few.
HOSTILE = ["verdicts deaths tables fronts coordinator".split(), "memory outside limits sizes bed jitter fuzz".split()]
# The seconds of mutated inputs, and two hundred damaged traces for each.
SECONDS = 10
# Tests that take longest, so that they are begun first.
FIRST = ["test_launcher", "test_draw", "test_package", "test_why", "test_page"]
# The verdicts of hostile use try this too, on as many traces.
AGAIN = "test_program_and_model_agree"
COORDINATOR = os.environ.get("RX10_COORDINATOR") or TOP / "crates" / "rx10_coordinator" / "out" / "rx10_coordinator"
# Modules of python/tests that take minutes, or what few machines have: `python/tests/run.py` runs these too.
NOT_QUICK = {"test_jobs", "test_mutants", "test_dask", "test_cut"}
# The program that neither the tools nor hostile use run.
BY_HAND = "tasks_by_hand"


def jobs(parts):
    """The name and the words of each process, those that take longest first. Without parts it takes all that are built."""
    known = [part for row in HOSTILE for part in row if part != "coordinator" or os.path.exists(COORDINATOR)]
    taken = [it for it in known if it in parts] if parts else known
    found = []
    if shutil.which("rt"):
        found += [("rt try: " + BY_HAND, [HERE / "kit_checks.py", "try", BY_HAND]), ("rt fmt: all crates", [HERE / "kit_checks.py", "format"])]
    if os.path.exists(COORDINATOR):
        for name in sorted({it.stem for it in (TOP / "python" / "tests").glob("test_*.py")} - NOT_QUICK):
            found.append(("Python: " + name, [TOP / "python" / "tests" / "run.py", name]))
    for row in HOSTILE:
        mine = [it for it in row if it in taken]
        if mine:
            found.append(("hostile use: " + ", ".join(mine), [TOP / "tests" / "hostile" / "run", "--seconds", str(SECONDS), *mine]))
    without = ["--without", AGAIN] if "verdicts" in taken else []
    modules = {it.stem for it in (HERE / "tests").glob("test_*.py")}
    for name in [*FIRST, *sorted(modules - set(FIRST))]:
        found.append(("tools: " + name, [HERE / "check.py", *without, name]))
    return found


def counted(text):
    """How many have passed and failed by the last line of a text; one that has no such line has failed."""
    found = re.search(r"^(\d+) passed, (\d+) failed(?:, \d+ skipped)?\n?\Z", text, re.M)
    return (int(found[1]), int(found[2])) if found else (0, 1)


class Trial:
    """The processes of one trial. After stop() no further one begins."""

    def __init__(self):
        self.lock = threading.Lock()
        self.running, self.is_stopped = set(), False

    def begin(self, words):
        with self.lock:
            if self.is_stopped:
                return None
            process = subprocess.Popen([sys.executable, *words], cwd=TOP, stdin=subprocess.DEVNULL, stdout=subprocess.PIPE,
                                       stderr=subprocess.STDOUT)
            self.running.add(process)
            return process

    def run(self, words):
        """What a process wrote, and the seconds that it took; None where it did not begin."""
        began = time.monotonic()
        process = self.begin(words)
        if process is None:
            return None
        text = process.communicate()[0].decode("utf-8", "replace")
        with self.lock:
            self.running.discard(process)
        return text, time.monotonic() - began

    def stop(self):
        with self.lock:
            self.is_stopped = True
            for process in self.running:
                process.terminate()


def report(name, text, took):
    """Shows what a process wrote, without what unittest puts round it, and counts it."""
    print("%s: %.0f s" % (name, took))
    for line in text.splitlines():
        if line.strip("-="):
            print("  " + line)
    sys.stdout.flush()
    return counted(text)


def left_out(parts):
    """What is not tried here, and why, a line each."""
    if not shutil.which("rt"):
        yield "left out: rt fmt and rt try: the command rt of the Rattle kit is not on the path"
    if not os.path.exists(COORDINATOR):
        yield "left out: the Python package and the coordinator: there is no coordinator"
    if parts:
        yield "left out: hostile use but for %s: the other parts need a program without run-time checks, of `./rx10 build`" % ", ".join(parts)
    yield "left out: %s: `python3 python/tests/run.py` runs them" % ", ".join("Python: " + it for it in sorted(NOT_QUICK))
    yield "left out: all proofs, tests of crates and must-fail edits: `rt ci` checks them"


def main(parts):
    trial, passed, failed = Trial(), 0, 0
    with concurrent.futures.ThreadPoolExecutor(len(os.sched_getaffinity(0)) + 1) as pool:
        waiting = {pool.submit(trial.run, words): name for name, words in jobs(parts)}
        try:
            for it in concurrent.futures.as_completed(waiting):
                some, wrong = report(waiting[it], *it.result())
                passed, failed = passed + some, failed + wrong
        except KeyboardInterrupt:
            trial.stop()
            return 130
    for line in left_out(parts):
        print(line)
    print("%d passed, %d failed" % (passed, failed))
    return 1 if failed or not passed else 0


if __name__ == "__main__":
    # (however it is ended, its processes are too)
    signal.signal(signal.SIGTERM, signal.default_int_handler)
    sys.exit(main(sys.argv[1:]))
