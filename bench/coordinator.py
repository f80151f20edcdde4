#!/usr/bin/env python3
"""Times rx10-coordinator: requests a second in batches and one by one, and growth with tasks, scopes, releases that wait, and deaths.

Run it by hand from anywhere: python3 bench/coordinator.py [--program PATH] [SERIES..]. It takes crates/rx10_coordinator/out/rx10_coordinator;
RX10_COORDINATOR or --program names another one. Beside each series the model of tests/hostile is timed where its trees are small enough.
Seconds of the program's processor, the least of three rounds, and its greatest resident size.
"""

import argparse
import array
import fcntl
import os
import pathlib
import subprocess
import sys
import termios
import time

TOP = pathlib.Path(__file__).resolve().parent.parent
sys.path.insert(0, str(TOP / "tests" / "hostile"))
sys.dont_write_bytecode = True

import coordinator_model


def calls(n):
    """n tasks one after another, each started, sent and ended."""
    return 2, ("spawn t0 1\narrive t%d\nend t%d\n" % (k, k) for k in range(1, n + 1))


def sends(n):
    """n tasks one after another, each sent and ended."""
    return 2, ("send t0 1\nend t%d\n" % k for k in range(1, n + 1))


def finishes(n):
    """n finishes one after another, each with one task."""
    return 2, ("open t0\nsend t0 1\nwait t0\nend t%d\nrelease t0\n" % k for k in range(1, n + 1))


def alive(n):
    """n tasks alive at once."""
    return 2, ("send t0 1\n" for _ in range(n))


def scopes(n):
    """n scopes open at once, each of a task of its own."""
    return 2, ("send t0 1\nopen t%d\n" % k for k in range(1, n + 1))


def parked(n):
    """n releases that wait at once, and then are freed one by one."""
    starts = ("send t0 1\nopen t%d\nsend t%d 1\nwait t%d\nrelease t%d\n" % (k, k, k, k) for k in range(1, 2 * n, 2))
    return 2, (line for lines in (starts, ("end t%d\n" % k for k in range(2, 2 * n + 1, 2))) for line in lines)


def deaths(n):
    """n tasks at 15 places, all of which die in turn."""
    starts = ("send t0 %d\n" % (k % 15 + 1) for k in range(n))
    return 16, (line for lines in (starts, ("death %d\n" % p for p in range(1, 16))) for line in lines)


SERIES = {
    "calls": (calls, [100_000, 1_000_000]),
    "sends": (sends, [100_000, 1_000_000]),
    "finishes": (finishes, [100_000, 1_000_000]),
    "alive": (alive, [100_000, 1_000_000]),
    "scopes": (scopes, [25_000, 100_000]),
    "parked": (parked, [25_000, 100_000]),
    "deaths": (deaths, [100_000, 1_000_000]),
}
MODEL = {"calls": 20_000, "sends": 20_000, "finishes": 20_000}


def waits_for_input(child):
    """Whether the child has read all that it was given, and waits for more."""
    left = array.array("i", [0])
    fcntl.ioctl(child.stdin.fileno(), termios.FIONREAD, left)
    state = pathlib.Path("/proc/%d/stat" % child.pid).read_text().rsplit(")", 1)[1].split()[0]
    return left[0] == 0 and state == "S"


def greatest_size(child):
    """The greatest resident size of the child so far, in MB. (What wait4 tells has this process's own size in it.)"""
    status = pathlib.Path("/proc/%d/status" % child.pid).read_text()
    return int(status.split("VmHWM:")[1].split()[0]) / 1024


def batch(program, places, text):
    """Seconds of processor, and MB, of a session whose lines all come at once."""
    child = subprocess.Popen([program, "--places", str(places)], stdin=subprocess.PIPE, stdout=subprocess.DEVNULL, bufsize=0)
    left = memoryview(text)
    while left:
        left = left[os.write(child.stdin.fileno(), left[:1 << 16]):]
    while not waits_for_input(child):
        time.sleep(0.001)
    size = greatest_size(child)
    child.stdin.close()
    _, status, used = os.wait4(child.pid, 0)
    child.returncode = status
    if status:
        sys.exit("the program ended with %d" % status)
    return used.ru_utime + used.ru_stime, size


def series(program, name):
    make, sizes = SERIES[name]
    print("%s: %s" % (name, make.__doc__))
    for n in sizes:
        places, lines = make(n)
        text = "".join(lines).encode()
        count = text.count(b"\n")
        seconds, size = min(batch(program, places, text) for _ in range(3))
        print("  %9d  %9d requests  %7.3f s  %10.0f a second  %7.1f MB" % (n, count, seconds, count / seconds, size), flush=True)
    if name in MODEL:
        places, lines = make(MODEL[name])
        text = "".join(lines)
        start = time.process_time()
        coordinator_model.answers(text.encode(), places)
        print("  the model: %10.0f a second" % (text.count("\n") / (time.process_time() - start)), flush=True)


def one_by_one(program, n):
    """n requests over a pipe, each written once the reply to the one before has been read."""
    child = subprocess.Popen([program, "--places", "2"], stdin=subprocess.PIPE, stdout=subprocess.PIPE, bufsize=0)
    replies = os.fdopen(os.dup(child.stdout.fileno()), "rb")
    replies.readline()
    start = time.perf_counter()
    for k in range(1, n // 2 + 1):
        child.stdin.write(b"send t0 1\n")
        replies.readline()
        child.stdin.write(b"end t%d\n" % k)
        replies.readline()
    seconds = time.perf_counter() - start
    child.stdin.close()
    child.wait()
    print("one by one: %d requests, %.1f microseconds each by the clock" % (n, seconds / n * 1e6))


def main():
    parser = argparse.ArgumentParser(description=__doc__.split("\n")[0])
    parser.add_argument("series", nargs="*", metavar="SERIES")
    parser.add_argument("--program", default=os.environ.get("RX10_COORDINATOR") or TOP / "crates" / "rx10_coordinator" / "out" / "rx10_coordinator")
    given = parser.parse_args()
    unknown = [name for name in given.series if name not in SERIES]
    if unknown or not pathlib.Path(given.program).exists():
        sys.exit("no such series: %s" % unknown[0] if unknown else "no program at %s" % given.program)
    for name in given.series or SERIES:
        series(str(given.program), name)
    if not given.series:
        one_by_one(str(given.program), 100_000)


if __name__ == "__main__":
    main()
