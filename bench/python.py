#!/usr/bin/env python3
"""Times the Python package beside concurrent.futures, and beside plain Dask where this Python has it, in one run on one machine.

    bench/python.py [--tasks N] [--rounds N] [--large N]

Each round measures all rows once; the table has the medians. --large is the number of tasks of one finish whose memory is measured. Only ratios
within one run mean something. Where the system's Python alone has Dask, run it by that: /usr/bin/python3 bench/python.py. The exit status is 1
where a bound is missed.
"""

import argparse
import concurrent.futures
import logging
import os
import pathlib
import signal
import statistics
import sys
import time

sys.path.insert(0, str(pathlib.Path(__file__).resolve().parents[1] / "python"))

import rx10      # noqa: E402

WORKERS = 4
BOUNDS = [
    # of, beside, at most so many times as long
    ("rx10 local: a finish of many tasks", "ProcessPoolExecutor: many tasks", 1 / 3),
    ("rx10 local: one call after another", "ProcessPoolExecutor: one after another", 2),
    ("rx10 on Dask: a finish of many tasks", "Dask: many tasks", 1 / 5),
    ("rx10 on Dask: one call after another", "Dask: one after another", 1 / 5),
]
MOST_SECONDS = 0.020            # from SIGKILL to DeadPlaces, on this machine
MOST_MEMORY = 120               # MB of the hub


def same(x):
    return x


class Table:
    """What was measured, by name: seconds for each of so many things."""

    def __init__(self):
        self.rows = {}

    def time(self, name, count, fn, *args):
        begin = time.perf_counter()
        fn(*args)
        self.rows.setdefault(name, []).append((time.perf_counter() - begin) / count)

    def add(self, name, seconds):
        self.rows.setdefault(name, []).append(seconds)

    def median(self, name):
        return statistics.median(self.rows[name])

    def show(self):
        """Writes the rows. True where no bound is missed."""
        for name, times in self.rows.items():
            print(f"{name:46} {self.median(name) * 1e6:10.1f} us  ({min(times) * 1e6:.1f} to {max(times) * 1e6:.1f})")
        held = [holds(f"{name} / {beside}", self.median(name) / self.median(beside), most)
                for name, beside, most in BOUNDS if name in self.rows and beside in self.rows]
        return all(held) & holds("rx10 local: kill -9 to DeadPlaces, seconds", self.median("rx10 local: kill -9 to DeadPlaces"), MOST_SECONDS)


def holds(what, value, most):
    """Writes whether a bound is held."""
    print(f"{what}: {value:.3g}, at most {most:.3g} wanted: {'held' if value <= most else 'missed'}")
    return value <= most


def many(job, count):
    with job.finish() as f:
        tasks = [f.spawn(1 + i % WORKERS, same, i) for i in range(count)]
    assert tasks[-1].result() == count - 1


def calls(job, count):
    for i in range(count):
        job.at(1, same, i)


def empty(job, count):
    for _ in range(count):
        with job.finish():
            pass


def ones(job, count):
    for i in range(count):
        with job.finish() as f:
            f.spawn(1, same, i)


def loss(job, place, pid):
    """From SIGKILL to DeadPlaces."""
    try:
        with job.finish() as f:
            f.spawn(place, time.sleep, 60)
            time.sleep(0.2)
            begin = time.perf_counter()
            os.kill(pid, signal.SIGKILL)
    except rx10.DeadPlaces:
        return time.perf_counter() - begin


def measure_job(table, name, job, count):
    for place in job.places():
        job.at(place, same, 0)
    table.time(f"{name}: a finish of many tasks", count, many, job, count)
    table.time(f"{name}: one call after another", count // 10, calls, job, count // 10)
    table.time(f"{name}: an empty finish", count // 10, empty, job, count // 10)
    table.time(f"{name}: a finish of one task", count // 10, ones, job, count // 10)
    pid = job.at(WORKERS, os.getpid)
    table.add(f"{name}: kill -9 to DeadPlaces", loss(job, WORKERS, pid))


def measure_pool(table, count):
    with concurrent.futures.ProcessPoolExecutor(WORKERS) as pool:
        list(pool.map(same, range(4 * WORKERS)))
        table.time("ProcessPoolExecutor: many tasks", count, lambda: [it.result() for it in [pool.submit(same, i) for i in range(count)]])
        table.time("ProcessPoolExecutor: one after another", count // 10,
                   lambda: [pool.submit(same, i).result() for i in range(count // 10)])


def measure_dask(table, client, count):
    client.wait_for_workers(WORKERS)
    client.gather(client.map(same, range(100), pure=False))
    table.time("Dask: many tasks", count, lambda: client.gather([client.submit(same, i, pure=False) for i in range(count)]))
    table.time("Dask: one after another", count // 10, lambda: [client.submit(same, i, pure=False).result() for i in range(count // 10)])
    with rx10.dask(client) as job:
        measure_job(table, "rx10 on Dask", job, count)
    while len(client.scheduler_info()["workers"]) < WORKERS:
        time.sleep(0.1)                                         # the nanny brings the killed one back


def with_dask():
    """A cluster and its client, or None where this Python has no Dask."""
    try:
        import dask
        from distributed import Client, LocalCluster
    except ImportError:
        return None
    dask.config.set({"distributed.deploy.lost-worker-timeout": "1 day"})
    cluster = LocalCluster(n_workers=WORKERS, threads_per_worker=1, dashboard_address=None, silence_logs=logging.CRITICAL)
    return cluster, Client(cluster)


def memory_of(pid):
    """The most memory that a process had, in MB."""
    with open(f"/proc/{pid}/status", encoding="ascii") as file:
        return next(int(line.split()[1]) for line in file if line.startswith("VmHWM")) / 1024


def large(count):
    """One finish of so many tasks. True where the hub's memory is in its bound."""
    with rx10.local(places=1 + WORKERS) as job:
        begin = time.perf_counter()
        many(job, count)
        took = time.perf_counter() - begin
        print(f"one finish of {count} tasks: {took / count * 1e6:.1f} us each, the driver at {memory_of(os.getpid()):.0f} MB")
        return holds("the hub, MB", memory_of(job._hub.pid), MOST_MEMORY)


def main():
    parser = argparse.ArgumentParser(description=__doc__.split("\n", maxsplit=1)[0])
    parser.add_argument("--tasks", type=int, default=4000)
    parser.add_argument("--rounds", type=int, default=5)
    parser.add_argument("--large", type=int, default=200_000)
    given = parser.parse_args()
    print(f"Python {sys.version.split()[0]}, {os.cpu_count()} processors, load {os.getloadavg()[0]:.1f}")
    table, dask = Table(), with_dask()
    for _ in range(given.rounds):
        measure_pool(table, given.tasks)
        with rx10.local(places=1 + WORKERS) as job:
            measure_job(table, "rx10 local", job, given.tasks)
        if dask:
            measure_dask(table, dask[1], given.tasks // 2)
    held = table.show()
    if dask:
        dask[1].close()
        dask[0].close()
    return 0 if held & large(given.large) else 1


if __name__ == "__main__":
    sys.exit(main())
