#!/usr/bin/env python3
"""A parameter sweep that outlives the loss of any worker.

    sweep.py [--places N] [--kill] [--dask [ADDRESS]] [--record FILE]

--kill ends two of the workers by SIGKILL while they work. --dask runs it over the workers of a cluster: that of a scheduler's address, or one
of four workers that it starts. --record keeps what the coordinator was asked, and its replies: `python -m rx10.trace FILE` makes a trace of it.
"""

import argparse
import contextlib
import os
import random
import signal
import threading
import time

import rx10


def simulate(x):
    """What is to be done for each point."""
    time.sleep(0.05 + random.random() / 20)
    return x * x


def sweep(rt, points):
    """The results by point. A round starts all points that have none; what a loss takes goes again in the next one."""
    results = {}
    while len(results) < len(points):
        todo = [x for x in points if x not in results]
        workers = rt.places()[1:] or (0,)
        tasks = {}
        try:
            with rt.finish(progress=True) as f:
                for i, x in enumerate(todo):
                    tasks[x] = f.spawn(workers[i % len(workers)], simulate, x)
        except rx10.DeadPlaces as lost:
            print(f"lost places {lost.places}: {sum(task.lost for task in tasks.values())} of {len(todo)} points go again")
            replace(rt, len(lost.places))
        results.update({x: task.result() for x, task in tasks.items() if not task.lost})
    return results


def replace(rt, count):
    """Takes in new places for lost ones, where there are any to be had."""
    for _ in range(count):
        try:
            print("place", rt.join(), "joined")
        except rx10.Misuse as full:
            print(full)


def kill_two(rt):
    """Kills two workers soon."""
    for delay, victim in ((0.2, 2), (0.5, 4)):
        threading.Timer(delay, os.kill, (rt.at(victim, os.getpid), signal.SIGKILL)).start()


@contextlib.contextmanager
def job(given):
    """The job, over processes of this machine or over Dask."""
    if given.dask is None:
        with rx10.local(places=given.places, record=given.record) as rt:
            yield rt
        return
    from distributed import Client, LocalCluster
    with contextlib.ExitStack() as stack:
        cluster = given.dask or stack.enter_context(LocalCluster(n_workers=4, threads_per_worker=1, dashboard_address=None))
        client = stack.enter_context(Client(cluster))
        yield stack.enter_context(rx10.dask(client, record=given.record))


def main():
    """Runs a sweep of 100 points."""
    parser = argparse.ArgumentParser(description=__doc__.split("\n", maxsplit=1)[0])
    parser.add_argument("--places", type=int, default=5)
    parser.add_argument("--kill", action="store_true")
    parser.add_argument("--dask", nargs="?", const="", metavar="ADDRESS")
    parser.add_argument("--record", metavar="FILE")
    given = parser.parse_args()
    with job(given) as rt:
        if given.kill:
            kill_two(rt)
        results = sweep(rt, range(100))
        print(f"{len(results)} points done, the sum is {sum(results.values())}, places {rt.places()}")


if __name__ == "__main__":
    main()
