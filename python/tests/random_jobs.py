"""Random jobs over places that are killed, held to what is promised.

`verdict` holds the records that the tasks wrote to the plan, and the model replays what the hub asked of the coordinator: each answer must
be its own.
"""

import argparse
import collections
import os
import random
import shutil
import signal
import tempfile
import threading
import time

import rx10
from plans import Map, plan
from players import Planned, make
from verdict import Records, Verdict, replay

LIMIT = 500                     # seconds after which a job is taken to hang


class Local:
    """Jobs over processes of this machine."""

    def start(self, places, threads, record):
        return rx10.local(places, threads, record=record)

    def kill(self, job, place):
        kill(job.where(place).process)


class Dask:
    """Jobs over a cluster whose nannies bring killed workers back. Each job takes as many workers as it needs."""

    WORKERS = 7

    def __init__(self):
        import logging
        import dask
        from distributed import Client, LocalCluster
        # A LocalCluster gives a worker up for good where its successor is just being killed this long after its own death.
        dask.config.set({"distributed.deploy.lost-worker-timeout": "1 day"})
        self.cluster = LocalCluster(n_workers=self.WORKERS, threads_per_worker=1, dashboard_address=None, silence_logs=logging.CRITICAL)
        self.client = Client(self.cluster)

    def start(self, places, threads, record):
        self.client.wait_for_workers(self.WORKERS)
        workers = list(self.client.scheduler_info()["workers"])
        return rx10.dask(self.client, workers[:places - 1], workers[places - 1:], threads=threads, record=record)

    def kill(self, job, place):
        kill(job.where(place).process)

    def close(self):
        self.client.close()
        self.cluster.close()


def kill(pid):
    try:
        os.kill(pid, signal.SIGKILL)
    except ProcessLookupError:
        pass                                                    # a task of its own was first


class Killer(threading.Thread):
    """Kills places of a job, each at its moment."""

    def __init__(self, engine, job, moments):
        super().__init__(daemon=True)
        self.engine, self.job, self.moments = engine, job, moments
        self.killed, self.over = {}, threading.Event()

    def run(self):
        begin = time.monotonic()
        for moment, place in self.moments:
            if self.over.wait(max(0, begin + moment - time.monotonic())):
                return
            self.killed[place] = time.monotonic_ns()
            self.engine.kill(self.job, place)


def run(seed, engine, wide=False):
    """One job: its problems, and counts of what it did."""
    rng = random.Random(seed)
    places = rng.randrange(4, 7)
    steps = plan(rng, places, wide)
    victims = rng.sample(range(1, places), rng.choice([0, 1, 1, 2, 2, 3]))
    moments = sorted((rng.choice([0.002, 0.01, 0.05, 0.1, 0.2]) * rng.random() * 2, victim) for victim in victims)
    folder = tempfile.mkdtemp(prefix="rx10-job-")
    log = folder + ".log"
    watchdog = threading.Timer(LIMIT, give_up, [seed, folder])
    watchdog.start()
    try:
        killed = play_job(engine, folder, log, steps, moments, places, rng.choice([1, 1, 2, 4]))
    finally:
        watchdog.cancel()
    problems, counts = judge(folder, log, steps, killed)
    if problems:
        problems.insert(0, f"job {seed}, records in {folder}")
    else:
        shutil.rmtree(folder)
        os.remove(log)
    return problems, counts


def give_up(seed, folder):
    print(f"job {seed} does not end; records in {folder}", flush=True)
    os._exit(3)


def play_job(engine, folder, log, steps, moments, places, threads):
    """Runs the job, and returns when which place was killed."""
    try:
        with engine.start(places, threads, log) as job:
            killer = Killer(engine, job, moments)
            killer.start()
            try:
                make(folder, steps, rx10, {})
            finally:
                killer.over.set()
                killer.join()
    except (rx10.Faults, Planned):
        pass
    return killer.killed


def judge(folder, log, steps, killed):
    records = Records(folder)
    for place, moment in records.dying.items():
        killed[place] = min(moment, killed.get(place, moment))
    with open(log, encoding="ascii") as file:
        record = [line[:-1].split("\t") for line in file]
    _, last = record.pop()
    told = [int(line.split()[1]) for line, _ in record if line.startswith("death")]
    problems = [f"place {place} was told dead and was not killed" for place in told if place not in killed]
    verdict = Verdict(Map(steps), records, {place: moment for place, moment in killed.items() if place in told})
    problems += verdict.problems + list(filter(None, [replay(record)]))
    if not last.endswith("kept {}"):
        problems.append(f"the hub at the end: {last}")
    named = [set(it[1]) == verdict.sure[name] for name, it in records.closed.items() if it[1]]
    return problems, {"tasks": len(records.began), "deaths": len(told), "lines": len(record), "scopes": len(records.closed),
                      "named": len(named), "named exactly": sum(named), "late": int(last.split()[1])}


def main():
    parser = argparse.ArgumentParser(prog="jobs.py", description=__doc__.split("\n", maxsplit=1)[0])
    parser.add_argument("--jobs", type=int, default=50)
    parser.add_argument("--seed", type=int, default=1)
    parser.add_argument("--wide", action="store_true", help="many small tasks, so that a death meets many messages")
    parser.add_argument("--dask", action="store_true")
    parser.add_argument("--first", action="store_true", help="stops at the first problem")
    options = parser.parse_args()
    engine = Dask() if options.dask else Local()
    bad, sums, begin = 0, collections.Counter(), time.monotonic()
    for number in range(options.jobs):
        problems, counts = run(options.seed * 100_000 + number, engine, options.wide)
        sums.update(counts)
        bad += bool(problems)
        if problems:
            print(*problems[:8], sep="\n    ", flush=True)
        if problems and options.first:
            break
    if options.dask:
        engine.close()
    print(f"{options.jobs} jobs, {bad} with problems, {time.monotonic() - begin:.0f} s: {dict(sums)}")
    return bad > 0
