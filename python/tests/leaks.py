"""What jobs leave behind in their driver, and tasks in their job.

    leaks.py jobs ENGINE COUNT      many jobs after one another over `local`, `launched` or `dask`
    leaks.py tasks COUNT            one job with many tasks

Threads, open files, child processes and memory are counted after the first part of the jobs or rounds, and at the end: they must be the same,
memory but for MEMORY. Nothing collects garbage by hand, and the jobs that are over are still held, as a program may hold them.
"""

import contextlib
import os
import secrets
import subprocess
import sys
import time

import rx10
from situations import kill, raises, same, throw

MEMORY = 4 << 20                # bytes that a process may have grown by
FIRST = 5                       # a part of so many jobs or rounds warms up


def threads(pid="self"):
    """How many threads a process has."""
    return len(os.listdir(f"/proc/{pid}/task"))


def files(pid="self"):
    """What the open files of a process are, without the one by which this looks."""
    found = []
    for name in os.listdir(f"/proc/{pid}/fd"):
        with contextlib.suppress(FileNotFoundError):
            found.append(os.readlink(f"/proc/{pid}/fd/{name}"))
    return sorted(it for it in found if not it.endswith("/fd"))


def children(pid="self"):
    """The child processes of a process, ended ones too that nobody has waited for."""
    found = []
    for thread in os.listdir(f"/proc/{pid}/task"):
        with contextlib.suppress(OSError), open(f"/proc/{pid}/task/{thread}/children", encoding="ascii") as file:
            found += file.read().split()
    return found


def memory(pid="self"):
    """The bytes of memory that a process has."""
    with open(f"/proc/{pid}/status", encoding="ascii") as file:
        return next(int(line.split()[1]) << 10 for line in file if line.startswith("VmRSS"))


def counts(pid="self"):
    """What must be the same again."""
    return threads(pid), len(files(pid)), len(children(pid))


# Each engine yields what makes a job, and what is called after each job and tells the counts of processes that live on.

@contextlib.contextmanager
def local():
    yield lambda: rx10.local(places=3), lambda: ()


@contextlib.contextmanager
def launched():
    """Each job has two places that are started as plain subprocesses, and waited for after it."""
    os.environ["RX10_TOKEN"] = secrets.token_hex(16)
    processes = []

    def end():
        while processes:
            processes.pop().wait()
        return ()

    def job():
        port = free_port()
        processes.extend(subprocess.Popen([sys.executable, "-m", "rx10.serve", "127.0.0.1", str(port)], stderr=subprocess.DEVNULL)
                         for _ in range(2))
        return rx10.launched(places=3, port=port)
    yield job, end


def free_port():
    import socket
    with socket.create_server(("127.0.0.1", 0)) as sock:
        return sock.getsockname()[1]


@contextlib.contextmanager
def dask():
    from dask_situations import cluster
    with cluster(workers=2) as (client, _):
        yield lambda: rx10.dask(client), lambda: tuple(client.run(counts).values())


ENGINES = {"local": local, "launched": launched, "dask": dask}


def play(rt, number):
    """A job with tasks at all places, that wait and that do not; now and then one is killed."""
    with rt:
        with rt.finish() as f:
            tasks = [f.spawn(place, there_and_back, 3) for place in rt.places() for _ in range(3)]
        assert [it.result() for it in tasks] == [3] * 9
        with raises(ValueError):
            rt.at(0, throw, ValueError)
        if number % 10 == 9 and hasattr(rt._engine, "processes"):
            kill(rt.where(1))
            with raises(rx10.DeadPlaces, 1):
                rt.at(1, same, 1)


def there_and_back(levels):
    """Waits at this place and at another."""
    if levels == 0:
        return 0
    with rx10.finish() as f:
        f.spawn(rx10.here(), same, 1)
    return 1 + rx10.at((rx10.here() + 1) % 3, there_and_back, levels - 1)


def many_jobs(engine, count):
    """Plays jobs, and holds what they leave."""
    held = []
    with ENGINES[engine]() as (job, after):
        for number in range(count):
            held.append(job())
            play(held[-1], number)
            after()
            if number + 1 == max(FIRST, count // 4):
                first, kept = settled(after), memory()
        last, keeps = settled(after, first), memory()
        print(f"{engine}: threads, files, children {first} after the first jobs, {last} after {count}; memory grew by {keeps - kept >> 10} kB")
        assert last == first, files()
        assert keeps - kept < MEMORY


def settled(others, wanted=None):
    """The counts here, and those of `others`, once they are as wanted, or have not changed for a while: the last threads of a job end just
    after it."""
    seen = []
    while len(seen) < 500 and seen[-1:] != [wanted] and (wanted or len(seen) < 50 or seen[-50:] != seen[-1:] * 50):
        time.sleep(0.01)
        seen.append((counts(), *others()))
    return seen[-1]


def many_tasks(count):
    """One job, in rounds."""
    size = 500
    with rx10.local(places=3) as rt:
        places = rt.at(1, os.getpid), rt.at(2, os.getpid)
        pids = [os.getpid(), *places, rt._hub.pid]
        rounds = count // size
        for number in range(rounds):
            with rt.finish() as f:
                tasks = [f.spawn(it % 3, same, it) for it in range(size)]
            assert [it.result() for it in tasks] == list(range(size))
            for place in rt.places():
                assert rt.at(place, there_and_back, 2) == 2
            if number + 1 == max(FIRST, rounds // 4):
                first = [(counts(pid), memory(pid)) for pid in pids]
        last = [(counts(pid), memory(pid)) for pid in pids]
        for name, (before, kept), (after, keeps) in zip(("driver", "place 1", "place 2", "hub"), first, last):
            print(f"{name}: threads, files, children {before}, then {after}; memory grew by {keeps - kept >> 10} kB")
            assert before == after and keeps - kept < MEMORY, name


if __name__ == "__main__":
    import leaks                # so that a place finds what tasks run by this module's name
    if sys.argv[1] == "jobs":
        leaks.many_jobs(sys.argv[2], int(sys.argv[3]))
    else:
        leaks.many_tasks(int(sys.argv[2]))
