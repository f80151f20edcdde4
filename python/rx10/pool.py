"""Threads for the tasks of a place."""

from __future__ import annotations

import collections
import functools
import os
import queue
import resource
import threading
from typing import Callable, Deque, Iterator, List, NamedTuple, Optional, Set

from .errors import Misuse

SPARE = 8                       # threads without a task that are kept beside `limit` of them: tasks that waited leave as many behind
SHARE = 8                       # a place takes an eighth of the threads that it may have, for others on the machine need some, too
LEAST = 16                      # tasks that may wait at a time, however small the machine is


class Job(NamedTuple):
    """What is done for a task."""

    run: Callable[[], None]
    refuse: Callable[[Exception], None]                         # in place of `run`, where no thread can be started


class Pool:
    """At most `limit` tasks run at a time. One that waits in a finish or a call does not count, and is first in turn afterwards.

    A task keeps its thread while it waits. So at most `most` tasks may wait, and `may_wait` refuses the next one: it is called before
    anything is begun for which the task has to wait.
    """

    def __init__(self, limit: int, most: Optional[int] = None) -> None:
        self.limit = limit
        self.most = most_that_wait() if most is None else most
        self._lock = threading.Lock()
        self._running, self._idle = 0, 0                        # tasks that count, and threads without one
        self._may_wait = 0                                      # tasks that wait, or are inside a finish at whose end they will
        self._back: Deque[threading.Event] = collections.deque()
        self._new: Deque[Job] = collections.deque()
        self._refused: Deque[Callable[[], None]] = collections.deque()
        self._jobs: queue.SimpleQueue[Optional[Job]] = queue.SimpleQueue()
        self._busy: Set[int] = set()
        self._closed = False

    def submit(self, job: Job) -> None:
        """Runs a job in a thread, once its turn has come. After `close` it runs none."""
        with self._lock:
            if not self._closed:
                self._new.append(job)
                self._fill()
        self._refuse()

    def may_wait(self) -> None:
        """The job that runs in this thread may wait from now on. Raises Misuse where too many may."""
        with self._lock:
            if self._may_wait >= self.most:
                raise Misuse(f"{self.most} tasks of this place are inside a finish or a call, and no more may be: each keeps a thread, and a "
                             f"place takes at most one {SHARE}th of those that the machine lets a process have")
            self._may_wait += 1

    def waits_no_more(self) -> None:
        """It has nothing to wait for any more."""
        with self._lock:
            self._may_wait -= 1

    def leave(self) -> None:
        """The job that runs in this thread begins to wait."""
        with self._lock:
            self._running -= 1
            self._fill()
        self._refuse()

    def enter_again(self) -> None:
        """It has waited. Returns once its turn has come, or the pool is closed."""
        turn = threading.Event()
        with self._lock:
            self._back.append(turn)
            self._fill()
        self._refuse()
        turn.wait()

    def close(self) -> None:
        """Nothing more is begun. Those that have waited go on at once, and each thread ends with its job."""
        with self._lock:
            self._closed = True
            self._new.clear()
            self._fill()
            for _ in range(self._idle):
                self._jobs.put(None)
            self._idle = 0

    def busy_threads(self) -> List[int]:
        """The threads in which jobs are now, also those that wait."""
        return list(self._busy)

    def _fill(self) -> None:
        while (self._back or self._new) and (self._running < self.limit or self._closed):
            if self._back:
                self._running += 1
                self._back.popleft().set()
            else:
                self._begin(self._new.popleft())

    def _begin(self, job: Job) -> None:
        if self._idle:
            self._idle -= 1
        else:
            try:
                threading.Thread(target=self._serve, name="rx10 task", daemon=True).start()
            except (RuntimeError, MemoryError) as fault:        # "can't start new thread"
                self._refused.append(functools.partial(job.refuse, fault))
                return
        self._running += 1
        self._jobs.put(job)

    def _refuse(self) -> None:
        """Without the lock, since this sends messages: tells of jobs for which no thread could be started."""
        while self._refused:
            try:
                refuse = self._refused.popleft()
            except IndexError:
                return                                          # another thread was faster
            refuse()

    def _serve(self) -> None:
        me = threading.get_ident()
        while True:
            job = self._jobs.get()
            if job is None:
                return
            self._busy.add(me)
            job.run()
            self._busy.discard(me)
            del job                                             # an idle thread keeps nothing of a task
            with self._lock:
                self._running -= 1
                self._idle += 1
                self._fill()
                is_left_over = self._closed or self._idle > self.limit + SPARE
                if is_left_over:
                    self._idle -= 1
            self._refuse()
            if is_left_over:
                return


def most_that_wait() -> int:
    """How many tasks of a place may wait at a time: an eighth of the threads that the machine lets this process have."""
    return max(LEAST, min(_bounds(), default=LEAST * SHARE) // SHARE)


def _bounds() -> Iterator[int]:
    """What bounds the threads of a process, as far as Linux tells it."""
    soft, _ = resource.getrlimit(resource.RLIMIT_NPROC)
    if soft != resource.RLIM_INFINITY:
        yield soft
    for path, each in (("/proc/sys/kernel/pid_max", 1), ("/proc/sys/kernel/threads-max", 1), ("/proc/sys/vm/max_map_count", 2),
                       *((path, 1) for path in _files_of_groups())):
        try:
            with open(path, encoding="ascii") as file:
                yield int(file.read()) // each                  # (a stack is two maps: itself and its guard)
        except (OSError, ValueError):
            pass                                                # it is not there, or it says `max`


def _files_of_groups() -> Iterator[str]:
    """The files that bound the processes of this process's control group and of those above it."""
    try:
        with open("/proc/self/cgroup", encoding="utf-8") as file:
            lines = [line.rstrip("\n").split(":", 2) for line in file]
    except OSError:
        return
    for _, controllers, path in lines:
        if controllers in ("", "pids"):
            top = os.path.join("/sys/fs/cgroup", controllers)
            while True:
                yield os.path.join(top, path.lstrip("/"), "pids.max")
                if path in ("", "/"):
                    break
                path = os.path.dirname(path)
