"""Places as processes of this machine, each with a socket pair. Linux tells the ends of the processes."""

from __future__ import annotations

import ctypes
import multiprocessing
import os
import signal
import socket
import sys
import threading
import time
from typing import Dict, List, Optional

from .. import pickles, place
from .base import Engine, Job, Where

PR_SET_PDEATHSIG = 1
PATIENCE = 5                    # seconds in which a place ends by itself at the job's end


def main(line: socket.socket, parent: int) -> None:
    """What a place's process runs."""
    # An interrupt is the driver's. A handler, and not SIG_IGN, so that what a task starts has the default.
    signal.signal(signal.SIGINT, lambda *_: None)
    if sys.platform == "linux":
        # It ends with the thread that started it, also where its interpreter is blocked.
        ctypes.CDLL(None).prctl(PR_SET_PDEATHSIG, signal.SIGKILL)
        if os.getppid() != parent:
            os._exit(1)
    place.serve(line)
    os._exit(0)                 # also where a task still runs: the job is over


class Local(Engine):
    """The engine of `rx10.local`. A tag is the number of a process."""

    def __init__(self) -> None:
        if getattr(multiprocessing.current_process(), "_inheriting", False):
            raise RuntimeError("a place imports this main module, so what starts the job must stand under `if __name__ == \"__main__\":`")
        # A forked place would hold the lines of all others open; a fork server would be the parent with which a place ends.
        self._context = multiprocessing.get_context("spawn")
        self._processes: Dict[int, multiprocessing.process.BaseProcess] = {}    # those whose files are open here
        self._begun: Dict[int, Optional[int]] = {}              # by process: the task that wanted the place
        self._lock, self._stopped = threading.Lock(), False

    def start(self, job: Job) -> None:
        self._job = job

    def add(self, joiner: Optional[int]) -> None:
        try:
            self._add(joiner)
        except OSError as fault:
            self._job.no_place(joiner, f"no process can be started: {fault}")

    def _add(self, joiner: Optional[int]) -> None:
        near, far = socket.socketpair()
        pidfd = None
        try:
            with self._lock:
                if self._stopped:
                    return
                process = self._context.Process(target=main, args=(far, os.getpid()), name="rx10 place")
                pid = self._start(process)
                self._processes[pid] = process
                self._begun[pid] = joiner
                if hasattr(os, "pidfd_open"):
                    pidfd = os.pidfd_open(pid)
            self._job.connected(near, pidfd, pid, joiner)
        finally:
            near.close()
            far.close()
            if pidfd is not None:
                os.close(pidfd)

    @staticmethod
    def _start(process: multiprocessing.process.BaseProcess) -> int:
        """Starts a process, which imports the main module, and returns its number. Where that module has no file it must not look for one."""
        module = sys.modules["__main__"]
        name = None if pickles.main_has_file() else module.__dict__.pop("__file__", None)
        try:
            process.start()
        finally:
            if name is not None:
                module.__file__ = name
        assert process.pid is not None
        return process.pid

    def give_up(self, joiner: Optional[int], why: str) -> None:
        self._job.no_place(joiner, why)                         # before the hub sees that a process has ended
        with self._lock:
            came = self._job.tags()
            for pid, wanted_by in self._begun.items():
                if wanted_by == joiner and pid not in came and pid in self._processes:
                    self._processes[pid].kill()

    def describe(self) -> str:
        came = self._job.tags()
        return "processes that said nothing: " + ", ".join(str(pid) for pid in self._begun if pid not in came)

    def where(self, tag: int) -> Where:
        return Where(socket.gethostname(), tag)

    def ended(self, tag: int) -> None:
        with self._lock:
            process = self._processes.pop(tag, None)            # none where the job is over
            if process is not None:
                process.join()
                process.close()

    def stop(self, graceful: bool) -> None:
        with self._lock:
            self._stopped = True
            until = time.monotonic() + (PATIENCE if graceful else 0)
            processes = list(self._processes.values())
            if not graceful:
                for process in processes:
                    process.kill()
            for process in processes:
                process.join(max(0, until - time.monotonic()))
                process.kill()
                process.join()
                process.close()
            self._processes.clear()

    def processes(self) -> List[int]:
        """The numbers of the processes that were started, ended ones too."""
        return list(self._begun)
