"""Places as threads in the workers of a Dask cluster, each with a TCP line to the hub.

No task of rx10 is a task of Dask: Dask would run the tasks of a lost worker again elsewhere, or hold them for ever where they are pinned.
Dask gives processes, tells which workers come and go, and carries the call that starts a place.
"""

from __future__ import annotations

import asyncio
import ctypes
import itertools
import secrets
import socket
import ssl
import threading
from typing import Any, Callable, Dict, List, Optional, Sequence, Set, Tuple

from .. import place, wire
from ..errors import Closed, PlaceGone
from .base import Job, Where
from .door import Door, Newcomer, Refused, knock
from .handshake import Answer, TOKEN

try:
    from distributed import SchedulerPlugin
except ImportError:
    SchedulerPlugin = object    # type: ignore

GONE = "this place was told dead, or the driver is gone"

_over: Dict[bytes, threading.Event] = {}    # in a worker: by token, set once its place has ended


class Watch(SchedulerPlugin):
    """Runs in the scheduler, and tells who comes and goes."""

    def __init__(self, topic: str, client: str) -> None:
        self.topic = self.name = topic
        self.client = client

    def add_worker(self, scheduler: Any, worker: str) -> None:
        """A worker has come."""
        scheduler.log_event(self.topic, ("add", worker))

    def remove_worker(self, scheduler: Any, worker: str, **_: Any) -> None:
        """A worker has gone, or is given up."""
        scheduler.log_event(self.topic, ("remove", worker))

    def remove_client(self, scheduler: Any, client: str) -> None:
        """The driver is gone without a word."""
        if client == self.client:
            scheduler.remove_plugin(name=self.name)


async def start_place(host: str, port: int, token: bytes, number: int, secure: bool, dask_worker: Any = None) -> None:
    """Runs in a worker, in its event loop. Raises OSError where the worker cannot reach the driver.

    `secure`: whether the line is encrypted, by the worker's own settings. Dask fills in `dask_worker`.
    """
    tls = dask_worker.security.get_connection_args("worker")["ssl_context"] if secure else None
    knocked = await asyncio.get_running_loop().run_in_executor(None, knock, host, port, token, number, tls)
    _over[token] = threading.Event()
    threading.Thread(target=serve, args=(knocked.line, token), name="rx10 place", daemon=True).start()


def serve(line: wire.SealedLine, token: bytes) -> None:
    """Runs in a worker, in a thread: its place."""
    try:
        with line:
            here = place.serve(line, by_value=True)
            if here.failed or not here.closed:
                stop_tasks(here)
    finally:
        _over.pop(token).set()


def stop_tasks(here: place.Place) -> None:
    """The hub has hung up, and the worker's process goes on. So the tasks are stopped as far as Python can: by an exception at their next
    step, and at their next call of rx10."""
    here.closed = PlaceGone(GONE)
    here.close(here.closed)
    for thread in here.pool.busy_threads():
        ctypes.pythonapi.PyThreadState_SetAsyncExc(ctypes.c_ulong(thread), ctypes.py_object(SystemExit))


def keep(token: bytes) -> None:
    """A task of Dask that runs as long as the place does, so that Dask does not take the worker for idle and end it."""
    from distributed import secede
    over = _over.get(token)
    if over is not None:
        secede()
        over.wait()


def context_of(client: Any) -> Optional[ssl.SSLContext]:
    """What the driver shows to the workers: what a client of this cluster shows to its scheduler. None where the cluster uses no TLS."""
    if not client.scheduler.address.startswith("tls://"):
        return None
    config = client.security.get_tls_config_for_role("client")
    context = ssl.SSLContext(ssl.PROTOCOL_TLS_SERVER)
    context.verify_mode = ssl.CERT_REQUIRED
    context.load_verify_locations(config["ca_file"])
    context.load_cert_chain(config["cert"], config["key"])
    return context


class Dask(Door):
    """The engine of `rx10.dask`. A tag is a number with the address of a worker, and what runs there."""

    def __init__(self, client: Any, workers: Optional[Sequence[str]], spare: Sequence[str], host: Optional[str]) -> None:
        super().__init__(secrets.token_bytes(TOKEN))
        self.client, self.host, self.topic = client, host, f"rx10-{secrets.token_hex(4)}"
        self.addresses = list(client.scheduler_info()["workers"] if workers is None else workers)
        self._unused = [*self.addresses, *spare]
        self._expected: Dict[int, Tuple[str, Optional[int]]] = {}           # by number: the address, and the task that wanted the place
        self._keepers: Dict[int, Any] = {}
        self._without_keeper: Set[int] = set()                              # numbers of dead places
        self._is_over = False
        self._lock = threading.Lock()                                       # of these four: a keeper may be submitted late
        self._serial = itertools.count(1)

    def start(self, job: Job) -> None:
        self.tls = context_of(self.client)
        self.listen(self.host or self._own_host(), 0)
        self.open(job)
        self.client.subscribe_topic(self.topic, self._on_event)
        try:
            self.client.register_scheduler_plugin(Watch(self.topic, self.client.id), name=self.topic)
        except Exception as fault:
            raise Closed(self._why("the scheduler", fault)) from fault

    def _own_host(self) -> str:
        """The address by which this machine reaches the scheduler. The workers must reach it, too."""
        kind, _, rest = self.client.scheduler.address.partition("://")
        if kind not in ("tcp", "tls"):
            return "127.0.0.1"
        host, port = rest.rsplit(":", 1)
        with socket.create_connection((host.strip("[]"), int(port))) as sock:
            return sock.getsockname()[0]

    def add(self, joiner: Optional[int]) -> None:
        if not self._unused:
            self.job.no_place(joiner, "each worker of the cluster has its place")
            return
        address, number = self._unused.pop(0), next(self._serial)
        with self._lock:
            self._expected[number] = (address, joiner)
        threading.Thread(target=self._begin, args=(number, address, joiner), daemon=True).start()

    def _begin(self, number: int, address: str, joiner: Optional[int]) -> None:
        where = self.address
        if where is None:
            return                                              # the job is over
        try:
            self.client.run(start_place, *where, self.token, number, self.tls is not None, workers=[address])
        except Exception as fault:
            with self._lock:
                expected = self._expected.pop(number, None)
            if expected:                                        # else it has come all the same
                self.job.no_place(joiner, self._why(f"the worker {address}", fault))
            return
        self._quietly(self._keep, number, address)

    def _keep(self, number: int, address: str) -> None:
        """Submits the keeper of a place. The place may be dead by now, or the job over: then nobody else would cancel it."""
        keeper = self.client.submit(keep, self.token, workers=[address], allow_other_workers=False, pure=False, key=f"{self.topic}-{number}")
        with self._lock:
            is_late = self._is_over or number in self._without_keeper
            if not is_late:
                self._keepers[number] = keeper
        if is_late:
            keeper.cancel()

    @staticmethod
    def _why(who: str, fault: Exception) -> str:
        if "No module named 'rx10" in str(fault):
            return f"{who} cannot import rx10: the workers and the scheduler need it, too"
        return f"{who} can do nothing for the job: {fault!r}"

    def check(self, number: int) -> None:
        if number not in self._expected:
            raise Refused("unwanted", f"no worker was asked to come as number {number}", Answer.NOT_WANTED)

    def came(self, newcomer: Newcomer) -> None:
        with self._lock:
            address, joiner = self._expected.pop(newcomer.number, ("", None))
        if address:
            self.take_in(newcomer, (newcomer.number, address, newcomer.where), joiner)
        else:
            self.turn_out(newcomer)                             # it is late

    def give_up(self, joiner: Optional[int], why: str) -> None:
        with self._lock:
            for number in [number for number, wanted in self._expected.items() if wanted[1] == joiner]:
                self._unused.append(self._expected.pop(number)[0])
        self.job.no_place(joiner, why)

    def describe(self) -> str:
        with self._lock:
            missing = [address for address, _ in self._expected.values()]
        return f"no place came from {', '.join(missing) or 'nobody else'}; {super().describe()}"

    def where(self, tag: Any) -> Where:
        _, address, where = tag
        return Where(where.host, where.process, address)

    def _on_event(self, event: Any) -> None:
        """The scheduler tells who comes and goes. The end of a line tells it sooner, where the machine still answers."""
        kind, address = event[1]
        if kind == "add":
            self._unused.append(address)
        elif address in self._unused:
            self._unused.remove(address)
        else:
            for tag in self.job.tags():
                if tag[1] == address:
                    self.job.removed(tag)

    def ended(self, tag: Any) -> None:
        """The keeper of a dead place would wait for ever, or run again in a worker that gets the same address."""
        with self._lock:
            self._without_keeper.add(tag[0])
            keeper = self._keepers.pop(tag[0], None)
        if keeper is not None:
            threading.Thread(target=self._quietly, args=(keeper.cancel,), daemon=True).start()

    @staticmethod
    def _quietly(fn: Callable, *args: Any) -> None:
        try:
            fn(*args)
        except Exception:
            pass                                                # the cluster may be gone

    def stop(self, graceful: bool) -> None:
        topic, keepers = self.topic, self._take_keepers()
        self.shut(graceful)
        if self.client.status != "running":
            return                                              # the scheduler is gone, and each call would wait for it
        self._quietly(self.client.unsubscribe_topic, topic)
        self._quietly(self.client.cancel, keepers)
        self._quietly(self.client.run_on_scheduler, lambda dask_scheduler: dask_scheduler.remove_plugin(name=topic))

    def _take_keepers(self) -> List[Any]:
        with self._lock:
            self._is_over = True
            keepers, self._keepers = list(self._keepers.values()), {}
        return keepers
