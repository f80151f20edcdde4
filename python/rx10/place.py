"""A place: its line to the hub, its tasks, and what a task may ask for."""

from __future__ import annotations

import contextvars
import itertools
import math
import pickle
import queue
import socket
import threading
from functools import partial
from typing import Any, Callable, Dict, Iterable, List, NamedTuple, Optional, Sequence, Tuple, TYPE_CHECKING, Union

from . import pickles, wire
from .errors import Closed, CoordinatorLost, Misuse, bare, leaves, outcome
from .pool import Job, Pool
from .version import VERSION

if TYPE_CHECKING:
    from .finish import Finish

RECEIVE = 1 << 18
STOPPED = {"closed": Closed, "coordinator": CoordinatorLost}

current: contextvars.ContextVar[Task] = contextvars.ContextVar("the task that runs in this thread")


class Task:
    """A task that runs at this place. It is one thread."""

    def __init__(self, key: int, place: Place, pooled: bool = True) -> None:
        self.key, self.place, self.pooled = key, place, pooled
        self._waits = 0                                         # its open finishes, and the call in which it waits
        self.thread: Optional[int] = None
        self.within: Optional[Task] = None                      # of a main task: the task of another job that opened this one
        self.finishes: List[Finish] = []                        # those that it entered and has not left, the innermost last
        self.answers: queue.SimpleQueue[Tuple[Any, ...]] = queue.SimpleQueue()
        # How tasks ended that hang under its finishes and calls. It comes before the release, and is shown with it.
        self.values: Dict[int, bytes] = {}                      # by key
        self.faults: Dict[int, Tuple[int, Sequence[bytes]]] = {}    # by number: the key, and what it stands for

    def will_wait(self) -> None:
        """It is about to begin what it has to wait for. Raises Misuse where no more tasks of its place may wait."""
        if self.pooled and not self._waits:
            self.place.pool.may_wait()
        self._waits += 1

    def has_waited(self) -> None:
        """That is over."""
        self._waits -= 1
        if self.pooled and not self._waits:
            self.place.pool.waits_no_more()

    def note_end(self, key: int, how: str, what: Any) -> None:
        """A task ended: with a value, or with faults by number."""
        if how == "value":
            self.values[key] = what
        else:
            self.faults.update((number, (key, blobs)) for number, blobs in what.items())


class Outcome(NamedTuple):
    """How a finish or a call went."""

    lost: List[int]
    masked: int
    thrown: List[BaseException]
    threw: Dict[int, List[int]]             # by key of a task that threw: positions in `thrown`
    limit: bool                             # whether its limit has passed


def time_of(limit: Optional[float]) -> Optional[float]:
    """A limit in seconds, as the hub is told it; None where there is none. Raises ValueError where it is no time."""
    if limit is not None and not limit > 0:
        raise ValueError(f"limit={limit!r}: a time of more than no seconds, or None")
    return None if limit is None or math.isinf(limit) else float(limit)


class Guard:
    """Ends the job where an interrupt leaves a call of rx10 in the driver: how far the call had come is not known then."""

    def __init__(self, place: Place) -> None:
        self._place = place

    def __enter__(self) -> Guard:
        return self

    def __exit__(self, kind: Any, fault: Optional[BaseException], trace: Any) -> None:
        if fault is not None and not isinstance(fault, Exception) and self._place.owner == threading.get_ident():
            self._place.abort(f"{kind.__name__} in a call of rx10")


class Place:
    """The part of a job that runs in this process."""

    def __init__(self, line: Union[socket.socket, wire.SealedLine], by_value: bool = False) -> None:
        self.say: Callable[[str], None] = lambda text: None     # tells the user what this place does
        self.number = -1                                        # until the hub tells it
        self.living: Tuple[int, ...] = ()
        self.count = 0                                          # places that have joined, dead ones too
        self.store: Dict[Any, Any] = {}
        self.objects: Dict[int, Any] = {}                       # what a Ref of this place stands for
        self.serial = itertools.count(1)                        # of tasks and of objects
        self.tasks: Dict[int, Task] = {}
        self.pool = Pool(1)
        self.closed: Optional[Closed] = None                    # what calls raise once the job is over
        self.failed = False
        # At place 0 alone:
        self.main: Optional[Task] = None
        self.owner: Optional[int] = None                        # the thread of the main task
        self.ready = threading.Event()                          # the places of the beginning are there, or the job is over
        self.end_others: Callable[[str], None] = lambda why: None
        self.await_end: Callable[[], None] = lambda: None

        self._line, self._by_value, self._lock = line, by_value, threading.Lock()
        wire.close_in_children(line)

    # The line.

    def listen(self) -> None:
        """Takes what the hub sends, until the job is over or the line ends."""
        frames = wire.Frames()
        while not self.closed:
            try:
                data = self._line.recv(RECEIVE)
            except OSError:
                data = b""
            if not data:
                break
            for kind, *rest in frames.feed(data):
                self._HANDLE[kind](self, *rest)

    def tell(self, *message: Any) -> None:
        """Sends a message to the hub."""
        if self.closed:
            raise self.closed
        data = wire.frame(message)
        try:
            with self._lock:
                self._line.sendall(data)
        except OSError:
            self.await_end()
            raise self.closed or Closed("the hub is gone") from None

    def hang_up(self) -> None:
        """Closes the line."""
        self._line.close()

    def _on_hello(self, number: int, living: Tuple[int, ...], count: int, threads: int) -> None:
        self.number, self.living, self.count, self.pool.limit = number, living, count, threads
        self.say(f"this is place {number} of the job; places {', '.join(map(str, living))} live")

    def _on_places(self, living: Tuple[int, ...], count: int) -> None:
        self.living, self.count = living, count

    def _on_ready(self, living: Tuple[int, ...], count: int) -> None:
        self._on_places(living, count)
        self.ready.set()

    def _on_run(self, key: int, call: bytes, wanted: bool) -> None:
        self._start(key, call, wanted)

    def _on_answer(self, kind: str, key: int, *rest: Any) -> None:
        task = self.tasks.get(key)
        if task is not None:
            task.answers.put((kind, *rest))

    def _on_ended(self, opener: int, key: int, how: str, what: Any) -> None:
        task = self.tasks.get(opener)
        if task is not None:
            task.note_end(key, how, what)

    def _on_ping(self) -> None:
        """The hub asks for a sign of life. This thread gives it, also while tasks compute."""
        try:
            self.tell("pong")
        except Closed:
            pass

    def _on_stop(self, kind: str, why: str, over: bool) -> None:
        if not over:
            self.failed = True
            self.end_others(why)                                # so nothing overtakes them
        self.close(STOPPED[kind](why))

    _HANDLE: Dict[str, Callable[..., None]] = {
        "hello": _on_hello, "places": _on_places, "ready": _on_ready, "run": _on_run, "ended": _on_ended, "ping": _on_ping, "stop": _on_stop,
        "released": lambda self, *rest: self._on_answer("released", *rest),
        "joined": lambda self, *rest: self._on_answer("joined", *rest),
        "progress": lambda self, *rest: self._on_answer("progress", *rest)}

    def close(self, why: Closed) -> None:
        """The job is over for this place: those who wait learn it, and all later calls."""
        self.closed = self.closed or why
        self.ready.set()
        for task in list(self.tasks.values()):
            task.answers.put(("stop",))
        self.pool.close()

    def abort(self, why: str) -> None:
        """Ends the job. At place 0 it returns when the other places have ended, as far as the engine can end them."""
        try:
            self.tell("abort", why)
        except Closed:
            pass
        self.close(Closed(why))
        self.end_others(why)

    # What tasks ask for.

    def guard(self) -> Guard:
        """For the body of a call of rx10."""
        return Guard(self)

    def task(self) -> Task:
        """The task that runs in this thread. Raises Misuse where none does."""
        if self.closed:
            raise self.closed
        task = current.get(None)
        if self.main is not None and self.main.thread == threading.get_ident() and self.main.within is task:
            task = self.main
        if task is None or task.place is not self or task.thread != threading.get_ident():
            raise Misuse("this thread runs no task of the job")
        return task

    def check(self, place: int) -> None:
        """Raises ValueError where there is no such place."""
        if not isinstance(place, int) or not 0 <= place < self.count:
            raise ValueError(f"there is no place {place!r}: {self.count} have joined")

    def wait(self, task: Task, *message: Any) -> Tuple[Any, ...]:
        """Sends what makes the task wait, and waits for the answer. Another task may run in its stead meanwhile."""
        self.tell(*message)
        if task.pooled:
            self.pool.leave()
        kind, *answer = task.answers.get()
        while kind == "progress":
            watch, tally, silent = answer
            for finish in task.finishes:
                if finish.watch == watch:
                    finish.show(tally, silent)
            kind, *answer = task.answers.get()
        if task.pooled:
            self.pool.enter_again()
        if kind == "stop":
            raise self.closed or Closed("the job is over")
        return tuple(answer)

    def wait_for_release(self, task: Task, body: Iterable[BaseException], *message: Any) -> Outcome:
        """The same, for what a release answers. `body`: what a finish's own body raised, of which the hub knows the count alone."""
        lost, masked, numbers, limit = self.wait(task, *message)
        own = iter(body)
        thrown: List[BaseException] = []
        threw: Dict[int, List[int]] = {}
        for number in numbers:
            if number is None:
                thrown.append(next(own))
                continue
            key, blobs = task.faults.pop(number)
            threw.setdefault(key, []).extend(range(len(thrown), len(thrown) + len(blobs)))
            thrown.extend(map(pickles.unpack_fault, blobs))
        return Outcome(lost, masked, thrown, threw, limit)

    def spawn(self, place: int, fn: Callable[..., Any], args: Tuple[Any, ...], kwargs: Dict[str, Any], wanted: bool) -> int:
        """Starts a task and returns its key."""
        self.check(place)
        task = self.task()
        call = pickles.pack_call(fn, args, kwargs, self._by_value)      # where this raises nothing was told
        with self.guard():
            key = self._new_key()
            at_home = place == self.number
            self.tell("spawn", task.key, key, place, None if at_home else call, wanted)
            if at_home:
                self._start(key, call, wanted)
        return key

    def at(self, place: int, fn: Callable[..., Any], args: Tuple[Any, ...], kwargs: Dict[str, Any], limit: Optional[float]) -> Any:
        """Calls a place, and waits."""
        self.check(place)
        limit = time_of(limit)
        task = self.task()
        call = pickles.pack_call(fn, args, kwargs, self._by_value)
        if place == self.number and limit is None:              # else the hub must know of the call
            return self._at_home(task, call)
        with self.guard():
            task.will_wait()
            key = self._new_key()
            how = self.wait_for_release(task, (), "call", task.key, key, place, call, limit)
            task.has_waited()
        value = task.values.pop(key, None)
        if value is not None and not how.lost and not how.thrown:
            return pickles.unpack_value(value)
        raise bare(outcome(f"at({place})", how.lost, how.masked, how.thrown, how.limit))

    def _at_home(self, task: Task, call: bytes) -> Any:
        """The same task goes on, with copies of arguments and result."""
        fn, args, kwargs = pickle.loads(call)
        raised: Optional[BaseException] = None
        before = current.set(task)                              # the driver's own thread may have entered another job since
        try:
            value = fn(*args, **kwargs)
        except Exception as fault:
            raised = bare(outcome(f"at({self.number})", (), 0, leaves(fault)))      # an inner finish's `lost` is not this call's
            raised = raised.with_traceback(raised.__traceback__ or fault.__traceback__)
        finally:
            current.reset(before)
        if raised is not None:
            raise raised
        return pickles.unpack_value(pickles.pack_value(value, self._by_value))

    def _new_key(self) -> int:
        return self.number << 40 | next(self.serial)

    # Tasks.

    def _start(self, key: int, call: bytes, wanted: bool) -> None:
        self.tasks[key] = task = Task(key, self)
        self.pool.submit(Job(lambda: contextvars.Context().run(self._run, task, call, wanted), partial(self._refuse, task)))

    def _refuse(self, task: Task, why: Exception) -> None:
        """No thread can be had for a task: it ends with a fault, and the place lives on."""
        fault = RuntimeError(f"place {self.number} has no thread for this task: {why}. {len(self.tasks) - 1} other tasks are there")
        self._end(task, [pickles.pack_fault(fault, self._by_value)], None)

    def _run(self, task: Task, call: bytes, wanted: bool) -> None:
        if self.closed:
            return
        current.set(task)
        task.thread = threading.get_ident()
        thrown: List[bytes] = []
        value = None
        try:
            fn, args, kwargs = pickle.loads(call)
            value = fn(*args, **kwargs)
            if task.finishes:
                self.abort("a task ended inside a finish")
            value = pickles.pack_value(value, self._by_value) if wanted else None
        except BaseException as fault:
            if fault is self.closed:
                return
            value = None
            thrown = [pickles.pack_fault(leaf, self._by_value) for leaf in leaves(fault)]
        self._end(task, thrown, value)

    def _end(self, task: Task, thrown: List[bytes], value: Optional[bytes]) -> None:
        del self.tasks[task.key]
        try:
            self.tell("end", task.key, thrown, value)           # the result and the end are one message
        except Closed:
            pass


def serve(line: Union[socket.socket, wire.SealedLine], by_value: bool = False, say: Optional[Callable[[str], None]] = None) -> Place:
    """The life of a place other than place 0, up to the end of the job or of its line. `say` is told which place it is."""
    here = Place(line, by_value)
    here.say = say or here.say
    try:
        here.tell("ready", VERSION)
    except Closed:
        return here                                             # the job was over before this place had started
    here.listen()
    return here
