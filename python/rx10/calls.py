"""What a task may ask for, at any place."""

from __future__ import annotations

from typing import Any, Callable, Dict, List, Optional, Tuple, cast

from .errors import Misuse, for_users
from .finish import Finish
from .place import Place, current

WAIT = 60                       # seconds in which a place must come


class Calls:
    """A job as its tasks have it. The calls mean the task that makes them."""

    def __init__(self, place: Place) -> None:
        self._place = place

    @for_users
    def finish(self, progress: bool = False, limit: Optional[float] = None) -> Finish:
        """A context manager whose end waits for all tasks under it. It raises Faults where places were lost or tasks threw.

        Args:
            progress: while it waits, a line on standard error shows how many of its tasks are done, run, and were lost, in all and by place.
            limit: seconds from its beginning. When they have passed, the places that still run tasks under it are reported dead, as by
                `kill`, and the Faults that it raises has `limit` True. Tasks at place 0 are waited for all the same.
        """
        return Finish(self._place, progress, limit)

    @for_users
    def spawn(self, place: int, fn: Callable[..., Any], /, *args: Any, **kwargs: Any) -> None:
        """Starts fn(*args, **kwargs) as a task at a place, under the innermost finish around the caller. Its result is dropped."""
        self._place.spawn(place, fn, args, kwargs, False)

    @for_users
    def at(self, place: int, fn: Callable[..., Any], /, *args: Any, limit: Optional[float] = None, **kwargs: Any) -> Any:
        """Runs fn(*args, **kwargs) at a place, and returns its value or raises what it raised. `limit`: as of a finish, and not fn's."""
        return self._place.at(place, fn, args, kwargs, limit)

    @for_users
    def join(self, wait: Optional[float] = WAIT) -> int:
        """Takes in one more place and returns its number. Raises Misuse where there can be none, or none comes within `wait` seconds; None
        waits for ever."""
        if wait is not None and wait <= 0:
            raise ValueError("a place needs some time to come")
        with self._place.guard():
            task = self._place.task()
            task.will_wait()
            place, why = self._place.wait(task, "join", task.key, wait)
            task.has_waited()
        if place is None:
            raise Misuse(why)
        return int(place)

    @for_users
    def kill(self, place: int) -> None:
        """Ends a place that is stuck. What ran there is lost. In the driver any thread may call it."""
        self._place.check(place)
        if place == 0:
            raise ValueError("place 0 cannot be ended")
        with self._place.guard():
            self._place.tell("kill", place)

    def places(self) -> Tuple[int, ...]:
        """The places that are not known to be dead, in ascending order. It may be out of date. Any thread of this place may ask."""
        return self._place.living

    @property
    def here(self) -> int:
        """The number of this place."""
        return self._place.number

    @property
    def store(self) -> Dict[Any, Any]:
        """A dictionary of this place, for what tasks of the job share there."""
        return self._place.store

    def __reduce__(self) -> Tuple[Callable[[], Calls], Tuple[()]]:
        return job, ()                                          # as an argument it arrives as the job of the task that has it then


_open: List[Any] = []                # the jobs that this process drives, the newest last


def opened(driven: Calls) -> None:
    """Notes a job that this process drives."""
    _open.append(driven)


def closed(driven: Calls) -> None:
    """The job is over."""
    _open.remove(driven)


@for_users
def job() -> Calls:
    """The job of the current task. Raises Misuse where no task runs in this thread."""
    task = current.get(None)
    for driven in reversed(_open):
        if driven.is_of(task):
            return cast(Calls, driven)
    if task is None:
        raise Misuse("this thread runs no task of a job")
    return Calls(task.place)


@for_users
def finish(progress: bool = False, limit: Optional[float] = None) -> Finish:
    """`finish` of the current task's job."""
    return job().finish(progress, limit)


@for_users
def spawn(place: int, fn: Callable[..., Any], /, *args: Any, **kwargs: Any) -> None:
    """`spawn` of the current task's job."""
    job().spawn(place, fn, *args, **kwargs)


@for_users
def at(place: int, fn: Callable[..., Any], /, *args: Any, limit: Optional[float] = None, **kwargs: Any) -> Any:
    """`at` of the current task's job."""
    return job().at(place, fn, *args, limit=limit, **kwargs)


@for_users
def join(wait: Optional[float] = WAIT) -> int:
    """`join` of the current task's job."""
    return job().join(wait)


@for_users
def kill(place: int) -> None:
    """`kill` of the current task's job."""
    job().kill(place)


@for_users
def places() -> Tuple[int, ...]:
    """`places` of the current task's job."""
    return job().places()


@for_users
def here() -> int:
    """The number of this place."""
    return job().here


@for_users
def store() -> Dict[Any, Any]:
    """A dictionary of this place, for what tasks of the job share there."""
    return job().store


class Ref:
    """A reference to an object that stays at its place. It may travel; the object does not."""

    @for_users
    def __init__(self, thing: Any) -> None:
        here = job()._place
        self.place, self._key = here.number, next(here.serial)
        here.objects[self._key] = thing

    @for_users
    def get(self) -> Any:
        """The object, at its place. Elsewhere, or after `forget`, it raises Misuse."""
        here = job()._place
        if here.number != self.place:
            raise Misuse(f"the object is at place {self.place}, and this is place {here.number}")
        if self._key not in here.objects:
            raise Misuse("the object was forgotten")
        return here.objects[self._key]

    @for_users
    def forget(self) -> None:
        """Drops the object, at its place."""
        self.get()
        del job()._place.objects[self._key]
