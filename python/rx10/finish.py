"""A finish, and the handles of the tasks that it starts."""

from __future__ import annotations

from typing import Any, Callable, Dict, List, Optional, Sequence

from . import pickles
from .errors import DeadPlace, Misuse, RemoteError, bare, for_users, group, leaves, outcome
from .place import Outcome, Place, Task, time_of
from .progress import ProgressLine, Tally


class Handle:
    """A task that a finish started. It tells how the task ended, once the finish is over."""

    def __init__(self, place: int) -> None:
        self.place = place
        self._over = False
        self._value: Optional[bytes] = None
        self._faults: List[BaseException] = []

    @property
    @for_users
    def lost(self) -> bool:
        """Whether the task was lost: its end was not told before its place died."""
        self._check()
        return self._value is None and not self._faults

    @for_users
    def result(self) -> Any:
        """What the task returned. Raises what it raised, or DeadPlace where it was lost; losses that it raised are DeadPlaces."""
        self._check()
        if self._faults:
            raise bare(group("a task", self._faults)).with_traceback(None)
        if self._value is None:
            raise DeadPlace(self.place)
        return pickles.unpack_value(self._value)

    def _check(self) -> None:
        if not self._over:
            raise Misuse("how a task ended is known once its finish is over")


class Finish:
    """`with` it. Leaving the block waits for all tasks under it, and then raises its losses and what they threw."""

    def __init__(self, place: Place, progress: bool = False, limit: Optional[float] = None) -> None:
        self._place = place
        self._limit = time_of(limit)
        self._task: Optional[Task] = None
        self._handles: Dict[int, Handle] = {}
        self._line = ProgressLine() if progress else None
        self.watch = next(place.serial) if progress else 0      # by which the hub names this finish when it tells of progress

    @for_users
    def __enter__(self) -> Finish:
        with self._place.guard():
            self._task = task = self._place.task()
            task.will_wait()
            self._place.tell("open", task.key, self.watch, self._limit)
            task.finishes.append(self)
        return self

    @for_users
    def spawn(self, place: int, fn: Callable[..., Any], /, *args: Any, **kwargs: Any) -> Handle:
        """Starts fn(*args, **kwargs) as a task at a place, and returns its handle at once."""
        task = self._place.task()
        if task is not self._task or task.finishes[-1:] != [self]:
            raise Misuse("tasks are started by the innermost finish, in the task that opened it")
        key = self._place.spawn(place, fn, args, kwargs, True)
        handle = self._handles[key] = Handle(place)
        return handle

    @for_users
    def __exit__(self, kind: Any, fault: Optional[BaseException], trace: Any) -> None:
        if fault is not None and not isinstance(fault, Exception) and self._task is self._place.main:
            self._place.abort(f"{type(fault).__name__} in a finish")
            return
        body = [] if fault is None else [_as_exception(leaf) for leaf in leaves(fault)]
        with self._place.guard():
            task = self._task_in_turn()
            how = self._place.wait_for_release(task, body, "wait", task.key, len(body))
            task.finishes.pop()
            task.has_waited()
        self._tell_handles(task, how)
        if self._line is not None:
            self._line.end()
        if how.lost or how.thrown:
            raise outcome("a finish", how.lost, how.masked, how.thrown, how.limit) from None

    def _task_in_turn(self) -> Task:
        task = self._place.task()
        if task is not self._task or task.finishes[-1:] != [self]:
            self._place.abort("a finish was left out of turn")
            raise Misuse("a finish was left out of turn")
        return task

    def _tell_handles(self, task: Task, how: Outcome) -> None:
        for key, handle in self._handles.items():
            handle._value = task.values.pop(key, None)
            handle._faults = [how.thrown[at] for at in how.threw.get(key, ())]
            handle._over = True

    def show(self, tally: Tally, silent: Sequence[int]) -> None:
        """Shows how far the tasks are, and which places give no sign of life, where progress is wanted."""
        if self._line is not None:
            self._line.show(tally, silent)


def _as_exception(fault: BaseException) -> Exception:
    """What a body ended with, as a fault: its SystemExit is one as any other."""
    return fault if isinstance(fault, Exception) else RemoteError(type(fault).__name__, str(fault))
