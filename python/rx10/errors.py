"""What rx10 raises."""

from __future__ import annotations

import functools
import os
import sys
from types import TracebackType
from typing import Any, Callable, Iterable, List, Optional, Sequence, Tuple, TypeVar, cast

if sys.version_info >= (3, 11):
    _Group = ExceptionGroup[Exception]
else:
    class _Group(Exception):
        """As much of ExceptionGroup as rx10 needs."""

        def __init__(self, message: str, exceptions: Sequence[BaseException]) -> None:
            super().__init__(message, exceptions)
            self.message, self.exceptions = message, tuple(exceptions)

        def __str__(self) -> str:
            return f"{self.message} ({'; '.join(f'{type(e).__name__}: {e}' for e in self.exceptions)})"


class DeadPlace(Exception):
    """Work was lost at this place."""

    def __init__(self, place: int) -> None:
        super().__init__(place)
        self.place = place

    def __str__(self) -> str:
        return f"work was lost at place {self.place}"


class Faults(_Group):
    """What a finish raises: its losses in ascending order, then what its body raised, then what its tasks raised.

    Attributes:
        lost: the places that this finish names itself. An inner finish may have named others.
        masked: how many faults of lower finishes were dropped, since those who would have raised them were lost.
        limit: whether the `limit` of this finish or call had passed, so that places which still ran its tasks were reported dead.
    """

    lost: Tuple[int, ...] = ()
    masked: int = 0
    limit: bool = False

    def derive(self, exceptions: Sequence[BaseException]) -> Faults:
        """The group that `split` and `subgroup` make of some of the parts."""
        return group("some of them", exceptions)


class DeadPlaces(Faults):
    """Places were lost, and nothing else went wrong."""

    @property
    def places(self) -> Tuple[int, ...]:
        """The places at which work was lost, in ascending order."""
        return tuple(sorted({loss.place for loss in self.exceptions if isinstance(loss, DeadPlace)}))


def group(message: str, parts: Iterable[BaseException]) -> Faults:
    """A DeadPlaces where all parts are losses, else a Faults."""
    parts = list(parts)
    kind = DeadPlaces if all(isinstance(part, DeadPlace) for part in parts) else Faults
    return kind(message, parts)


def outcome(who: str, lost: Sequence[int], masked: int, thrown: Sequence[BaseException], limit: bool = False) -> Faults:
    """What a finish or a call raises that lost these places, or threw these faults. `limit`: whether its limit had passed."""
    counts = [f"{n} {one if n == 1 else many}" for n, one, many in
              ((len(lost), "place was lost", "places were lost"), (len(thrown), "fault", "faults")) if n]
    raised = group(f"{who}{' past its limit' if limit else ''}: {', '.join(counts)}", [*map(DeadPlace, lost), *thrown])
    raised.lost, raised.masked = tuple(lost), masked
    raised.limit = limit
    return raised


def bare(raised: Faults) -> BaseException:
    """What a call raises in place of a group: its one part, where there is one and that is no loss."""
    return raised.exceptions[0] if len(raised.exceptions) == 1 and not isinstance(raised, DeadPlaces) else raised


def leaves(fault: BaseException) -> List[BaseException]:
    """The faults with which a task ends: a Faults counts as its parts, anything else as one."""
    if isinstance(fault, Faults):
        return [leaf for part in fault.exceptions for leaf in leaves(part)]
    return [fault]


class RemoteError(Exception):
    """Stands for an exception that could not be sent: the name of its type, its text, and its traceback as text."""

    def __init__(self, name: str, text: str, trace: str = "") -> None:
        super().__init__(name, text, trace)
        self.name, self.text, self.trace = name, text, trace

    def __str__(self) -> str:
        return f"{self.name}: {self.text}"


class RemoteTraceback(Exception):
    """The cause of an exception that came from another place: its traceback there, as text."""

    def __str__(self) -> str:
        return f'\n"""\n{self.args[0]}"""'


class Unpicklable(TypeError):
    """The task ended well, and its result cannot be sent."""


class Misuse(RuntimeError):
    """A call that this task may not make now. Nothing was done."""


class Closed(RuntimeError):
    """The job is over or was ended, and takes no more calls."""


class CoordinatorLost(Closed):
    """The coordinator or the hub ended while the job ran. All places were ended."""


class PlaceGone(Closed):
    """This place was told dead while its process lived. Nothing that it does counts any more."""


# What users see of the package's own lines.

FULL = bool(os.environ.get("RX10_FULL_TRACEBACKS"))     # whether tracebacks keep all lines of the package, for those who work on it
Call = TypeVar("Call", bound=Callable[..., Any])


def without_ours(trace: Optional[TracebackType]) -> Optional[TracebackType]:
    """A traceback without the lines of this package."""
    kept = []
    while trace is not None:
        if FULL or (trace.tb_frame.f_globals.get("__package__") or "").partition(".")[0] != "rx10":
            kept.append(trace)
        trace = trace.tb_next
    shortened = None
    for entry in reversed(kept):
        shortened = TracebackType(shortened, entry.tb_frame, entry.tb_lasti, entry.tb_lineno)
    return shortened


def for_users(call: Call) -> Call:
    """A call that users make: what it raises has one line of this package in its traceback."""
    @functools.wraps(call)
    def call_of_rx10(*args: Any, **kwargs: Any) -> Any:
        try:
            return call(*args, **kwargs)
        except BaseException as fault:
            raise fault.with_traceback(without_ours(fault.__traceback__))
    return cast(Call, call_of_rx10)
