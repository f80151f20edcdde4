"""What the driver asks of an engine, and what an engine tells."""

from __future__ import annotations

import abc
import socket
from typing import Any, List, NamedTuple, Optional, Protocol, Tuple, Union


class Where(NamedTuple):
    """What runs a place."""

    host: str                   # the machine's name
    process: int                # its number there
    worker: str = ""            # over Dask: the worker's address
    silent: bool = False        # it gives no sign of life

    def __index__(self) -> int:
        """So that os.kill takes it for the number of the process."""
        return self.process


class Job(Protocol):
    """What an engine tells. Each place has a tag, by which the engine knows it."""

    def connected(self, sock: socket.socket, other: Union[socket.socket, int, None], tag: Any, joiner: Optional[int],
                  key: Optional[bytes] = None) -> None:
        """The line of a new place is there. The engine closes its own files afterwards.

        `key`: where there is one, the line is sealed with it, and `other` is the place's life (`door` says what that is). Where there is none,
        `other` is the file that tells the end of the place's process, if this machine has such files.
        """

    def removed(self, tag: Any) -> None:
        """This place is gone, whatever its line says."""

    def no_place(self, joiner: Optional[int], why: str) -> None:
        """The place that was wanted cannot be had."""

    def tags(self) -> List[Any]:
        """The tags of the places that joined."""


class Engine(abc.ABC):
    """What starts and ends places. All calls but `stop` come from one thread of the driver, which lives as long as the job."""

    by_value = False            # whether functions of the main module go along with a call, as places have another main module

    @property
    def address(self) -> Optional[Tuple[str, int]]:
        """Where places come in, where they do so over a network."""
        return None

    @abc.abstractmethod
    def start(self, job: Job) -> None:
        """The job begins."""

    @abc.abstractmethod
    def add(self, joiner: Optional[int]) -> None:
        """Starts one more place."""

    @abc.abstractmethod
    def ended(self, tag: Any) -> None:
        """This place is over."""

    @abc.abstractmethod
    def stop(self, graceful: bool) -> None:
        """The job is over. Returns when all places have ended, as far as the engine can end them. It may come more than once."""

    @abc.abstractmethod
    def where(self, tag: Any) -> Where:
        """What runs this place."""

    @abc.abstractmethod
    def give_up(self, joiner: Optional[int], why: str) -> None:
        """The place that was wanted did not come in time. It is not wanted any more, what was begun for it is undone, and `no_place` tells why."""

    def describe(self) -> str:
        """What helps where places do not come."""
        return ""
