"""The coordinator's process, and the requests that go to it."""

from __future__ import annotations

import os
import subprocess
from typing import Callable, List, Protocol

from ..errors import Closed, CoordinatorLost

BATCH = 16384                   # bytes of requests at a time
RECEIVE = 1 << 18


class Pipes(Protocol):
    """What goes to the coordinator, and what comes from it."""

    def fileno(self) -> int:
        """A file that is readable where replies have come."""

    def write(self, data: bytes) -> None:
        """Sends what fits into an empty pipe. Raises OSError where the coordinator has ended."""

    def read(self, most: int) -> bytes:
        """What has come, nothing at its end. Waits where nothing has."""

    def close(self, graceful: bool) -> None:
        """Ends the coordinator."""


class Program:
    """The coordinator as a child of this process."""

    def __init__(self, command: List[str]) -> None:
        try:
            self._process = subprocess.Popen(command, stdin=subprocess.PIPE, stdout=subprocess.PIPE, bufsize=0)
        except OSError as fault:
            raise Closed(f"the coordinator {command[0]} cannot be started: {fault}") from None
        assert self._process.stdin is not None and self._process.stdout is not None
        self._requests, self._replies = self._process.stdin, self._process.stdout

    def fileno(self) -> int:
        """A file that is readable where replies have come."""
        return self._replies.fileno()

    def write(self, data: bytes) -> None:
        """Sends what fits into an empty pipe."""
        os.write(self._requests.fileno(), data)

    def read(self, most: int) -> bytes:
        """What has come."""
        return os.read(self._replies.fileno(), most)

    def close(self, graceful: bool) -> None:
        """Ends the coordinator."""
        self._requests.close()
        if not graceful:
            self._process.kill()
        self._process.wait()
        self._replies.close()


class Coordinator:
    """Requests go out in batches, each after the replies to the one before. A batch fits into an empty pipe, so neither side ever
    waits for room while the other one does."""

    def __init__(self, pipes: Pipes, clock: Callable[[], float], batch: int = BATCH) -> None:
        self.pipes, self._clock, self._batch = pipes, clock, batch
        self._unsent, self._received = bytearray(), b""
        self._due = 1                                           # lines that are due: the greeting, then replies to the batch that was sent last
        self._since = clock()                                   # when it was asked, or was heard after that

    def ask(self, line: str) -> None:
        """Keeps a request for the next batch."""
        self._unsent += line.encode()
        self._unsent += b"\n"

    @property
    def may_send(self) -> bool:
        """Whether a batch waits that may go."""
        return bool(self._unsent) and not self._due

    def send(self) -> None:
        """Sends a batch, where one may go."""
        if not self.may_send:
            return
        cut = len(self._unsent) if len(self._unsent) <= self._batch else self._unsent.rindex(b"\n", 0, self._batch) + 1
        self._due, self._since = self._unsent.count(b"\n", 0, cut), self._clock()
        try:
            self.pipes.write(bytes(self._unsent[:cut]))
        except OSError:
            raise CoordinatorLost("the coordinator ended") from None
        del self._unsent[:cut]

    def read(self) -> List[str]:
        """The lines that have come, `freed` ones among them. Waits where none has."""
        data = self.pipes.read(RECEIVE)
        if not data:
            raise CoordinatorLost("the coordinator ended")
        self._since = self._clock()
        *lines, self._received = (self._received + data).split(b"\n")
        return [line.decode() for line in lines]

    def answered(self) -> None:
        """A line that was due has come."""
        self._due -= 1

    def silent_since(self) -> float:
        """The moment since which it owes a line and gives none; infinite where it owes none."""
        return self._since if self._due else float("inf")

    def close(self, graceful: bool) -> None:
        """Ends the coordinator."""
        self.pipes.close(graceful)
