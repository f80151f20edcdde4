"""python -m rx10.trace RECORD: writes the history of a job as a trace, of which `rx10 draw` makes a picture.

RECORD is the file that `record=` named: what the hub asked of the coordinator, and the replies. A fault stands as `code:N`, by its number
there; the paths of statements, which a job does not have, are all `0`.
"""

from __future__ import annotations

import sys
from typing import Dict, Iterable, List, Tuple

PATH = "0"


def record_lines(lines: Iterable[str]) -> List[Tuple[List[str], List[str]]]:
    """The words of each request and of its reply. A release that was parked has no request of its own."""
    pairs = [line.rstrip("\n").split("\t") for line in lines]
    return [(request.split(), reply.split()) for request, reply in pairs if request != "#"]


class History:
    """The entries of a job's history."""

    def __init__(self) -> None:
        self.entries: List[str] = []
        self.kills: List[str] = []
        self.joins: List[str] = []
        self._place: Dict[str, str] = {"t0": "0"}               # by task
        self._hangs: Dict[str, str] = {"t0": "s0"}              # the scope under which a task hangs
        self._own: Dict[str, List[str]] = {"t0": []}            # the scopes that it opened, the innermost last

    def note(self, request: List[str], reply: List[str]) -> None:
        """Takes a request with its reply, or a reply that answers no request."""
        verb = request[0] if request else reply[0]
        if reply[0] not in ("bad", "full", "no", "malformed", "parked"):
            getattr(self, f"_{verb}")(request, reply)

    def _enter(self, *words: str) -> None:
        self.entries.append(" ".join([str(len(self.entries)), *words]))

    def _innermost(self, task: str) -> str:
        return (self._own[task] or [self._hangs[task]])[-1]

    def _born(self, task: str, scope: str, place: str) -> None:
        self._place[task], self._hangs[task], self._own[task] = place, scope, []

    def _open(self, request: List[str], reply: List[str]) -> None:
        task, scope = request[1], reply[1]
        self._enter("open", task, scope, "in", self._innermost(task), PATH)
        self._own[task].append(scope)

    def _at(self, request: List[str], reply: List[str]) -> None:
        (_, task, place), (_, callee, _, scope, *_) = request, reply
        self._enter("at", task, scope, "in", self._innermost(task), callee, self._place[task], place, PATH)
        self._own[task].append(scope)
        self._born(callee, scope, place)

    def _spawn(self, request: List[str], reply: List[str]) -> None:
        (_, task, place), (_, child, _, scope, *_) = request, reply
        self._enter("spawn", task, child, "in", scope, self._place[task], place, PATH)
        self._born(child, scope, place)

    def _send(self, request: List[str], reply: List[str]) -> None:
        self._spawn(request, reply)
        if reply[-1] != "lost" and self._place[request[1]] != request[2]:
            self._enter("arrive", reply[1], request[2])

    def _arrive(self, request: List[str], _reply: List[str]) -> None:
        self._enter("arrive", request[1], self._place[request[1]])

    def _wait(self, request: List[str], _reply: List[str]) -> None:
        self._enter("wait", request[1], self._innermost(request[1]), *thrown(request[2:]))

    def _end(self, request: List[str], _reply: List[str]) -> None:
        self._enter("end", request[1], *thrown(request[2:]))

    def _release(self, request: List[str], reply: List[str]) -> None:
        self._enter("release", request[1], self._own[request[1]].pop(), *carried(reply[1:]))

    def _root(self, _request: List[str], reply: List[str]) -> None:
        self._enter("release", "host", "s0", *carried(reply[1:]))

    def _freed(self, _request: List[str], reply: List[str]) -> None:
        (self._root if reply[1] == "root" else self._release)(reply, reply[1:])

    def _death(self, request: List[str], _reply: List[str]) -> None:
        self.kills.append(f"{request[1]}@{len(self.entries)}")
        self._enter("death", request[1])

    def _join(self, _request: List[str], reply: List[str]) -> None:
        self.joins.append(str(len(self.entries)))
        self._enter("join", reply[1])

    def text(self) -> str:
        """The trace."""
        journals = [line for place in range(1 + len(self.joins)) for line in (f"journal {place}", *self._close(place))]
        return "\n".join(["rx10 trace 2", "places 1 heap 1", " ".join(["kills", *self.kills]), " ".join(["joins", *self.joins]), "history",
                          *self.entries, *journals, "done"]) + "\n"

    def _close(self, place: int) -> List[str]:
        return [f"0 {kill.split('@')[1]} close" for kill in self.kills if kill.split("@")[0] == str(place)]


def thrown(faults: List[str]) -> List[str]:
    """The words for faults."""
    return ["thrown", *(f"code:{fault}" for fault in faults)] if faults else []


def carried(words: List[str]) -> List[str]:
    """The words for what a release carries."""
    if "thrown" not in words:
        return words
    at = words.index("thrown")
    return words[:at] + thrown(words[at + 1:])


def main() -> int:
    """Writes the trace of a record to standard output."""
    if len(sys.argv) != 2:
        sys.stderr.write("usage: python -m rx10.trace RECORD\n")
        return 2
    history = History()
    with open(sys.argv[1], encoding="ascii") as file:
        for request, reply in record_lines(file):
            history.note(request, reply)
    sys.stdout.write(history.text())
    return 0


if __name__ == "__main__":
    sys.exit(main())
