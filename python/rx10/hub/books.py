"""What the core keeps of tasks, scopes and places, and the two of the coordinator's lines that carry more than a number."""

from __future__ import annotations

import collections
from typing import Any, Deque, Dict, Iterable, List, NamedTuple, Optional, Set, Tuple

Message = Tuple[Any, ...]       # its kind, and what goes with it


class Task:
    """A task that runs, travels or waits."""

    __slots__ = ("key", "place", "wanted", "number", "scope", "scopes")

    def __init__(self, key: int, place: int, wanted: bool) -> None:
        self.key, self.place = key, place
        self.wanted = wanted                                    # whether somebody may ask how it ended
        self.number: Optional[int] = None                       # the coordinator's, once it is known, and from then on
        self.scope: Scope                                       # the one that it hangs under
        self.scopes: List[Scope] = []                           # those that it opened, the innermost last


class Scope:
    """A finish or a call that was not released yet."""

    __slots__ = ("number", "opener", "parent", "below", "body", "watch", "tally", "changed", "has_limit", "is_late", "running")

    def __init__(self, number: int, opener: Optional[Task], parent: Optional[Scope], has_limit: bool = False) -> None:
        self.number, self.parent = number, parent
        self.opener = opener                                    # None for the root, and once the opener is lost
        self.below: Set[Scope] = set()                          # the scopes whose parent it is
        self.body: Dict[int, int] = {}                          # the faults of its own body: by number how many it stands for
        self.watch = 0                                          # the opener's name for it, where it wants to know how far it is, and
        self.tally: Optional[Dict[int, List[int]]] = None       # then by place how many tasks began, are done, are lost
        self.changed = False
        self.has_limit, self.is_late = has_limit, False         # late: its limit has passed
        below_limit = has_limit or parent is not None and parent.running is not None
        self.running: Optional[Dict[int, int]] = {} if below_limit else None        # under a limit: by place how many tasks hang here

    def came(self, place: int) -> None:
        """A task hangs here now, at this place or on its way to it."""
        if self.running is not None:
            self.running[place] = self.running.get(place, 0) + 1

    def left(self, place: int) -> None:
        """One of them is over, or lost."""
        if self.running is not None:
            self.running[place] -= 1
            if not self.running[place]:
                del self.running[place]

    def count(self, place: int, begun: int = 0, done: int = 0, lost: int = 0) -> None:
        """Counts a task that hangs under this scope, where it is watched."""
        if self.tally is not None:
            counts = self.tally.setdefault(place, [0, 0, 0])
            counts[0] += begun
            counts[1] += done
            counts[2] += lost
            self.changed = True


class Seat:
    """What the core keeps of a place."""

    __slots__ = ("inbox", "tasks", "dead")

    def __init__(self, tasks: Iterable[int] = ()) -> None:
        self.inbox: Deque[Message] = collections.deque()          # what it sent and nobody has taken yet
        self.tasks: Set[int] = set(tasks)                       # the keys of its tasks
        self.dead = False                                       # from the moment at which its death is asked


class Greeting(NamedTuple):
    """The coordinator's limits."""

    most: int                   # places in all, in a job's life
    line: int                   # bytes of a request without its line feed


def read_greeting(line: str) -> Optional[Greeting]:
    """The first line of a coordinator of version 1 that opens with one place, else None."""
    words = line.split(" ")
    told = dict(zip(words[2::2], words[3::2]))
    try:
        limits = Greeting(int(told["most"]), int(told["line"]))
    except (KeyError, ValueError):
        return None
    begins = words[:2] == ["coordinator", "1"] and told.get("places") == "1" and told.get("main") == "t0"
    return limits if begins else None


class Release(NamedTuple):
    """What a release carries."""

    lost: List[int]
    masked: int
    thrown: List[int]


def read_release(words: Iterable[str]) -> Release:
    """The words of a release: `lost` with places, `masked` with a count, `thrown` with faults, each where there is something to tell."""
    lists: Dict[str, List[int]] = {"lost": [], "masked": [], "thrown": []}
    into: List[int] = []
    for word in words:
        if word in lists:
            into = lists[word]
        else:
            into.append(int(word))
    return Release(lists["lost"], sum(lists["masked"]), lists["thrown"])
