"""What is to be done at a moment: one heap, so that no turn of the loop goes through all places or scopes."""

from __future__ import annotations

import heapq
import itertools
from typing import Callable, List, Optional

FEW = 64                        # timers that nobody wants any more and that may stay in the heap


class Timer:
    """One act, once."""

    __slots__ = ("moment", "order", "act")

    def __init__(self, moment: float, order: int, act: Callable[[], None]) -> None:
        self.moment, self.order = moment, order
        self.act: Optional[Callable[[], None]] = act            # None once it is done, or is not wanted any more

    def __lt__(self, other: Timer) -> bool:
        return (self.moment, self.order) < (other.moment, other.order)


class Timers:
    """The timers of a loop. The moments are those of its clock, in seconds."""

    def __init__(self) -> None:
        self._heap: List[Timer] = []
        self._order = itertools.count()
        self._unwanted = 0

    def at(self, moment: float, act: Callable[[], None]) -> Timer:
        """Has something done at a moment."""
        timer = Timer(moment, next(self._order), act)
        heapq.heappush(self._heap, timer)
        return timer

    def cancel(self, timer: Timer) -> None:
        """It is not wanted any more."""
        if timer.act is None:
            return
        timer.act = None
        self._unwanted += 1
        if self._unwanted > FEW and 2 * self._unwanted > len(self._heap):
            self._heap = [timer for timer in self._heap if timer.act is not None]
            heapq.heapify(self._heap)
            self._unwanted = 0

    def __len__(self) -> int:
        return len(self._heap)

    def sleep(self, now: float) -> float:
        """How many seconds the loop may sleep; infinitely many where there is no timer."""
        return max(0.0, self._heap[0].moment - now) if self._heap else float("inf")

    def run(self, now: float) -> None:
        """Does what is due."""
        while self._heap and self._heap[0].moment <= now:
            timer = heapq.heappop(self._heap)
            act, timer.act = timer.act, None
            if act is None:
                self._unwanted -= 1
            else:
                act()
