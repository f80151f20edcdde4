"""The line that shows how far a finish is."""

from __future__ import annotations

import sys
from typing import Dict, Sequence, Tuple

Tally = Dict[int, Tuple[int, int, int]]     # by place: how many tasks began, are done, were lost


def text_of(tally: Tally, silent: Sequence[int] = ()) -> str:
    """The line: done, running and lost, in all and then by place; and the places that give no sign of life."""
    counts = {place: (done, begun - done - lost, lost) for place, (begun, done, lost) in sorted(tally.items())}
    done, running, lost = (sum(column) for column in zip(*counts.values()))
    places = ", ".join(f"{place}: {'/'.join(map(str, it))}" for place, it in counts.items())
    quiet = f", no sign of life from {', '.join(map(str, silent))}" if silent else ""
    return f"done {done}, running {running}, lost {lost} (by place {places}){quiet}"


class ProgressLine:
    """One line of text on standard error, written over by carriage returns. So a terminal and a notebook show the same."""

    def __init__(self) -> None:
        self._width = 0

    def show(self, tally: Tally, silent: Sequence[int] = ()) -> None:
        """Writes the line anew."""
        text = text_of(tally, silent)
        sys.stderr.write("\r" + text.ljust(self._width))
        sys.stderr.flush()
        self._width = len(text)

    def end(self) -> None:
        """Leaves the line as it is."""
        if self._width:
            sys.stderr.write("\n")
            sys.stderr.flush()
