"""Which runs a sweep has: every place but 0 dies at every moment, alone or with another one."""

import bisect

from sweep_runs import Run


class Plan:
    """The deaths that may be: of the places of the opening and of those that join, but for those that a `--kill` of every run names."""

    def __init__(self, places, joins, killed):
        self.opening, self.joins = places, sorted(joins)
        self.killed = set(killed)

    def places_at(self, moment):
        """The places that may die at this moment: those that are there or join then."""
        there = self.opening + bisect.bisect_right(self.joins, moment)
        return [it for it in range(1, there) if it not in self.killed]

    def joins_at(self, place):
        """The first moment at which this place may die."""
        return 0 if place < self.opening else self.joins[place - self.opening]

    def moments(self, place, length):
        """At how many moments this place may die in a run with so many entries."""
        return max(0, length - self.joins_at(place))

    def free(self):
        """All places that may die."""
        return [it for it in range(1, self.opening + len(self.joins)) if it not in self.killed]

    def count_singles(self, length):
        return sum(self.moments(place, length) for place in self.free())

    def singles(self, seed, length):
        """Each single death in a run with so many entries, in the order of moments and then of places."""
        for moment in range(length):
            for place in self.places_at(moment):
                yield Run(seed, ((moment, place),))

    def count_pairs(self, single, length):
        (moment, place), = single.kills
        others = [it for it in self.free() if it != place]
        later = sum(length - max(self.joins_at(it), moment + 1) for it in others if self.joins_at(it) < length)
        return later + sum(it > place for it in self.places_at(moment))

    def pairs(self, single, length):
        """Each second death after this one, in a run that has so many entries with it. Of two deaths at one moment the lesser place's is
        the first."""
        first, = single.kills
        for moment in range(first[0], length):
            for place in self.places_at(moment):
                if place != first[1] and (moment, place) > first:
                    yield Run(single.seed, (first, (moment, place)))

    def expected_pairs(self, length):
        """How many pairs there were if each run had so many entries."""
        each = [self.moments(place, length) for place in self.free()]
        return (sum(each) ** 2 - sum(it * it for it in each)) // 2


def spread(sources, total, most):
    """So many of a long list of runs, evenly spread: those at the positions k * total // most.

    The list is that of the sources, one after the other, each with its length; a source is run through only where one of it is wanted.
    """
    most = min(most, total)
    positions = (k * total // most for k in range(most))
    wanted, start = next(positions, total), 0
    for length, runs in sources:
        if wanted < start + length:
            for position, run in enumerate(runs(), start):
                if position == wanted:
                    yield run
                    wanted = next(positions, total)
        start += length
