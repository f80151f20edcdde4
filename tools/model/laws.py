"""The three laws of histories (docs/semantics.md, "The laws"). They read chains, births, deaths and releases from the entries of a history
and know no tree, so they can be asked of a trace without a script."""

from dataclasses import dataclass


@dataclass
class Birth:
    """A task: the scope that it hangs under, where it comes from and goes, its birth, and the first death that hit it with the place."""

    number: int
    scope: int
    source: int
    place: int
    born: int
    hit: int = None
    hit_by: int = None


class History:
    """What the laws read of a history."""

    def __init__(self, entries):
        self.entries = entries
        self.parents = {}
        self.releases = {}
        self.births = [Birth(0, 0, 0, 0, -1)]
        self.dead = set()
        self.ended = {}
        self.arrived = set()
        for entry in entries:
            self.read(entry)

    def read(self, entry):
        if entry.kind in ("open", "at"):
            self.parents[entry.scope] = entry.parent
        if entry.child is not None:
            self.bear(entry)
        elif entry.kind == "arrive":
            self.arrived.add(entry.task)
        elif entry.kind == "end":
            self.ended.setdefault(entry.task, entry.number)
        elif entry.kind == "release":
            self.releases.setdefault(entry.scope, []).append(entry)
        elif entry.kind == "death":
            self.die(entry)

    def bear(self, entry):
        task = Birth(entry.child, entry.scope, entry.source, entry.place, entry.number)
        if entry.place in self.dead:
            task.hit, task.hit_by = entry.number, entry.place
        self.births.append(task)

    def die(self, entry):
        self.dead.add(entry.place)
        for task in self.births:
            is_there = entry.place == task.place or entry.place == task.source and task.number not in self.arrived
            if is_there and task.number not in self.ended and task.hit is None:
                task.hit, task.hit_by = entry.number, entry.place

    def chain(self, task):
        """The scopes that a task is under, from the one that it hangs under to the root."""
        number, found = task.scope, []
        while number is not None and number not in found:
            found.append(number)
            number = self.parents.get(number)
        return found

    def releases_after(self, number, task):
        """The releases of a scope that come after the birth of a task."""
        return [entry for entry in self.releases.get(number, []) if entry.number > task.born]

    # The laws. Each gives the entries at which it does not hold, with the reason.

    def early(self):
        """Nothing is released early."""
        found = {}
        for task in self.births:
            over = min(it for it in (self.ended.get(task.number), task.hit, len(self.entries)) if it is not None)
            for scope in self.chain(task):
                for entry in self.releases_after(scope, task):
                    if entry.number < over:
                        words = "t%d is under s%d, and no end and no death of it comes before" % (task.number, scope)
                        found.setdefault(entry.number, words)
        return found

    def inexact(self):
        """Losses are exact."""
        named = {entry.number: set() for entries in self.releases.values() for entry in entries}
        for task in self.births:
            first = len(self.entries)
            for scope in self.chain(task) if task.hit is not None else []:
                releases = self.releases_after(scope, task)
                for entry in releases:
                    if task.hit < entry.number <= first:
                        named[entry.number].add(task.hit_by)
                first = min([first] + [entry.number for entry in releases])
        return {number: "the places at which tasks under s%d were lost are: %s" % (
            self.entries[number].scope, " ".join(map(str, sorted(places))) or "none")
            for number, places in named.items() if self.entries[number].lost != sorted(places)}

    def unmasked(self):
        """Masked faults come with a loss."""
        return {entry.number: "it masks a fault, and names no lost place" for entry in self.entries
                if entry.kind == "release" and entry.masked and not entry.lost}
