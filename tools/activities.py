"""What a trace tells of each activity and each scope, for pictures: where it was, when it waited, and how it came to its end."""

import itertools
from bisect import bisect_left
from dataclasses import dataclass, field


@dataclass
class Activity:
    """One activity (a task). Moments are numbers of entries; `begin` is -1 for the main one, and None stands for what did not come.

    `over` is the last moment at which it is there.
    """

    number: int
    place: int
    source: int
    starter: int
    begin: int
    arrived: int = None
    ended: int = None
    struck: int = None
    born_struck: bool = False
    over: int = None
    waits: list = field(default_factory=list)
    scopes: list = field(default_factory=list)
    marks: list = field(default_factory=list)
    events: list = field(default_factory=list)

    moments: list = field(default_factory=list)

    def acts_between(self, begin, end):
        """Whether it has an entry from `begin` up to `end`."""
        at = bisect_left(self.moments, begin)
        return at < len(self.moments) and self.moments[at] < end

    def travels(self):
        return self.place != self.source

    def last(self, entries):
        """The last moment at which it is there."""
        if self.born_struck:
            return self.begin
        found = [it for it in (self.ended, self.struck) if it is not None]
        return min(found) if found else entries - 1


@dataclass
class Scope:
    """One scope: of which kind, opened by which activity (None for the host), and when it was opened and went."""

    number: int
    kind: str
    opener: int
    parent: int
    begin: int
    ended: int = None
    how: str = None
    entry: object = None
    level: int = 0


class Story:
    """The activities and scopes of a trace, and when each place died or joined."""

    def __init__(self, trace):
        self.trace = trace
        self.activities = {0: Activity(0, 0, 0, None, -1, arrived=-1)}
        self.scopes = {0: Scope(0, "root", None, None, -1)}
        self.deaths, self.joins = {}, {}
        self.unended = {0}
        self.children = {}
        for entry in trace.entries:
            self.take(entry)
        self.places = trace.all_places()
        for it in self.activities.values():
            it.over = it.last(len(trace.entries))
        for event in trace.events:
            if event.task in self.activities:
                self.activities[event.task].events.append(event)

    def take(self, entry):
        """Takes one entry more."""
        n = entry.number
        task = self.activities.get(entry.task)
        if task is not None:
            task.marks.append(entry)
            task.moments.append(n)
        if entry.kind == "death":
            self.deaths[entry.place] = n
            for number in sorted(self.unended):
                it = self.activities[number]
                if entry.place == it.place or it.arrived is None and entry.place == it.source:
                    it.struck = n
                    self.unended.discard(number)
        elif entry.kind == "join":
            self.joins[entry.place] = n
        elif entry.kind == "arrive" and task:
            task.arrived = n
        elif entry.kind == "end" and task:
            task.ended = n
            self.unended.discard(task.number)
        if entry.kind in ("open", "at"):
            self.open(entry, task)
        if entry.kind in ("spawn", "at"):
            self.bear(entry)
        if entry.kind in ("wait", "at") and task:
            task.waits.append([n, None])
        if entry.kind == "release":
            self.release(entry, task)

    def open(self, entry, task):
        scope = Scope(entry.scope, "at" if entry.kind == "at" else "finish", entry.task, entry.parent, entry.number)
        self.scopes[entry.scope] = scope
        self.children.setdefault(entry.parent, []).append(entry.scope)
        if task:
            scope.level = sum(it.ended is None for it in task.scopes)
            task.scopes.append(scope)

    def bear(self, entry):
        it = Activity(entry.child, entry.place, entry.source, entry.task, entry.number)
        self.activities[it.number] = it
        if entry.place in self.deaths:
            it.struck, it.born_struck = entry.number, True
            return
        self.unended.add(it.number)
        if not it.travels():
            it.arrived = entry.number

    def release(self, entry, task):
        scope = self.scopes.get(entry.scope)
        if scope is None:
            return
        scope.ended, scope.how, scope.entry = entry.number, "released", entry
        # the scopes below it that still stand go with it
        waiting = list(self.children.get(scope.number, []))
        while waiting:
            it = self.scopes[waiting.pop()]
            if it.ended is None:
                it.ended, it.how = entry.number, "gone"
            waiting += self.children.get(it.number, [])
        if task and task.waits and task.waits[-1][1] is None:
            task.waits[-1][1] = entry.number


def in_words(entry, story):
    """What an entry tells, in a few words."""
    who = "host" if entry.task is None else "t%d" % entry.task
    kind = entry.kind
    if kind == "open":
        text = "%s opens s%d, a finish, in s%d" % (who, entry.scope, entry.parent)
    elif kind == "at":
        text = "%s calls place %d: opens s%d in s%d and starts t%d" % (who, entry.place, entry.scope, entry.parent, entry.child)
    elif kind == "spawn":
        where = "at its place" if entry.place == entry.source else "for place %d" % entry.place
        text = "%s starts t%d %s, under s%d" % (who, entry.child, where, entry.scope)
    elif kind == "arrive":
        text = "%s arrives at place %d" % (who, entry.place)
    elif kind == "wait":
        text = "%s waits at s%d" % (who, entry.scope)
    elif kind == "release":
        text = "%s releases %s" % (who, "the root s0" if entry.task is None else "s%d" % entry.scope)
    elif kind == "end":
        text = "%s ends" % who
    elif kind == "print":
        text = "%s prints %s" % (who, entry.value)
    elif kind == "census":
        text = "%s counts %s places" % (who, entry.value)
    elif kind == "join":
        text = "place %d joins" % entry.place
    else:
        hit = ["t%d" % it.number for it in story.activities.values() if it.struck == entry.number and not it.born_struck]
        text = "place %d dies%s" % (entry.place, " and strikes %s" % ", ".join(hit[:12]) + (" .." if len(hit) > 12 else "") if hit else "")
    if kind in ("spawn", "at") and story.activities[entry.child].born_struck:
        text += ", lost at once: the place is dead"
    return text + names_of(entry)


def names_of(entry):
    """What an entry names as lost, masked and thrown, in words with a comma in front."""
    text = ""
    if entry.lost:
        text += ", lost %s" % " ".join(map(str, entry.lost))
    if entry.masked:
        text += ", masked %d" % entry.masked
    if entry.thrown:
        text += ", thrown %s" % counted(entry.thrown)
    return text


def counted(faults):
    """Faults in a row, with repeats counted: `dead:1 dead:2 x3`."""
    runs = [(it, len(list(same))) for it, same in itertools.groupby(faults)]
    return " ".join(it if many == 1 else "%s x%d" % (it, many) for it, many in runs)


def life_in_words(it, story):
    """What became of an activity, in one line."""
    if it.starter is None:
        text = "t%d, the main one, at place %d" % (it.number, it.place)
    else:
        text = "t%d at place %d, started by t%d at %d" % (it.number, it.place, it.starter, it.begin)
    if it.born_struck:
        return text + ", lost at once: the place was dead"
    if it.travels():
        text += ", travelled from place %d" % it.source + (", arrived at %d" % it.arrived if it.arrived is not None else "")
    for begin, end in it.waits[:3]:
        text += ", waited from %d" % begin + (" to %d" % end if end is not None else "")
    if len(it.waits) > 3:
        text += ", and %d times more" % (len(it.waits) - 3)
    if it.struck is not None:
        return text + ", lost at %d" % it.struck
    return text + (", ended at %d" % it.ended if it.ended is not None else ", had not ended")
