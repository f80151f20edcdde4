"""Traces as texts, taken apart for the tools. docs/trace.md has the format.

What is no trace is refused with the number of the line, but this reading is for pictures and tables: it asks less than the program's own
reader does, and no claim of the repository rests on it.
"""

from dataclasses import dataclass, field


@dataclass
class Entry:
    """One entry of the history: its kind is the first word of its line. Fields that a kind does not have are None or empty."""

    number: int
    kind: str
    line: str
    task: int = None
    scope: int = None
    parent: int = None
    child: int = None
    source: int = None
    place: int = None
    value: int = None
    path: str = None
    lost: list = field(default_factory=list)
    masked: int = 0
    thrown: list = field(default_factory=list)
    batch: list = field(default_factory=list)


@dataclass
class Event:
    """One event of a journal: words are those of its line after the stamp."""

    place: int
    number: int
    task: int
    stamp: int
    words: list
    line: str


@dataclass
class Trace:
    """A trace: the number of places at the opening, their heap words, kills and joins as they were asked for, entries and events."""

    places: int
    heap: int
    kills: list
    joins: list
    entries: list
    events: list

    def all_places(self):
        """The number of places, those that joined included."""
        return self.places + sum(it.kind == "join" for it in self.entries)

    def root(self):
        """The release of the root, or None."""
        return next((it for it in reversed(self.entries) if it.kind == "release" and it.task is None), None)


class NoTrace(Exception):
    """The number of the line, from 1, at which a text is no trace, and why."""

    def __init__(self, number, why):
        super().__init__("line %d: %s" % (number, why))
        self.number = number


# The fields of each kind of entry, after its first word; a word with no sign is one that stands there itself.
FIELDS = {
    "open": "task scope in parent path",
    "at": "task scope in parent child source place path",
    "spawn": "task child in scope source place path",
    "arrive": "task place",
    "wait": "task scope",
    "release": "task scope",
    "end": "task",
    "print": "task value path",
    "census": "task value path",
    "death": "place",
    "join": "place",
}
SIGNS = {"task": "t", "child": "t", "scope": "s", "parent": "s"}


def field_of(name, word):
    """The value of a field's word; raises ValueError where it is none."""
    if name == "path":
        if not all(it.isdigit() for it in word.split(".")):
            raise ValueError(word)
        return word
    if name == "task" and word == "host":
        return None
    sign = SIGNS.get(name, "")
    if not word.startswith(sign):
        raise ValueError(word)
    return int(word[len(sign):])


def entry_of(line, number):
    """The entry that a line spells; raises ValueError where it spells none."""
    front, _, batch = line.partition(" |")
    words = front.split(" ")
    if int(words[0]) != number:
        raise ValueError("entry %s where %d must come" % (words[0], number))
    entry = Entry(number, words[1], line, batch=batch.split())
    names = FIELDS[words[1]].split()
    rest = words[2:]
    for name in names:
        word = rest.pop(0)
        if name == "in":
            if word != "in":
                raise ValueError(word)
        else:
            setattr(entry, name, field_of(name, word))
    part = None
    for word in rest:
        if word in ("lost", "masked", "thrown"):
            part = word
        elif part == "lost":
            entry.lost.append(int(word))
        elif part == "masked":
            entry.masked = int(word)
        elif part == "thrown":
            entry.thrown.append(word)
        else:
            raise ValueError(word)
    return entry


def event_of(line, place, number):
    """The event that a line of a journal spells; raises ValueError where it spells none."""
    words = line.split(" ")
    if int(words[0]) != number:
        raise ValueError("event %s where %d must come" % (words[0], number))
    if words[1].startswith("t"):
        return Event(place, number, int(words[1][1:]), int(words[2]), words[3:], line)
    return Event(place, number, None, int(words[1]), words[2:], line)


def read_trace(text):
    """The trace that a text is."""
    lines = text.split("\n")
    at = 0

    def take(start):
        nonlocal at
        line = lines[at] if at < len(lines) else ""
        if not line.startswith(start):
            raise NoTrace(at + 1, "`%s` must come" % start.strip())
        at += 1
        return line[len(start):].split()

    take("rx10 trace 2")
    try:
        places = take("places ")
        trace = Trace(int(places[0]), int(places[2]), take("kills"), take("joins"), [], [])
        take("history")
        while at < len(lines) and not lines[at].startswith("journal "):
            trace.entries.append(entry_of(lines[at], len(trace.entries)))
            at += 1
        while at < len(lines) and lines[at].startswith("journal "):
            place, count = int(take("journal ")[0]), 0
            while at < len(lines) and lines[at][:1].isdigit():
                trace.events.append(event_of(lines[at], place, count))
                at, count = at + 1, count + 1
        take("done")
    except (ValueError, KeyError, IndexError):
        raise NoTrace(at + 1, "this is no line of a trace") from None
    return trace
