"""Which texts are traces, and at which line others go wrong (docs/trace.md)."""

import re

NUMBER = re.compile("0|[1-9][0-9]{0,9}")
VALUE = re.compile("0|-?[1-9][0-9]{0,18}")
FAULTS = ("overflow", "noplace", "wrongplace", "stale", "index", "heapfull")
MOST_PLACES, MOST_WORDS, MOST_MOMENT, MOST_PATH = 16, 4096, 1_000_000, 65

# What stands in the line of an entry behind its number, and which parts may follow. A word that is no name of a check stands for itself.
ENTRIES = [
    ("open task scope in scope path", "batch"),
    ("at task scope in scope task place place path", "batch"),
    ("spawn task task in scope place place path", "batch"),
    ("arrive task place", "batch"),
    ("wait task scope", "thrown batch"),
    ("release task scope", "lost masked thrown batch"),
    ("release host s0", "lost masked thrown"),
    ("end task", "thrown batch"),
    ("print task value path", "batch"),
    ("census task count path", "batch"),
    ("death place", ""),
    ("join place", ""),
]
EVENTS = [
    "task number make number at number number path",
    "task number make number full path",
    "task number get number number value is value path",
    "task number get number number value stale path",
    "task number get number number value index path",
    "task number put number number value value ok path",
    "task number put number number value value stale path",
    "task number put number number value value index path",
    "task number forget number number ok path",
    "task number forget number number stale path",
    "number close",
]


def is_number(word):
    return bool(NUMBER.fullmatch(word)) and int(word) < 2**32


def is_value(word):
    return bool(VALUE.fullmatch(word)) and -(2**63) <= int(word) < 2**63


def is_path(word):
    numbers = word.split(".")
    return len(numbers) <= MOST_PATH and all(map(is_number, numbers))


def is_moment(word):
    return is_number(word) and int(word) <= MOST_MOMENT


class Reader:
    """Takes lines from the front, as long as they begin the text of some trace."""

    def __init__(self):
        self.next = self.title
        self.places = 0
        self.kills = []
        self.count = 0
        self.place = None
        self.checks = {
            "number": is_number,
            "value": is_value,
            "path": is_path,
            "task": lambda word: word[:1] == "t" and is_number(word[1:]),
            "scope": lambda word: word[:1] == "s" and is_number(word[1:]),
            "place": self.is_place,
            "count": lambda word: is_number(word) and 1 <= int(word) <= MOST_PLACES,
        }

    def is_place(self, word):
        return is_number(word) and int(word) < self.places

    def is_fault(self, word):
        kind, _, rest = word.partition(":")
        return word in FAULTS or kind == "dead" and self.is_place(rest) or kind == "code" and is_value(rest)

    def has_shape(self, words, shape):
        """Whether the first words are those of a shape."""
        return len(words) >= len(shape) and all(
            self.checks[name](word) if name in self.checks else word == name for name, word in zip(shape, words))

    # The lines, in their order.

    def title(self, words):
        self.next = self.setup
        return words == ["rx10", "trace", "2"]

    def setup(self, words):
        self.next = self.take_kills
        if not (len(words) == 4 and words[0] == "places" and words[2] == "heap" and is_number(words[1]) and is_number(words[3])):
            return False
        self.places = int(words[1])
        return 1 <= self.places <= MOST_PLACES and 1 <= int(words[3]) <= MOST_WORDS

    def take_kills(self, words):
        self.next = self.take_joins
        for word in words[1:]:
            place, _, moment = word.partition("@")
            if not (is_number(place) and 1 <= int(place) < MOST_PLACES and is_moment(moment)):
                return False
            self.kills.append((int(moment), int(place)))
        places = {place for _, place in self.kills}
        return words[0] == "kills" and self.kills == sorted(self.kills) and len(places) == len(self.kills)

    def take_joins(self, words):
        self.next = self.head
        if words[0] != "joins" or not all(map(is_moment, words[1:])):
            return False
        joins = list(map(int, words[1:]))
        opened, self.places = self.places, self.places + len(joins)
        in_time = all(place < opened or place < self.places and joins[place - opened] <= moment for moment, place in self.kills)
        return joins == sorted(joins) and self.places <= MOST_PLACES and in_time

    def head(self, words):
        self.next = self.entry
        return words == ["history"]

    def entry(self, words):
        if words == ["journal", "0"]:
            self.next, self.place, self.count = self.event, 0, 0
            return True
        if words[0] != str(self.count):
            return False
        self.count += 1
        for shape, parts in ENTRIES:
            shape = shape.split()
            if self.has_shape(words[1:], shape):
                return self.are_parts(words[1 + len(shape):], parts.split())
        return False

    def are_parts(self, words, parts):
        """Whether the words are those of some of these parts, in this order, each with something in it."""
        checks = {"lost": self.is_place, "masked": is_number, "thrown": self.is_fault, "batch": is_path}
        for part in parts:
            if words[:1] != ["|" if part == "batch" else part]:
                continue
            count = next((k for k, word in enumerate(words[1:]) if not checks[part](word)), len(words) - 1)
            items, words = words[1:1 + count], words[1 + count:]
            if not items or part == "masked" and (len(items) > 1 or items == ["0"]):
                return False
            if part == "lost" and any(int(one) >= int(other) for one, other in zip(items, items[1:])):
                return False
        return not words

    def event(self, words):
        if words == ["journal", str(self.place + 1)] and self.place + 1 < self.places:
            self.place, self.count = self.place + 1, 0
            return True
        if words == ["done"] and self.place + 1 == self.places:
            self.next = self.nothing
            return True
        is_next = words[0] == str(self.count)
        self.count += 1
        shapes = (shape.split() for shape in EVENTS)
        return is_next and any(len(words) == 1 + len(shape) and self.has_shape(words[1:], shape) for shape in shapes)

    def nothing(self, words):
        return False


def first_bad_line(text):
    """The number of the first line, from 1, at which a text is no trace, or None. The end of input counts as a line after the last."""
    *lines, rest = text.split("\n")
    reader = Reader()
    for number, line in enumerate(lines, 1):
        if not reader.next(line.split(" ")):
            return number
    return None if reader.next == reader.nothing and not rest else len(lines) + 1
