"""What is wrong with a line at which a text is no trace, in words: what is due there, or which word of it is none that may stand there."""

import re

from model import lines as forms

# How the words of a line are shown in its form.
SHOWN = {"task": "tN", "scope": "sN", "place": "PLACE", "path": "PATH", "value": "VALUE", "count": "COUNT", "number": "N"}
PARTS = {"lost": "lost PLACE..", "masked": "masked N", "thrown": "thrown FAULT..", "batch": "| PATH.."}
RULES = {
    "task": "a task is written t0, t1, ..",
    "scope": "a scope is written s0, s1, ..",
    "path": "a path is numbers with points between them, as in 0.1",
    "value": "a value is a whole number of 64 bits",
    "count": "a count of places is from 1 to %d" % forms.MOST_PLACES,
    "number": "a number has no sign, and no 0 in front",
}
OF_PARTS = {
    "lost": "lost places stand in rising order",
    "masked": "what is masked is at least 1",
    "thrown": "a fault is dead:PLACE, code:VALUE, or one of %s" % ", ".join(forms.FAULTS),
    "|": "behind the bar stand paths, and at least one",
}
DUE = {
    "title": "a trace begins with `rx10 trace 2`; `rx10 step FILE` writes one",
    "setup": "`places N heap W` is due here: 1 to %d places, with heaps of 1 to %d words" % (forms.MOST_PLACES, forms.MOST_WORDS),
    "take_kills": "`kills` is due here, with each death as PLACE@MOMENT, in the order of moments; place 0 does not die, and no place dies twice",
    "take_joins": "`joins` is due here, with the moment of each join, in order; there are at most %d places" % forms.MOST_PLACES,
    "head": "`history` is due here",
    "nothing": "nothing may follow `done`",
}


def shown_form(shape, parts=""):
    """The form of a line, as `wait tN sN [thrown FAULT..] [| PATH..]`."""
    return " ".join([SHOWN.get(it, it) for it in shape.split()] + ["[%s]" % PARTS[it] for it in parts.split()])


def front(reader, words, shape):
    """How many words from the first on are those of a shape."""
    shape = shape.split()
    return next((k for k in range(len(shape)) if k >= len(words) or not reader.has_shape([words[k]], [shape[k]])), len(shape))


def places_of(reader):
    return "the places of this trace are 0 to %d" % (reader.places - 1)


def named_places(words):
    """The numbers in `lost ..` and in the faults `dead:..` of these words."""
    return re.findall(r" (?:dead:)?([0-9]+)(?= |\Z)", " ".join(words).split("masked")[0])


def of_word(reader, words, shape, parts):
    """What is wrong with the words of an entry or event that should have this shape."""
    good, names = front(reader, words, shape), shape.split()
    left = words[good:]
    if good < len(names):
        rule = places_of(reader) if names[good] == "place" else RULES.get(names[good])
    elif any(forms.is_number(it) and not reader.is_place(it) for it in named_places(left)):
        rule = places_of(reader)
    else:
        rule = OF_PARTS.get(left[0]) if left else None
    return "the form of this line is `%s`%s" % (shown_form(shape, parts), "; " + rule if rule else "")


def of_entry(reader, words):
    """An entry, or the end of the history."""
    if not re.fullmatch("[0-9]+", words[0]):
        return "entry %d is due here, or `journal 0` behind the last one" % reader.count
    if words[0] != str(reader.count):
        return "entry %d is due here" % reader.count
    near = [(front(reader, words[1:], shape), shape, parts) for shape, parts in forms.ENTRIES if words[1:2] == shape.split()[:1]]
    if not near:
        return "an entry is one of: %s" % ", ".join(dict.fromkeys(shape.split()[0] for shape, _ in forms.ENTRIES))
    return of_word(reader, words[1:], *max(near)[1:])


def of_event(reader, words):
    """An event of a journal, the next journal, or the end."""
    after = "`journal %d`" % (reader.place + 1) if reader.place + 1 < reader.places else "`done`"
    if not re.fullmatch("[0-9]+", words[0]):
        return "%s is due here, or event %d of journal %d" % (after, reader.count, reader.place)
    if words[0] != str(reader.count):
        return "event %d of journal %d is due here" % (reader.count, reader.place)
    good, shape = max((front(reader, words[1:], it), it) for it in forms.EVENTS)
    return "the form of this line is `N %s`" % shown_form(shape) if good > 2 else "an event is a call of the store, or `close`"


def notes(text, number):
    """What is wrong at line `number` of a text that is no trace."""
    lines = text.decode("latin-1").split("\n")
    line = lines[number - 1] if number <= len(lines) else ""
    reader = forms.Reader()
    for it in lines[:number - 1]:
        reader.next(it.split(" "))
    state, words = reader.next.__name__, line.split(" ")
    if line.endswith("\r"):
        return "the line ends with a carriage return (CRLF); the lines of a trace end with a newline alone"
    if number >= len(lines) and not line:
        return "the trace ends here, before its last line `done`"
    if number == len(lines) and reader.next(words):
        return "this line is not whole: no newline stands behind it"
    if number > 1 and line.startswith("seen "):
        return "the lines of `--watch` belong to no trace: `grep -v '^seen'` leaves them out"
    if state == "take_joins" and words[0] == "joins":
        late = [place for _, place in reader.kills if place >= reader.places]
        return "line 3 has place %d die, and the places are 0 to %d" % (late[0], reader.places - 1) if late else DUE[state]
    return of_entry(reader, words) if state == "entry" else of_event(reader, words) if state == "event" else DUE[state]
