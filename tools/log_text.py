"""The log of a session of rx10-coordinator as a trace: the lines that a trace has around its entries are made from these.

A log has entries alone (docs/coordinator.md). Deaths and joins are taken where they stand, and a last line without its end is left out, since
a session may be cut off there. A place that no entry names is not there. Nothing here is proved.
"""

import re

import inputs

HEAD = 5    # lines that stand before the first entry of a trace
ENTRY = re.compile(r"0 (open|at|spawn|end|death|join) ")


def is_log(text):
    """Whether a text begins as a log does and a trace does not."""
    return bool(ENTRY.match(text))


def named_places(words):
    """The places that the line of an entry names."""
    verb = words[1]
    if verb in ("spawn", "at"):
        return words[-3:-1]
    if verb == "arrive":
        return words[3:4]
    if verb == "release" and "lost" in words:
        last = [at for at in map(words.index, {"masked", "thrown"} & set(words))]
        return words[words.index("lost") + 1:min(last, default=len(words))]
    return words[2:3] if verb in ("death", "join") else []


def opening(lines):
    """The number of places at the opening: the first that joins, or else one more than the greatest that is named."""
    named = [0]
    for line in lines:
        words = line.split(" ")
        if len(words) > 1:
            named += [int(word) for word in named_places(words) if word.isdigit()]
            if words[1] == "join" and words[2:3] and words[2].isdigit():
                return int(words[2])
    return max(named) + 1


def trace_of(text):
    """The whole trace, whose entries are those of the log. Line N of the log is line N + HEAD of it."""
    if len(text) >= inputs.MOST:
        raise OSError(None, "it has more than %d bytes" % (inputs.MOST - 1))
    lines = text.split("\n")[:-1]
    events = {"death": [], "join": []}
    for number, line in enumerate(lines):
        verb, *words = line.split(" ")[1:] or [""]
        if verb in events and words:
            events[verb].append((number, words[0]))
    places = opening(lines)
    kills = ["%s@%d" % (place, number) for number, place in events["death"]]
    joins = [str(number) for number, _ in events["join"]]
    made = ["rx10 trace 2", "places %d heap 1" % places, " ".join(["kills", *kills]), " ".join(["joins", *joins]), "history", *lines]
    closes = {place: number for number, place in reversed(events["death"])}
    for place in range(places + len(joins)):
        made.append("journal %d" % place)
        if str(place) in closes:
            made.append("0 %d close" % closes[str(place)])
    return "\n".join([*made, "done", ""])
