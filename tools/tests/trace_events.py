"""What the documentation of the trace event format asks of a file, for the phases that a picture uses: flaws() finds what it has not.

Viewers are lenient each in its own way; a file without a flaw is shown alike by all. A track is a thread of a process. Of events with one
time the earlier in the file counts as the earlier one, as it does for a viewer that reads them in order of time.
"""

import collections
import json
import numbers

FIELDS = {
    "X": {"name", "cat", "ph", "ts", "dur", "pid", "tid"},
    "i": {"name", "cat", "ph", "ts", "s", "pid", "tid"},
    "s": {"name", "cat", "ph", "ts", "id", "pid", "tid"},
    "f": {"name", "cat", "ph", "ts", "id", "bp", "pid", "tid"},
    "M": {"name", "ph", "pid", "tid", "args"},
}
NAMES = {"process_name": ("name", str), "thread_name": ("name", str),
         "process_sort_index": ("sort_index", int), "thread_sort_index": ("sort_index", int)}


def no_constant(word):
    raise ValueError("%s is no JSON" % word)


def events_of(text):
    """The events of a file, which is an object with a list of them, and with the unit in which times are shown."""
    document = json.loads(text, parse_constant=no_constant)
    if set(document) - {"otherData"} != {"traceEvents", "displayTimeUnit"} or document["displayTimeUnit"] not in ("ms", "ns"):
        raise ValueError("the fields of the file are %s" % sorted(document))
    return document["traceEvents"]


def is_number(value):
    return isinstance(value, numbers.Real) and not isinstance(value, bool)


def flaw_of(event):
    """What is wrong with one event by itself, or None."""
    phase = event.get("ph")
    if phase not in FIELDS:
        return "no phase of these: %s" % phase
    if set(event) - {"args"} != FIELDS[phase] - {"args"} or "args" in FIELDS[phase] and "args" not in event:
        return "its fields are %s" % sorted(event)
    if not all(isinstance(event.get(it, ""), str) and event.get(it, "-") for it in ("name", "cat", "ph", "s", "bp")):
        return "a text is none, or is empty"
    if not all(type(event[it]) is int for it in ("pid", "tid")):
        return "a process and a thread are numbers"
    if not all(is_number(event.get(it, 0)) and event.get(it, 0) >= 0 for it in ("ts", "dur")):
        return "a time is no number from 0"
    if not isinstance(event.get("args", {}), dict):
        return "what is added is no object"
    if phase == "i" and event["s"] not in ("t", "p", "g") or phase == "f" and event["bp"] != "e":
        return "no scope or binding that there is"
    if phase == "M":
        field, kind = NAMES.get(event["name"], (None, None))
        if list(event["args"]) != [field] or type(event["args"][field]) is not kind:
            return "no such name of a track"
    return None


def track_of(event):
    return event["pid"], event["tid"]


def tracks_flaws(events):
    """Each process and each track that something happens on has one name and one place in the order."""
    told = collections.Counter((it["name"], *((it["pid"],) if it["name"].startswith("process") else track_of(it))) for it in events if it["ph"] == "M")
    wanted = {(name, it["pid"]) for it in events for name in ("process_name", "process_sort_index")}
    # (what is of a whole process stands on none of its threads)
    on_tracks = [it for it in events if it["ph"] != "M" and it.get("s") != "p"]
    wanted |= {(name, *track_of(it)) for it in on_tracks for name in ("thread_name", "thread_sort_index")}
    return ["%s comes %d times" % (it, told[it]) for it in wanted | set(told) if told[it] != (it in wanted)]


def slices_flaws(events):
    """A slice lies within each slice of its track that is not over where it begins, and those around it come first."""
    open_now = collections.defaultdict(list)
    for it in events:
        if it["ph"] == "X":
            stack = open_now[track_of(it)]
            while stack and stack[-1] <= it["ts"]:
                stack.pop()
            if stack and it["ts"] + it["dur"] > stack[-1]:
                yield "%s ends after the slice around it, at %s" % (it, stack[-1])
            if it["dur"]:
                stack.append(it["ts"] + it["dur"])


def flows_flaws(events):
    """A flow has one begin and one end, in this order and of one name; each lies in a slice of its track that has come before."""
    slices, flows = collections.defaultdict(list), {}
    for it in events:
        if it["ph"] == "X":
            slices[track_of(it)].append((it["ts"], it["ts"] + it["dur"]))
        if it["ph"] in "sf":
            if not any(begin <= it["ts"] < end for begin, end in slices[track_of(it)]):
                yield "%s is in no slice" % it
            key = it["cat"], it["name"], it["id"]
            if (it["ph"] == "s") != (key not in flows) or flows.get(key) == "f":
                yield "%s comes out of order" % it
            flows[key] = it["ph"]
    yield from ("the flow %s has no end" % (key,) for key, phase in flows.items() if phase != "f")


def flaws(text):
    """What is wrong with a file, in words; nothing where all is right."""
    events = events_of(text)
    found = ["%s: %s" % (it, flaw_of(it)) for it in events if flaw_of(it)]
    if found:
        return found
    timed = sorted((it for it in events if it["ph"] != "M"), key=lambda it: it["ts"])
    return [*tracks_flaws(events), *slices_flaws(timed), *flows_flaws(timed)]
