"""A trace as the JSON that trace viewers open (ui.perfetto.dev, chrome://tracing).

A place is a process. Its threads are rows: an activity is in the first row that is free when it begins, so a place has as many rows as it
had activities at one time. The number of an entry is the time, in microseconds. A slice is the life of an activity, and in it its travel,
its waits and its scopes; an instant is a print, an end, a death; a flow leads from a start to where the activity begins.
"""

import heapq
import json

import activities


def rows_of(story):
    """For each activity the number of its row in its place, from 1. Row 0 has what happens to the place itself."""
    row_of = {}
    used = [0] * story.places
    ending, free = [[] for _ in used], [[] for _ in used]
    for it in sorted(story.activities.values(), key=lambda it: (it.begin, it.number)):
        while ending[it.place] and ending[it.place][0][0] < it.begin:
            heapq.heappush(free[it.place], heapq.heappop(ending[it.place])[1])
        if free[it.place]:
            row = heapq.heappop(free[it.place])
        else:
            used[it.place] += 1
            row = used[it.place]
        row_of[it.number] = row
        heapq.heappush(ending[it.place], (it.over, row))
    return row_of


def named(what, place, row, **args):
    """The event that gives a place or a row its name, or its place in the order."""
    return {"name": what, "ph": "M", "pid": place, "tid": row, "args": args}


def names_of(story, rows):
    """The events that give places and rows their names and their order."""
    for place in range(story.places):
        yield named("process_name", place, 0, name="place %d" % place)
        yield named("process_sort_index", place, 0, sort_index=place)
    for place, row in sorted({(it.place, rows[it.number]) for it in story.activities.values()}):
        yield named("thread_name", place, row, name="row %d" % row)
        yield named("thread_sort_index", place, row, sort_index=row)


def event(name, kind, phase, ts, place, row, **more):
    return {"name": name, "cat": kind, "ph": phase, "ts": ts, "pid": place, "tid": row, **more}


def slices_of(it, story):
    """The slices of an activity, each with its name, its kind, where it begins and ends, and what else is said of it."""
    begin, last = max(it.begin, 0), it.over
    life = {"from": it.source, "to": it.place, "life": activities.life_in_words(it, story)}
    yield "t%d" % it.number + (" (lost)" if it.struck is not None else ""), "task", begin, last + 1, {"args": life}
    if it.arrived is None or it.arrived > begin:
        yield "travels", "travel", begin, last if it.arrived is None else it.arrived, {}
    for scope in it.scopes:
        named = activities.names_of(scope.entry) if scope.entry else ""
        yield "s%d %s%s" % (scope.number, scope.kind, named), "scope", scope.begin, last if scope.ended is None else min(last, scope.ended), {}
    for start, end in it.waits:
        yield "waits", "wait", start, last if end is None else end, {}


def activity_events(it, story, rows):
    """The events of an activity: its slices, the flow from its start, and its writes to a store."""
    here = it.place, rows[it.number]
    for name, kind, begin, end, more in slices_of(it, story):
        yield event(name, kind, "X", begin, *here, dur=max(end - begin, 0), **more)
    if it.starter is not None:
        starter = story.activities[it.starter]
        yield event("start", "start", "s", it.begin, starter.place, rows[starter.number], id=it.number)
        yield event("start", "start", "f", max(it.begin, it.arrived or 0), *here, id=it.number, bp="e")
    for one in it.events:
        yield event("store: " + " ".join(one.words), "store", "i", one.stamp, *here, s="t")


def entry_event(entry, story, rows):
    """What stands for an entry of the history: an instant in the row of its activity, or of a whole place."""
    if entry.kind in ("death", "join"):
        what = "place %d %s" % (entry.place, "dies" if entry.kind == "death" else "joins")
        return event(what, entry.kind, "i", entry.number, entry.place, 0, s="p")
    task = story.activities.get(entry.task, story.activities[0])
    words = activities.in_words(entry, story)
    return event(words, entry.kind, "i", entry.number, task.place, rows[task.number], s="t", args={"line": entry.line})


def events_of(story):
    """All events of the viewer, in the order of their times; at one time what is around comes before what is in it."""
    rows = rows_of(story)
    made = [one for it in story.activities.values() for one in activity_events(it, story, rows)]
    made += [entry_event(entry, story, rows) for entry in story.trace.entries]
    return [*names_of(story, rows), *sorted(made, key=lambda it: it["ts"])]


def document_of(story):
    """The file of the viewer, as text."""
    return json.dumps({"displayTimeUnit": "ns", "traceEvents": events_of(story)})
