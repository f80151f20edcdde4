"""What a trace tells, read from its lines word by word and by no tool: what pictures are compared with.

retold() gives each activity and scope with the moments of its life, and viewer_events() what a viewer of traces must show of them.
"""

import re
from types import SimpleNamespace


def parts_of(words):
    """What a line names as lost, masked and thrown, in the words of a picture."""
    text, runs = "", []
    for name, found in re.findall(r"\b(lost|masked|thrown) ((?:(?!lost|masked|thrown)\S+ ?)+)", " ".join(words)):
        values = found.split()
        if name == "thrown":
            for it in values:
                if runs and runs[-1][0] == it:
                    runs[-1][1] += 1
                else:
                    runs.append([it, 1])
            values = [it if many == 1 else "%s x%d" % (it, many) for it, many in runs]
        text += ", %s %s" % (name, " ".join(values))
    return text


def retold(text):
    """The lines of a history as entries, with its activities and scopes."""
    told = SimpleNamespace(text=text, entries=[], tasks={}, scopes={"s0": SimpleNamespace(opener=None, parent=None, begin=-1, end=None)},
                           deaths={}, joins={}, stores=[])
    told.tasks["t0"] = SimpleNamespace(name="t0", place=0, source=0, starter=None, begin=-1, arrived=-1, ended=None, struck=None, waits=[], at_once=False)
    head, _, rest = text.partition("\nhistory\n")
    told.places = int(head.split("\nplaces ")[1].split()[0]) + len(head.split("\njoins")[1].split())
    history, *journals = re.split(r"(?m)^journal \d+\n", rest.rpartition("done\n")[0])
    for line in history.splitlines():
        note(told, line)
    for place, journal in enumerate(journals):
        for words in map(str.split, journal.splitlines()):
            if words[1].startswith("t"):
                told.stores.append(SimpleNamespace(task=words[1], at=int(words[2]), words=" ".join(words[3:]), place=place))
    for it in told.tasks.values():
        moments = [moment for moment in (it.ended, it.struck) if moment is not None]
        it.over = min(moments) if moments else len(told.entries) - 1
    return told


def note(told, line):
    """Takes one line more."""
    words = line.partition(" |")[0].split()
    n, verb = int(words[0]), words[1]
    task = told.tasks.get(words[2])
    told.entries.append(SimpleNamespace(line=line, verb=verb, task=words[2], words=words, number=n))
    if verb == "death":
        told.deaths[int(words[2])] = n
        for it in told.tasks.values():
            if it.ended is None and it.struck is None and (it.place == int(words[2]) or it.arrived is None and it.source == int(words[2])):
                it.struck = n
    elif verb == "join":
        told.joins[int(words[2])] = n
    elif verb == "arrive":
        task.arrived = n
    elif verb == "end":
        task.ended = n
    elif verb == "open":
        told.scopes[words[3]] = SimpleNamespace(opener=words[2], parent=words[5], begin=n, end=None, kind="finish", names="")
    elif verb == "at":
        told.scopes[words[3]] = SimpleNamespace(opener=words[2], parent=words[5], begin=n, end=None, kind="at", names="")
        bear(told, words[6], words[2], int(words[7]), int(words[8]), n)
    elif verb == "spawn":
        bear(told, words[3], words[2], int(words[6]), int(words[7]), n)
    elif verb == "release":
        release(told, words, n)
    if verb in ("wait", "at"):
        task.waits.append([n, None])


def bear(told, name, starter, source, place, n):
    at_once = place in told.deaths
    told.tasks[name] = SimpleNamespace(name=name, place=place, source=source, starter=starter, begin=n, arrived=n if place == source else None, ended=None,
                                       struck=n if at_once else None, waits=[], at_once=at_once)


def release(told, words, n):
    """A scope goes, and all that hang under it."""
    told.scopes[words[3]].names = parts_of(words[4:])
    going = [words[3]]
    while going:
        scope = told.scopes[going.pop()]
        scope.end = n if scope.end is None else scope.end
        going += [name for name, it in told.scopes.items() if it.parent and told.scopes[it.parent] is scope]
    if words[2] in told.tasks:
        told.tasks[words[2]].waits[-1][1] = n


def entry_words(told, entry):
    """An entry in the words of a picture."""
    words, who, born = entry.words, entry.task, None
    if entry.verb == "open":
        text = "%s opens %s, a finish, in %s" % (who, words[3], words[5])
    elif entry.verb == "at":
        text, born = "%s calls place %s: opens %s in %s and starts %s" % (who, words[8], words[3], words[5], words[6]), words[6]
    elif entry.verb == "spawn":
        where = "at its place" if words[6] == words[7] else "for place " + words[7]
        text, born = "%s starts %s %s, under %s" % (who, words[3], where, words[5]), words[3]
    elif entry.verb == "death":
        struck = [it.name for it in told.tasks.values() if it.struck == entry.number and not it.at_once]
        more = ", ".join(struck[:12]) + (" .." if len(struck) > 12 else "")
        text = "place %s dies" % who + (" and strikes " + more if struck else "")
    else:
        text = {"arrive": "%s arrives at place %s", "wait": "%s waits at %s", "release": "%s releases %s", "print": "%s prints %s",
                "census": "%s counts %s places", "end": "%.0s%s ends", "join": "%.0splace %s joins"}[entry.verb] % (
                    ("", who) if entry.verb in ("end", "join") else (who, "the root s0" if who == "host" else words[3]))
    if born and told.tasks[born].at_once:
        text += ", lost at once: the place is dead"
    return text + parts_of(words[3:] if entry.verb in ("release", "end", "wait") else [])


def life_words(it):
    """What became of an activity, in the words of a picture."""
    text = "t0, the main one, at place 0" if it.starter is None else "%s at place %d, started by %s at %d" % (it.name, it.place, it.starter, it.begin)
    if it.at_once:
        return text + ", lost at once: the place was dead"
    if it.place != it.source:
        text += ", travelled from place %d" % it.source + ("" if it.arrived is None else ", arrived at %d" % it.arrived)
    text += "".join(", waited from %d" % begin + ("" if end is None else " to %d" % end) for begin, end in it.waits[:3])
    text += ", and %d times more" % (len(it.waits) - 3) if len(it.waits) > 3 else ""
    return text + (", lost at %d" % it.struck if it.struck is not None else ", had not ended" if it.ended is None else ", ended at %d" % it.ended)


def task_events(told, it):
    """The slices and the flow of an activity: (phase, category, name, time, length, place, more)."""
    begin, end = max(it.begin, 0), it.over
    life = {"from": it.source, "to": it.place, "life": life_words(it)}
    yield "X", "task", it.name + (" (lost)" if it.struck is not None else ""), begin, end + 1 - begin, it.place, {"args": life}
    if it.arrived is None or it.arrived > begin:
        yield "X", "travel", "travels", begin, (end if it.arrived is None else it.arrived) - begin, it.place, {}
    for name, scope in told.scopes.items():
        if scope.opener == it.name:
            last = end if scope.end is None else min(end, scope.end)
            yield "X", "scope", "%s %s%s" % (name, scope.kind, scope.names), scope.begin, last - scope.begin, it.place, {}
    for start, stop in it.waits:
        yield "X", "wait", "waits", start, (end if stop is None else stop) - start, it.place, {}
    if it.starter:
        number = int(it.name[1:])
        yield "s", "start", "start", it.begin, None, told.tasks[it.starter].place, {"id": number}
        yield "f", "start", "start", max(it.begin, it.arrived or 0), None, it.place, {"id": number, "bp": "e"}


def viewer_events(told):
    """What a viewer shows, without the rows: (phase, category, name, time, length, place, more)."""
    for it in told.tasks.values():
        yield from task_events(told, it)
    for it in told.stores:
        yield "i", "store", "store: " + it.words, it.at, None, told.tasks[it.task].place, {"s": "t"}
    for it in told.entries:
        if it.verb in ("death", "join"):
            what = "place %s %s" % (it.task, "dies" if it.verb == "death" else "joins")
            yield "i", it.verb, what, it.number, None, int(it.task), {"s": "p"}
        else:
            place = told.tasks[it.task].place if it.task in told.tasks else 0
            yield "i", it.verb, entry_words(told, it), it.number, None, place, {"s": "t", "args": {"line": it.line}}
