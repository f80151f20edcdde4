"""What the lines of a watch have to be: each is of a beginning of the trace's history, by docs/commands.md, "Snapshots"."""

import re

LOOK = re.compile(r"seen (\d+) scopes \d+ live \d+ travel \d+(?: dead(?: \d+)+)?")


class Places:
    """The tasks, scopes and dead places of a history, entry by entry."""

    def __init__(self):
        self.scopes = {0: None}             # the standing ones, with their parents
        self.live, self.travel = {0: 0}, {}  # where each task is, or from where to where it is on its way
        self.dead = set()

    def add(self, line):
        words = re.split(" lost| masked| thrown| \\|", line)[0].split(" ")[1:]
        getattr(self, "on_" + words[0])(*words[1:])

    def on_open(self, _task, scope, _in, parent, _path):
        self.scopes[int(scope[1:])] = int(parent[1:])

    def on_at(self, task, scope, _in, parent, child, source, place, path):
        self.on_open(task, scope, _in, parent, path)
        self.on_spawn(task, child, _in, scope, source, place, path)

    def on_spawn(self, _task, child, _in, _scope, source, place, _path):
        if int(place) in self.dead:
            return
        if source == place:
            self.live[int(child[1:])] = int(place)
        else:
            self.travel[int(child[1:])] = int(source), int(place)

    def on_arrive(self, task, place):
        del self.travel[int(task[1:])]
        self.live[int(task[1:])] = int(place)

    def on_release(self, _task, scope):
        gone = {int(scope[1:])}
        for it in sorted(self.scopes):      # (a scope has a greater number than its parent)
            if self.scopes[it] in gone:
                gone.add(it)
        for it in gone:
            del self.scopes[it]

    def on_end(self, task):
        del self.live[int(task[1:])]

    def on_death(self, place):
        place = int(place)
        self.dead.add(place)
        self.live = {task: at for task, at in self.live.items() if at != place}
        self.travel = {task: way for task, way in self.travel.items() if place not in way}

    def on_wait(self, *_):
        pass

    on_print = on_census = on_join = on_wait

    def look(self, number):
        dead = "".join(" %d" % it for it in sorted(self.dead))
        return "seen %d scopes %d live %d travel %d%s" % (number, len(self.scopes), len(self.live), len(self.travel), dead and " dead" + dead)


def parted(out):
    """The trace of an answer of `live --watch`, and the lines after it."""
    at = out.rfind(b"\ndone\n") + len(b"\ndone\n")
    return out[:at], out[at:].decode("ascii", "replace").split("\n")


class Watched(list):
    """The right answers of a run with so many looks: each of these, with right lines behind its trace."""

    def __init__(self, answers, count):
        super().__init__(answers)
        self.count = count

    def __contains__(self, answer):
        trace, _ = parted(answer.out)
        return super().__contains__(answer._replace(out=trace)) and looks_complaint(answer.out, self.count) is None


def history_of(trace):
    """The entries of a trace."""
    return trace.partition(b"\nhistory\n")[2].partition(b"journal 0\n")[0].decode().split("\n")[:-1]


def looks_complaint(out, count):
    """What is wrong with the n + 1 lines of a watch, or None."""
    trace, lines = parted(out)
    history = history_of(trace)
    if lines.pop() != "" or len(lines) != count + 1:
        return "%d lines of a watch in place of %d" % (len(lines), count + 1)
    wanted = []
    for line in lines:
        found = LOOK.fullmatch(line)
        if not found:
            return "%r is no line of a watch" % line
        wanted.append(int(found[1]))
    if wanted != sorted(wanted) or wanted[-1] != len(history):
        return "the lines of a watch are of %s .. entries, and the history has %d" % (wanted[-3:], len(history))
    places, rest = Places(), iter(zip(wanted, lines))
    number, line = next(rest)
    for length in range(len(history) + 1):
        while number == length:
            if line != places.look(length):
                return "%r in place of %r" % (line, places.look(length))
            number, line = next(rest, (None, None))
        if length < len(history):
            places.add(history[length])
    return None
