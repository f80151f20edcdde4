"""The coordinator's lines as a plain Python model: an explicit tree of tasks and scopes, from docs/semantics.md and docs/coordinator.md.

Nothing is counted: each question walks the tree. It is what random sessions are held to, and it can stand in for the program:

    python3 coordinator_model.py [--places N] [--log FILE] < requests > replies

It is not proved, and slow on large trees.
"""

import re
import sys

MOST = 16            # places in all, of a whole session
LONGEST = 4096       # bytes of a line, its end left out
NUMBER = re.compile(r"(0|[1-9][0-9]{0,9})\Z", re.ASCII)


class Malformed(Exception):
    """The line is no request."""


class Bad(Exception):
    """The request may not be made now."""


class Scope:
    def __init__(self, number, kind, opener, parent):
        self.number, self.kind, self.opener, self.parent = number, kind, opener, parent     # opener: a task; parent: a scope
        self.body, self.ends = [], []                                                       # faults

    def chain(self):
        """The scope, and those that it is in."""
        scope = self
        while scope is not None:
            yield scope
            scope = scope.parent

    def governing(self):
        """The first finish of the chain."""
        return next(scope for scope in self.chain() if scope.kind == "finish")


class Task:
    def __init__(self, number, under, place, source=None):
        self.number, self.under = number, under
        self.place = place              # where it is, or where it travels to
        self.source = source            # where it comes from while it travels
        self.lost_at = None             # the place of the death that struck it
        self.waits = False


class Model:
    """The state of a session, and its answers."""

    def __init__(self, places=1):
        self.places, self.dead = places, set()
        self.root = Scope(0, "finish", None, None)
        self.scopes = [self.root]
        self.tasks = {0: Task(0, self.root, 0)}
        self.next_task, self.next_scope = 1, 1
        self.parked, self.root_parked = [], False
        self.entries = []               # the lines of the log, without their ends

    def enter(self, text, *more):
        """One entry more."""
        self.entries.append(" ".join([str(len(self.entries)), text, *more]))

    def greeting(self):
        return "coordinator 1 places %d most %d line %d main t0" % (self.places, MOST, LONGEST)

    # The tree.

    def inner(self, task):
        own = [scope for scope in self.scopes if scope.opener is task]
        return own[-1] if own else task.under

    def under(self, scope):
        return [task for task in self.tasks.values() if scope in task.under.chain()]

    def is_quiet(self, scope):
        return all(task.lost_at is not None for task in self.under(scope))

    def unstruck(self, number):
        task = self.tasks.get(number)
        if task is None or task.lost_at is not None:
            raise Bad
        return task

    def live(self, number):
        task = self.unstruck(number)
        if task.waits or task.source is not None:
            raise Bad
        return task

    def born(self, scope, source, place):
        if place >= self.places:
            raise Bad
        task = Task(self.next_task, scope, place, None if source == place else source)
        self.next_task += 1
        self.tasks[task.number] = task
        if place in self.dead:
            task.lost_at, task.source = place, None
        return task

    def opened(self, kind, task):
        scope = Scope(self.next_scope, kind, task, self.inner(task))
        self.next_scope += 1
        self.scopes.append(scope)
        return scope

    def freed(self, scope):
        """Takes a quiet scope away, and tells what its release names."""
        struck = self.under(scope)
        below = [other for other in self.scopes if scope in other.chain()]
        lost = sorted({task.lost_at for task in struck})
        masked = sum(len(other.body) + len(other.ends) for other in below if other is not scope)
        thrown = scope.body + scope.ends
        for task in struck:
            del self.tasks[task.number]
        self.scopes = [other for other in self.scopes if other not in below]
        words = ["lost", *map(str, lost)] if lost else []
        words += ["masked", str(masked)] if masked else []
        return words + (["thrown", *map(str, thrown)] if thrown else [])

    def let_go(self, task):
        scope = self.inner(task)
        words = self.freed(scope)
        task.waits = False
        self.enter("release t%d s%d" % (task.number, scope.number), *coded(words))
        return words

    def let_root_go(self):
        words = self.freed(self.root)
        self.enter("release host s0", *coded(words))
        return words

    def started(self, task, child, source, place):
        self.enter("spawn t%d t%d in s%d %d %d 0" % (task.number, child.number, child.under.number, source, place))

    # Requests.

    def open(self, number):
        task = self.live(number)
        scope = self.opened("finish", task)
        self.enter("open t%d s%d in s%d 0" % (number, scope.number, scope.parent.number))
        return "opened s%d" % scope.number

    def at(self, number, place):
        task = self.live(number)
        if place >= self.places:
            raise Bad
        scope = self.opened("at", task)
        child = self.born(scope, task.place, place)
        task.waits = True
        self.enter("at t%d s%d in s%d t%d %d %d 0" % (number, scope.number, scope.parent.number, child.number, task.place, place))
        return told("called", child)

    def spawn(self, number, place):
        task = self.live(number)
        child = self.born(self.inner(task).governing(), task.place, place)
        self.started(task, child, task.place, place)
        return told("spawned", child)

    def send(self, number, place):
        task = self.live(number)
        child = self.born(self.inner(task).governing(), task.place, place)
        self.started(task, child, task.place, place)
        if child.source is not None:
            self.enter("arrive t%d %d" % (child.number, place))
        child.source = None
        return told("sent", child)

    def arrive(self, number):
        task = self.unstruck(number)
        if task.source is None:
            raise Bad
        task.source = None
        self.enter("arrive t%d %d" % (number, task.place))
        return "landed"

    def wait(self, number, *faults):
        task = self.live(number)
        scope = self.inner(task)
        if scope.opener is not task or scope.kind != "finish":
            raise Bad
        scope.body, task.waits = list(faults), True
        self.enter("wait t%d s%d" % (number, scope.number), *thrown(faults))
        return "waits"

    def release(self, number):
        task = self.unstruck(number)
        if not task.waits or task in self.parked:
            raise Bad
        if not self.is_quiet(self.inner(task)):
            self.parked.append(task)
            return "parked"
        return " ".join(["released", *self.let_go(task)])

    def end(self, number, *faults):
        task = self.live(number)
        if self.inner(task) is not task.under:
            raise Bad
        task.under.ends += faults
        del self.tasks[task.number]
        self.enter("end t%d" % number, *thrown(faults))
        return "ended"

    def death(self, place):
        if not 0 < place < self.places or place in self.dead:
            raise Bad
        self.dead.add(place)
        self.enter("death %d" % place)
        for task in self.tasks.values():
            if task.lost_at is None and place in (task.place, task.source):
                task.lost_at = place
        return "died"

    def join(self):
        if self.places >= MOST:
            raise Bad
        self.places += 1
        self.enter("join %d" % (self.places - 1))
        return "joined %d" % (self.places - 1)

    def release_root(self):
        if self.root not in self.scopes or self.root_parked:
            raise Bad
        if not self.is_quiet(self.root):
            self.root_parked = True
            return "parked"
        return " ".join(["released", *self.let_root_go()])

    def let_waiters_go(self):
        """The lines of the releases that waited and are possible now, in the order of their scopes."""
        lines = []
        self.parked = [task for task in self.parked if task.lost_at is None]
        for task in sorted(self.parked, key=lambda task: self.inner(task).number):
            if self.is_quiet(self.inner(task)):
                self.parked.remove(task)
                lines.append(" ".join(["freed t%d" % task.number, *self.let_go(task)]))
        if self.root_parked and self.is_quiet(self.root):
            self.root_parked = False
            lines.append(" ".join(["freed root", *self.let_root_go()]))
        return lines

    # Lines.

    def ask(self, line):
        """The lines that answer a line (text without its end): one reply, and then the releases that it makes possible."""
        try:
            verb, operands = request(line)
            lines = [getattr(self, verb)(*operands)]
        except Malformed:
            return ["malformed"]
        except Bad:
            return ["bad"]
        return lines + self.let_waiters_go() if verb in ("end", "death") else lines


def told(verb, child):
    """The reply that tells of a task that was started."""
    return "%s t%d in s%d" % (verb, child.number, child.under.number) + (" lost" if child.lost_at is not None else "")


def thrown(faults):
    """The words of an entry for faults."""
    return ["thrown", *("code:%s" % fault for fault in faults)] if faults else []


def coded(words):
    """The words of an entry for what a reply tells of a release."""
    at = words.index("thrown") if "thrown" in words else len(words)
    return words[:at] + thrown(words[at + 1:])


def number(word, limit):
    if not NUMBER.match(word) or int(word) >= limit:
        raise Malformed
    return int(word)


def task(word):
    if word[:1] != "t":
        raise Malformed
    return number(word[1:], 2 ** 32)


def place(word):
    return number(word, 256)


SHAPES = {"open": [task], "at": [task, place], "spawn": [task, place], "send": [task, place], "arrive": [task], "release": [task],
          "death": [place], "join": [], "root": []}


def request(line):
    """The name of the request that a line is, and its numbers."""
    if len(line) > LONGEST:
        raise Malformed
    verb, *words = line.split(" ")
    if verb in ("wait", "end"):
        if not words:
            raise Malformed
        return verb, [task(words[0]), *(number(word, 10 ** 9) for word in words[1:])]
    if verb not in SHAPES or len(words) != len(SHAPES[verb]):
        raise Malformed
    return "release_root" if verb == "root" else verb, [read(word) for read, word in zip(SHAPES[verb], words)]


def answers(text, places=1):
    """All that the program writes for these bytes. A line without an end has no answer."""
    model = Model(places)
    lines = [model.greeting()]
    for line in text.decode("latin-1").split("\n")[:-1]:
        lines += model.ask(line)
    return "".join(line + "\n" for line in lines).encode("latin-1")


def main():
    places = int(sys.argv[sys.argv.index("--places") + 1]) if "--places" in sys.argv else 1
    log = open(sys.argv[sys.argv.index("--log") + 1], "a", encoding="ascii") if "--log" in sys.argv else None
    model, logged = Model(places), 0
    print(model.greeting(), flush=True)
    for line in sys.stdin.buffer:
        if line.endswith(b"\n"):
            replies = model.ask(line[:-1].decode("latin-1"))
            if log is not None:
                log.write("".join(entry + "\n" for entry in model.entries[logged:]))
                log.flush()
                logged = len(model.entries)
            print("\n".join(replies), flush=True)


if __name__ == "__main__":
    main()
