"""The tree of tasks and scopes: which entry is allowed in it, and which tree it makes.

docs/semantics.md has the rules under "Activities and scopes", "Deaths and losses" and "The history".
"""

from dataclasses import dataclass, field

from model import Refused

MOST_PLACES = 16
MOST_MASKED = 2**32 - 1


@dataclass
class Task:
    """A task of the tree. It is at its place, or travels there from its source."""

    number: int
    scope: int
    place: int
    source: int = None
    waits: bool = False
    lost_at: int = None
    opened: list = field(default_factory=list)
    path: str = None


@dataclass
class Scope:
    """A scope of the tree, with how many unstruck tasks are under it, and the tasks and scopes directly under it."""

    number: int
    kind: str
    opener: int
    home: int
    parent: int
    path: str = None
    body_faults: list = field(default_factory=list)
    task_faults: list = field(default_factory=list)
    unstruck: int = 0
    tasks: set = field(default_factory=set)
    below: set = field(default_factory=set)


def named(numbers):
    """Numbers in words."""
    return " and ".join([", ".join(map(str, numbers[:-1])), str(numbers[-1])] if len(numbers) > 1 else map(str, numbers)) or "none"


class Tree:
    """The tree that the entries so far have made of the opening one."""

    def __init__(self, places):
        self.places = places
        self.dead = set()
        self.scopes = {0: Scope(0, "finish", None, 0, None)}
        self.tasks = {}
        self.gone = {}
        self.next_task, self.next_scope = 0, 1
        self.bear(0, 0, 0, 0, None)

    # What is there.

    def chain(self, number):
        """The scope with this number, its parent, and so on to the root."""
        while number is not None:
            yield self.scopes[number]
            number = self.scopes[number].parent

    def innermost(self, task):
        return task.opened[-1] if task.opened else task.scope

    def governing(self, task):
        return next(scope.number for scope in self.chain(self.innermost(task)) if scope.kind == "finish")

    def within(self, number):
        """The scope with this number, and all scopes below it."""
        waiting, found = [number], []
        while waiting:
            scope = self.scopes[waiting.pop()]
            found.append(scope)
            waiting += scope.below
        return found

    def unstruck_under(self, number):
        """The unstruck tasks under a scope, in the order of their numbers."""
        tasks = [self.tasks[it] for scope in self.within(number) for it in scope.tasks]
        return sorted((task for task in tasks if task.lost_at is None), key=lambda task: task.number)

    def carried(self, number):
        """What a release of this scope carries: lost places, how many faults are masked, and the faults that are thrown."""
        scope, *below = self.within(number)
        tasks = [self.tasks[it] for it in scope.tasks] + [self.tasks[it] for inner in below for it in inner.tasks]
        lost = sorted({task.lost_at for task in tasks if task.lost_at is not None})
        masked = sum(len(inner.body_faults) + len(inner.task_faults) for inner in below)
        return lost, min(masked, MOST_MASKED), scope.body_faults + scope.task_faults

    # Words.

    def doing(self, task):
        """What a task does now, in words."""
        if task.lost_at is not None:
            return "was lost at place %d, and does nothing more" % task.lost_at
        if task.source is not None:
            return "still travels from place %d to place %d" % (task.source, task.place)
        return "waits at s%d" % task.opened[-1] if task.waits else "is live at place %d" % task.place

    def shown(self):
        """The unstruck tasks and what they do, the first few of them."""
        tasks = self.unstruck_under(0) if 0 in self.scopes else []
        words = ["t%d %s" % (task.number, self.doing(task)) for task in tasks[:6]]
        return "; ".join(words + (["%d tasks more" % (len(tasks) - 6)] if len(tasks) > 6 else [])) or "no task is left"

    def standing(self, number):
        """What became of a scope that is not the one that it should be."""
        if number in self.scopes:
            opener = self.scopes[number].opener
            return "s%d is a scope of %s" % (number, "the host" if opener is None else "t%d" % opener)
        return "s%d is released already" % number if number < self.next_scope else "s%d is not opened yet" % number

    # Checks.

    def acting(self, number):
        """The unstruck task with this number."""
        task = self.tasks.get(number)
        if task is None:
            raise Refused("t%d %s" % (number, self.gone.get(number, "is not started yet")))
        if task.lost_at is not None:
            raise Refused("t%d %s" % (number, self.doing(task)), (task.path, "t%d is started here" % number))
        return task

    def live(self, number):
        """The unstruck task with this number, which is at a place and does not wait."""
        task = self.acting(number)
        if task.source is not None or task.waits:
            raise Refused("t%d %s, so it can do nothing else" % (number, self.doing(task)), (task.path, "t%d is started here" % number))
        return task

    def last_opened(self, task, number):
        """The scope with this number, which is the last that the task opened and that still stands."""
        if not task.opened:
            raise Refused("t%d has no scope of its own; %s" % (task.number, self.standing(number)))
        if task.opened[-1] != number:
            raise Refused("the innermost scope that t%d opened is s%d; %s" % (task.number, task.opened[-1], self.standing(number)))
        return self.scopes[number]

    def check_opening(self, task, entry):
        if entry.scope != self.next_scope:
            raise Refused("the next scope is s%d" % self.next_scope)
        if entry.parent != self.innermost(task):
            raise Refused("the innermost scope of t%d is s%d" % (task.number, self.innermost(task)))

    def check_birth(self, task, entry):
        if entry.child != self.next_task:
            raise Refused("the next task is t%d" % self.next_task)
        if entry.source != task.place:
            raise Refused("t%d is at place %d" % (task.number, task.place))
        if entry.place >= self.places:
            raise Refused("there are %d places now, so there is no place %d" % (self.places, entry.place))

    def check_release(self, entry):
        """Whether the scope is quiet, and the entry says what the release carries."""
        number, scope = entry.scope, self.scopes[entry.scope]
        if scope.unstruck:
            tasks = self.unstruck_under(number)
            words = ["t%d %s" % (task.number, self.doing(task)) for task in tasks[:3]]
            more = ["%d more are under it" % (len(tasks) - 3)] if len(tasks) > 3 else []
            marks = [(task.path, "t%d is started here" % task.number) for task in tasks[:2]]
            raise Refused("s%d is not quiet: %s" % (number, "; ".join(words + more)), (scope.path, "s%d is opened here" % number), *marks)
        lost, masked, thrown = self.carried(number)
        mark = scope.path, "s%d is opened here" % number
        if entry.lost != lost:
            raise Refused("the places at which tasks under s%d were lost are %s; the entry names %s" % (
                number, named(lost), named(entry.lost)), mark)
        if entry.masked != masked:
            raise Refused("%d faults are masked below s%d; the entry tells of %d" % (masked, number, entry.masked), mark)
        if entry.thrown != thrown:
            raise Refused("the faults of s%d are %s; the entry throws %s" % (number, named(thrown), named(entry.thrown)), mark)

    # Changes.

    def bear(self, number, scope, source, place, path):
        """A new task under a scope. It is born struck where its place is dead."""
        task = Task(number, scope, place, None if source == place else source, path=path)
        task.lost_at = place if place in self.dead else None
        self.tasks[number] = task
        self.scopes[scope].tasks.add(number)
        self.next_task = number + 1
        if task.lost_at is None:
            self.count(task, 1)

    def count(self, task, change):
        for scope in self.chain(task.scope):
            scope.unstruck += change

    def add_scope(self, task, entry):
        kind = "finish" if entry.kind == "open" else "at"
        self.scopes[entry.scope] = Scope(entry.scope, kind, task.number, task.place, entry.parent, entry.path)
        self.scopes[entry.parent].below.add(entry.scope)
        self.next_scope += 1
        task.opened.append(entry.scope)

    def remove(self, number):
        """Takes away a scope, all scopes below it, and the struck tasks under it."""
        parent = self.scopes[number].parent
        if parent is not None:
            self.scopes[parent].below.discard(number)
        for scope in self.within(number):
            del self.scopes[scope.number]
            for task in scope.tasks:
                self.gone[task] = "was lost at place %d, as the release of s%d has told" % (self.tasks.pop(task).lost_at, number)

    # Entries.

    def apply(self, entry):
        """The entry is made where it is allowed; else the tree stays as it is, and the rule that refuses it is raised."""
        getattr(self, "do_" + entry.kind)(entry)

    def do_open(self, entry):
        task = self.live(entry.task)
        self.check_opening(task, entry)
        self.add_scope(task, entry)

    def do_at(self, entry):
        task = self.live(entry.task)
        self.check_opening(task, entry)
        self.check_birth(task, entry)
        self.add_scope(task, entry)
        self.bear(entry.child, entry.scope, entry.source, entry.place, entry.path)
        task.waits = True

    def do_spawn(self, entry):
        task = self.live(entry.task)
        self.check_birth(task, entry)
        if entry.scope != self.governing(task):
            raise Refused("the scope that governs t%d is s%d" % (task.number, self.governing(task)))
        self.bear(entry.child, entry.scope, entry.source, entry.place, entry.path)

    def do_arrive(self, entry):
        task = self.acting(entry.task)
        if task.source is None:
            raise Refused("t%d does not travel: it %s" % (task.number, self.doing(task)))
        if task.place != entry.place:
            raise Refused("t%d %s" % (task.number, self.doing(task)))
        task.source = None

    def do_wait(self, entry):
        task = self.live(entry.task)
        scope = self.last_opened(task, entry.scope)
        scope.body_faults = list(entry.thrown)
        task.waits = True

    def do_release(self, entry):
        if entry.task is None:
            if 0 not in self.scopes:
                raise Refused("the root is released already")
            self.check_release(entry)
        else:
            task = self.acting(entry.task)
            if not task.waits:
                raise Refused("t%d does not wait: it %s" % (task.number, self.doing(task)))
            self.last_opened(task, entry.scope)
            self.check_release(entry)
            task.opened.pop()
            task.waits = False
        self.remove(entry.scope)

    def do_end(self, entry):
        task = self.live(entry.task)
        if task.opened:
            number = task.opened[-1]
            mark = self.scopes[number].path, "s%d is opened here" % number
            raise Refused("t%d has opened s%d and not released it" % (task.number, number), mark)
        self.count(task, -1)
        scope = self.scopes[task.scope]
        scope.task_faults += entry.thrown
        scope.tasks.discard(task.number)
        del self.tasks[task.number]
        self.gone[task.number] = "has ended at entry %d" % entry.number

    def do_print(self, entry):
        self.live(entry.task)

    def do_census(self, entry):
        self.live(entry.task)
        if entry.value != self.places:
            raise Refused("%d places have joined by now" % self.places)

    def do_death(self, entry):
        place = entry.place
        if place == 0:
            raise Refused("place 0 never dies")
        if place >= self.places or place in self.dead:
            raise Refused("place %d %s" % (place, "is dead already" if place in self.dead else "has not joined"))
        self.dead.add(place)
        for task in self.tasks.values():
            if task.lost_at is None and place in (task.place, task.source):
                task.lost_at = place
                self.count(task, -1)

    def do_join(self, entry):
        if entry.place != self.places or self.places >= MOST_PLACES:
            raise Refused("the next place that can join is place %d" % self.places)
        self.places += 1
