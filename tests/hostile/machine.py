"""What `step` has to answer: a run by picks, turn by turn, by docs/semantics.md and docs/trace.md.

It is written from these pages and shares nothing with the program. It is plain: a task is a generator that stops at each of its entries,
and a scope counts the tasks under it that no death has struck.
"""

import bisect
import itertools

from program import Answer
from reading import read_script

LEAST, MOST = -(1 << 63), (1 << 63) - 1
MOST_MASKED = 4294967295


class Raised(Exception):
    """A list of faults on its way outwards."""

    def __init__(self, faults):
        super().__init__(faults)
        self.faults = faults


class Task:
    """A task. Its state is born, travels, live, waits, struck or over."""

    def __init__(self, number, scope, place, source, variables, knows):
        self.number, self.hang, self.place, self.source = number, scope, place, source
        self.variables, self.knows = variables, knows
        self.state, self.opened, self.batch, self.lost_at = "born", [], [], None
        self.steps = None

    def innermost(self):
        return self.opened[-1] if self.opened else self.hang


class Scope:
    """A scope, with the scopes below it and the struck tasks that hang under it, and how many unstruck tasks are under it."""

    def __init__(self, number, kind, opener, parent):
        self.number, self.kind, self.opener, self.parent = number, kind, opener, parent
        self.body, self.ends, self.below, self.struck, self.count = [], [], {}, [], 0

    def chain(self):
        scope = self
        while scope:
            yield scope
            scope = scope.parent

    def carried(self):
        """What its release carries: lost places, the number of masked faults, and faults."""
        lost, masked, rest = set(), 0, [self]
        while rest:
            scope = rest.pop()
            lost.update(it.lost_at for it in scope.struck)
            masked += 0 if scope is self else len(scope.body) + len(scope.ends)
            rest += scope.below.values()
        return sorted(lost), min(masked, MOST_MASKED), self.body + self.ends


class Store:
    """A place's heap, as its live blocks and the holes between them, and its journal."""

    def __init__(self, words):
        self.holes, self.blocks, self.made, self.journal = [(0, words)], {}, 0, []

    def tell(self, *words):
        self.journal.append(" ".join(map(str, (len(self.journal), *words))))

    def make(self, size):
        """The start and the generation of a new block, at the least start that is free; None where there is none."""
        k = next((k for k, (_, free) in enumerate(self.holes) if free >= size), None)
        if k is None:
            return None
        start, free = self.holes[k]
        self.holes[k:k + 1] = [(start + size, free - size)] if free > size else []
        self.made += 1
        self.blocks[start, self.made] = [0] * size
        return start, self.made

    def forget(self, key):
        bisect.insort(self.holes, (key[0], len(self.blocks.pop(key))))
        joined = []
        for start, free in self.holes:
            if joined and sum(joined[-1]) == start:
                start, free = joined[-1][0], joined.pop()[1] + free
            joined.append((start, free))
        self.holes = joined


def seeded(seed):
    """The words of PCG XSH RR 64/32 from a seed, on stream 0."""
    mask, step = (1 << 64) - 1, 6364136223846793005
    state = (1 + seed) & mask
    state = (state * step + 1) & mask
    while True:
        mixed, turn = ((state >> 18 ^ state) >> 27) & 0xffffffff, state >> 59
        yield (mixed >> turn | mixed << (-turn & 31)) & 0xffffffff
        state = (state * step + 1) & mask


class Run:
    """A run of a script under a setup, up to the root's release."""

    def __init__(self, text, places, heap, kills, joins, picks):
        self.opening, self.heap, self.kills, self.joins = places, heap, sorted(kills, key=lambda it: (it[1], it[0])), sorted(joins)
        self.places, self.dead = places, set()
        self.due = sorted([(moment, 0, places + k) for k, moment in enumerate(self.joins)] + [(moment, 1, place) for place, moment in kills])
        self.due.reverse()
        self.picks = picks
        self.stores = [Store(heap) for _ in range(places + len(joins))]
        self.history, self.tasks, self.scopes = [], 0, 0
        self.unstruck, self.enabled = {}, []
        self.root = self.new_scope("finish", None, None)
        self.main = self.new_task(self.root, 0, 0, {}, places)
        self.main.steps = self.body(self.main, read_script(text), "")
        while self.turn():
            pass

    # Entries.

    def tell(self, *words):
        self.history.append(" ".join(map(str, (len(self.history), *words))))

    def told(self, task, *words):
        """An entry of a task, with its batch."""
        self.tell(*words, *(["|", *task.batch] if task.batch else []))
        task.batch = []

    # The tree.

    def new_scope(self, kind, opener, parent):
        scope = Scope(self.scopes, kind, opener, parent)
        self.scopes += 1
        if parent:
            parent.below[scope.number] = scope
        if opener:
            opener.opened.append(scope)
        return scope

    def new_task(self, scope, place, source, variables, knows):
        task = Task(self.tasks, scope, place, source, variables, knows)
        self.tasks += 1
        self.unstruck[task.number] = task
        for it in scope.chain():
            it.count += 1
        task.state = "live" if place == source else "travels"
        self.may_go(task)
        if place in self.dead:
            self.strike(task, place)
        return task

    def may_go(self, task):
        bisect.insort(self.enabled, task.number)

    def may_not_go(self, task):
        k = bisect.bisect_left(self.enabled, task.number)
        if k < len(self.enabled) and self.enabled[k] == task.number:
            del self.enabled[k]

    def leave(self, task, state):
        """The task is over, or struck: what waits for it alone may go on."""
        self.may_not_go(task)
        del self.unstruck[task.number]
        task.state = state
        for scope in task.hang.chain():
            scope.count -= 1
            opener = scope.opener
            if scope.count == 0 and opener and opener.state == "waits" and opener.opened[-1] is scope:
                self.may_go(opener)

    def strike(self, task, place):
        task.lost_at = place
        task.hang.struck.append(task)
        self.leave(task, "struck")

    def wait(self, task):
        task.state = "waits"
        self.may_not_go(task)
        if task.opened[-1].count == 0:
            self.may_go(task)

    def release(self, task):
        """The release of the scope at which the task waits; raises what it carries."""
        scope = task.opened.pop()
        lost, masked, thrown = scope.carried()
        del scope.parent.below[scope.number]
        task.state = "live"
        self.told(task, "release t%d s%d" % (task.number, scope.number), *parts(lost, masked, thrown))
        if lost or thrown:
            raise Raised(["dead:%d" % place for place in lost] + thrown)

    # Turns.

    def turn(self):
        """One turn; False where it was the last."""
        if self.due and self.due[-1][0] <= len(self.history):
            _, is_kill, place = self.due.pop()
            if is_kill:
                self.kill(place)
            else:
                self.tell("join", place)
                self.places += 1
            return True
        if not self.enabled:
            self.carried = self.root.carried()
            self.tell("release host s0", *parts(*self.carried))
            return False
        task = self.unstruck[self.enabled[next(self.picks) % len(self.enabled)]]
        if task.state == "travels":
            task.state = "live"
            self.told(task, "arrive t%d %d" % (task.number, task.place))
            return True
        try:
            next(task.steps)
        except StopIteration:
            self.end(task, [])
        except Raised as raised:
            self.end(task, raised.faults)
        return True

    def end(self, task, faults):
        task.hang.ends += faults
        self.told(task, "end t%d" % task.number, *parts([], 0, faults))
        self.leave(task, "over")

    def kill(self, place):
        self.stores[place].tell(len(self.history), "close")
        self.tell("death", place)
        self.dead.add(place)
        for task in list(self.unstruck.values()):
            if task.place == place or (task.state == "travels" and task.source == place):
                self.strike(task, place)

    # Statements. Each of these generators stops where an entry was told.

    def body(self, task, block, path):
        for k, it in enumerate(block):
            yield from getattr(self, "do_" + it[0])(task, it, "%s%d" % (path, k))

    def value(self, task, it):
        if isinstance(it, int):
            return it
        if it[0] == "name":
            return task.variables[it[1]]
        if it[0] == "here":
            return task.place
        left, right = self.value(task, it[1]), self.value(task, it[2])
        if it[0] in ("<", "=="):
            return int(left < right if it[0] == "<" else left == right)
        value = left + right if it[0] == "+" else left - right if it[0] == "-" else left * right
        if not LEAST <= value <= MOST:
            raise Raised(["overflow"])
        return value

    def operand(self, task, it, path):
        """The value of an expression of a statement that asks the ledger; the statement stands in the batch where this raises."""
        try:
            return self.value(task, it)
        except Raised:
            task.batch.append(path)
            raise

    def place_of(self, task, it, path):
        place = self.operand(task, it, path)
        if not 0 <= place < task.knows:
            task.batch.append(path)
            raise Raised(["noplace"])
        return place

    def do_set(self, task, it, path):
        task.batch.append(path)
        task.variables[it[1]] = self.value(task, it[2])
        return
        yield

    def do_throw(self, task, it, path):
        task.batch.append(path)
        raise Raised(["code:%d" % self.value(task, it[1])])
        yield

    def do_print(self, task, it, path):
        value = self.operand(task, it[1], path)
        self.told(task, "print t%d %d %s" % (task.number, value, path))
        yield

    def do_census(self, task, it, path):
        task.knows = task.variables[it[1]] = self.places
        self.told(task, "census t%d %d %s" % (task.number, self.places, path))
        yield

    def do_new(self, task, it, path):
        task.batch.append(path)
        store = self.stores[task.place]
        made = store.make(it[2])
        call = ("t%d" % task.number, len(self.history), "make", it[2])
        if made is None:
            store.tell(*call, "full", path)
            raise Raised(["heapfull"])
        store.tell(*call, "at", *made, path)
        task.variables[it[1]] = (task.place, *made)
        return
        yield

    def block_of(self, task, reference, call, path, index=None):
        """The block of a reference, for a call of its store; a refused call is told and raised."""
        store = self.stores[task.place]
        block = store.blocks.get(reference[1:])
        fault = "stale" if block is None else "index" if index is not None and not 0 <= index < len(block) else None
        if fault:
            store.tell(*call, fault, path)
            raise Raised([fault])
        return store, block

    def called(self, task, name, kind, *operands):
        """The reference, and the first words of the call's event."""
        reference = task.variables[name]
        if reference[0] != task.place:
            raise Raised(["wrongplace"])
        return reference, ("t%d" % task.number, len(self.history), kind, *reference[1:], *operands)

    def do_get(self, task, it, path):
        task.batch.append(path)
        index = self.value(task, it[3])
        reference, call = self.called(task, it[2], "get", index)
        store, block = self.block_of(task, reference, call, path, index)
        store.tell(*call, "is", block[index], path)
        task.variables[it[1]] = block[index]
        return
        yield

    def do_put(self, task, it, path):
        task.batch.append(path)
        index, value = self.value(task, it[2]), self.value(task, it[3])
        reference, call = self.called(task, it[1], "put", index, value)
        store, block = self.block_of(task, reference, call, path, index)
        store.tell(*call, "ok", path)
        block[index] = value
        return
        yield

    def do_forget(self, task, it, path):
        task.batch.append(path)
        reference, call = self.called(task, it[1], "forget")
        store, _ = self.block_of(task, reference, call, path)
        store.tell(*call, "ok", path)
        store.forget(reference[1:])
        return
        yield

    def do_if(self, task, it, path):
        task.batch.append(path)
        first = self.value(task, it[1]) != 0
        yield from self.body(task, it[2] if first else it[3], "%s.%d." % (path, 0 if first else 1))

    def do_repeat(self, task, it, path):
        task.batch.append(path)
        for k in range(it[1]):
            yield from self.body(task, it[2], "%s.%d." % (path, k))

    def do_try(self, task, it, path):
        task.batch.append(path)
        try:
            yield from self.body(task, it[1], path + ".0.")
            return
        except Raised as raised:
            if it[0] == "dead" and not all(fault.startswith("dead:") for fault in raised.faults):
                raise
        yield from self.body(task, it[2], path + ".1.")

    do_dead = do_try

    def started(self, task, scope, place, block, path):
        child = self.new_task(scope, place, task.place, dict(task.variables), task.knows)
        child.steps = self.body(child, block, path + ".")
        return child

    def governing(self, task):
        return next(it for it in task.innermost().chain() if it.kind == "finish")

    def spawn(self, task, place, block, path):
        scope = self.governing(task)
        child = self.started(task, scope, place, block, path)
        self.told(task, "spawn t%d t%d in s%d %d %d %s" % (task.number, child.number, scope.number, task.place, place, path))

    def do_async(self, task, it, path):
        self.spawn(task, task.place, it[1], path)
        yield

    def do_on(self, task, it, path):
        self.spawn(task, self.place_of(task, it[1], path), it[2], path)
        yield

    def do_at(self, task, it, path):
        place = self.place_of(task, it[1], path)
        parent = task.innermost()
        scope = self.new_scope("at", task, parent)
        child = self.started(task, scope, place, it[2], path)
        self.told(task, "at t%d s%d in s%d t%d %d %d %s" % (
            task.number, scope.number, parent.number, child.number, task.place, place, path))
        self.wait(task)
        yield
        yield from self.released(task)

    def do_finish(self, task, it, path):
        parent = task.innermost()
        scope = self.new_scope("finish", task, parent)
        self.told(task, "open t%d s%d in s%d %s" % (task.number, scope.number, parent.number, path))
        yield
        try:
            yield from self.body(task, it[1], path + ".")
        except Raised as raised:
            scope.body = raised.faults
        self.told(task, "wait t%d s%d" % (task.number, scope.number), *parts([], 0, scope.body))
        self.wait(task)
        yield
        yield from self.released(task)

    def released(self, task):
        """The release, and then what it raises at the next turn of the task."""
        try:
            self.release(task)
        except Raised as raised:
            yield
            raise raised
        yield

    # The answer.

    def text(self):
        lines = ["rx10 trace 2", "places %d heap %d" % (self.opening, self.heap),
                 " ".join(["kills", *("%d@%d" % it for it in self.kills)]), " ".join(["joins", *map(str, self.joins)]), "history"]
        journals = (["journal %d" % place, *it.journal] for place, it in enumerate(self.stores))
        return "".join(line + "\n" for line in itertools.chain(lines, self.history, *journals, ["done"])).encode()

    def status(self):
        lost, _, thrown = self.carried
        return 1 if lost or thrown else 0

    def numbers(self):
        """The five lines of `gen`."""
        kinds = [it.split(" ", 2)[1] for it in self.history]
        losses = sum(kind == "release" and " lost " in it.partition(" |")[0] for kind, it in zip(kinds, self.history))
        found = {"entries": len(self.history), "tasks": self.tasks, "prints": kinds.count("print"), "deaths": kinds.count("death"),
                 "losses": losses}
        return "".join("%s %d\n" % it for it in found.items()).encode()


def parts(lost, masked, thrown):
    """The words at the end of an entry."""
    found = ["lost", *lost] if lost else []
    found += ["masked", masked] if masked else []
    return found + (["thrown", *thrown] if thrown else [])


def run_of(words, text):
    """The run of a script under the words of `step`, `live` or `gen` (of `live` the one of the oldest task that can go on)."""
    options = list(zip(words[1::2], words[2::2]))
    one = dict(options)
    kills = [tuple(map(int, value.split("@"))) for option, value in options if option == "--kill"]
    joins = [int(value) for option, value in options if option == "--join"]
    picks = itertools.chain(map(int, one.get("--pick", "0").split(",")), itertools.repeat(0))
    if "--seed" in one:
        picks = seeded(int(one["--seed"]))
    return Run(text, int(one.get("--places", 2)), int(one.get("--heap", 256)), kills, joins, picks)


def step_answer(words, text):
    """The answer to a script by `step`, which is also that by `live` where no two tasks can ever go on at one time."""
    run = run_of(words, text)
    return Answer(run.status(), run.text(), b"")


def generated(size, places):
    """The script of `gen`."""
    line = "try { finish { at %d async { at %d async { print %d; } } } } catch dead { }\n"
    return "".join(line % (k % places, (k + 1) % places, k) for k in range(size)).encode()
