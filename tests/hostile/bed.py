"""A model of the workers of a run: how they sleep, wake, give way to one another, and call those that wait. No program is run.

    python3 tests/hostile/bed.py [WRONG BODY]

It goes through all states of some small runs and holds two things: each state has a way to the end of the run, and who was called because
its scope is quiet is told "not yet" no more. A step is one step on one shared word, one call of a queue under its lock, or one call of
the ledger under its own. The rules are those of docs/live.md; each wrong body leaves one out, and has to be found.
"""

import collections
import sys

# The ledger's tasks are 0, 1, ..; task 0 is the main one. What a task does stands in a list: it opens a scope, starts a task in its innermost
# scope, asks for the release of that, or ends. Scope 0 is the root.
OPEN, START, RELEASE, END = "open", "start", "release", "end"
Run = collections.namedtuple("Run", "workers acts place opens mortal")


def run_of(workers, acts, place, mortal=None):
    """A run by so many workers, of tasks at these places; `mortal` may die at any call of the ledger."""
    opens = {scope: task for task, line in enumerate(acts) for act, *what in line if act == OPEN for scope in what}
    return Run(workers, acts, place, opens, mortal)


# (two tasks under one finish; a finish within a finish, at another place that may die; three at the ledger's lock)
TWO_UNDER_ONE = [[(OPEN, 1), (START, 1), (START, 2), (RELEASE, 1), (END,)], [(END,)], [(END,)]]
ONE_WITHIN_ONE = [[(OPEN, 1), (START, 1), (RELEASE, 1), (END,)], [(OPEN, 2), (START, 2), (RELEASE, 2), (END,)], [(END,)]]
RUNS = {
    "two tasks, two workers": run_of(2, TWO_UNDER_ONE, [0, 0, 0]),
    "two tasks at two places, two workers": run_of(2, TWO_UNDER_ONE, [0, 0, 1]),
    "a finish in a finish, two workers": run_of(2, ONE_WITHIN_ONE, [0, 0, 0]),
    "a place that dies, two workers": run_of(2, ONE_WITHIN_ONE, [0, 1, 0], 1),
    "one task, three workers": run_of(3, [TWO_UNDER_ONE[0][:2] + TWO_UNDER_ONE[0][3:], [(END,)]], [0, 0]),
    "three ends, three workers": run_of(3, [[(START, 1), (START, 2), (END,)], [(END,)], [(END,)]], [0, 0, 0]),
}

# What all share. `at` is how far each task is: the number of its next act, or NONE where it is over, struck or not begun. `quiet` has the
# scopes whose openers were called by an end.
Shared = collections.namedtuple("Shared", "at dead put_off quiet left ready deaths asleep wakes word items waiting called workers")
# A worker: where it is, what it has in hand, the deaths that it saw before its turn, whether it has slept at the lock, and what the ledger
# has told it: the reply, the task that was started or the scope that may not be released yet, whom to call, and where it calls all now.
Worker = collections.namedtuple("Worker", "pc hand seen slept told")
Told = collections.namedtuple("Told", "reply what hint place")
NONE, ALL = -1, -2
NOTHING = Told("", NONE, NONE, 0)
NEW = Worker("new", NONE, 0, False, NOTHING)

WRONG = {
    "no second look": "who has lain down sleeps without a second look",
    "all give way": "a worker gives way also where all others lie",
    "a call is lost": "who is called before it lies there is not noted",
    "deaths are not compared": "who waits is kept although all were called since",
    "a mark is lost": "who has slept at the lock takes it as if nobody else slept",
    "the last one is quiet": "after the last end nobody is woken",
}


class Model:
    def __init__(self, run, wrong=""):
        self.run, self.wrong = run, wrong
        self.under = {}             # the scope under which a task hangs
        self.parent = {}            # the scope in which a scope was opened
        for task, line in enumerate(run.acts):
            self.nest(task, line)

    def nest(self, task, line):
        inner = [self.under.get(task, 0)]
        for act, *what in line:
            if act == OPEN:
                self.parent[what[0]] = inner[-1]
                inner.append(what[0])
            elif act == START:
                self.under[what[0]] = inner[-1]
            elif act == RELEASE:
                inner.pop()

    def first(self):
        at = tuple(0 if task == 0 else NONE for task in range(len(self.run.acts)))
        nobody = frozenset()
        return Shared(at, False, nobody, nobody, 1, 1, 0, 0, 0, 0, (0,), nobody, nobody, (NEW,) * self.run.workers)

    # --- the ledger

    def keeper(self, scope, dead):
        """The scope that counts what hangs under this one: the first whose opener is not at the dead place."""
        while dead and scope and self.run.place[self.run.opens[scope]] == self.run.mortal:
            scope = self.parent[scope]
        return scope

    def is_quiet(self, scope, at, dead):
        return all(at[task] == NONE or self.keeper(above, dead) != scope for task, above in self.under.items())

    def asked(self, s, task):
        """Each way in which a call by a task may go: what is shared after it, and what it tells."""
        yield self.answered(s, task, NONE)
        if self.run.mortal is not None and not s.dead:
            at = tuple(NONE if place == self.run.mortal else now for place, now in zip(self.run.place, s.at))
            yield self.answered(s._replace(at=at, dead=True, put_off=frozenset()), task, ALL)

    def answered(self, s, task, hint):
        if s.at[task] == NONE:
            return s, Told("over", NONE, hint, 0)
        act, *what = self.run.acts[task][s.at[task]]
        onward = changed(s, task, s.at[task] + 1)
        if act == OPEN:
            return onward, Told("goes", NONE, hint, 0)
        if act == START:
            # (a task that is started for the dead place becomes nothing)
            if s.dead and self.run.place[what[0]] == self.run.mortal:
                return onward, Told("goes", NONE, hint, 0)
            return changed(onward, what[0], 0), Told("goes", what[0], hint, 0)
        if act == RELEASE:
            scope = what[0]
            if self.is_quiet(scope, s.at, s.dead):
                return onward, Told("goes", NONE, hint, 0)
            if scope in s.quiet:
                raise InVain("scope %d was called since it is quiet, and may not be released" % scope)
            noted = s if hint == ALL else s._replace(put_off=s.put_off | {scope})
            return noted, Told("waits", scope, hint, 0)
        ended, scope = changed(s, task, NONE), self.keeper(self.under.get(task, 0), s.dead)
        if hint == ALL or scope not in s.put_off or not self.is_quiet(scope, ended.at, s.dead):
            return ended, Told("over", NONE, hint, 0)
        return ended._replace(put_off=s.put_off - {scope}, quiet=s.quiet | {scope}), Told("over", NONE, scope, 0)

    # --- the workers

    def steps(self, s):
        """Each state that one step leads to."""
        for i, w in enumerate(s.workers):
            if w not in s.workers[:i]:          # (workers that are alike do alike)
                yield from self.step(s, i, w)

    def step(self, s, i, w):
        def go(pc, t=s, **what):
            workers = list(t.workers)
            workers[i] = w._replace(pc=pc, **what)
            return t._replace(workers=tuple(sorted(workers)))

        def woken(pc, where, t=s):
            """One who sleeps there goes on, if one does."""
            asleep = {it for it in t.workers if it.pc == where}
            for it in asleep:
                workers = list(t.workers)
                workers[workers.index(it)] = it._replace(pc=where + " woken")
                rest = t._replace(workers=tuple(workers))
                workers[workers.index(w)] = w._replace(pc=pc)
                yield rest._replace(workers=tuple(sorted(workers)))
            if not asleep:
                yield go(pc, t)

        return getattr(self, "do_" + w.pc.split()[0])(s, w, go, woken)

    def do_new(self, s, w, go, woken):
        yield go("top")

    # What it does next. Deaths are read before a turn.
    def do_top(self, s, w, go, woken):
        if w.hand != NONE:
            yield go("turn", seen=s.deaths)
        else:
            yield go("end" if s.left == 0 else "look")

    def do_end(self, s, w, go, woken):
        return iter(())

    # A look, then it lies down, and a second one.
    def do_look(self, s, w, go, woken):
        yield go("pop" if s.ready else "lie")

    def do_pop(self, s, w, go, woken):
        for task in sorted(set(s.items)):
            yield go("took", s._replace(items=without(s.items, task)), hand=task)
        if not s.items:
            yield go("lie")

    def do_took(self, s, w, go, woken):
        yield go("top", s._replace(ready=s.ready - 1))

    def do_lie(self, s, w, go, woken):
        yield go("sleeps" if self.wrong == "no second look" else "again", s._replace(asleep=s.asleep + 1))

    def do_again(self, s, w, go, woken):
        yield go("second" if s.ready else "sleeps")

    def do_second(self, s, w, go, woken):
        for task in sorted(set(s.items)):
            yield go("found", s._replace(items=without(s.items, task)), hand=task)
        if not s.items:
            yield go("sleeps")

    def do_found(self, s, w, go, woken):
        yield go("up", s._replace(ready=s.ready - 1))

    def do_sleeps(self, s, w, go, woken):
        yield go("up" if s.left == 0 else "sleep")

    def do_sleep(self, s, w, go, woken):
        yield go("top", s._replace(wakes=s.wakes - 1)) if s.wakes else go("park")

    def do_park(self, s, w, go, woken):
        yield go("sleep") if s.wakes else go("parked")

    def do_parked(self, s, w, go, woken):
        if w.pc == "parked woken":
            yield go("sleep")

    def do_up(self, s, w, go, woken):
        yield go("top", s._replace(asleep=s.asleep - 1)) if s.asleep else go("upper")

    def do_upper(self, s, w, go, woken):
        yield go("top", s._replace(wakes=s.wakes - 1)) if s.wakes else go("up")

    # A turn is long, and then wakes one who sleeps where something lies ready; or it is short, and may give way.
    def do_turn(self, s, w, go, woken):
        yield go("away" if s.ready else "lock")
        yield go("back" if s.word else "lock")

    def do_away(self, s, w, go, woken):
        yield go("wakes", s._replace(asleep=s.asleep - 1)) if s.asleep else go("lock")

    def do_wakes(self, s, w, go, woken):
        yield go("rouse", s._replace(wakes=s.wakes + 1))

    def do_rouse(self, s, w, go, woken):
        yield from woken("lock", "parked")

    def do_back(self, s, w, go, woken):
        yield go("yields", s._replace(ready=s.ready + 1))

    def do_yields(self, s, w, go, woken):
        yield go("lies", s._replace(items=tuple(sorted(s.items + (w.hand,)))), hand=NONE)

    def do_lies(self, s, w, go, woken):
        yield go("still", s._replace(asleep=s.asleep + 1))

    def do_still(self, s, w, go, woken):
        is_still = s.asleep >= sum(it.pc not in ("new", "end") for it in s.workers)
        yield go("up" if is_still and self.wrong != "all give way" else "sleeps")

    # The ledger's lock: 0 at home, 1 out, 2 out and somebody may sleep.
    def do_lock(self, s, w, go, woken):
        if s.word:
            yield go("mark", slept=True)
            return
        word = 2 if w.slept and self.wrong != "a mark is lost" else 1
        for t, told in self.asked(s._replace(word=word), w.hand):
            yield go("unlock", t, slept=False, told=told)

    def do_mark(self, s, w, go, woken):
        yield go("wait", s._replace(word=2 if s.word == 1 else s.word))

    def do_wait(self, s, w, go, woken):
        yield go("outside" if s.word == 2 else "lock")

    def do_outside(self, s, w, go, woken):
        if w.pc == "outside woken":
            yield go("lock")

    def do_unlock(self, s, w, go, woken):
        free = s._replace(word=0)
        if s.word == 2:
            yield go("rouses", free)
        else:
            yield go("heard", free)

    def do_rouses(self, s, w, go, woken):
        yield from woken("heard", "outside")

    # What the ledger has told. After a death all that wait are called, place by place.
    def do_heard(self, s, w, go, woken):
        yield go("calls", s._replace(deaths=s.deaths + 1)) if w.told.hint == ALL else go("left")

    def do_calls(self, s, w, go, woken):
        place = w.told.place
        here = tuple(task for at, task in sorted(s.waiting) if at == place)
        there = frozenset(it for it in s.waiting if it[0] != place)
        after = s._replace(items=tuple(sorted(s.items + here)), ready=s.ready + len(here), waiting=there)
        is_last = place == max(self.run.place)
        yield go("left" if is_last else "calls", after, told=w.told._replace(place=0 if is_last else place + 1))

    def do_left(self, s, w, go, woken):
        if w.told.reply == "over":
            yield go("over", s._replace(left=s.left - 1), hand=NONE)
        elif w.told.reply == "waits":
            yield self.kept(s, w, go, w.told.what)
        elif w.told.what == NONE:
            yield go("top", told=NOTHING)
        else:
            yield go("starts", s._replace(left=s.left + 1, ready=s.ready + 1))

    # The child stays in hand where it begins at its starter's place, else the starter.
    def do_starts(self, s, w, go, woken):
        child = w.told.what
        is_here = self.run.place[child] == self.run.place[w.hand]
        put, held_now = (w.hand, child) if is_here else (child, w.hand)
        yield go("top", s._replace(items=tuple(sorted(s.items + (put,)))), hand=held_now, told=NOTHING)

    def kept(self, s, w, go, scope):
        if s.deaths != w.seen and self.wrong != "deaths are not compared":
            return go("top", told=NOTHING)
        if scope in s.called:
            return go("top", s._replace(called=s.called - {scope}), told=NOTHING)
        here = (self.run.place[w.hand], w.hand)
        return go("top", s._replace(waiting=s.waiting | {here}), hand=NONE, told=NOTHING)

    def do_over(self, s, w, go, woken):
        scope = w.told.hint
        if s.left == 0 and self.wrong != "the last one is quiet":
            yield go("last", told=NOTHING)
        elif scope < 0:
            yield go("top", told=NOTHING)
        else:
            opener = self.run.opens[scope]
            here = (self.run.place[opener], opener)
            if here in s.waiting:
                yield go("top", s._replace(waiting=s.waiting - {here}), hand=opener, told=NOTHING)
            else:
                called = s.called if self.wrong == "a call is lost" else s.called | {scope}
                yield go("top", s._replace(called=called), told=NOTHING)

    # After the last end all are woken.
    def do_last(self, s, w, go, woken):
        yield go("lasts", s._replace(asleep=s.asleep - 1)) if s.asleep else go("top")

    def do_lasts(self, s, w, go, woken):
        yield go("rouse_all", s._replace(wakes=s.wakes + 1))

    def do_rouse_all(self, s, w, go, woken):
        yield from woken("last", "parked")


class InVain(Exception):
    """Somebody was called for nothing."""


def changed(s, task, act):
    """The same with another next act of a task."""
    return s._replace(at=s.at[:task] + (act,) + s.at[task + 1:])


def without(items, task):
    at = items.index(task)
    return items[:at] + items[at + 1:]


def searched(run, wrong="", most=2_000_000):
    """How many states there are, and one that has no way to the end, if there is one."""
    model = Model(run, wrong)
    first = model.first()
    before, ends, todo = {first: []}, [], [first]
    while todo:
        s = todo.pop()
        if s.left == 0 and all(w.pc == "end" for w in s.workers):
            ends.append(s)
        for t in model.steps(s):
            if t not in before:
                before[t] = []
                todo.append(t)
                if len(before) > most:
                    raise OverflowError("more than %d states" % most)
            before[t].append(s)
    good, todo = set(ends), list(ends)
    while todo:
        for s in before[todo.pop()]:
            if s not in good:
                good.add(s)
                todo.append(s)
    return len(before), next((s for s in before if s not in good), None)


def complaint(name, wrong=""):
    try:
        states, stuck = searched(RUNS[name], wrong)
    except InVain as why:
        return str(why)
    return "a state of %d has no way to the end: %s" % (states, stuck) if stuck else None


def held(name, wrong):
    """A run of the model comes to its end from each state, and where a wrong body is put in, some run does not."""
    if not wrong:
        return complaint(name)
    return None if any(complaint(it, wrong) for it in RUNS) else "no run shows that %s" % WRONG[wrong]


def run(program, tally):
    tally.each([(name, name, "") for name in RUNS] + [(wrong, None, wrong) for wrong in WRONG], held)


if __name__ == "__main__":
    for each in RUNS:
        print("%s: %s" % (each, complaint(each, *sys.argv[1:2]) or "each state has a way to the end"), flush=True)
