"""The hub's core driven by hand: simulated places and tasks, the model as coordinator, and every order of messages, replies and deaths.

    driven.py [RUNS [SEED]]

No process is started. At each step chance picks one of the things that may happen next. A run fails where the core refuses to go on, or
where one of these does not hold: a task runs once, at a living place, and not after a scope is over that it is under; no task goes on after
a finish or a call while one under it still runs at a living place; each release names the places at which tasks directly under it were
surely lost, and none where none can have been; with a release the opener has the results and faults of exactly the tasks whose end was
granted, each once, and nothing of them comes before it was granted or after the release; the last telling of a watched finish has all its
tasks done or lost; where a limit passes exactly the places end that run tasks under it; all ends, and the core keeps nothing.
"""

import collections
import itertools
import random
import sys

from model import LINE, MOST, Model
from rx10.hub.core import AGAIN, Core, Options


class Task:
    """A simulated task."""

    def __init__(self, key, place, origin, under, depth):
        self.key, self.place, self.origin, self.depth = key, place, origin, depth
        self.under = under              # ids of the scopes that it is under, the innermost first
        self.own = []                   # ids of those that it opened, the innermost last
        self.waits = None               # the scope that it waits for
        self.ran = self.ended = self.joins = self.wanted = False
        self.faults, self.body = [], 0  # those that it threw, and how many the body of its finish did
        self.values, self.thrown = {}, {}       # what came for it before a release: by key, and by number


class Newcomer:
    """A place without a number."""

    def __init__(self, joiner):
        self.joiner, self.asked, self.gone = joiner, False, False


class World:
    """A core, and all that is outside of it."""

    def __init__(self, rng, places):
        self.rng, self.model, self.story = rng, Model(1), []
        self.requests, self.replies = collections.deque(), collections.deque()
        self.mail = {0: collections.deque()}                    # by place: what the core sent and the place has not read
        self.newcomers, self.gone, self.kills = [], set(), []
        self.scope_ids, self.keys, self.names = itertools.count(1), itertools.count(1), itertools.count(1)
        self.finishes, self.over, self.watched, self.tallies = {0}, set(), {}, {}
        self.granted = []                                       # keys of tasks whose end the coordinator granted, in this order
        self.limits, self.alarms, self.late = {}, {}, set()     # by scope, by the coordinator's number of it; scopes
        self.main = Task(0, 0, 0, [0], 0)
        self.tasks, self.awake = {0: self.main}, []             # all, and those that may do something if they do not wait
        self.begin(self.main)
        self.wish, self.counts = rng.randrange(5, 60), collections.Counter()
        self.greeting = f"coordinator 1 places 1 most {MOST} line {rng.choice([LINE, 64])} main t0"
        self.start_job(places)

    def start_job(self, places):
        self.core = Core(self, Options(places, 1))
        self.core.greet(self.greeting)
        while len(self.core.seats) < places:
            if self.newcomers:
                self.arrive(self.newcomers[0])
            self.answer()

    # What the core asks for.

    def ask(self, line):
        self.requests.append(line)

    def send(self, place, message):
        assert place not in self.core.seats or not self.core.seats[place].dead, f"{message} is sent to a dead place"
        assert message[0] != "ended" or message[2] in self.granted, f"{message} is sent, and this end was not granted"
        self.mail[place].append(message)

    def welcome(self, newcomer, place):
        self.mail[place] = collections.deque()
        if newcomer.gone:
            self.gone.add(place)
        return not newcomer.gone

    def turn_away(self, newcomer, why):
        newcomer.gone = True

    def start_place(self, joiner, wait=None):
        self.newcomers.append(Newcomer(joiner))

    def end_place(self, place):
        self.kills.append(place)

    def alarm(self, seconds, scope):
        if scope in self.alarms:
            assert seconds == AGAIN, seconds
            return
        opener = self.core.scopes[scope].opener
        self.alarms[scope] = self.tasks[opener.key].own[len(opener.scopes) - 1]
        assert seconds == self.limits[self.alarms[scope]], seconds

    def no_alarm(self, scope):
        del self.alarms[scope]

    # What may happen.

    def moves(self):
        """The things that may happen next."""
        found = [(self.answer,)] * 3 if self.requests or self.replies else []
        for place, seat in self.core.seats.items():
            if place in self.core._awake:
                found.append((self.core.take_one, place))
            elif seat.inbox:                                    # what waits speaks of a task without a number
                assert self.core.tasks[seat.inbox[0][1]].number is None, f"{seat.inbox[0]} waits, and can be taken"
            if self.mail[place] and place not in self.gone:
                found.append((self.read_mail, place))
        found += [(self.arrive, newcomer) for newcomer in self.newcomers]
        found += [(self.step, task) for task in self.awake if task.waits is None and not task.joins]
        chance = self.rng.random()
        if chance < 0.02 and len(self.gone) < 4:
            found += [(self.kill, place) for place in self.core.seats if place and place not in self.gone]
        elif chance < 0.04:
            found.append((self.core.tell_progress,))
        elif chance < 0.06:
            found += [(self.pass_limit, scope) for scope in self.alarms]
        found += [(self.kill, place) for place in self.kills]
        return found

    def begin(self, task):
        task.ran = True
        if task.place not in self.gone:
            self.awake.append(task)

    def end(self, task):
        task.ended = True
        self.awake.remove(task)

    def answer(self):
        """The coordinator answers a line, or one of its lines comes."""
        if self.requests and (not self.replies or self.rng.random() < 0.5):
            self.replies.extend(self.replies_to(self.requests.popleft()))
        elif self.replies:
            line = self.replies.popleft()
            self.story.append("    " + line)
            self.core.reply(line)

    def replies_to(self, line):
        """What the coordinator answers."""
        replies = self.model.ask(line)
        if line.startswith("end") and replies[0] == "ended":
            self.granted.append(self.core.numbers[int(line.split()[1][1:])].key)
        self.story.append(line)
        self.counts["bad"] += replies[0] == "bad"
        return replies

    def arrive(self, newcomer):
        """A new place is ready, and its line may end at once."""
        self.newcomers.remove(newcomer)
        self.core.arrived(newcomer, newcomer.joiner)
        newcomer.gone = newcomer.joiner is not None and self.rng.random() < 0.2

    def kill(self, place):
        self.kills = [it for it in self.kills if it != place]
        if place not in self.gone:
            self.story.append(f"KILL {place}")
            self.gone.add(place)
            self.awake = [task for task in self.awake if task.place != place]
            self.core.ended(place)
            if self.rng.random() < 0.3:
                self.core.receive(place, [("abort", "what came after the end was taken")])

    def pass_limit(self, number):
        """The limit of a scope passes."""
        scope = self.alarms[number]
        self.story.append(f"LIMIT s{number}")
        self.late.add(scope)
        run = {self.tasks[key].place for key, task in self.core.tasks.items() if task.number is not None and scope in self.tasks[key].under}
        self.kills, before = [], self.kills
        self.core.limit_passed(number)
        assert self.kills == sorted(place for place in run if place and not self.core.seats[place].dead), (self.kills, run)
        self.kills += before
        self.counts["limits"] += 1

    def read_mail(self, place):
        """A place reads a message."""
        self.read(place, *self.mail[place].popleft())

    def read(self, place, kind, *rest):
        if kind == "run":
            task = self.tasks[rest[0]]
            assert not task.ran and task.place == place, f"task {task.key:x} is run again, or elsewhere"
            assert not self.over & set(task.under), f"task {task.key:x} is run though a scope that it is under is over"
            self.begin(task)
        elif kind == "released":
            self.go_on(self.tasks[rest[0]], *rest[1:])
        elif kind == "ended":
            self.note_end(*rest)
        elif kind == "joined":
            self.tasks[rest[0]].joins = False
        elif kind == "progress":
            assert all(begun >= done + lost for begun, done, lost in rest[2].values()), rest
            self.tallies[rest[1]] = rest[2]

    def is_known(self, _task):
        """Whether that it was started came to the core. Here what was sent comes."""
        return True

    def note_end(self, opener, key, how, what):
        """How a task ended. It stands in the order of the releases."""
        opener, ended = self.tasks[opener], self.tasks[key]
        assert ended.under[0] not in self.over and ended.under[0] in [*opener.own, 0], f"the end of {key:x} comes after its release"
        assert key not in opener.values, f"the end of {key:x} comes twice"
        if how == "value":
            assert ended.wanted and not ended.faults, f"the end of {key:x}: {how} {what}"
            opener.values[key] = what
        else:
            assert not opener.thrown.keys() & what.keys(), f"the end of {key:x} comes twice"
            assert [blob for blobs in what.values() for blob in blobs] == ended.faults, f"the end of {key:x}: {how} {what}"
            opener.thrown.update((number, (key, blobs)) for number, blobs in what.items())

    def go_on(self, task, lost, masked, thrown, is_late):
        """A task goes on after a finish or a call: here most of what is promised is held."""
        scope, task.waits = task.waits, None
        assert scope is not None
        if task is not self.main or task.own:
            assert task.own.pop() == scope
        self.over.add(scope)
        under = [it for it in self.tasks.values() if scope in it.under and it is not task]
        for it in under:
            assert it.ended or it.place in self.gone or it.origin in self.gone and not it.ran, f"scope {scope} is over, task {it.key:x} runs"
        direct = [it for it in under if it.under[0] == scope]
        sure = {it.place for it in direct if it.ran and not it.ended and it.place in self.gone and self.is_known(it)}
        may = {place for it in under for place in (it.place, it.origin) if place in self.gone}
        assert sure <= set(lost) <= may, f"scope {scope} names {lost}: surely {sure}, perhaps {may}"
        assert lost == sorted(lost) and (lost or not masked), f"scope {scope} masks {masked} and names {lost}"
        assert is_late == (scope in self.late), f"scope {scope} says {is_late} of its limit"
        keys = {it.key for it in direct}
        granted = [self.tasks[key] for key in self.granted if key in keys]
        assert {it.key for it in direct if it.ended and it.place not in self.gone} <= {it.key for it in granted}, f"scope {scope} is over early"
        body = [number for number in thrown if number is None]
        assert len(body) == task.body and (scope == 0 or thrown[:task.body] == body), f"scope {scope} throws {thrown}"
        told = [blob for number in thrown if number is not None for blob in task.thrown.pop(number)[1]]
        assert told == [fault for it in granted for fault in it.faults], f"scope {scope} throws {told}"
        task.body = 0
        for it in granted:
            assert task.values.pop(it.key, None) == (b"%d" % it.key if it.wanted and not it.faults else None), f"scope {scope}: {it.key:x}"
        assert not keys & task.values.keys(), f"scope {scope} has results that were not granted"
        tally = self.tallies.get(self.watched.get(scope), {})
        assert all(begun == done + lost_ for begun, done, lost_ in tally.values()), tally

    # What a task does.

    def say(self, place, *message):
        self.core.receive(place, [message])

    def tell(self, task, kind, *rest):
        self.say(task.place, kind, task.key, *rest)

    def chain(self, task):
        return [*reversed(task.own), *task.under]

    def governing(self, task):
        chain = self.chain(task)
        return chain[next(at for at, scope in enumerate(chain) if scope in self.finishes):]

    def start(self, task, place, under):
        self.wish -= 1
        child = Task(task.place << 40 | next(self.keys), place, task.place, under, task.depth + 1)
        self.tasks[child.key] = child
        return child

    def step(self, task):
        """A task does one thing."""
        chance, may_start = self.rng.random(), self.wish > 0 and task.depth < 6
        if may_start and chance < 0.45:
            place = self.rng.randrange(len(self.core.seats))
            child = self.start(task, place, self.governing(task))
            child.wanted = child.under[0] != 0 and self.rng.random() < 0.5
            self.tell(task, "spawn", child.key, place, None if place == task.place else b"call", child.wanted)
            if place == task.place:
                self.begin(child)
        elif may_start and chance < 0.60:
            place = self.rng.randrange(len(self.core.seats))        # its own place too: a call with a limit comes here
            scope = task.waits = next(self.scope_ids)
            task.own.append(scope)
            callee = self.start(task, place, self.chain(task))
            callee.wanted = True
            self.tell(task, "call", callee.key, place, b"call", self.limit_of(scope))
        elif may_start and chance < 0.72:
            scope = next(self.scope_ids)
            self.finishes.add(scope)
            task.own.append(scope)
            watch = next(self.names) if self.rng.random() < 0.3 else 0
            if watch:
                self.watched[scope] = watch
            self.tell(task, "open", watch, self.limit_of(scope))
        elif may_start and chance < 0.74:
            task.joins = True
            self.tell(task, "join", None)
        elif may_start and chance < 0.75:
            self.say(task.place, "kill", self.rng.randrange(len(self.core.seats)))
        elif task.own:
            task.waits, task.body = task.own[-1], self.rng.choice([0, 0, 1, 5])
            self.tell(task, "wait", task.body)
        elif task is not self.main:
            self.end(task)
            task.faults = [b"fault %d" % next(self.names) for _ in range(self.rng.choice([0, 0, 0, 1, 2, 9]))]
            self.tell(task, "end", task.faults, b"%d" % task.key if task.wanted else None)
        else:
            self.end(task)
            task.waits, task.body = 0, self.rng.choice([0, 0, 1, 5])
            self.tell(task, "end", [None] * task.body, None)
            self.say(0, "root")

    def limit_of(self, scope):
        if self.rng.random() < 0.1:
            self.limits[scope] = float(self.rng.randrange(1, 9))
        return self.limits.get(scope)

    def run(self):
        """Up to the end of the job."""
        for _ in range(100_000):
            if self.core.over:
                break
            moves = self.moves()
            assert moves, "nothing can happen, and the job is not over"
            act, *what = self.rng.choice(moves)
            act(*what)
        assert self.core.over, "it does not end"
        while self.requests or self.replies:
            self.answer()                                       # `arrive` of those that were struck on their way
        while self.mail[0]:
            self.read_mail(0)
        self.check_end()

    def check_end(self):
        """What holds once a job is over."""
        for task in self.tasks.values():
            assert task.ended or {task.place, task.origin} & self.gone, f"task {task.key:x} was forgotten"
        assert not self.core.kept() and not self.alarms, f"the core keeps {self.core.kept()}, alarms {self.alarms}"
        self.counts.update(tasks=len(self.tasks), deaths=len(self.gone), late=self.core.late)


class Failed(Exception):
    """A run that failed, with the end of its story."""


def run(seed):
    """One run; returns its counts."""
    rng = random.Random(seed)
    world = World(rng, rng.randrange(2, 7))
    try:
        world.run()
    except Exception as fault:
        raise Failed("\n    ".join([f"run {seed}: {type(fault).__name__}: {fault}", *world.story[-30:]])) from fault
    return world.counts


def run_many(runs, seed):
    """So many runs; returns the sums of their counts."""
    sums = collections.Counter()
    for number in range(runs):
        sums.update(run(seed * 10**7 + number))
    return sums


if __name__ == "__main__":
    given = dict(enumerate(map(int, sys.argv[1:])))
    try:
        print(f"{given.get(0, 1000)} runs:", dict(run_many(given.get(0, 1000), given.get(1, 1))))
    except Failed as fault:
        print(fault)
        sys.exit(1)
