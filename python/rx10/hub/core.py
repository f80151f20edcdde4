"""What the hub knows of a job, and what it decides. No file is touched here: the loop, or a test, is outside.

Five rules, on which everything else rests:

1. What a place sends is taken in the order in which it was sent, and the place's end comes after all that it sent.
2. A task's call leaves for its place only after the coordinator answered that it landed there.
3. A task's result goes on to the place of its scope's opener once `end` was granted, and not before; that place shows it with the release,
   which comes after it on the same line. Of a task that a death struck nothing goes on.
4. A task goes on after a finish or a call only when its release was answered.
5. Once `death P` is asked, nothing that P sent is taken any more.

A place names a task by a key of its own, so that starting one needs no answer. The coordinator's numbers are known here alone.
"""

from __future__ import annotations

import collections
from functools import partial
from typing import Any, Callable, Deque, Dict, Iterable, List, NamedTuple, Optional, Protocol, Sequence, Set, Tuple

from ..errors import Closed
from .books import Message, Release, Scope, Seat, Task, read_greeting, read_release

MAIN = 0                        # the key of the main task, and the number of its place
MOST_FAULTS = 10**9             # faults are numbers below this one
AGAIN = 1.0                     # seconds after which a scope whose limit has passed is looked at again
Words = List[str]
Parts = Dict[int, Sequence[Optional[bytes]]]                    # faults by number; None stands for one of a finish's own body


class Outside(Protocol):
    """What the core asks of its surroundings. None of these calls comes back into the core."""

    def ask(self, line: str) -> None:
        """Sends a request to the coordinator. Its replies come to `Core.reply`, in the order of the requests."""

    def send(self, place: int, message: Message) -> None:
        """Sends a message to a place that lives."""

    def welcome(self, newcomer: Any, place: int) -> bool:
        """The newcomer has this number now. False where it has ended meanwhile."""

    def turn_away(self, newcomer: Any, why: str) -> None:
        """The newcomer gets no number."""

    def start_place(self, joiner: Optional[int], wait: Optional[float] = None) -> None:
        """Has the engine start one more place, for the join with this number, or for the job's beginning. `wait`: seconds in which it must come."""

    def end_place(self, place: int) -> None:
        """Ends a place. Its end is told by `Core.ended` later."""

    def alarm(self, seconds: float, scope: int) -> None:
        """Calls `Core.limit_passed` with this scope after so many seconds."""

    def no_alarm(self, scope: int) -> None:
        """It need not be called any more."""


class Options(NamedTuple):
    """What the driver says of the job."""

    places: int                 # those of the beginning, the driver among them
    threads: int                # tasks of a place that run at a time


class Core:
    """The state of a job."""

    def __init__(self, outside: Outside, options: Options) -> None:
        self.outside, self.options = outside, options
        self.root = Scope(0, None, None)
        self.main = main = Task(MAIN, 0, False)
        main.number, main.scope = 0, self.root
        self.tasks: Dict[int, Task] = {MAIN: main}              # by key: those that are neither over nor struck
        self.numbers: Dict[Optional[int], Task] = {0: main}     # the same by the coordinator's number, once it is known
        self.scopes: Dict[int, Scope] = {0: self.root}
        self.watched: Dict[int, Scope] = {}                     # finishes whose openers want to know how far they are
        self.seats: Dict[int, Seat] = {0: Seat({MAIN})}
        self.joins: Dict[Optional[int], int] = {}               # by number: the keys of the tasks that wait for a place
        self._next_join = 0
        self.over = False
        self.late = 0                                           # answers that came for tasks which a death had struck
        self.silent: Set[int] = set()                           # places that give no sign of life
        self._awake: Set[int] = set()                           # those whose first message can be taken
        self._due: Deque[Tuple[str, Callable[[Words], None]]] = collections.deque()
        self._next_fault = 1
        self._most, self._faults_in_line = 0, 0

    # The coordinator.

    def greet(self, line: str) -> None:
        """Takes the coordinator's first line, and begins the job."""
        greeting = read_greeting(line)
        if greeting is None:
            raise Closed(f"this is no coordinator of version 1 that opens with one place: it says {line!r}")
        self._most = greeting.most
        self._faults_in_line = max(1, (greeting.line - 32) // 11)
        if self.options.places > self._most:
            raise Closed(f"{self._full()}, and this one wants {self.options.places}")
        for _ in range(self.options.places - 1):
            self.outside.start_place(None)
        if self.options.places == 1:
            self._ready()

    def _ask(self, line: str, then: Callable[[Words], None]) -> None:
        self._due.append((line, then))
        self.outside.ask(line)

    def reply(self, line: str) -> str:
        """Takes a line of the coordinator, and returns the request that it answers; `freed` lines answer none."""
        words = line.split(" ")
        if words[0] == "freed":
            if words[1] == "root":
                self._root_answered(["released", *words[2:]])
            else:
                self._release(self.numbers[int(words[1][1:])], words[2:])
            return ""
        asked, then = self._due.popleft()
        then(words)
        return asked

    def _expect(self, words: Words, wanted: str) -> None:
        if words[0] != wanted:
            raise Closed(f"the coordinator answered {' '.join(words)!r} where {wanted!r} was due")

    def _granted(self, task: Task, words: Words, wanted: str) -> bool:
        """Whether the answer is the wanted one. `bad` is right only for a task that a death has struck."""
        if words[0] == wanted:
            return True
        if words[0] == "bad" and self.seats[task.place].dead:
            self.late += 1
            return False
        raise Closed(f"the coordinator answered {' '.join(words)!r} where {wanted!r} was due: task {task.number} at place {task.place}")

    # Places that come and go.

    def living(self) -> Tuple[int, ...]:
        """The places that were not told dead."""
        return tuple(place for place, seat in self.seats.items() if not seat.dead)

    def arrived(self, newcomer: Any, joiner: Optional[int]) -> None:
        """A new place is ready. It gets its number from the coordinator."""
        self._ask("join", partial(self._joined, newcomer, joiner))

    def _joined(self, newcomer: Any, joiner: Optional[int], words: Words) -> None:
        if words[0] == "bad":
            self.outside.turn_away(newcomer, self._full())
            self.no_place(joiner, self._full())
            return
        self._expect(words, "joined")
        place = int(words[1])
        self.seats[place] = Seat()
        if not self.outside.welcome(newcomer, place):
            self.ended(place)
        self._send(place, ("hello", place, self.living(), len(self.seats), self.options.threads))
        self._tell_places()
        self._answer_join(joiner, place, None)
        if len(self.seats) == self.options.places:
            self._ready()

    def _ready(self) -> None:
        self._send(0, ("ready", self.living(), len(self.seats)))

    def _full(self) -> str:
        return f"a job has at most {self._most} places in all its life"

    def no_place(self, joiner: Optional[int], why: str) -> None:
        """A place that was wanted cannot be had."""
        if joiner is None:
            raise Closed(why)
        self._answer_join(joiner, None, why)

    def _answer_join(self, joiner: Optional[int], place: Optional[int], why: Optional[str]) -> None:
        """Tells the task that waits how its join went. A join that was answered is answered no more."""
        key = self.joins.pop(joiner, None)
        if key is not None:
            self._deliver(key, ("joined", key, place, why))

    def _tell_places(self) -> None:
        living = self.living()
        for place in living:
            self._send(place, ("places", living, len(self.seats)))

    def receive(self, place: int, messages: Iterable[Message]) -> None:
        """Keeps what a place has sent until it is taken."""
        seat = self.seats[place]
        if not seat.dead:
            seat.inbox.extend(messages)
            self._awake.add(place)

    def ended(self, place: int) -> None:
        """The place has ended: its death is told once all that it sent is taken."""
        self.receive(place, [("gone",)])

    def _take_gone(self, place: int) -> None:
        seat = self.seats[place]
        seat.dead = True
        seat.inbox.clear()
        self.silent.discard(place)
        self._ask(f"death {place}", partial(self._died, place))

    def _died(self, place: int, words: Words) -> None:
        self._expect(words, "died")
        seat = self.seats[place]
        for key in seat.tasks:
            self._strike(self.tasks.pop(key))
        seat.tasks.clear()
        self._tell_places()

    def _strike(self, task: Task) -> None:
        """The scopes that a lost task had opened are released to nobody."""
        self.numbers.pop(task.number, None)
        task.scope.left(task.place)
        task.scope.count(task.place, lost=1)
        for scope in task.scopes:
            scope.opener = None
            self.watched.pop(scope.number, None)

    # What places send.

    @property
    def can_take(self) -> bool:
        """Whether there is something to take. A message waits only where it speaks of a task whose number is not known yet."""
        return bool(self._awake)

    def take(self) -> None:
        """Takes what places have sent up to now, as far as it can be taken."""
        for place in list(self._awake):
            for _ in range(len(self.seats[place].inbox)):
                if not self.take_one(place):
                    break

    def take_one(self, place: int) -> bool:
        """Takes the first message that a place has sent. False where none can be taken now."""
        if place not in self._awake:
            return False
        inbox = self.seats[place].inbox
        taken = self._take_first(place, inbox)
        if not taken or not inbox:
            self._awake.discard(place)
        return taken

    def _take_first(self, place: int, inbox: Deque[Message]) -> bool:
        if not inbox:
            return False
        kind, *rest = inbox[0]
        if kind in self._OF_PLACES:
            inbox.popleft()
            self._OF_PLACES[kind](self, place, *rest)
            return True
        task = self.tasks.get(rest[0])
        if task is None or task.place != place:
            raise Closed(f"place {place} speaks for a task that is not there: {kind} {rest[0]}")
        if task.number is None:
            return False
        inbox.popleft()
        self._OF_TASKS[kind](self, task, *rest[1:])
        return True

    def _take_open(self, task: Task, watch: int, limit: Optional[float]) -> None:
        self._ask(f"open t{task.number}", partial(self._opened, task, watch, limit))

    def _opened(self, task: Task, watch: int, limit: Optional[float], words: Words) -> None:
        if self._granted(task, words, "opened"):
            scope = self._open(task, words[1], limit)
            if watch:
                scope.watch, scope.tally = watch, {}
                self.watched[scope.number] = scope

    def _open(self, task: Task, name: str, limit: Optional[float]) -> Scope:
        parent = task.scopes[-1] if task.scopes else task.scope
        scope = Scope(int(name[1:]), task, parent, limit is not None)
        self.scopes[scope.number] = scope
        parent.below.add(scope)
        task.scopes.append(scope)
        if limit is not None:
            self.outside.alarm(limit, scope.number)
        return scope

    def limit_passed(self, number: int) -> None:
        """The time of a scope is up: the places that still run tasks under it are ended, place 0 excepted. Tasks may reach other places
        meanwhile, as what a place had sent before its end counts. So this is done again until the scope is released."""
        scope = self.scopes.get(number)
        if scope is None:
            return
        scope.is_late = True
        for place in sorted(self._run_under(scope)):
            if place != 0 and not self.seats[place].dead:
                self.outside.end_place(place)
        self.outside.alarm(AGAIN, number)

    def _run_under(self, scope: Scope) -> Set[int]:
        """The places at which tasks run, or to which they travel, that are under a scope with a limit."""
        found: Set[int] = set()
        todo = [scope]
        while todo:
            scope = todo.pop()
            found.update(scope.running or ())
            todo.extend(scope.below)
        return found

    def _take_spawn(self, task: Task, key: int, place: int, call: Optional[bytes], wanted: bool) -> None:
        child = self._new_task(key, place, wanted)
        self._ask(f"send t{task.number} {place}", partial(self._sent, task, child, call))

    def _new_task(self, key: int, place: int, wanted: bool) -> Task:
        if key in self.tasks:
            raise Closed(f"there is a task {key} already")
        child = self.tasks[key] = Task(key, place, wanted)
        return child

    def _sent(self, task: Task, child: Task, call: Optional[bytes], words: Words) -> None:
        if not self._granted(task, words, "sent"):
            del self.tasks[child.key]
        elif self._born(child, words) and call is not None:     # at home the task has begun by itself
            self._send(child.place, ("run", child.key, call, child.wanted))

    def _born(self, child: Task, words: Words) -> bool:
        """Notes a task that was started. False where it was lost at once."""
        child.number, child.scope = int(words[1][1:]), self.scopes[int(words[3][1:])]
        if words[-1] == "lost":
            del self.tasks[child.key]
            child.scope.count(child.place, lost=1, begun=1)
            return False
        self.numbers[child.number] = child
        if self.seats[child.place].inbox:
            self._awake.add(child.place)                        # it may have waited for this number
        self.seats[child.place].tasks.add(child.key)
        child.scope.came(child.place)
        child.scope.count(child.place, begun=1)
        return True

    def _take_call(self, task: Task, key: int, place: int, call: bytes, limit: Optional[float]) -> None:
        callee = self._new_task(key, place, True)
        self._ask(f"at t{task.number} {place}", partial(self._called, task, callee, call, limit))

    def _called(self, task: Task, callee: Task, call: bytes, limit: Optional[float], words: Words) -> None:
        if not self._granted(task, words, "called"):
            del self.tasks[callee.key]
            return
        self._open(task, words[3], limit)
        is_born = self._born(callee, words)
        if is_born and callee.place == task.place:              # it has no way to go
            self._send(callee.place, ("run", callee.key, call, True))
        elif is_born:
            self._ask(f"arrive t{callee.number}", partial(self._landed, callee, call))
        self._ask(f"release t{task.number}", partial(self._answered, task))

    def _landed(self, callee: Task, call: bytes, words: Words) -> None:
        if words[0] == "landed":
            self._send(callee.place, ("run", callee.key, call, True))
        else:
            self._expect(words, "bad")                          # its place, or that of its caller, died meanwhile
            self.late += 1
            self._forget(callee)

    def _forget(self, task: Task) -> None:
        if self.tasks.pop(task.key, None) is None:
            return                                              # a death has struck it
        self.numbers.pop(task.number, None)
        self.seats[task.place].tasks.discard(task.key)
        task.scope.left(task.place)

    def _take_wait(self, task: Task, faults: int) -> None:
        parts = self._new_faults([None] * faults)
        self._ask(" ".join([f"wait t{task.number}", *map(str, parts)]), partial(self._waits, task, parts))
        self._ask(f"release t{task.number}", partial(self._answered, task))

    def _waits(self, task: Task, parts: Parts, words: Words) -> None:
        if self._granted(task, words, "waits"):
            task.scopes[-1].body = {number: len(blobs) for number, blobs in parts.items()}

    def _new_faults(self, blobs: Sequence[Optional[bytes]]) -> Parts:
        """Numbers for faults. Where they would not fit into a line, the last number stands for all that are left."""
        parts: List[Sequence[Optional[bytes]]] = [(blob,) for blob in blobs]
        if len(parts) > self._faults_in_line:
            at = self._faults_in_line - 1
            parts[at:] = [tuple(blobs[at:])]
        numbers = {}
        for part in parts:
            numbers[self._next_fault] = part
            self._next_fault = self._next_fault % (MOST_FAULTS - 1) + 1
        return numbers

    def _answered(self, task: Task, words: Words) -> None:
        if words[0] == "released":
            self._release(task, words[1:])
        elif words[0] != "parked":
            self._granted(task, words, "released")

    def _release(self, task: Task, words: Words) -> None:
        scope = task.scopes.pop()
        if scope.parent is not None:
            scope.parent.below.discard(scope)
        self._drop(scope)
        self._tell_progress(scope)
        self.watched.pop(scope.number, None)
        self._send(task.place, ("released", task.key, *self._outcome(scope, read_release(words))))

    def _drop(self, scope: Scope) -> None:
        """A scope goes with all below it, whose openers are lost."""
        todo = [scope]
        while todo:
            scope = todo.pop()
            del self.scopes[scope.number]
            if scope.has_limit:
                self.outside.no_alarm(scope.number)
            todo.extend(scope.below)

    @staticmethod
    def _outcome(scope: Scope, release: Release) -> Tuple[List[int], int, List[Optional[int]], bool]:
        """What the opener learns: lost places, masked faults, thrown faults by number (None for each of its own body), and whether a limit
        has passed. How each task ended it has learnt before."""
        thrown: List[Optional[int]] = []
        for number in release.thrown:
            thrown.extend([None] * scope.body[number] if number in scope.body else [number])
        return release.lost, release.masked, thrown, scope.is_late

    def _take_end(self, task: Task, thrown: List[bytes], value: Optional[bytes]) -> None:
        parts = self._new_faults(thrown)
        self._ask(" ".join([f"end t{task.number}", *map(str, parts)]), partial(self._task_ended, task, parts, value))

    def _task_ended(self, task: Task, parts: Parts, value: Optional[bytes], words: Words) -> None:
        scope = task.scope
        if not self._granted(task, words, "ended"):
            return
        self._forget(task)
        scope.count(task.place, done=1)
        if scope is self.root:
            if task is self.main:
                scope.body = {number: len(blobs) for number, blobs in parts.items()}
            elif parts:
                self._send(0, ("ended", MAIN, task.key, "threw", parts))
        elif scope.opener is not None and (parts or task.wanted):
            how, what = ("threw", parts) if parts else ("value", value)
            self._send(scope.opener.place, ("ended", scope.opener.key, task.key, how, what))

    def _take_root(self, place: int) -> None:
        if place != 0:
            raise Closed(f"place {place} speaks for the driver")
        self._ask("root", self._root_answered)

    def _root_answered(self, words: Words) -> None:
        if words[0] == "parked":
            return
        self._expect(words, "released")
        self._drop(self.root)
        self._send(0, ("released", MAIN, *self._outcome(self.root, read_release(words[1:]))))
        self.over = True

    def _take_join(self, task: Task, wait: Optional[float]) -> None:
        self._next_join += 1
        self.joins[self._next_join] = task.key
        if len(self.seats) >= self._most:
            self.no_place(self._next_join, self._full())
        else:
            self.outside.start_place(self._next_join, wait)

    def _take_kill(self, _place: int, victim: int) -> None:
        seat = self.seats.get(victim)
        if victim != 0 and seat is not None and not seat.dead:
            self.outside.end_place(victim)

    def _take_abort(self, _place: int, why: str) -> None:
        raise Closed(why)

    def _take_pong(self, _place: int) -> None:
        """A sign of life, which the outside has noted."""

    _OF_PLACES: Dict[str, Callable[..., None]] = {
        "gone": _take_gone, "kill": _take_kill, "abort": _take_abort, "root": _take_root, "pong": _take_pong}
    _OF_TASKS: Dict[str, Callable[..., None]] = {
        "open": _take_open, "spawn": _take_spawn, "call": _take_call, "wait": _take_wait, "end": _take_end, "join": _take_join}

    # What places are told.

    def _send(self, place: int, message: Message) -> None:
        if not self.seats[place].dead:
            self.outside.send(place, message)

    def _deliver(self, key: int, message: Message) -> None:
        """To the place of a task, where that is still there."""
        task = self.tasks.get(key)
        if task is not None:
            self._send(task.place, message)

    def tell_progress(self) -> None:
        """Tells the openers of watched finishes how far these are, where that has changed."""
        for scope in self.watched.values():
            self._tell_progress(scope)

    def _tell_progress(self, scope: Scope) -> None:
        if scope.tally and scope.changed and scope.opener is not None:
            scope.changed = False
            tally = {place: tuple(counts) for place, counts in scope.tally.items()}
            silent = tuple(sorted(self.silent.intersection(tally)))
            self._send(scope.opener.place, ("progress", scope.opener.key, scope.watch, tally, silent))

    def note_sign(self, place: int, is_silent: bool) -> None:
        """The place gives no sign of life, or gives some again."""
        (self.silent.add if is_silent else self.silent.discard)(place)
        for scope in self.watched.values():
            scope.changed = scope.changed or place in (scope.tally or ())

    def kept(self) -> Dict[str, int]:
        """How much is kept, by name, where it is not nothing. At a job's end it is nothing."""
        kept = {"tasks": len(self.tasks), "numbers": len(self.numbers), "scopes": len(self.scopes),
                "watched": len(self.watched), "seats": sum(len(seat.tasks) for seat in self.seats.values())}
        return {name: count for name, count in kept.items() if count}
