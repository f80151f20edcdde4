"""The hub's loop driven by hand: the real Hub, Core, Peer and Coordinator over simulated lines, processes, pipes, driver and time.

    driven_loop.py [RUNS [SEED]]        many runs
    driven_loop.py run NUMBER           one run again, with its story

No process is started. A seeded scheduler stands behind the selector: at each step it picks what happens next, and cuts and delays every read
and write. The tasks and the judgement are those of `driven`. And wherever the loop sleeps its rule is held to what is really there: nothing
can be taken, nothing is unsent, nothing is unread. Where nothing can happen any more and the job is not over, the loop hangs.
"""

import collections
import random
import selectors
import sys

from driven import Failed, Newcomer, World
from rx10.hub.loop import Hub, Settings
from rx10.wire import Frames, frame

READ, WRITE = selectors.EVENT_READ, selectors.EVENT_WRITE
STUCK = 100                     # sleeps one after another in which nothing happens but signs of life: the job has come to rest


class Stream:
    """Bytes on their way in one direction: some have arrived, some are still under way. `most`: how many may be in it."""

    def __init__(self, most=1 << 62):
        self.under_way, self.arrived, self.most = bytearray(), bytearray(), most
        self.ends = self.ended = False      # the end was sent, and has arrived

    def room(self):
        return 0 if self.ends else max(0, self.most - len(self.under_way) - len(self.arrived))

    def moves(self):
        return bool(self.under_way) or self.ends and not self.ended

    def move(self, count):
        """So many bytes arrive, and after the last one the end."""
        self.arrived += self.under_way[:count]
        del self.under_way[:count]
        self.ended = self.ends and not self.under_way

    def take(self, count):
        data = bytes(self.arrived[:count])
        del self.arrived[:count]
        return data


class File:
    """What the selector can have."""

    def __init__(self, world):
        self.world, self.number, self.is_closed = world, world.new_number(), False

    def fileno(self):
        return self.number

    def close(self):
        self.is_closed = True

    def can_read(self):
        raise NotImplementedError

    def can_write(self):
        return False


class Line(File):
    """The hub's end of a line to a place, and the place behind it."""

    def __init__(self, world, most):
        super().__init__(world)
        self.up, self.down, self.frames, self.mail = Stream(), Stream(most), Frames(), collections.deque()
        self.place = None               # once the place has read its number
        self.process = None
        self.asked = None               # the time at which a question for a sign of life came to it that it has not answered

    def setblocking(self, waits):
        self.waits = waits

    def settimeout(self, _):
        self.waits = True

    def can_read(self):
        return bool(self.up.arrived) or self.up.ended

    def can_write(self):
        return self.down.room() > 0

    def recv(self, count):
        assert not self.is_closed
        if not self.can_read():
            raise BlockingIOError
        return self.up.take(self.world.cut(min(count, len(self.up.arrived))))

    def send(self, data):
        assert not self.is_closed
        if self.down.ends:
            raise BrokenPipeError
        while not self.can_write():
            if not self.waits:
                raise BlockingIOError
            self.world.move_down(self)
        count = self.world.cut(min(len(data), self.down.room()))
        self.down.under_way += data[:count]
        return count

    def close(self):
        super().close()
        self.world.hung_up(self)


class Process(File):
    """A place's process."""

    def __init__(self, world, line):
        super().__init__(world)
        self.line, self.has_ended = line, False

    def can_read(self):
        return self.has_ended

    def kill(self):
        self.world.end_process(self.line)


class Pipes(File):
    """The coordinator's."""

    def __init__(self, world):
        super().__init__(world)
        self.requests, self.replies = Stream(), Stream()
        self.replies.under_way += world.greeting.encode() + b"\n"

    def can_read(self):
        return bool(self.replies.arrived)

    def write(self, data):
        assert len(data) <= self.world.batch and data.endswith(b"\n"), f"a batch of {len(data)} bytes"
        assert not self.requests.under_way and not self.requests.arrived, "a batch goes before the one before it is answered"
        self.requests.under_way += data

    def read(self, count):
        assert self.replies.arrived, "the loop would wait for the coordinator alone"
        return self.replies.take(self.world.cut(min(count, len(self.replies.arrived))))

    def close(self, graceful):
        super().close()


class Control(File):
    """The line to the driver's engine."""

    def __init__(self, world):
        super().__init__(world)
        self.up, self.files, self.frames = Stream(), collections.deque(), Frames()

    def can_read(self):
        return bool(self.up.arrived)

    def sendall(self, data):
        for kind, *rest in self.frames.feed(data):
            self.world.from_hub(kind, *rest)


class Selector:
    """Where the loop sleeps, and the scheduler acts."""

    def __init__(self, world):
        self.world, self.keys = world, {}

    def register(self, file, events, data):
        assert file not in self.keys
        self.keys[file] = selectors.SelectorKey(file, file.fileno(), events, data)

    def unregister(self, file):
        del self.keys[file]

    def modify(self, file, events, data):
        assert file in self.keys
        self.keys[file] = selectors.SelectorKey(file, file.fileno(), events, data)

    def get_key(self, file):
        return self.keys[file]

    def ready(self):
        found = []
        for file, key in self.keys.items():
            assert not file.is_closed, "a closed file is watched"
            events = key.events & (READ * file.can_read() | WRITE * file.can_write())
            if events:
                found.append((key, events))
        return found

    def select(self, timeout):
        return self.world.while_it_sleeps(timeout)


class LoopWorld(World):
    """A hub, and all that is outside of it. It is its own system."""

    def __init__(self, rng, batch=None, cut=None, cut_replies=None):
        self.batch = batch or rng.choice([70, 100, 200, 16384])
        self.how = cut or rng.choice(["bytes", "mixed", "mixed", "whole"])
        self.cut_replies = cut_replies  # the position in the replies before which none of the bytes behind it comes
        self.numbers, self.files, self.lines, self.resting = 100, {}, [], 0
        self.time, self.line_of, self.behind, self.replied = 0.0, {}, collections.Counter(), 0
        self.running = False
        super().__init__(rng, rng.randrange(2, 6))

    # The hub's system.

    def new_number(self):
        self.numbers += 1
        return self.numbers

    def clock(self):
        return self.time

    def program(self, _command):
        self.pipes = Pipes(self)
        return self.pipes

    def receive(self, control):
        data = control.up.take(self.cut(len(control.up.arrived)))
        files = [control.files.popleft() for _ in range(len(control.files))]
        return data, files

    def line(self, file):
        return self.files.pop(file)

    process = line

    def cut(self, count):
        """How many of so many bytes go at once: at least one."""
        if self.how == "whole" or count < 2:
            return count
        if self.how == "bytes":
            return min(count, self.rng.choice([1, 1, 2, 9]))
        return self.rng.choice([count, count, self.rng.randrange(1, count + 1)])

    # The job.

    def start_job(self, places):
        rng = self.rng
        self.selector, self.control = Selector(self), Control(self)
        line = Line(self, rng.choice([200, 1 << 20]))
        line.place, self.line_of[0] = 0, line
        self.lines.append(line)
        self.hub = Hub(self.control, line, self.settings(places), self)
        self.hub.coordinator._batch = self.batch
        self.core = self.hub.core
        self.pass_limit_of, self.core.limit_passed = self.core.limit_passed, self.note_limit
        self.born, self.core._born = self.core._born, self.note_born
        self.is_ready, self.known = False, set()

    def settings(self, places):
        backlog, silent = self.rng.choice([1 << 30, 1 << 30, 1000]), self.rng.choice([None, None, 9.0])
        return Settings(["coordinator"], places, 1, backlog, "3", None, silent)

    def from_hub(self, kind, *rest):
        """What the driver's engine is told."""
        if kind == "start":
            self.newcomers.append(Newcomer(rest[0]))
        elif kind == "behind":
            self.behind[rest[0]] += 1
            assert self.behind[rest[0]] == 1, f"place {rest[0]} is told twice to be behind"
        elif kind == "silent" and rest[2]:
            asked = self.line_of[rest[0]].asked if rest[0] in self.line_of else 0.0
            assert asked is not None and self.time - asked >= rest[1], f"place {rest[0]} is told silent, and it was asked at {asked}"
        else:
            assert kind in ("joined", "ended", "silent", "sign"), kind

    def say(self, place, *message):
        self.line_of[place].up.under_way += frame(message)

    def arrive(self, newcomer):
        """The engine hands over a line, with its process or without. The place says that it is ready."""
        self.newcomers.remove(newcomer)
        line = Line(self, self.rng.choice([100, 1 << 20]))
        self.lines.append(line)
        self.files[line.number] = line
        files = [line.number]
        if self.has_process():
            line.process = Process(self, line)
            self.files[line.process.number] = line.process
            files.append(line.process.number)
        self.control.up.under_way += frame(("connected", line.number, newcomer.joiner, len(files), None))
        self.control.files.extend(files)
        line.up.under_way += frame(("ready", "3"))

    def has_process(self):
        """Whether the engine hands over a place's process, too."""
        return self.rng.random() < 0.5

    def end_process(self, line):
        """A place is over, from the outside or by the hub. What it had sent is cut somewhere, and the rest comes before the end."""
        if line.up.ends:
            return
        line.up.ends = line.down.ends = True
        del line.up.under_way[self.rng.randrange(len(line.up.under_way) + 1):]
        self.gone_is(line)

    def hung_up(self, line):
        line.up.ends = line.down.ends = True
        self.gone_is(line)

    def gone_is(self, line):
        if self.running and line.place is not None and line.place not in self.gone:
            self.story.append(f"GONE {line.place}")
            self.gone.add(line.place)
            self.awake = [task for task in self.awake if task.place != line.place]

    def note_born(self, child, words):
        self.known.add(child.key)
        return self.born(child, words)

    def is_known(self, task):
        return task.origin not in self.gone or task.key in self.known

    def note_limit(self, number):
        self.story.append(f"LIMIT s{number}")
        self.counts["limits"] += 1
        scope = self.core.scopes.get(number)
        if scope is not None and scope.opener is not None:
            self.late.add(self.tasks[scope.opener.key].own[scope.opener.scopes.index(scope)])
        self.pass_limit_of(number)

    def step(self, task):
        self.resting = 0
        super().step(task)

    def read(self, place, kind, *rest):
        if kind == "ping":
            self.line_of[place].asked = None
            self.say(place, "pong")
            return
        self.resting = 0
        self.is_ready = self.is_ready or kind == "ready"
        super().read(place, kind, *rest)

    # The scheduler.

    def while_it_sleeps(self, timeout):
        if timeout > 0:
            self.check_rule()
        while True:
            for _ in range(self.rng.choice([0, 1, 1, 2, 5, 20])):
                if not self.move():
                    break
            ready = self.selector.ready()
            if ready:
                return ready if self.how == "whole" else self.rng.sample(ready, self.rng.randrange(1, len(ready) + 1))
            if timeout == 0:
                return []
            if not self.move():
                self.time += timeout
                self.resting += 1
                assert self.resting < STUCK, "the loop sleeps, and nothing will ever wake it"
                return []

    def check_rule(self):
        """The loop sleeps only if nothing can be taken, nothing is unsent, nothing is unread."""
        core, hub = self.core, self.hub
        for place, seat in core.seats.items():
            if seat.inbox:
                first = seat.inbox[0]
                assert first[0] not in core._OF_PLACES and core.tasks[first[1]].number is None, f"the loop sleeps, and {first} can be taken"
                assert core._due, f"the loop sleeps, {first} waits, and the coordinator owes nothing"
        assert not hub.coordinator._unsent or hub.coordinator._due, "the loop sleeps, and a batch may go"
        for peer in [*hub.peers.values(), *hub.coming]:
            if peer.sock is not None:
                events = self.selector.keys[peer.sock].events
                assert events & READ and (events & WRITE or not peer.unsent), f"the loop sleeps, and {peer.unsent} bytes wait for place {peer.place}"
                assert peer.process is None or peer.process in self.selector.keys, "the loop sleeps, and a process is not watched"
        assert self.control in self.selector.keys and self.pipes in self.selector.keys

    def moves(self):
        """What may happen outside."""
        moves = []
        for line in self.lines:
            if line.up.moves():
                moves.append((self.move_up, line))
            if line.down.moves() and not line.down.ends:
                moves.append((self.move_down, line))
            if line.mail and line.place not in self.gone:
                moves.append((self.read_line, line))
            if line.process is not None and line.up.ended and not line.process.has_ended:
                moves.append((self.end_told, line.process))
        if self.control.up.moves():
            moves.append((self.move_control,))
        if self.pipes.requests.under_way or self.pipes.requests.arrived:
            moves += [(self.answer,)] * 3
        if self.pipes.replies.moves():
            moves += [(self.move_replies,)] * 3
        moves += [(self.arrive, newcomer) for newcomer in self.newcomers]
        if self.is_ready:
            moves += [(self.step, task) for task in self.awake if task.waits is None and not task.joins]
        return moves

    def move(self):
        """One thing happens outside. False where nothing can."""
        moves = self.moves()
        if not moves:
            return False
        chance = self.rng.random()
        if chance < 0.01 and len(self.gone) < 4:
            moves = [(self.end_process, line) for line in self.lines if line.place and line.place not in self.gone] or moves
        elif chance < 0.02:
            moves = [(self.pass_time,)]
        elif chance < 0.025:
            moves += [(self.removed, line) for line in self.lines if line.place and line.place not in self.gone]
        act, *what = self.rng.choice(moves)
        act(*what)
        self.counts["events"] += 1
        return True

    def move_up(self, line):
        line.up.move(self.cut(len(line.up.under_way)))

    def move_down(self, line):
        line.down.move(self.cut(len(line.down.under_way)))
        for message in line.frames.feed(line.down.take(1 << 30)):
            line.mail.append(message)
            if message[0] == "ping":
                line.asked = self.time
            elif message[0] == "hello":
                line.place, self.line_of[message[1]] = message[1], line
                if line.up.ends:
                    self.gone.add(line.place)

    def read_line(self, line):
        self.read(line.place, *line.mail.popleft())

    def end_told(self, process):
        process.has_ended = True

    def move_control(self):
        self.control.up.move(self.cut(len(self.control.up.under_way)))

    def removed(self, line):
        self.control.up.under_way += frame(("removed", line.number))

    def pass_time(self):
        self.time += self.rng.choice([0.1, 0.3, 2.0])

    def answer(self):
        """The coordinator reads, and answers a line."""
        requests = self.pipes.requests
        requests.move(self.cut(len(requests.under_way)))
        line, end, _ = bytes(requests.arrived).partition(b"\n")
        if end:
            requests.take(len(line) + 1)
            self.resting = 0
            for reply in self.replies_to(line.decode()):
                self.story.append("    " + reply)
                self.pipes.replies.under_way += reply.encode() + b"\n"

    def move_replies(self):
        replies = self.pipes.replies
        count = self.cut(len(replies.under_way))
        if self.cut_replies is not None and self.replied < self.cut_replies < self.replied + count:
            count = self.cut_replies - self.replied
        self.replied += count
        replies.move(count)

    def run(self):
        """Up to the end of the job."""
        self.running = True
        self.hub.run()
        self.running = False
        main = self.line_of[0]
        main.down.move(1 << 30)
        main.mail.extend(main.frames.feed(main.down.take(1 << 30)))
        while main.mail:
            kind, *rest = main.mail.popleft()
            if kind == "stop":
                assert self.core.over, f"the hub gave up: {rest}"
                break
            self.read(0, kind, *rest)
        else:
            raise AssertionError("the driver was not told of the end")
        self.check_end()
        assert not self.hub.alarms, self.hub.alarms

    def check_end(self):
        self.core._due.clear()          # `arrive` of those that were struck on their way may still be due
        for key, task in list(self.core.tasks.items()):
            if self.tasks[key].place in self.gone or self.tasks[key].origin in self.gone:
                self.core._forget(task)
        super().check_end()


def run(number, **options):
    """One run; returns its world."""
    world = None
    try:
        world = LoopWorld(random.Random(number), **options)
        world.run()
    except Exception as fault:
        story = [] if world is None else world.story[-30:]
        raise Failed("\n    ".join([f"run {number}: {type(fault).__name__}: {fault}", *story])) from fault
    return world


def run_many(runs, seed):
    """So many runs; returns the sums of their counts."""
    sums = collections.Counter()
    for number in range(runs):
        sums.update(run(seed * 10**7 + number).counts)
    return sums


def main(words):
    try:
        if words[:1] == ["run"]:
            print(*run(int(words[1])).story, sep="\n")
        else:
            runs, seed = map(int, [*words, "1000", "1"][:2] if len(words) != 1 else [words[0], "1"])
            print(f"{runs} runs:", dict(run_many(runs, seed)))
    except Failed as fault:
        print(fault)
        return 1
    return 0


if __name__ == "__main__":
    sys.exit(main(sys.argv[1:]))
