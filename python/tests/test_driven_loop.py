"""The hub's loop over cuts, delays and orders of all that is outside of it, without a process."""

import os
import random
import unittest

import driven_loop
from driven import Task
from driven_loop import LoopWorld
from rx10.hub import loop
from rx10.hub.coordinator import BATCH, Coordinator
from rx10.hub.loop import Settings
from rx10.hub.timers import FEW, Timers

RUNS = int(os.environ.get("RX10_DRIVEN_RUNS", "3000")) // 5


class Orders(unittest.TestCase):
    def test_many_orders(self):
        counts = driven_loop.run_many(RUNS, 1)
        self.assertGreater(counts["deaths"], RUNS)
        self.assertGreater(counts["events"], 100 * RUNS)
        self.assertGreater(counts["limits"], 0)

    def test_all_cuts_of_replies(self):
        """One byte of the replies after the other is the last one for a while."""
        number = 3
        for at in range(1, driven_loop.run(number, cut="whole").replied):
            driven_loop.run(number, cut="whole", cut_replies=at)

    def test_all_cuts_of_batches(self):
        for batch in range(70, 400):
            driven_loop.run(5, batch=batch)

    def test_a_run_is_the_same_again(self):
        self.assertEqual(*(driven_loop.run(7).story for _ in range(2)))


class Tray:
    """What a coordinator was sent."""

    def __init__(self):
        self.batches, self.said = [], b""

    def fileno(self):
        return 0

    def write(self, data):
        self.batches.append(data)

    def read(self, _):
        said, self.said = self.said, b""
        return said


class Batches(unittest.TestCase):
    def sent(self, lines):
        """The batches in which these lines go."""
        tray = Tray()
        coordinator = Coordinator(tray, lambda: 0.0)
        coordinator.answered()                              # the greeting
        for line in lines:
            coordinator.ask(line)
        while coordinator.may_send:
            coordinator.send()
            count = len(tray.batches)
            coordinator.send()
            self.assertEqual(len(tray.batches), count)      # not before all that is due has come
            for left in range(tray.batches[-1].count(b"\n"), 0, -1):
                self.assertFalse(coordinator.may_send, left)
                coordinator.answered()
        return tray.batches

    def test_batches_around_their_limit(self):
        for first in range(80):
            lines = ["x" * first] + ["open t%d" % number for number in range(10_000, 11_600)] + ["y" * first]
            batches = self.sent(lines)
            whole = "".join(line + "\n" for line in lines).encode()
            self.assertEqual(b"".join(batches), whole)
            self.assertEqual(len(batches), 2)
            self.assertLessEqual(len(batches[0]), BATCH)
            self.assertGreater(len(batches[0]) + batches[1].index(b"\n") + 1, BATCH)

    def test_a_batch_of_just_the_limit(self):
        for size, count in ((BATCH - 1, 1), (BATCH, 1), (BATCH + 1, 2)):
            line = "x" * (BATCH // 2 - 1)
            self.assertEqual(len(self.sent([line, "y" * (size - BATCH // 2 - 1)])), count, size)

    def test_all_cuts_of_a_reply(self):
        said = b"opened s1\nsent t1 in s1\nended\n"
        for at in range(len(said) + 1):
            tray = Tray()
            coordinator, lines = Coordinator(tray, lambda: 0.0), []
            for part in filter(None, (said[:at], said[at:])):
                tray.said = part
                lines += coordinator.read()
            self.assertEqual(lines, ["opened s1", "sent t1 in s1", "ended"])


class Calm(LoopWorld):
    """A job of three places that acts by a script: moments, and what happens then once nothing else does."""

    def __init__(self, script, silent=None, backlog=1 << 30, processes=True):
        self.script = sorted(script, key=lambda it: it[0])
        self.silent, self.backlog, self.processes, self.told = silent, backlog, processes, []
        self.stopped, self.hangs, self.jumps = set(), False, {}
        self.clocks, self.is_frozen, self.longest = 0, False, 0
        super().__init__(random.Random(1), cut="whole", batch=BATCH)

    def start_job(self, places):
        super().start_job(3)
        for line in self.lines:
            line.down.most = 1 << 20

    def settings(self, places):
        return Settings(["coordinator"], places, 1, self.backlog, "3", None, self.silent)

    def clock(self):
        self.clocks += 1
        if self.clocks in self.jumps:
            self.time += self.jumps.pop(self.clocks)
            self.is_frozen = True
        return self.time

    def arrive(self, newcomer):
        super().arrive(newcomer)
        self.lines[-1].down.most = 1 << 20

    def has_process(self):
        return self.processes

    def moves(self):
        moves = super().moves()
        quiet = {self.line_of[place] for place in self.stopped if place in self.line_of}
        return [(act, *what) for act, *what in moves
                if act != self.step and not (act in (self.move_down, self.read_line) and what[0] in quiet) and not (act == self.answer and self.hangs)]

    def move(self):
        moves = self.moves()
        if moves:
            act, *what = moves[0]
            act(*what)
        elif self.is_ready and self.script and self.script[0][0] <= self.time:
            self.script.pop(0)[1](self)
            self.resting = 0
        else:
            return False
        return True

    def while_it_sleeps(self, timeout):
        self.longest = max(self.longest, timeout)
        if timeout > 0:
            self.check_rule()
        elif self.is_frozen:                                # the hub is the first that goes on
            self.is_frozen = False
            return self.selector.ready()
        self.is_frozen = False
        while self.move():
            pass
        ready = self.selector.ready()
        if ready or timeout == 0:
            return ready
        self.resting += 1
        assert self.resting < 10_000, "the loop sleeps, and nothing will ever wake it"
        until = self.script[0][0] - self.time if self.script else timeout
        self.time += max(0.0, min(timeout, until))
        return []

    def from_hub(self, kind, *rest):
        self.told.append((self.time, kind, *rest))
        if kind == "start":
            super().from_hub(kind, *rest)

    def heard(self, *kinds):
        return [it for it in self.told if it[1] in kinds]


def start(world, key, place, *under, call=b"call"):
    """The main task starts a task."""
    task = world.tasks[key] = Task(key, place, 0, [*under, 0], 1)
    task.wanted = bool(under)
    world.say(0, "spawn", 0, key, place, call if place else None, task.wanted)
    if not place:
        world.begin(task)


def open_finish(world, watch=0, limit=None):
    """The main task enters a finish."""
    world.say(0, "open", 0, watch, limit)
    world.main.own.append(1)
    world.finishes.add(1)


def wait(world):
    """It waits in its finish."""
    world.say(0, "wait", 0, 0)
    world.main.waits = 1


def end(key):
    """A task ends."""
    def act(world):
        task = world.tasks[key]
        world.end(task)
        world.tell(task, "end", [], b"%d" % key if task.wanted else None)
    return act


def finish(world):
    """The main task ends, and so does the job."""
    world.tell(world.main, "end", [], None)
    world.end(world.main)
    world.main.waits = 0
    world.say(0, "root")


def stop(place):
    return lambda world: world.stopped.add(place)


def go_on(place):
    return lambda world: world.stopped.discard(place)


class Signs(unittest.TestCase):
    """A place, or the coordinator, that gives no sign of life."""

    def play(self, *script, **options):
        world = Calm([*script], **options)
        world.run()
        return world

    def test_all_are_well(self):
        world = self.play((400, finish), silent=2.0)
        self.assertEqual(world.heard("silent", "sign"), [])

    def test_a_silent_place_is_told_of_once(self):
        world = self.play((10, stop(1)), (100, go_on(1)), (150, stop(1)), (200, go_on(1)), (250, finish))
        told = world.heard("silent", "sign")
        self.assertEqual([it[1:] for it in told], [("silent", 1, loop.SILENT, False), ("sign", 1)] * 2)
        for (moment, *_), (least, most) in zip(told, ((25, 31), (100, 100.1), (165, 171), (200, 200.1))):
            self.assertTrue(least <= moment <= most, told)

    def test_a_silent_place_is_ended_once_where_that_is_wanted(self):
        for processes in (True, False):
            world = self.play((10, stop(1)), (60, finish), silent=4.0, processes=processes)
            (silent,), (ended,) = world.heard("silent"), world.heard("ended")
            self.assertEqual(silent[1:], ("silent", 1, 4.0, True))
            self.assertTrue(14 <= silent[0] <= 16.5 and ended[0] >= silent[0] and world.gone == {1}, world.told)

    def test_an_end_that_comes_after_the_warning(self):
        world = self.play((10, stop(2)), (60, finish), silent=20.0)
        self.assertEqual([it[1:] for it in world.heard("silent")], [("silent", 2, loop.SILENT, False), ("silent", 2, 20.0, True)])

    def test_a_hub_or_machine_that_was_stopped_takes_nobody_for_silent(self):
        """At each moment, also between a question and its answer. The hub goes on before the places do."""
        calls = self.play((20, finish), silent=3.0).clocks
        for at in range(1, calls):
            world = Calm([(20, finish)], silent=3.0)
            world.jumps = {at: 60.0}
            world.run()
            self.assertEqual(world.heard("silent", "sign"), [], at)

    def test_a_place_that_reads_much_is_not_silent(self):
        """It reads for a minute before it comes to the question."""
        def send(world):
            line = world.line_of[1]
            line.down.most = 1000
            world.hub.send(1, ("run", 0, bytes(70_000), False))
            world.stopped.add(1)
            world.reads = line

        def read(world):
            line = world.reads
            line.down.move(1000)
            for message in line.frames.feed(line.down.take(1000)):
                line.mail.append(message)
        world = Calm([(10, send), *((11 + second, read) for second in range(60)), (72, go_on(1)), (100, finish)], silent=20.0)
        read_one = world.read
        world.read = lambda place, kind, *rest: None if kind == "run" else read_one(place, kind, *rest)
        world.run()
        self.assertEqual(world.heard("silent", "sign"), [])

    def test_who_is_asked_and_how_often(self):
        world = Calm([(100.5, finish)])
        asked = []
        read = world.read
        world.read = lambda place, kind, *rest: (asked.append(place) if kind == "ping" else None, read(place, kind, *rest))
        world.run()
        self.assertEqual({place: asked.count(place) for place in set(asked)}, {1: 21, 2: 21})

    def test_the_coordinator(self):
        def hang(world):
            world.hangs = True
            open_finish(world)
            wait(world)

        def answer(world):
            world.hangs = False
        world = self.play((10, hang), (60, answer), (100, finish))
        told = world.heard("silent", "sign")
        self.assertEqual([it[1:] for it in told], [("silent", None, loop.SILENT, False), ("sign", None)])
        self.assertTrue(25 <= told[0][0] <= 31 and 60 <= told[1][0] <= 66, told)

    def test_a_coordinator_that_does_not_greet(self):
        world = Calm([])
        world.pipes.replies.under_way.clear()
        with self.assertRaisesRegex(AssertionError, "nothing will ever wake it"):
            world.run()
        self.assertEqual([it[1:] for it in world.heard("silent")], [("silent", None, loop.SILENT, False)])

    def test_progress_shows_who_is_silent(self):
        lines = []

        def watch(world):
            open_finish(world, watch=7)
            start(world, 1 << 40, 1, 1)
            wait(world)
        world = Calm([(5, watch), (10, stop(1)), (11, stop(2)), (50, go_on(1)), (70, end(1 << 40)), (80, finish)])
        read = world.read
        world.read = lambda place, kind, *rest: (lines.append((world.time, *rest)) if kind == "progress" else None, read(place, kind, *rest))
        world.run()
        shown = [(tally, silent) for _, _, _, tally, silent in lines]
        self.assertEqual(shown, [({1: (1, 0, 0)}, ()), ({1: (1, 0, 0)}, (1,)), ({1: (1, 0, 0)}, ()), ({1: (1, 1, 0)}, ())])


class Behind(unittest.TestCase):
    def test_a_place_that_falls_behind_is_told_of_and_ended_once(self):
        """Its end is seen late, and more is sent to it meanwhile."""
        kills = []

        def fill(world):
            for _ in range(30):
                start(world, next(world.keys) | 1 << 40, 1, call=bytes(1000))

        def shut(world):
            line = world.line_of[1]
            line.down.most = 0
            line.process.kill = lambda: kills.append(world.time)        # its end is not seen before the script says so

        def killed(world):
            world.end_process(world.line_of[1])
        world = Calm([(1, shut), (2, fill), (3, fill), (4, fill), (10, killed), (20, finish)], backlog=5000)
        world.run()
        behind = world.heard("behind")
        self.assertEqual([it[1:3] for it in behind], [("behind", 1)])
        self.assertGreater(behind[0][3], 5000)
        self.assertEqual(len(set(kills[:1])), 1)
        self.assertTrue(all(2 <= moment <= 3 for moment in kills[:1]), kills)

    def test_at_the_limit_and_one_beside_it(self):
        """So many bytes may wait, and not one more; one message of any size may."""
        def shut(world):
            world.line_of[1].down.most = 0

        def send(*sizes):
            def act(world):
                for size in sizes:
                    world.hub.send(1, ("run", 0, bytes(size), False))
            return act
        from rx10.wire import frame
        over = len(frame(("run", 0, bytes(300), False)))
        for sizes, backlog, told in (((300, 300), 2 * over, 0), ((300, 300), 2 * over - 1, 1), ((300,), 10, 0)):
            world = Calm([(1, shut), (2, send(*sizes)), (2.2, lambda world: world.end_process(world.line_of[1])), (4, finish)], backlog=backlog)
            world.run()
            self.assertEqual(len(world.heard("behind")), told, (sizes, backlog))


class Limits(unittest.TestCase):
    """A finish or a call whose limit passes."""

    def play(self, limit, place, kind="open", end_at=None):
        """A task at a place under a finish, or a call, with this limit; what the release says."""
        said = []

        key = place << 40 | 1

        def begin(world):
            if kind == "open":
                open_finish(world, limit=limit)
                start(world, key, place, 1)
                wait(world)
            else:
                world.tasks[key] = Task(key, place, 0, [1, 0], 1)
                world.tasks[key].wanted = True
                world.main.own.append(1)
                world.main.waits = 1
                world.say(0, "call", 0, key, place, b"call", limit)
        world = Calm([(10, begin), *([(end_at, end(key))] if end_at else []), (60, finish)])
        go_on = world.go_on
        world.go_on = lambda task, *rest: (said.append((world.time, *rest)) if task.own else None, go_on(task, *rest))
        world.run()
        return said, world

    def test_a_place_is_ended(self):
        for kind in ("open", "call"):
            ((moment, lost, masked, thrown, late),), world = self.play(7.0, 1, kind)
            self.assertEqual((lost, masked, thrown, late), ([1], 0, [], True))
            self.assertTrue(17 <= moment <= 18 and world.gone == {1}, moment)

    def test_an_end_before_the_limit(self):
        for kind in ("open", "call"):
            ((moment, *rest),), world = self.play(7.0, 1, kind, end_at=16)
            self.assertEqual((rest, world.gone), ([[], 0, [], False], set()))
            self.assertLess(moment, 17)

    def test_place_0_is_not_ended(self):
        ((moment, *rest),), world = self.play(7.0, 0, end_at=40)
        self.assertEqual((rest, world.gone), ([[], 0, [], True], set()))
        self.assertGreaterEqual(moment, 40)

    def test_what_starts_after_the_limit(self):
        """A place that gets a task under the finish then is ended, too, and one that has nothing to do with it is not."""
        first, second = 1 << 40 | 1, 2 << 40 | 2

        def begin(world):
            open_finish(world, limit=7.0)
            start(world, first, 1, 1)

        def later(world):
            start(world, second, 2, 1)
            wait(world)
        for is_under in (True, False):
            world = Calm([(10, begin), (20, later if is_under else wait), (60, finish)])
            world.run()
            moments = [moment for moment, *_ in world.heard("ended")]
            self.assertTrue(17 <= moments[0] <= 18, moments)
            if is_under:
                self.assertTrue(len(moments) == 2 and 20 <= moments[1] <= 21.5, moments)
            self.assertEqual(world.gone, {1, 2} if is_under else {1})

    def test_a_limit_of_ages(self):
        """The system refuses to sleep so long at once."""
        ((_, *rest),), world = self.play(1e300, 1, end_at=50)
        self.assertEqual((rest, world.gone), ([[], 0, [], False], set()))
        self.assertLessEqual(world.longest, 10)

    def test_no_limit(self):
        ((moment, *rest),), world = self.play(None, 1, end_at=50)
        self.assertEqual((rest, world.gone), ([[], 0, [], False], set()))


class Clockwork(unittest.TestCase):
    def test_order_and_moments(self):
        timers, done = Timers(), []
        for moment in (3.0, 1.0, 2.0, 1.0):
            timers.at(moment, lambda moment=moment, number=len(done): done.append(moment))
        self.assertEqual(timers.sleep(0.5), 0.5)
        timers.run(0.999)
        self.assertEqual(done, [])
        timers.run(2.0)
        self.assertEqual(done, [1.0, 1.0, 2.0])
        self.assertEqual((timers.sleep(2.0), timers.sleep(9.0)), (1.0, 0.0))

    def test_what_is_not_wanted_any_more_goes(self):
        """Neither is it done, nor does it stay for ever."""
        timers, done = Timers(), []
        kept = timers.at(5.0, lambda: done.append("kept"))
        for _ in range(10_000):
            timer = timers.at(1e9, lambda: done.append("unwanted"))
            timers.cancel(timer)
            timers.cancel(timer)
            self.assertLess(len(timers), 2 * FEW + 10)
        timers.run(2e9)
        self.assertEqual(done, ["kept"])
        timers.cancel(kept)
        self.assertEqual(len(timers), 0)

    def test_no_timer(self):
        self.assertEqual(Timers().sleep(0.0), float("inf"))
