"""The pool of a place's threads, by itself: whose turn it is, which threads are used again, and what is refused."""

import io
import threading
import unittest
from unittest import mock

from rx10 import pool as pools
from rx10.errors import Misuse
from rx10.pool import Job, Pool, most_that_wait

LIMIT = 20                      # seconds after which a test is taken to hang


class Task:
    """A job that is led by hand: it begins, may wait and go on, and ends when it is told to."""

    def __init__(self, pool, name, notes):
        self.pool, self.name, self.notes = pool, name, notes
        self.orders = threading.Semaphore(0)
        self.wants, self.thread, self.fault = [], None, None
        self.noted = threading.Semaphore(0)
        pool.submit(Job(self.run, self.refuse))

    def run(self):
        self.thread = threading.get_ident()
        self.note("begins")
        while True:
            self.orders.acquire()
            order = self.wants.pop(0)
            if order == "end":
                self.note("ends")
                return
            self.pool.leave()
            self.note("waits")
            self.orders.acquire()
            self.noted.release()                    # its answer has come
            self.pool.enter_again()
            self.note("goes on")

    def refuse(self, fault):
        self.fault = fault
        self.note("is refused")

    def note(self, what):
        self.notes.append(f"{self.name} {what}")
        self.noted.release()

    def tell(self, order):
        self.wants.append(order)
        self.orders.release()
        self.until_noted()

    def answer(self):
        """What it waits for has come."""
        self.orders.release()
        self.until_noted()

    def until_noted(self):
        if not self.noted.acquire(timeout=LIMIT):
            raise AssertionError(f"{self.name} does nothing: {self.notes}")

    def is_noted(self, seconds=0.05):
        return self.noted.acquire(timeout=seconds)


class Turns(unittest.TestCase):
    def setUp(self):
        self.others, self.pool, self.notes = set(threading.enumerate()), Pool(1, most=100), []
        self.addCleanup(self.pool.close)

    def task(self, name, begins=True):
        task = Task(self.pool, name, self.notes)
        if begins:
            task.until_noted()
        return task

    def threads(self):
        """How many threads there are that this test has started."""
        return len(set(threading.enumerate()) - self.others)

    def settle(self, holds):
        for _ in range(LIMIT * 100):
            if holds():
                return
            threading.Event().wait(0.01)
        raise AssertionError(self.notes)

    def waiting_in_turn(self, count):
        """Waits until so many tasks wait for their turn."""
        self.settle(lambda: len(self.pool._back) == count)

    def test_those_that_waited_go_on_in_the_order_of_their_answers_and_before_new_ones(self):
        a, b, c = (self.wait_with(name) for name in "abc")
        runs = self.task("runs")
        new = self.task("new", begins=False)
        for count, task in enumerate((b, c, a), 1):
            task.answer()
            self.waiting_in_turn(count)
        self.assertFalse(new.is_noted())
        runs.tell("end")
        for task in (b, c, a):
            task.until_noted()
            task.tell("end")
        new.until_noted()
        new.tell("end")
        self.assertEqual(self.notes[-9:], ["runs ends", "b goes on", "b ends", "c goes on", "c ends", "a goes on", "a ends", "new begins",
                                           "new ends"])

    def wait_with(self, name):
        task = self.task(name)
        task.tell("wait")
        return task

    def test_new_ones_begin_in_order(self):
        first = self.task("first")
        others = [self.task(name, begins=False) for name in "abc"]
        first.tell("end")
        for task in others:
            task.until_noted()
            task.tell("end")
        self.assertEqual(self.notes[2:], [f"{name} {what}" for name in "abc" for what in ("begins", "ends")])

    def test_no_more_than_the_limit_run(self):
        for limit in (1, 2, 3):
            self.pool.close()
            self.pool = Pool(limit, most=100)
            tasks = [self.task(str(number)) for number in range(limit)]
            late = self.task("late", begins=False)
            self.assertFalse(late.is_noted())
            tasks[0].tell("wait")                   # one that waits does not count
            late.until_noted()
            tasks[0].answer()
            self.assertFalse(tasks[0].is_noted())   # and afterwards it needs its turn
            late.tell("end")
            tasks[0].until_noted()
            for task in tasks:
                task.tell("end")

    def test_threads_are_used_again(self):
        threads = set()
        for _ in range(20):
            task = self.task("a")
            threads.add(task.thread)
            task.tell("end")
            self.settle(lambda: self.pool._idle == 1)
        self.assertEqual(len(threads), 1)

    def test_threads_that_are_left_over_end(self):
        tasks = [self.wait_with(str(number)) for number in range(40)]
        self.assertEqual(self.threads(), 40)
        for task in tasks:
            task.answer()
        for task in tasks:
            task.until_noted()
            task.tell("end")
        self.settle(lambda: self.threads() == 1 + pools.SPARE)
        self.assertEqual(self.pool._idle, 1 + pools.SPARE)
        again = self.task("again")
        self.assertEqual(self.threads(), 1 + pools.SPARE)
        again.tell("end")

    def test_what_a_closed_pool_does(self):
        """Those that wait go on at once, new ones do not begin, and each thread ends with its task."""
        waits, late = self.wait_with("waits"), self.wait_with("late")
        runs, new = self.task("runs"), self.task("new", begins=False)
        waits.answer()
        self.waiting_in_turn(1)
        self.pool.close()
        waits.until_noted()
        late.answer()
        late.until_noted()
        self.assertEqual(self.notes[-2:], ["waits goes on", "late goes on"])
        self.assertFalse(new.is_noted())
        self.assertFalse(self.task("later", begins=False).is_noted())
        for task in (waits, late, runs):
            task.tell("end")
        self.settle(lambda: self.threads() == 0)

    def test_idle_threads_of_a_closed_pool_end(self):
        tasks = [self.wait_with(str(number)) for number in range(3)]
        for task in tasks:
            task.answer()
            task.until_noted()
            task.tell("end")
        self.settle(lambda: self.pool._idle == 3)
        self.pool.close()
        self.settle(lambda: self.threads() == 0)


class Refusals(unittest.TestCase):
    def test_as_many_wait_as_may(self):
        for most in (0, 1, 3):
            pool = Pool(1, most)
            for _ in range(2):
                for _ in range(most):
                    pool.may_wait()
                self.assertRaisesRegex(Misuse, f"^{most} tasks of this place are inside a finish or a call, and no more may be", pool.may_wait)
                for _ in range(most):
                    pool.waits_no_more()

    def test_a_task_without_a_thread(self):
        """It is refused, once, and the next one is tried."""
        pool, notes = Pool(1, 100), []
        self.addCleanup(pool.close)
        for fault in (RuntimeError("can't start new thread"), MemoryError()):
            with mock.patch.object(threading.Thread, "start", side_effect=fault):
                tasks = [Task(pool, name, notes) for name in "ab"]
            self.assertEqual([task.fault for task in tasks], [fault, fault])
            self.assertEqual(notes, ["a is refused", "b is refused"])
            del notes[:]
        task = Task(pool, "c", notes)
        task.until_noted()
        task.tell("end")
        self.assertEqual(notes, ["c begins", "c ends"])

    def test_one_that_waits_has_its_turn_all_the_same(self):
        pool, notes = Pool(1, 100), []
        self.addCleanup(pool.close)
        first = Task(pool, "first", notes)
        first.until_noted()
        second = Task(pool, "second", notes)
        with mock.patch.object(threading.Thread, "start", side_effect=RuntimeError("can't start new thread")):
            first.tell("wait")
        self.assertIsInstance(second.fault, RuntimeError)
        first.answer()
        first.until_noted()
        first.tell("end")
        self.assertEqual(notes[1:], ["second is refused", "first waits", "first goes on", "first ends"])


GROUPS = "/sys/fs/cgroup"


class Machine(unittest.TestCase):
    """How many tasks may wait is an eighth of the smallest bound."""

    FILES = {"/proc/sys/kernel/pid_max": "32768\n", "/proc/sys/kernel/threads-max": "192722\n", "/proc/sys/vm/max_map_count": "400000\n"}

    def most(self, files=None, soft=-1):
        all_files = {**self.FILES, **(files or {})}

        def fake(path, **_):
            if path not in all_files:
                raise FileNotFoundError(path)
            return io.StringIO(all_files[path])
        with mock.patch.object(pools, "open", fake, create=True), mock.patch.object(pools.resource, "getrlimit", lambda which: (soft, -1)):
            return most_that_wait()

    def test_each_bound(self):
        self.assertEqual(self.most(), 4096)
        self.assertEqual(self.most({"/proc/sys/kernel/pid_max": "8000"}), 1000)
        self.assertEqual(self.most({"/proc/sys/kernel/threads-max": "7992"}), 999)
        self.assertEqual(self.most({"/proc/sys/vm/max_map_count": "16000"}), 1000)
        self.assertEqual(self.most(soft=800), 100)
        self.assertEqual(self.most(soft=10), 16)
        self.assertEqual(self.most({"/proc/sys/kernel/pid_max": "x"}), 24090)

    def test_control_groups(self):
        new = {"/proc/self/cgroup": "0::/a/b\n"}
        for group in ("/a/b", "/a", ""):
            self.assertEqual(self.most({**new, f"{GROUPS}{group}/pids.max": "1600\n"}), 200)
        self.assertEqual(self.most({**new, f"{GROUPS}/a/b/pids.max": "max\n", f"{GROUPS}/a/pids.max": "2400"}), 300)
        self.assertEqual(self.most({**new, f"{GROUPS}/c/pids.max": "1600\n"}), 4096)
        old = {"/proc/self/cgroup": "9:name=systemd:/\n8:pids:/d\n4:memory:/e\n"}
        self.assertEqual(self.most({**old, f"{GROUPS}/pids/d/pids.max": "1600\n"}), 200)
        self.assertEqual(self.most({**old, f"{GROUPS}/memory/e/pids.max": "1600\n"}), 4096)

    def test_this_machine(self):
        with open("/proc/sys/kernel/pid_max", encoding="ascii") as file:
            self.assertLessEqual(most_that_wait(), max(16, int(file.read()) // 8))
        self.assertGreaterEqual(most_that_wait(), 16)
        self.assertEqual(Pool(1).most, most_that_wait())


if __name__ == "__main__":
    unittest.main()
