"""A place by itself: these tests play its hub, message by message, over a socket pair."""

import pickle
import queue
import socket
import threading
import time
import unittest

from rx10 import errors, pickles, wire
from rx10.place import Place, Task, time_of

LIMIT = 20                      # seconds after which a test is taken to hang


def same(thing):
    return thing


def throw(kind, *args):
    raise kind(*args)


class Hub:
    """The other end of a place's line."""

    def __init__(self):
        self.line, far = socket.socketpair()
        self.line.settimeout(LIMIT)
        self.frames, self.came = wire.Frames(), []
        self.place = Place(far)
        self.listener = threading.Thread(target=self.place.listen, daemon=True)
        self.listener.start()

    def tell(self, *message):
        self.line.sendall(wire.frame(message))

    def heard(self):
        """The next message of the place."""
        while not self.came:
            self.came += self.frames.feed(self.line.recv(1 << 16))
        return tuple(self.came.pop(0))

    def run(self, key, fn, *args, wanted=True):
        self.tell("run", key, pickles.pack_call(fn, args, {}, False), wanted)

    def close(self):
        self.line.close()
        self.listener.join(LIMIT)
        self.place.close(errors.Closed("the test is over"))


class APlace(unittest.TestCase):
    def setUp(self):
        self.others = set(threading.enumerate())
        self.hub = Hub()
        self.place = self.hub.place
        self.addCleanup(self.hub.close)
        self.hub.tell("hello", 3, (0, 1, 3), 4, 2)

    def test_what_it_is_told(self):
        self.hub.run(7, same, 1)
        self.hub.heard()
        self.assertEqual((self.place.number, self.place.living, self.place.count, self.place.pool.limit), (3, (0, 1, 3), 4, 2))
        self.hub.tell("places", (0, 3), 5)
        self.hub.run(8, same, 1)
        self.hub.heard()
        self.assertEqual((self.place.living, self.place.count), ((0, 3), 5))
        self.place.check(0)
        self.place.check(4)
        for bad in (5, -1, "1", 1.0, None):
            self.assertRaisesRegex(ValueError, "5 have joined", self.place.check, bad)

    def test_how_tasks_end(self):
        self.hub.run(7, same, "x")
        kind, key, thrown, value = self.hub.heard()
        self.assertEqual((kind, key, thrown, pickles.unpack_value(value)), ("end", 7, [], "x"))
        self.hub.run(8, same, "x", wanted=False)
        self.assertEqual(self.hub.heard(), ("end", 8, [], None))
        self.hub.run(9, throw, KeyError, "k")
        kind, key, thrown, value = self.hub.heard()
        self.assertEqual((kind, key, value, [repr(pickles.unpack_fault(it)) for it in thrown]), ("end", 9, None, ["KeyError('k')"]))
        self.assertEqual(self.place.tasks, {})

    def test_a_call_that_cannot_be_read(self):
        self.hub.tell("run", 7, pickle.dumps(same)[:-3], True)
        kind, key, thrown, value = self.hub.heard()
        self.assertEqual((kind, key, value, len(thrown)), ("end", 7, None, 1))

    def test_it_is_stopped(self):
        """Whoever waits learns it, later calls are refused, and its threads end."""
        for kind, over, error in (("closed", False, errors.Closed), ("coordinator", False, errors.CoordinatorLost), ("closed", True, errors.Closed)):
            hub = Hub()
            hub.tell("hello", 1, (0, 1), 2, 1)
            faults, begun = queue.SimpleQueue(), threading.Event()
            hub.place.tasks[5] = task = Task(5, hub.place, pooled=False)

            def waits(hub=hub, task=task, faults=faults, begun=begun):
                try:
                    begun.set()
                    hub.place.wait(task, "join", 5)
                except errors.Closed as fault:
                    faults.put(fault)
            threading.Thread(target=waits, daemon=True).start()
            begun.wait(LIMIT)
            hub.run(7, same, 1)
            while hub.heard()[0] != "end":
                pass
            hub.tell("stop", kind, "so it is", over)
            hub.listener.join(LIMIT)
            self.assertFalse(hub.listener.is_alive())
            fault = faults.get(timeout=LIMIT)
            self.assertIs(type(fault), error)
            self.assertEqual(str(fault), "so it is")
            self.assertIs(hub.place.failed, not over)
            self.assertRaises(error, hub.place.tell, "kill", 1)
            self.assertRaises(error, hub.place.task)
            hub.close()
        self.hub.close()
        until = time.monotonic() + LIMIT
        left = [it for it in threading.enumerate() if it not in self.others]
        for thread in left:
            thread.join(max(0, until - time.monotonic()))
        self.assertFalse(any(it.is_alive() for it in left))

    def test_what_tells_first_why_it_is_over(self):
        self.place.close(errors.CoordinatorLost("first"))
        self.place.close(errors.Closed("second"))
        self.assertEqual(str(self.place.closed), "first")
        self.assertTrue(self.place.ready.is_set())


class Times(unittest.TestCase):
    def test_limits(self):
        self.assertEqual([time_of(it) for it in (None, 1, 0.5, float("inf"))], [None, 1.0, 0.5, None])
        self.assertIsInstance(time_of(1), float)
        for bad in (0, -1, 0.0, float("nan"), float("-inf")):
            self.assertRaisesRegex(ValueError, "^limit=.*: a time of more than no seconds, or None$", time_of, bad)


if __name__ == "__main__":
    unittest.main()
