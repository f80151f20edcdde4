#!/usr/bin/env python3
"""A runtime of two places, one of which dies at any moment: python3 examples/two_places.py two.rx two.trace

Place 1 has a store with a journal. A thread kills the place while a task works there. docs/own-traces.md explains each part.
"""

import random
import sys
import threading
import time

SCRIPT = "try { at 1 { new r = 1; put r[0] = 7; get n = r[0]; print n; } } catch dead { print 9; }\n"


class Lost(Exception):
    """The place of this task is dead."""


class Runtime:
    """The history, the journal of place 1, and what happened to the task t1 there."""

    def __init__(self):
        self.history, self.journal = threading.Condition(), threading.Lock()
        self.entries, self.events = [], []
        self.died = None            # the number of the death, once place 1 is dead
        self.over = False           # whether t1 has ended

    def tell(self, what):
        """An entry. The caller holds `history`."""
        self.entries.append("%d %s" % (len(self.entries), what))

    def act(self, what, ends=False):
        """An entry of t1."""
        time.sleep(random.random() / 1000)
        with self.history:
            if self.died is not None:
                raise Lost
            self.tell(what)
            self.over = ends
            self.history.notify_all()

    def call(self, words):
        """A store call of t1. Its stamp is the length of the history at this moment, so no stamp is below the one before it."""
        with self.journal, self.history:
            if self.died is not None:
                raise Lost
            self.events.append("%d t1 %d %s" % (len(self.events), len(self.entries), words))

    def die(self):
        """The death of place 1. The journal is closed under the same locks, so nothing comes between them."""
        time.sleep(random.random() / 400)
        with self.journal, self.history:
            if self.entries[-1].endswith("release host s0"):
                return
            self.died = len(self.entries)
            self.events.append("%d %d close" % (len(self.events), self.died))
            self.tell("death 1")
            self.history.notify_all()

    def callee(self):
        """The task t1."""
        try:
            self.act("arrive t1 1")
            self.call("make 1 at 0 1 0.0.0.0")
            self.call("put 0 1 0 7 ok 0.0.0.1")
            self.call("get 0 1 0 is 7 0.0.0.2")
            self.act("print t1 7 0.0.0.3 | 0.0.0.0 0.0.0.1 0.0.0.2")
            self.act("end t1", ends=True)
        except Lost:
            pass

    def run(self):
        """The task t0, at place 0, which never dies."""
        with self.history:
            self.tell("at t0 s1 in s0 t1 0 1 0.0.0 | 0")
        threads = [threading.Thread(target=it) for it in (self.callee, self.die)]
        for thread in threads:
            thread.start()
        with self.history:
            self.history.wait_for(lambda: self.over or self.died is not None)
            self.tell("release t0 s1" + ("" if self.over else " lost 1"))
            if not self.over:
                self.tell("print t0 9 0.1.0")
            self.tell("end t0")
            self.tell("release host s0")
        for thread in threads:
            thread.join()

    def lines(self):
        kills = "kills" if self.died is None else "kills 1@%d" % self.died
        head = ["rx10 trace 2", "places 2 heap 256", kills, "joins", "history"]
        return [*head, *self.entries, "journal 0", "journal 1", *self.events, "done"]


def main(script, trace):
    runtime = Runtime()
    runtime.run()
    open(script, "w").write(SCRIPT)
    open(trace, "w").write("".join(line + "\n" for line in runtime.lines()))


if __name__ == "__main__":
    main(*sys.argv[1:])
