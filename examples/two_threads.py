#!/usr/bin/env python3
"""A runtime of two threads that writes the trace of its run: python3 examples/two_threads.py two.rx two.trace

docs/own-traces.md explains each line; `./rx10 verify two.rx two.trace` judges the trace.
"""

import sys
import threading

SCRIPT = "finish { async { print 1; } async { print 2; } } print 3;\n"
entries, lock = [], threading.Lock()


def tell(what):
    with lock:  # so the order of the entries is the order in which things happened
        entries.append("%d %s" % (len(entries), what))


def work(task, path):
    tell("print t%d %d %s.0" % (task, task, path))
    tell("end t%d" % task)


def main(script, trace):
    tell("open t0 s1 in s0 0")
    threads = [threading.Thread(target=work, args=(task, "0.%d" % (task - 1))) for task in (1, 2)]
    for task, thread in enumerate(threads, 1):
        tell("spawn t0 t%d in s1 0 0 0.%d" % (task, task - 1))  # before the task can do anything
        thread.start()
    tell("wait t0 s1")
    for thread in threads:
        thread.join()
    tell("release t0 s1")  # after the end of each task that was started
    for what in ("print t0 3 1", "end t0", "release host s0"):
        tell(what)
    lines = ["rx10 trace 2", "places 1 heap 256", "kills", "joins", "history", *entries, "journal 0", "done"]
    open(script, "w").write(SCRIPT)
    open(trace, "w").write("".join(line + "\n" for line in lines))


if __name__ == "__main__":
    main(*sys.argv[1:])
