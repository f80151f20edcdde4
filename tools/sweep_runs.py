"""Runs of a script for a sweep: a process each, started by several workers at a time, and what came of it.

Most of what a short run costs is the start of a process. So a worker is a process of its own that starts the program without a shell or
a copy of itself, lets it write to a file in memory that it reads once the program has ended, and takes from the trace no more than the
table needs. A worker stays on one processor, and the program with it: to be woken on another one costs more than a short run.
"""

import collections
import contextlib
import itertools
import multiprocessing
import multiprocessing.connection
import os
import random
import re
import signal

Run = collections.namedtuple("Run", "seed kills")       # kills are pairs of a moment and a place
Outcome = collections.namedtuple("Outcome", "status prints thrown lost masked")

# A worker is handed so many runs at a time as take so many seconds, but one at least.
MOST_AT_ONCE, SECONDS_AT_ONCE = 32, 0.03
# (the program reads no variable; those for the system's loader may be needed to start it)
ENVIRONMENT = {name: value for name, value in os.environb.items() if name.startswith(b"LD_")}
TITLE = b"rx10 trace 2\n"
TOLD = re.compile(rb"^(\d+) (?:print t\d+ (-?\d+)|release (host|t\d+) s\d+([^|\n]*))", re.M)


class Refused(Exception):
    """The program refused: its exit status, and what it said."""

    def __init__(self, status, said, words):
        super().__init__(status, said, words)
        self.status, self.said, self.words = status, said, words


class NoTrace(Exception):
    """The program wrote something else than a whole trace."""


def words_of(base, run):
    """The words of this run: those of every run, its seed, its kills."""
    words = list(base) if run.seed is None else [*base, "--seed", str(run.seed)]
    for moment, place in run.kills:
        words += ["--kill", "%d@%d" % (place, moment)]
    return words


def outcome_of(status, text):
    """What came of a run that wrote this trace, and how many entries its history has."""
    prints, lost, masked = [], set(), 0
    for number, value, who, parts in TOLD.findall(text):
        if not who:
            prints.append(int(value))
            continue
        parts, _, thrown = parts.partition(b" thrown ")
        parts, _, count = parts.partition(b" masked ")
        masked += int(count or 0)
        lost.update(map(int, parts.split()[1:]))
        if who == b"host":
            return Outcome(status, tuple(prints), tuple(thrown.decode().split()), tuple(sorted(lost)), masked), int(number) + 1
    raise NoTrace("the root is never released")


class Maker:
    """Makes runs of the script in an open file, one after the other.

    Its descriptors stay open, and are no other process's: each run reads the script from its start, and writes from the start of a file in
    memory. What an earlier run has left there behind its end is not read.
    """

    def __init__(self, program, script, base):
        self.program, self.base = program, base
        self.script = os.open("/proc/self/fd/%d" % script.fileno(), os.O_RDONLY)
        self.written = os.memfd_create("rx10")
        # (a line on standard error comes with no trace, so one file serves for both)
        self.actions = [(os.POSIX_SPAWN_DUP2, self.script, 0), (os.POSIX_SPAWN_DUP2, self.written, 1), (os.POSIX_SPAWN_DUP2, self.written, 2)]

    def close(self):
        os.close(self.script)
        os.close(self.written)

    def make(self, run):
        """Makes this run: what came of it, and how many entries its history has."""
        words = ["step", *words_of(self.base, run)]
        os.lseek(self.script, 0, os.SEEK_SET)
        os.lseek(self.written, 0, os.SEEK_SET)
        process = os.posix_spawn(self.program, [self.program, *words], ENVIRONMENT, file_actions=self.actions)
        status = os.waitstatus_to_exitcode(os.waitpid(process, 0)[1])
        text = os.pread(self.written, os.lseek(self.written, 0, os.SEEK_CUR), 0)
        if status not in (0, 1):
            raise Refused(status, text.decode("utf-8", "replace").strip(), words)
        if not text.startswith(TITLE):
            raise NoTrace("the program wrote no trace")
        return outcome_of(status, text)


def work(connection, others, processor, program, script, base):
    """A worker: answers each list of runs that it is handed, and ends where the other side has gone."""
    signal.signal(signal.SIGINT, signal.SIG_IGN)
    with contextlib.suppress(OSError):
        os.sched_setaffinity(0, {processor})
    for it in others:
        it.close()
    maker = Maker(program, script, base)
    try:
        while True:
            connection.send([maker.make(run) for run in connection.recv()])
    except EOFError:
        pass
    except (Refused, NoTrace, OSError) as fault:
        connection.send(fault)


class Workers:
    """Some workers, and the connection to each. They end with the `with` in which they stand. A run takes so many seconds of a processor."""

    def __init__(self, count, seconds, program, script, base):
        context = multiprocessing.get_context("fork")
        # (in any order, so that of several sweeps with few workers not all begin on the same processor)
        allowed = sorted(os.sched_getaffinity(0))
        processors = random.sample(allowed, len(allowed))
        self.at_once = max(1, min(MOST_AT_ONCE, int(SECONDS_AT_ONCE / max(seconds, 1e-6))))
        self.connections, self.processes = [], []
        for number in range(count):
            here, there = context.Pipe()
            self.connections.append(here)
            given = there, list(self.connections), processors[number % len(processors)], program, script, base
            process = context.Process(target=work, args=given, daemon=True)
            process.start()
            there.close()
            self.processes.append(process)

    def __enter__(self):
        return self

    def __exit__(self, *_):
        for process in self.processes:
            process.kill()                                      # it has nothing to put away, and a handler of ours may be in force there
        for process in self.processes:
            process.join()

    def results(self, runs):
        """For each of these runs (run, outcome, number of entries), in the order in which they end."""
        runs = iter(runs)
        waiting = {it: collections.deque() for it in self.connections}

        def hand_on(connection):
            chunk = list(itertools.islice(runs, self.at_once))
            if chunk:
                connection.send(chunk)
                waiting[connection].append(chunk)

        # (a second list lies ready, so that no worker waits for this process)
        for connection in [*self.connections, *self.connections]:
            hand_on(connection)
        while any(waiting.values()):
            for connection in multiprocessing.connection.wait([it for it, chunks in waiting.items() if chunks]):
                try:
                    answers = connection.recv()
                except EOFError:
                    raise OSError("a worker of the sweep was ended") from None
                if isinstance(answers, Exception):
                    raise answers
                hand_on(connection)
                for run, (outcome, length) in zip(waiting[connection].popleft(), answers):
                    yield run, outcome, length
