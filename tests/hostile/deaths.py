"""A death at every moment, by every command: whole traces by `step`, judged by `verify` and `span`, and runs by workers that are watched."""

import itertools

from judges import answered, judged_as, watched_complaint
from looks import history_of, parted
from machine import run_of
from program import Answer
from tables import script

# A script in which one task runs at a time. Place 1 may die between two calls of its store, with a task at it.
AT_HOME = (b"new a = 2; try { at 1 { new b = 1; put b[0] = 5; print 1; get x = b[0]; print x; at 2 { print here; } } } catch dead { print 9; }"
           b" put a[0] = 3; at 2 { print 8; }")
# What only the ledger of tasks decides: orphans of a dead call, a task on its way from a dead place, one that ended before the death, an
# `at` that waits, a fault that is masked.
ORPHANS = (b"try { finish { at 1 async { finish { at 2 async { at 3 { } throw 5; } at 2 async { print 2; } } } at 2 async { at 1 { print here; } } } }"
           b" catch { print 9; } try { at 1 { at 2 async { print 3; } at 3 { finish { at 2 async { print 4; } } } } } catch dead { print 8; }")


def texts():
    found = {name: script(name) for name in ("ordinary_case", "nearest_living_scope_adopts", "at_waits_for_orphans", "source_dies")}
    return {**found, "at home": AT_HOME, "orphans": ORPHANS}


def one_death(program, text, words):
    """A script under some deaths: by `step`, its trace judged, and by workers. Where one task runs at a time, their history is the same."""
    run = run_of(["step", *words], text)
    wanted = Answer(run.status(), run.text(), b"")
    found = answered(program, ["step", *words], text, wanted)
    found = found or judged_as(program, text, run.history, wanted.out)
    return found or by_workers(program, text, words, run if text == AT_HOME else None)


def by_workers(program, text, words, run):
    """The same by workers; where one task runs at a time (run is the run then), the history is the same."""
    words = ["live", *words, "--workers", "2", "--watch", "3"]
    answer = program.run(words, text)
    trace, _ = parted(answer.out)
    history = history_of(trace)
    if run and history != run.history:
        return "the history by workers is another one: %r" % history[-3:]
    return watched_complaint(program, text, answer, 3)


def run(program, tally):
    """Each place at each moment of the run without deaths and just past its end; and where it is to be long each two of them."""
    cases = []
    for name, text in texts().items():
        places = 4
        length = len(run_of(["step", "--places", str(places)], text).history)
        kills = [(place, moment) for moment in range(length + 2) for place in range(1, places)]
        sets = [(one,) for one in kills]
        if tally.is_long:
            sets += [it for it in itertools.combinations(kills, 2) if it[0][0] != it[1][0]]
        for some in sets:
            words = ["--places", str(places), *(word for kill in some for word in ("--kill", "%d@%d" % kill))]
            cases.append(("%s by %s" % (name, " ".join(words)), program, text, words))
    tally.each(cases, one_death)
