"""Refused memory: each allocation of a run is refused in turn, and threads can't be started.

Each run then gives its own answer, or `no memory` with nothing written; and the program has given back what it took (not asked of `live`,
whose threads' own blocks libc keeps). Where a thread can't be started another does its work, so the answer is the run's own.
"""

from chains import span_answer
from judges import RUN
from looks import Watched
from machine import run_of, step_answer
from program import NO_MEMORY, complaint
from tables import LONG_LIVE, answer_of, live_answers, long_live_complaint, pair, read_table, script

LONGEST = b"print 7;".ljust(65536)

# The runs, and at which allocations each is tried: every one, or every 50th of a long run.
RUNS = [
    ("ordinary_case", "step", 1),
    ("ordinary_case", "step --kill 1@3", 1),
    ("at_waits_for_orphans", "step --places 3 --kill 1@6", 1),
    ("stale_reference", "step", 1),
    ("nearest_living_scope_adopts", "step --places 4 --kill 2@12", 1),
    ("realistic_script", "step --places 8 --kill 3@5 --seed 5", 10),
    ("ordinary_case", "check", 1),
    ("realistic_script", "check", 5),
    ("none", "gen --size 2 --kill 1@5", 1),
    ("none", "gen --size 20 --places 4 --kill 2@30 --seed 7", 5),
    ("none", "gen --size 400", 50),
]
# Of a script with its trace: which trace, the command, and at which allocations.
PAIRS = [
    ("ordinary_case", "step --kill 1@3", 1),
    ("at_waits_for_orphans", "step --places 3 --kill 1@6", 1),
    ("stale_reference", "step", 1),
    ("realistic_script", "step --places 8 --kill 3@5 --seed 5", 10),
]
LIVE = [("ordinary_case", "live"), ("ordinary_case", "live --kill 1@3"), ("at_waits_for_orphans", "live --places 3 --kill 1@6"),
        ("stale_reference", "live"), ("two_places_store", "live")]


def refused(program, words, stdin, wanted, refusal):
    """What is wrong where this refusal comes (ALLOC, ALLOC_FROM or THREAD, and a number)."""
    answer, counts = program.counted(words, stdin, **refusal)
    if wanted is LONG_LIVE:
        return None if answer == NO_MEMORY else long_live_complaint(answer)
    wrong = complaint(answer, wanted, [] if "thread" in refusal else [NO_MEMORY])
    if wrong is None and words[0] != "live":
        if counts is None:
            return "the library has counted nothing"
        if counts[5] != 0:
            return "%d blocks are not given back" % counts[5]
    return wrong


def add(program, cases, name, words, stdin, wanted, step):
    """The cases of one run: each allocation by itself, and from each tenth one on all of them."""
    answer, counts = program.counted(words, stdin)
    total = counts[0] if counts else 0
    label = "%s of %s" % (" ".join(words), name)
    cases.append((label + ", undisturbed", program, words, stdin, wanted, {"alloc": 0}))
    assert total > 0, "no allocation is seen: " + label
    # (of `live` one and two workers are tried at each allocation, and four at each third)
    step = 3 if step == 1 and "4" in words else step
    for n in range(1, total + 1, step):
        cases.append(("%s, allocation %d refused" % (label, n), program, words, stdin, wanted, {"alloc": n}))
    for n in range(1, total + 1, 10 * step):
        cases.append(("%s, all refused from allocation %d on" % (label, n), program, words, stdin, wanted, {"alloc_from": n}))


def run(program, tally):
    cases = []
    for name, words, step in RUNS:
        add(program, cases, name, words.split(" "), script(name), [answer_of(name, words)], 1 if tally.is_long else step)
    for name, words, step in PAIRS:
        step = 1 if tally.is_long else step
        given, history = pair(name, words), run_of(words.split(" "), script(name)).history
        add(program, cases, "%s by %s" % (name, words), ["verify"], given, [RUN], step)
        add(program, cases, "%s by %s" % (name, words), ["span"], given, [span_answer(script(name), history)], step)
    for case in read_table("pairs.txt"):
        if case.cut is None and case.answer.status == 1:
            add(program, cases, case.name, case.words, case.stdin, [case.answer], 3)
    add(program, cases, "the longest script", ["step"], LONGEST, [step_answer(["step"], LONGEST)], 1)
    for name, words in LIVE:
        for workers in ("1", "2", "4"):
            line = [*words.split(" "), "--workers", workers]
            add_live(program, cases, name, line, live_answers(name, words))
            if workers == "2":
                add_live(program, cases, name, [*line, "--watch", "2"], Watched(live_answers(name, words), 2))
    for workers in ("1", "4"):
        add(program, cases, "realistic_script", [*LONG_LIVE, "--workers", workers], script("realistic_script"), LONG_LIVE, 50)
    tally.each(cases, refused)


def add_live(program, cases, name, line, wanted):
    """The cases of one run by workers: each allocation, and each thread."""
    add(program, cases, name, line, script(name), wanted, 1)
    for n in range(1, 6):
        cases.append(("%s of %s, thread %d can't be started" % (" ".join(line), name, n), program, line, script(name), wanted, {"thread": n}))
