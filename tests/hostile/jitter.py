"""Runs by workers whose threads sleep, yield and spin now and then: each comes to its end, and its trace is that of a run."""

import random

import making
from judges import RUN, answered
from program import short
from tables import paired

# Scripts in which places die while activities wait: calls of places, finishes within them, and both at several places.
WAITING = [
    "finish { repeat 30 { async { try { at 1 { repeat 40 { set x = 1; } print 1; } } catch { print 2; } } } }",
    "finish { repeat 12 { async { try { at 1 { finish { at 2 async { repeat 50 { set x = 1; } } async { repeat 40 { set y = 1; } } } print 1; } }"
    " catch { print 2; } } } }",
    "finish { set p = 0; repeat 4 { at p async { repeat 10 { try { at 3 { repeat 40 { set x = 1; } } } catch { set z = 0; }"
    " try { finish { at 1 async { repeat 40 { set w = 2; } } } } catch { set z = 0; } } } set p = (p + 1); } }",
]
EACH = 4            # runs of one script
LONGEST = 3000      # the entries of a run that is taken


def drawn(program, rng):
    """A script with the words of its runs, or None where a run of it is too long."""
    waits = rng.random() < 0.3
    places = 4 if waits else rng.choice([1, 2, 3, 4])
    script = (rng.choice(WAITING) if waits else making.script(rng, places)).encode()
    length = program.run(["step", "--places", str(places)], script).out.count(b"\n") - 8
    if length > LONGEST:
        return None
    return script, lambda: ["live", *making.words_for(rng, places, length), "--workers", str(rng.randint(1, 8))]


def one_script(program, seed, number):
    rng = random.Random("jitter %d %d" % (seed, number))
    found = drawn(program, rng)
    for _ in range(EACH if found else 0):
        script, words_of = found
        words = words_of()
        answer = program.run(words, script, jitter=rng.randrange(1, 1 << 30))
        if answer.status not in (0, 1) or answer.err:
            return "%s to %r with the words %s" % (short(answer), script, words)
        wrong = answered(program, ["verify"], paired(script, answer.out), RUN)
        if wrong:
            return "%s: the trace of %r with the words %s" % (wrong, script, words)
    return None


def run(program, tally):
    cases = [("script %d of seed %d" % (k, tally.seed), program, tally.seed, k) for k in range(max(1, int(8 * tally.seconds)))]
    tally.each(cases, one_script)
