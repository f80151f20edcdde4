"""Scripts with damaged traces, judged by `verify`, and by the model of the rules that stands in tools/model."""

import collections
import random

import damage
import making
import tables
import trace_text
from explain import parts_of
from model.lines import first_bad_line
from model.verdict import judge
from program import Answer, outcomes, short

EACH = 10           # traces of one script: as it was written, with some bytes changed, and damaged
LONGEST = 600       # the entries of a run that is taken
UNASKED = (3, 4, 5)     # the statuses of scripts that are none, fail a rule or are too long


def pair(script, trace):
    return b"rx10 pair %d\n%s%s" % (len(script), script, trace)


def wanted(text):
    """What the model answers to a pair. The script is one that meets the rules."""
    parts = parts_of(text)
    if parts is None:
        return Answer(9, b"", b"bad pair\n")
    script, trace = parts[0], parts[1].decode("latin-1")
    bad = first_bad_line(trace)
    if bad is not None:
        return Answer(10, b"", b"bad line %d\n" % bad)
    verdict = judge(script, trace_text.read_trace(trace)).text
    return Answer(0 if verdict == "run" else 1, verdict.encode() + b"\n", b"")


def difference(run, text, answer=None):
    """Where the program and the model differ on a pair, or None. The model is asked where the script is one that may be run."""
    answer = answer or run(["verify"], text)
    if answer.status in UNASKED:
        return None
    should = wanted(text)
    return None if answer == should else "%s; the model: %s; the pair: %r" % (short(answer), short(should), text)


def written(run, rng):
    """A random script with a trace that the program has written of it, or None where the run is too long."""
    places = rng.choice([1, 2, 2, 3, 4, 4])
    script = making.script(rng, places).encode()
    plain = run(["step", "--places", str(places)], script)
    length = plain.out.count(b"\n") - 8
    if plain.status > 1:
        raise ValueError("%s to the script %r" % (short(plain), script))
    if length > LONGEST:
        return None
    command = ["live", "--workers", "3"] if rng.random() < 0.2 else ["step", "--seed", str(rng.randrange(99))]
    return script, run(command + making.words_for(rng, places, length), script).out


def judged_case(run, seed, number, counts):
    """What is wrong with the verdicts on the traces of the script of this number, or None. The verdicts are counted, by their first word."""
    rng = random.Random("%d %d" % (seed, number))
    found = written(run, rng)
    if found is None:
        return None
    script, trace = found
    for k in range(EACH):
        text = pair(script, trace if k == 0 else damage.mutated(rng, trace) if k == 1 else damage.damaged(rng, trace.decode()).encode())
        answer = run(["verify"], text)
        counts[(answer.out or answer.err).split()[0].decode()] += 1
        wrong = difference(run, text, answer)
        if wrong is not None or k == 0 and answer.status != 0:
            return wrong or "a trace that was written is judged as none: %r" % text
    return None


def counted_case(run, seed, number):
    """The same, with the count."""
    counts = collections.Counter()
    return judged_case(run, seed, number, counts), counts


def run(program, tally):
    counts = collections.Counter()
    cases = [("script %d of seed %d" % (k, tally.seed), program.run, tally.seed, k) for k in range(max(1, int(20 * tally.seconds)))]
    for (name, *_), outcome in zip(cases, outcomes(cases, counted_case)):
        wrong, told = outcome if isinstance(outcome, tuple) else (outcome, {})
        tally.tell(name, wrong)
        counts.update(told)
    # the model is held to the table too, which was made without it
    known = [case for case in tables.read_table("pairs.txt") if case.words == ["verify"]]
    tally.each([(case.name, program.run, case.stdin, case.answer) for case in known], difference)
    tally.note("verdicts of the model and the program: %s" % ", ".join("%d %s" % (counts[it], it) for it in sorted(counts)))
