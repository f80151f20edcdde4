"""Whole answers held to those that the models compute."""

from chains import span_answer
from looks import history_of, looks_complaint, parted
from program import Answer, short
from tables import paired

RUN = Answer(0, b"run\n", b"")


def differs(answer, wanted):
    """None where two answers are the same; else where they differ first."""
    if answer == wanted:
        return None
    if answer[::2] != wanted[::2]:
        return "%s, in place of status %s, says %r" % (short(answer), wanted.status, wanted.err[-80:])
    one, two = (it.out.split(b"\n") + [b"(the end)"] for it in (answer, wanted))
    number = next(n for n in range(len(one)) if one[n] != two[n])
    return "line %d is %r, in place of %r" % (number + 1, one[number][:80], two[number][:80])


def answered(program, words, text, wanted, **told):
    return differs(program.run(words, text, **told), wanted)


def judged_as(program, text, history, trace):
    """`verify` and `span` on a script and the trace of a run of it."""
    given = paired(text, trace)
    return answered(program, ["verify"], given, RUN) or answered(program, ["span"], given, span_answer(text, history))


def watched_complaint(program, text, answer, count):
    """What is wrong with the answer of a run by workers that is watched: its status, its looks, and its trace as `verify` and `span` see it."""
    trace, _ = parted(answer.out)
    history = history_of(trace)
    if not history or answer.err or answer.status != int(" lost " in history[-1] or " thrown " in history[-1]):
        return short(answer)
    return looks_complaint(answer.out, count) or judged_as(program, text, history, trace)
