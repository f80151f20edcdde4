"""Cut inputs by every command that takes them: scripts by `step`, `live`, a watched run, `verify` and `span`, and pairs of a script and a
trace. What `check` answers to a cut script the tables have; what the trace of a whole one is machine.py computes."""

from judges import answered, judged_as, watched_complaint
from machine import run_of
from program import Answer
from tables import paired, read_table, script


def cut_script(program, text, checked):
    """A cut script, by each command but `check`, which answers so."""
    if checked.status > 1:
        found = None
        for words in (["step"], ["live"], ["live", "--watch", "1", "--workers", "3"]):
            found = found or answered(program, words, text, checked)
        given = paired(text, b"rx10 trace 2\n")
        return found or answered(program, ["verify"], given, checked) or answered(program, ["span"], given, checked)
    run = run_of(["step"], text)
    trace = run.text()
    found = answered(program, ["step"], text, Answer(run.status(), trace, b""))
    found = found or judged_as(program, text, run.history, trace)
    return found or watched_complaint(program, text, program.run(["live", "--workers", "3", "--watch", "2"], text), 2)


def cut_pair(program, text, trace, length):
    """The first bytes of a pair. Of a trace that is cut the line is bad at which it is."""
    given = paired(text, trace)[:length]
    front = paired(text, b"")
    wanted = Answer(9, b"", b"bad pair\n")
    if length >= len(front):
        wanted = Answer(10, b"", b"bad line %d\n" % (1 + given.count(b"\n", len(front))))
    return answered(program, ["verify"], given, wanted) or answered(program, ["span"], given, wanted)


def run(program, tally):
    """Cut scripts; every front of one pair, and of a longer one every 23rd, or all."""
    tally.each([(case.name, program, case.stdin, case.answer) for case in read_table("prefixes.txt")
                if case.words == ["check"] and (tally.is_long or case.cut is None or case.cut % 4 == 0 or case.script == "ordinary_case")],
               cut_script)
    cases = []
    for name, words, step in (("stale_reference", ["step"], 1), ("realistic_script", ["step", "--places", "8", "--kill", "3@5", "--seed", "5"], 23)):
        text = script(name)
        trace = run_of(words, text).text()
        cases += [("the first %d bytes of the pair of %s" % (length, name), program, text, trace, length)
                  for length in range(0, len(paired(text, trace)), 1 if tally.is_long else step)]
    tally.each(cases, cut_pair)
