"""Every limit of the language and of the words, reached: each answer is compared as a whole with one that machine.py and chains.py compute.

What contracts leave free is free at every size: a program may answer `no memory` always. So each limit is reached where memory is ample,
under every command that takes it, and just past it where that is a refusal.
"""

import collections
import functools
import random

from chains import span_answer
from judges import RUN, answered, differs, judged_as, watched_complaint
from looks import looks_complaint, parted
from machine import generated, run_of, step_answer
from program import TOO_LONG, Answer, short
from reading import read_script, work_of
from tables import paired

ALL_PLACES = ["--places", "16"]
KILLS = [word for place in range(1, 16) for word in ("--kill", "%d@%d" % (place, 40 * place))]
MOST_SEED = "18446744073709551615"
MOST_PAIR = 16777216

Known = collections.namedtuple("Known", "text options trace span")

# Scripts in which no two tasks can ever go on at one time, so that all of their runs under one setup are the same.
IN_A_ROW = {
    # 399,918 entries by the work 100,000
    "entries": (b"repeat 20 {" + b"at 1{}" * 4998 + b"}" + b"at 1{}" * 19, []),
    # the place dies just before the root's release
    "a last death": (b"repeat 2 {" + b"at 1{}" * 4998 + b"}", ["--kill", "1@39985"]),
    # each statement stands in 32 blocks and has a path of 65 numbers
    "paths": (b"repeat 1{" * 31 + b"repeat 20{" + b"at 1{}" * 500 + b"}" + b"}" * 31, []),
    # 60,000 events of a place, and the greatest and the least value of a word
    "events": (b"new a = 1; set b = 9223372036854775807; set c = 0; repeat 15000 { put a[0] = b; get c = a[0]; put a[0] = (0 - b); get c = a[0]; }"
               b" print c; print ((0 - b) - 1);", ["--heap", "1"]),
    # a block of the whole heap, and 4,096 blocks of one word
    "heap": (b"new a = 4096; put a[4095] = 7; get x = a[4095]; print x; try { put a[4096] = 1; } catch { print 1; } try { new b = 1; }"
             b" catch { print 2; } forget a; repeat 4096 { new a = 1; } try { new b = 1; } catch { print 3; } forget a; new a = 1;"
             b" try { new b = 65536; } catch { print 4; }", ["--heap", "4096"]),
    "turns": (b"repeat 99999 { }", []),
    # one place, and fifteen that join
    "joins": (b"census n; print n; repeat 14 { at 0 { } census n; try { at (n - 1) { print n; } } catch { print here; } }"
              b" try { at n { } } catch { print (0 - 1); }", ["--places", "1", *(w for k in range(15) for w in ("--join", str(5 * k)))]),
    # and all of those die
    "joins and kills": (
        b"repeat 60 { census n; try { at (n - 1) { print n; at 0 { } print here; } } catch dead { print (0 - n); } }",
        ["--places", "1", *(w for k in range(15) for w in ("--join", str(20 * k))),
         *(w for k in range(15) for w in ("--kill", "%d@%d" % (k + 1, 20 * k + 27)))]),
    "moments": (b"repeat 3 { at 1 { } }", ["--kill", "1@1000000", "--join", "1000000"]),
    "kills": (b"set p = 1; repeat 15 { repeat 12 { try { at p { at 0 { at p { print here; } } } } catch dead { print p; } } set p = (p + 1); }",
              [*ALL_PLACES, *KILLS]),
    "names": (b"".join(b"set %s = %d; print %s;" % (b"%016d" % k and b"n" + b"_" * 13 + b"%02d" % k, k, b"n" + b"_" * 13 + b"%02d" % k)
                       for k in range(32)), []),
    "depth": (b"finish{" * 32 + b"print " + b"(" * 32 + b"1" + b"+9)" * 32 + b";" + b"}" * 32, []),
}
EIGHT = b"finish{repeat 8{async{repeat 2{" + b"at 1{}" * 1700 + b"}}}}"
EVERYWHERE = (b"set p = 0; finish { repeat 16 { try { at p async { repeat 60 { async { print p; new a = 3; put a[2] = p; forget a; } at 0 { } } } }"
              b" catch { } set p = (p + 1); } }")

# Scripts in which many tasks run side by side, with words of `step`.
SIDE_BY_SIDE = {
    "eight tasks": (EIGHT, []),
    "all places and kills": (EVERYWHERE, [*ALL_PLACES, *KILLS, "--heap", "4096"]),
    "all places and kills, by the greatest seed": (EVERYWHERE, [*ALL_PLACES, *KILLS, "--seed", MOST_SEED]),
    "a thousand tasks": (b"finish { repeat 1000 { at 1 async { print here; } } }", ["--kill", "1@2500", "--seed", "1"]),
    # so many wait at place 0 at one time, and as many are at work at place 1
    "150 calls": (b"finish { repeat 150 { async { at 1 { repeat 160 { print here; } } } } }", []),
}

# Limits of scripts, with what is said of them just inside (None) and just outside.
SCRIPTS = [
    (b"repeat 99999 { }", None), (b"repeat 100000 { }", (4, b"bad 5 0\n")), (b"repeat 1000000 { }", (4, b"bad 5 0\n")),
    (b"repeat 1000001 { }", (3, b"syntax 7\n")), (b"new r = 65536;", None), (b"new r = 65537;", (3, b"syntax 8\n")),
    (b"finish{" * 32 + b"print 1;" + b"}" * 32, None), (b"finish{" * 33 + b"print 1;" + b"}" * 33, (4, b"bad 3 33\n")),
    (b"print " + b"(" * 32 + b"1" + b"+1)" * 32 + b";", None), (b"print " + b"(" * 33 + b"1" + b"+1)" * 33 + b";", (4, b"bad 3 0\n")),
    (b"".join(b"set n%d = 1; " % k for k in range(32)), None), (b"".join(b"set n%d = 1; " % k for k in range(33)), (4, b"bad 4 32\n")),
    (b"set abcdefghijklmnop = 1;", None), (b"set abcdefghijklmnopq = 1;", (3, b"syntax 4\n")),
    (b"print 9223372036854775807;", None), (b"print 9223372036854775808;", (3, b"syntax 6\n")),
    (b"print 7;".ljust(65536), None), (b"#".ljust(65536, b"#"), None), (b"print 7;".ljust(65533) + b"set", (3, b"syntax 65536\n")),
]


@functools.lru_cache(None)
def known(name):
    """A script without a choice: its text, the words, the answer of `step`, and that of `span`."""
    text, options = IN_A_ROW[name]
    run = run_of(["step", *options], text)
    return Known(text, options, Answer(run.status(), run.text(), b""), span_answer(text, run.history))


def in_a_row(program, name):
    """One script without a choice, by every command that starts no thread."""
    it = known(name)
    found = answered(program, ["check"], it.text, Answer(0, b"work %d\n" % work_of(read_script(it.text)), b""))
    for words in ([], ["--seed", MOST_SEED]):
        found = found or answered(program, ["step", *it.options, *words], it.text, it.trace)
    given = paired(it.text, it.trace.out)
    return found or answered(program, ["verify"], given, RUN) or answered(program, ["span"], given, it.span)


def live_in_a_row(program, name, workers):
    """The same by workers, without and with looks."""
    it = known(name)
    words = ["live", *it.options, "--workers", str(workers)]
    found = answered(program, words, it.text, it.trace)
    for count in (1, 40, 1000) if len(it.trace.out) < 1000000 else (1000,):
        answer = program.run([*words, "--watch", str(count)], it.text)
        found = found or differs(answer._replace(out=parted(answer.out)[0]), it.trace) or looks_complaint(answer.out, count)
    return found


def side_by_side(program, name):
    text, options = SIDE_BY_SIDE[name]
    run = run_of(["step", *options], text)
    wanted = Answer(run.status(), run.text(), b"")
    return answered(program, ["step", *options], text, wanted) or judged_as(program, text, run.history, wanted.out)


def live_side_by_side(program, name, workers):
    """A run of many, by workers."""
    text, options = SIDE_BY_SIDE[name]
    words = ["live", *options, "--workers", str(workers), "--watch", "1000"]
    if "--seed" in words:
        del words[words.index("--seed"):words.index("--seed") + 2]
    return watched_complaint(program, text, program.run(words, text), 1000)


# Two tasks wait at place 0, one of them through the whole run. What the other waits for may end just before the other is in its queue.
WAITING = b"finish { async { repeat 16000 { finish { at 1 async { } } } } }"


def none_is_forgotten(program, workers):
    """A task that waits is called also if its call comes first: some runs of 16,000 such moments come to their end."""
    for _ in range(4):
        answer = program.run(["live", "--workers", str(workers)], WAITING)
        found = answered(program, ["verify"], paired(WAITING, answer.out), RUN) if answer.status == 0 else short(answer)
        if found:
            return found
    return None


def all_picks(program):
    """A list of 100,000 picks, and one of 100,001."""
    dice = random.Random(5)
    picks = [dice.randrange(1000001) for _ in range(99999)] + [1000000]
    kept = program.folder / "picks"
    kept.write_text(",".join(map(str, picks)))
    wanted = step_answer(["step", "--pick", kept.read_text()], EIGHT)
    found = answered(program, ["step", "--pick", "x"], EIGHT, wanted, last=kept)
    kept.write_text(",".join(map(str, [*picks, 0])))
    return found or answered(program, ["step", "--pick", "x"], EIGHT, Answer(2, b"", b"usage 2\n"), last=kept)


def longest_gen(program, options):
    """The longest generated script, whose work is half of what may be."""
    words = ["gen", "--size", "10000", *options]
    run = run_of(words, generated(10000, int(options[1])))
    return answered(program, words, b"", Answer(run.status(), run.numbers(), b""))


def too_long_gen(program):
    return answered(program, ["gen", "--size", "10001"], b"", Answer(2, b"", b"usage 2\n"))


def longest_pair(program):
    """A pair of 16,777,216 bytes, and one of a byte more."""
    front = b"repeat 1{" * 31 + b"repeat 20{" + b"at 1{}" * 3578 + b"}" + b"}" * 31
    run = run_of(["step"], front)
    trace = run.text()
    left = MOST_PAIR - len(trace) - len(b"rx10 pair 65536\n")
    assert len(front) < left <= 65536, left
    for more in (0, 1):
        # (what fills it up is a comment at the end of the script)
        text = front + b"#" * (left + more - len(front))
        given = paired(text, trace)
        assert len(given) == MOST_PAIR + more
        for command, wanted in (("verify", RUN), ("span", span_answer(front, run.history))):
            found = answered(program, [command], given, TOO_LONG if more else wanted)
            if found:
                return found
    return None


def late_flaw(program, change, wanted):
    """A trace of 399,918 entries with a flaw at its end."""
    it = known("entries")
    lines = it.trace.out.split(b"\n")
    change(lines)
    given = paired(it.text, b"\n".join(lines))
    return answered(program, ["verify"], given, wanted) or answered(program, ["span"], given, wanted)


def replaced(number, text):
    def change(lines):
        lines[number] = text
    return change


def dropped(number):
    def change(lines):
        del lines[number]
    return change


# (the last lines are the end of t0, the root's release, two journals, `done`, and what is after the last newline)
LATE = [
    ("a path", replaced(-10, b"399912 at t0 s99979 in s0 t99979 0 1 18"), Answer(1, b"entry 399912\n", b"")),
    ("a loss", replaced(-5, b"399917 release host s0 lost 1"), Answer(1, b"entry 399917\n", b"")),
    ("no release", dropped(-5), Answer(1, b"end\n", b"")),
    ("no last line", dropped(-2), Answer(10, b"", b"bad line 399926\n")),
    ("an event", replaced(-2, b"0 5 close\ndone"), Answer(1, b"event 1 0\n", b"")),
]


def script_limit(program, text, refusal):
    """A script at a limit, by each command that takes one."""
    wanted = Answer(refusal[0], b"", refusal[1]) if refusal else None
    run = None if refusal else run_of(["step"], text)
    trace = run.text() if run else b"rx10 trace 2\n"
    work = None if refusal else Answer(0, b"work %d\n" % work_of(read_script(text)), b"")
    found = answered(program, ["check"], text, wanted or work)
    for words in (["step"], ["live"], ["live", "--workers", "8"]):
        found = found or answered(program, words, text, wanted or Answer(run.status(), trace, b""))
    for command, own in (("verify", RUN), ("span", None if refusal else span_answer(text, run.history))):
        found = found or answered(program, [command], paired(text, trace), wanted or own)
    return found


def workers_at_work(program, workers, watch):
    """Each worker makes turns, where there are as many tasks with long turns: each thread that makes some takes memory for them."""
    text = b"finish{repeat 8{async{set x = 0;repeat 20{repeat 80{set x = 1;}print x;}}}}"
    words = ["live", "--workers", str(workers), *(["--watch", "1000"] if watch else [])]
    wanted, seen = workers + (1 if watch else 0), []
    for _ in range(20):
        answer, counts = program.counted(words, text, nap=20)
        if answer.status != 0:
            return short(answer)
        if counts[3] < wanted - 1:
            return "%d threads are started, and %d must be" % (counts[3], wanted - 1)
        seen.append(counts[6])
        if seen[-1] >= wanted:
            return None
    return "%s threads made turns in 20 runs, and %d can" % (seen, wanted)


def run(program, tally):
    for name in IN_A_ROW:
        known(name)
    cases = [("the longest pair", longest_pair), ("100,000 picks", all_picks)]      # (those that take long come first)
    cases += [("%s, by `live` with %d workers" % (name, workers), live_in_a_row, name, workers) for name in IN_A_ROW
              for workers in ((1, 8) if name in ("entries", "kills") else (8,))]
    cases += [("%s, by `step`" % name, in_a_row, name) for name in IN_A_ROW]
    cases += [("a long trace with a flaw at its end: %s" % name, late_flaw, change, wanted) for name, change, wanted in LATE]
    # (on one place, and on all of them with a death of each)
    cases += [("the longest generated script, %s" % " ".join(options[:2]), longest_gen, options)
              for options in (["--places", "1"], [*ALL_PLACES, "--heap", "4096", *KILLS, "--seed", MOST_SEED])]
    cases += [("%s, by `step`" % name, side_by_side, name) for name in SIDE_BY_SIDE]
    cases += [("%s, by `live` with %d workers" % (name, workers), live_side_by_side, name, workers) for name in SIDE_BY_SIDE
              for workers in (1, 2, 8)]
    cases += [("one waits beside another, by %d workers" % workers, none_is_forgotten, workers) for workers in (2, 8)]
    cases += [("a script at a limit: %r.." % text[:20], script_limit, text, refusal) for text, refusal in SCRIPTS]
    cases += [("a generated script that is too long", too_long_gen)]
    tally.each(cases, lambda judge, *given: judge(program, *given))
    tally.each([("%d workers%s" % (workers, ", watched" if watch else ""), program, workers, watch)
                for workers in (1, 2, 3, 8) for watch in (False, True)], workers_at_work)
