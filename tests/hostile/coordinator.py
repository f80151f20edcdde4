"""The coordinator: random sessions and random lines beside the model, noise, cut lines, refused memory, failing calls, closed pipes, logs.

Each line gets the model's answer; where memory is refused, `no memory` in its place, or the status 8 before anything is written; where a
write fails, status 7 and a front of the right text; where a write of the log fails, status 11 and the replies to what stands in it.
"""

import errno
import os
import random
import subprocess
import time

import coordinator_model
from coordinator_model import Model
from program import WRITE_FAULT, Answer, outcomes, short

STREAMS = 4     # how many sessions run at one time
VERBS = ["open", "at", "spawn", "send", "arrive", "wait", "release", "end", "death", "join", "root"]
WORDS = ["t0", "t1", "t2", "t01", "t", "s1", "0", "1", "15", "16", "255", "256", "00", "-1", "+1", "", " ", "\t", "t4294967295", "t4294967296",
         "999999999", "1000000000", "t-1", "t1x", "\r", "x", "thrown", "T0"]


def near_state(rng, model):
    """A request that has a good chance of being allowed."""
    moving = [task for task in model.tasks.values() if task.lost_at is None and not task.waits and task.source is None]
    travelling = [task for task in model.tasks.values() if task.lost_at is None and task.source is not None]
    waiting = [task for task in model.tasks.values() if task.lost_at is None and task.waits and task not in model.parked]
    kinds = ["join", "death", "root"]
    kinds += ["open", "at", "spawn", "send", "wait", "end"] * 6 if moving else []
    kinds += ["arrive"] * 12 if travelling else []
    kinds += ["release"] * 12 if waiting else []
    verb = rng.choice(kinds)
    if verb == "join":
        return "join" if rng.random() < 0.3 else "death %d" % rng.randrange(17)
    if verb == "death":
        return "death %d" % rng.randrange(1, max(2, model.places)) if rng.random() < 0.3 else "join"
    if verb == "root":
        return "root"
    pool = travelling if verb == "arrive" else waiting if verb == "release" else moving
    number = rng.choice(pool).number if rng.random() < 0.95 else rng.randrange(model.next_task + 2)
    if verb in ("at", "spawn", "send"):
        return "%s t%d %d" % (verb, number, rng.randrange(model.places + (rng.random() < 0.1)))
    faults = "".join(" %d" % rng.choice([0, 7, 42, 999999999]) for _ in range(rng.choice([0, 0, 0, 1, 3])))
    return "%s t%d%s" % (verb, number, faults if verb in ("wait", "end") else "")


def random_line(rng):
    """A line of words that are often near to those of a request."""
    words = [rng.choice(VERBS + ["", "Open", "opens"])] + [rng.choice(WORDS) for _ in range(rng.choice([0, 1, 1, 2, 2, 3, 5]))]
    line = " ".join(words)
    if rng.random() < 0.05:
        line = "".join(chr(rng.randrange(256)) for _ in range(rng.randrange(30))).replace("\n", " ")
    if rng.random() < 0.01:
        line += " 1" * rng.choice([2040, 2044, 2045, 2046, 2047, 2048, 3000])
    return line


def asked(seed, size):
    """The requests of a session, its answers with the greeting, the model after it, and the number of places that it opens with."""
    rng = random.Random(seed)
    places = rng.choice([1, 1, 2, 3, 4, 8, 16])
    model = Model(places)
    lines, replies = [], [model.greeting()]
    strange = rng.choice([0.0, 0.02, 0.3])
    for _ in range(size):
        line = random_line(rng) if rng.random() < strange else near_state(rng, model)
        lines.append(line)
        replies += model.ask(line)
    return places, lines, replies, model


def session(seed, size):
    """The requests of a session, and its answers, as texts, with the number of places that it opens with."""
    places, lines, replies, _ = asked(seed, size)
    return places, text_of(lines), text_of(replies)


def text_of(lines):
    return "".join(line + "\n" for line in lines).encode("latin-1")


def told(program, places, text, **disturbed):
    """What the program answers to a text."""
    return program.run(["--places", str(places)], text, **disturbed)


def first_difference(wanted, got):
    """A few words that tell where two answers part."""
    for number, (a, b) in enumerate(zip(wanted.split(b"\n"), got.split(b"\n"))):
        if a != b:
            return "line %d of the answers: %r in place of %r" % (number + 1, b, a)
    return "%d bytes in place of %d" % (len(got), len(wanted))


def right(answer, wanted):
    """None where the answer is this one, and the session ended well."""
    if (answer.status, answer.err) != (0, b""):
        return short(answer)
    return None if answer.out == wanted else first_difference(wanted, answer.out)


def some_sessions(program, seconds, seed, first):
    """Each STREAMS-th random session from this one on, for so many seconds: how many, their lines, and the complaints with their numbers."""
    end, number, lines, wrong = time.monotonic() + seconds, first, 0, []
    while time.monotonic() < end:
        places, text, wanted = session("%d/%d" % (seed, number), 400)
        found = right(told(program, places, text), wanted)
        if found:
            wrong.append((number, found))
        lines += text.count(b"\n")
        number += STREAMS
    return (number - first) // STREAMS, lines, wrong


def sessions(program, tally, seconds, seed):
    """Random sessions beside the model, which take so many seconds of a processor."""
    count, lines = 0, 0
    cases = [("sessions of seed %d, from %d on" % (seed, first), program, seconds / STREAMS, seed, first) for first in range(STREAMS)]
    for (name, *_), outcome in zip(cases, outcomes(cases, some_sessions)):
        if isinstance(outcome, str):
            tally.tell(name, outcome)
            continue
        for number, found in outcome[2]:
            tally.tell("session %d/%d" % (seed, number), found)
        for _ in range(outcome[0] - len(outcome[2])):
            tally.tell(name, None)
        count, lines = count + outcome[0], lines + outcome[1]
    tally.note("coordinator: %d random sessions, %d lines" % (count, lines))


def noise(program, tally, seed):
    """Bytes of no form, a line that never ends, many empty lines, and fronts of a session."""
    rng = random.Random(seed)
    places, text, _ = session("front", 40)
    cases = [("noise", 1, bytes(rng.randrange(256) for _ in range(100_000))), ("no end", 1, b"open t0 " * 20_000), ("zeros", 1, bytes(70_000) + b"\n"),
             ("empty", 3, b""), ("lines", 2, b"\n" * 70_000)]
    cases += [("front %d" % cut, places, text[:cut]) for cut in range(0, len(text), 7)]
    tally.each([(name, program, many, given) for name, many, given in cases],
               lambda program, many, given: right(told(program, many, given), coordinator_model.answers(given, many)))


# Where memory is refused.

def refused_complaint(places, text, answer, alone, log=None):
    """None where each line has the model's answer, or `no memory`, or where nothing is written and the status is 8. Each release that
    waited is told once, behind a later reply if memory ran out for it; and not at all where it is refused to the end. A log has the
    entries of what was answered."""
    if (answer.status, answer.out, answer.err) == (8, b"", b"no memory\n"):
        return "the log has %r" % log if log else None
    got = answer.out.decode("latin-1").split("\n")
    if (answer.status, answer.err) != (0, b"") or got.pop() != "":
        return short(answer)
    model, late, in_time = Model(places), [], True
    if not got or got.pop(0) != model.greeting():
        return short(answer)
    for line in text.decode("latin-1").split("\n")[:-1]:
        if not got:
            return "the answer to %r is missing" % line
        reply = got.pop(0)
        if reply != "no memory":
            first, *freed = model.ask(line)
            late += freed
            if reply != first:
                return "%r in place of %r" % (reply, first)
        while got and got[0].startswith("freed"):
            if got[0] not in late:
                return "%r is told, and not right" % got[0]
            late.remove(got.pop(0))
        in_time = in_time and not late
    if got or late and alone:
        return "%r is not told, %r is too much" % (late, got)
    # (where a release was told late, the model's entries stand in another order)
    if log is not None and in_time and log != text_of(model.entries):
        return "the log: " + first_difference(text_of(model.entries), log)
    return None


def refused(program, places, text, refusal, has_log=False):
    """What is wrong where this refusal comes (ALLOC or ALLOC_FROM, and a number)."""
    words = ["--places", str(places)] + (["--log", fresh(program)] if has_log else [])
    answer, counts = program.counted(words, text, **refusal)
    wrong = refused_complaint(places, text, answer, "alloc" in refusal, written(program) if has_log else None)
    if wrong is None and (counts is None or counts[5] != 0):
        return "%s blocks are not given back" % (counts and counts[5])
    return wrong


def memory(program, tally):
    """Each allocation of a session is refused in turn, alone, or with all later ones."""
    places, text, _ = session("memory", 1500)
    _, counts = program.counted(["--places", str(places)], text, alloc=0)
    cases = [("allocation %d refused (%s)" % (n, way), program, places, text, {way: n})
             for way in ("alloc", "alloc_from") for n in range(1, counts[0] + 2)]
    places, text, _ = session("memory", 300)
    _, more = program.counted(["--places", str(places), "--log", fresh(program)], text, alloc=0)
    cases += [("allocation %d refused (%s), with a log" % (n, way), program, places, text, {way: n}, True)
              for way in ("alloc", "alloc_from") for n in range(1, more[0] + 2)]
    tally.each(cases, refused)
    tally.note("coordinator: each of %d allocations was refused, and of %d with a log" % (counts[0], more[0]))


# The log.

def log_path(program):
    """A file for a log, which no other process of these tests writes."""
    return program.folder / ("log-%d" % os.getpid())


def fresh(program):
    """The name of that file, which is not there."""
    log_path(program).unlink(missing_ok=True)
    return str(log_path(program))


def written(program):
    """What stands in it."""
    return log_path(program).read_bytes() if log_path(program).exists() else b""


def logged(program, seed, size):
    """None where the answers and the log of a session are the model's."""
    places, lines, replies, model = asked(seed, size)
    answer = program.run(["--log", fresh(program), "--places", str(places)], text_of(lines))
    wrong = right(answer, text_of(replies))
    if wrong is None and written(program) != text_of(model.entries):
        return "the log: " + first_difference(text_of(model.entries), written(program))
    return wrong


def cut_off(program, seed, size, n):
    """None where a session ends with its first write of the log that fails: the log has a front of the entries' text, and the output the
    replies to the entries that stand there whole, and no more."""
    places, lines, _, _ = asked(seed, size)
    answer = program.run(["--places", str(places), "--log", fresh(program)], text_of(lines), log=n)
    log, model = written(program), Model(places)
    out, whole = [model.greeting()], log.count(b"\n")
    for line in lines:
        replies = model.ask(line)
        if len(model.entries) > whole:
            break
        out += replies
    if len(model.entries) <= whole:
        return None if (answer.status, answer.err, answer.out) == (0, b"", text_of(out)) else short(answer)
    if (answer.status, answer.err) != (11, b"log fault\n") or not text_of(model.entries).startswith(log):
        return short(answer)
    # (of the line at which it failed some releases may be told, those whose entries are there)
    rest = answer.out[len(text_of(out)):]
    return None if answer.out.startswith(text_of(out)) and text_of(replies).startswith(rest) else first_difference(text_of(out), answer.out)


def in_order(program, seed, size):
    """None where each entry's line comes before its reply, and both in the model's order. Log and output go to one pipe."""
    places, lines, _, _ = asked(seed, size)
    answer = program.run(["--places", str(places), "--log", "/dev/stdout"], text_of(lines), read_max=300)
    model, got, told, known = Model(places), answer.out.decode("latin-1").split("\n")[:-1], 0, 0
    wanted = [(0, model.greeting())]
    for line in lines:
        before = len(model.entries)
        replies = model.ask(line)
        # (the first reply tells of all new entries but those of the releases behind it)
        wanted += [(len(model.entries) - (len(replies) - 1 - k), reply) for k, reply in enumerate(replies)]
        assert before <= wanted[-1][0]
    for line in got:
        if known < len(model.entries) and line == model.entries[known]:
            known += 1
        elif told < len(wanted) and line == wanted[told][1]:
            if known < wanted[told][0]:
                return "%r comes before the entry %r" % (line, model.entries[known])
            told += 1
        else:
            return "%r is neither the next entry nor the next reply" % line
    return None if (told, known, answer.status) == (len(wanted), len(model.entries), 0) else short(answer)


def logs(program, tally):
    """Logs beside the model; a write of the log that fails; a full disk; files that can't be a log."""
    tally.each([("log of session %d" % n, program, "log %d" % n, 60) for n in range(40)], logged)
    tally.each([("write %d of a log fails" % n, program, "cut", 80, n) for n in range(1, 60)], cut_off)
    tally.each([("log and output in one pipe, session %d" % n, program, "pipe %d" % n, 120) for n in range(8)], in_order)
    full = program.run(["--log", "/dev/full"], b"bad\nopen t0\nopen t0\n")
    wanted = Answer(11, text_of([Model(1).greeting(), "malformed"]), b"log fault\n")
    tally.tell("a log on a full disk", None if full == wanted else short(full))
    empty = log_path(program)
    empty.write_bytes(b"")
    done = program.run(["--log", str(empty)], b"end t0\n")
    tally.tell("a log that is there and empty", None if (done.status, empty.read_bytes()) == (0, b"0 end t0\n") else short(done))
    for name, path in [("has bytes", str(empty)), ("is a folder", str(program.folder)), ("has no folder", str(program.folder / "no" / "log")),
                       ("has no name", "")]:
        kept = empty.read_bytes()
        done = program.run(["--log", path], b"end t0\n")
        good = (done.status, done.out) == (12, b"") and done.err.startswith(b"no log: ") and done.err.count(b"\n") == 1
        tally.tell("a log that " + name, None if good and empty.read_bytes() == kept else short(done))
    empty.unlink()
    for words in (["--log"], ["--log", "a", "--log", "b"], ["--places", "2", "--log"], ["--log", "a", "--places"], ["--log", "a", "x"]):
        tally.tell("the words " + " ".join(words), None if program.run(words, b"").status == 2 else "the status is another one")


# Where the outside fails.

def failed(program, places, text, wanted, disturbed, status, err):
    """None where the session ends with this status and a front of the right text, or is right where nothing failed."""
    answer = told(program, places, text, **disturbed)
    if answer == Answer(0, wanted, b""):
        return None
    if (answer.status, answer.err) == (status, err) and wanted.startswith(answer.out):
        return None
    return short(answer)


def outside(program, tally):
    """Each read and each write of a session fails; reads and writes are short; the output is full or closed."""
    places, text, wanted = session("outside", 120)
    cases = []
    for n in range(1, 40):
        for error in (errno.EIO, errno.EINTR, errno.ENOSPC):
            cases.append(("read %d fails" % n, program, places, text, wanted, {"read": n, "read_max": 97, "errno": error}, 6, b"read fault\n"))
            cases.append(("write %d fails" % n, program, places, text, wanted, {"write": n, "read_max": 97, "errno": error}, *WRITE_FAULT))
    tally.each(cases, failed)
    for most in (1, 2, 7, 100):
        tally.tell("pieces of %d bytes" % most, right(told(program, places, text, read_max=most, write_max=most), wanted))
    for name, out in [("a full disk", "/dev/full"), ("no output", None)]:
        shell = ["sh", "-c", 'exec "$0" %s' % (">" + out if out else ">&-"), program.path]
        done = subprocess.run(shell, input=text, capture_output=True, timeout=60, check=False)
        tally.tell(name, None if (done.returncode, done.stderr) == WRITE_FAULT else short(Answer(done.returncode, done.stdout, done.stderr)))


def run(program, tally):
    """All parts, for the built program."""
    noise(program, tally, tally.seed)
    memory(program, tally)
    outside(program, tally)
    logs(program, tally)
    sessions(program, tally, tally.seconds, tally.seed)
