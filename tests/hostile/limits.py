"""Small limits and signals: address space, stack, strange words, and signals at every call and at random moments.

No answer is wrong, no run hangs, and a text that ends without being whole never comes with status 0 or 1.
"""

import random
import signal
import subprocess
import time

from chains import span_answer
from judges import RUN, differs
from machine import run_of, step_answer
from program import NO_MEMORY, Answer, complaint, is_front, shape_complaint, short
from tables import answer_of, live_answers, paired, script

KIB = 1024
LEAST_STACK = 64 * KIB      # with no environment and few words, which lie on the stack too; docs/trust.md says what was measured

AMPLE = 64 * KIB            # KiB of address space in which each of these runs but those of `live` has all of its memory

# Ends of what the system could not start: the starter's and the loader's; and where the stack is less than the least, the kernel's.
NOT_STARTED = (126, 127)
NO_STACK = (126, 127, -signal.SIGKILL, -signal.SIGSEGV, -signal.SIGBUS)

# Inputs of 64 KiB with one construct in itself, and what is said of them.
NESTED = [
    (b"finish{" * 8192 + b"}" * 8192, 4, b"bad 3 33\n"),
    (b"finish {" * 8192, 3, b"syntax 65536\n"),
    (b"try{" * 4600 + b"}catch{}" * 4600, 4, b"bad 3 33\n"),
    (b"try{}catch{" * 5461 + b"}" * 5461, 4, b"bad 3 33\n"),
    (b"if 0{" * 4300 + b"}else{}" * 4300, 4, b"bad 3 33\n"),
    (b"if 0{}else{" * 5461 + b"}" * 5461, 4, b"bad 3 33\n"),
    (b"repeat 1{" * 6553 + b"}" * 6553, 4, b"bad 3 33\n"),
    (b"at 0{" * 10000 + b"}" * 10000, 4, b"bad 3 33\n"),
    (b"at 0 async{" * 5000 + b"}" * 5000, 4, b"bad 3 33\n"),
    (b"async{" * 9000 + b"}" * 9000, 4, b"bad 3 33\n"),
    (b"print " + b"(" * 65000 + b"1", 3, b"syntax 65007\n"),
    (b"print " + b"(" * 16000 + b"1" + b"+1)" * 16000 + b";", 4, b"bad 3 0\n"),
    (b"print " + b"(1+" * 16000 + b"1" + b")" * 16000 + b";", 4, b"bad 3 0\n"),
    (b"get x=" + b"x[" * 30000, 3, b"syntax 9\n"),
    (b"{" * 65536, 3, b"syntax 0\n"),
    (b"}" * 65536, 3, b"syntax 0\n"),
    (b"a" * 65536, 3, b"syntax 0\n"),
    (b"print " + b"1" * 65530, 3, b"syntax 6\n"),
    (b"\xff" * 65536, 3, b"syntax 0\n"),
    (b"\0" * 65536, 3, b"syntax 0\n"),
]

# Scripts that are accepted and deep or long, each of them run.
DEEP = [
    b"finish{" * 32 + b"print 1;" + b"}" * 32,
    b"at 1{" * 16 + b"at 0{" * 16 + b"print " + b"(" * 32 + b"1" + b"+1)" * 32 + b";" + b"}" * 32,
    b"try{" * 32 + b"throw 1;" + b"}catch dead{}" * 32,
    b"finish{}" * 8192,
    b"async{}" * 9362,
    b"finish{repeat 3000{at 1 async{new a=1;}}}",
    b"set a=1;" + b"set a=(a+a);" * 5460,
    b"#" * 65536,
]

WORDS = [
    (["step", "x" * 131000], 1), (["x" * 131000], 0), (["step", *["x"] * 20000], 1), (["step", "--pick", "1," * 60000], 2),
    (["step", "--pick", ",".join(["1"] * 60000)], None), ([b"step", b"--kill", b"\xff@\xfe"], 2), ([b"\x01"], 0), ([""], 0),
    (["step", ""], 1), (["step", "--seed", "18446744073709551616"], 2), (["step", "--seed", "9" * 5000], 2),
    (["step", "--kill", "1@1", "--kill", "1@2"], 4), (["step", "--pick", "1", "--seed", "1"], 3),
    (["gen", "--size", "10001"], 2), (["gen", "--size", "1", "--size", "1"], 3), (["check", "check"], 1), (["step", "--places", "-1"], 2),
    (["step", "--heap", "4097"], 2), (["step", "--heap", "0"], 2), (["step", "--kill", "1@1000001"], 2),
    (["step", "--join", "1000001"], 2), ([b"step", b"--join", b"\xff"], 2), (["step", "--join", "1" * 5000], 2), (["gen", "--join", "1"], 1),
    (["step", *["--join", "1"] * 9000], 30), (["step", "--places", "16", "--join", "1"], 4), (["step", *["--join", "1"] * 14], None),
    (["step", "--places", "2", "--join", "5", "--kill", "2@4"], 6), (["step", "--places", "2", "--join", "5", "--kill", "2@5"], None),
]


def rows(program):
    """Name, words, input and right answers of what is run under small limits."""
    found = []
    for name, words in [("ordinary_case", "step"), ("at_waits_for_orphans", "step --places 3 --kill 1@6"), ("realistic_script", "check"),
                        ("realistic_script", "step --places 8 --kill 3@5 --seed 5"), ("none", "gen --size 400")]:
        found.append((words + " of " + name, words.split(" "), script(name), [answer_of(name, words)]))
    for name, words in [("at_waits_for_orphans", "step --places 3 --kill 1@6"), ("realistic_script", "step --places 8 --kill 3@5 --seed 5")]:
        run = run_of(words.split(" "), script(name))
        given = paired(script(name), run.text())
        for command, wanted in (("verify", RUN), ("span", span_answer(script(name), run.history))):
            found.append(("%s of %s by %s" % (command, name, words), [command], given, [wanted]))
    for name, words in [("ordinary_case", "live"), ("at_waits_for_orphans", "live --places 3 --kill 1@6")]:
        for workers in "14":
            line = [*words.split(" "), "--workers", workers]
            found.append((" ".join(line) + " of " + name, line, script(name), live_answers(name, words)))
    return found


def large(program):
    """Runs that want much memory. Their own answers are those of a run without limits."""
    run = run_of(["step"], DEEP[5])
    given = paired(DEEP[5], run.text())
    for words, stdin in ((["gen", "--size", "3000"], b""), (["step"], DEEP[5]), (["step", "--places", "4", "--kill", "1@2000"], DEEP[5])):
        yield " ".join(words) + " (large)", words, stdin, [program.run(words, stdin)]
    for command, wanted in (("verify", RUN), ("span", span_answer(DEEP[5], run.history))):
        yield command + " (large)", [command], given, [wanted]


def limited(program, words, stdin, wanted, limit, ends, others=(NO_MEMORY,)):
    """Its own answer, one of the others, or one of these ends with nothing written."""
    answer = program.run(words, stdin, [limit])
    if answer.status in ends and not answer.out:
        return None
    return complaint(answer, wanted, others)


def address_space(program, tally):
    cases = []
    tried = rows(program)
    for k, row in enumerate([*tried, *large(program)]):
        label, words, stdin, wanted = row
        sizes = [*range(1536, 4096, 256), *range(4096, 65537, 4096)] if k < len(tried) else [*range(4096, 32768, 4096), 65536]
        for size in sizes:
            # (the loader needs room of its own, and takes none of the program's words; threads have stacks of 8 MiB)
            others = [NO_MEMORY] if size < AMPLE or words[0] == "live" else []
            cases.append(("%s in %d KiB" % (label, size), program, words, stdin, wanted, "as=%d" % (size * KIB), NOT_STARTED, others))
    tally.each(cases, limited)


def live_limited(program, words, stdin, limit):
    """A trace that is judged as a run, with its status; no memory; or an end by the loader with nothing written."""
    answer = program.run(words, stdin, [limit])
    if answer == NO_MEMORY or (answer.status in NOT_STARTED and not answer.out):
        return None
    wrong = shape_complaint(answer, ["live"])
    if wrong or answer.status not in (0, 1):
        return wrong or short(answer)
    judged = program.run(["verify"], b"rx10 pair %d\n" % len(stdin) + stdin + answer.out)
    return None if judged == Answer(0, b"run\n", b"") else "its trace is judged %s" % short(judged)


def live_address_space(program, tally):
    """Runs of `live` that want much memory, in less and less of it: each has many right answers."""
    cases = []
    for workers in (1, 4):
        for kill in ([], ["--kill", "1@2000"]):
            words = ["live", "--places", "4", *kill, "--workers", str(workers)]
            for size in [*range(2048, 32768, 2048), 65536]:
                cases.append(("%s (large) in %d KiB" % (" ".join(words), size), program, words, DEEP[5], "as=%d" % (size * KIB)))
    tally.each(cases, live_limited)


def stack(program, tally):
    cases = []
    tried = rows(program)
    for text, status, said in NESTED:
        for command in ("step", "check"):
            tried.append(("%s of %r.." % (command, text[:12]), [command], text, [Answer(status, b"", said)]))
    for text in DEEP:
        answer = program.run(["step"], text)
        tally.tell("step of %r.." % text[:12], differs(answer, step_answer(["step"], text)))
        tried.append(("step of %r.." % text[:12], ["step"], text, [answer]))
        tried.append(("verify of %r.." % text[:12], ["verify"], paired(text, answer.out), [RUN]))
    for k, (label, words, stdin, wanted) in enumerate(tried):
        sizes = (32, 40, 48, 56, 64, 96, 128, 256, 512, 1024) if k < 6 else (32, 64, 1024)
        for size in sizes:
            small = size * KIB < LEAST_STACK
            cases.append(("%s on a stack of %d KiB" % (label, size), program, words, stdin, wanted, "stack=%d" % (size * KIB),
                          NO_STACK if small else (), [NO_MEMORY] if small else []))
    tally.each(cases, limited)


def strange_words(program, tally):
    for words, bad in WORDS:
        answer = program.run(words, script("ordinary_case"))
        line = b"" if bad is None else b"usage %d\n" % bad
        label = " ".join(repr(word[:20]) for word in words[:3])
        tally.tell("words %s .." % label, None if (answer.status, answer.err) == (0 if bad is None else 2, line) else short(answer))


def at_call(program, words, stdin, wanted, raised, call):
    """The program gets this signal at a call of its own."""
    answer = program.run(words, stdin, signal=int(raised), signal_at=call)
    return ended(answer, wanted, raised) if raised in DEADLY else complaint(answer, wanted)


def ended(answer, wanted, raised):
    """None for a right answer, or an end by this signal with a text or a front of one written.

    Where no answers are given, as of a long run with threads, a right one is one of the right form.
    """
    if wanted is None:
        whole = answer.status in (0, 1) and shape_complaint(answer, ["live"]) is None
        return None if whole or (answer.status == -raised and not answer.err) else short(answer)
    if answer in wanted:
        return None
    if answer.status == -raised and not answer.err and (is_front(answer.out, wanted) or answer.out in [each.out for each in wanted]):
        return None
    return short(answer)


HARMLESS = (signal.SIGPIPE, signal.SIGCHLD, signal.SIGWINCH, signal.SIGCONT, signal.SIGURG)
DEADLY = (signal.SIGTERM, signal.SIGINT, signal.SIGHUP, signal.SIGQUIT, signal.SIGKILL, signal.SIGUSR1, signal.SIGALRM)


def signals_at_calls(program, tally):
    cases = []
    for label, words, stdin, wanted in rows(program):
        _, counts = program.counted(words, stdin)
        step = 1 if label == "step of ordinary_case" else counts[4] // 25 + 1
        for call in range(1, counts[4] + 1, step):
            for raised in (DEADLY[call % len(DEADLY)], HARMLESS[call % len(HARMLESS)]):
                cases.append(("%s, %s at call %d" % (label, raised.name, call), program, words, stdin, wanted, raised, call))
    tally.each(cases, at_call)


def at_moment(program, words, stdin, wanted, raised, delay):
    """A signal comes some time after the start: before, in or after the run. All three are right."""
    line, environment = program.words(words)
    source = program.folder / ("pair" if words[0] in ("verify", "span") else "moment")
    with open(source, "rb") as given:
        with subprocess.Popen(line, stdin=given if stdin else subprocess.DEVNULL, stdout=subprocess.PIPE, stderr=subprocess.PIPE,
                              env=environment) as started:
            time.sleep(delay)
            if raised == signal.SIGSTOP:
                started.send_signal(signal.SIGSTOP)
                time.sleep(0.01)
                started.send_signal(signal.SIGCONT)
            else:
                started.send_signal(raised)
            try:
                out, err = started.communicate(timeout=program.patience())
            except subprocess.TimeoutExpired:
                program.hangs()
                started.kill()
                return "hangs after %s" % raised.name
    answer = Answer(started.returncode, out, err)
    # (a closed pipe is harmless from the start of `main` on, and ends the program before it)
    if wanted is None or raised in (*DEADLY, signal.SIGPIPE):
        return ended(answer, wanted, raised)
    return complaint(answer, wanted)


def signals_at_moments(program, tally):
    dice = random.Random(tally.seed)
    cases = []
    source = DEEP[5]
    given = paired(source, run_of(["step"], source).text())
    (program.folder / "moment").write_bytes(source)
    (program.folder / "pair").write_bytes(given)
    lines = [["step"], ["step", "--places", "4", "--kill", "1@2000"], ["gen", "--size", "1000"], ["verify"], ["span"],
             ["live", "--places", "4", "--kill", "1@2000", "--workers", "4"]]
    for words in lines:
        stdin = given if words[0] in ("verify", "span") else b"" if words[0] == "gen" else source
        wanted = None if words[0] == "live" else [program.run(words, stdin)]
        for _ in range(25):
            raised = dice.choice([*DEADLY, *DEADLY, *HARMLESS, signal.SIGSTOP])
            delay = dice.random() * 0.08
            cases.append(("%s, %s after %.4f s" % (" ".join(words), raised.name, delay), program, words, stdin, wanted, raised, delay))
    tally.each(cases, at_moment)


def run(program, tally):
    address_space(program, tally)
    live_address_space(program, tally)
    stack(program, tally)
    strange_words(program, tally)
    signals_at_calls(program, tally)
    signals_at_moments(program, tally)
