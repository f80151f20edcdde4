"""The outside fails: reads and writes that fail, are short, or come from what is closed, full, broken or endless."""

import contextlib
import errno
import fcntl
import os
import signal
import subprocess
import threading

from chains import span_answer
from judges import RUN
from looks import Watched
from machine import run_of
from program import READ_FAULT, SECONDS, TOO_LONG, WRITE_FAULT, Answer, complaint, short
from tables import answer_of, live_answers, pair, paired, read_table, script

ROWS = [("ordinary_case", "step"), ("at_waits_for_orphans", "step --places 3 --kill 1@6"), ("stale_reference", "step"),
        ("realistic_script", "check"), ("realistic_script", "step --places 8 --kill 3@5 --seed 5")]
ERRORS = [errno.EIO, errno.EINTR, errno.EAGAIN, errno.EBADF, errno.ENOSPC]


def rows(program):
    """Name, words, input and right answers of the runs that are disturbed."""
    found = [(name, words.split(" "), script(name), [answer_of(name, words)]) for name, words in ROWS]
    for name, words in (("stale_reference", "step"), ("ordinary_case", "step --kill 1@3")):
        run = run_of(words.split(" "), script(name))
        given = paired(script(name), run.text())
        found.append(("the pair of %s by %s" % (name, words), ["verify"], given, [RUN]))
        found.append(("the pair of %s by %s" % (name, words), ["span"], given, [span_answer(script(name), run.history)]))
    flawed = next(case for case in read_table("pairs.txt") if case.cut is None and case.answer.status == 1)
    found.append((flawed.name, flawed.words, flawed.stdin, [flawed.answer]))
    for name, words in [("ordinary_case", "live"), ("at_waits_for_orphans", "live --places 3 --kill 1@6")]:
        for workers in "14":
            found.append((name, [*words.split(" "), "--workers", workers], script(name), live_answers(name, words)))
        line = [*words.split(" "), "--workers", "2", "--watch", "2"]
        found.append((name, line, script(name), Watched(live_answers(name, words), 2)))
    return found


def failing_read(program, words, stdin, wanted, n, bytes_, error):
    answer = program.run(words, stdin, read=n, read_max=bytes_, errno=error)
    # (a reader may try again after an interruption)
    return complaint(answer, [READ_FAULT] if error != errno.EINTR else [READ_FAULT, *wanted])


def failing_write(program, words, stdin, wanted, n, bytes_, error, way="write"):
    answer = program.run(words, stdin, write_max=bytes_, errno=error, **{way: n})
    again = wanted if error == errno.EINTR else []
    wrong = complaint(answer, again, write_fault=False) if again else short(answer)
    if wrong is None or ((answer.status, answer.err) == WRITE_FAULT and is_front_of(answer.out, wanted, (n - 1) * bytes_)):
        return None
    return wrong


def is_front_of(out, wanted, length):
    """Whether this is a proper front of a right text, of as many bytes as the writes before took (where each takes so many)."""
    return any(len(out) < len(each.out) and each.out.startswith(out) for each in wanted) and (length == 0 or len(out) == length)


def failing_calls(program, tally):
    cases = []
    writes = []
    for name, words, stdin, wanted in rows(program):
        label = "%s of %s" % (" ".join(words), name)
        for most in (1, 0):
            answer, counts = program.counted(words, stdin, read_max=most)
            tally.tell("%s, reads of %d bytes" % (label, most), complaint(answer, wanted))
            step = 1 if tally.is_long or name == "ordinary_case" or most == 0 else 13
            for n in range(1, counts[1] + 1, step):
                error = ERRORS[n % len(ERRORS)]
                cases.append(("%s, read %d of %d bytes fails with %d" % (label, n, most, error), program, words, stdin, wanted, n, most,
                              error))
        for most in (1, 64, 0) if words[0] != "live" and len(wanted[0].out) < 400 else (64, 0):
            answer, counts = program.counted(words, stdin, write_max=most)
            tally.tell("%s, writes of %d bytes" % (label, most), complaint(answer, wanted))
            for n in range(1, counts[2] + 1, 1 if tally.is_long or counts[2] < 300 else 61):
                # (of `live` texts of several lengths are right, so there may be no such call)
                if words[0] == "live" and most and n > min(len(each.out) for each in wanted) // most:
                    continue
                error = ERRORS[n % len(ERRORS)]
                for way in ("write", "write_zero") if n % 5 == 1 or most == 0 else ("write",):
                    writes.append(("%s, %s %d of %d bytes fails with %d" % (label, way, n, most, error), program, words, stdin, wanted, n,
                                   most, error, way))
    tally.each(cases, failing_read)
    tally.each(writes, failing_write)


@contextlib.contextmanager
def descriptor(path, flags):
    opened = os.open(path, flags)
    try:
        yield opened
    finally:
        os.close(opened)


def strange_inputs(program, tally):
    """Standard input is closed, a folder, not to be read, empty for now, or without an end."""
    words = ["step"]
    tally.tell("standard input is closed", complaint(program.run(words, b"", ["close=0"]), [READ_FAULT]))
    with descriptor("/", os.O_RDONLY) as folder:
        tally.tell("standard input is a folder", complaint(program.run(words, folder), [READ_FAULT]))
    with descriptor("/dev/null", os.O_WRONLY) as only:
        tally.tell("standard input can't be read", complaint(program.run(words, only), [READ_FAULT]))
    with descriptor("/dev/null", os.O_RDONLY) as none:
        tally.tell("standard input is empty", complaint(program.run(words, none), [answer_of("none", "step")]))
    with descriptor("/dev/zero", os.O_RDONLY) as endless:
        tally.tell("standard input has no end", complaint(program.run(words, endless), [TOO_LONG]))
    reads, writes = os.pipe()
    os.set_blocking(reads, False)
    with os.fdopen(reads, "rb", 0) as waiting, os.fdopen(writes, "wb", 0):
        tally.tell("standard input has nothing for now", complaint(program.run(words, waiting), [READ_FAULT]))
    # (a longer trace would be read, but its last line is not the last)
    for extra, wanted in ((0, 10), (1, 5), (70000, 5)):
        answer = program.run(["verify"], pair("ordinary_case", "step").ljust(16777216 + extra, b"\n"))
        tally.tell("a pair of 16,777,216 bytes and %d more" % extra, None if answer.status == wanted else short(answer))
    for extra, wanted in ((0, 0), (1, 5), (2, 5), (70000, 5)):
        answer = program.run(words, b"print 7;".ljust(65536 + extra))
        tally.tell("65,536 bytes and %d more" % extra, None if answer.status == wanted else short(answer))


def closed_outputs(program, tally):
    """Standard output is closed, full, read only or without a reader; nothing can be said on standard error."""
    name, line = "ordinary_case", "step"
    wanted, stdin, words = answer_of(name, line), script(name), line.split(" ")
    refused = Answer(7, b"", b"write fault\n")
    tally.tell("standard output is closed", complaint(program.run(words, stdin, ["close=1"]), [refused]))
    tally.tell("standard error is closed", complaint(program.run(words, stdin, ["close=2"]), [wanted]))
    for name, words_, stdin_, status in (("usage", ["gen"], b"", 2), ("syntax", ["step"], b"print", 3), ("bad", ["step"], b"print x;", 4)):
        for label, answer in (("closed", program.run(words_, stdin_, ["close=2"])), ("full", program.run(words_, stdin_, tell=1))):
            tally.tell("%s with standard error %s" % (name, label), complaint(answer, [Answer(status, b"", b"")]))
    answer = program.run(words, stdin, ["close=0", "close=1", "close=2"])
    tally.tell("all three are closed", complaint(answer, [Answer(6, b"", b"")]))
    for path, flags in (("/dev/full", os.O_WRONLY), ("/dev/null", os.O_RDONLY)):
        with descriptor(path, flags) as out:
            tally.tell("standard output is %s" % path, complaint(written_to(program, words, stdin, out), [refused]))
            tally.tell("gen's is %s" % path, complaint(written_to(program, ["gen", "--size", "3"], b"", out), [refused]))
            tally.tell("live's is %s" % path, complaint(written_to(program, ["live"], stdin, out), [refused]))
            tally.tell("a watched run's is %s" % path, complaint(written_to(program, ["live", "--watch", "9"], stdin, out), [refused]))
            for command in ("verify", "span"):
                tally.tell("%s's is %s" % (command, path), complaint(written_to(program, [command], pair("ordinary_case", line), out), [refused]))


def written_to(program, words, stdin, out, limits=()):
    line, environment = program.words(words, limits)
    done = subprocess.run(line, input=stdin, stdout=out, stderr=subprocess.PIPE, env=environment, timeout=program.patience(), check=False)
    return Answer(done.returncode, b"", done.stderr)


def full_file(program, wanted, words, stdin, room, ignored):
    """A file may have so many bytes. Where the signal for this is ignored the write is short or fails; else it ends the program."""
    path = program.folder / ("full-%d" % os.getpid())
    limits = ["file=%d" % room, *(["ignore=%d" % signal.SIGXFSZ] if ignored else [])]
    with open(path, "wb") as out:
        status, _, err = written_to(program, words, stdin, out, limits)
    answer = Answer(status, path.read_bytes(), err)
    if room >= len(wanted.out):
        return complaint(answer, [wanted])
    if answer.out != wanted.out[:room]:
        return short(answer)
    ends = [(7, b"write fault\n")] if ignored else [(-signal.SIGXFSZ, b"")]
    return None if (status, err) in ends else short(answer)


def full_disks(program, tally):
    """A file that may not grow at each length, and a file system of one page."""
    cases = []
    for name, line, step in (("ordinary_case", "step", 1), ("realistic_script", "step --places 8 --kill 3@5 --seed 5", 409)):
        wanted = answer_of(name, line)
        for room in range(0, len(wanted.out) + 2, step):
            for ignored in (True, False) if room % 16 == 0 else (True,):
                cases.append(("%s to a file of %d bytes" % (line, room), program, wanted, line.split(" "), script(name), room, ignored))
    tally.each(cases, full_file)
    name, line = "realistic_script", "step --places 8 --kill 3@5 --seed 5"
    place = program.folder / "disk"
    place.mkdir(exist_ok=True)
    source = program.folder / "source"
    source.write_bytes(script(name))
    order = 'mount -t tmpfs -o size=4096 none "$0" 2>/dev/null || exit 99; "$@" <"$SOURCE" >"$0/out"; s=$?; cat "$0/out"; exit $s'
    line_, environment = program.words(line.split(" "))
    environment.update({"PATH": os.environ.get("PATH", os.defpath), "SOURCE": str(source)})
    try:
        done = subprocess.run(["unshare", "-m", "bash", "-c", order, str(place), *line_], env=environment,
                              capture_output=True, timeout=SECONDS, check=False)
        answer = Answer(done.returncode, done.stdout, done.stderr)
    except FileNotFoundError:
        answer = Answer(99, b"", b"")
    if answer.status == 99 or b"unshare" in answer.err:
        tally.note("no file system of one page: this needs root")
        return
    wanted = answer_of(name, line)
    tally.tell("a file system of one page", complaint(answer, [Answer(7, wanted.out[:4096], b"write fault\n")]))


def readers(program, tally):
    """The reader of standard output closes after some bytes, at once, or does not read and can't be waited for."""
    name, line = "realistic_script", "step --places 8 --kill 3@5 --seed 5"
    wanted, stdin, words = answer_of(name, line), script(name), line.split(" ")
    cases = []
    for count in (0, 1, 2, 100, 1000, 3000, 4000):
        cases.append(("a reader that closes after %d bytes" % count, program, wanted, words, stdin, count))
    tally.each(cases, closing_reader)
    reads, writes = os.pipe()
    os.set_blocking(writes, False)
    while True:
        try:
            os.write(writes, b"x" * 4096)
        except BlockingIOError:
            break
    with os.fdopen(reads, "rb", 0), os.fdopen(writes, "wb", 0) as out:
        answer = written_to(program, words, stdin, out)
        tally.tell("a full pipe that is not waited for", complaint(answer, [Answer(7, b"", b"write fault\n")]))


def closing_reader(program, wanted, words, stdin, count):
    reads, writes = os.pipe()
    try:
        room = fcntl.fcntl(writes, fcntl.F_SETPIPE_SZ, 4096)
    except OSError:
        room = 65536
    line, environment = program.words(words)
    with subprocess.Popen(line, stdin=subprocess.PIPE, stdout=writes, stderr=subprocess.PIPE, env=environment) as started:
        brake = threading.Timer(program.patience(), started.kill)
        brake.start()
        os.close(writes)
        started.stdin.write(stdin)
        started.stdin.close()
        got = b""
        while len(got) < count:
            piece = os.read(reads, count - len(got))
            if not piece:
                break
            got += piece
        os.close(reads)
        said = started.stderr.read()
        status = started.wait()
        brake.cancel()
    if got != wanted.out[:count]:
        return "the reader got %r" % got[-60:]
    # (where the text fits into the pipe it may be handed on before the reader closes)
    if (status, said) == (wanted.status, wanted.err) and len(wanted.out) <= room + count:
        return None
    return None if (status, said) == WRITE_FAULT else "status %s, says %r" % (status, said)


def run(program, tally):
    failing_calls(program, tally)
    strange_inputs(program, tally)
    closed_outputs(program, tally)
    full_disks(program, tally)
    readers(program, tally)
