"""The program under test, how it is started, and what its answers are held to."""

import atexit
import collections
import concurrent.futures
import multiprocessing
import os
import pathlib
import shutil
import subprocess
import tempfile

HERE = pathlib.Path(__file__).resolve().parent
SECONDS = 120       # a run that takes longer hangs; the longest of them takes about a second
AT_ONCE = min(16, max(4, os.cpu_count() or 1))      # cases that run at one time
FORKED = multiprocessing.get_context("fork")

Answer = collections.namedtuple("Answer", "status out err")
NO_MEMORY = Answer(8, b"", b"no memory\n")
READ_FAULT = Answer(6, b"", b"read fault\n")
TOO_LONG = Answer(5, b"", b"too long\n")
WRITE_FAULT = 7, b"write fault\n"
LINES = {2: b"usage ", 3: b"syntax ", 4: b"bad ", 5: b"too long", 6: b"read fault", 7: b"write fault", 8: b"no memory", 9: b"bad pair",
         10: b"bad line "}


class Program:
    """The program, with the libraries and helpers that are built for it in a folder of their own."""

    def __init__(self, path):
        self.path = str(pathlib.Path(path).resolve())
        self.folder = pathlib.Path(tempfile.mkdtemp(prefix="rx10-hostile-"))
        atexit.register(shutil.rmtree, self.folder, True)
        library = ["-shared", "-fPIC", "-fno-builtin"]
        self.refuse = self.built("refuse.c", "refuse.so", library)
        self.storm = self.built("storm.c", "storm.so", library)
        self.start = self.built("start.c", "start", [])
        self.hung = FORKED.Value("i", 0)        # by all processes that try cases

    def built(self, source, name, flags):
        made = str(self.folder / name)
        subprocess.run(["gcc", "-O1", "-Wall", *flags, "-o", made, str(HERE / source)], check=True)
        return made

    def words(self, words, limits=(), **told):
        """The words that start the program, and the environment for it. What is told goes to the library that refuses."""
        environment = {"HOSTILE_" + name.upper(): str(value) for name, value in told.items()}
        preload = ["preload=" + self.refuse] if told else []
        return [self.start, *preload, *limits, "--", self.path, *words], environment

    def patience(self):
        """The seconds that a run may take: few where the program has hung some times, so that the end comes all the same."""
        return SECONDS if self.hung.value < 3 else 2

    def hangs(self):
        with self.hung.get_lock():
            self.hung.value += 1

    def run(self, words, stdin, limits=(), **told):
        """The answer to these words and this input (bytes, or an open file); its status is None where it hangs."""
        line, environment = self.words(words, limits, **told)
        given = {"input": stdin} if isinstance(stdin, bytes) else {"stdin": stdin}
        try:
            done = subprocess.run(line, env=environment, capture_output=True, timeout=self.patience(), check=False, **given)
        except subprocess.TimeoutExpired as hung:
            self.hangs()
            return Answer(None, hung.stdout or b"", hung.stderr or b"")
        return Answer(done.returncode, done.stdout, done.stderr)

    def counted(self, words, stdin, **told):
        """The answer, and how many there were of allocations, reads, writes, threads and all calls, and of blocks not given back."""
        path = self.folder / ("count-%d" % os.getpid())
        path.unlink(missing_ok=True)
        answer = self.run(words, stdin, count=path, **told)
        return answer, [int(word) for word in path.read_text().split()] if path.exists() else None


class Tally:
    """What passed and what failed. Cases run in several processes at one time, since the models compute as much as the program does."""

    def __init__(self):
        self.passed = self.failed = 0
        self.notes = []

    def tell(self, name, complaint):
        if complaint is None:
            self.passed += 1
            return
        self.failed += 1
        if self.failed <= 40:
            print("FAILED %s: %s" % (name, complaint), flush=True)

    def each(self, cases, judge):
        """Tells of each case what the judge says of it: a complaint, or None. A case is a name and what the judge is given."""
        for (name, *_), complaint in zip(cases, outcomes(cases, judge)):
            self.tell(name, complaint)

    def note(self, text):
        self.notes.append(text)


def outcomes(cases, judge):
    """What the judge says of each case, in their order; of one at which it fails, a complaint."""
    # (each process has the cases and the judge from its beginning, so only numbers and what is said go between them)
    piece = max(1, min(16, len(cases) // (16 * AT_ONCE)))
    with concurrent.futures.ProcessPoolExecutor(AT_ONCE, FORKED, begin, (cases, judge)) as pool:
        return list(pool.map(judged, range(len(cases)), chunksize=piece))


def begin(cases, judge):
    global tried
    tried = cases, judge


def judged(number):
    cases, judge = tried
    try:
        return judge(*cases[number][1:])
    except Exception as fault:      # a judge that fails is a failure, and the others go on
        return "%s: %s" % (type(fault).__name__, fault)


def short(answer):
    return "status %s, %d bytes %r, says %r" % (answer.status, len(answer.out), answer.out[-60:], answer.err[-80:])


def complaint(answer, wanted, others=(), write_fault=False):
    """None where the answer is one of those wanted, one of the others, or (where it may come) a write fault with a front of one wanted."""
    if answer in wanted or answer in others:
        return None
    if write_fault and (answer.status, answer.err) == WRITE_FAULT and is_front(answer.out, wanted):
        return None
    return short(answer)


def is_front(out, wanted):
    """Whether this is a proper front of a text that is wanted."""
    return any(len(out) < len(each.out) and each.out.startswith(out) for each in wanted)


def shape_complaint(answer, words):
    """None where the answer is of the form that some input might have: status, line on standard error and a whole text go together."""
    status, out, err = answer
    if status in (0, 1):
        if err:
            return "status %d, and it says %r" % (status, err[-80:])
        return None if is_whole(out, status, words[0]) else "status %d with a text that is not whole: %r" % (status, out[-80:])
    if status not in LINES:
        return short(answer)
    if not err.startswith(LINES[status]) or err.count(b"\n") != 1 or not err.endswith(b"\n"):
        return short(answer)
    return short(answer) if out and status != 7 else None


def is_whole(out, status, command):
    """Whether a text is whole: a trace to its last line, the line of the work, or the five numbers."""
    lines = out.decode("ascii", "replace").split("\n")
    if lines.pop() != "":
        return False
    if command == "check":
        return len(lines) == 1 and lines[0].startswith("work ") and status == 0
    if command == "gen":
        return [line.split(" ")[0] for line in lines] == ["entries", "tasks", "prints", "deaths", "losses"]
    if len(lines) < 7 or lines[0] != "rx10 trace 2" or lines[-1] != "done" or lines[4] != "history":
        return False
    places = int(lines[1].split(" ")[1]) + len(lines[3].split(" ")) - 1
    starts = [n for n, line in enumerate(lines) if line.startswith("journal ")]
    if [lines[n] for n in starts] != ["journal %d" % place for place in range(places)]:
        return False
    for first, last in zip([4, *starts], [*starts, len(lines) - 1]):
        if any(int(line.split(" ", 1)[0]) != n for n, line in enumerate(lines[first + 1:last])):
            return False
    root = lines[starts[0] - 1].split(" ")
    roots = [n for n in range(5, starts[0]) if " release host " in lines[n]]
    return root[1:4] == ["release", "host", "s0"] and roots == [starts[0] - 1] and (len(root) > 4) == (status == 1)
