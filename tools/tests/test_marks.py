"""What a reader sees in a picture is what the run did: each mark is found by the number above it, and compared with the lines of the trace."""

import collections
import html
import re
import subprocess
import unittest

import activities
import lanes
import page
import retold
import trace_text
from places import EXAMPLES, PROGRAM
from test_draw import JOINING
from test_perfetto import SCRIPT

NUMBER = re.compile(r'<text class="number( of-death)?" x="([\d.e+-]+)" y="16">(\d+)</text>')


def attributes(text):
    return dict(re.findall(r'([\w-]+)="([^"]*)"', text))


class Seen:
    """One strip, as a reader sees it: which number stands above a point."""

    def __init__(self, svg):
        self.svg = svg
        found = NUMBER.findall(svg)
        self.numbers = {float(x): int(number) for _, x, number in found}
        self.deaths = [int(number) for death, _, number in found if death]
        self.groups = {"t" + name: inner for name, inner in re.findall(r'<g data-t="(\d+)">(.*?)</g>', svg)}

    def above(self, x):
        """The number above this point, or None where there is none."""
        return next((number for at, number in self.numbers.items() if abs(at - x) < 0.6), None)

    def paths(self, kind):
        """The points at which paths of this kind begin."""
        return [float(x) for x in re.findall(r'<path class="%s" d="M(-?[\d.]+) ' % kind, self.svg)]

    def rects(self, kind, within=None):
        """The left and the right edge of each rectangle of this kind."""
        found = map(attributes, re.findall(r'<rect class="%s"([^>]*)/>' % kind, self.svg if within is None else within))
        return [(float(it["x"]), float(it["x"]) + float(it["width"])) for it in found]

    def circles(self, kind):
        return [float(attributes(it)["cx"]) for it in re.findall(r'<circle class="%s"([^>]*)/>' % kind, self.svg)]


class Marks(unittest.TestCase):
    maxDiff = None

    def compare(self, text):
        """Each set of strips of the page of a trace."""
        told, story = retold.retold(text), activities.Story(trace_text.read_trace(text))
        data = page.data_of(story, 32, None, frozenset())
        self.assertEqual([it["columns"] for it in data["sets"]], [it for it in (8, 16) if it < min(32, len(told.entries))] + [32])
        for one in data["sets"]:
            seen = [Seen(it[5]) for it in one["strips"]]
            with self.subTest(columns=one["columns"]):
                self.assertEqual([sorted(it.numbers.values()) for it in seen],
                                 [list(range(at, min(at + one["columns"], len(told.entries)))) for at in range(0, len(told.entries), one["columns"])])
                self.compare_marks(told, seen)
                for it in seen:
                    self.compare_bars(told, it)
                    self.compare_places(told, it)

    def compare_marks(self, told, seen):
        """The marks at moments: how many of each kind stand under which number."""
        marks = collections.Counter()
        for it in seen:
            marks.update(("end", it.above(x)) for x in it.paths("ends"))
            marks.update(("arrive", it.above(x + 3)) for x in it.paths("arrives"))
            marks.update(("birth", it.above(x)) for x in it.circles("dot"))
            marks.update(("release", it.above(x)) for x in it.circles("releases"))
            marks.update(("death", it.above(x)) for x in it.paths("death"))
            marks.update(("death", number) for number in it.deaths)
            marks.update(("join", it.above(x)) for x in it.paths("join"))
            marks.update((kind, it.above((left + right) / 2)) for kind in ("print", "census") for left, right in it.rects(kind))
            marks.update(("loss", it.above(x)) for x in it.paths("fault of-loss"))
            marks.update(("fault", it.above(x)) for x in it.paths("fault"))
            marks.update(("start", it.above(x)) for kind in (r"start p\d+", r"start lost p\d+") for x in it.paths(kind))
            marks.update(("struck", it.above(x + 4)) for x in it.paths("struck"))
        wanted = collections.Counter()
        for it in told.entries:
            named = retold.parts_of(it.words[3:]) if it.verb in ("end", "wait", "release") else ""
            kind = {"spawn": "birth", "at": "birth", "open": None, "wait": None, "release": "release" if it.task != "host" else None}.get(it.verb, it.verb)
            wanted.update({(kind, it.number): 2 if kind == "death" else 1} if kind else {})
            wanted.update([("loss" if "lost" in named else "fault", it.number)] if named else [])
            wanted.update([("start", it.number)] if kind == "birth" else [])
        for it in told.tasks.values():
            # (the cross of one that was lost at once stands beside its column)
            wanted.update([("struck", None if it.at_once else it.struck)] if it.struck is not None else [])
        self.assertEqual(marks, wanted)
        values = [value for it in seen for value in re.findall(r'<text class="value"[^>]*>([^<]*)</text>', it.svg)]
        self.assertEqual(sorted(values), sorted(it.words[3] for it in told.entries if it.verb in ("print", "census")))
        titles = [html.unescape(it) for one in seen for it in re.findall(r'<path class="event[^>]*><title>([^<]*)</title>', one.svg)]
        self.assertEqual(collections.Counter(" ".join(it.split(" ")[3:4] + it.split(" ")[5:]) for it in titles),
                         collections.Counter("%s %s" % (it.task, it.words) for it in told.stores))
        self.assertEqual(sum(it.svg.count('class="event refused"') for it in seen), sum(it.words.split()[-2] in ("stale", "index", "full") for it in told.stores))

    def edge(self, seen, moment):
        """Where a moment is drawn: under its number, or at the edge beyond which it lies."""
        first, last = min(seen.numbers.values()), max(seen.numbers.values())
        if moment is None or moment > last:
            return "right"
        return "left" if moment < first else moment

    def at(self, seen, x):
        found = seen.above(x)
        return found if found is not None else "left" if x < min(seen.numbers) else "right"

    def compare_bars(self, told, seen):
        """The bars: where an activity travels, runs and waits."""
        first, last = min(seen.numbers.values()), max(seen.numbers.values())
        there = {it.name for it in told.tasks.values() if it.begin <= last and it.over >= first}
        self.assertEqual(set(seen.groups), there)
        for name in there:
            it, inner = told.tasks[name], seen.groups[name]
            bars = seen.rects(r"bar p%d" % it.place, inner)
            runs = it.arrived is not None and it.arrived <= min(it.over, last + 1)
            self.assertEqual(len(bars), int(runs), name)
            for left, right in bars:
                begun = it.arrived == it.begin and it.begin >= first
                self.assertEqual(self.at(seen, left - (seen_column(seen) / 2 if begun else 0)), self.edge(seen, it.arrived), name)
                if right - left > 4:
                    self.assertEqual(self.at(seen, right), self.edge(seen, it.over), name)
            waits = [(self.at(seen, left), self.at(seen, right)) for left, right in seen.rects(r"waits p%d" % it.place, inner)]
            wanted = [(self.edge(seen, begin), self.edge(seen, it.over if end is None else min(end, it.over))) for begin, end in it.waits
                      if begin <= last and (end is None or end >= first) and begin < it.over]
            self.assertEqual([it for it in waits if it[0] != it[1]], [it for it in wanted if it[0] != it[1]], name)
            travels = re.findall(r'<path class="travel p%d" d="M' % it.place, inner)
            began = it.arrived if it.arrived is not None else it.over
            is_seen = it.place != it.source and not it.at_once and began >= first and began > it.begin
            self.assertLessEqual(len(travels), int(is_seen), name)
            if is_seen and it.begin + 1 < began and it.begin >= first and began <= last:
                self.assertEqual(len(travels), 1, name)

    def compare_places(self, told, seen):
        """Each place has its lane and its name; it is pale before it joins and hatched once it is dead."""
        self.assertEqual(re.findall(r'<text class="place"[^>]*>place (\d+)</text>', seen.svg), [str(it) for it in range(told.places)])
        self.assertEqual(re.findall(r'<rect class="lane p(\d+)"', seen.svg), [str(it) for it in range(told.places)])
        first, last = min(seen.numbers.values()), max(seen.numbers.values())
        self.assertEqual(sorted(str(self.at(seen, left)) for left, _ in seen.rects("dead")),
                         sorted(str(self.edge(seen, it)) for it in told.deaths.values() if it <= last))
        self.assertEqual(sorted(str(self.at(seen, right)) for _, right in seen.rects("away")),
                         sorted(str(self.edge(seen, it)) for it in told.joins.values() if it >= first))

    def test_the_examples(self):
        for trace in sorted(EXAMPLES.glob("*.trace")):
            with self.subTest(trace.name):
                self.compare(trace.read_text())

    def test_a_place_that_joins(self):
        self.compare(JOINING)

    def test_many_that_wait(self):
        """Up to six idle activities of a place are drawn in full, up to twenty-four of more as thin bars, and of the others it is told who they are."""
        for waiting in (6, 7, 24, 25, 40):
            script = b"finish { repeat %d { at 1 async { at 2 { repeat 40 { print 1; } } } } repeat 80 { print 2; } }" % waiting
            done = subprocess.run([PROGRAM, "step", "--places", "3"], input=script, capture_output=True, timeout=60, check=False)
            text = done.stdout.decode()
            told, story = retold.retold(text), activities.Story(trace_text.read_trace(text))
            for strip in lanes.strips(story, 8):
                idle = sorted((it.begin, int(it.name[1:])) for it in told.tasks.values() if it.place == 1 and it.begin < strip.begin and it.over >= strip.begin
                              and not any(entry.task == it.name for entry in told.entries[strip.begin:strip.end])
                              and not (it.struck is not None and strip.begin <= it.struck < strip.end))
                lane = re.search(r'<rect class="lane p1".*?<rect class="lane p2"', strip.svg)[0]
                hidden = re.search(r'<text class="idle"[^>]*>\+ (\d+) more<title>([^<]*)</title>', lane)
                self.assertEqual(hidden[2].split() if hidden else [], ["t%d" % number for _, number in idle[24:]])
                self.assertEqual(int(hidden[1]) if hidden else 0, len(idle[24:]))
                drawn = re.findall(r'<rect class="bar p1"[^>]*height="(\d+)"', strip.svg)
                self.assertEqual(drawn.count("4"), sum(told.tasks["t%d" % number].arrived is not None and told.tasks["t%d" % number].arrived <= strip.end
                                                       for _, number in idle[:24]) if len(idle) > 6 else 0)

    def test_stores_that_refuse(self):
        script = b"new r = 2; put r[0] = 1; try { get x = r[2]; } catch { } try { new s = 300; } catch { } forget r; try { get x = r[0]; } catch { } print 1;"
        done = subprocess.run([PROGRAM, "step"], input=script, capture_output=True, timeout=60, check=False)
        for word in (" index ", " full ", " stale "):
            self.assertIn(word, done.stdout.decode())
        self.compare(done.stdout.decode())

    def test_deaths(self):
        for moment in (3, 11, 24, 37):
            words = ["--places", "4", "--seed", str(moment), "--kill", "2@%d" % moment, "--kill", "1@%d" % (moment + 7), "--join", "12"]
            done = subprocess.run([PROGRAM, "step", *words], input=SCRIPT, capture_output=True, timeout=60, check=False)
            self.assertIn(done.returncode, (0, 1), done.stderr)
            self.compare(done.stdout.decode())


def seen_column(seen):
    """The width of a column."""
    first, *more = sorted(seen.numbers)
    return more[0] - first if more else 0


class Lists(unittest.TestCase):
    """The list of entries and the lives of a page."""

    def compare(self, text, chain=frozenset()):
        told, story = retold.retold(text), activities.Story(trace_text.read_trace(text))
        data = page.data_of(story, 32, None, chain)
        for it, row in zip(told.entries, data["entries"]):
            named = retold.parts_of(it.words[3:]) if it.verb in ("end", "wait", "release") else ""
            kind = "loss" if "lost" in named else "fault" if named else it.verb
            self.assertEqual(row, [kind + (" on-chain" if it.number in chain else ""), retold.entry_words(told, it), it.line, ""])
        self.assertEqual(len(data["entries"]), len(told.entries))
        self.assertEqual(data["lives"], {int(name[1:]): retold.life_words(it) for name, it in told.tasks.items()})

    def test_the_examples(self):
        for trace in sorted(EXAMPLES.glob("*.trace")):
            self.compare(trace.read_text(), frozenset({0, 3}))
        self.compare(JOINING)

    def test_many_waits_and_many_struck(self):
        script = b"repeat 5 { finish { } } at 1 async { } finish { at 1 { finish { repeat 14 { async { print 1; } } } } }"
        for words in ([], ["--kill", "1@40"], ["--kill", "1@36", "--seed", "3"]):
            done = subprocess.run([PROGRAM, "step", *words], input=script, capture_output=True, timeout=60, check=False)
            self.compare(done.stdout.decode())
