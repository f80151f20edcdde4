"""Traces for viewers: by the documentation of their format, and with few tracks."""

import copy
import json
import pathlib
import subprocess
import tempfile
import unittest

import activities
import perfetto
import retold
import trace_events
import trace_text
from places import EXAMPLES, PROGRAM
from test_draw import JOINING
from test_launcher import launch

# Calls, starts that travel, faults, and a place that joins.
SCRIPT = b"""set p = 1;
finish { repeat 3 { at p async { async { at 0 { print here; } } finish { async { print (here * 10); } } } set p = (p + 1); } }
try { finish { at 1 async { at 2 async { print 1; } } at 2 async { at 3 { print 1; throw 4; } } } } catch { }
"""


def viewed(name, *words, **how):
    """The JSON of a trace, as text."""
    done = launch("draw", name, "--perfetto", "-o", "-", *words, **how)
    assert done.returncode == 0, done.stderr
    return done.stdout


class Format(unittest.TestCase):
    def test_the_examples(self):
        for trace in sorted(EXAMPLES.glob("*.trace")):
            story = activities.Story(trace_text.read_trace(trace.read_text()))
            self.assertEqual(trace_events.flaws(perfetto.document_of(story)), [], trace)

    def test_a_file(self):
        self.assertEqual(trace_events.flaws(viewed(EXAMPLES / "supervisor.trace")), [])
        self.assertEqual(trace_events.flaws(viewed("-", input=JOINING.encode())), [])

    def test_deaths_at_every_tenth_moment(self):
        for moment in range(0, 60, 10):
            for seed in ("1", "2"):
                words = ["--places", "4", "--seed", seed, "--kill", "2@%d" % moment, "--kill", "1@%d" % (moment + 7), "--join", "12"]
                done = subprocess.run([PROGRAM, "step", *words], input=SCRIPT, capture_output=True, timeout=60, check=False)
                self.assertIn(done.returncode, (0, 1), done.stderr)
                story = activities.Story(trace_text.read_trace(done.stdout.decode()))
                self.assertEqual(trace_events.flaws(perfetto.document_of(story)), [], words)

    def test_a_generated_run(self):
        with tempfile.TemporaryDirectory(prefix="rx10 viewer ") as room:
            trace = pathlib.Path(room) / "long.trace"
            done = launch("gen", "--size", "60", "--places", "5", "--kill", "2@100", "--kill", "1@300", "--trace", trace)
            self.assertIn(done.returncode, (0, 1), done.stderr)
            self.assertEqual(trace_events.flaws(viewed(trace)), [])

    def test_flaws_are_found(self):
        """(what the check of the format itself is good for)"""
        events = trace_events.events_of(viewed(EXAMPLES / "supervisor.trace"))

        def of(phase, skipped=0):
            return [number for number, it in enumerate(events) if it["ph"] == phase][skipped]

        for what, number, changed in [
            ("a phase", of("X"), {"ph": "Q"}), ("a time before 0", of("X"), {"ts": -1}), ("a time in words", of("i"), {"ts": "3"}),
            ("no length", of("X"), {"dur": None}), ("a length past the slice around it", of("X", 1), {"dur": 1000}),
            ("a thread in words", of("X"), {"tid": "main"}), ("an unnamed thread", of("i"), {"tid": 77}),
            ("a flow that ends elsewhere", of("f"), {"ts": 10**6}), ("two flows of one number", of("s", 1), {"id": events[of("s")]["id"]}),
            ("a flow of another name", of("f"), {"cat": "other"}), ("a name that is no name", of("M"), {"args": {"label": "x"}}),
            ("a kind of instant", of("i"), {"s": "x"}), ("a name twice", of("M"), {"name": "process_sort_index", "args": {"sort_index": 0}}),
        ]:
            spoiled = copy.deepcopy(events)
            spoiled[number].update(changed)
            spoiled[number] = {key: value for key, value in spoiled[number].items() if value is not None}
            text = json.dumps({"displayTimeUnit": "ns", "traceEvents": spoiled})
            self.assertNotEqual(trace_events.flaws(text), [], what)


class Told(unittest.TestCase):
    """A viewer shows each moment of the run, and nothing else: compared with the lines of the trace, read anew."""

    maxDiff = None

    def compare(self, text):
        told = retold.retold(text)
        document = json.loads(perfetto.document_of(activities.Story(trace_text.read_trace(text))))
        events = [it for it in document["traceEvents"] if it["ph"] != "M"]
        shown = []
        for it in events:
            more = {key: value for key, value in it.items() if key not in ("ph", "cat", "name", "ts", "dur", "pid", "tid")}
            shown.append((it["ph"], it["cat"], it["name"], it["ts"], it.get("dur"), it["pid"], json.dumps(more, sort_keys=True)))
        wanted = [(*it[:-1], json.dumps(it[-1], sort_keys=True)) for it in retold.viewer_events(told)]
        self.assertEqual(sorted(shown, key=repr), sorted(wanted, key=repr))
        self.assertEqual([it["ts"] for it in events], sorted(it["ts"] for it in events))
        self.compare_rows(told, events)
        self.compare_names(told, document["traceEvents"])

    def compare_rows(self, told, events):
        """What an activity does stands in its own row, and what is of a place in row 0."""
        rows = {it["args"]["life"].split()[0].strip(","): (it["pid"], it["tid"]) for it in events if it["cat"] == "task"}
        self.assertEqual(set(rows), set(told.tasks))
        for it in events:
            if it.get("s") == "p":
                self.assertEqual(it["tid"], 0)
            elif "line" in it.get("args", {}) and it["args"]["line"].split()[2] in rows:
                self.assertEqual((it["pid"], it["tid"]), rows[it["args"]["line"].split()[2]], it)
            elif it["ph"] == "s":
                self.assertEqual((it["pid"], it["tid"]), rows[told.tasks["t%d" % it["id"]].starter], it)
            elif it["ph"] == "f":
                self.assertEqual((it["pid"], it["tid"]), rows["t%d" % it["id"]], it)
        # no two activities share a row at one time, and no row is begun while one before it is free
        for place in range(told.places):
            busy = {}
            for it in sorted((it for it in told.tasks.values() if it.place == place), key=lambda it: (it.begin, int(it.name[1:]))):
                free = min(row for row in range(1, len(told.tasks) + 2) if busy.get(row, -2) < it.begin)
                self.assertEqual(rows[it.name], (place, free), it)
                busy[free] = it.over

    def compare_names(self, told, events):
        """The names of places and rows, in their order."""
        named = [(it["name"], it["pid"], it["tid"], it["args"]) for it in events if it["ph"] == "M"]
        used = sorted({(it["pid"], it["tid"]) for it in events if it["ph"] == "X"})
        wanted = [row for place in range(told.places) for row in
                  (("process_name", place, 0, {"name": "place %d" % place}), ("process_sort_index", place, 0, {"sort_index": place}))]
        wanted += [row for place, row_number in used for row in (("thread_name", place, row_number, {"name": "row %d" % row_number}),
                                                                 ("thread_sort_index", place, row_number, {"sort_index": row_number}))]
        self.assertEqual(named, wanted)

    def test_the_examples(self):
        for trace in sorted(EXAMPLES.glob("*.trace")):
            with self.subTest(trace.name):
                self.compare(trace.read_text())

    def test_a_place_that_joins(self):
        self.compare(JOINING)

    def test_a_run_that_is_cut(self):
        """A trace of a run that goes on: nothing has ended."""
        for name, last in (("supervisor", 9), ("adoption", 8), ("supervisor", 13)):
            lines = (EXAMPLES / (name + ".trace")).read_text().split("\n")
            first = lines.index("history") + 1
            end = [it for it in lines if it.startswith("journal")]
            self.compare("\n".join([*lines[:first + last], *end, "done", ""]))

    def test_deaths(self):
        for moment in range(0, 60, 9):
            words = ["--places", "4", "--seed", str(moment), "--kill", "2@%d" % moment, "--kill", "1@%d" % (moment + 7), "--join", "12"]
            done = subprocess.run([PROGRAM, "step", *words], input=SCRIPT, capture_output=True, timeout=60, check=False)
            self.assertIn(done.returncode, (0, 1), done.stderr)
            self.compare(done.stdout.decode())

    def test_the_file(self):
        document = json.loads(viewed(EXAMPLES / "hello.trace"))
        self.assertEqual(document["displayTimeUnit"], "ns")
        self.assertEqual(viewed(EXAMPLES / "hello.trace"), launch("draw", EXAMPLES / "hello.trace", "--perfetto", "-o", "-", "--columns", "4").stdout)


class Tracks(unittest.TestCase):
    def story(self, name):
        return activities.Story(trace_text.read_trace((EXAMPLES / name).read_text()))

    def events(self, name):
        return json.loads(perfetto.document_of(self.story(name)))["traceEvents"]

    def test_what_is_told(self):
        found = self.events("adoption.trace")
        bars = {it["name"]: (it["pid"], it["ts"], it["dur"]) for it in found if it["ph"] == "X" and it["cat"] == "task"}
        self.assertEqual(bars["t3"], (3, 9, 6))
        self.assertEqual(bars["t2 (lost)"], (2, 5, 8))
        self.assertIn("place 2 dies", [it["name"] for it in found])

    def test_a_place_has_as_many_rows_as_it_had_activities_at_a_time(self):
        story = self.story("outlives.trace")
        at_once = [max(sum(it.place == place and it.begin <= n <= it.over for it in story.activities.values())
                       for n in range(-1, len(story.trace.entries))) for place in range(story.places)]
        rows = {(it["pid"], it["tid"]) for it in self.events("outlives.trace") if it["ph"] == "X"}
        self.assertEqual([sum(place == it for it, _ in rows) for place in range(story.places)], at_once)
