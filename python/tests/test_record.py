"""The trace of a record: an entry for each request that was granted, by the ledger's own words, and nothing for the others."""

import contextlib
import io
import sys
import tempfile
import unittest
import unittest.mock

from rx10 import trace

# Requests with their replies, and what the history of each is, under the one that opens place 0.
ENTRIES = [
    (["join\tjoined 1"], ["join 1"]),
    (["open t0\topened s1"], ["open t0 s1 in s0 0"]),
    (["open t0\topened s1", "open t0\topened s2"], ["open t0 s1 in s0 0", "open t0 s2 in s1 0"]),
    (["send t0 1\tsent t1 in s0"], ["spawn t0 t1 in s0 0 1 0", "arrive t1 1"]),
    (["send t0 0\tsent t1 in s0"], ["spawn t0 t1 in s0 0 0 0"]),
    (["send t0 1\tsent t1 in s0 lost"], ["spawn t0 t1 in s0 0 1 0"]),
    (["spawn t0 2\tspawned t1 in s0"], ["spawn t0 t1 in s0 0 2 0"]),
    (["spawn t0 2\tspawned t1 in s0", "arrive t1\tlanded"], ["spawn t0 t1 in s0 0 2 0", "arrive t1 2"]),
    (["at t0 3\tcalled t1 in s1"], ["at t0 s1 in s0 t1 0 3 0"]),
    (["at t0 3\tcalled t1 in s1", "arrive t1\tlanded", "at t1 2\tcalled t2 in s2"],
     ["at t0 s1 in s0 t1 0 3 0", "arrive t1 3", "at t1 s2 in s1 t2 3 2 0"]),
    (["at t0 3\tcalled t1 in s1", "open t1\topened s2", "send t1 3\tsent t2 in s2", "open t2\topened s3"],
     ["at t0 s1 in s0 t1 0 3 0", "open t1 s2 in s1 0", "spawn t1 t2 in s2 3 3 0", "open t2 s3 in s2 0"]),
    (["open t0\topened s1", "wait t0\twaits", "release t0\treleased"], ["open t0 s1 in s0 0", "wait t0 s1", "release t0 s1"]),
    (["open t0\topened s1", "open t0\topened s2", "wait t0\twaits", "release t0\treleased", "wait t0 7 8\twaits", "release t0\treleased thrown 7 8"],
     ["open t0 s1 in s0 0", "open t0 s2 in s1 0", "wait t0 s2", "release t0 s2", "wait t0 s1 thrown code:7 code:8",
      "release t0 s1 thrown code:7 code:8"]),
    (["end t0\tended"], ["end t0"]),
    (["end t0 4 5\tended"], ["end t0 thrown code:4 code:5"]),
    (["root\treleased lost 1 3 masked 2 thrown 9"], ["release host s0 lost 1 3 masked 2 thrown code:9"]),
    (["open t0\topened s1", "release t0\tparked", "\tfreed t0 lost 1"], ["open t0 s1 in s0 0", "release t0 s1 lost 1"]),
    (["root\tparked", "\tfreed root masked 1"], ["release host s0 masked 1"]),
    (["death 1\tdied"], ["death 1"]),
    (["death 1\tno 1", "open t9\tbad", "send t0 1\tfull", "nonsense\tmalformed", "release t0\tparked", "#\tlate 1", "end t0\tended"], ["end t0"]),
]


def played(lines):
    """The history that these lines make."""
    history = trace.History()
    for request, reply in trace.record_lines(line + "\n" for line in lines):
        history.note(request, reply)
    return history


class Entries(unittest.TestCase):
    def test_each_request(self):
        for lines, entries in ENTRIES:
            with self.subTest(lines):
                self.assertEqual(played(lines).entries, [f"{number} {it}" for number, it in enumerate(entries)])

    def test_what_stands_around_the_entries(self):
        lines = ["join\tjoined 1", "join\tjoined 2", "end t0\tended", "death 2\tdied", "join\tjoined 3", "death 1\tdied", "root\treleased"]
        self.assertEqual(played(lines).text().split("\n"), [
            "rx10 trace 2", "places 1 heap 1", "kills 2@3 1@5", "joins 0 1 4", "history", "0 join 1", "1 join 2", "2 end t0", "3 death 2", "4 join 3",
            "5 death 1", "6 release host s0", "journal 0", "journal 1", "0 5 close", "journal 2", "0 3 close", "journal 3", "done", ""])

    def test_many_places(self):
        """A place's journal is closed by its own death, and not by that of a place whose number begins alike."""
        lines = [f"join\tjoined {place}" for place in range(1, 12)] + ["death 11\tdied"]
        text = played(lines).text()
        self.assertIn("journal 1\njournal 2\n", text)
        self.assertIn("journal 11\n0 11 close\n", text)

    def test_without_deaths_and_joins(self):
        self.assertEqual(played([]).text(), "rx10 trace 2\nplaces 1 heap 1\nkills\njoins\nhistory\njournal 0\ndone\n")

    def test_words_for_faults(self):
        self.assertEqual((trace.thrown([]), trace.thrown(["5", "4"])), ([], ["thrown", "code:5", "code:4"]))
        for words, wanted in (("", ""), ("lost 1 2", "lost 1 2"), ("lost 1 masked 3 thrown 5", "lost 1 masked 3 thrown code:5"), ("thrown 5 5", "thrown code:5 code:5")):
            self.assertEqual(" ".join(trace.carried(words.split())), wanted)


class Command(unittest.TestCase):
    def run_main(self, *words):
        out, err = io.StringIO(), io.StringIO()
        with unittest.mock.patch.object(sys, "argv", ["rx10.trace", *words]), contextlib.redirect_stdout(out), contextlib.redirect_stderr(err):
            return trace.main(), out.getvalue(), err.getvalue()

    def test_words(self):
        for words in ([], ["a", "b"]):
            self.assertEqual(self.run_main(*words), (2, "", "usage: python -m rx10.trace RECORD\n"))

    def test_a_record(self):
        with tempfile.NamedTemporaryFile("w", suffix=".record") as file:
            file.write("join\tjoined 1\nroot\treleased\n")
            file.flush()
            self.assertEqual(self.run_main(file.name), (0, "rx10 trace 2\nplaces 1 heap 1\nkills\njoins 0\nhistory\n0 join 1\n1 release host s0\n"
                                                        "journal 0\njournal 1\ndone\n", ""))
