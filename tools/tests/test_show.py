"""`rx10 show`: the page of a run in one command, what opens it, and what is refused."""

import os
import pathlib
import subprocess
import tempfile
import time
import unittest

from places import EXAMPLES, TOP

OPENER = """#!/bin/sh
echo "$1" >"$OPENED"
"""


class Shown(unittest.TestCase):
    def setUp(self):
        room = tempfile.TemporaryDirectory(prefix="rx10 show ")
        self.addCleanup(room.cleanup)
        self.room = pathlib.Path(room.name).resolve()
        self.opened = self.room / "opened"
        (self.room / "bin").mkdir()
        (self.room / "bin/xdg-open").write_text(OPENER)
        (self.room / "bin/xdg-open").chmod(0o755)
        self.env = {key: it for key, it in os.environ.items() if key not in ("DISPLAY", "WAYLAND_DISPLAY")}
        self.env.update(PATH="%s:%s" % (self.room / "bin", os.environ["PATH"]), OPENED=str(self.opened))

    def show(self, *words, given=b"", **env):
        done = subprocess.run([TOP / "rx10", "show", *map(str, words)], cwd=self.room, env={**self.env, **env}, input=given, capture_output=True,
                              timeout=300, check=False)
        return done.returncode, done.stdout.decode(), done.stderr.decode()

    def pages(self):
        return sorted(it.name for it in self.room.glob("*.html"))

    def test_a_script_and_its_status(self):
        self.assertEqual(self.show(EXAMPLES / "lost_place.rx", "--kill=1@3"), (1, "%s/lost_place.html\n" % self.room, ""))
        page = (self.room / "lost_place.html").read_text()
        for part in ("<!doctype html>", "<title>lost_place", "death", "async"):
            self.assertIn(part, page)
        self.assertFalse(self.opened.exists())

    def test_a_trace_and_a_pipe(self):
        self.assertEqual(self.show(EXAMPLES / "hello.trace", "-o", "a.html")[:2], (0, "%s/a.html\n" % self.room))
        self.assertEqual(self.show(given=(EXAMPLES / "hello.rx").read_bytes())[:2], (0, "%s/standard-input.html\n" % self.room))
        self.assertEqual(self.pages(), ["a.html", "standard-input.html"])

    def test_it_opens_the_page_where_there_is_a_screen(self):
        self.assertEqual(self.show(EXAMPLES / "hello.rx", "--no-open", DISPLAY=":0")[0], 0)
        self.assertFalse(self.opened.exists())
        self.assertEqual(self.show(EXAMPLES / "hello.rx", DISPLAY=":0")[0], 0)
        end = time.monotonic() + 60
        while not (self.opened.exists() and self.opened.read_text()) and time.monotonic() < end:
            time.sleep(0.02)
        self.assertEqual(self.opened.read_text(), "%s/hello.html\n" % self.room)

    def test_what_is_refused_leaves_no_page(self):
        cut = (EXAMPLES / "hello.trace").read_bytes()[:200]
        for words, given, status, said in [
            ([], b"print x;", 4, "standard input:1:7: `x` is not known here"),
            ([], cut, 10, "is no trace, from line"),
            (["none.rx"], b"", 2, "there is no file `none.rx` here"),
            ([EXAMPLES / "hello.rx", "--places=99"], b"", 2, "from 1 to 16"),
            ([EXAMPLES / "hello.rx", "--plces=3"], b"", 2, "is `--places` meant?"),
            ([EXAMPLES / "hello.rx", "-o", "/none/a.html"], b"", 125, "/none/a.html: No such file or directory"),
        ]:
            ended, wrote, told = self.show(*words, given=given)
            self.assertEqual((ended, wrote), (status, ""), told)
            self.assertIn(said, told)
        self.assertEqual(self.pages(), [])
