"""Where the coordinator is looked for, in which order, and what `python -m rx10` says of what is found."""

import contextlib
import io
import os
import pathlib
import sys
import tempfile
import types
import unittest
import unittest.mock

from rx10 import __main__ as told
from rx10 import program, progress

SERVES = "coordinator 1 places 1 most 16 line 4096 main t0"


class Room(unittest.TestCase):
    """A package in a repository of its own, and a path of its own."""

    def setUp(self):
        room = tempfile.TemporaryDirectory()
        self.addCleanup(room.cleanup)
        self.top = pathlib.Path(room.name)
        self.package, self.path = self.top / "python" / "rx10", self.top / "bin"
        for folder in (self.package, self.path):
            folder.mkdir(parents=True)
        env = {name: value for name, value in os.environ.items() if name != "RX10_COORDINATOR"}
        for patch in (unittest.mock.patch.multiple(program, HERE=str(self.package), TOP=str(self.top)),
                      unittest.mock.patch.dict(os.environ, {**env, "PATH": str(self.path)}, clear=True)):
            patch.start()
            self.addCleanup(patch.stop)

    def make(self, path, mode=0o755, says=SERVES):
        path.parent.mkdir(parents=True, exist_ok=True)
        path.write_text(f"#!/bin/sh\necho '{says}'\n", encoding="ascii")
        path.chmod(mode)
        return str(path)


class Search(Room):
    def test_the_order(self):
        built = self.make(self.top / "crates/rx10_coordinator/out/rx10_coordinator")
        self.assertEqual(program.find(), (built, "built in the repository"))
        on_path = self.make(self.path / "rx10-coordinator")
        self.assertEqual(program.find(), (on_path, "on the path"))
        beside = self.make(self.package / "rx10-coordinator")
        self.assertEqual(program.find(), (beside, "beside the package"))
        named = self.make(self.top / "mine")
        with unittest.mock.patch.dict(os.environ, {"RX10_COORDINATOR": named}):
            self.assertEqual(program.find(), (named, "RX10_COORDINATOR"))
        with unittest.mock.patch.dict(os.environ, {"RX10_COORDINATOR": ""}):
            self.assertEqual(program.find().path, beside)

    def test_a_name_is_the_only_choice(self):
        self.make(self.package / "rx10-coordinator")
        with unittest.mock.patch.dict(os.environ, {"RX10_COORDINATOR": "/nowhere"}), self.assertRaises(OSError) as caught:
            program.find()
        self.assertIn("/nowhere", str(caught.exception))
        self.assertNotIn("beside", str(caught.exception))

    def test_a_folder_is_passed_over_and_what_may_not_be_run_is_refused(self):
        (self.package / "rx10-coordinator").mkdir()
        built = self.top / "crates/rx10_coordinator/out/rx10_coordinator"
        self.assertEqual(self.make(built), program.find().path)
        built.chmod(0o644)
        with self.assertRaises(PermissionError) as caught:
            program.find()
        self.assertEqual(str(caught.exception), f"the coordinator {built} (built in the repository) is no program that may be run")

    def test_the_path_is_whole(self):
        self.make(self.top / "mine")
        with unittest.mock.patch.dict(os.environ, {"RX10_COORDINATOR": os.path.relpath(self.top / "mine")}):
            self.assertEqual(program.find(), (str(self.top / "mine"), "RX10_COORDINATOR"))

    def test_none(self):
        with self.assertRaises(OSError) as caught:
            program.find()
        for part in ("there is no coordinator", f"beside the package ({self.package}/rx10-coordinator)", "on the path",
                     f"built in the repository ({self.top}/crates/rx10_coordinator/out/rx10_coordinator)", "set RX10_COORDINATOR to the program"):
            self.assertIn(part, str(caught.exception))


class Told(Room):
    """`python -m rx10`."""

    def told(self):
        out = io.StringIO()
        with contextlib.redirect_stdout(out):
            status = told.main()
        return status, dict(line.split(None, 1) for line in out.getvalue().splitlines())

    def test_one_that_serves(self):
        path = self.make(self.path / "rx10-coordinator")
        status, lines = self.told()
        self.assertEqual(status, 0)
        self.assertEqual(lines["coordinator"], f"{path} (on the path): {SERVES}")
        self.assertEqual(lines["Python"], f"{sys.version.split()[0]}, {sys.executable}")
        self.assertEqual(lines["rx10"], f"{told.__version__}, {self.package}")
        self.assertEqual(list(lines), ["rx10", "Python", "coordinator", "cloudpickle", "distributed"])

    def test_one_that_is_none(self):
        self.make(self.path / "rx10-coordinator", says="coordinator 2")
        status, lines = self.told()
        self.assertEqual((status, lines["coordinator"].partition(": ")[2]), (1, "it is no coordinator of version 1: it says 'coordinator 2'"))

    def test_one_that_cannot_be_started(self):
        path = self.path / "rx10-coordinator"
        path.write_text("no program", encoding="ascii")
        path.chmod(0o755)
        status, lines = self.told()
        self.assertEqual(status, 1)
        self.assertIn("Exec format error", lines["coordinator"])

    def test_none(self):
        status, lines = self.told()
        self.assertEqual(status, 1)
        self.assertIn("there is no coordinator", lines["coordinator"])

    def test_modules(self):
        module = types.ModuleType("rx10_some_module")
        module.__file__, module.__version__ = "/some/where.py", "7.1"
        with unittest.mock.patch.dict(sys.modules, {"rx10_some_module": module, "rx10_no_module": None}):
            self.assertEqual(told.module("rx10_some_module"), "7.1, /some/where.py")
            self.assertEqual(told.module("rx10_no_module"), "not found")
            del module.__version__
            self.assertEqual(told.module("rx10_some_module"), "of an unknown version, /some/where.py")
        asked = []
        with unittest.mock.patch.object(told, "module", lambda name: asked.append(name) or f"<{name}>"):
            _, lines = self.told()
        self.assertEqual((asked, lines["cloudpickle"], lines["distributed"]), (["cloudpickle", "distributed"], "<cloudpickle>", "<distributed>"))

    def test_the_words_it_is_asked_with(self):
        path = self.path / "rx10-coordinator"
        path.write_text('#!/bin/sh\necho "$@"\n/bin/cat\n', encoding="ascii")
        path.chmod(0o755)
        self.assertEqual(told.greeting(str(path)), (None, "it is no coordinator of version 1: it says '--places 1'"))


class Line(unittest.TestCase):
    """The line that shows how far a finish is."""

    def test_the_text(self):
        for counts, text in (({1: (3, 3, 0)}, "done 3, running 0, lost 0 (by place 1: 3/0/0)"),
                             ({2: (4, 1, 1), 0: (1, 1, 0), 1: (9, 4, 2)}, "done 6, running 5, lost 3 (by place 0: 1/0/0, 1: 4/3/2, 2: 1/2/1)")):
            self.assertEqual(progress.text_of(counts), text)

    def test_places_that_give_no_sign(self):
        self.assertEqual(progress.text_of({1: (2, 1, 0)}, [3, 1]), "done 1, running 1, lost 0 (by place 1: 1/1/0), no sign of life from 3, 1")
        written, line = io.StringIO(), progress.ProgressLine()
        with contextlib.redirect_stderr(written):
            line.show({1: (2, 1, 0)}, [1])
        self.assertEqual(written.getvalue(), "\rdone 1, running 1, lost 0 (by place 1: 1/1/0), no sign of life from 1")

    def test_it_is_written_over(self):
        written, line = io.StringIO(), progress.ProgressLine()
        with contextlib.redirect_stderr(written):
            line.end()
            self.assertEqual(written.getvalue(), "")
            line.show({1: (10, 10, 0)}, [])
            line.show({1: (9, 9, 0)}, ())
            line.show({1: (10, 9, 0)}, ())
            line.end()
        self.assertEqual(written.getvalue(), "\rdone 10, running 0, lost 0 (by place 1: 10/0/0)\rdone 9, running 0, lost 0 (by place 1: 9/0/0)  "
                         "\rdone 9, running 1, lost 0 (by place 1: 9/1/0)\n")
