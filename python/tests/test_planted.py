"""Single mistakes are planted in copies of the repository, and the tests refuse them: here those of planted/few.txt, the others by plant.py."""

import concurrent.futures
import os
import pathlib
import tempfile
import unittest
import unittest.mock

import plant

LIMIT = 120                     # seconds after which a mistake's tests are taken to hang


class Planted(unittest.TestCase):
    """Each mistake of the list is refused."""

    @classmethod
    def setUpClass(cls):
        cls.pool = concurrent.futures.ThreadPoolExecutor(os.cpu_count())
        cls.told = {name: cls.pool.submit(plant.plant, name, LIMIT) for name in plant.few()}

    @classmethod
    def tearDownClass(cls):
        cls.pool.shutdown(cancel_futures=True)

    def test_all_apply(self):
        for name in plant.names():
            with self.subTest(name):
                edit = plant.read(name)
                plant.texts(edit)
                plant.by_runner(edit.tests)

    def test_the_list(self):
        self.assertEqual([it for it in plant.few() if it not in plant.names()], [])


def add(name):
    def test(self):
        told = self.told[name].result()
        if told.what == plant.SKIPPED:
            self.skipTest(told.why)
        self.assertEqual(told.what, plant.REFUSED, told.why)
    setattr(Planted, f"test_{name}", test)


for each in plant.few():
    add(each)


class Runner(unittest.TestCase):
    """What is told of mistakes that cannot be planted, that survive, and under which tests hang."""

    def setUp(self):
        room = tempfile.TemporaryDirectory()
        self.addCleanup(room.cleanup)
        self.room = pathlib.Path(room.name)
        patch = unittest.mock.patch.object(plant, "PLANTED", self.room)
        patch.start()
        self.addCleanup(patch.stop)

    def tell(self, text, limit=LIMIT):
        (self.room / "it.edit").write_text(text, encoding="utf-8")
        return plant.plant("it", limit)

    def test_what_cannot_be_planted(self):
        head = "file: python/rx10/wire.py\n"
        for text, why in (
                (f"{head}old: nothing of the kind\nnew: x\ntests: test_around", "has 0 times"),
                (f"{head}old: import\nnew: x\ntests: test_around", "times `import`"),
                (f"{head}old: PROTOCOL = 4\nnew: PROTOCOL = \ntests: test_around", "is no Python then"),
                (f"{head}old: PROTOCOL = 4\nnew: PROTOCOL = 4\ntests: test_around", "is as it was"),
                (f"{head}old: PROTOCOL = 4\nnew: PROTOCOL = 5\ntests: test_nothing", "there are no such tests"),
                (f"{head}old: PROTOCOL = 4\nnew: PROTOCOL = 5\ntests: test_planted", "there are no such tests"),
                (f"{head}old: PROTOCOL = 4\nnew: PROTOCOL = 5\n", "it needs"),
                (f"{head}old: PROTOCOL = 4\nold: PROTOCOL = 5\ntests: test_around", "cannot stand there"),
                ("file: python/rx10/none.py\nold: a\nnew: b\ntests: test_around", "No such file"),
                ("file: rx10\nold: set_kind() {\nnew: set_kind() {{(\ntests: test_launcher", "is no script of bash then")):
            told = self.tell(text)
            self.assertEqual(told.what, plant.BAD, text)
            self.assertIn(why, told.why)

    def test_pairs_apply_in_order(self):
        (self.room / "it.edit").write_text("file: python/rx10/wire.py\nold: PROTOCOL = 4\nnew: PROTOCOL = 55\nold: = 55\nnew: = 3\n"
                                           "file: python/rx10/trace.py\nold: PATH = \"0\"\nnew: PATH = \"1\"\ntests: test_around\n", encoding="utf-8")
        made = plant.texts(plant.read("it"))
        self.assertIn("PROTOCOL = 3 ", made["python/rx10/wire.py"])
        self.assertIn('PATH = "1"', made["python/rx10/trace.py"])

    def test_one_that_no_test_sees(self):
        told = self.tell("file: python/rx10/wire.py\nold: as frames: eight bytes\nnew: as frames: nine bytes\ntests: test_around.Texts")
        self.assertEqual(told.what, plant.SURVIVES, told.why)

    def test_one_under_which_a_test_hangs(self):
        told = self.tell("file: python/rx10/wire.py\nold:             end = at + HEAD.size + size\n"
                         "new:             end = at + HEAD.size + size; len(self._bytes) < end and any(iter(int, 1))\ntests: test_around.Texts", 5)
        self.assertEqual(told.what, plant.REFUSED, told.why)
        self.assertRegex(told.why, r"(?s)\Ahangs\n.*wire\.py\", line \d+ in feed")
