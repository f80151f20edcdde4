"""What travels between places: which way a thing is pickled, and what comes of what cannot be."""

import importlib
import os
import pickle
import pickletools
import sys
import traceback
import types
import unittest
import unittest.mock

from rx10 import errors, pickles, wire


class Lame:
    """It cannot be pickled."""

    def __reduce__(self):
        raise ValueError("lame")


class Fragile:
    """It is pickled, and not unpickled."""

    def __reduce__(self):
        return int, ("no number",)


class TwoWords(Exception):
    """As many exceptions it is pickled with one argument and made with two, so it does not come back."""

    def __init__(self, one, two):
        super().__init__(f"{one} {two}")


class Quiet(Exception):
    """It cannot be pickled."""

    def __reduce__(self):
        raise ValueError("quiet")


class Elsewhere(Exception):
    """It is unpickled where it was pickled, and nowhere else."""


class Mute(Exception):
    """Its text cannot be had, and it does not come back."""

    def __reduce__(self):
        raise ValueError("mute")

    def __str__(self):
        raise ValueError("mute")


def raised(fault):
    """The fault, as one that was raised has it: with a traceback."""
    try:
        raise fault
    except BaseException as it:
        return it


def cloud(**how):
    """A stand-in for cloudpickle that tells what it was asked for."""
    module = types.ModuleType("cloudpickle")
    module.asked = []

    def dumps(thing, protocol=None):
        module.asked.append((thing, protocol))
        return b"cloud"
    module.dumps = dumps
    return unittest.mock.patch.multiple(pickles, cloudpickle=lambda: module, **how), module


def without_cloud(**how):
    return unittest.mock.patch.multiple(pickles, cloudpickle=lambda: None, **how)


class Ways(unittest.TestCase):
    """Plain pickle first; cloudpickle where it is needed and there."""

    def pack(self, thing, by_value, has_file):
        patch, module = cloud(main_has_file=lambda: has_file)
        with patch:
            return pickles.pack(thing, by_value), module.asked

    def test_plain_pickle_comes_first(self):
        self.assertEqual(self.pack([1], False, True), (pickle.dumps([1], wire.PROTOCOL), []))

    def test_what_goes_by_value(self):
        self.assertEqual(self.pack([1], True, True), (b"cloud", [([1], wire.PROTOCOL)]))

    def test_a_main_module_without_a_file(self):
        self.assertEqual(self.pack([1], False, False), (b"cloud", [([1], wire.PROTOCOL)]))

    def test_what_pickle_refuses(self):
        lame = Lame()
        self.assertEqual(self.pack(lame, False, True), (b"cloud", [(lame, wire.PROTOCOL)]))

    def test_without_cloudpickle(self):
        for by_value, has_file in ((False, True), (True, True), (False, False)):
            with without_cloud(main_has_file=lambda has_file=has_file: has_file):
                self.assertEqual(pickles.pack([1], by_value), pickle.dumps([1], wire.PROTOCOL))
                with self.assertRaisesRegex(ValueError, "lame"):
                    pickles.pack(Lame(), by_value)

    def test_every_python_reads_it(self):
        for data in (pickles.pack([1]), pickles.pack_value([1]), pickles.pack_fault(raised(ValueError(1))), wire.frame(("a",))[wire.HEAD.size:],
                     pickles.pack_value(Lame())):
            self.assertEqual([arg for code, arg, _ in pickletools.genops(data) if code.name == "PROTO"], [wire.PROTOCOL])

    def test_the_main_module(self):
        for path, has in ((__file__, True), ("/nowhere/main.py", False), (None, False), ("", False)):
            main = types.ModuleType("__main__")
            if path is not None:
                main.__file__ = path
            with unittest.mock.patch.dict(sys.modules, {"__main__": main}):
                self.assertEqual(pickles.main_has_file(), has, path)
        main.__file__ = None
        with unittest.mock.patch.dict(sys.modules, {"__main__": main}):
            self.assertFalse(pickles.main_has_file())

    def test_cloudpickle_is_looked_for_once(self):
        pickles.cloudpickle.cache_clear()
        self.addCleanup(pickles.cloudpickle.cache_clear)
        module = types.ModuleType("cloudpickle")
        with unittest.mock.patch.dict(sys.modules, {"cloudpickle": module}):
            self.assertIs(pickles.cloudpickle(), module)
        self.assertIs(pickles.cloudpickle(), module)
        pickles.cloudpickle.cache_clear()
        with unittest.mock.patch.dict(sys.modules, {"cloudpickle": None}):
            self.assertIsNone(pickles.cloudpickle())

    def test_cloudpickle_is_not_imported_before_it_is_needed(self):
        with unittest.mock.patch.dict(sys.modules, {"cloudpickle": None}):
            importlib.reload(importlib.import_module("rx10.version"))
            self.assertEqual(pickles.pack([1]), pickle.dumps([1], wire.PROTOCOL))


class Calls(unittest.TestCase):
    """What a main module defines is refused with a word where the other end could not import it."""

    def main_function(self):
        def work():
            return 1
        work.__module__, work.__qualname__ = "__main__", "work"
        return work

    def test_a_call(self):
        with without_cloud(main_has_file=lambda: True):
            self.assertEqual(pickle.loads(pickles.pack_call(os.path.join, ("a",), {"b": 2}, False)), (os.path.join, ("a",), {"b": 2}))

    def test_what_no_place_can_import(self):
        for by_value, has_file in ((True, True), (False, False), (True, False)):
            with without_cloud(main_has_file=lambda has_file=has_file: has_file):
                with self.assertRaisesRegex(pickle.PicklingError, "cannot import work from this main module: .* or install cloudpickle"):
                    pickles.pack_call(self.main_function(), (), {}, by_value)
                self.assertEqual(pickle.loads(pickles.pack_call(pow, (2, 3), {}, by_value)), (pow, (2, 3), {}))

    def test_a_callable_without_a_name(self):
        class Thing:
            """It has a module, and no name."""

            def __call__(self):
                return 1
        thing = Thing()
        thing.__module__ = "__main__"
        with without_cloud(main_has_file=lambda: False), self.assertRaisesRegex(pickle.PicklingError, "cannot import <.*Thing object"):
            pickles.pack_call(thing, (), {}, False)

    def test_a_main_module_that_can_be_imported_or_carried(self):
        work = self.main_function()
        patch, module = cloud(main_has_file=lambda: False)
        with patch:
            self.assertEqual(pickles.pack_call(work, (1,), {"a": 2}, False), b"cloud")
            self.assertEqual(pickles.pack_call(work, (1,), {"a": 2}, True), b"cloud")
        self.assertEqual([it[0] for it in module.asked], [(work, (1,), {"a": 2})] * 2)
        # (with a file it is pickled by its name, which this module has not)
        with without_cloud(main_has_file=lambda: True), self.assertRaises((AttributeError, pickle.PicklingError)) as caught:
            pickles.pack_call(work, (), {}, False)
        self.assertNotIn("install cloudpickle", str(caught.exception))


class Values(unittest.TestCase):
    def test_a_value(self):
        for value in (None, 0, False, [1, "a"], ValueError):
            self.assertEqual(pickles.unpack_value(pickles.pack_value(value)), value)

    def test_by_value(self):
        patch, module = cloud()
        with patch:
            self.assertEqual(pickles.pack_value(5, True), b"cloud")
            self.assertEqual(module.asked, [((True, 5), wire.PROTOCOL)])
            self.assertEqual(pickles.unpack_value(pickles.pack_value(5)), 5)

    def test_one_that_cannot_be_pickled(self):
        with without_cloud(), self.assertRaises(errors.Unpicklable) as caught:
            pickles.unpack_value(pickles.pack_value(Lame()))
        self.assertEqual(str(caught.exception), "a result of type Lame cannot be pickled: ValueError('lame')")

    def test_one_that_cannot_be_unpickled(self):
        with self.assertRaises(errors.Unpicklable) as caught:
            pickles.unpack_value(pickles.pack_value(Fragile()))
        self.assertIn("the result cannot be unpickled here: ValueError(", str(caught.exception))
        self.assertIsInstance(caught.exception.__cause__, ValueError)


class Faults(unittest.TestCase):
    def travel(self, fault, by_value=False):
        return pickles.unpack_fault(pickles.pack_fault(raised(fault), by_value))

    def test_an_exception_comes_as_it_is(self):
        for fault in (ValueError("a", 1), KeyError("b"), Elsewhere("c"), errors.DeadPlace(3)):
            got = self.travel(fault)
            self.assertEqual((type(got), got.args), (type(fault), fault.args))
            self.assertIsInstance(got.__cause__, errors.RemoteTraceback)
            self.assertEqual(got.__cause__.args[0], "".join(traceback.format_exception(type(fault), fault, fault.__traceback__)))
            self.assertIn("in raised", str(got.__cause__))

    def test_what_does_not_come_back_has_a_stand_in(self):
        for fault, name, text in ((TwoWords("a", "b"), "TwoWords", "a b"), (Quiet("c"), "Quiet", "c"), (SystemExit(3), "SystemExit", "3"),
                                  (KeyboardInterrupt("d"), "KeyboardInterrupt", "d"), (Mute(), "Mute", "(its text cannot be had)")):
            with without_cloud():
                got = self.travel(fault)
            self.assertEqual((type(got), got.name, got.text), (errors.RemoteError, name, text))
            self.assertIn("in raised", got.trace)
            self.assertEqual(str(got), f"{name}: {text}")
            again = pickle.loads(pickle.dumps(got))
            self.assertEqual((again.name, again.text, again.trace), (got.name, got.text, got.trace))

    def test_one_that_the_other_end_does_not_know(self):
        data = pickles.pack_fault(raised(Elsewhere("c")))
        with unittest.mock.patch.dict(sys.modules[__name__].__dict__):
            del sys.modules[__name__].__dict__["Elsewhere"]
            got = pickles.unpack_fault(data)
        self.assertEqual((type(got), got.name, got.text), (errors.RemoteError, "Elsewhere", "c"))

    def test_what_is_unpickled_as_something_else(self):
        data = pickle.dumps((pickle.dumps(5), "Odd", "text", "trace"))
        got = pickles.unpack_fault(data)
        self.assertEqual((type(got), got.name, got.text, got.trace), (errors.RemoteError, "Odd", "text", "trace"))

    def test_by_value(self):
        patch, module = cloud()
        with patch:
            fault = raised(ValueError("a"))
            pickles.pack_fault(fault, True)
            pickles.pack_fault(fault)
        self.assertEqual(module.asked, [(fault, wire.PROTOCOL)])
