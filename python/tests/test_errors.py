"""What rx10 raises: which group of which parts, in which order, and in which words."""

import pickle
import sys
import unittest

from rx10 import errors
from rx10.errors import DeadPlace, DeadPlaces, Faults, bare, group, leaves, outcome

GROUPS = sys.version_info >= (3, 11)


def parts(raised):
    """The parts of a group as words."""
    return [repr(it) if not isinstance(it, DeadPlace) else it.place for it in raised.exceptions]


class Outcomes(unittest.TestCase):
    """What a finish raises, by what it lost and what was thrown."""

    def test_the_words_and_the_parts(self):
        one, two = ValueError("a"), KeyError("b")
        for lost, thrown, kind, said in (
                ([3], [], DeadPlaces, "a finish: 1 place was lost"),
                ([1, 3], [], DeadPlaces, "a finish: 2 places were lost"),
                ([], [one], Faults, "a finish: 1 fault"),
                ([], [one, two], Faults, "a finish: 2 faults"),
                ([2], [two, one], Faults, "a finish: 1 place was lost, 2 faults"),
                ([2, 5], [one], Faults, "a finish: 2 places were lost, 1 fault")):
            raised = outcome("a finish", lost, 7, thrown)
            self.assertIs(type(raised), kind)
            self.assertEqual(raised.message, said)
            self.assertEqual(parts(raised), [*lost, *map(repr, thrown)])
            self.assertEqual((raised.lost, raised.masked), (tuple(lost), 7))
            self.assertIn(said, str(raised))

    def test_a_loss_that_a_task_raised_again(self):
        """It is a part, and none that this finish names."""
        raised = outcome("a finish", [], 0, [DeadPlace(4)])
        self.assertIs(type(raised), DeadPlaces)
        self.assertEqual((raised.places, raised.lost), ((4,), ()))

    def test_places(self):
        self.assertEqual(outcome("it", [5, 1], 0, [DeadPlace(5), DeadPlace(3)]).places, (1, 3, 5))

    def test_a_group_has_nothing_to_tell_before_it_is_told(self):
        self.assertEqual((group("g", [ValueError()]).lost, group("g", [ValueError()]).masked), ((), 0))

    def test_the_kind_of_a_group(self):
        self.assertIs(type(group("g", [DeadPlace(1), DeadPlace(2)])), DeadPlaces)
        self.assertIs(type(group("g", iter([DeadPlace(1), ValueError()]))), Faults)
        self.assertEqual(parts(group("g", iter([DeadPlace(2), ValueError(1)]))), [2, "ValueError(1)"])

    @unittest.skipUnless(GROUPS, "groups of exceptions came with Python 3.11")
    def test_except_star(self):
        space = {"outcome": outcome, "DeadPlace": DeadPlace, "told": []}
        exec("try:\n    raise outcome('it', [2], 3, [ValueError('a'), KeyError('b')])\n"     # noqa: S102 (the words are younger than Python 3.9)
             "except* DeadPlace as some:\n    told.append((type(some).__name__, [it.place for it in some.exceptions]))\n"
             "except* ValueError as some:\n    told.append((type(some).__name__, [str(it) for it in some.exceptions]))\n"
             "except* KeyError as some:\n    told.append((type(some).__name__, [it.args[0] for it in some.exceptions]))\n", space)
        self.assertEqual(space["told"], [("DeadPlaces", [2]), ("Faults", ["a"]), ("Faults", ["b"])])

    @unittest.skipUnless(GROUPS, "groups of exceptions came with Python 3.11")
    def test_a_group_that_is_split(self):
        lost, other = outcome("it", [2, 4], 3, [ValueError("a")]).split(DeadPlace)
        self.assertEqual((type(lost), parts(lost), lost.places), (DeadPlaces, [2, 4], (2, 4)))
        self.assertEqual((type(other), parts(other)), (Faults, ["ValueError('a')"]))
        self.assertIsNone(outcome("it", [2], 0, []).subgroup(ValueError))

    def test_a_traveller(self):
        raised = pickle.loads(pickle.dumps(outcome("it", [2], 3, [ValueError("a")])))
        self.assertEqual((type(raised), parts(raised)), (Faults, [2, "ValueError('a')"]))
        loss = pickle.loads(pickle.dumps(DeadPlace(6)))
        self.assertEqual((type(loss), loss.place), (DeadPlace, 6))


class Bare(unittest.TestCase):
    """What a call raises in place of a group."""

    def test_one_fault_is_raised_itself(self):
        fault = ValueError("a")
        self.assertIs(bare(outcome("at", [], 0, [fault])), fault)

    def test_a_loss_or_several_faults_stay_a_group(self):
        for raised in (outcome("at", [2], 0, []), outcome("at", [], 0, [ValueError(), ValueError()]), outcome("at", [2], 0, [ValueError()]),
                       outcome("at", [2, 3], 0, [])):
            self.assertIs(bare(raised), raised)

    def test_leaves(self):
        one, two, three = ValueError(1), DeadPlace(2), KeyError(3)
        inner = outcome("in", [], 0, [two, three])
        self.assertEqual(leaves(one), [one])
        self.assertEqual(leaves(outcome("out", [], 0, [one, inner])), [one, two, three])
        if GROUPS:
            own = ExceptionGroup("own", [ValueError(1), KeyError(2)])       # noqa: F821
            self.assertEqual(leaves(own), [own])


class Words(unittest.TestCase):
    def test_a_loss(self):
        self.assertEqual((str(DeadPlace(7)), DeadPlace(7).place), ("work was lost at place 7", 7))

    def test_stand_ins(self):
        fault = errors.RemoteError("Odd", "it is", "there")
        self.assertEqual((str(fault), fault.name, fault.text, fault.trace), ("Odd: it is", "Odd", "it is", "there"))
        self.assertEqual(errors.RemoteError("Odd", "it is").trace, "")
        self.assertEqual(str(errors.RemoteTraceback("line 1\n")), '\n"""\nline 1\n"""')

    def test_kinds(self):
        """What a caller may catch as what."""
        for kind, of in ((errors.Misuse, RuntimeError), (errors.Closed, RuntimeError), (errors.CoordinatorLost, errors.Closed),
                         (errors.PlaceGone, errors.Closed), (errors.Unpicklable, TypeError), (DeadPlaces, Faults), (Faults, Exception)):
            self.assertTrue(issubclass(kind, of), kind)
        for kind, of in ((errors.Misuse, errors.Closed), (errors.Closed, errors.Misuse), (errors.PlaceGone, errors.CoordinatorLost),
                         (DeadPlace, Faults)):
            self.assertFalse(issubclass(kind, of), kind)
