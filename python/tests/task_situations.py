"""What tasks and those who wait for them see, each situation in a process of its own.   task_situations.py NAME

As in situations.py: a situation that goes otherwise than it should ends with an AssertionError, and what is waited for ends the wait.
"""

import contextlib
import os
import sys
import threading
import time

import rx10
from alone import LIMIT, is_alive
from situations import kill, kind_of_fault, nap, raises, same, throw, wait_until

SITUATIONS = {}                                     # by name
SOON = 4                                            # seconds: a limit before which a busy machine has done what takes a moment
STUCK = 60                                          # seconds that a task takes which a limit ends long before


def situation(fn):
    SITUATIONS[fn.__name__] = fn
    return fn


# A call of one's own place.

def throws_in_a_finish(*kinds):
    with rx10.finish() as f:
        for kind in kinds:
            f.spawn(rx10.here(), throw, kind, "no")


def throws_in_its_body(kind):
    with rx10.finish():
        raise kind("body")


def loses_a_task_at(place):
    with rx10.finish() as f:
        f.spawn(place, same, 1)


def told(fn, *args, **kwargs):
    """What a call raises: the kinds, and of a group what it tells besides."""
    try:
        return fn(*args, **kwargs)
    except rx10.Faults as fault:
        return type(fault).__name__, [type(it).__name__ for it in fault.exceptions], fault.lost, fault.masked, fault.limit
    except Exception as fault:
        return type(fault).__name__, fault.args


@situation
def a_call_of_ones_own_place():
    """It raises what a call of another place raises."""
    with rx10.local(places=4) as rt:
        kill(rt.where(3))
        wait_until(lambda: 3 not in rt.places())
        for fn, *args in ((throw, ValueError, "no"), (throws_in_a_finish, ValueError), (throws_in_a_finish, ValueError, KeyError),
                          (throws_in_its_body, KeyError), (loses_a_task_at, 3), (throw, rx10.DeadPlace, 2), (rx10.at, 3, same, 1),
                          (rx10.at, 1, throw, KeyError, 1), (kill_in_a_finish, "x"), (same, 5)):
            elsewhere = told(rt.at, 1, fn, *args)
            assert told(rt.at, 0, fn, *args) == elsewhere, (fn, args, elsewhere, told(rt.at, 0, fn, *args))
            assert rt.at(2, told_at_home, fn, *args) == elsewhere, (fn, args, elsewhere)


def told_at_home(fn, *args):
    return told(rx10.at, rx10.here(), fn, *args)


def kill_in_a_finish(text):
    with rx10.finish() as f:
        f.spawn(3, same, text)
        f.spawn(rx10.here(), throw, ValueError)


@situation
def a_fault_of_ones_own_place_keeps_its_cause():
    with rx10.local(places=2) as rt:
        try:
            rt.at(0, rx10.at, 1, throw, ValueError, "no")
        except ValueError as fault:
            assert "in throw" in str(fault.__cause__), fault.__cause__
        try:
            rt.at(0, throws_in_its_body, KeyError)
        except KeyError as fault:
            assert names_of_lines(fault)[-1] == "throws_in_its_body", names_of_lines(fault)
        with raises(SystemExit):
            rt.at(0, sys.exit, 3)                   # the same task goes on, and it is the driver's
        with raises(rx10.Unpicklable):
            rt.at(0, threading.Lock)


def names_of_lines(fault):
    """The functions in a traceback, the innermost last."""
    import traceback
    return [frame.name for frame in traceback.extract_tb(fault.__traceback__)]


# How many may wait.

def waits(levels):
    """Waits for itself at this place, level within level."""
    if levels == 0:
        return 0
    with rx10.finish() as f:
        task = f.spawn(rx10.here(), waits, levels - 1)
    return 1 + task.result()


def calls_back(levels):
    """Waits in calls, between places 1 and 2."""
    return 0 if levels == 0 else 1 + rx10.at(3 - rx10.here(), calls_back, levels - 1)


def set_most(most):
    rx10.job()._place.pool.most = most


def most():
    return rx10.job()._place.pool.most


@situation
def tasks_that_wait_at_their_limit():
    with rx10.local(places=3) as rt:
        rt.at(1, set_most, 5)
        for _ in range(3):                          # and what was counted is given back
            assert rt.at(1, waits, 5) == 5
            with raises(rx10.Misuse, text="5 tasks of this place are inside a finish or a call"):
                rt.at(1, waits, 6)
            assert rt.at(1, calls_back, 9) == 9     # five of these at place 1
            with raises(rx10.Misuse, text="5 tasks of this place are"):
                rt.at(1, calls_back, 12)
            assert rt.at(1, two_finishes_and_a_call) == (1, 2)
        rt.at(1, set_most, 0)
        for call in (waits, 1), (rx10.at, 2, same, 1), (rx10.join,):
            assert rt.at(1, kind_of_fault, *call) is rx10.Misuse, call
        assert rt.at(1, rx10.at, 1, same, 4) == 4   # nothing waits here
        rt._place.pool.most = 0                     # the main task has its thread anyway
        with rt.finish() as f:
            f.spawn(0, same, 1)
        assert rt.at(2, waits, 3) == 3 and rt.at(0, kind_of_fault, same, 1) == 1 and len(rt.places()) == 3
        with raises(rx10.Faults, rx10.Misuse):
            with rt.finish() as f:
                f.spawn(0, waits, 1)


def two_finishes_and_a_call():
    """A task counts once, however much it is inside of."""
    pool = rx10.job()._place.pool
    before = pool._may_wait
    with rx10.finish(), rx10.finish():
        rx10.at(2, same, 1)
        inside = pool._may_wait
    assert pool._may_wait == before
    return inside - before, rx10.at(2, same, 2)


@situation
def twenty_thousand_that_wait():
    with rx10.local(places=3) as rt:
        limit = rt.at(1, most)
        if limit >= 20_000:
            assert rt.at(1, waits, 20_000) == 20_000
        else:
            with raises(rx10.Misuse, text=f"{limit} tasks of this place"):
                rt.at(1, waits, 20_000)
        assert rt.at(1, waits, 7) == 7 and rt.places() == (0, 1, 2)
        wait_until(lambda: rt.at(1, threading.active_count) < 20)       # the threads of those that waited have ended


@situation
def no_thread_can_be_started():
    """The task that would need one ends with a fault. The place, and the thread that listens there, live on."""
    with rx10.local(places=3) as rt:
        assert rt.at(1, waits, 2) == 2              # two threads are there, and without a task now
        for _ in range(2):
            assert rt.at(1, without_threads, waits, 2) == 2
            with raises(RuntimeError, text="place 1 has no thread for this task: can't start new thread"):
                rt.at(1, without_threads, waits, 20)
            with raises(RuntimeError, text="has no thread for this task"):
                rt.at(1, without_threads, back_and_forth, 20)       # the listening thread would start them
        with raises(rx10.Faults, RuntimeError):
            with rt.finish() as f:
                f.spawn(1, without_threads, waits, 20)
                well = f.spawn(2, same, 4)
        assert well.result() == 4 and rt.at(1, waits, 20) == 20 and rt.places() == (0, 1, 2)


def without_threads(fn, *args):
    start = threading.Thread.start

    def refuse(thread):
        raise RuntimeError("can't start new thread")
    threading.Thread.start = refuse
    try:
        return fn(*args)
    finally:
        threading.Thread.start = start


def back_and_forth(levels):
    return 0 if levels == 0 else 1 + rx10.at(2, forth, levels - 1)


def forth(levels):
    return rx10.at(1, back_and_forth, levels)


# What any thread of the driver may ask.

@situation
def any_thread_of_the_driver():
    with rx10.local(places=4) as rt:
        assert in_a_thread(rt.places) == (0, 1, 2, 3) and in_a_thread(rt.where, 2).process == rt.at(2, os.getpid)
        assert in_a_thread(rt.where, 0).process == os.getpid() and in_a_thread(lambda: rt.address) is None
        assert in_a_thread(kind_of_fault, rt.kill, 0) is ValueError
        assert in_a_thread(kind_of_fault, rt.kill, 4) is ValueError and in_a_thread(kind_of_fault, rt.where, 4) is ValueError
        in_a_thread(rt.kill, 3)
        with raises(rx10.DeadPlaces, 3):
            rt.at(3, same, 1)
        with raises(rx10.DeadPlaces, 1):
            with rt.finish() as f:                  # while the main task waits
                f.spawn(1, nap, LIMIT)
                threading.Timer(0.2, rt.kill, (1,)).start()
        assert in_a_thread(rt.places) == (0, 2)
        for call in (rt.at, 1, same, 1), (rt.spawn, 1, same, 1), (rt.join,), (rx10.places,), (rx10.kill, 1), (rx10.here,):
            assert in_a_thread(kind_of_fault, *call) is rx10.Misuse, call
        assert in_a_thread(enter_a_finish, rt) is rx10.Misuse
    assert in_a_thread(kind_of_fault, rt.kill, 2) is rx10.Closed


def enter_a_finish(rt):
    return kind_of_fault(rt.finish().__enter__)


def in_a_thread(fn, *args):
    seen = []
    thread = threading.Thread(target=lambda: seen.append(fn(*args)))
    thread.start()
    thread.join(LIMIT)
    return seen[0]


# How many run at a time.

def meet(count, most):
    """Notes how many of these tasks run at a time, and waits until as many do as may, or all have come."""
    store, lock = rx10.store(), LOCK
    with lock:
        store["now"] = store.get("now", 0) + 1
        store["came"] = store.get("came", 0) + 1
        store["most"] = max(store["now"], store.get("most", 0))
    wait_until(lambda: store["most"] >= most or store["came"] == count)
    with lock:
        store["now"] -= 1
    return store["most"]


LOCK = threading.Lock()


@situation
def threads_at_a_time():
    for threads in (1, 2, 3):
        with rx10.local(places=2, threads=threads) as rt:
            for place in rt.places():
                with rt.finish() as f:
                    tasks = [f.spawn(place, meet, 8, threads) for _ in range(8)]
                assert max(it.result() for it in tasks) == threads, (threads, place, [it.result() for it in tasks])
    for bad in (0, -1):
        with raises(ValueError, text="runs one task at a time at least"):
            rx10.local(places=2, threads=bad)
        with raises(ValueError, text="one place at least"):
            rx10.local(places=bad)


@situation
def a_task_that_waits_counts_for_none():
    """With one thread a place works for a task that waits there, and the one that waited goes on before those that are new."""
    with rx10.local(places=2) as rt:
        with rt.finish() as f:
            first, others = f.spawn(1, notes_and_waits), [f.spawn(1, note, name) for name in "bcd"]
        del first, others
        assert rt.at(1, notes)[:2] == ["begins", "b"] and set(rt.at(1, notes)) == {"begins", "b", "c", "d", "goes on"}, rt.at(1, notes)


def note(name):
    rx10.store().setdefault("notes", []).append(name)


def notes():
    return rx10.store()["notes"]


def notes_and_waits():
    note("begins")
    rx10.at(0, same, 1)
    note("goes on")


# Jobs, finishes and handles in the wrong hands.

@situation
def a_job_is_entered_once():
    rt = rx10.local(places=2)
    with rt:
        with raises(rx10.Closed, text="a job is entered once"):
            rt.__enter__()
        assert rt.at(1, same, 1) == 1
    with raises(rx10.Closed, text="a job is entered once"):
        rt.__enter__()


FINISHES = []


def spawn_of_it():
    FINISHES[0].spawn(0, same, 1)


def leave_it():
    FINISHES[0].__exit__(None, None, None)


@situation
def a_finish_in_another_task():
    rt = rx10.local(places=2)
    with raises(rx10.Closed, text="a finish was left out of turn"):
        with rt:
            with rt.finish() as f:
                FINISHES.append(f)
                with rt.finish() as g:
                    task = g.spawn(0, kind_of_fault, spawn_of_it)
                assert task.result() is rx10.Misuse
                assert f.spawn(1, same, 2).place == 1
                with raises(rx10.Closed):
                    rt.at(0, same, 1)
                    rt.spawn(0, leave_it)
                    wait_until(lambda: rt._place.closed)
                    rt.at(1, same, 1)


@situation
def a_task_that_ends_inside_a_finish():
    with raises(rx10.Closed, text="a task ended inside a finish"):
        with rx10.local(places=2) as rt:
            rt.at(1, leaves_a_finish_open)


def leaves_a_finish_open():
    rx10.finish().__enter__()


@situation
def handles():
    with rx10.local(places=4) as rt:
        kill(rt.where(3))
        wait_until(lambda: 3 not in rt.places())
        with raises(rx10.Faults, 3, KeyError):
            with rt.finish() as f:
                well, none, lost = f.spawn(1, same, [1]), f.spawn(2, same, None), f.spawn(3, same, 1)
                ill, names_a_loss = f.spawn(1, throw, KeyError, "k"), f.spawn(2, names, rx10.DeadPlaces)
                for call in (well.result, lambda: well.lost, ill.result, lambda: lost.lost):
                    assert kind_of_fault(call) is rx10.Misuse
        assert [it.place for it in (well, none, lost, ill)] == [1, 2, 3, 1]
        assert [it.lost for it in (well, none, lost, ill, names_a_loss)] == [False, False, True, False, False]
        assert well.result() == [1] and well.result() is not well.result() and none.result() is None
        for _ in range(2):
            with raises(KeyError, text="k"):
                ill.result()
            with raises(rx10.DeadPlace, text="work was lost at place 3"):
                lost.result()
        assert names_a_loss.result() == (3,)


def names(kind):
    try:
        rx10.at(3, same, 1)
    except kind as fault:
        return fault.places


# Limits of time.

@contextlib.contextmanager
def past_the_limit(*places, lost=None):
    """The body must raise these losses, past its limit."""
    try:
        yield
    except rx10.DeadPlaces as fault:
        assert fault.places == places and fault.limit is True and "past its limit" in str(fault), (fault, fault.limit)
        assert fault.lost == (places if lost is None else lost), fault.lost
        return
    raise AssertionError("it raised nothing")


@situation
def limit_of_a_finish():
    with rx10.local(places=7) as rt:
        with past_the_limit(1, 2):
            with rt.finish(limit=SOON) as f:
                tasks = [f.spawn(1, nap, STUCK), f.spawn(2, nap, STUCK), f.spawn(3, same, 5)]
                rt.at(3, same, 0)                   # so that one has ended
        assert [it.lost for it in tasks] == [True, True, False] and tasks[2].result() == 5
        assert rt.places() == (0, 3, 4, 5, 6) and not is_alive(rt.where(1).process), rt.places()
        with rt.finish(limit=LIMIT) as f:
            task = f.spawn(3, same, 6)
        assert task.result() == 6
        with past_the_limit(3):
            with rt.finish(limit=0.3) as f:
                f.spawn(3, nap, STUCK)
                wait_until(lambda: 3 not in rt.places())            # it counts from the beginning, the body is part of it
        for place, far in (0, 4), (5, 6):           # the limit is that of the lower finish, and so is the loss
            assert told(rt.at, place, finish_with_a_limit, far) == ("DeadPlaces", ["DeadPlace"], (), 0, False)
        assert rt.places() == (0, 5)


def finish_with_a_limit(place):
    try:
        with rx10.finish(limit=0.3) as f:
            f.spawn(place, nap, STUCK)
    except rx10.DeadPlaces as fault:
        assert fault.limit is True and fault.lost == (place,)
        raise


@situation
def limit_of_a_finish_that_is_not_reached():
    with rx10.local(places=3) as rt:
        try:
            with rt.finish(limit=LIMIT) as f:
                f.spawn(1, nap, STUCK)
                kill(rt.where(1))
        except rx10.DeadPlaces as fault:
            assert fault.places == (1,) and fault.limit is False and "limit" not in str(fault)
        with rt.finish(limit=0.1) as f:
            rt.at(0, same, 1)
        time.sleep(0.5)                             # past the limit of a finish that is over
        assert rt.at(2, same, 3) == 3 and rt.places() == (0, 2)


@situation
def limit_of_a_call():
    with rx10.local(places=5) as rt:
        assert rt.at(1, same, 5, limit=LIMIT) == 5 and rx10.at(1, same, 6, limit=None) == 6
        with raises(KeyError):
            rt.at(1, throw, KeyError, limit=LIMIT)
        with past_the_limit(1):
            rt.at(1, nap, STUCK, limit=0.3)
        with past_the_limit(2):
            rx10.at(2, nap, STUCK, limit=0.3)
        assert rt.at(3, naps_at, 4) == ("DeadPlaces", ["DeadPlace"], (4,), 0, True)
        assert rt.places() == (0, 3)


def naps_at(place):
    return told(rx10.at, place, nap, STUCK, limit=0.3)


@situation
def limit_at_ones_own_place():
    with rx10.local(places=4) as rt:
        assert rt.at(0, same, 5, limit=LIMIT) == 5 and rt.at(1, rx10_at_home, 6) == 6
        with raises(KeyError):
            rt.at(0, throw, KeyError, limit=LIMIT)
        assert rt.at(0, nap, 0.5, limit=0.1) == 0.5                 # a task at place 0 cannot be ended
        with rt.finish(limit=0.1) as f:
            task = f.spawn(0, nap, 0.5)
        assert task.result() == 0.5
        with past_the_limit(1, lost=()):
            rt.at(0, rx10.at, 1, nap, STUCK, limit=0.3)             # what it calls can be
        with raises(rx10.DeadPlaces, 2):
            rt.at(2, naps_at_home)                                  # and so can the place of the call itself
        assert rt.places() == (0, 3)


def rx10_at_home(thing):
    return rx10.at(rx10.here(), same, thing, limit=LIMIT)


def naps_at_home():
    rx10.at(rx10.here(), nap, STUCK, limit=0.3)


@situation
def times_that_are_none():
    with rx10.local(places=2) as rt:
        for bad in (0, -1, float("nan")):
            with raises(ValueError, text="a time of more than no seconds"):
                rt.finish(limit=bad)
            with raises(ValueError, text="limit="):
                rt.at(1, same, 1, limit=bad)
        with raises(TypeError):
            rt.at(1, same, 1, limit="1")
        assert rt.at(1, same, 1, limit=float("inf")) == 1
        with rt.finish(limit=float("inf")), rt.finish(limit=None):
            pass


# Tracebacks.

def ours(fault):
    """How many lines of the package a traceback has, and those of the user."""
    import traceback
    import rx10.errors
    home = os.path.dirname(rx10.errors.__file__)
    lines = traceback.extract_tb(fault.__traceback__)
    return sum(it.filename.startswith(home) for it in lines), [it.name for it in lines if not it.filename.startswith(home)]


@situation
def lines_of_ours_in_a_traceback():
    with rx10.local(places=3) as rt:
        with rt.finish() as f:
            well, ill = f.spawn(1, threading.Lock), f.spawn(1, same, 1)
        assert not ill.lost
        for fn, *args in ((rt.at, 1, throw, ValueError), (rx10.at, 1, throw, ValueError), (rt.at, 9, same), (rt.spawn, 9, same, 1),
                          (rx10.spawn, 1, same, threading.Lock()), (rt.at, 1, threading.Lock), (well.result,), (rt.kill, 0),
                          (rt.where, 9), (rx10.Ref(1).__class__.get, rt.at(1, rx10.Ref, 2)), (rt.at, 1, nested_calls),
                          (in_a_thread_of_mine, rt.at, 1, same), (in_a_thread_of_mine, rx10.here)):
            for _ in range(2):                      # raised again it is no longer
                fault = fault_of(fn, *args)
                assert ours(fault)[0] == 1, (fn, args, ours(fault))
                assert fault.__context__ is None and home_of_the_package() not in str(fault.__cause__), fault.__cause__
        fault = fault_of(rt.at, 0, nested_calls)
        assert ours(fault) == (1, ["fault_of", "nested_calls"]), ours(fault)
        fault = fault_of(throws_in_a_finish, ValueError)
        assert ours(fault) == (1, ["fault_of", "throws_in_a_finish"]) and fault.__cause__ is None, ours(fault)
        assert "in throw" in str(fault.exceptions[0].__cause__)
        assert home_of_the_package() not in str(fault.exceptions[0].__cause__), fault.exceptions[0].__cause__


def home_of_the_package():
    return os.path.dirname(rx10.__file__) + os.sep


def fault_of(fn, *args):
    try:
        fn(*args)
    except Exception as fault:
        return fault
    raise AssertionError(f"{fn} raised nothing")


def nested_calls():
    rx10.at(2, throw, KeyError)


def in_a_thread_of_mine(fn, *args):
    raise in_a_thread(fault_of, fn, *args)


@situation
def a_fault_that_passes_many_finishes_and_calls():
    """What is told of it does not grow with the number of finishes, and is cut where it would grow with that of calls."""
    with rx10.local(places=3) as rt:
        fault = fault_of(rt.at, 1, throws_below, 150)
        text = str(fault.__cause__)
        assert type(fault) is ZeroDivisionError and text.count("in throws_below") == 1 and len(text) < 1000, text
        fault = fault_of(rt.at, 1, throws_below_calls, 150)
        text = str(fault.__cause__)
        assert 20_000 < len(text) < 21_000 and "characters are left out here" in text, len(text)
        assert "raise ZeroDivisionError" in text[:500] and "in throws_below_calls" in text[-1000:], text


def throws_below(levels):
    if levels == 0:
        raise ZeroDivisionError
    with rx10.finish() as f:
        f.spawn(3 - rx10.here(), throws_below, levels - 1)


def throws_below_calls(levels):
    if levels == 0:
        raise ZeroDivisionError
    rx10.at(3 - rx10.here(), throws_below_calls, levels - 1)


# References, stores, jobs.

class Thing:
    pass


def many_refs(count):
    return [rx10.Ref([number]) for number in range(count)]


def get_all(refs):
    return [ref.get()[0] for ref in refs]


def kept_objects():
    return len(rx10.job()._place.objects)


@situation
def references():
    with rx10.local(places=3) as rt:
        refs = rt.at(1, many_refs, 100)             # in a result, many
        assert [ref.place for ref in refs] == [1] * 100 and rt.at(1, get_all, refs[::-1]) == list(range(100))[::-1]
        assert rt.at(1, get_all, refs[3:5]) == [3, 4] and rt.at(2, same, refs)[7].place == 1       # by way of another place
        assert rt.at(2, call_elsewhere, 1, get_all, refs[8:9]) == [8]
        for at in (0, 2):
            for call in (rx10.Ref.get, rx10.Ref.forget):
                assert rt.at(at, kind_of_fault, call, refs[0]) is rx10.Misuse
                with raises(rx10.Misuse, text=f"the object is at place 1, and this is place {at}"):
                    rt.at(at, call, refs[0])
        rt.at(1, rx10.Ref.forget, refs[0])
        for call in (rx10.Ref.forget, rx10.Ref.get):
            with raises(rx10.Misuse, text="the object was forgotten"):
                rt.at(1, call, refs[0])
        assert rt.at(1, kept_objects) == 99 and rt.at(1, get_all, refs[1:3]) == [1, 2]
        mine = rx10.Ref(refs)
        assert mine.place == 0 and mine.get() is refs and rt.at(0, rx10.Ref.get, mine)[5].place == 1
        assert rt.at(1, kind_of_fault, rx10.Ref.get, mine) is rx10.Misuse
        other = rx10.Ref(5)
        mine.forget()
        assert other.get() == 5
        with raises(rx10.Misuse):
            mine.get()
        kill(rt.where(1))
        with raises(rx10.DeadPlaces, 1):
            rt.at(1, rx10.Ref.get, refs[1])


def call_elsewhere(place, fn, *args):
    return rx10.at(place, fn, *args)


@situation
def an_object_that_is_forgotten_goes():
    import weakref
    with rx10.local(places=2):
        thing = Thing()
        ref, weak = rx10.Ref(thing), weakref.ref(thing)
        del thing
        assert ref.get() is weak()
        ref.forget()
        assert weak() is None


@situation
def stores():
    with rx10.local(places=3, threads=2) as a, rx10.local(places=2) as b:
        a.store["x"], b.store["x"] = 1, 2
        assert rx10.store() is b.store and a.at(0, get_x) == 1 and b.at(0, get_x) == 2
        a.at(1, put_x, 3)
        with a.finish() as f:
            seen = [f.spawn(1, get_x), f.spawn(2, get_x), f.spawn(0, get_x)]
        assert [it.result() for it in seen] == [3, None, 1] and b.at(1, get_x) is None


def get_x():
    return rx10.store().get("x")


def put_x(value):
    rx10.store()["x"] = value


@situation
def jobs_in_jobs():
    with rx10.local(places=2) as a:
        assert rx10.job() is a
        with rx10.local(places=3) as b:
            assert rx10.job() is b and rx10.places() == (0, 1, 2)
            with a.finish() as f:
                task = f.spawn(0, rx10.places)      # a task at place 0 is of its own job
            assert task.result() == (0, 1) and a.at(1, rx10.places) == (0, 1)
            assert a.at(1, job_of_its_own, 3) == ((0, 1, 2), 9, (0, 1))
            with a.finish() as f:
                tasks = [f.spawn(0, job_of_its_own, 4)]
            assert tasks[0].result() == ((0, 1, 2, 3), 9, (0, 1))
        assert rx10.job() is a and rx10.at(1, same, 4) == 4
    with raises(rx10.Misuse, text="this thread runs no task of a job"):
        rx10.job()


def job_of_its_own(places):
    """A task may drive a job of its own: inside the `with` the calls of the module mean that one."""
    with rx10.local(places=places) as rt:
        inside = rx10.places()
        with rx10.finish() as f:
            task = f.spawn(2, pow, 3, 2)
        assert rt.at(1, same, 5) == 5 and rx10.job() is rt
        assert rx10.at(0, same, 6) == 6
    return inside, task.result(), rx10.places()


# Progress lines of nested finishes.

@situation
def progress_of_nested_finishes():
    import io
    stderr, sys.stderr = sys.stderr, io.StringIO()
    try:
        with rx10.local(places=4) as rt:
            with rt.finish(progress=True) as f:
                for _ in range(2):
                    f.spawn(1, same, 1)
                with raises(rx10.DeadPlaces, 3):
                    with rt.finish(progress=True) as g:
                        for _ in range(3):
                            g.spawn(2, same, 1)
                        g.spawn(3, nap, LIMIT)
                        kill(rt.where(3))
                with rt.finish() as h:
                    h.spawn(1, same, 1)
        said = sys.stderr.getvalue()
    finally:
        sys.stderr = stderr
    inner, outer, nothing = said.split("\n")
    assert nothing == "" and inner.split("\r")[-1].strip() == "done 3, running 0, lost 1 (by place 2: 3/0/0, 3: 0/0/1)", said
    assert outer.split("\r")[-1].strip() == "done 2, running 0, lost 0 (by place 1: 2/0/0)", said


# Groups of faults.

@situation
def groups():
    with rx10.local(places=4) as rt:
        kill(rt.where(2))
        kill(rt.where(3))
        wait_until(lambda: rt.places() == (0, 1))
        fault = fault_of(a_group, ValueError("a"))
        assert type(fault) is rx10.Faults and fault.lost == (2, 3), fault
        assert [type(it) for it in fault.exceptions] == [rx10.DeadPlace, rx10.DeadPlace, KeyError, ValueError], fault.exceptions
        assert "a finish: 2 places were lost, 2 faults" in str(fault), str(fault)
        losses = fault_of(a_group, None)
        assert type(losses) is rx10.DeadPlaces and losses.places == (2, 3) and "a finish: 2 places were lost" in str(losses)
        one = fault_of(throws_in_a_finish, ValueError)
        assert type(one) is rx10.Faults and one.lost == () and "a finish: 1 fault" in str(one), str(one)
        if sys.version_info >= (3, 11):
            check_groups(fault, losses)
        else:
            assert "(DeadPlace: work was lost at place 2; DeadPlace: " in str(fault), str(fault)
            assert fault.message.startswith("a finish: ") and not hasattr(fault, "split")


def a_group(body):
    with rx10.finish() as f:
        for place in (3, 2, 3):
            f.spawn(place, same, 1)
        if body is not None:
            f.spawn(1, throw, ValueError, "task")
            rx10.at(1, same, 1)
            raise KeyError("body")


def check_groups(fault, losses):
    lost, others = fault.split(rx10.DeadPlace)
    assert type(lost) is rx10.DeadPlaces and lost.places == (2, 3) and type(others) is rx10.Faults and len(others.exceptions) == 2
    assert isinstance(losses, ExceptionGroup) and losses.subgroup(ValueError) is None
    exec(STARS, {"fault": fault, "rx10": rx10})


STARS = """
caught = []
try:
    raise fault
except* rx10.DeadPlace as group:
    caught.append((type(group), group.places))
except* KeyError as group:
    caught.append((type(group), len(group.exceptions)))
except* ValueError as group:
    caught.append((type(group), [str(it) for it in group.exceptions]))
assert caught == [(rx10.DeadPlaces, (2, 3)), (rx10.Faults, 1), (rx10.Faults, ["task"])], caught
"""


if __name__ == "__main__":
    import task_situations                          # so that a place finds what tasks run by this module's name
    task_situations.SITUATIONS[sys.argv[1]]()
