"""What a user sees when things go wrong, each situation in a process of its own.   situations.py NAME

A situation that goes otherwise than it should ends with an AssertionError. What is waited for ends the wait, and no time is measured: so a
busy machine makes it longer, and nothing else.
"""

import contextlib
import contextvars
import ctypes
import os
import signal
import subprocess
import sys
import threading
import time

import rx10
from alone import LIMIT, is_alive, runs

SITUATIONS = {}                                     # by name


def situation(fn):
    SITUATIONS[fn.__name__] = fn
    return fn


def pid():
    return os.getpid()


def nap(seconds):
    time.sleep(seconds)
    return seconds


def same(thing):
    return thing


@contextlib.contextmanager
def raises(kind, *parts, text=""):
    """The body must raise this, a group with these parts where some are given. An int stands for a loss at that place."""
    try:
        yield
    except kind as fault:
        assert type(fault) is kind, repr(fault)
        assert text in str(fault), str(fault)
        if parts:
            found = [it.place if isinstance(it, rx10.DeadPlace) else type(it) for it in fault.exceptions]
            assert found == list(parts), found
        return
    raise AssertionError(f"it raised no {kind.__name__}")


def later(seconds, fn, *args):
    threading.Timer(seconds, fn, args).start()


def wait_until(holds, *args):
    """Waits for what must come. Where it does not, the test's limit of time ends it."""
    while not holds(*args):
        time.sleep(0.01)


def new_folder():
    import tempfile                                 # the driver alone needs it
    return tempfile.TemporaryDirectory()


def kill(process):
    os.kill(process, signal.SIGKILL)


def all_over(runtime):
    """Whether all places but this one have ended."""
    return not any(map(is_alive, runtime._engine.processes()))


def coordinator_of(runtime):
    with open(f"/proc/{runtime._hub.pid}/task/{runtime._hub.pid}/children", encoding="ascii") as file:
        return int(file.read().split()[0])


# Places that die.

@situation
def kill_9_of_a_place():
    with rx10.local(places=3) as rt:
        with raises(rx10.DeadPlaces, 1):
            with rt.finish() as f:
                a, b = f.spawn(1, nap, LIMIT), f.spawn(2, same, 5)
                time.sleep(0.1)
                kill(rt.where(1))
        assert a.lost and b.result() == 5 and rt.places() == (0, 2)
        with raises(rx10.DeadPlace):
            a.result()
        with raises(rx10.DeadPlaces, 1):
            rt.at(1, same, 1)
        with raises(rx10.DeadPlaces, 1):
            with rt.finish() as f:
                f.spawn(1, same, 1)


@situation
def task_ends_its_own_place():
    with rx10.local(places=4) as rt:
        with raises(rx10.DeadPlaces, 1):
            rt.at(1, kill_myself)
        with raises(rx10.DeadPlaces, 2):
            rt.at(2, os._exit, 0)
        assert rt.at(3, same, 1) == 1


def kill_myself():
    kill(os.getpid())


@situation
def stopped_place():
    with rx10.local(places=3) as rt:
        begin = time.monotonic()
        os.kill(rt.where(1), signal.SIGSTOP)
        later(0.5, os.kill, rt.where(1), signal.SIGCONT)
        assert rt.at(1, same, 7) == 7 and time.monotonic() - begin > 0.4
        os.kill(rt.where(1), signal.SIGSTOP)
        later(0.3, rt._place.tell, "kill", 1)
        with raises(rx10.DeadPlaces, 1):
            rt.at(1, same, 7)
        with raises(ValueError):
            rt.kill(0)


@situation
def kill_of_a_stuck_place():
    with rx10.local(places=3) as rt:
        with raises(rx10.DeadPlaces, 1):
            with rt.finish() as f:
                f.spawn(1, hold_the_interpreter, LIMIT)
                time.sleep(0.1)
                rt.kill(1)


@situation
def messages_to_a_stopped_place():
    with rx10.local(places=3) as rt:
        rt.at(1, same, 0)
        os.kill(rt.where(1), signal.SIGSTOP)
        with rt.finish() as f:
            tasks = [f.spawn(1, len, bytes(100_000)) for _ in range(200)]
            assert rt.at(2, same, 5) == 5
            os.kill(rt.where(1), signal.SIGCONT)
        assert sum(it.result() for it in tasks) == 20_000_000


@situation
def place_that_falls_behind():
    import logging
    said = []
    handler = logging.Handler()
    handler.emit = lambda record: said.append(record.getMessage())
    logging.getLogger("rx10").addHandler(handler)
    with rx10.local(places=3, backlog=1_000_000) as rt:
        os.kill(rt.where(1), signal.SIGSTOP)
        with raises(rx10.DeadPlaces, 1):
            with rt.finish() as f:
                for _ in range(30):
                    f.spawn(1, len, bytes(100_000))
        assert rt.at(2, len, bytes(3_000_000)) == 3_000_000         # one message of any size is well
        wait_until(lambda: said)
    assert len(said) == 1 and said[0].startswith("place 1 is ended: it does not read"), said


def memory_of(process):
    """The memory of a process in megabytes."""
    with open(f"/proc/{process}/statm", encoding="ascii") as file:
        return int(file.read().split()[1]) * os.sysconf("SC_PAGESIZE") / 1e6


@situation
def hub_gives_results_on():
    """300 MB of results are at the driver before their finish is over, and the hub keeps none of them. They are shown with the release."""
    with new_folder() as folder, rx10.local(places=3) as rt:
        over = os.path.join(folder, "over")
        for size, count in ((1_000_000, 300), (10_000, 3000)):
            with rt.finish() as f:
                tasks = [f.spawn(1 + number % 2, bytes, size) for number in range(count)]
                f.spawn(1, wait_until, os.path.exists, over)
                wait_until(lambda: len(rt._main.values) == count)
                wait_until(lambda: memory_of(rt._hub.pid) < 100)
                with raises(rx10.Misuse):
                    tasks[0].result()
                open(over, "w", encoding="ascii").close()
            os.remove(over)
            assert all(len(task.result()) == size for task in tasks) and not rt._main.values


@contextlib.contextmanager
def warnings():
    """What the package warns of meanwhile."""
    import logging
    said, handler, logger = [], logging.Handler(), logging.getLogger("rx10")
    handler.emit = lambda record: said.append(record.getMessage())
    logger.addHandler(handler)
    yield said
    logger.removeHandler(handler)


@situation
def stopped_place_is_told_of():
    """It gives no sign of life, and a place whose task computes does. Nobody is told dead for that."""
    import io
    stderr, sys.stderr = sys.stderr, io.StringIO()
    try:
        with warnings() as said, rx10.local(places=3) as rt:
            os.kill(rt.where(1), signal.SIGSTOP)
            with rt.finish(progress=True) as f:
                tasks = [f.spawn(1, same, 1), f.spawn(2, compute_until_it_is_there, __file__ + ".nowhere", 20)]
                threading.Thread(target=go_on_when_said, args=("no sign of life from 1", rt)).start()
            assert [it.result() for it in tasks] == [1, None] and rt.at(1, same, 3) == 3 and not rt.where(1).silent
        assert len(said) == 1 and said[0].startswith("place 1 gave no sign of life for 15 s"), said
        last = sys.stderr.getvalue().rstrip().split("\r")[-1]
        assert last.startswith("done 2, running 0, lost 0") and "sign" not in last, last
    finally:
        sys.stderr = stderr


def go_on_when_said(text, rt):
    wait_until(lambda: text in sys.stderr.getvalue() and rt.where(1).silent and not rt.where(2).silent)
    os.kill(rt.where(1), signal.SIGCONT)


def compute_until_it_is_there(path, seconds):
    until = time.monotonic() + seconds
    while time.monotonic() < until and not os.path.exists(path):
        sum(range(1000))


@situation
def silent_places_are_ended_where_that_is_wanted():
    """One that is stopped, and one that holds the interpreter's lock, but not one whose task computes."""
    with warnings() as said, rx10.local(places=4, silent=10) as rt:
        with raises(rx10.DeadPlaces, 1, 2):
            with rt.finish() as f:
                os.kill(rt.where(1), signal.SIGSTOP)
                f.spawn(1, same, 1)
                f.spawn(2, hold_the_interpreter, LIMIT)
                busy = f.spawn(3, compute_until_it_is_there, __file__ + ".nowhere", 15)
        assert busy.result() is None and rt.places() == (0, 3)
        wait_until(lambda: len(said) == 2)
    assert sorted(said) == [f"place {place} is ended: it gave no sign of life for 10 s" for place in (1, 2)], said


@situation
def coordinator_that_does_not_answer():
    with warnings() as said, rx10.local(places=2) as rt:
        coordinator = coordinator_of(rt)
        os.kill(coordinator, signal.SIGSTOP)
        threading.Thread(target=lambda: (wait_until(lambda: said), os.kill(coordinator, signal.SIGCONT))).start()
        assert rt.at(1, same, 7) == 7
    assert said == ["the coordinator has not answered for 15 s"], said


@situation
def place_holds_the_interpreter():
    with rx10.local(places=3) as rt:
        with rt.finish() as f:
            f.spawn(1, hold_the_interpreter, 1)
            assert rt.at(2, same, 5) == 5


def hold_the_interpreter(seconds):
    ctypes.PyDLL(None).sleep(seconds)               # no other thread of the place runs


@situation
def child_of_a_task_outlives_its_place():
    with new_folder() as folder:
        path = os.path.join(folder, "child")
        with rx10.local(places=2) as rt, raises(rx10.DeadPlaces, 1):
            rt.at(1, fork_and_die, path)
        with open(path, encoding="ascii") as file:
            child = int(file.read())
    assert is_alive(child)
    kill(child)


def fork_and_die(path):
    child = os.fork()
    if child == 0:
        time.sleep(2 * LIMIT)
        os._exit(0)
    with open(path, "w", encoding="ascii") as file:
        file.write(str(child))
    kill_myself()


@situation
def killed_while_it_sends():
    for size, delay in ((30_000_000, 0.3), (3_000_000, 0.05)):
        with rx10.local(places=2) as rt:
            later(delay, kill, rt.where(1))
            with raises(rx10.DeadPlaces, 1):
                while True:
                    rt.at(1, bytes, size)


@situation
def killed_while_it_starts():
    with raises(rx10.Closed, text="a place ended while it started"):
        rt = rx10.local(places=3)
        rt._engine._start = start_and_kill
        with rt:
            raise AssertionError("it started")


def start_and_kill(process):
    process.start()
    kill(process.pid)
    return process.pid


# What tasks raise and return.

class Odd(Exception):
    def __init__(self, a, b):
        super().__init__("odd")
        self.lock = threading.Lock()


class TwoArguments(Exception):
    def __init__(self, a, b):
        super().__init__(f"{a} and {b}")


def throw(kind, *args):
    raise kind(*args)


@situation
def exception_that_cannot_be_sent():
    with rx10.local(places=2) as rt:
        for kind in (Odd, TwoArguments):
            with raises(rx10.RemoteError, text=kind.__name__):
                rt.at(1, throw, kind, 1, 2)
        with raises(rx10.Faults, rx10.RemoteError, ValueError):
            with rt.finish() as f:
                f.spawn(1, throw, Odd, 1, 2)
                f.spawn(1, throw, ValueError)


@situation
def result_that_cannot_be_sent():
    with rx10.local(places=2) as rt:
        with raises(rx10.Unpicklable):
            rt.at(1, threading.Lock)
        with rt.finish() as f:
            task = f.spawn(1, threading.Lock)
        with raises(rx10.Unpicklable):
            task.result()


@situation
def argument_that_cannot_be_sent():
    with rx10.local(places=2) as rt:
        with raises(rx10.Faults, TypeError):
            with rt.finish() as f:
                task = f.spawn(1, same, 1)
                f.spawn(1, same, threading.Lock())
        assert task.result() == 1 and rt.at(1, same, 3) == 3


class NotThere:
    pass


@situation
def function_that_is_not_there():
    with rx10.local(places=2) as rt:
        NotThere.__module__ = "nowhere"
        sys.modules["nowhere"] = sys.modules[__name__]
        with raises(ModuleNotFoundError):
            rt.at(1, NotThere)


@situation
def fault_of_a_task():
    with rx10.local(places=2) as rt:
        try:
            rt.at(1, throw, ValueError, "no")
        except ValueError as fault:
            assert fault.args == ("no",) and "in throw" in str(fault.__cause__), fault.__cause__
        with rt.finish() as f:
            well = f.spawn(1, same, 4)
            with raises(rx10.Faults, KeyError):
                with rt.finish() as g:
                    ill = g.spawn(1, throw, KeyError, "a")
        assert well.result() == 4
        with raises(KeyError):
            ill.result()


@situation
def many_faults():
    with rx10.local(places=2) as rt:
        try:
            rt.at(1, throw_many, 1000)
        except rx10.Faults as fault:
            assert [it.args[0] for it in fault.exceptions] == list(range(1000))
            return
    raise AssertionError("it raised nothing")


def throw_many(count):
    with rx10.finish() as f:
        for number in range(count):
            f.spawn(1, throw, ValueError, number)


@situation
def huge_result():
    with rx10.local(places=2) as rt:
        data = rt.at(1, bytes, 20_000_000)
        assert len(data) == 20_000_000 and rt.at(1, len, data) == 20_000_000


@situation
def exit_in_a_task():
    with rx10.local(places=2) as rt:
        with raises(rx10.RemoteError, text="SystemExit"):
            rt.at(1, sys.exit, 3)
        with raises(rx10.RemoteError, text="SystemExit"):
            rt.at(1, exit_in_a_finish)
        assert rt.at(1, same, 3) == 3


def exit_in_a_finish():
    with rx10.finish() as f:
        f.spawn(0, nap, 0.1)
        sys.exit(4)


@situation
def losses_come_first():
    with rx10.local(places=4) as rt:
        with raises(rx10.Faults, 1, KeyError, ValueError, 1):
            with rt.finish() as f:
                f.spawn(1, nap, LIMIT)
                f.spawn(2, int, "x")
                rt.at(2, same, 0)                   # so that one has ended
                f.spawn(3, loses_inside, 1)
                time.sleep(0.2)
                kill(rt.where(1))
                raise KeyError("body")


def loses_inside(place):
    with rx10.finish() as f:
        f.spawn(place, nap, LIMIT)


# Interrupts, and the end of driver, hub and coordinator.

@situation
def exit_in_the_driver():
    rt = rx10.local(places=2)
    with raises(SystemExit):
        with rt, rt.finish() as f:
            f.spawn(1, nap, LIMIT)
            sys.exit(5)
    assert all_over(rt)


@situation
def interrupt():
    """SIGINT to the whole process group, as a terminal does."""
    rt = rx10.local(places=3)
    with raises(KeyboardInterrupt):
        with rt:
            later(0.3, os.killpg, 0, signal.SIGINT)
            with rt.finish() as f:
                for place in rt.places()[1:]:
                    f.spawn(place, nap, LIMIT)
    assert all_over(rt)
    with raises(rx10.Closed):
        rt.at(1, same, 1)


@situation
def interrupt_caught_in_the_body():
    with rx10.local(places=3) as rt:
        with rt.finish() as f:
            task = f.spawn(1, nap, 0.5)
            with raises(KeyboardInterrupt):
                os.killpg(0, signal.SIGINT)
                time.sleep(LIMIT)
        assert task.result() == 0.5 and rt.at(2, same, 3) == 3


@situation
def interrupt_while_the_coordinator_hangs():
    rt = rx10.local(places=3)
    with raises(KeyboardInterrupt):
        with rt:
            os.kill(coordinator_of(rt), signal.SIGSTOP)
            later(0.3, os.kill, os.getpid(), signal.SIGINT)
            rt.at(1, same, 1)
    assert all_over(rt)


@situation
def coordinator_killed():
    with raises(rx10.CoordinatorLost), rx10.local(places=3) as rt:
        later(0.2, kill, coordinator_of(rt))
        with raises(rx10.CoordinatorLost):
            with rt.finish() as f:
                f.spawn(1, nap, LIMIT)
        assert all_over(rt)
        with raises(rx10.CoordinatorLost):
            rt.at(1, same, 1)


@situation
def hub_killed():
    with raises(rx10.CoordinatorLost), rx10.local(places=3) as rt:
        later(0.2, kill, rt._hub.pid)
        with raises(rx10.CoordinatorLost):
            with rt.finish() as f:
                f.spawn(1, nap, LIMIT)
        assert all_over(rt)


@situation
def hub_killed_and_not_noticed():
    with raises(rx10.CoordinatorLost):
        with rx10.local(places=2) as rt:
            kill(rt._hub.pid)
            rt._hub.wait()
    assert all_over(rt)


@situation
def driver_killed():
    with rx10.local(places=3) as rt:
        with rt.finish() as f:
            f.spawn(1, nap, LIMIT)
            f.spawn(2, hold_the_interpreter, LIMIT)
            time.sleep(0.3)
            kill_myself()


@situation
def driver_killed_and_its_child_lives():
    """The child holds copies of the driver's files. The places and the hub end all the same."""
    with rx10.local(places=3) as rt:
        with rt.finish() as f:
            f.spawn(1, nap, LIMIT)
            time.sleep(0.1)
            others = [rt.where(1).process, rt.where(2).process, rt._hub.pid]
            if os.fork() == 0:
                wait_until(lambda: not any(map(is_alive, others)))
                print("none is left", flush=True)
                os._exit(0)
            kill_myself()


# The rules of scopes.

@situation
def adoption():
    """docs/semantics.md: place 2 dies with a finish of its own, and the finish at place 1 waits for what runs under it at place 3."""
    assert adopted(end_when_told) == ((2,), 0)


@situation
def masked():
    """docs/semantics.md: the fault of a task whose finish was lost is counted, and raised by nobody."""
    assert adopted(throw_when_told) == ((2,), 1)


def adopted(fn):
    """Kills place 2 once fn runs at place 3, and lets that end later. What the finish at place 1 told."""
    with new_folder() as folder, rx10.local(places=4) as rt:
        with rt.finish() as f:
            task = f.spawn(1, outer, folder, fn)
            wait_for(folder, "runs")
            kill(rt.where(2))
            wait_until(lambda: 2 not in rt.places())
            time.sleep(0.2)
            assert not os.path.exists(os.path.join(folder, "over")), "the finish at place 1 did not wait"
            touch(folder, "go")
        return task.result()


def outer(folder, fn):
    try:
        with rx10.finish() as f:
            f.spawn(2, inner, fn, folder)
    except rx10.DeadPlaces as fault:
        touch(folder, "over")
        return fault.places, fault.masked


def inner(fn, folder):
    with rx10.finish() as f:
        f.spawn(3, fn, folder)


def end_when_told(folder):
    touch(folder, "runs")
    wait_for(folder, "go")


def throw_when_told(folder):
    end_when_told(folder)
    raise ValueError("nobody sees this")


def touch(folder, name):
    with open(os.path.join(folder, name), "w", encoding="ascii"):
        pass


def wait_for(folder, name):
    wait_until(os.path.exists, os.path.join(folder, name))


@situation
def task_outlives_an_at():
    """What the body of an `at` starts hangs under the finish around the `at`, which does not wait for it."""
    with new_folder() as folder, rx10.local(places=3) as rt:
        with rt.finish():
            rt.at(1, start_at_2, folder)
            touch(folder, "go")
        assert os.path.exists(os.path.join(folder, "runs"))


def start_at_2(folder):
    rx10.spawn(2, end_when_told, folder)


@situation
def deep():
    with rx10.local(places=3) as rt:
        assert rt.at(1, down, 150) == 150


def down(levels):
    if levels == 0:
        return 0
    with rx10.finish() as f:
        f.spawn(rx10.here(), same, 1)
    return 1 + rx10.at(1 + levels % 2, down, levels - 1)


@situation
def deep_and_lost():
    """A chain of 400 finishes over places 1 and 2. Both are killed at its end."""
    with new_folder() as folder, rx10.local(places=4, threads=4) as rt:
        mark = os.path.join(folder, "at the end")
        with raises(rx10.DeadPlaces, 1, 2):
            with rt.finish() as f:
                f.spawn(1, down_and_nap, 400, mark)
                wait_until(os.path.exists, mark)
                kill(rt.where(1))
                kill(rt.where(2))
        assert rt.at(3, same, 1) == 1


def down_and_nap(levels, mark):
    with rx10.finish() as f:
        if levels == 0:
            with open(mark, "w", encoding="ascii"):
                time.sleep(LIMIT)
        f.spawn(1 + levels % 2, down_and_nap, levels - 1, mark)


# Wrong uses.

@situation
def misuse():
    with rx10.local(places=2) as rt:
        with raises(rx10.Faults, rx10.Misuse):
            with rt.finish() as f, rt.finish():
                f.spawn(1, same, 1)
        with raises(rx10.Faults, rx10.Misuse):
            with rt.finish() as f:
                f.spawn(1, same, 1).result()
        with raises(ValueError):
            rt.at(2, same, 1)
        seen = []
        thread = threading.Thread(target=lambda: seen.append(kind_of_fault(rt.at, 1, same, 1)))
        thread.start()
        thread.join()
        assert seen == [rx10.Misuse], seen
        assert rt.at(1, from_a_copied_context) is rx10.Misuse
        assert rt.at(1, job_travels, rt) == 1
    with raises(rx10.Closed):
        rt.at(1, same, 1)
    with raises(rx10.Misuse):
        rx10.here()


def kind_of_fault(fn, *args):
    try:
        return fn(*args)
    except Exception as fault:
        return type(fault)


def from_a_copied_context():
    seen, context = [], contextvars.copy_context()
    thread = threading.Thread(target=context.run, args=(lambda: seen.append(kind_of_fault(rx10.at, 0, same, 1)),))
    thread.start()
    thread.join()
    return seen[0]


def job_travels(job):
    assert job.at(0, same, 4) == 4
    return job.here


@situation
def finish_left_out_of_turn():
    """A generator that holds a finish open is left alone, and the finish around it ends."""
    def holds(rt):
        with rt.finish():
            yield
    rt = rx10.local(places=2)
    with raises(rx10.Closed):
        with rt:
            with raises(rx10.Misuse):
                with rt.finish():
                    left = holds(rt)
                    next(left)
            assert all_over(rt)
            with raises(rx10.Closed):
                rt.at(1, same, 1)
    with contextlib.suppress(rx10.Closed):
        left.close()


@situation
def joins():
    with rx10.local(places=13) as rt:
        assert rt.join() == 13 and rt.at(13, rx10.join) == 14 and rt.join() == 15
        with raises(rx10.Misuse, text="at most 16 places"):
            rt.join()
        assert rt.at(15, kind_of_fault, rx10.join) is rx10.Misuse
    with raises(rx10.Closed, text="at most 16 places"):
        with rx10.local(places=17):
            pass
    with raises(ValueError):
        rx10.local(places=0)


@situation
def no_coordinator():
    for name, words in (("/nowhere/coordinator", "there is no coordinator"), (__file__, "may be run"), ("/bin/echo", "no coordinator of version 1")):
        os.environ["RX10_COORDINATOR"] = name
        with raises(rx10.Closed if name == "/bin/echo" else PermissionError if name == __file__ else FileNotFoundError, text=words):
            with rx10.local(places=2):
                pass


# The rest of the surface.

@situation
def store_and_references():
    with rx10.local(places=3) as rt:
        thing = rt.at(1, rx10.Ref, [1, 2, 3])
        assert thing.place == 1 and rt.at(1, append, thing) == [1, 2, 3, 4] and rt.at(1, append, thing) == [1, 2, 3, 4, 4]
        with raises(rx10.Misuse):
            thing.get()
        rt.at(1, rx10.Ref.forget, thing)
        with raises(rx10.Misuse):
            rt.at(1, append, thing)
        rt.at(2, put, "a", 5)
        assert rt.at(2, get, "a") == 5 and rt.store == {}


def append(thing):
    thing.get().append(4)
    return thing.get()


def put(key, value):
    rx10.store()[key] = value


def get(key):
    return rx10.store()[key]


@situation
def copies():
    with rx10.local(places=2) as rt:
        thing = [1]
        assert rt.at(0, same, thing) == [1] and rt.at(0, same, thing) is not thing
        with raises(rx10.Unpicklable):
            rt.at(0, threading.Lock)


@situation
def two_jobs_at_once():
    with rx10.local(places=2) as a, rx10.local(places=3) as b:
        assert a.at(1, pid) != b.at(1, pid) and a.places() == (0, 1) and b.places() == (0, 1, 2)
        assert b.at(1, rx10.places) == (0, 1, 2)


@situation
def spawn_without_a_finish():
    with raises(rx10.Faults, ValueError):
        with rx10.local(places=2) as rt:
            rt.spawn(1, throw, ValueError)
            rx10.spawn(1, nap, 0.1)
    with raises(rx10.Faults, ValueError, KeyError):         # in the order of their ends
        with rx10.local(places=2) as rt:
            rt.spawn(1, throw, ValueError)
            rt.at(1, same, 0)                               # so that it has ended
            raise KeyError


@situation
def progress():
    import io
    stderr, sys.stderr = sys.stderr, io.StringIO()
    try:
        with rx10.local(places=3) as rt:
            with raises(rx10.DeadPlaces, 1):
                with rt.finish(progress=True) as f:
                    for _ in range(3):
                        f.spawn(2, same, 1)
                    f.spawn(1, nap, LIMIT)
                    threading.Thread(target=kill_when_said, args=("done 3, running 1", rt.where(1))).start()
            with rt.finish() as f:
                f.spawn(2, same, 1)
        said = sys.stderr.getvalue()
    finally:
        sys.stderr = stderr
    lines = [line.rstrip() for line in said.strip().split("\r")]
    assert said.endswith("\n") and lines[-1] == "done 3, running 0, lost 1 (by place 1: 0/0/1, 2: 3/0/0)", lines
    assert "done 3, running 1, lost 0 (by place 1: 0/1/0, 2: 3/0/0)" in lines, lines


def kill_when_said(text, process):
    wait_until(lambda: text in sys.stderr.getvalue())
    kill(process)


@situation
def no_file():
    """A program that was typed in. Functions of the main module travel by value, where cloudpickle is there."""
    program = "import rx10\ndef f(x): return x + 1\nwith rx10.local(places=2) as rt: print(rt.at(1, f, 1), rt.at(1, lambda: 7))\n"
    wanted = "2 7" if runs(sys.executable, "import cloudpickle") else "or install cloudpickle"
    for words in (["-c", program], ["-"]):
        done = subprocess.run([sys.executable, *words], input=program, capture_output=True, text=True, timeout=LIMIT, check=False)
        assert wanted in done.stdout + done.stderr, done


@situation
def no_main_guard():
    with new_folder() as folder:
        path = os.path.join(folder, "no_guard.py")
        with open(path, "w", encoding="ascii") as file:
            file.write("import rx10\nwith rx10.local(places=2) as rt:\n    print(rt.at(1, abs, -3))\n")
        done = subprocess.run([sys.executable, path], capture_output=True, text=True, timeout=LIMIT, check=False)
    assert done.returncode == 1 and "must stand under `if __name__ ==" in done.stderr, done
    assert done.stderr.strip().splitlines()[-1].startswith("rx10.errors.Closed: a place ended while it started"), done


if __name__ == "__main__":
    import situations                               # so that a place finds what tasks run by this module's name
    situations.SITUATIONS[sys.argv[1]]()
