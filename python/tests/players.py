"""What the tasks of a random job do. A place imports this module, so it imports little.

Each task writes down what it does, with the time, before and after each step.
"""

import json
import os
import signal
import time

import rx10


class Planned(Exception):
    """A fault that a plan wants."""


def note(folder, word, what, *rest):
    """Writes a record."""
    line = json.dumps([time.monotonic_ns(), rx10.here(), word, what, *rest]) + "\n"
    file = os.open(os.path.join(folder, f"place{rx10.here()}"), os.O_WRONLY | os.O_APPEND | os.O_CREAT, 0o600)
    try:
        os.write(file, line.encode())
    finally:
        os.close(file)


def parts(fault):
    """The parts of a fault, as words."""
    if isinstance(fault, rx10.Faults):
        return [word for part in fault.exceptions for word in parts(part)]
    if isinstance(fault, rx10.DeadPlace):
        return [f"dead {fault.place}"]
    return [f"fault {fault.args[0]}" if isinstance(fault, Planned) else f"other {fault!r}"]


def play(folder, node):
    """A task of a plan. It returns its number."""
    note(folder, "start", node.number)
    try:
        make(folder, node.steps, rx10, {})
    except Exception as fault:
        note(folder, "end", node.number, parts(fault))
        raise
    note(folder, "end", node.number, [])
    return node.number


def make(folder, steps, finish, handles):
    """The steps of a body. `finish` starts its tasks: a finish, whose handles are kept, or the module."""
    for kind, *rest in steps:
        if kind == "sleep":
            time.sleep(rest[0])
        elif kind == "spin":
            until = time.monotonic() + rest[0]
            while time.monotonic() < until:
                pass
        elif kind == "throw":
            raise Planned(rest[0])
        elif kind == "die":
            note(folder, "dying", 0)
            os.kill(os.getpid(), signal.SIGKILL)
        elif kind == "join":
            rx10.join()
        elif kind == "spawn":
            note(folder, "spawning", rest[0].number)
            handles[rest[0].number] = finish.spawn(rest[0].place, play, folder, rest[0])
        else:
            make_scope(folder, kind, *rest)


def make_scope(folder, kind, name, inside, catches):
    """A finish or a call, whose faults are caught as the plan wants it."""
    try:
        enter(folder, kind, name, inside)
    except (rx10.Faults, Planned) as fault:
        if catches == "none" or catches == "dead" and not isinstance(fault, rx10.DeadPlaces):
            raise


def enter(folder, kind, name, inside):
    note(folder, "opening", name)
    body, handles = [], {}
    try:
        if kind == "at":
            note(folder, "spawning", inside.number)
            assert rx10.at(inside.place, play, folder, inside) == inside.number
        else:
            with rx10.finish() as finish:
                try:
                    make(folder, inside, finish, handles)
                except Exception as fault:
                    body = parts(fault)
                    raise
    except Exception as fault:
        lost = list(getattr(fault, "lost", ()))
        note(folder, "closed", name, lost, parts(fault)[len(lost):], body, list(map(told, handles.items())))
        raise
    note(folder, "closed", name, [], [], body, list(map(told, handles.items())))


def told(item):
    """What a handle tells of its task: the number, and "lost", "well" or "threw"."""
    number, handle = item
    if handle.lost:
        return number, "lost"
    try:
        return number, "well" if handle.result() == number else "wrong"
    except (rx10.Faults, Planned):
        return number, "threw"
