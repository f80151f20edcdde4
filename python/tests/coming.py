"""What a user sees where places do not come, or come otherwise than they should, each situation in a process of its own.   coming.py NAME"""

import contextlib
import logging
import os
import secrets
import signal
import socket
import subprocess
import sys
import threading
import time

import rx10
from alone import is_alive
from situations import kill_when_said, raises, same, wait_until      # noqa: F401

SITUATIONS = {}                                     # by name


def situation(fn):
    SITUATIONS[fn.__name__] = fn
    return fn


def patiently(fn):
    """A situation that depends on how long a wait is. On a busy machine things take their time, so it is tried with longer and longer ones."""
    def tries():
        for wait in (4, 16, 64):
            try:
                return fn(wait)
            except AssertionError as fault:
                print(f"with {wait} s: {fault}", flush=True)
        return fn(240)
    SITUATIONS[fn.__name__] = tries
    return fn


def place(address, *words, **env):
    """Starts a place."""
    return subprocess.Popen([sys.executable, "-m", "rx10.serve", *words, *map(str, address)], env={**os.environ, **env},
                            stderr=subprocess.PIPE, text=True)


def ended(process):
    """Its status, and what it said."""
    said = process.communicate()[1]
    return process.returncode, said


@contextlib.contextmanager
def takes(least, most):
    """The body must take so many seconds. `most` is for a machine that is busy."""
    begin = time.monotonic()
    yield
    took = time.monotonic() - begin
    assert least <= took < most, took


def opened(rt):
    """What the job says where it does not begin."""
    try:
        with rt:
            raise AssertionError("it began")
    except rx10.Closed as fault:
        assert type(fault) is rx10.Closed
        return str(fault)


# The opening.

@patiently
def nobody_comes(wait):
    rt = rx10.launched(places=3, wait=wait)
    address = rt.address
    with takes(wait, 60 + wait):
        said = opened(rt)
    assert said == (f"the job could not begin within {wait} s: 0 of 2 places came, and 2 are missing; the driver listens at "
                    f"127.0.0.1:{address[1]}, 0 knocked with a wrong token, 0 knocked with a wrong version"), said
    assert rt.address is None
    with raises(ConnectionRefusedError):
        socket.create_connection(address)
    with raises(rx10.Closed):
        rt.join()


@patiently
def some_come(wait):
    """Those that came are sent away, and say why."""
    rt = rx10.launched(places=4, wait=wait)
    places = [place(rt.address), place(rt.address)]
    wrong = place(rt.address, RX10_TOKEN=secrets.token_hex(16))
    with contextlib.closing(socket.create_connection(rt.address)) as old:
        old.sendall(bytes.fromhex(os.environ["RX10_TOKEN"]) + bytes(4))
        said = opened(rt)
    assert "2 of 3 places came, and 1 are missing" in said, said
    assert "1 knocked with a wrong token, 1 knocked with a wrong version" in said, said
    for each in places:
        status, text = ended(each)
        assert status == 8 and "2 of 3 places came" in text, (status, text)
    status, text = ended(wrong)
    assert status == 4 and "another token" in text, (status, text)


@situation
def a_place_takes_its_time():
    rt = rx10.launched(places=2, wait=None)
    late = threading.Timer(2, place, (rt.address,))
    late.start()
    with takes(2, 120), rt:
        assert rt.at(1, same, 4) == 4


@patiently
def a_local_place_hangs_while_it_starts(wait):
    rt = rx10.local(places=3, wait=wait)
    start, begun = rt._engine._start, []

    def start_and_stop(process):
        begun.append(start(process))
        if len(begun) == 2:
            os.kill(begun[1], signal.SIGSTOP)
        return begun[-1]
    rt._engine._start = start_and_stop
    said = opened(rt)
    assert len(begun) == 2, begun
    assert "1 of 2 places came, and 1 are missing; processes that said nothing: " + str(begun[1]) == said.partition(": ")[2], said
    assert not any(map(is_alive, begun))


@situation
def the_coordinator_does_not_answer():
    path = os.path.join(os.environ["FOLDER"], "coordinator")
    with open(path, "w", encoding="ascii") as file:
        file.write("#!/bin/sh\nexec sleep 1000\n")
    os.chmod(path, 0o755)
    os.environ["RX10_COORDINATOR"] = path
    for places in (1, 3):
        said = opened(rx10.local(places=places, wait=1))
        assert said == "the job could not begin within 1 s: the coordinator did not answer", said


@situation
def the_hub_does_nothing():
    from rx10 import runtime
    runtime.HUB, runtime.HUB_PATIENCE = "import time; time.sleep(1000)", 1
    with takes(2, 120):
        assert "the coordinator did not answer" in opened(rx10.local(places=2, wait=1))


@situation
def waits_that_are_none():
    for wait in (0, -1):
        with raises(ValueError):
            rx10.local(places=2, wait=wait)
    with rx10.local(places=2) as rt:
        for wait in (0, -1):
            with raises(ValueError):
                rt.join(wait=wait)
            with raises(ValueError):
                rt.at(1, join_there, wait)
        assert rt.join(wait=None) == 2 and rt.join(wait=60) == 3 and rt.at(1, join_there, 60) == 4


def join_there(wait):
    return rx10.join(wait)


# Joins.

@situation
def nobody_joins():
    with rx10.launched(places=1) as rt:
        with takes(1, 120), raises(rx10.Misuse, text=f"no place came within 1 s; the driver listens at 127.0.0.1:{rt.address[1]}, 0 knocked"):
            rt.join(wait=1)
        place(rt.address)
        assert rt.join() == 1
        with takes(1, 120), raises(rx10.Misuse, text="no place came within 1 s"):
            rt.at(1, join_there, 1)
        assert rt.places() == (0, 1)
        place(rt.address)                                       # it stands by, since both that wanted one have given up
        time.sleep(1)                                           # late on purpose
        assert rt.places() == (0, 1) and rt.join() == 2


@situation
def two_wait_and_one_gives_up():
    with rx10.launched(places=1, threads=2) as rt:
        place(rt.address)
        rt.join()
        with rt.finish() as f:
            long, short = f.spawn(1, joined_or_not, None), f.spawn(1, joined_or_not, 1)
            wait_until(lambda: os.path.exists(os.path.join(os.environ["FOLDER"], "gave up")))
            place(rt.address)
        assert (long.result(), short.result()) == (2, "no place came within 1 s")
        place(rt.address)
        assert rt.join() == 3


def joined_or_not(wait):
    try:
        return rx10.join(wait)
    except rx10.Misuse as fault:
        with open(os.path.join(os.environ["FOLDER"], "gave up"), "w", encoding="ascii"):
            return str(fault).partition(";")[0]


@situation
def a_join_in_time_is_not_given_up_later():
    with rx10.launched(places=1) as rt:
        place(rt.address)
        assert rt.join(wait=5) == 1
        threading.Timer(8, place, (rt.address,)).start()        # late on purpose: after the first one's time
        assert rt.join(wait=None) == 2


@situation
def a_local_place_hangs_while_it_joins():
    with rx10.local(places=2) as rt:
        start, begun = rt._engine._start, []

        def start_and_stop(process):
            begun.append(start(process))
            os.kill(begun[0], signal.SIGSTOP)
            return begun[0]
        rt._engine._start = start_and_stop
        with raises(rx10.Misuse, text="no place came within 2 s; processes that said nothing: "):
            rt.join(wait=2)
        wait_until(lambda: not is_alive(begun[0]))
        rt._engine._start = start
        assert rt.join() == 2 and rt.places() == (0, 1, 2) and rt.at(2, same, 5) == 5


# Where a job and its places are.

@situation
def addresses():
    with socket.create_server(("127.0.0.1", 0)) as free:
        port = free.getsockname()[1]
    rt = rx10.launched(places=2, port=port)
    assert rt.address == ("127.0.0.1", port)
    process = place(rt.address)                                 # it knocks before the job is entered
    time.sleep(1)                                               # late on purpose
    seen = []
    with rt:
        assert rt.address == ("127.0.0.1", port)
        assert rt.where(1) == (socket.gethostname(), process.pid, "", False) and rt.where(0) == (socket.gethostname(), os.getpid(), "", False)
        for call in (lambda: rt.address, lambda: rt.where(1), rt.places, lambda: rt.kill(1)):
            thread = threading.Thread(target=lambda: seen.append(call()))
            thread.start()
            thread.join()
        assert seen == [rt.address, rt.where(1), (0, 1), None]
        wait_until(lambda: rt.places() == (0,))
        with raises(ValueError):
            rt.where(2)
    assert rt.address is None and ended(process)[0] == 9
    with rx10.local(places=2) as rt:
        assert rt.address is None and rt.where(1) == (socket.gethostname(), rt.at(1, os.getpid), "", False)
        assert rt.where(1).host == socket.gethostname() and rt.where(1).process == rt.at(1, os.getpid)
        os.kill(rt.where(1), 0)


# How a place ends.

@situation
def what_a_place_says():
    rt = rx10.launched(places=3)
    quiet, loud = place(rt.address), place(rt.address, "-v")
    with rt:
        number = next(p for p in (1, 2) if rt.where(p).process == loud.pid)
    assert ended(quiet) == (0, "")
    status, said = ended(loud)
    host, port = socket.gethostname(), rt._engine.address
    lines = said.splitlines()
    assert status == 0 and port is None and len(lines) == 4, said
    assert lines[0].startswith(f"rx10: process {loud.pid} of {host} asks the driver at 127.0.0.1:"), said
    assert "has let this place in" in lines[1] and lines[2].startswith(f"rx10: this is place {number} of the job; places 0, "), said
    assert lines[3] == "rx10: the job is over", said


@situation
def a_job_that_fails():
    rt = rx10.launched(places=2)
    process, spare = place(rt.address), place(rt.address)
    with raises(KeyboardInterrupt):
        with rt:
            wait_until(lambda: rt._engine._idle)
            raise KeyboardInterrupt
    assert sorted([ended(process), ended(spare)]) == [(8, "rx10: KeyboardInterrupt in the job\n"), (8, "rx10: the job is over\n")]


@situation
def a_place_told_dead():
    rt = rx10.launched(places=2)
    process = place(rt.address)
    with rt:
        rt.kill(1)
        status, said = ended(process)
    assert status == 9 and "the line to the driver ended" in said, (status, said)


@situation
def wrong_words():
    for words, text in ((["127.0.0.1"], "PORT"), (["127.0.0.1", "x"], "invalid int"), (["127.0.0.1", "1", "--tls", "/nowhere"], "No such file"),
                        (["127.0.0.1", "1", "--wait", "x"], "invalid float")):
        status, said = ended(place(words))
        assert status == 2 and text in said, (status, said)
    for token in ("", "abc", 31 * "0", 34 * "0", 32 * "x"):
        status, said = ended(place(["127.0.0.1", "1"], RX10_TOKEN=token))
        assert status == 2 and "set RX10_TOKEN to 32 random hexadecimal digits" in said, (status, said)
    for address in (["127.0.0.1", "1"], ["no.such.host.invalid", "70"], ["127.0.0.1", "70000"]):
        status, said = ended(place(["--wait", "1", *address]))
        assert status == 3 and f"no driver answered at {address[0]}:{address[1]} (" in said, (status, said)


# Somebody in between.

class Between:
    """Carries what goes from places to a driver and back, and changes the record of a line that is due."""

    def __init__(self, target, change, down):
        self.target, self.change, self.down = target, change, down
        self.server = socket.create_server(("127.0.0.1", 0))
        self.address = self.server.getsockname()
        threading.Thread(target=self.accept, daemon=True).start()

    def accept(self):
        while True:
            near, _ = self.server.accept()
            far = socket.create_connection(self.target)
            for source, sink, down in ((near, far, False), (far, near, True)):
                threading.Thread(target=self.carry, args=(source, sink, down), daemon=True).start()

    def carry(self, source, sink, down):
        from rx10 import wire
        from rx10.engines import handshake
        left = handshake.CHALLENGE.size + handshake.VERDICT.size if down else handshake.HELLO_SIZE + handshake.PROOF
        with contextlib.suppress(OSError):
            while left:
                data = source.recv(left)
                if not data:
                    break
                sink.sendall(data)
                left -= len(data)
            file, records = source.makefile("rb"), []
            while True:
                head = file.read(wire.RECORD.size)
                if len(head) < wire.RECORD.size:
                    break
                records.append(head + file.read(wire.RECORD.unpack(head)[0]))
                if down == self.down and len(records) >= 3:
                    sink.sendall(b"".join(self.change(records)))
                    break
                sink.sendall(records[-1]) if down != self.down or len(records) != 2 else None
            while True:
                data = source.recv(1 << 16)                     # what follows is carried as it is
                if not data:
                    break
                sink.sendall(data)
        with contextlib.suppress(OSError):
            sink.shutdown(socket.SHUT_WR)


class Bomb:
    def __reduce__(self):
        return open, (os.path.join(os.environ["FOLDER"], "bang"), "w")


def put_in(records):
    from rx10 import wire
    bomb = wire.frame(("a", Bomb()))
    return [records[1], wire.RECORD.pack(len(bomb), bytes(16)) + bomb, records[2]]


# Each gets the records up to the third, of which the first was sent, and gives what is sent next.
CHANGES = {
    "repeats": lambda records: [records[1], records[1], records[2]], "repeats_the_first": lambda records: [records[1], records[0], records[2]],
    "leaves_out": lambda records: [records[2]], "swaps": lambda records: [records[2], records[1]], "puts_in": put_in,
    "cuts": lambda records: [records[1][:-1], records[2]], "changes": lambda records: [records[1][:-1] + bytes([records[1][-1] ^ 1]), records[2]]}


def between(change, down):
    """The driver names the place dead, the place says what happened, and nothing that was put in is unpickled."""
    said = []
    handler = logging.Handler()
    handler.emit = lambda record: said.append(record.getMessage())
    logging.getLogger("rx10").addHandler(handler)
    rt = rx10.launched(places=2)
    process = place(Between(rt.address, CHANGES[change], down).address, "-v")
    with rt:
        with raises(rx10.DeadPlaces, 1):
            while True:
                with rt.finish() as f:
                    for _ in range(5):                          # so that a record need not wait for an answer to the one before
                        f.spawn(1, same, bytes(1000))
    status, text = ended(process)
    assert not os.path.exists(os.path.join(os.environ["FOLDER"], "bang"))
    assert status == (10 if down else 9), (status, text)
    assert said == ([] if down else ["place 1 is ended: somebody changed what travels between it and the driver"]), said


for each in CHANGES:
    for way in (False, True):
        SITUATIONS[f"somebody_{each}_{'down' if way else 'up'}"] = lambda each=each, way=way: between(each, way)


@situation
def somebody_only_carries():
    rt = rx10.launched(places=2)
    process = place(Between(rt.address, None, None).address)
    with rt:
        assert [rt.at(1, same, number) for number in range(100)] == list(range(100))
        assert rt.at(1, len, bytes(5_000_000)) == 5_000_000 and len(rt.at(1, bytes, 5_000_000)) == 5_000_000
    assert ended(process) == (0, "")


if __name__ == "__main__":
    import coming                                   # so that a place finds what tasks run by this module's name
    coming.SITUATIONS[sys.argv[1]]()
