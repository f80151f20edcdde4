"""Who is let in over a network, and what is believed of what travels there."""

import contextlib
import logging
import os
import pickle
import secrets
import socket
import sys
import tempfile
import threading
import time
import unittest

import alone
from rx10 import wire
from rx10.engines import door, handshake
from rx10.engines.launched import Launched

SOON = 60                       # seconds in which what must come has come, however busy the machine is
TOKEN, OTHER = secrets.token_bytes(16), secrets.token_bytes(16)
KEY = secrets.token_bytes(32)


class Bomb:
    """What is unpickled of it makes a file."""

    def __init__(self, path):
        self.path = path

    def __reduce__(self):
        return open, (self.path, "w")


class Job:
    """What the driver is for an engine."""

    def __init__(self):
        self.came, self.refused, self.changed = [], [], threading.Condition()

    def no_place(self, joiner, why):
        self.refused.append((joiner, why))

    def connected(self, sock, other, tag, joiner, key=None):
        with self.changed:
            self.came.append((sock.dup(), other.dup(), tag, joiner, key))
            self.changed.notify_all()

    def tags(self):
        return [it[2] for it in self.came]

    def wait(self, count):
        with self.changed:
            assert self.changed.wait_for(lambda: len(self.came) >= count, SOON), f"{len(self.came)} came"
        return self.came[count - 1]

    def close(self):
        for sock, other, *_ in self.came:
            sock.close()
            other.close()


def carry(source, sink):
    """Carries bytes as they are."""
    with contextlib.suppress(OSError), source, sink:
        data = source.recv(1 << 16)
        while data:
            sink.sendall(data)
            data = source.recv(1 << 16)


def until(holds):
    """Waits for what must come."""
    end = time.monotonic() + SOON
    while not holds():
        assert time.monotonic() < end, "it did not come"
        time.sleep(0.01)


class WithDoor(unittest.TestCase):
    """A test that has a door, and what it logs."""

    def setUp(self):
        os.environ["RX10_TOKEN"] = TOKEN.hex()
        self.addCleanup(os.environ.pop, "RX10_TOKEN")
        self.engine, self.job, self.said = Launched("127.0.0.1", 0), Job(), []
        handler = logging.Handler()
        handler.emit = lambda record: self.said.append(record.getMessage())
        door.LOG.addHandler(handler)
        self.addCleanup(door.LOG.removeHandler, handler)
        self.engine.start(self.job)
        self.addCleanup(self.job.close)
        self.addCleanup(self.engine.stop, False)
        self.address = self.engine.address

    def connect(self):
        sock = socket.create_connection(self.address, SOON)
        self.addCleanup(sock.close)
        return sock

    def ends(self, sock):
        """The door hangs up, and says nothing before."""
        try:
            self.assertEqual(sock.recv(1), b"")
        except ConnectionResetError:
            pass

    def refused(self, **counts):
        until(lambda: self.engine.refused == counts)
        self.assertEqual(len(self.said), sum(counts.values()))

    def hello(self, sock, kind=handshake.Kind.LINE, token=TOKEN, session=bytes(16)):
        """The first two messages of a place, and what it would have to say next."""
        hello = handshake.make_hello(kind, 0, session)
        sock.sendall(hello)
        challenge = door._take(sock, handshake.CHALLENGE.size)
        return handshake.Talk(token, hello, challenge)

    def answer(self, sock):
        return handshake.VERDICT.unpack(door._take(sock, handshake.VERDICT.size))


class Knocking(WithDoor):
    def test_a_place(self):
        knocked = door.knock(*self.address, TOKEN)
        self.engine.add(7)
        sock, _, (serial, where), joiner, key = self.job.wait(1)
        self.assertEqual((serial, where, joiner), (1, (socket.gethostname(), os.getpid(), "", False), 7))
        self.assertEqual(knocked.driver, handshake.VERSION)
        there = wire.Seal(key, at_hub=True)
        sock.sendall(there.close(wire.frame(("a", 1))))
        self.assertEqual(wire.Frames().feed(knocked.line.recv(1000)), [("a", 1)])
        knocked.line.sendall(b"x" * 10)
        self.assertEqual(there.open(sock.recv(1000)), b"x" * 10)
        self.assertEqual(self.said, [])

    def test_places_are_taken_in_as_they_come_and_as_they_are_wanted(self):
        lines = [door.knock(*self.address, TOKEN).line for _ in range(3)]
        for joiner in (None, 5, 6, 7):
            self.engine.add(joiner)
        self.job.wait(3)
        lines.append(door.knock(*self.address, TOKEN).line)
        self.job.wait(4)
        self.assertEqual([(it[2][0], it[3]) for it in self.job.came], [(1, None), (2, 5), (3, 6), (4, 7)])
        self.assertEqual(len(lines), 4)

    def test_one_that_was_given_up_is_not_wanted_later(self):
        self.engine.add(5)
        self.engine.add(6)
        self.engine.give_up(5, "it is late")
        self.engine.give_up(8, "it came before")                # nobody waits for this one any more
        line = door.knock(*self.address, TOKEN).line
        self.assertEqual(self.job.wait(1)[3], 6)
        self.assertEqual(self.job.refused, [(5, "it is late")])
        line.close()

    def test_one_that_ends_while_it_waits_is_not_taken_in(self):
        code = f"from rx10.engines import door; door.knock({self.address[0]!r}, {self.address[1]}, bytes.fromhex({TOKEN.hex()!r}))"
        alone.run([sys.executable, "-c", code]).check(self)
        until(lambda: not self.engine._idle)
        line = door.knock(*self.address, TOKEN).line
        self.engine.add(None)
        self.assertEqual(self.job.wait(1)[2][1].process, os.getpid())
        line.close()

    def test_one_that_waits_is_told_that_the_job_is_over(self):
        for graceful in (True, False):
            with self.subTest(graceful=graceful):
                engine = Launched("127.0.0.1", 0)
                engine.start(self.job)
                line = door.knock(*engine.address, TOKEN).line
                until(lambda: engine._idle)
                engine.stop(graceful)
                self.assertEqual(wire.Frames().feed(line.recv(1000)), [("stop", "closed", "the job is over", graceful)])
                self.assertEqual(line.recv(1000), b"")
                line.close()

    def test_the_end_of_a_life_is_not_the_end_of_the_line(self):
        """What was sent before is read first."""
        knocked = door.knock(*self.address, TOKEN)
        self.engine.add(None)
        sock, life, *_, key = self.job.wait(1)
        self.job.came[0][1].close()
        time.sleep(0.2)                                         # late on purpose
        sock.sendall(wire.Seal(key, at_hub=True).close(b"last"))
        self.assertEqual(knocked.line.recv(1000), b"last")
        knocked.line.close()

    def test_a_wrong_token(self):
        for token in (OTHER, bytes(16)):
            with self.assertRaisesRegex(door.NotLetIn, "another token"):
                door.knock(*self.address, token)
        self.refused(token=2)
        self.assertRegex(self.said[0], r"^127\.0\.0\.1:\d+ is not let in: it does not prove")
        self.assertIn("2 knocked with a wrong token, 0 knocked with a wrong version", self.engine.describe())
        self.assertEqual(self.job.came, [])

    def test_a_proof_of_another_connection(self):
        """Who has overheard a place can use nothing of it."""
        sock = self.connect()
        proof = self.hello(sock).of_place()
        for words in (proof, self.hello(self.connect()).of_door(), bytes(32)):
            with self.subTest(words=words):
                again = self.connect()
                self.hello(again)
                again.sendall(words)
                self.assertEqual(self.answer(again), (handshake.Answer.WRONG_TOKEN, bytes(32)))
                self.ends(again)

    def test_another_place_that_says_the_same(self):
        """A door that takes the place's role gives no proof that a place may use."""
        hello, challenge = handshake.make_hello(handshake.Kind.LINE, 0), handshake.make_challenge()
        talk, other = (handshake.Talk(token, hello, challenge) for token in (TOKEN, OTHER))
        said = {talk.of_place(), talk.of_door(), talk.key(), other.of_place(), other.of_door(), other.key()}
        said.add(handshake.Talk(TOKEN, handshake.make_hello(handshake.Kind.LINE, 0), challenge).of_place())
        said.add(handshake.Talk(TOKEN, hello, handshake.make_challenge()).of_place())
        self.assertEqual(len(said), 8)

    def test_words_of_another_kind(self):
        for words in (b"x" * 20, TOKEN + bytes(4), pickle.dumps(Bomb("/nowhere/at/all")), b"GET / HTTP/1.1\r\n\r\n", b"rx10-1\r\n" + bytes(200)):
            sock = self.connect()
            sock.sendall(words)
            self.ends(sock)
        self.refused(version=5)

    def test_tls_where_the_job_has_none(self):
        sock = self.connect()
        sock.sendall(b"\x16\x03\x01\x02\x00\x01\x00\x01")
        self.ends(sock)
        self.refused(tls=1)
        self.assertIn("it speaks TLS, and this job does not", self.said[0])

    def test_one_that_hangs_up(self):
        for words in (b"", b"rx10", handshake.make_hello(handshake.Kind.LINE, 0)[:-1]):
            sock = self.connect()
            sock.sendall(words)
            sock.shutdown(socket.SHUT_WR)
            self.ends(sock)
        self.refused(gone=3)

    def test_a_life_without_a_line(self):
        sock = self.connect()
        sock.sendall(self.hello(sock, handshake.Kind.LIFE, session=secrets.token_bytes(16)).of_place())
        self.assertEqual(self.answer(sock), (handshake.Answer.NOT_WANTED, bytes(32)))
        self.refused(unwanted=1)

    def test_a_line_without_a_life(self):
        sock = self.connect()
        talk = self.hello(sock)
        sock.sendall(talk.of_place())
        self.assertEqual(self.answer(sock), (handshake.Answer.WELCOME, talk.of_door()))
        self.engine.add(None)
        self.ends(sock)
        self.refused(silent=1)
        self.assertEqual(self.job.came, [])

    def test_a_life_with_another_token(self):
        line, life = self.connect(), self.connect()
        talk = self.hello(line)
        line.sendall(talk.of_place())
        self.answer(line)
        life.sendall(self.hello(life, handshake.Kind.LIFE, OTHER, handshake.session_of(talk.key())).of_place())
        self.assertEqual(self.answer(life)[0], handshake.Answer.WRONG_TOKEN)
        self.assertEqual(self.job.came, [])

    def test_a_hello_in_pieces(self):
        sock = self.connect()
        hello = handshake.make_hello(handshake.Kind.LINE, 0)
        for byte in hello:
            sock.sendall(bytes([byte]))
        talk = handshake.Talk(TOKEN, hello, door._take(sock, handshake.CHALLENGE.size))
        for byte in talk.of_place():
            sock.sendall(bytes([byte]))
        self.assertEqual(self.answer(sock), (handshake.Answer.WELCOME, talk.of_door()))

    def test_who_says_nothing_is_given_up(self):
        begin = time.monotonic()
        sock = self.connect()
        self.ends(sock)
        self.assertGreater(time.monotonic() - begin, door.PATIENCE - 1)
        self.refused(silent=1)

    def test_a_thousand_who_say_nothing(self):
        """They take no threads, at most 64 of them wait, each is logged, and a place comes in beside them."""
        threads, silent = threading.active_count(), []
        most = 0
        for number in range(1000):
            silent.append(self.connect())
            most = max(most, len(self.engine._strangers))
        self.assertEqual(threading.active_count(), threads)
        line = door.knock(*self.address, TOKEN, wait=SOON).line
        self.engine.add(None)
        self.job.wait(1)
        line.close()
        until(lambda: sum(self.engine.refused.values()) == 1000)
        self.assertLessEqual(most, door.STRANGERS)
        self.assertGreaterEqual(self.engine.refused["crowd"], 1000 - 2 * door.STRANGERS)
        self.assertEqual(self.engine.refused["crowd"] + self.engine.refused["silent"], 1000)
        self.assertEqual(len(self.said), 1000)
        for sock in silent:
            sock.close()

    def test_one_that_is_pushed_out_comes_again(self):
        """The door hangs up on a place before it could prove anything."""
        with socket.create_server(("127.0.0.1", 0)) as server:
            came = []
            thread = threading.Thread(target=lambda: came.append(door.knock(*server.getsockname(), TOKEN, wait=SOON)))
            thread.start()
            for _ in range(2):
                server.accept()[0].close()
            for _ in range(2):                                  # its line, and its life
                near, far = server.accept()[0], socket.create_connection(self.address)
                for source, sink in ((near, far), (far, near)):
                    threading.Thread(target=carry, args=(source, sink), daemon=True).start()
            thread.join()
        came[0].line.close()
        self.assertEqual(self.said, [])

    def test_the_crowd_at_its_limit(self):
        """64 may wait, and the 65th takes the place of the one who has waited longest."""
        silent = [self.connect() for _ in range(door.STRANGERS)]
        until(lambda: len(self.engine._strangers) == door.STRANGERS)
        self.assertEqual(self.engine.refused, {})
        self.connect()
        self.ends(silent[0])
        self.refused(crowd=1)
        self.assertEqual(len(self.engine._strangers), door.STRANGERS)

    def test_nothing_is_left(self):
        for graceful in (False, True):
            files = len(os.listdir("/proc/self/fd"))
            engine = Launched("127.0.0.1", 0)
            engine.start(self.job)
            address = engine.address
            silent = socket.create_connection(address, SOON)
            line = door.knock(*address, TOKEN).line
            until(lambda: engine._idle and engine._strangers)
            engine.stop(graceful)
            engine.stop(graceful)
            self.assertIsNone(engine.address)
            self.assertRaises(ConnectionRefusedError, socket.create_connection, address)
            silent.close()
            line.close()
            until(lambda: len(os.listdir("/proc/self/fd")) == files)
            until(lambda: not [it for it in threading.enumerate() if it.name == "rx10 life"])

    def test_one_that_was_never_started(self):
        files = len(os.listdir("/proc/self/fd"))
        engine = Launched("127.0.0.1", 0)
        engine.stop(False)
        self.assertEqual(len(os.listdir("/proc/self/fd")), files)


class Listening(unittest.TestCase):
    """Somebody else listens where the driver should."""

    def setUp(self):
        self.server = socket.create_server(("127.0.0.1", 0))
        self.addCleanup(self.server.close)
        self.heard = b""

    def serve(self, *words, talk):
        def act():
            sock, _ = self.server.accept()
            with sock, contextlib.suppress(OSError):
                talk(sock)
                sock.shutdown(socket.SHUT_WR)
                while True:
                    more = sock.recv(1 << 16)
                    if not more:
                        return
                    self.heard += more
        thread = threading.Thread(target=act)
        thread.start()
        done = alone.run([sys.executable, "-m", "rx10.serve", "127.0.0.1", str(self.server.getsockname()[1]), *words],
                         env={"RX10_TOKEN": TOKEN.hex()})
        thread.join()
        self.assertEqual(done.left, [])
        self.assertNotIn(TOKEN, self.heard)
        self.assertNotIn(TOKEN.hex().encode(), self.heard)
        return done

    def hear(self, sock, size):
        data = door._take(sock, size)
        self.heard += data
        return data

    def test_one_that_knows_no_token(self):
        with tempfile.TemporaryDirectory() as folder:
            bang = os.path.join(folder, "bang")
            bomb = wire.frame(("hello", Bomb(bang)))

            def guesses(sock, proof):
                self.hear(sock, handshake.HELLO_SIZE)
                sock.sendall(handshake.make_challenge())
                given = self.hear(sock, 32)
                sock.sendall(handshake.VERDICT.pack(handshake.Answer.WELCOME, proof or given) + bomb)
            for proof in (secrets.token_bytes(32), bytes(32), b""):     # the last: he hands back what he was given
                with self.subTest(proof=proof):
                    done = self.serve(talk=lambda sock: guesses(sock, proof))
                    self.assertEqual(done.status, 5, done.output)
                    self.assertIn("does not prove that he knows the token", done.output)
            for words in (bomb, b"HTTP/1.1 200 OK\r\n\r\n" + bytes(100)):
                done = self.serve(talk=lambda sock: sock.sendall(words + bytes(100)))
                self.assertEqual(done.status, 5, done.output)
            self.assertFalse(os.path.exists(bang))

    def test_one_that_says_nothing(self):
        done = self.serve("--wait", "1", talk=lambda sock: self.hear(sock, handshake.HELLO_SIZE) and time.sleep(3))
        self.assertEqual(done.status, 3, done.output)
        self.assertIn("no driver answered", done.output)


class Sealed(unittest.TestCase):
    """What somebody in between can do to the records of a line."""

    def setUp(self):
        self.hub = wire.Seal(KEY, at_hub=True)
        self.contents = [b"a", b"bb" * 100, b"c" * 5000]
        self.records = [self.hub.close(it) for it in self.contents]

    def opened(self, data, key=KEY, at_hub=False):
        return wire.Seal(key, at_hub).open(data)

    def refuses(self, *records, **how):
        self.assertRaises(wire.Forged, self.opened, b"".join(records), **how)

    def test_all_cuts_of_a_stream(self):
        data = b"".join(self.records[:2])
        for at in range(len(data) + 1):
            place = wire.Seal(KEY, at_hub=False)
            self.assertEqual(place.open(data[:at]) + place.open(data[at:]), self.contents[0] + self.contents[1])
        place = wire.Seal(KEY, at_hub=False)
        self.assertEqual(b"".join(place.open(bytes([byte])) for byte in data), self.contents[0] + self.contents[1])

    def test_large_contents(self):
        for size in (wire.MOST - 1, wire.MOST, wire.MOST + 1, 3 * wire.MOST + 5):
            data = os.urandom(size)
            sealed = wire.Seal(KEY, at_hub=False).close(data)
            self.assertEqual(self.opened(sealed, at_hub=True), data)
            self.assertEqual(len(sealed) - size, wire.RECORD.size * -(-size // wire.MOST))

    def test_each_changed_bit(self):
        record = self.records[0] + self.records[1]
        for at in range(len(self.records[0])):
            for bit in range(8):
                changed = bytearray(record)
                changed[at] ^= 1 << bit
                with contextlib.suppress(wire.Forged):
                    self.assertEqual(self.opened(bytes(changed)), b"", (at, bit))       # it waits for a longer record

    def test_what_is_repeated_swapped_or_left_out(self):
        a, b, c = self.records
        self.assertEqual(self.opened(a + b + c), b"".join(self.contents))
        for records in ((a, a), (b,), (b, a), (a, c), (c,), (a, b, b), (a, b, a)):
            self.refuses(*records)

    def test_what_is_cut_out_of_the_middle(self):
        a, b, c = self.records
        for at in (1, len(b) - 1, len(b) // 2):
            self.refuses(a, b[:at], c)

    def test_what_goes_back_or_to_another_line(self):
        self.refuses(self.records[0], at_hub=True)
        self.refuses(self.records[0], key=secrets.token_bytes(32))

    def test_what_is_put_in(self):
        bomb = wire.frame(("a", Bomb("/nowhere/at/all")))
        self.refuses(bomb)
        self.refuses(self.records[0], bomb + bytes(1000))
        self.refuses(wire.RECORD.pack(len(bomb), bytes(16)) + bomb)

    def test_a_size_that_nobody_sends(self):
        """It is refused at once, and not waited for."""
        for size in (0, wire.MOST + 1, 0xFFFFFFFF):
            self.refuses(wire.RECORD.pack(size, bytes(16)))
        self.assertEqual(self.opened(wire.RECORD.pack(wire.MOST, bytes(16))), b"")


if __name__ == "__main__":
    unittest.main()
