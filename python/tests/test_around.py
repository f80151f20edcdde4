"""What stands round a job: `python -m rx10`, other Pythons, places that something else starts, pickles, frames."""

import os
import secrets
import socket
import sys
import tempfile
import textwrap
import unittest

import alone
from rx10 import pickles, wire
from rx10.hub.books import read_greeting, read_release
from rx10.progress import text_of

VERSIONS = {minor: alone.python_of(minor) for minor in range(9, 14)}
ADDS = "import rx10, operator\nif __name__ == '__main__':\n    with rx10.local(places=3) as rt: print(rt.at(2, operator.add, 2, 3), rt.places())\n"


class Found(unittest.TestCase):
    def test_what_is_found(self):
        done = alone.run([sys.executable, "-m", "rx10"])
        done.check(self)
        self.assertRegex(done.output, r"(?m)^rx10 +\d.*\nPython +3\..*\ncoordinator +/.*: coordinator 1 places 1 most \d+ line \d+ main t0$")

    def test_what_is_not_found(self):
        for name, words in (("/nowhere", "there is no coordinator"), ("/bin/echo", "no coordinator of version 1")):
            done = alone.run([sys.executable, "-m", "rx10"], env={"RX10_COORDINATOR": name})
            done.check(self, 1)
            self.assertIn(words, done.output)


class Versions(unittest.TestCase):
    """A job starts on each Python from 3.9 to 3.13 that is here."""


def add_version(minor, python):
    @unittest.skipUnless(python, f"Python 3.{minor} is not here")
    def test(self):
        with tempfile.NamedTemporaryFile("w", suffix=".py") as file:
            file.write(ADDS)
            file.flush()
            done = alone.run([python, file.name])
        done.check(self)
        self.assertEqual(done.output, "5 (0, 1, 2)\n")
    setattr(Versions, f"test_3_{minor:02}", test)


for each in VERSIONS.items():
    add_version(*each)


class Launched(unittest.TestCase):
    """Places that a shell starts, as mpirun or srun would."""

    def test_places_that_a_shell_starts(self):
        done = self.play("""
            with rx10.launched(places=4, port=PORT) as rt:
                assert [rt.at(p, pow, p, 2) for p in rt.places()] == [0, 1, 4, 9]
                victim = rt.at(2, os.getpid)
                try:
                    with rt.finish() as f:
                        tasks = [f.spawn(p, time.sleep, 300 if p == 2 else 0) for p in (1, 2, 3)]
                        os.kill(victim, signal.SIGKILL)
                except rx10.DeadPlaces as lost:
                    assert lost.places == (2,) and [task.lost for task in tasks] == [False, True, False]
                assert rt.join() == 4 and rt.at(4, pow, 4, 2) == 16
                rt.kill(1)
                try:
                    rt.at(1, pow, 1, 2)
                except rx10.DeadPlaces as lost:
                    assert lost.places == (1,)
                print("well", rt.places())
            """, places=4)
        done.check(self)
        self.assertIn("well (0, 3, 4)", done.output)

    def test_who_does_not_show_the_token(self):
        """Nothing of it is read, and the job goes on."""
        done = self.play("""
            import errno, pickle, socket
            class Bomb:
                def __reduce__(self):
                    return os.system, (f"touch {FOLDER}/bang",)
            with rx10.launched(places=2, port=PORT) as rt:
                for hello in (b"", b"x" * 20, bytes.fromhex(os.environ["RX10_TOKEN"])[:15], pickle.dumps(Bomb())):
                    with socket.create_connection(("127.0.0.1", PORT)) as sock:
                        sock.settimeout(300)
                        try:
                            sock.sendall(hello)
                            sock.shutdown(socket.SHUT_WR)
                            assert sock.recv(1) == b"", hello
                        except OSError as fault:                # the hub may have hung up before any of these calls
                            assert fault.errno in (errno.ECONNRESET, errno.EPIPE, errno.ENOTCONN), hello
                assert rt.at(1, pow, 3, 2) == 9 and not os.path.exists(f"{FOLDER}/bang")
                print("well")
            """, places=1)
        done.check(self)
        self.assertIn("well", done.output)

    def test_no_token(self):
        code = "import rx10\nrx10.launched(places=2)"
        done = alone.run([sys.executable, "-c", code], env={"RX10_TOKEN": "abc"})
        self.assertIn("set RX10_TOKEN to 32 random hexadecimal digits", done.output)

    def test_another_python(self):
        self.play_other("""
            try:
                with rx10.launched(places=2, port=PORT) as rt:
                    raise AssertionError("it started")
            except rx10.Closed as fault:
                assert "they must be the same" in str(fault), fault
                print("well")
            """)

    def test_another_python_that_joins(self):
        self.play_other("""
            with rx10.launched(places=1, port=PORT) as rt:
                try:
                    rt.join()
                except rx10.Misuse as fault:
                    assert "they must be the same" in str(fault), fault
                    print("well", rt.places())
            """)

    def play_other(self, body):
        others = [python for minor, python in VERSIONS.items() if python and minor != sys.version_info.minor]
        if not others:
            self.skipTest("there is no Python of another version")
        done = self.play(body, places=1, python=others[0])
        done.check(self)
        self.assertIn("well", done.output)

    def play(self, body, places, python=sys.executable):
        """A driver with this body, and places that a shell starts beside it."""
        with socket.create_server(("127.0.0.1", 0)) as free, tempfile.TemporaryDirectory() as folder:
            port = free.getsockname()[1]
            path = os.path.join(folder, "driver.py")
            with open(path, "w", encoding="ascii") as file:
                file.write(f"import os, rx10, signal, time\nPORT, FOLDER = {port}, {folder!r}\n{textwrap.dedent(body)}")
            free.close()
            start = f"{python} -m rx10.serve 127.0.0.1 {port} & " * places
            return alone.run(["sh", "-c", f"{start} {sys.executable} {path}; status=$?; wait; exit $status"],
                             env={"RX10_TOKEN": secrets.token_hex(16)})


RECORD = """join\tjoined 1
join\tjoined 2
open t0\topened s1
send t0 1\tsent t1 in s1
send t0 0\tsent t2 in s1
at t1 2\tcalled t3 in s2
arrive t3\tlanded
release t1\tparked
death 2\tdied
\tfreed t1 lost 2
end t1 4\tended
open t7\tbad
send t0 2\tsent t4 in s1 lost
end t2\tended
wait t0 5\twaits
release t0\treleased lost 2 thrown 5 4
end t0\tended
root\treleased
#\tlate 1 kept {}
"""
TRACE = """rx10 trace 2
places 1 heap 1
kills 2@8
joins 0 1
history
0 join 1
1 join 2
2 open t0 s1 in s0 0
3 spawn t0 t1 in s1 0 1 0
4 arrive t1 1
5 spawn t0 t2 in s1 0 0 0
6 at t1 s2 in s1 t3 1 2 0
7 arrive t3 2
8 death 2
9 release t1 s2 lost 2
10 end t1 thrown code:4
11 spawn t0 t4 in s1 0 2 0
12 end t2
13 wait t0 s1 thrown code:5
14 release t0 s1 lost 2 thrown code:5 code:4
15 end t0
16 release host s0
journal 0
journal 1
journal 2
0 8 close
done
"""


class Traces(unittest.TestCase):
    def test_a_record(self):
        with tempfile.NamedTemporaryFile("w", suffix=".record") as file:
            file.write(RECORD)
            file.flush()
            done = alone.run([sys.executable, "-m", "rx10.trace", file.name])
        done.check(self)
        self.assertEqual(done.output, TRACE)

    def test_the_tools_read_it(self):
        tools = alone.PYTHON.parent / "tools"
        code = "import sys, trace_text; print(len(trace_text.read_trace(sys.stdin.read()).entries))"
        done = alone.run([sys.executable, "-c", code], env={"PYTHONPATH": str(tools)}, stdin=TRACE)
        done.check(self)
        self.assertEqual(done.output, "17\n")


LOGGED = """
import os, sys, rx10

def die():
    os.kill(os.getpid(), 9)

def chain(n):
    return n if n == 0 else rx10.at(n % 2 + 1, chain, n - 1)

if __name__ == "__main__":
    with rx10.local(places=4, record=sys.argv[1], log=sys.argv[2]) as rt:
        rt.at(1, chain, 4)
        try:
            with rt.finish() as f:
                f.spawn(3, die)
                f.spawn(2, chain, 3)
                f.spawn(1, int, "no number")
        except rx10.Faults:
            pass
"""


class Logs(unittest.TestCase):
    """The coordinator's own history of a job, which is that of the hub's record."""

    def setUp(self):
        self.folder = tempfile.TemporaryDirectory()
        self.addCleanup(self.folder.cleanup)
        with open(self.named("job.py"), "w", encoding="ascii") as file:
            file.write(LOGGED)

    def named(self, name):
        return os.path.join(self.folder.name, name)

    def played(self, log):
        return alone.run([sys.executable, self.named("job.py"), self.named("record"), log])

    def test_a_log_is_the_history_of_the_record(self):
        self.played(self.named("log")).check(self)
        made = alone.run([sys.executable, "-m", "rx10.trace", self.named("record")])
        made.check(self)
        with open(self.named("log"), encoding="ascii") as file:
            log = file.read()
        history = made.output.split("history\n", 1)[1].split("journal 0\n", 1)[0]
        self.assertEqual(log, history)
        self.assertIn(" death 3\n", log)

    def test_a_file_that_can_be_no_log(self):
        done = self.played(self.folder.name)
        self.assertNotEqual(done.status, 0)
        self.assertIn("CoordinatorLost", done.output)


class Texts(unittest.TestCase):
    def test_frames_that_come_in_pieces(self):
        messages = [("a", 1), ("b", b"x" * 100), ("c", None)]
        data = b"".join(map(wire.frame, messages))
        for size in (1, 7, 8, 9, len(data)):
            frames, got = wire.Frames(), []
            for at in range(0, len(data), size):
                got += frames.feed(data[at:at + size])
            self.assertEqual(got, messages)

    def test_greetings(self):
        self.assertEqual(read_greeting("coordinator 1 places 1 most 16 line 4096 main t0"), (16, 4096))
        self.assertEqual(read_greeting("coordinator 1 places 1 most 1024 line 9000 main t0 more 5"), (1024, 9000))
        for line in ("", "coordinator 2 places 1 most 16 line 4096 main t0", "coordinator 1 places 4 most 16 line 4096 main t0",
                     "coordinator 1 places 1 main t0", "coordinator 1 places 1 most x line 4096 main t0"):
            self.assertIsNone(read_greeting(line), line)

    def test_releases(self):
        self.assertEqual(read_release("lost 1 3 masked 2 thrown 7 5".split()), ([1, 3], 2, [7, 5]))
        self.assertEqual(read_release([]), ([], 0, []))

    def test_progress(self):
        self.assertEqual(text_of({2: (4, 1, 1), 0: (1, 1, 0)}), "done 2, running 2, lost 1 (by place 0: 1/0/0, 2: 1/2/1)")

    def test_a_fault_that_has_no_text(self):
        class Mute(BaseException):
            def __str__(self):
                raise ValueError
        self.assertEqual(str(pickles.unpack_fault(pickles.pack_fault(Mute()))), "Mute: (its text cannot be had)")
