"""The packages, put into a folder: each command runs there, without the repository; and an installed copy."""

import hashlib
import os
import pathlib
import shutil
import signal
import subprocess
import tarfile
import tempfile
import time
import unittest
import unittest.mock
import zipfile

import package
from places import EXAMPLES, PROGRAM, TOP

HELLO, TRACE = EXAMPLES / "hello.rx", EXAMPLES / "hello.trace"
UNPROVED = "rx10: this program was compiled without proofs\n"
# Stands for dpkg-deb: writes a half of its file, and then fails, or goes on until it is ended.
FAKE_DEB = """#!/bin/sh
for file; do :; done
echo half >"$file"
touch "$DEB_BEGAN"
[ -z "${DEB_WAITS-}" ] || exec sleep 300
echo 'no room'
exit 1
"""
TOLD = "standard input:1:7: `x` is not known here"


class Installed(unittest.TestCase):
    """Words of each command, the exit status, and a part of what it writes or says."""

    def setUp(self):
        room = tempfile.TemporaryDirectory(prefix="rx10 package ")
        self.addCleanup(room.cleanup)
        self.room = pathlib.Path(room.name)
        self.env = {key: it for key, it in os.environ.items() if key != "RX10_PROGRAM"}

    def make(self, *words):
        done = subprocess.run([TOP / "rx10", *words], env={**self.env, "RX10_PROGRAM": PROGRAM}, capture_output=True, text=True, timeout=300,
                              check=False)
        self.assertEqual(done.returncode, 0, done.stderr)
        return done.stderr

    def run_in(self, launcher, words, given=b"", **env):
        done = subprocess.run([launcher, *map(str, words)], cwd=self.room, env={**self.env, **env}, input=given, capture_output=True, timeout=100,
                              check=False)
        return done.returncode, done.stdout.decode(), done.stderr.decode()

    def try_all(self, launcher):
        for words, status, part in [
            (["step", HELLO], 0, TRACE.read_text()),
            (["step", HELLO, "--prints", "--places", "3"], 0, "7\n8\n"),
            (["live", "--workers", "1", "-"], 0, "release host s0"),
            (["check", HELLO], 0, "work 4\n"),
            (["gen", "--size", "2", "--script", "two.rx", "--trace", "two.trace"], 0, "prints 2"),
            (["verify", "two.rx", "two.trace"], 0, "run\n"),
            (["span", HELLO, TRACE], 0, "chain"),
            (["draw", TRACE, "-o", "-"], 0, "<!doctype html>"),
            (["sweep", HELLO], 0, "runs"),
            (["explain", "stale"], 0, "fault stale"),
            (["explain", HELLO], 0, "nothing is wrong"),
            (["--version"], 0, "rx10 "),
            (["help", "step"], 0, "usage: rx10 step"),
            (["check", "--places"], 2, "`check` takes no options"),
            (["build"], 125, "a clone of the repository"),
        ]:
            with self.subTest(words=words):
                ended, wrote, said = self.run_in(launcher, words, HELLO.read_bytes())
                self.assertEqual(ended, status, said)
                self.assertIn(part, wrote + said)
        self.assertIn(TOLD, self.run_in(launcher, ["check"], b"print x;")[2])

    def test_install(self):
        room = self.room / "my programs"
        room.mkdir()
        for _ in range(2):
            self.make("install", "--unproved", room)
        self.assertEqual(sorted(it.name for it in room.iterdir()), ["rx10", "rx10-files"])
        self.try_all(room / "rx10")
        # without python3 the program's own line stays
        bare = self.room / "bare"
        bare.mkdir()
        for name in ("bash", "head", "mktemp", "readlink", "rm"):
            bare.joinpath(name).symlink_to(shutil.which(name))
        told = UNPROVED + "bad 1 0\nrx10: python3 is not on the path; with it the place and the reason are told\n"
        self.assertEqual(self.run_in(room / "rx10", ["check"], b"print x;", PATH=str(bare)), (4, "", told))
        self.assertEqual(self.run_in(room / "rx10", ["help", "draw"], PATH=str(bare)), (125, "", "rx10: draw needs python3\n"))

    def test_a_folder_in_the_way(self):
        (self.room / "rx10").mkdir()
        status, _, said = self.run_in(TOP / "rx10", ["install", "--unproved", self.room], RX10_PROGRAM=PROGRAM)
        self.assertEqual((status, said.count("is a folder"), list((self.room / "rx10").iterdir())), (125, 1, []))
        self.assertEqual(self.run_in(TOP / "rx10", ["install", "--unproved", self.room / "none"], RX10_PROGRAM=PROGRAM)[0], 125)
        self.assertEqual(self.run_in(TOP / "rx10", ["install", "--unproved"], RX10_PROGRAM=PROGRAM)[0], 2)

    def try_folder(self, root):
        """A package that was unpacked: usr, or the one folder of an archive."""
        self.try_all(root / "bin/rx10")
        for name in ("man/man1/rx10.1.gz", "bash-completion/completions/rx10", "doc/rx10/copyright", "doc/rx10/docs/tutorial.md"):
            self.assertTrue((root / "share" / name).is_file(), name)
        manual = subprocess.run(["gzip", "-dc", root / "share/man/man1/rx10.1.gz"], capture_output=True, check=True).stdout.decode()
        for command in "step live check gen verify span draw sweep explain".split():
            self.assertIn('.SH "rx10 %s"' % command, manual)

    def test_packages(self):
        said = self.make("package", "--unproved", self.room)
        self.assertEqual([it.name for it in self.room.iterdir() if it.name.startswith(".")], [])
        made = [it for it in self.room.iterdir() if it.suffix not in (".txt", ".sha256")]
        wanted = {".gz"} | ({".deb"} if shutil.which("dpkg-deb") else set()) | ({".whl"} if "left out: the wheel" not in said else set())
        self.assertEqual({it.suffix for it in made}, wanted)
        for it in made:
            self.assertIn("+unproved", it.name)
            self.assertEqual(it.with_name(it.name + ".sha256").read_text(), "%s  %s\n" % (hashlib.sha256(it.read_bytes()).hexdigest(), it.name))
            about = it.with_name(it.name + ".txt").read_text()
            self.assertIn("may have been compiled without its proofs", about)
            if it.suffix == ".whl":
                with zipfile.ZipFile(it) as wheel:
                    self.assertTrue(any(name.endswith("+unproved.dist-info/RECORD") for name in wheel.namelist()))
            else:
                self.assertIn(hashlib.sha256(pathlib.Path(PROGRAM).read_bytes()).hexdigest(), about)
        (archive,) = self.room.glob("*.tar.gz")
        with tarfile.open(archive) as packed:
            names = packed.getnames()
            packed.extractall(self.room / "unpacked")
        (root,) = (self.room / "unpacked").iterdir()
        self.assertTrue(all(it.split("/")[0] == root.name for it in names))
        self.try_folder(root)
        for it in self.room.glob("*.deb"):
            subprocess.run(["dpkg-deb", "-x", it, self.room / "root"], check=True, timeout=100)
            self.assertTrue((self.room / "root/usr/bin/rx10").exists())
            control = subprocess.run(["dpkg-deb", "-f", it], capture_output=True, text=True, check=True, timeout=100).stdout
            self.assertIn("was compiled without proofs before it was packed", " ".join(control.split()))

    def test_what_is_not_known_to_be_proved_is_not_packed(self):
        other = self.room / "other"
        shutil.copy(PROGRAM, other)
        for command in ("package", "install"):
            status, _, said = self.run_in(TOP / "rx10", [command, self.room], RX10_PROGRAM=str(other))
            self.assertEqual(status, 125)
            self.assertIn("with `--unproved` %s takes" % command, said)
        with unittest.mock.patch.dict(os.environ, {"RX10_PROGRAM": str(other)}), unittest.mock.patch.object(package, "say") as said:
            with open(other, "ab") as program:
                program.write(package.coordinators.MARK)
            self.assertEqual(package.main([str(self.room)]), 125)
        self.assertIn("was compiled without proofs", said.call_args[0][0])
        self.assertEqual([it.name for it in self.room.iterdir()], ["other"])

    def test_a_package_that_breaks_off_leaves_nothing(self):
        room, tools, began = self.room / "to", self.room / "bin", self.room / "began"
        room.mkdir()
        tools.mkdir()
        (tools / "dpkg-deb").write_text(FAKE_DEB)
        (tools / "dpkg-deb").chmod(0o755)
        env = {**self.env, "RX10_PROGRAM": PROGRAM, "PATH": "%s:%s" % (tools, os.environ["PATH"]), "DEB_BEGAN": str(began)}
        done = subprocess.run([TOP / "rx10", "package", "--unproved", room], env=env, capture_output=True, text=True, timeout=300, check=False)
        self.assertEqual((done.returncode, list(room.iterdir())), (125, []))
        self.assertIn("dpkg-deb could not make it:\nno room", done.stderr)
        for number in (signal.SIGINT, signal.SIGTERM):
            began.unlink()
            process = subprocess.Popen([TOP / "rx10", "package", "--unproved", room], env={**env, "DEB_WAITS": "1"}, stderr=subprocess.DEVNULL,
                                       start_new_session=True, preexec_fn=lambda: signal.signal(signal.SIGINT, signal.default_int_handler))
            end = time.monotonic() + 300
            while not began.exists() and process.poll() is None and time.monotonic() < end:
                time.sleep(0.05)
            os.killpg(process.pid, number)
            process.wait(60)
            self.assertEqual(list(room.iterdir()), [], number)
