"""Places that mpirun, srun and ssh start, as docs/python.md has it: killed, stopped, and cut off."""

import os
import shutil
import subprocess
import sys
import tempfile
import unittest

import alone

ALONE = ["unshare", "--net", "--pid", "--fork", "--kill-child", "--mount-proc"]
NEEDED = {"mpirun": ["mpirun"], "srun": ["srun", "slurmctld", "slurmd", "munged"], "ssh": ["ssh", "sshd", "ssh-keygen"]}
PATH = os.environ.get("PATH", "") + ":/usr/sbin:/sbin"


def missing(word):
    """What this machine lacks for it."""
    for program in ["unshare", "ip", *NEEDED[word]]:
        if not shutil.which(program, path=PATH):
            return f"{program} is not here: python/tests/setup installs it, as root"
    made = os.geteuid() == 0 and subprocess.run([*ALONE, "true"], check=False, stderr=subprocess.DEVNULL).returncode == 0
    return None if made else "it makes namespaces: it needs root"


class Launchers(unittest.TestCase):
    def play(self, word):
        why = missing(word)
        if why:
            self.skipTest(why)
        with tempfile.TemporaryDirectory(prefix="rx10-") as folder:
            done = alone.run([*ALONE, sys.executable, "-m", "launchers", word, folder], limit=300)
        done.check(self)
        for what in ("started", "killed", "stopped", "cut"):
            self.assertIn(f"{what}\n", done.output)

    def test_mpirun(self):
        self.play("mpirun")

    def test_srun(self):
        self.play("srun")

    def test_ssh(self):
        self.play("ssh")
