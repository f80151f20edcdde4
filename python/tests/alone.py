"""Runs a piece of a test in a process of its own, with a limit of time, and sees that no process is left behind.

Every process that a test starts inherits a mark in its environment, so what is left is found wherever it has gone.
"""

import os
import pathlib
import signal
import subprocess
import sys
import time
import unittest
from typing import Dict, Iterable, List, Optional, Sequence, Union

HERE = pathlib.Path(__file__).resolve().parent
PYTHON = HERE.parent                            # the folder with the package
MARK = "RX10_TEST_MARK"
LIMIT = 600                                     # seconds after which a test is taken to hang, however busy the machine is
GRACE = 60                                      # seconds in which a job's processes end after it
# Each process of a test starts without what is installed beside Python: some thousand are started, and that is most of their time.
BARE = [sys.executable, "-S"]


class Result:
    """What came of a run."""

    def __init__(self, status: Optional[int], output: str, left: List[str]) -> None:
        self.status, self.output, self.left = status, output, left

    def check(self, test: unittest.TestCase, status: int = 0) -> None:
        """Fails the test where the run ended otherwise, or left a process behind."""
        test.assertEqual(self.status, status, self.output[-4000:])
        test.assertEqual(self.left, [], "processes were left behind")


def run(words: Sequence[str], limit: float = LIMIT, env: Optional[Dict[str, str]] = None, stdin: Optional[str] = None) -> Result:
    """Runs a command. Its status is None where it took too long."""
    mark = os.urandom(16).hex()
    env = {**os.environ, "PYTHONPATH": f"{PYTHON}{os.pathsep}{HERE}", **(env or {}), MARK: mark}
    process = subprocess.Popen(words, env=env, stdin=subprocess.PIPE, stdout=subprocess.PIPE, stderr=subprocess.STDOUT, text=True,
                               start_new_session=True)
    try:
        output, _ = process.communicate(stdin or "", timeout=limit)
        status = process.returncode
    except subprocess.TimeoutExpired:
        status = None
        end(marked(mark))
        output, _ = process.communicate()
    until = time.monotonic() + GRACE
    left = marked(mark)
    while left and time.monotonic() < until:
        time.sleep(0.05)
        left = marked(mark)
    names = [name_of(pid) for pid in left]
    end(left)
    return Result(status, output, names)


def marked(mark: str, name: str = MARK) -> List[int]:
    """The processes with this mark in their environment, under this name."""
    wanted = f"{name}={mark}".encode()
    found = []
    for pid in filter(str.isdigit, os.listdir("/proc")):
        try:
            with open(f"/proc/{pid}/environ", "rb") as file:
                if wanted in file.read().split(b"\0") and is_alive(pid):
                    found.append(int(pid))
        except OSError:
            pass
    return found


def is_alive(pid: Union[int, str]) -> bool:
    """Whether a process has not ended."""
    try:
        with open(f"/proc/{pid}/stat", encoding="utf-8", errors="replace") as file:
            return file.read().rsplit(") ", 1)[1][0] not in "ZX"
    except OSError:
        return False


def name_of(pid: int) -> str:
    """A process's words."""
    try:
        with open(f"/proc/{pid}/cmdline", "rb") as file:
            return f"{pid}: {file.read().replace(bytes(1), b' ').decode('utf-8', 'replace')[:200]}"
    except OSError:
        return str(pid)


def end(pids: Iterable[int], number: int = signal.SIGKILL) -> None:
    """Kills processes that a test started."""
    for pid in pids:
        try:
            os.kill(pid, number)
        except ProcessLookupError:
            pass


def python_with(module: str) -> Optional[str]:
    """A Python that can import a module: this one, or that of the system; None where there is none."""
    code = f"import importlib.util, sys; sys.exit(importlib.util.find_spec({module!r}) is None)"
    return next((python for python in (sys.executable, "/usr/bin/python3") if runs(python, code)), None)


def python_of(minor: int) -> Optional[str]:
    """A Python 3 of this minor version: on the path, or of pyenv; None where there is none."""
    found = sorted(pathlib.Path.home().glob(f".pyenv/versions/3.{minor}.*/bin/python3"))
    mine = [sys.executable] if sys.version_info[1] == minor else []
    return next((python for python in [*mine, *map(str, found), f"python3.{minor}"] if runs(python, "")), None)


def runs(python: str, code: str) -> bool:
    """Whether a Python is here and runs this."""
    try:
        return subprocess.run([python, "-c", code], stdout=subprocess.DEVNULL, stderr=subprocess.DEVNULL, check=False).returncode == 0
    except OSError:
        return False
