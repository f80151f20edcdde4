"""python -m rx10: the versions, and what was found where. Exit status: 0 where a job can be started, else 1.

In a clone of the repository that has no coordinator yet, the launcher compiles one without proofs first.
"""

from __future__ import annotations

import importlib
import os
import platform
import subprocess
import sys
from typing import Optional, Tuple

from . import program
from .hub.books import read_greeting
from .version import __version__


def greeting(path: str) -> Tuple[Optional[str], str]:
    """The first line of a coordinator, or why there is none."""
    try:
        done = subprocess.run([path, "--places", "1"], stdin=subprocess.DEVNULL, stdout=subprocess.PIPE, timeout=20, check=False)
    except (OSError, subprocess.SubprocessError) as fault:
        return None, str(fault)
    line = done.stdout.decode("ascii", "replace").partition("\n")[0]
    if read_greeting(line) is None:
        return None, f"it is no coordinator of version 1: it says {line!r}"
    return line, ""


def find() -> program.Program:
    """The coordinator. In a clone of the repository that has none the launcher compiles one, and says so on standard error."""
    try:
        return program.find()
    except FileNotFoundError:
        launcher = os.path.join(program.TOP, "rx10")
        if os.environ.get("RX10_COORDINATOR") or not os.path.isfile(launcher):
            raise
        subprocess.run([launcher, "coordinator", "--version"], stdin=subprocess.DEVNULL, stdout=subprocess.DEVNULL, check=False)
        return program.find()


def coordinator() -> Tuple[str, bool]:
    """What was found of the coordinator, and whether it serves."""
    try:
        found = find()
        proved = ", not proved" if found.is_unproved() else ""
    except OSError as fault:
        return str(fault), False
    line, why = greeting(found.path)
    return f"{found.path} ({found.where}{proved}): {line or why}", line is not None


def module(name: str) -> str:
    """What was found of a module that rx10 can do without."""
    try:
        found = importlib.import_module(name)
    except ImportError:
        return "not found"
    return f"{getattr(found, '__version__', 'of an unknown version')}, {found.__file__}"


def main() -> int:
    """Writes what was found."""
    text, serves = coordinator()
    print(f"rx10         {__version__}, {program.HERE}")
    print(f"Python       {platform.python_version()}, {sys.executable}")
    print(f"coordinator  {text}")
    print(f"cloudpickle  {module('cloudpickle')}")
    print(f"distributed  {module('distributed')}")
    return 0 if serves else 1


if __name__ == "__main__":
    sys.exit(main())
