"""Which lines of the package the tests never reach, in any of their processes: python3 python/tests/run.py --coverage

The tests run in a copy of the repository whose package begins with the lines of NOTING. From then on each process writes a line of the package
to one file when it first comes there, at once, since most processes of a test end by SIGKILL or os._exit. Only the standard library is needed.
"""

import dis
import pathlib
import subprocess
import sys
import types
from typing import Dict, Iterator, List, Set

import plant

FILE = "RX10_REACHED"           # the variable that names the file
NOTING = '''import os as _os, sys as _sys, threading as _threading


def _note_lines(name, home):
    """Writes each line of the package once, when this process first comes to it."""
    file, seen = _os.open(name, _os.O_WRONLY | _os.O_APPEND | _os.O_CREAT | _os.O_CLOEXEC), set()

    def line(frame, event, _):
        if event == "line" and (frame.f_code, frame.f_lineno) not in seen:
            seen.add((frame.f_code, frame.f_lineno))
            _os.write(file, f"{frame.f_code.co_filename[len(home) + 1:]}:{frame.f_lineno}\\n".encode())
        return line

    def call(frame, _event, _):
        return line if frame.f_code.co_filename.startswith(home) else None

    _threading.settrace(call)
    _sys.settrace(call)


if "RX10_REACHED" in _os.environ:
    _note_lines(_os.environ["RX10_REACHED"], _os.path.dirname(_os.path.abspath(__file__)))
'''


def lines_of(code: types.CodeType) -> Iterator[int]:
    """The lines of a module or function that do something when it runs."""
    yield from (line for _, line in dis.findlinestarts(code) if line)
    for inner in code.co_consts:
        if isinstance(inner, types.CodeType):
            yield from lines_of(inner)


def in_words(numbers: List[int]) -> str:
    """Numbers in a row as spans: `3-5, 9`."""
    spans: List[List[int]] = []
    for number in numbers:
        if spans and spans[-1][1] == number - 1:
            spans[-1][1] = number
        else:
            spans.append([number, number])
    return ", ".join(str(first) if first == last else f"{first}-{last}" for first, last in spans)


def missing(package: pathlib.Path, reached: Dict[str, Set[int]]) -> Iterator[str]:
    """For each file of the package that has lines which were not reached, these lines."""
    for path in sorted(package.rglob("*.py")):
        name = path.relative_to(package).as_posix()
        if name != "__init__.py":                               # the copy of which has other lines
            code = compile(path.read_text(encoding="utf-8"), name, "exec")
            left = sorted(set(lines_of(code)) - reached.get(name, set()))
            if left:
                yield f"not reached: rx10/{name}: {in_words(left)}"


def run(words: List[str], folder: str) -> int:
    """Runs the tests in a copy, lists what they did not reach, and gives their status."""
    copy = plant.copy_to(folder)
    first = copy / "python" / "rx10" / "__init__.py"
    head, future, rest = first.read_text(encoding="utf-8").partition("from __future__ import annotations\n")
    first.write_text(f"{head}{future}{NOTING}{rest}" if future else f"{NOTING}{head}", encoding="utf-8")
    file = pathlib.Path(folder, "reached")
    file.touch()
    done = subprocess.run([sys.executable, str(copy / "python/tests/run.py"), *words], env={**plant.environment(), FILE: str(file)}, check=False)
    reached: Dict[str, Set[int]] = {}
    for line in file.read_text(encoding="utf-8", errors="replace").splitlines():
        name, _, number = line.rpartition(":")
        if number.isdigit():
            reached.setdefault(name, set()).add(int(number))
    for said in missing(plant.TOP / "python" / "rx10", reached):
        print(said)
    return done.returncode
