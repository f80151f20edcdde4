#!/usr/bin/env python3
"""Plants single mistakes, each in a copy of the repository of its own, and tells which of them no test sees.

    python3 python/tests/plant.py [NAME ..] [--few] [--jobs N] [--limit SECONDS]

A mistake is a file planted/NAME.edit of lines `file: PATH`, from the top of the repository, `old: TEXT` and `new: TEXT`, and `tests: WORD ..`.
The file must have the old text exactly once. More pairs may follow, and apply to what the earlier ones made; another `file:` leads to another
file. A word is a module, class or test of python/tests/run.py or of tools/check.py. The tests must fail, or hang: a watch ends them then and
shows where each process stood. With no name all mistakes are planted; with `--few` those of planted/few.txt, which the gate tries.

What is told of a mistake: `refused`, by which test; `SURVIVES`; `BAD EDIT` where it does not apply, or what it makes cannot be read; `skipped`
where the program is missing that its tests need. First the same tests run with no mistake at all: they must pass. Exit status: 0 where each
mistake was refused or skipped.
"""

import argparse
import concurrent.futures
import itertools
import os
import pathlib
import re
import resource
import shutil
import signal
import subprocess
import sys
import tempfile
import time
from typing import Dict, List, NamedTuple, NoReturn, Optional, Set, Tuple

HERE = pathlib.Path(__file__).resolve().parent
sys.path[:0] = [str(HERE.parent), str(HERE)]

import alone                    # noqa: E402
from rx10 import program        # noqa: E402

TOP = HERE.parent.parent
PLANTED = HERE / "planted"
FEW = PLANTED / "few.txt"
RUNNERS = {"python/tests": "python/tests/run.py", "tools/tests": "tools/check.py"}
PROGRAMS = ["crates/rx10/out/rx10", "out/rx10-unproved"]        # that the tests of the tools take, the first choice first
LEFT_OUT = {".git", "crates", "out", "__pycache__"}             # of the copy; what is in crates is shared
MARK = "RX10_PLANT_MARK"
LIMIT = 150                     # seconds after which the tests are taken to hang
TOLD = 10                       # seconds in which a test tells what its processes said before they were ended
BAD, REFUSED, SURVIVES, SKIPPED = "BAD EDIT", "refused", "SURVIVES", "skipped"

_marks: Set[str] = set()        # of the runs that go on


class BadEdit(Exception):
    """The mistake cannot be planted."""


class Edit(NamedTuple):
    """One mistake: what is put in place of what, file by file, and the tests that could see it."""

    name: str
    changes: List[Tuple[str, str, str]]         # file, old, new
    tests: List[str]


class Told(NamedTuple):
    """What came of a mistake."""

    name: str
    what: str
    why: str
    seconds: float


def names() -> List[str]:
    """The names of all mistakes."""
    return sorted(path.stem for path in PLANTED.glob("*.edit"))


def few() -> List[str]:
    """The names of those that the gate tries."""
    return [line for line in FEW.read_text(encoding="utf-8").splitlines() if line and not line.startswith("#")]


def read(name: str) -> Edit:
    """The mistake of this name. Raises BadEdit where its file cannot be read as one."""
    changes: List[Tuple[str, str, str]] = []
    tests: List[str] = []
    file = old = None
    try:
        lines = (PLANTED / f"{name}.edit").read_text(encoding="utf-8").splitlines()
    except OSError as fault:
        raise BadEdit(str(fault)) from fault
    for line in filter(None, lines):
        key, _, text = line.partition(":")
        text = text[1:] if text.startswith(" ") else text
        if key == "file":
            file = text.strip()
        elif key == "tests":
            tests += text.split()
        elif key == "old" and file is not None and old is None:
            old = text
        elif key == "new" and file is not None and old is not None:
            changes.append((file, old, text))
            old = None
        else:
            raise BadEdit(f"this line cannot stand there: {line}")
    if old is not None or not changes or not tests:
        raise BadEdit("it needs `file:`, pairs of `old:` and `new:`, and `tests:`")
    return Edit(name, changes, tests)


def texts(edit: Edit) -> Dict[str, str]:
    """What each changed file has after the mistake. Raises BadEdit where it does not apply or leaves no program."""
    made: Dict[str, str] = {}
    for file, old, new in edit.changes:
        if file not in made:
            try:
                made[file] = (TOP / file).read_text(encoding="utf-8")
            except OSError as fault:
                raise BadEdit(str(fault)) from fault
        count = made[file].count(old)
        if not old or count != 1:
            raise BadEdit(f"{file} has {count} times `{old}`")
        made[file] = made[file].replace(old, new)
    for file, text in made.items():
        if text == (TOP / file).read_text(encoding="utf-8"):
            raise BadEdit(f"{file} is as it was")
        ask_readable(file, text)
    return made


def ask_readable(file: str, text: str) -> None:
    """A mistake that no one could run shows nothing."""
    if file.endswith(".py"):
        try:
            compile(text, file, "exec")
        except SyntaxError as fault:
            raise BadEdit(f"{file} is no Python then: {fault}") from fault
    elif "\n" in text and text.split("\n", 1)[0].endswith("bash"):
        done = subprocess.run(["bash", "-n"], input=text, capture_output=True, text=True, check=False)
        if done.returncode:
            raise BadEdit(f"{file} is no script of bash then: {done.stderr.strip()}")


def by_runner(tests: List[str]) -> Dict[str, List[str]]:
    """The words for each runner of tests. Raises BadEdit for a word that is of none."""
    found: Dict[str, List[str]] = {}
    for word in tests:
        module = word.split(".", 1)[0]
        runner = next((runner for folder, runner in RUNNERS.items() if (TOP / folder / f"{module}.py").exists()), None)
        if runner is None or module == "test_planted":
            raise BadEdit(f"there are no such tests: {word}")
        found.setdefault(runner, []).append(word)
    return found


def tools_program() -> Optional[str]:
    """The program that the tests of the tools take."""
    named = os.environ.get("RX10_PROGRAM")
    paths = [named] if named else [str(TOP / path) for path in PROGRAMS]
    return next((path for path in paths if os.access(path, os.X_OK)), None)


def environment() -> Dict[str, str]:
    """What the tests in a copy find around them: the programs of this repository."""
    env = {**os.environ, "PYTHONFAULTHANDLER": "1"}
    env.pop("PYTHONPATH", None)
    tools = tools_program()
    if tools:
        env["RX10_PROGRAM"] = os.path.abspath(tools)
    try:
        env["RX10_COORDINATOR"] = os.path.abspath(program.find().path)
    except OSError:
        pass                                                    # the tests have a stand-in
    return env


def copy_to(folder: str) -> pathlib.Path:
    """A copy of the repository, without the crates, which are shared."""
    copy = pathlib.Path(folder, "rx10-copy")
    shutil.copytree(TOP, copy, symlinks=True, ignore=lambda at, found: LEFT_OUT.intersection(found) if at == str(TOP) else
                    [it for it in found if it == "__pycache__"])
    if (TOP / "crates").exists():
        (copy / "crates").symlink_to(TOP / "crates")
    return copy


def run(words: List[str], limit: float) -> Tuple[Optional[int], str]:
    """Runs tests, and gives their status, None where they hang, and what they wrote. No process of them is left then."""
    mark = os.urandom(16).hex()
    _marks.add(mark)
    with tempfile.TemporaryFile("w+", encoding="utf-8", errors="replace") as file:
        process = subprocess.Popen(words, env={**environment(), MARK: mark}, stdin=subprocess.DEVNULL, stdout=file, stderr=file,
                                   start_new_session=True)
        try:
            status: Optional[int] = process.wait(limit)
        except subprocess.TimeoutExpired:
            status = None
            show_stacks(process, mark)
        alone.end(alone.marked(mark, MARK))
        process.wait()
        _marks.discard(mark)
        file.seek(0)
        return status, file.read()


def show_stacks(process: "subprocess.Popen[bytes]", mark: str) -> None:
    """Has all Python processes of a run write where their threads stand: first what the tests started, so that the tests can tell it."""
    for pids in ([pid for pid in alone.marked(mark, MARK) if pid != process.pid], [process.pid]):
        alone.end(pids, signal.SIGABRT)
        try:
            process.wait(TOLD)
        except subprocess.TimeoutExpired:
            pass


def first_failure(output: str) -> str:
    """The test that failed first, or the last line where none is named."""
    found = re.search(r"^(?:FAIL|ERROR): (.*)$", output, re.MULTILINE)
    lines = output.strip().splitlines()
    return found[1] if found else lines[-1] if lines else "without a word"


def outcome(made: Dict[str, str], tests: List[str], limit: float) -> Tuple[bool, str]:
    """Whether tests refuse a copy with these files, and what they said."""
    with tempfile.TemporaryDirectory(prefix="rx10-plant-") as folder:
        copy = copy_to(folder)
        for file, text in made.items():
            (copy / file).write_text(text, encoding="utf-8")
        for runner, words in by_runner(tests).items():
            status, output = run([sys.executable, str(copy / runner), *words, "--first"], limit)
            if status is None:
                return True, f"hangs\n{output[-6000:]}"
            if status != 0:
                return True, first_failure(output)
    return False, ""


def plant(name: str, limit: float) -> Told:
    """Plants one mistake."""
    begin = time.monotonic()
    try:
        edit = read(name)
        made, runners = texts(edit), by_runner(edit.tests)
    except BadEdit as fault:
        return Told(name, BAD, str(fault), 0)
    if "tools/check.py" in runners and not tools_program():
        return Told(name, SKIPPED, "the tools have no program here", 0)
    refused, why = outcome(made, edit.tests, limit)
    return Told(name, REFUSED if refused else SURVIVES, why or " ".join(edit.tests), time.monotonic() - begin)


def control(chosen: List[str], limit: float) -> str:
    """Why the tests refuse what is right; an empty text where they pass."""
    tests: List[str] = []
    for name in chosen:
        try:
            found = read(name).tests
            if "tools/check.py" not in by_runner(found) or tools_program():
                tests += found
        except BadEdit:
            pass                                                # is told of the mistake itself
    modules = {word for word in tests if "." not in word}
    left = sorted({word for word in tests if "." not in word or word.split(".")[0] not in modules})
    return outcome({}, left, 5 * limit)[1] if left else ""


def plant_all(chosen: List[str], jobs: int, limit: float) -> int:
    """Plants these, and tells what came of each. Returns how many were not refused."""
    told = []
    with concurrent.futures.ThreadPoolExecutor(jobs) as pool:
        try:
            right = pool.submit(control, chosen, limit)
            waiting = [pool.submit(plant, name, limit) for name in chosen]
            for done in concurrent.futures.as_completed(waiting):
                it = done.result()
                told.append(it)
                print(f"{it.what:9} {it.name}: {it.why} ({it.seconds:.0f} s)", flush=True)
            wrong = right.result()
        except BaseException:
            pool.shutdown(wait=False, cancel_futures=True)
            for mark in list(_marks):
                alone.end(alone.marked(mark, MARK))
            raise
    if wrong:
        print(f"the tests refuse what is right: {wrong}")
    counts = {what: len(list(found)) for what, found in itertools.groupby(sorted(it.what for it in told))}
    print(f"{counts.get(REFUSED, 0)} refused, {counts.get(SURVIVES, 0)} survived, {counts.get(BAD, 0)} do not apply, {counts.get(SKIPPED, 0)} skipped")
    return counts.get(SURVIVES, 0) + counts.get(BAD, 0) + bool(wrong)


def stop(number: int, _frame: object) -> NoReturn:
    """Ends all that was started, for a signal."""
    raise SystemExit(128 + number)


def main(words: List[str]) -> int:
    """Plants what is asked for."""
    signal.signal(signal.SIGTERM, stop)
    parser = argparse.ArgumentParser(prog="plant.py", description=(__doc__ or "").split("\n", maxsplit=1)[0])
    parser.add_argument("names", nargs="*", metavar="NAME", help="the name of a file in planted/, without .edit; all where left out")
    parser.add_argument("--few", action="store_true", help="those that the gate tries")
    parser.add_argument("--jobs", type=int, default=os.cpu_count() or 1, metavar="N", help="how many at a time")
    parser.add_argument("--limit", type=float, default=LIMIT, metavar="SECONDS", help="after which tests are taken to hang")
    given = parser.parse_args(words)
    resource.setrlimit(resource.RLIMIT_CORE, (0, 0))            # what is ended with its stacks told leaves no core
    chosen = given.names or (few() if given.few else names())
    return 1 if plant_all([name.removesuffix(".edit").rpartition("/")[2] for name in chosen], given.jobs, given.limit) else 0


if __name__ == "__main__":
    sys.exit(main(sys.argv[1:]))
