"""Wrong runtimes, each named for its mistake: a text of a file and what stands in its place. The tests must refuse each.

Those of the core are refused by the driven core, or else by random jobs, as all others are. The first one is none: it must pass both.
"""

import pathlib
import shutil
import tempfile

import alone
from rx10 import program

CONTROL = "nothing is wrong"
CORE = "hub/core.py"
MUTANTS = {
    CONTROL: (CORE, "MOST_FAULTS = 10**9 ", "MOST_FAULTS = 10**8 "),
    "a finish goes on though its release is parked": (
        CORE, '''        elif words[0] != "parked":
            self._granted(task, words, "released")
''', '''        elif words[0] == "parked":
            self._send(task.place, ("released", task.key, [], 0, [], False))
'''),
    "a task's end is told before the task runs": (
        "place.py", "            value = fn(*args, **kwargs)\n            if task.finishes:",
        "            self.tell(\"end\", task.key, [], pickles.pack_value(None))\n            return fn(*args, **kwargs)\n"
        "            if task.finishes:"),
    "losses are not named": (CORE, "return release.lost, release.masked", "return [], release.masked"),
    "all dead places are named": (
        CORE, "return release.lost, release.masked",
        "return (release.lost and [it for it in self.seats if self.seats[it].dead]), release.masked"),
    "a task's faults but the first are dropped": (CORE, "for number in release.thrown:", "for number in release.thrown[:1]:"),
    "a silent place is told dead": (
        "hub/loop.py", "        self.core.take()\n",
        "        self.core.take()\n        if len(self.core.scopes) == 3 and 2 in self.peers:\n            self.hang_up(self.peers[2])\n"),
    "a loss is raised twice": ("errors.py", "[*map(DeadPlace, lost), *thrown]", "[*map(DeadPlace, lost), *map(DeadPlace, lost), *thrown]"),
    "a call whose caller's place died runs all the same": (CORE, 'if words[0] == "landed":\n', "if True:\n"),
    "a call leaves before the coordinator answered": (
        CORE, '''            self._ask(f"arrive t{callee.number}", partial(self._landed, callee, call))
''', '''            self._send(callee.place, ("run", callee.key, call, True))
            self._ask(f"arrive t{callee.number}", lambda words: None)
'''),
    "a result goes on before its task's end was granted": (
        CORE, '        parts = self._new_faults(thrown)\n',
        '        parts = self._new_faults(thrown)\n        if task.wanted and not parts and task.scope.opener is not None:\n'
        '            self._send(task.scope.opener.place, ("ended", task.scope.opener.key, task.key, "value", value))\n'),
    "a loss frees nobody who waits": (
        CORE, '        if words[0] == "freed":\n',
        '        if words[0] == "freed" and "lost" in words:\n            return ""\n        if words[0] == "freed":\n'),
    "what comes after a place's end is taken": (
        CORE, "        seat.dead = True\n        seat.inbox.clear()\n", "        seat.dead = True\n"),
    "a death is told before what the place had sent": (
        CORE, '        self.receive(place, [("gone",)])', '        self.seats[place].inbox.appendleft(("gone",))'),
    "a lost task counts as done": ("finish.py", "return self._value is None and not self._faults", "return False"),
}
SEED = "77"


def refusal(name, runs, jobs):
    """What refused the wrong runtime, or None."""
    file, old, new = MUTANTS[name]
    with tempfile.TemporaryDirectory(prefix="rx10-mutant-") as folder:
        shutil.copytree(alone.PYTHON / "rx10", pathlib.Path(folder, "rx10"), ignore=shutil.ignore_patterns("__pycache__"))
        path = pathlib.Path(folder, "rx10", file)
        text = path.read_text(encoding="utf-8")
        if text.count(old) != 1:
            raise ValueError(f"{file} has {text.count(old)} times what is to be changed: {name}")
        path.write_text(text.replace(old, new), encoding="utf-8")
        # (the copy stands in no repository, so it is told which coordinator to take)
        env = {"PYTHONPATH": f"{folder}:{alone.HERE}", "TMPDIR": folder, "RX10_COORDINATOR": program.find().path}
        driven = [["driven", str(runs), SEED]] if file == CORE else []
        for words in [*driven, ["jobs", "--jobs", str(jobs), "--seed", SEED, "--wide", "--first"]]:
            done = alone.run([*alone.BARE, "-m", *words], env=env)
            if done.status != 0:
                return f"{words[0]}: {done.output.strip()[-2000:]}"
    return None


if __name__ == "__main__":
    for each in MUTANTS:
        print(f"{each}: {refusal(each, 3000, 25) or 'not refused'}", flush=True)
