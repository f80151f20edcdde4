"""Mutated inputs, run in one process by storm.c, and in processes of their own by `live`."""

import pathlib
import subprocess

from program import outcomes, shape_complaint

HERE = pathlib.Path(__file__).resolve().parent
WORDS = 44      # those that storm.c asks for
STORMS = 4      # how many run at one time
APART = 1000000000      # between the numbers of their first cases


def storm(program, seed, told, seconds):
    """What storm.c writes, and its status."""
    scripts = ":".join(str(path) for path in sorted((HERE / "scripts").glob("*.rx")))
    environment = {"LD_PRELOAD": program.storm, "STORM_SEED": str(seed), "STORM_SCRIPTS": scripts,
                   **{"STORM_" + name.upper(): str(value) for name, value in told.items()}}
    # (a run that hangs is told by storm.c itself, by processor time; this is for a storm that is stopped or starved)
    done = subprocess.run([program.path, *["x"] * WORDS], env=environment, stdin=subprocess.DEVNULL, capture_output=True,
                          timeout=20 * seconds + 3600, check=False)
    return done.returncode, done.stdout


def show(program, seed, number):
    """The words and the input of a case."""
    _, told = storm(program, seed, {"show": 1, "first": number}, 1)
    words, _, text = told.partition(b"--\n")
    return words.split(b"\n")[:-1], text


def live_words(program, seed, number):
    """The words by `live` and the input of a case, where it is one of `step` with right words and without picks; or None."""
    words, text = show(program, seed, number)
    if words[:1] != [b"step"] or b"--pick" in words or b"--seed" in words or program.run(words, text).status == 2:
        return None
    return [b"live", *words[1:], b"--workers", b"%d" % (1 + number % 8)], text


def live_cases(program, tally):
    """Cases of the storm by `live`: the form of the answer, and what is refused is what `check` refuses."""
    found = outcomes([("", program, tally.seed, number) for number in range(60)], live_words)
    cases = [("case %d by live" % number, program, *it) for number, it in enumerate(found) if isinstance(it, tuple)]
    tally.tell("cases by live", next((it for it in found if isinstance(it, str)), None if cases else "there are none"))
    tally.each(cases, live_case)


def live_case(program, words, text):
    answer, checked = program.run(words, text), program.run([b"check"], text)
    if checked.status > 1:
        return None if answer == checked else "`check` answers %r, `live` %r" % (checked, answer)
    wrong = shape_complaint(answer, ["live"])
    return "status %d" % answer.status if wrong is None and answer.status > 1 else wrong


def run(program, tally):
    seconds = max(1, round(tally.seconds / STORMS))
    cases = [("mutated inputs of seed %d from case %d on" % (tally.seed, first), program, tally.seed, {"seconds": seconds, "first": first}, seconds)
             for first in range(0, STORMS * APART, APART)]
    for (name, *_), outcome in zip(cases, outcomes(cases, storm)):
        status, told = outcome if isinstance(outcome, tuple) else (None, outcome.encode())
        line = told.decode("utf-8", "replace").strip()
        tally.tell(name, None if status == 0 else "status %s, %s" % (status, line or "nothing is told"))
        tally.note("%s: %s" % (name, line))
    live_cases(program, tally)
