"""The tables of expected answers, and the cases that they tell.

A table is a text of cases. Each begins with `case SCRIPT WORDS`, SCRIPT being the name of a file of scripts/ or `none`; `cut N` says that
the input is the first N bytes of it; `status N` is the exit status, `says LINE` the line on standard error, and `writes N` stands before
the N lines of standard output. In live.txt cases of one script and one list of words are one run with several right answers.

In pairs.txt the input is the script together with the trace that answers.txt has for it under the words of the line `of`. `drop N` leaves
out line N of that trace, `line N TEXT` puts a text in its place, `told N` is what the first line tells in place of the script's length.
"""

import collections
import functools
import pathlib

from program import Answer, complaint, shape_complaint, short

HERE = pathlib.Path(__file__).resolve().parent
Case = collections.namedtuple("Case", "script words cut answer name stdin")


def script(name):
    return b"" if name == "none" else (HERE / "scripts" / (name + ".rx")).read_bytes()


@functools.cache
def read_table(name):
    """The cases of a table, in order."""
    lines = iter((HERE / "tables" / name).read_text().split("\n")[:-1])
    cases = []
    for line in lines:
        word, _, rest = line.partition(" ")
        if word == "case":
            source, _, words = rest.partition(" ")
            cases.append({"script": source, "words": words.split(" "), "cut": None, "status": None, "says": b"", "writes": b"",
                          "of": None, "changes": [], "told": None})
        elif word in ("cut", "status"):
            cases[-1][word] = int(rest)
        elif word == "says":
            cases[-1]["says"] = rest.encode() + b"\n"
        elif word == "writes":
            cases[-1]["writes"] = "".join(next(lines) + "\n" for _ in range(int(rest))).encode()
        elif word in ("of", "told"):
            cases[-1][word] = rest
        elif word in ("drop", "line"):
            number, _, text = rest.partition(" ")
            cases[-1]["changes"].append((int(number), None if word == "drop" else text))
        else:
            raise ValueError("%s: %s" % (name, line))
    return [case_of(it) for it in cases]


def case_of(it):
    words = " ".join(it["words"])
    stdin = script(it["script"]) if it["of"] is None else pair(it["script"], it["of"], it["changes"], it["told"])
    changes = "".join(", line %d %s" % (number, "left out" if text is None else "changed") for number, text in it["changes"])
    name = "%s of %s%s%s%s" % (words, it["script"], "" if it["of"] is None else " by " + it["of"], changes,
                               "" if it["cut"] is None else ", cut at %d" % it["cut"])
    return Case(it["script"], it["words"], it["cut"], Answer(it["status"], it["writes"], it["says"]), name, stdin[:it["cut"]])


def pair(name, words, changes=(), told=None):
    """The script together with the trace that the tables have for it under these words (as one text), with changes of the trace's lines."""
    lines = answer_of(name, words).out.decode().split("\n")[:-1]
    for number, text in sorted(changes, reverse=True):
        lines[number - 1:number] = [] if text is None else [text]
    return paired(script(name), "".join(line + "\n" for line in lines).encode(), told)


def paired(text, trace, told=None):
    """A script and a trace as one input; told is what the first line tells in place of the script's length."""
    return b"rx10 pair %s\n" % (b"%d" % len(text) if told is None else told.encode()) + text + trace


def answer_of(name, words):
    """The one answer that the tables have for this script and these words (as one text)."""
    found = [case.answer for case in read_table("answers.txt") if (case.script, " ".join(case.words)) == (name, words)]
    assert len(found) == 1, (name, words)
    return found[0]


def live_answers(name, words):
    """The answers that `live` may give to this script and these words, whatever the workers do."""
    found = [case.answer for case in read_table("live.txt") if (case.script, " ".join(case.words)) == (name, words)]
    assert found, (name, words)
    return found


# A run of several workers that has too many right answers for a table. What they have in common follows from the script: the task for
# place 3 is lost, the other places are summed up one after another.
LONG_LIVE = ["live", "--places", "8", "--kill", "3@5"]
LONG_LIVE_PRINTS = [999, 6, 46, 86, 166, 206, 246, 286]


def long_live_complaint(answer):
    """What is wrong with this answer to the realistic script under LONG_LIVE, or None."""
    wrong = shape_complaint(answer, ["live"])
    if wrong or answer.status != 0:
        return wrong or short(answer)
    words = [line.split(" ") for line in answer.out.decode().split("\n")]
    prints = [int(line[3]) for line in words if line[1:2] == ["print"]]
    return None if prints == LONG_LIVE_PRINTS else "it prints %s" % prints


def run(program, tally):
    """Every case of the tables with one answer, and each of `live` with one, two and eight workers."""
    tables = ["answers.txt", "deaths.txt", "prefixes.txt", "pairs.txt"]
    named = [(case.name, case) for table in tables for case in read_table(table)]
    tally.each(named, lambda case: complaint(program.run(case.words, case.stdin), [case.answer]))
    pairs = sorted({(case.script, " ".join(case.words)) for case in read_table("live.txt")})
    named = [("%s of %s with %d workers" % (words, name, workers), name, words, workers)
             for name, words in pairs for workers in (1, 2, 8) for _ in range(5)]
    tally.each(named, lambda name, words, workers: complaint(
        program.run([*words.split(" "), "--workers", str(workers)], script(name)), live_answers(name, words)))
    named = [("the realistic script with %d workers" % workers, workers) for workers in (1, 2, 4, 8) for _ in range(5)]
    tally.each(named, lambda workers: long_live_complaint(
        program.run([*LONG_LIVE, "--workers", str(workers)], script("realistic_script"))))
