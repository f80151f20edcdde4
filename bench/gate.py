#!/usr/bin/env python3
"""What a gate takes: processor seconds by crate, and the functions that take longest to prove.

    python3 bench/gate.py [--anew] [NAME..]       runs `rt ci` here, with the same words, and looks at its checks as they run
    python3 bench/gate.py --functions CRATE..     checks each crate with one job, and times the functions that it tells

The first writes bench/gate.txt: a line for the run (its date, the machine, wall and processor minutes), and a line for each crate with the
processor seconds of its proof, of its tests, of the seed of its must-fail edits (a check of the crate as it stands, with which they begin)
and of the edits. What `rt ci` has kept from earlier runs takes nothing, so a whole table wants `--anew` or a machine where nothing is kept.
docs/costs.md shows the table. A crate that takes a fifth more than in the table of before is told by a line `dearer:`. The second adds the
twenty slowest functions behind a line `functions`. Linux alone: it reads /proc. `.ci/run --figures` calls the first in place of `rt ci`.
"""

import argparse
import collections
import datetime
import os
import pathlib
import re
import resource
import subprocess
import sys
import threading
import time

TOP = pathlib.Path(__file__).resolve().parent.parent
TABLE = TOP / "bench" / "gate.txt"
TICK = os.sysconf("SC_CLK_TCK")
KINDS = ("proof", "tests", "seed", "edits")
SLOWEST = 20
DEARER = 1.2                    # of what a crate took before; then a line tells it
LEAST = 10                      # seconds by which it has to be dearer, too


def words_of(pid):
    """The words of a process, or none where it has ended or is no check."""
    try:
        words = pathlib.Path(f"/proc/{pid}/cmdline").read_bytes().decode(errors="replace").split("\0")
    except OSError:
        return None
    return words if words[0].endswith("/bin/rattle") and "--crate-name" in words else None


def seconds_of(pid):
    """The processor seconds of a process and of those of its children that have ended."""
    stat = pathlib.Path(f"/proc/{pid}/stat").read_text().rsplit(")", 1)[1].split()
    return sum(int(it) for it in stat[11:15]) / TICK


def parent_of(pid):
    """The process that started this one, or 0."""
    try:
        return int(pathlib.Path(f"/proc/{pid}/stat").read_text().rsplit(")", 1)[1].split()[1])
    except OSError:
        return 0


def is_below(pid, top):
    """Whether a process was started by that one, or by one that it started."""
    while pid > 1:
        if pid == top:
            return True
        pid = parent_of(pid)
    return False


def kind_of(words):
    """What a check of a gate is for. An edit works on a copy of what its seed has proved, or, where a crate has one edit, on nothing."""
    kept = words[words.index("--incremental") + 1] if "--incremental" in words else ""
    if "/rt-edits-" in kept:
        return "seed" if kept.endswith("/seed") else "edits"
    if "--test" in words:
        return "tests"
    return "proof"


class Sampler(threading.Thread):
    """Looks at the checks below a process every second, and adds up what each took."""

    def __init__(self, top):
        super().__init__(daemon=True)
        self.top, self.ended = top, threading.Event()
        self.seen, self.sums = {}, collections.defaultdict(float)

    def look(self):
        alive = set()
        for name in os.listdir("/proc"):
            if not name.isdigit():
                continue
            words = words_of(name)
            if not words or (name not in self.seen and not is_below(int(name), self.top)):
                continue
            try:
                spent, copy = seconds_of(name), "/rt-edit-" in os.readlink(f"/proc/{name}/cwd")
            except OSError:
                continue
            kind = kind_of(words)
            kind = "edits" if copy and kind == "proof" else kind
            self.seen[name] = (words[words.index("--crate-name") + 1], kind, spent)
            alive.add(name)
        for name in [it for it in self.seen if it not in alive]:
            crate, kind, spent = self.seen.pop(name)
            self.sums[crate, kind] += spent

    def run(self):
        while not self.ended.wait(1):
            self.look()

    def finish(self):
        self.ended.set()
        self.join()
        for crate, kind, spent in self.seen.values():
            self.sums[crate, kind] += spent
        return self.sums


def crates():
    """The names of crates.txt, in its order."""
    lines = (it.split("#")[0] for it in (TOP / "crates.txt").read_text().splitlines())
    return [it.split(":")[0].split()[0] for it in lines if ":" in it]


def read_table(text):
    """The seconds of each crate of a table, by kind."""
    rows = (line.split() for line in text.split("functions\n")[0].splitlines()[1:])
    return {row[0]: [int(it) for it in row[1:]] for row in rows if len(row) == 1 + len(KINDS) and row[1].isdigit()}


def dearer(before, now):
    """A line for each crate that takes a fifth more than before. What was kept took nothing, so only kinds that took something count."""
    found = []
    for crate, row in now.items():
        pairs = [(a, b) for a, b in zip(before.get(crate, row), row) if b]
        was, took = sum(a for a, _ in pairs), sum(b for _, b in pairs)
        if crate != "all" and took > DEARER * was and took - was > LEAST:
            found.append("dearer: %s took %d s of a processor, and %d s in the table of before" % (crate, took, was))
    return found


def gate(words):
    """Runs the gate, and writes the table."""
    before = read_table(TABLE.read_text()) if TABLE.exists() else {}
    began = time.time()
    run = subprocess.Popen(["rt", "ci", *words], cwd=TOP, stdin=subprocess.DEVNULL)
    sampler = Sampler(run.pid)
    sampler.start()
    status = run.wait()
    sums = sampler.finish()
    spent = resource.getrusage(resource.RUSAGE_CHILDREN)
    wall, processor = (time.time() - began) / 60, (spent.ru_utime + spent.ru_stime) / 60
    lines = [
        "%s  %d processors  %.1f minutes by the clock  %.1f processor minutes  rt ci %s  status %d"
        % (datetime.date.today(), os.cpu_count(), wall, processor, " ".join(words) or "(plain)", status),
        "crate " + " ".join(KINDS),
    ]
    for crate in crates():
        row = [round(sums[crate, kind]) for kind in KINDS]
        if any(row):
            lines.append(" ".join([crate, *map(str, row)]))
    lines.append(" ".join(["all", *(str(round(sum(n for (_, it), n in sums.items() if it == kind))) for kind in KINDS)]))
    text = "\n".join(lines) + "\n"
    TABLE.write_text(text)
    print("\n".join([*lines, *dearer(before, read_table(text))]))
    return status


def functions_of(crate):
    """Processor seconds of each function of a crate, in the order in which one job checks them: the time between two that it tells."""
    folder = TOP / "crates" / crate
    run = subprocess.Popen(
        ["rt", "check", "--jobs", "1"], cwd=folder, stdin=subprocess.DEVNULL, stdout=subprocess.PIPE, stderr=subprocess.STDOUT, text=True
    )
    found, last = [], None
    for line in run.stdout:
        told = re.match(r"checked (\S+), \d+ of \d+", line)
        if not told:
            continue
        now = 0.0
        for name in os.listdir("/proc"):
            words = words_of(name) if name.isdigit() else None
            if words and crate in words and is_below(int(name), run.pid):
                now += seconds_of(name)
        if last is not None and now > last:
            found.append((now - last, told[1]))
        last = now
    return found if run.wait() == 0 else []


def functions(names):
    """Adds the slowest functions of these crates to the table."""
    found = []
    for crate in names:
        found += [(spent, crate, name) for spent, name in functions_of(crate)]
    found.sort(reverse=True)
    lines = ["functions"] + ["%s %.1f %s" % (crate, spent, name) for spent, crate, name in found[:SLOWEST]]
    text = TABLE.read_text().split("functions\n")[0] if TABLE.exists() else ""
    TABLE.write_text(text + "\n".join(lines) + "\n")
    print("\n".join(lines))
    return 0 if found else 1


def main():
    if sys.argv[1:2] == ["--functions"]:
        words = argparse.ArgumentParser(usage="gate.py --functions CRATE..")
        words.add_argument("crates", nargs="+")
        return functions(words.parse_args(sys.argv[2:]).crates)
    return gate(sys.argv[1:])


if __name__ == "__main__":
    sys.exit(main())
