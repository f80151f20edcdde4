#!/usr/bin/env python3
"""Measures what the first call, the build and the gate cost, keeps it in bench/figures.txt, and writes the table of docs/costs.md.

usage: bench/figures.py try [--processors N]       compiles the program anew without proofs
       bench/figures.py build [--processors N]     proves and builds it; from nothing only where the kit has kept nothing on this machine
       bench/figures.py run [--processors N] WHAT COMMAND ..    measures a command, and keeps it under this name, as in: run gate rt ci
       bench/figures.py note WHAT QUANTITY VALUE UNIT PROCESSORS DATE MACHINE    keeps a figure that was measured by hand
       bench/figures.py table                      writes the table of docs/costs.md anew from bench/figures.txt

Each line of bench/figures.txt has what was measured, its quantity, value, unit, processors, date and machine, with tabs between them. The
launcher tells the lines `try wall` and `build wall` before it begins. Wall time is by the clock, processor time that of all processes; memory
is the most that all processes of the command had at one time, shared pages counted once each (the sum of PSS), looked at twice a second; disk
is how much less was free at the end.
"""

import argparse
import datetime
import os
import pathlib
import resource
import shutil
import subprocess
import sys
import time

TOP = pathlib.Path(__file__).resolve().parent.parent
FIGURES, PAGE = TOP / "bench" / "figures.txt", TOP / "docs" / "costs.md"
BEGIN, END = "<!-- bench/figures.py table -->", "<!-- end -->"
NAMES = {"try": "first call, without proofs", "build": "`./rx10 build`", "gate": "`rt ci`", "again": "`rt ci` after `./rx10 build`"}
QUANTITIES = ("wall", "processor", "memory", "disk")


def lines():
    """The lines of the table, each as its seven fields."""
    if not FIGURES.exists():
        return []
    return [it.split("\t") for it in FIGURES.read_text().splitlines() if it and not it.startswith("#")]


def keep(*fields):
    """Puts a line into the table, in the place of one for the same quantity on as many processors."""
    others = [it for it in lines() if (it[0], it[1], it[4]) != (fields[0], fields[1], fields[4])]
    order = [*NAMES]
    kept = sorted([*others, list(fields)], key=lambda it: (order.index(it[0]) if it[0] in order else 9, QUANTITIES.index(it[1]), -int(it[4])))
    head = "# what, quantity, value, unit, processors, date, machine\n"
    FIGURES.write_text(head + "".join("\t".join(it) + "\n" for it in kept))


def children(pid):
    """All processes below this one."""
    found, waiting = [], [pid]
    while waiting:
        pid = waiting.pop()
        found.append(pid)
        for task in pathlib.Path("/proc/%d/task" % pid).glob("*/children"):
            try:
                waiting += map(int, task.read_text().split())
            except OSError:
                pass
    return found


def memory_of(pids):
    """The memory of these processes, in bytes: shared pages count once, in parts."""
    total = 0
    for pid in pids:
        try:
            text = pathlib.Path("/proc/%d/smaps_rollup" % pid).read_text()
            total += 1024 * int(text.split("\nPss:")[1].split()[0])
        except (OSError, IndexError):
            pass
    return total


def measure(words, processors):
    """Runs a command on so many processors, and gives its exit status and wall time, processor time, memory and disk."""
    allowed = sorted(os.sched_getaffinity(0))[:processors]
    free, began, most = shutil.disk_usage(TOP).free, time.monotonic(), 0
    before = resource.getrusage(resource.RUSAGE_CHILDREN)
    process = subprocess.Popen(words, cwd=TOP, stdin=subprocess.DEVNULL, preexec_fn=lambda: os.sched_setaffinity(0, allowed))
    while process.poll() is None:
        most = max(most, memory_of(children(process.pid)))
        time.sleep(0.5)
    wall, after = time.monotonic() - began, resource.getrusage(resource.RUSAGE_CHILDREN)
    used = after.ru_utime + after.ru_stime - before.ru_utime - before.ru_stime
    return process.returncode, {"wall": wall, "processor": used, "memory": most, "disk": free - shutil.disk_usage(TOP).free}


def machine():
    """The processor's name, and how many there are."""
    names = [it.split(":")[1].strip() for it in open("/proc/cpuinfo") if it.startswith("model name")]
    return "%s, %d processors" % (names[0] if names else "unknown", os.cpu_count())


def shown(quantity, value):
    """A value and its unit, as the table has them."""
    if quantity in ("memory", "disk"):
        return "%.1f" % (max(value, 0) / 1e9), "GB"
    return ("%d" % round(value), "s") if value < 200 else ("%d" % round(value / 60), "min")


def run(what, words, processors):
    """Measures a command and keeps its four figures."""
    status, found = measure(words, processors)
    if status:
        print("the command ended with status %d, so nothing is kept" % status, file=sys.stderr)
        return status
    today = datetime.date.today().isoformat()
    for quantity in QUANTITIES:
        keep(what, quantity, *shown(quantity, found[quantity]), str(processors), today, machine())
    write_table()
    return 0


def write_table():
    """The table of docs/costs.md, between its two marks: a row for each thing and number of processors."""
    rows = {}
    for what, quantity, value, unit, processors, date, where in lines():
        rows.setdefault((what, processors, date, where), {})[quantity] = "%s %s" % (value, unit)
    table = ["| What | Processors | Wall time | Processor time | Memory | Disk | Measured |", "|---|---|---|---|---|---|---|"]
    for (what, processors, date, where), found in rows.items():
        cells = [NAMES.get(what, what), processors, *(found.get(it, "") for it in QUANTITIES), "%s, %s" % (date, where)]
        table.append("| %s |" % " | ".join(cells))
    text = PAGE.read_text()
    start, end = text.index(BEGIN) + len(BEGIN), text.index(END)
    PAGE.write_text(text[:start] + "\n" + "\n".join(table) + "\n" + text[end:])


def main():
    parser = argparse.ArgumentParser(usage=__doc__.split("usage: ")[1].split("\n\n")[0], allow_abbrev=False)
    parser.add_argument("--processors", type=int, default=len(os.sched_getaffinity(0)))
    parser.add_argument("command", choices=["try", "build", "run", "note", "table"])
    parser.add_argument("words", nargs=argparse.REMAINDER)
    given = parser.parse_args()
    if given.command == "try":
        (TOP / "out" / "rx10-unproved").unlink(missing_ok=True)
        return run("try", [sys.executable, TOP / "tools" / "build.py", "try", TOP / "out"], given.processors)
    if given.command == "build":
        return run("build", [sys.executable, TOP / "tools" / "build.py", "prove"], given.processors)
    if given.command == "run" and len(given.words) > 1:
        return run(given.words[0], given.words[1:], given.processors)
    if given.command == "note" and len(given.words) == 7 and given.words[1] in QUANTITIES and given.words[4].isdigit():
        keep(*given.words)
        write_table()
        return 0
    if given.command == "table" and not given.words:
        write_table()
        return 0
    parser.error("no such command, or not its words")


if __name__ == "__main__":
    sys.exit(main())
