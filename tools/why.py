#!/usr/bin/env python3
"""Tells why the program refuses a trace: the rule in words, with the line of the trace and the statements of the script.

usage: why.py PAIR NAME TRACE-NAME    for the launcher, after `verify` has written another verdict than `run`

The reason is that of the model in tools/model. Where the model comes to another verdict than the program, nothing is told. It is part of no
claim of the repository.
"""

import os
import subprocess
import sys

import explain
import inputs
import script_text
import trace_text
from model.verdict import judge, tree_before


def line_at(text, number):
    """Where a line of a text starts, counted from 1, and how long it is."""
    lines = text.split(b"\n")
    number = min(number, len(lines))
    return sum(len(line) + 1 for line in lines[:number - 1]), len(lines[number - 1])


def shown_statement(name, text, block, path, words):
    """A statement of the script with what is said of it, or None where the script has no such statement."""
    statement = script_text.statement_at(block, map(int, path.split(".")))
    if statement is None:
        return None
    return explain.marked(name, text, statement.at, len(statement.kind), "%s (statement %s)" % (words, path))


def reason(verdict, text, trace, name, trace_name):
    """Why a script and a trace, given as bytes, have this verdict; None where the model has another."""
    read = trace_text.read_trace(trace.decode("latin-1"))
    flaw = judge(text, read)
    if flaw.text != verdict or flaw.reason is None:
        return None
    kind, _, number = flaw.text.partition(" ")
    notes = ["before it: %s" % tree_before(read, int(number)).shown()] if kind == "entry" else []
    told = [explain.marked(trace_name, trace, *line_at(trace, flaw.line), "%s: %s" % (flaw.text, flaw.reason), notes)]
    block = script_text.Reader(text).read()
    told += [shown_statement(name, text, block, path, words) for path, words in flaw.marks]
    return "\n".join(it for it in told if it)


def main(path, name, trace_name):
    try:
        pair = inputs.read(path)
    except OSError:
        return
    done = subprocess.run([os.environ["RX10_PROGRAM"], "verify"], input=pair, capture_output=True, check=False)
    text, trace = explain.parts_of(pair)
    if not trace_name:
        name, trace_name = "%s (its script)" % name, "%s (its trace)" % name
    told = reason(done.stdout.decode().strip(), text, trace, name, trace_name)
    if told:
        print(told, file=sys.stderr)


if __name__ == "__main__":
    main(*sys.argv[1:])
