#!/usr/bin/env python3
"""Asks whether the three laws of histories hold of a trace, without a script.

usage: rx10 laws TRACE

TRACE may be `-`, for standard input. A line tells whether each entry is allowed by the rules of tasks and scopes, under the deaths and
joins that the trace was given, and one line for each law whether it holds. The answers are those of a model in Python, and not proved. The
laws of the order of statements need the script, and `rx10 verify` tells of them. TRACE may be the log of a session of `rx10-coordinator`,
too: then the deaths and joins stand where its entries tell them.

Exit status: 0 all of it holds, 1 something does not; 2 the words, or there is no such file; 10 the text is no trace, 125 it can't be read.
"""

import sys

import ends
import explain
import inputs
import log_text
import options
import trace_text
from model import Refused
from model.laws import History
from model.lines import first_bad_line
from model.plan import Plan
from model.tree import Tree


def first_refusal(trace):
    """The first entry that the rules of tasks and scopes refuse, in words, or None."""
    tree, plan = Tree(trace.places), Plan(trace)
    for entry in trace.entries:
        try:
            plan.check(entry)
            tree.apply(entry)
        except Refused as why:
            return "entry %d: %s" % (entry.number, why.words)
    return None


def answers(trace):
    """What is asked, and for each an answer: None where it holds, or else words for the first entry at which it does not."""
    history = History(trace.entries)
    told = [("each entry is allowed", first_refusal(trace))]
    for name, found in [("nothing is released early", history.early()), ("losses are exact", history.inexact()),
                        ("masked faults come with a loss", history.unmasked())]:
        first = min(found, default=None)
        told.append((name, None if first is None else "entry %d: %s" % (first, found[first])))
    return told


def main(words):
    if words in (["-h"], ["--help"]):
        print(__doc__.split("\n\n", 1)[1].strip())
        return 0
    parser = options.Parser("laws")
    parser.add_argument("trace", metavar="TRACE")
    words = [parser.taken(words).trace]
    name = "standard input" if words[0] == "-" else words[0]
    try:
        text = inputs.read(words[0], "trace", "laws")
    except OSError as why:
        return inputs.refused(words[0], why)
    whole, head = text.decode("latin-1"), 0
    if log_text.is_log(whole):
        whole, head = log_text.trace_of(whole), log_text.HEAD
    bad = first_bad_line(whole)
    if bad:
        more = "%s:%d: this is no line of a log" % (name, bad - head) if head else explain.of_line(name, text, bad)
        print("bad line %d\n%s" % (bad - head, more), file=sys.stderr)
        return ends.BAD_TRACE
    told = answers(trace_text.read_trace(whole))
    for question, answer in told:
        print("%-31s %s" % (question, "yes" if answer is None else "no: " + answer))
    print("(by the model in tools/model, which is not proved)")
    return 0 if all(answer is None for _, answer in told) else 1


if __name__ == "__main__":
    sys.exit(ends.guarded(main, sys.argv[1:]))
