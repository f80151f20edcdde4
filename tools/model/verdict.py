"""The verdict on a script with a trace, and its reason (docs/semantics.md, "Verdicts")."""

from dataclasses import dataclass, field

from model import Refused
from model.journals import Journal
from model.play import Player
from model.plan import Plan
from model.script import read_script
from model.term import Term
from model.tree import Tree

HEAD = 5        # lines of a trace before its first entry


@dataclass
class Verdict:
    """A verdict as the program writes it, with the line of the trace that it speaks of, from 1, why, and statements to show with it."""

    text: str
    line: int = None
    reason: str = None
    marks: list = field(default_factory=list)


class Judge:
    """A script with a trace, entry by entry."""

    def __init__(self, block, trace):
        self.trace = trace
        self.tree = Tree(trace.places)
        self.plan = Plan(trace)
        self.rooted = False
        self.journals, self.events = {}, {}
        for event in trace.events:
            self.journals.setdefault(event.place, []).append(event)
            self.events.setdefault((event.place, event.task), []).append(event)
        self.deaths = {}
        self.players = {}
        self.bear(0, Term(0, {}, trace.places), block, "")

    def bear(self, number, term, block, prefix, travels=False, born=-1):
        """A new task, with the term that it begins with."""
        steps = term.steps(block, prefix, travels)
        self.players[number] = Player(number, term, steps, self.events.get((term.place, number), []), born)

    def take(self, entry):
        """One entry more; where the entries with it are no part of a run, the rule that refuses it is raised."""
        if self.rooted:
            raise Refused("the root is released, and nothing comes after that")
        self.plan.check(entry)
        self.tree.apply(entry)
        if entry.kind == "death":
            self.deaths[entry.place] = entry.number
        elif entry.kind == "release" and entry.task is None:
            self.rooted = True
        elif entry.kind != "join":
            self.play(entry)

    def play(self, entry):
        """The entry is what the script has its task do next."""
        player = self.players[entry.task]
        if entry.child is None:
            player.make(entry)
            return
        step = player.request()
        # (behind this entry the starter's local steps may change its variables)
        term = Term(entry.place, dict(player.term.variables), player.term.known)
        player.make(entry)
        self.bear(entry.child, term, step.block, entry.path, entry.source != entry.place, entry.number)

    def judge_history(self):
        for entry in self.trace.entries:
            try:
                self.take(entry)
            except Refused as why:
                return Verdict("entry %d" % entry.number, HEAD + entry.number + 1, why.words, why.marks)
        if self.rooted:
            return None
        return Verdict("end", HEAD + len(self.trace.entries) + 1, "the history ends before the root is released: %s" % self.tree.shown())

    def judge_journals(self):
        line = HEAD + len(self.trace.entries)
        unclosed = None
        for place in range(self.trace.places + len(self.trace.joins)):
            journal = Journal(self.trace.heap, place, self.players, self.deaths.get(place))
            line += 1
            for event in self.journals.get(place, []):
                line += 1
                try:
                    journal.check(event)
                except Refused as why:
                    return Verdict("event %d %d" % (place, event.number), line, why.words, why.marks)
            if place in self.deaths and not journal.store.is_closed and unclosed is None:
                reason = "place %d dies at entry %d, and its journal has no close" % (place, self.deaths[place])
                unclosed = Verdict("open %d" % place, line + 1, reason)
        return unclosed

    def verdict(self):
        return self.judge_history() or self.judge_journals() or Verdict("run")


def tree_before(trace, number):
    """The tree that the entries before this one make, where each of them is allowed."""
    tree = Tree(trace.places)
    for entry in trace.entries[:number]:
        tree.apply(entry)
    return tree


def judge(text, trace):
    """The verdict on a script, given as bytes, with a trace."""
    return Judge(read_script(text), trace).verdict()
