"""A task of a trace: its term, answered by its entries and events (docs/semantics.md, "Runs" and "Verdicts")."""

from dataclasses import dataclass

from model import Refused
from model.term import Term


@dataclass
class Call:
    """An event that the term of a task makes. Its stamp is above `after` and at most `until`, if there is one."""

    event: object
    after: int
    until: int = None


class Player:
    """One task, from its birth on. `events` are those of the task in the journal of its place, and `born` is the number of its birth."""

    def __init__(self, number, term, steps, events, born=-1):
        self.number = number
        self.term = term
        self.steps = steps
        self.is_begun = False
        self.step = None
        self.events = events
        self.calls = []
        self.bound = 0      # how many calls have an entry behind them
        self.last = born

    def answer(self, given):
        """Goes on to the next step that is not local."""
        try:
            self.step = self.steps.send(given)
        except StopIteration:
            self.step = None

    def request(self):
        """The next request to the ledger, or None behind the end. Store calls before it are answered by the task's events, each in its
        turn; where none answers, the term stands still at the call, and this gives the call."""
        if not self.is_begun:
            self.is_begun = True
            self.answer(None)
        while self.step is not None and self.step.call is not None:
            event = self.next_event()
            if not is_answer(event, self.step):
                break
            self.calls.append(Call(event, self.last))
            self.answer(event.words[len(self.step.call):-1])
        return self.step

    def next_event(self):
        return self.events[len(self.calls)] if len(self.calls) < len(self.events) else None

    def difference(self, entry, step):
        """What the script has the task do next, in words, where this is not the entry; else None."""
        now = "by the script t%d now %s" % (self.number, step.words)
        if step.kind != entry.kind or any(getattr(entry, name) != value for name, value in step.fields.items()):
            return now
        if entry.path is not None and entry.path != step.path:
            return "%s, and the path of this statement is %s" % (now, step.path)
        if entry.batch != self.term.begun:
            begun = "the statements " + " ".join(self.term.begun) if self.term.begun else "no statement that stands in a batch"
            return "since its last entry t%d has begun %s" % (self.number, begun)
        return None

    def make(self, entry):
        """The entry is the one that the term makes next, and answers it; else this is refused."""
        step = self.request()
        if step is None:
            raise Refused("t%d has ended" % self.number)
        wrong = self.stands_still() if step.call is not None else self.difference(entry, step)
        if wrong is not None:
            raise Refused(wrong, (step.path, "t%d stands here" % self.number))
        for call in self.calls[self.bound:]:
            call.until = entry.number
        self.bound = len(self.calls)
        self.term.begun.clear()
        self.last = entry.number
        self.answer(entry)

    def stands_still(self):
        """Why a store call is not answered."""
        event = self.next_event()
        what = "by the script t%d now %s" % (self.number, self.step.words)
        if event is None:
            return "%s, and the journal of place %d has no event of it that answers" % (what, self.term.place)
        return "%s, and its next event in the journal of place %d is `%s`" % (what, self.term.place, event.line)


def is_answer(event, step):
    """Whether an event is what a call makes: its kind, its operands and its path."""
    return event is not None and event.words[:len(step.call)] == step.call and event.words[-1] == step.path
