"""What must hold of a job, from the records that its tasks wrote, the moments of the kills, and the hub's record.

A record is a list: the time, the place, a word, a task's number or a scope's name, and what goes with the word:

    spawning T; start T; end T [faults]; opening S; dying
    closed S [lost places] [thrown faults] [faults of the body] [a pair for each handle: the task, and lost, well or threw]
"""

import collections
import json
import os

from model import Model


class Records:
    """The records of a job, by what they tell."""

    def __init__(self, folder):
        self.asked, self.began, self.ended, self.opened, self.closed, self.dying = {}, {}, {}, set(), {}, {}
        self.moments = collections.defaultdict(list)            # by task: when it did something
        for name in os.listdir(folder):
            with open(os.path.join(folder, name), encoding="ascii") as file:
                for line in file:
                    self.add(*json.loads(line))

    def add(self, moment, place, word, what, *rest):
        if word == "spawning":
            self.asked[what] = place
        elif word == "start":
            self.began[what] = place
        elif word == "end":
            self.ended[what] = rest[0]
        elif word == "opening":
            self.opened.add(what)
        elif word == "closed":
            self.closed[what] = (moment, *rest)
        elif word == "dying":
            self.dying[place] = moment
        if word in ("start", "end"):
            self.moments[what].append(moment)


class Verdict:
    """Holds a job's records to its plan. `killed`: by place the moment before which it was surely alive."""

    def __init__(self, plan, records, killed):
        self.plan, self.records, self.killed = plan, records, killed
        self.problems = []
        self.sure, self.may = collections.defaultdict(set), collections.defaultdict(set)        # by scope: places of losses
        self.threw = collections.defaultdict(collections.Counter)
        self.may_throw = collections.defaultdict(collections.Counter)
        for number, seen in plan.tasks.items():
            self.sort_loss(number, seen)
            self.check_early(number, seen)
        for name, (_, lost, thrown, body, handles) in records.closed.items():
            self.check_release(name, lost, thrown, body)
            for number, how in handles:
                self.check_handle(number, how)
        self.check_returns()

    def sort_loss(self, number, seen):
        """Where a task was lost, surely or perhaps, and what it threw."""
        records, place = self.records, seen.node.place
        lost, perhaps = None, set()
        if number in records.ended:
            perhaps = {place} & set(self.killed)
            (self.may_throw if perhaps else self.threw)[seen.chain[0]].update(records.ended[number])
        elif number in records.began:
            lost = place
            if place not in self.killed:
                self.problems.append(f"task {number} began at place {place}, which lives, and did not end")
        elif number in records.asked:
            source = records.asked[number]
            if source in self.killed:
                perhaps = {source, place} & set(self.killed)
            elif place in self.killed:
                lost = place
            else:
                self.problems.append(f"task {number} was started for place {place}, which lives, and did not begin")
        over = next(at for at, scope in enumerate(seen.chain) if scope in records.closed or scope == "root")
        self.may[seen.chain[over]] |= perhaps if lost is None else {lost} | perhaps
        if lost is not None and over == 0:
            self.sure[seen.chain[0]].add(lost)

    def check_early(self, number, seen):
        """No scope is over while a task under it runs at a living place."""
        records, place = self.records, seen.node.place
        for scope in seen.chain:
            if scope not in records.closed or number not in records.asked:
                continue
            over = records.closed[scope][0]
            if any(moment > over for moment in records.moments[number]):
                self.problems.append(f"task {number} went on after {scope} was over")
            if number in records.ended:
                continue
            at_fault = {place} if number in records.began else {place, records.asked[number]}
            if not any(self.killed.get(it, over) < over for it in at_fault):
                self.problems.append(f"{scope} was over while task {number} ran at place {place}, which was not killed yet")

    def check_release(self, name, lost, thrown, body):
        """It names what it must and nothing else, and raises what it must and nothing else."""
        if not self.sure[name] <= set(lost) <= self.may[name]:
            self.problems.append(f"{name} named {lost}: surely {sorted(self.sure[name])}, perhaps {sorted(self.may[name])}")
        got = collections.Counter(thrown)
        least = self.threw[name] + collections.Counter(body)
        if least - got or got - least - self.may_throw[name]:
            self.problems.append(f"{name} raised {dict(got)}: surely {dict(least)}, perhaps {dict(self.may_throw[name])}")

    def check_handle(self, number, how):
        """It tells how the task ended, and of one that lives not that it was lost."""
        ended = self.records.ended.get(number)
        if how == "lost":
            right = self.plan.tasks[number].node.place in self.killed or ended is None
        else:
            right = ended is not None and how == ("threw" if ended else "well")
        if not right:
            self.problems.append(f"the handle of task {number} tells {how}, its end {ended}")

    def check_returns(self):
        """Each finish and call returned whose place lives."""
        for name, opener in self.plan.openers.items():
            if name in self.records.opened and name not in self.records.closed and self.plan.place_of(opener) not in self.killed:
                self.problems.append(f"{name} did not return at place {self.plan.place_of(opener)}, which lives")


def replay(record):
    """The first answer in the hub's record that is not the model's, or None. Releases that one request frees may come in any order."""
    model, freed = Model(1), []
    for number, (line, reply) in enumerate(record):
        if not line and reply in freed:
            freed.remove(reply)
            continue
        want, *more = model.ask(line) if line else [None]
        if freed or want != reply:
            return f"line {number}: {line!r}: coordinator {reply!r}, model {want!r}, freed there and not here {freed}"
        freed = more
    return f"the model freed {freed}" if freed else None
