"""Random plans for jobs: trees of tasks, each a list of steps.

A step is a tuple: ("sleep", seconds), ("spin", seconds), ("throw", number), ("die",), ("join",), ("spawn", node), ("finish", name, steps,
catches) or ("at", name, node, catches). `catches` is "all", "dead" or "none": what of a scope's faults is caught behind it.
"""

from typing import NamedTuple

MOST_DEPTH = 7
CATCHES = ["all", "dead", "none"]


class Node(NamedTuple):
    """A task of a plan."""

    number: int
    place: int
    steps: list


class Planner:
    """Makes a plan. `wide`: many small tasks, so that a death meets many messages."""

    def __init__(self, rng, places, wide):
        self.rng, self.places, self.wide = rng, places, wide
        self.tasks = self.scopes = 0
        self.most = rng.randrange(300, 1000) if wide else rng.randrange(5, 90)

    def steps(self, depth, top, place=0):
        """The steps of the main task's body (`top`), or of a task at a place."""
        most = 14 if self.wide and depth < 5 else 5
        return list(filter(None, (self.step(depth, top, place) for _ in range(self.rng.randrange(2, 7) if top else self.rng.randrange(most)))))

    def step(self, depth, top, place):
        chance = self.rng.random()
        if self.tasks >= self.most or depth > MOST_DEPTH:
            chance *= 0.3
        if chance < 0.25:
            return "sleep", self.rng.choice([0, 0.001] if self.wide else [0, 0.001, 0.005, 0.02, 0.05])
        if chance < 0.29:
            return "spin", self.rng.choice([0.001, 0.005])
        if chance < 0.30:
            return None if top else ("die",) if place and self.rng.random() < 0.15 else ("throw", self.rng.randrange(10**6))
        if chance < 0.62:
            return "spawn", self.node(depth)
        if chance < 0.85:
            return "finish", self.scope(), self.steps(depth + 1, top, place), self.rng.choice(CATCHES)
        if chance < 0.97:
            return "at", self.scope(), self.node(depth), self.rng.choice(CATCHES)
        if top and depth == 0 and self.places < 7:
            self.places += 1
            return ("join",)
        return None

    def scope(self):
        self.scopes += 1
        return f"s{self.scopes}"

    def node(self, depth):
        self.tasks += 1
        number, place = self.tasks, self.rng.randrange(self.places)
        return Node(number, place, self.steps(depth + 1, False, place))


def plan(rng, places, wide):
    """A plan that has some tasks: its steps."""
    while True:
        planner = Planner(rng, places, wide)
        steps = planner.steps(0, True)
        if planner.tasks > (200 if wide else 3):
            return steps


class Seen(NamedTuple):
    """A task of a plan, with the scopes that it is under, the innermost first, and the task that starts it (0 is the main task)."""

    node: Node
    chain: list
    starter: int


class Map:
    """The tasks of a plan by number, and the scopes by name with the task that opens each."""

    def __init__(self, steps):
        self.tasks, self.openers = {}, {}
        self._walk(steps, ["root"], ["root"], 0)

    def _walk(self, steps, chain, governing, opener):
        for kind, *rest in steps:
            if kind == "spawn":
                self._hang(rest[0], governing, governing, opener)
            elif kind == "finish":
                self.openers[rest[0]] = opener
                inner = [rest[0], *chain]
                self._walk(rest[1], inner, inner, opener)
            elif kind == "at":
                self.openers[rest[0]] = opener
                self._hang(rest[1], [rest[0], *chain], governing, opener)

    def _hang(self, node, chain, governing, opener):
        self.tasks[node.number] = Seen(node, chain, opener)
        self._walk(node.steps, chain, governing, node.number)

    def place_of(self, task):
        return self.tasks[task].node.place if task else 0
