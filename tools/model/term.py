"""What a task has still to run, as a generator that yields each step which is not local, and is sent the answer.

docs/semantics.md has the rules under "What a task has still to run" and "Faults".
"""

from dataclasses import dataclass, field

from model.script import Raised, value_of

REFUSALS = {"full": "heapfull", "stale": "stale", "index": "index"}


@dataclass
class Step:
    """One step that a task makes and others see, and the path of the statement that makes it. A request to the ledger has the fields
    that its entry must have, and the block of the task that it starts; a store call has the words that its event must begin with."""

    kind: str
    words: str
    path: str = None
    fields: dict = field(default_factory=dict)
    call: list = None
    block: list = None


class Term:
    """The statements of one task. `known` is how many places it knows of, and `begun` what it has begun since its last entry."""

    def __init__(self, place, variables, known):
        self.place = place
        self.variables = variables
        self.known = known
        self.begun = []

    def steps(self, block, prefix, travels):
        """All steps of the task, whose statements are those of a block. The last is its end."""
        if travels:
            yield Step("arrive", "arrives at place %d" % self.place, fields={"place": self.place})
        thrown = yield from self.faults_of(block, prefix)
        yield Step("end", "ends%s" % thrown_words(thrown), fields={"thrown": thrown})

    def faults_of(self, block, prefix):
        """Runs a block, and gives the list of faults that it raises, which is empty where it raises none."""
        try:
            yield from self.run(block, prefix)
        except Raised as raised:
            return raised.faults
        return []

    def run(self, block, prefix):
        for position, statement in enumerate(block):
            path = "%s.%d" % (prefix, position) if prefix else str(position)
            if statement.kind == "set":
                self.do_set(statement, path)
            elif statement.kind == "throw":
                self.do_throw(statement, path)
            else:
                yield from getattr(self, "do_" + statement.kind)(statement, path)

    def value(self, statement, k=0):
        return value_of(statement.expressions[k], self.variables, self.place)

    def begin(self, path):
        """The statement will stand in the batch of the task's next entry."""
        self.begun.append(path)

    def value_or_begin(self, statement, path, k=0):
        """The value of an expression of a statement that stands in a batch only where this raises."""
        try:
            return self.value(statement, k)
        except Raised:
            self.begin(path)
            raise

    def place_of(self, statement, path):
        """The place that an `at` goes to."""
        place = self.value_or_begin(statement, path)
        if not 0 <= place < self.known:
            self.begin(path)
            raise Raised("noplace")
        return place

    def do_set(self, statement, path):
        self.begin(path)
        self.variables[statement.name] = self.value(statement)

    def do_throw(self, statement, path):
        self.begin(path)
        raise Raised("code:%d" % self.value(statement))

    def do_if(self, statement, path):
        self.begin(path)
        choice = 0 if self.value(statement) else 1
        yield from self.run(statement.blocks[choice], "%s.%d" % (path, choice))

    def do_repeat(self, statement, path):
        self.begin(path)
        for turn in range(statement.number):
            yield from self.run(statement.blocks[0], "%s.%d" % (path, turn))

    def do_try(self, statement, path):
        self.begin(path)
        faults = yield from self.faults_of(statement.blocks[0], path + ".0")
        if statement.dead_only and not all(fault.startswith("dead:") for fault in faults):
            raise Raised(*faults)
        if faults:
            yield from self.run(statement.blocks[1], path + ".1")

    def do_finish(self, statement, path):
        yield Step("open", "opens a finish", path)
        thrown = yield from self.faults_of(statement.blocks[0], path)
        yield Step("wait", "waits at its finish%s" % thrown_words(thrown), path, {"thrown": thrown})
        yield from self.release(path)

    def do_at(self, statement, path):
        place = self.place_of(statement, path)
        if statement.is_async:
            yield Step("spawn", "starts a task for place %d" % place, path, {"place": place}, block=statement.blocks[0])
        else:
            yield Step("at", "calls place %d" % place, path, {"place": place}, block=statement.blocks[0])
            yield from self.release(path)

    def release(self, path):
        entry = yield Step("release", "releases the scope at which it waits", path)
        if entry.lost or entry.thrown:
            raise Raised(*["dead:%d" % place for place in entry.lost], *entry.thrown)

    def do_async(self, statement, path):
        yield Step("spawn", "starts a task at its own place", path, {"place": self.place}, block=statement.blocks[0])

    def do_print(self, statement, path):
        value = self.value_or_begin(statement, path)
        yield Step("print", "prints %d" % value, path, {"value": value})

    def do_census(self, statement, path):
        entry = yield Step("census", "counts the places", path)
        self.variables[statement.name] = self.known = entry.value

    def ask(self, path, words, *call):
        """A store call. What the store refuses is raised."""
        answer = yield Step(call[0], words, path, call=list(map(str, call)))
        self.begin(path)
        if answer[0] in REFUSALS:
            raise Raised(REFUSALS[answer[0]])
        return answer

    def reference(self, statement, path):
        """Start and generation of the block that a statement names, which has to be of this place."""
        home, start, generation = self.variables[statement.target]
        if home != self.place:
            self.begin(path)
            raise Raised("wrongplace")
        return start, generation

    def do_new(self, statement, path):
        words = "asks its store for %d words" % statement.number
        _, start, generation = yield from self.ask(path, words, "make", statement.number)
        self.variables[statement.name] = self.place, int(start), int(generation)

    def do_get(self, statement, path):
        index = self.value_or_begin(statement, path)
        block = self.reference(statement, path)
        words = "reads word %d of `%s`, the block %d %d" % (index, statement.target, *block)
        _, value = yield from self.ask(path, words, "get", *block, index)
        self.variables[statement.name] = int(value)

    def do_put(self, statement, path):
        index, value = self.value_or_begin(statement, path), self.value_or_begin(statement, path, 1)
        block = self.reference(statement, path)
        words = "writes %d to word %d of `%s`, the block %d %d" % (value, index, statement.target, *block)
        yield from self.ask(path, words, "put", *block, index, value)

    def do_forget(self, statement, path):
        block = self.reference(statement, path)
        yield from self.ask(path, "gives back `%s`, the block %d %d" % (statement.target, *block), "forget", *block)


def thrown_words(faults):
    return " with " + " ".join(faults) if faults else ""
