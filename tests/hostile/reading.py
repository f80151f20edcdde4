"""Scripts taken apart, by docs/language.md: only those that are right, for the model that computes what the program has to answer."""

import functools
import re

TOKEN = re.compile(rb"[a-z][a-z0-9_]*|[0-9]+|==|[{}()\[\]=;+\-*<,]")
COMMENT = re.compile(rb"#[^\n]*")
SIMPLE = ("set", "new", "get", "put", "forget", "print", "throw", "census")


class Reader:
    """The tokens of a script, from left to right."""

    def __init__(self, text):
        self.tokens = [it.decode() for it in TOKEN.findall(COMMENT.sub(b"", text))]
        self.at = 0

    def take(self, *wanted):
        token = self.tokens[self.at]
        assert not wanted or token in wanted, (token, wanted)
        self.at += 1
        return token

    def next(self):
        return self.tokens[self.at] if self.at < len(self.tokens) else None

    def statements(self, end):
        found = []
        while self.next() != end:
            found.append(self.statement())
        return tuple(found)

    def block(self):
        self.take("{")
        found = self.statements("}")
        self.take("}")
        return found

    def expression(self):
        """A number, ("name", x), ("here",) or (op, left, right)."""
        token = self.take()
        if token == "(":
            left, op = self.expression(), self.take("+", "-", "*", "<", "==")
            right = self.expression()
            self.take(")")
            return op, left, right
        if token.isdigit():
            return int(token)
        return ("here",) if token == "here" else ("name", token)

    def indexed(self):
        self.take("[")
        index = self.expression()
        self.take("]")
        return index

    def statement(self):
        """A tuple whose first item is the kind: a word of the language, `on` for `at e async`, `dead` for `catch dead`."""
        kind = self.take()
        found = self.simple(kind) if kind in SIMPLE else self.compound(kind)
        if kind in SIMPLE:
            self.take(";")
        return found

    def simple(self, kind):
        if kind in ("print", "throw"):
            return kind, self.expression()
        name = self.take()
        if kind in ("set", "new"):
            self.take("=")
            return kind, name, self.expression()
        if kind == "get":
            self.take("=")
            return kind, name, self.take(), self.indexed()
        if kind == "put":
            index = self.indexed()
            self.take("=")
            return kind, name, index, self.expression()
        return kind, name

    def compound(self, kind):
        if kind in ("async", "finish"):
            return kind, self.block()
        if kind == "at":
            place = self.expression()
            if self.next() == "async":
                self.take()
                return "on", place, self.block()
            return kind, place, self.block()
        if kind == "if":
            value, first = self.expression(), self.block()
            self.take("else")
            return kind, value, first, self.block()
        if kind == "repeat":
            return kind, int(self.take()), self.block()
        assert kind == "try", kind
        body = self.block()
        self.take("catch")
        if self.next() == "dead":
            self.take()
            return "dead", body, self.block()
        return kind, body, self.block()


@functools.lru_cache(8)
def read_script(text):
    """The statements of a script."""
    return Reader(text).statements(None)


def work_of(block):
    """The work of some statements."""
    return sum(map(work_of_one, block))


def work_of_one(it):
    kind = it[0]
    if kind in SIMPLE:
        return 1
    if kind in ("async", "finish"):
        return 1 + work_of(it[1])
    if kind in ("at", "on"):
        return 1 + work_of(it[2])
    if kind == "if":
        return 1 + max(work_of(it[2]), work_of(it[3]))
    if kind == "repeat":
        return 1 + it[1] * (1 + work_of(it[2]))
    return 1 + work_of(it[1]) + work_of(it[2])
