"""Scripts as trees of statements, and the values of their expressions.

docs/language.md has the grammar. What is read here has passed `script_text.Reader`, so no token can be a wrong one.
"""

from dataclasses import dataclass, field

import script_text

LEAST, GREATEST = -(2**63), 2**63 - 1
COMPOUND = ("async", "at", "finish", "if", "repeat", "try")


class Raised(Exception):
    """A raised list of faults, each as a trace spells it."""

    def __init__(self, *faults):
        super().__init__(*faults)
        self.faults = list(faults)


@dataclass
class Statement:
    """One statement. `kind` is its first word; an expression is a number, a name, `here`, or a triple of operand, sign and operand."""

    kind: str
    at: int
    name: str = None
    target: str = None
    number: int = None
    expressions: list = field(default_factory=list)
    is_async: bool = False
    dead_only: bool = False
    blocks: list = field(default_factory=list)


class Parser:
    """Statements from tokens."""

    def __init__(self, text):
        self.tokens = script_text.tokens_of(text)
        self.here = 0

    def take(self):
        self.here += 1
        return self.tokens[self.here - 1].text

    def next_is(self, text):
        return self.tokens[self.here].text == text

    def passes(self, text):
        """Whether this token comes next; if so it is taken."""
        if self.next_is(text):
            self.here += 1
            return True
        return False

    def statements(self):
        """The statements up to a `}` or the end of input."""
        found = []
        while not self.next_is("}") and self.tokens[self.here].kind != "end":
            found.append(self.statement())
        return found

    def block(self):
        self.take()
        found = self.statements()
        self.take()
        return found

    def expression(self):
        if self.passes("("):
            parts = self.expression(), self.take(), self.expression()
            self.take()
            return parts
        word = self.take()
        return int(word) if word.isdigit() else word

    def statement(self):
        at = self.tokens[self.here].at
        found = Statement(self.take(), at)
        if found.kind in COMPOUND:
            self.compound(found)
        else:
            self.simple(found)
            self.take()
        return found

    def simple(self, found):
        """What stands between the first word and the `;`."""
        if found.kind in ("set", "new", "get", "census"):
            found.name = self.take()
        if found.kind in ("set", "new", "get"):
            self.take()
        if found.kind == "new":
            found.number = int(self.take())
        if found.kind in ("get", "put", "forget"):
            found.target = self.take()
        if found.kind in ("get", "put"):
            self.take()
            found.expressions.append(self.expression())
            self.take()
        if found.kind == "put":
            self.take()
        if found.kind in ("set", "put", "print", "throw"):
            found.expressions.append(self.expression())

    def compound(self, found):
        """What stands behind the first word, up to the last `}`."""
        if found.kind in ("at", "if"):
            found.expressions.append(self.expression())
        if found.kind == "at":
            found.is_async = self.passes("async")
        if found.kind == "repeat":
            found.number = int(self.take())
        found.blocks.append(self.block())
        if found.kind in ("if", "try"):
            self.take()
            found.dead_only = self.passes("dead")
            found.blocks.append(self.block())


def read_script(text):
    """The statements of a script that meets the rules of docs/language.md, given as bytes. Other scripts may be too deep to be read."""
    script_text.Reader(text).read()
    return Parser(text).statements()


def value_of(expression, variables, here):
    """The value of an expression for a task at this place."""
    if isinstance(expression, int):
        return expression
    if isinstance(expression, str):
        return here if expression == "here" else variables[expression]
    left, sign, right = expression
    left, right = value_of(left, variables, here), value_of(right, variables, here)
    if sign == "<":
        return int(left < right)
    if sign == "==":
        return int(left == right)
    value = left + right if sign == "+" else left - right if sign == "-" else left * right
    if not LEAST <= value <= GREATEST:
        raise Raised("overflow")
    return value
