"""Scripts as texts: their tokens, their statements, and where each of these stands.

The tools tell a user about a script by its places. This reading is theirs alone: no claim of the repository rests on it, and what a script
is and whether it may be run the program says. docs/language.md has the tokens, the grammar and the rules.
"""

import re
from dataclasses import dataclass, field

KEYWORDS = frozenset("set new get put forget print throw async at finish if else repeat try catch dead here census".split())
STARTS = frozenset("set new get put forget print census throw async at finish if repeat try".split())
TOKEN = re.compile(
    rb"(?P<gap>[ \t\n\r]+|#[^\n]*)|(?P<word>[a-z][a-z0-9_]*)|(?P<number>[0-9][0-9a-z_]*)"
    rb"|(?P<sign>==|[{}()\[\]=;+\-*<,])|(?P<other>.)",
    re.S,
)
GREATEST = 9223372036854775807
MAX_NAME = 16


@dataclass
class Token:
    """One token: its kind (word, number, sign, other, end), its bytes as text, and where it starts."""

    kind: str
    text: str
    at: int


@dataclass
class Use:
    """A name where a statement uses or assigns it; how is `value`, `target` or the kind that it is given, `number` or `reference`."""

    how: str
    name: str
    at: int


@dataclass
class Statement:
    """One statement: its first word, where it starts and ends, the names in it in order, its blocks, and where the last of them opens."""

    kind: str
    at: int
    end: int = 0
    depth: int = 0
    uses: list = field(default_factory=list)
    deepest: int = 0
    too_deep: int = 0
    turns: int = 1
    brace: int = 0
    blocks: list = field(default_factory=list)


class Wrong(Exception):
    """The token that can't go on, the words for what could stand there, the token before it, and the block that is open there, if any."""

    def __init__(self, token, wanted, before, brace):
        super().__init__(token.at)
        self.token, self.wanted, self.before, self.brace = token, wanted, before, brace


def tokens_of(text):
    """Each token of these bytes, and at last the end of input."""
    found = [Token(it.lastgroup, it.group().decode("latin-1"), it.start()) for it in TOKEN.finditer(text) if it.lastgroup != "gap"]
    return found + [Token("end", "", len(text))]


def fault_of(token):
    """What is wrong with a token by itself, or None."""
    if token.kind == "other":
        if "A" <= token.text <= "Z":
            return "a script has no capital letters"
        return "no token of a script begins with this byte"
    if token.kind == "word" and len(token.text) > MAX_NAME:
        return "this word has %d letters, and %d are the most" % (len(token.text), MAX_NAME)
    if token.kind == "number":
        if not token.text.isdigit():
            return "letters and `_` can't follow the digits of a number"
        if token.text[0] == "0" and token.text != "0":
            return "a number has no leading zero"
        if int(token.text) > GREATEST:
            return "this number is greater than %d" % GREATEST
    return None


class Reader:
    """Reads statements from the front; with a list of its own in place of nested calls, so that no nesting is too deep."""

    def __init__(self, text):
        self.tokens = tokens_of(text)
        self.here = 0
        self.statements = []
        self.open_blocks = []

    def peek(self):
        return self.tokens[self.here]

    def is_next(self, text):
        token = self.peek()
        return token.kind in ("word", "sign") and token.text == text and not fault_of(token)

    def fail(self, *wanted):
        before = self.tokens[self.here - 1] if self.here else None
        raise Wrong(self.peek(), list(wanted), before, self.open_blocks[-1][0].brace if self.open_blocks else None)

    def take(self, text):
        if not self.is_next(text):
            self.fail("`%s`" % text)
        self.here += 1

    def take_name(self, statement, how):
        token = self.peek()
        if token.kind != "word" or token.text in KEYWORDS or fault_of(token):
            self.fail("a name")
        self.here += 1
        statement.uses.append(Use(how, token.text, token.at))

    def take_number(self, least, most):
        token = self.peek()
        if token.kind != "number" or fault_of(token) or not least <= int(token.text) <= most:
            self.fail("a number from %s to %s" % (format(least, ","), format(most, ",")))
        self.here += 1

    def take_expression(self, statement):
        """An expression: operands, with `(` before and an operation inside each pair of parentheses."""
        stages = []
        while True:
            while self.is_next("("):
                stages.append("left")
                if len(stages) > statement.deepest:
                    statement.deepest, statement.too_deep = len(stages), self.peek().at
                self.here += 1
            token = self.peek()
            is_operand = token.kind == "number" or token.kind == "word" and (token.text == "here" or token.text not in KEYWORDS)
            if fault_of(token) or not is_operand:
                self.fail("a number", "a name", "`here`", "`(`")
            self.here += 1
            if token.kind == "word" and token.text != "here":
                statement.uses.append(Use("value", token.text, token.at))
            while stages and stages[-1] == "right":
                self.take(")")
                stages.pop()
            if not stages:
                return
            token = self.peek()
            if token.kind != "sign" or token.text not in ("+", "-", "*", "<", "=="):
                self.fail("`+`", "`-`", "`*`", "`<`", "`==`")
            self.here += 1
            stages[-1] = "right"

    def take_simple(self, kind, statement):
        """The rest of a statement that ends with `;`."""
        if kind in ("set", "new", "get"):
            self.take_name(statement, "reference" if kind == "new" else "number")
            given = statement.uses.pop()
            self.take("=")
            if kind == "set":
                self.take_expression(statement)
            elif kind == "new":
                self.take_number(1, 65536)
            else:
                self.take_name(statement, "target")
                self.take("[")
                self.take_expression(statement)
                self.take("]")
            statement.uses.append(given)
        elif kind == "put":
            self.take_name(statement, "target")
            self.take("[")
            self.take_expression(statement)
            self.take("]")
            self.take("=")
            self.take_expression(statement)
        elif kind == "forget":
            self.take_name(statement, "target")
        elif kind == "census":
            self.take_name(statement, "number")
        else:
            self.take_expression(statement)
        self.take(";")

    def take_brace(self, statement, words=()):
        """The `{` of a block, and before it perhaps one of these words."""
        if self.peek().text in words and self.is_next(self.peek().text):
            self.here += 1
            words = ()
        if not self.is_next("{"):
            self.fail("`{`", *("`%s`" % it for it in words))
        statement.brace = self.peek().at
        self.here += 1

    def take_head(self, kind, statement):
        """What stands before the first block of a compound statement; gives the word between this block and a second one, if any."""
        if kind in ("at", "if"):
            self.take_expression(statement)
        if kind == "repeat":
            self.take_number(0, 1000000)
            statement.turns = int(self.tokens[self.here - 1].text)
        self.take_brace(statement, ["async"] if kind == "at" else [])
        return {"if": ["else"], "try": ["catch"]}.get(kind, [])

    def read(self):
        """All statements of the script, in the order of their first tokens."""
        block, open_blocks = [], self.open_blocks
        while True:
            token = self.peek()
            if open_blocks and self.is_next("}"):
                self.here += 1
                statement, block, more = open_blocks.pop()
                if more:
                    self.take(more[0])
                    self.take_brace(statement, ["dead"] if more[0] == "catch" else [])
                    statement.blocks.append([])
                    open_blocks.append((statement, block, more[1:]))
                    block = statement.blocks[-1]
                else:
                    statement.end = token.at + 1
                continue
            if token.kind == "end" and not open_blocks:
                return block
            if token.kind != "word" or token.text not in STARTS:
                self.fail("a statement", *(["`}`"] if open_blocks else []))
            self.here += 1
            statement = Statement(token.text, token.at, depth=len(open_blocks))
            self.statements.append(statement)
            block.append(statement)
            if token.text in ("async", "at", "finish", "if", "repeat", "try"):
                more = self.take_head(token.text, statement)
                statement.blocks.append([])
                open_blocks.append((statement, block, more))
                block = statement.blocks[-1]
            else:
                self.take_simple(token.text, statement)
                statement.end = self.tokens[self.here - 1].at + 1


def statement_at(block, path):
    """The statement that a path names in this list of statements, or None."""
    path = list(path)
    while path:
        number = path.pop(0)
        if number >= len(block):
            return None
        statement = block[number]
        if not path:
            return statement
        if statement.kind in ("if", "try"):
            choice = path.pop(0)
            if choice >= len(statement.blocks):
                return None
            block = statement.blocks[choice]
        elif not statement.blocks:
            return None
        else:
            if statement.kind == "repeat":
                path.pop(0)
            block = statement.blocks[0]
    return None


def work_of(block):
    """The work of a list of statements, and that of each statement in it by its start; without nested calls, as in Reader."""
    works, order, waiting = {}, [], list(block)
    while waiting:
        statement = waiting.pop()
        order.append(statement)
        for it in statement.blocks:
            waiting += it
    for statement in reversed(order):
        inside = [sum(works[it.at] for it in one) for one in statement.blocks]
        if statement.kind == "repeat":
            works[statement.at] = 1 + statement.turns * (1 + inside[0])
        else:
            works[statement.at] = 1 + (max(inside) if statement.kind == "if" else sum(inside))
    return sum(works[it.at] for it in block), works


def greatest(block, works):
    """The statement with most of the work: the greatest of the list, and inside it, up to a `repeat`, the one with more than half of it."""
    found = max(block, key=lambda it: works[it.at])
    while found.kind != "repeat":
        inside = [it for one in found.blocks for it in one]
        most = max(inside, key=lambda it: works[it.at], default=None)
        if most is None or 2 * works[most.at] <= works[found.at]:
            break
        found = most
    return found


def culprit(block, node, rule, statements):
    """Where a statement fails a rule: the start of the name or parenthesis that is at fault and words for it, or its own start and None."""
    wanted = statements[node]
    kinds = {}
    for statement in statements:
        for use in statement.uses:
            if use.how in ("number", "reference"):
                kinds.setdefault(use.name, (use.how, use.at))
    if rule == 1:
        known = known_before(block, wanted) or frozenset()
        for use in wanted.uses:
            if use.how in ("value", "target") and use.name not in known:
                return use.at, "`%s` is not known here" % use.name
    if rule == 2:
        for use in wanted.uses:
            kind, _ = kinds.get(use.name, (None, 0))
            if use.how == "value" and kind == "reference":
                return use.at, "`%s` is a reference, and an expression has numbers alone" % use.name
            if use.how == "target" and kind == "number":
                return use.at, "`%s` is a number, and only a reference has words to read, write or forget" % use.name
            if use.how in ("number", "reference") and kind and kind != use.how:
                return use.at, "`%s` is a %s since its first assignment, and can't become a %s" % (use.name, kind, use.how)
    if rule == 3:
        if wanted.depth > 32:
            return wanted.at, "this statement stands in %d blocks" % wanted.depth
        if wanted.deepest > 32:
            return wanted.too_deep, "this expression has %d parentheses in one another" % wanted.deepest
    if rule == 4:
        for use in reversed(wanted.uses):
            if use.how in ("number", "reference"):
                return use.at, "`%s` is one name too many" % use.name
    return wanted.at, None


def known_before(block, wanted):
    """The names that are known before a statement, or None where it is not in these statements."""
    waiting = [(block, frozenset())]
    while waiting:
        inside, known = waiting.pop()
        for statement in inside:
            if statement is wanted:
                return known
            waiting += [(it, known) for it in statement.blocks]
            known |= {use.name for use in statement.uses if use.how in ("number", "reference")}
    return None
