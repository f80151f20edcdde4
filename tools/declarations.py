"""Reads what a text in Rattle declares: types, traits, calls, and what is handed on. Bodies and contracts are passed over."""

import re

TOKEN = re.compile(r"""//[^\n]*|/\*.*?\*/|b?"(?:[^"\\]|\\.)*"|b?'(?:[^'\\]|\\[^']+)'|'\w+|->|::|\.\.|\w+|\S""", re.S)
CLOSING = {"(": ")", "[": "]", "{": "}", "<": ">"}
SPACED_BEHIND = {",", ":", ";", "mut", "dyn", "impl"}
SPACED = {"->", "+", "=", "{", "where"}


class Unread(Exception):
    """What a text has that can't be read, in words."""


def tokens_of(text):
    return [it for it in TOKEN.findall(text) if not it.startswith(("//", "/*"))]


def joined(tokens):
    """Tokens as one text with the blanks of Rust, and without a comma before what closes."""
    text = ""
    for at, it in enumerate(tokens):
        after = tokens[at + 1] if at + 1 < len(tokens) else ")"
        if it in SPACED:
            text = "%s %s " % (text.rstrip(), it)
        elif it == "}":
            text = text.rstrip() + " }"
        elif it in SPACED_BEHIND or (it[0] == "'" and after[:1].isalpha()):
            text += "" if it == "," and after in CLOSING.values() else it + " "
        else:
            text += it
    return text.strip()


def split(tokens, sign):
    """These tokens in parts, at this sign where it stands in no brackets; an empty part behind the last is dropped."""
    parts, open_ones = [[]], []
    for it in tokens:
        # (in braces `<` may be one of a formula)
        if it in CLOSING and not (it == "<" and "{" in open_ones):
            open_ones.append(it)
        elif open_ones and it == CLOSING[open_ones[-1]]:
            open_ones.pop()
        if it == sign and not open_ones:
            parts.append([])
        else:
            parts[-1].append(it)
    return parts if parts[-1] else parts[:-1]


def with_commas(parts):
    return [it for at, part in enumerate(parts) for it in ([","] if at else []) + part]


def used_names(tokens, path=()):
    """What a `use` brings in: for each name the path of the thing, and the name that it has here."""
    for part in split(tokens, ","):
        *way, last = split(part, "::")
        here = (*path, *(it[0] for it in way))
        if last[0] == "{":
            yield from used_names(last[1:-1], here)
        else:
            yield (*here, last[0]), last[-1]


class Item:
    """A declaration.

    Of a function `body` is its parameters and its result, of an `impl` the type, and of one of a trait (kind `for`) the trait.
    `items` are the declarations within it, and of a `use` what it brings in.
    """

    def __init__(self, kind, name, generics=(), body=(), items=()):
        self.kind, self.name, self.generics, self.body, self.items = kind, name, list(generics), list(body), list(items)
        self.is_public = False

    def text(self):
        if self.kind == "for":
            return "impl %s for %s" % (self.body[0], self.name)
        return "%s %s" % (self.kind, joined([self.name, *(["<", *self.generics, ">"] if self.generics else []), *self.body]))

    def key(self):
        """What has to be equal. The order of variants and of fields with names is free."""
        body = unordered(self.body) if self.kind in ("struct", "enum") else joined(self.body)
        return self.kind, self.name, joined(self.generics), body


def unordered(body):
    """A text of the body of a type in which variants, and fields with names, stand in the order of letters."""
    if "{" not in body:
        return joined(body)
    at = body.index("{")
    return joined(body[:at]) + "{%s}" % ", ".join(sorted(unordered(it) for it in split(body[at + 1:-1], ",")))


class Reader:
    """Reads declarations. In a list of what is public nothing says `pub`, and `..` stands for fields that are not public."""

    def __init__(self, tokens, is_list=False):
        self.tokens, self.is_list, self.at = tokens, is_list, 0

    def look(self):
        return self.tokens[self.at] if self.at < len(self.tokens) else ""

    def take(self):
        it = self.look()
        if not it:
            raise Unread("more must come after: %s" % joined(self.tokens[-12:]))
        self.at += 1
        return it

    def skips(self, word):
        found = self.look() == word
        self.at += found
        return found

    def enclosed(self):
        """The tokens between the bracket that comes and the one that closes it."""
        first = self.take()
        begin, depth, closing = self.at, 1, CLOSING.get(first)
        if not closing:
            raise Unread("a bracket must come, and not %s" % first)
        while depth:
            it = self.take()
            depth += (it == first) - (it == closing)
        return self.tokens[begin:self.at - 1]

    def until(self, *signs):
        """The tokens up to one of these that stands in no brackets; that one is left."""
        begin = self.at
        while self.look() and self.look() not in signs:
            if self.look() in CLOSING:
                self.enclosed()
            else:
                self.take()
        return self.tokens[begin:self.at]

    def attributes(self):
        while self.skips("#"):
            self.skips("!")
            self.enclosed()

    def generics(self):
        return self.enclosed() if self.look() == "<" else []

    def inside(self):
        return Reader(self.enclosed(), self.is_list).all_items()

    def all_items(self):
        """The declarations up to the end, in their order."""
        found = []
        while self.look():
            item = self.next_item()
            if item:
                found.append(item)
        return found

    def next_item(self):
        """The next declaration; None where it is of no kind that is asked for."""
        self.attributes()
        is_public = self.is_list
        if self.skips("pub"):
            is_public = self.look() != "("
            if not is_public:
                self.enclosed()
        kind = self.take()
        if kind == "ghost":
            self.until(";")
        read = {"use": self.use, "mod": self.module, "fn": self.function, "struct": self.structure, "enum": self.enumeration,
                "trait": self.trait, "impl": self.implementation, "type": self.alias}.get(kind)
        item = read() if read else None
        if item:
            item.is_public = is_public
        return item

    def use(self):
        return Item("use", "", items=used_names(self.until(";")))

    def module(self):
        name = self.take()
        return Item("mod", name, items=self.inside() if self.look() == "{" else [])

    def alias(self):
        return Item("type", self.take(), body=self.until(";"))

    def function(self):
        name, generics = self.take(), self.generics()
        parameters = with_commas([seen_parameter(it) for it in split(self.enclosed(), ",")])
        result = ["->", *self.type_tokens()] if self.skips("->") else []
        bounds = self.until("requires", "ensures", "{", ";") if self.look() == "where" else []
        self.contract()
        return Item("fn", name, generics, ["(", *parameters, ")", *result, *bounds])

    def type_tokens(self):
        """The tokens of a type."""
        begin = self.at
        while self.look() in ("&", "mut", "dyn", "impl") or self.look().startswith("'"):
            self.take()
        if self.look() in ("(", "["):
            self.enclosed()
        else:
            self.take()
        while self.look() in ("::", "<"):
            if self.look() == "<":
                self.enclosed()
            else:
                self.take()
                self.take()
        return self.tokens[begin:self.at]

    def contract(self):
        """Passes over the clauses of a function, and over its body where it has one."""
        while not self.skips(";"):
            is_body = self.look() == "{"
            self.until("{")
            self.enclosed()
            if is_body:
                return

    def structure(self):
        name, generics = self.take(), self.generics()
        self.until("(", "{", ";")
        opening = self.look()
        body = [opening, *self.public_fields(), CLOSING[opening]] if opening in ("(", "{") else []
        self.skips(";")
        return Item("struct", name, generics, body)

    def public_fields(self):
        """The fields of a type without what says that they are public, and `..` for those that are not."""
        parts = [Reader(it).bare() for it in split(self.enclosed(), ",")]
        if self.is_list:
            return with_commas(parts)
        parts = [it for it in parts if "ghost" not in it[:2]]
        public = [it[1:] for it in parts if it[0] == "pub" and it[1] != "("]
        return with_commas(public + [[".."]] * (len(public) < len(parts)))

    def bare(self):
        """The tokens without the attributes before them."""
        self.attributes()
        return self.tokens[self.at:]

    def enumeration(self):
        name, generics = self.take(), self.generics()
        return Item("enum", name, generics, ["{", *with_commas([Reader(it).variant() for it in split(self.enclosed(), ",")]), "}"])

    def variant(self):
        self.attributes()
        name = self.take()
        if self.look() not in ("(", "{"):
            return [name]
        opening = self.look()
        return [name, opening, *with_commas([Reader(it).bare() for it in split(self.enclosed(), ",")]), CLOSING[opening]]

    def trait(self):
        name, generics, parents = self.take(), self.generics(), self.until("{")
        return Item("trait", name, generics, parents, self.inside())

    def implementation(self):
        generics, head = self.generics(), self.type_tokens()
        after = self.until("{")
        if after[:1] == ["for"]:
            self.enclosed()
            return Item("for", after[1], body=head[:1])
        return Item("impl", head[0], generics, head, self.inside())


def seen_parameter(tokens):
    """A parameter as a caller sees it: without `mut`, and without the line of a name that is not used."""
    tokens = tokens[tokens[0] == "mut":]
    return [tokens[0].lstrip("_"), *tokens[1:]] if tokens[1:2] == [":"] else tokens


def declared(text, is_list=False):
    """The declarations of a text."""
    return Reader(tokens_of(text), is_list).all_items()
