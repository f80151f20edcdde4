#!/usr/bin/env python3
"""Holds docs/surface.md and docs/surface-types.md, what users of the crates may rely on, to the sources.

usage: tools/surface.py

The pages list calls, traits and types by crate. Each has to be public in this crate, or handed on by it with `pub use`, with the
signature, fields and variants that are listed. Contracts are not compared. A table names what is otherwise today. Printed is what
the table does not name, and what it names and is not so. The last line counts.

Exit status: 0 all is as the pages say, 1 something is not; 2 the words, 125 a page or a source can't be read.
"""

import functools
import pathlib
import re
import sys

import ends
from declarations import Item, Unread, declared, joined, split, tokens_of

TOP = pathlib.Path(__file__).resolve().parent.parent
PAGES = [TOP / "docs" / "surface.md", TOP / "docs" / "surface-types.md"]
MISSING = "missing"


class Difference:
    """What is otherwise in a crate: what is listed, such as `Kills::open`, and what is here: a declaration, or words."""

    def __init__(self, crate, listed, here):
        self.crate, self.listed, self.here = crate, listed, here
        self.key = crate, listed, here.key() if isinstance(here, Item) else here

    def text(self):
        return "%s: %s: %s" % (self.crate, self.listed, self.here.text() if isinstance(self.here, Item) else self.here)


# --- the sources


class Crate:
    """The sources of a crate."""

    def __init__(self, name):
        self.name, self.folder = name, TOP / "crates" / name / "src"

    @functools.lru_cache(maxsize=None)
    def declared_in(self, file):
        try:
            return declared((self.folder / file).read_text("utf-8"))
        except Unread as why:
            raise Unread("crates/%s/src/%s: %s" % (self.name, file, why)) from why

    def find(self, name, file=None):
        """The crate and the declaration that a name has in a file, the root where none is named; None if it is not public there."""
        for item in self.declared_in(file or ("lib.rt" if (self.folder / "lib.rt").exists() else "main.rt")):
            if item.is_public and item.name == name:
                return self, item
            if item.is_public and item.kind == "use":
                for path, here in item.items:
                    if here == name:
                        return self.follow(path)
        return None

    def follow(self, path):
        """The crate and the declaration to which a path in this crate leads; None if that is in no crate of the repository."""
        first, *rest = path[1:] if path[0] == "crate" else path
        if not rest:
            return self.find(first)
        if (self.folder / (first + ".rt")).exists():
            return self.find(rest[-1], first + ".rt")
        return crates()[first].follow(rest) if first in crates() else None

    def all_declared(self):
        return [it for file in sorted(self.folder.rglob("*.rt")) for it in self.declared_in(file.relative_to(self.folder))]

    def calls_of(self, kind, generics):
        """The public calls of a type of this crate, by name. The type is given by tokens, with these parameters of its own."""
        found = {}
        for item in self.all_declared():
            becomes = fitting(item, kind, generics) if item.kind == "impl" else None
            for call in item.items if becomes is not None else []:
                if call.is_public:
                    found[call.name] = replaced(call, {**becomes, "Self": kind})
        return found


@functools.lru_cache(maxsize=None)
def crates():
    """The crates by their names."""
    lines = [it.partition("#")[0].partition(":") for it in (TOP / "crates.txt").read_text("utf-8").splitlines()]
    return {name.strip(): Crate(name.strip()) for name, found, _ in lines if found}


def found_elsewhere(name):
    """Where this name is public: each crate that declares it, with the declaration."""
    return [it for it in ((crate, crate.find(name)) for crate in crates().values()) if it[1] and it[1][0] is it[0]]


# --- declarations


def arguments(kind):
    """What stands between the brackets of a type."""
    return split(kind[2:-1], ",")


def bounds_of(generics):
    """The bound of each parameter."""
    return {it[0]: it[1:] for it in split(generics, ",")}


def fitting(item, kind, generics):
    """What each parameter of an `impl` becomes for this type, which has these parameters; None if the `impl` is not for it."""
    if item.name != kind[0] or len(arguments(item.body)) != len(arguments(kind)):
        return None
    bounds, listed, becomes = bounds_of(item.generics), bounds_of(generics), {}
    for here, there in zip(arguments(item.body), arguments(kind)):
        if here[0] in bounds and len(here) == 1:
            if bounds[here[0]] != listed.get(there[0], bounds[here[0]]):
                return None
            becomes[here[0]] = there
        elif here != there:
            return None
    return becomes


def replaced_in(tokens, table):
    """These tokens with others for those of the table, unless brackets with arguments follow."""
    after = [*tokens[1:], ""]
    return [new for it, behind in zip(tokens, after) for new in (table[it] if it in table and behind != "<" else [it])]


def replaced(item, table):
    inside = [replaced(it, table) for it in item.items]
    return Item(item.kind, item.name, replaced_in(item.generics, table), replaced_in(item.body, table), inside)


# --- the pages


class List:
    """What the pages list of each crate, and the differences that they name."""

    def __init__(self, text):
        self.listed, self.named, self.given = {}, [], {}
        for section in re.split(r"^## ", text, flags=re.M)[1:]:
            head, _, body = section.partition("\n")
            if re.fullmatch(r"rx\w+", head):
                code = "".join(re.findall(r"^```rust\n(.*?)^```$", body, re.M | re.S))
                self.listed.setdefault(head, []).extend(declared(code, is_list=True))
            for crate, listed, here in re.findall(r"^\| (rx\w+) \| (`.*?`) \| (.*?) \| .* \|$", body, re.M):
                self.take_row(crate, re.findall(r"`([^`]+)`", listed), here)

    def take_row(self, crate, listed, here):
        """Takes a row of the table. What is here is a type with arguments, as `Keeper<CountLedger>`, or a declaration, or words."""
        code = re.fullmatch(r"`([^`]+)`", here)
        if code and re.fullmatch(r"\w+<.*>", code[1]):
            self.given[listed[0]] = crate, tokens_of(code[1])
            return
        items = declared(code[1] + ";", is_list=True) if code else [here]
        if len(items) != 1:
            raise Unread("this is no declaration: %s" % here)
        self.named += [Difference(crate, it, items[0]) for it in listed]

    def differences(self):
        """What is otherwise than listed, each once, by its key."""
        table = {name: kind for name, (_, kind) in self.given.items()}
        listed = [(crate, replaced(item, table)) for crate, items in self.listed.items() for item in items]
        found = [it for crate, item in listed for it in compared(crate, item, table)]
        for name, (crate, kind) in self.given.items():
            at = crates()[crate].find(name) if crate in crates() else None
            if not at or len(split(at[1].generics, ",")) != len(arguments(kind)):
                found.append(Difference(crate, name, "no type with the arguments of %s" % joined(kind)))
        return {it.key: it for it in found}

    def wrong(self):
        """In words: what is otherwise and not named, and what is named and not so."""
        found, named = self.differences(), {it.key: it for it in self.named}
        return [*(it.text() for key, it in found.items() if key not in named),
                *(it.text() + " (named, and not so)" for key, it in named.items() if key not in found)]

    def counts(self):
        """How many calls and how many types are listed."""
        kinds = [it.kind for items in self.listed.values() for item in items for it in [item, *item.items]]
        return kinds.count("fn"), sum(kinds.count(it) for it in ("struct", "enum", "trait"))


def read_list():
    return List("\n".join(it.read_text("utf-8") for it in PAGES))


def compared(name, item, table):
    """The differences between a declaration that is listed for a crate and what the crate has."""
    crate = crates().get(name)
    at = crate.find(item.name) if crate else None
    if not at:
        others = found_elsewhere(item.name)
        yield Difference(name, item.name, "in " + ", ".join(it.name for it, _ in others) if others else MISSING)
        if len(others) != 1:
            return
        at = others[0][1]
    home, here = at
    if item.kind == "for":
        if item.key() not in [it.key() for it in home.all_declared()]:
            yield Difference(name, item.text(), MISSING)
        return
    if item.kind == "impl":
        if len(arguments(item.body)) != len(split(here.generics, ",")):
            yield Difference(name, item.name, here)
            return
        has, wanted = home.calls_of(item.body, item.generics), replaced(item, {"Self": item.body}).items
    else:
        if item.name in table:
            item.generics = here.generics
        if item.key() != here.key():
            yield Difference(name, item.name, here)
        has, wanted = {it.name: it for it in here.items}, item.items
    for it in wanted:
        if it.name not in has:
            yield Difference(name, "%s::%s" % (item.name, it.name), MISSING)
        elif it.key() != has[it.name].key():
            yield Difference(name, "%s::%s" % (item.name, it.name), has[it.name])
    if item.kind == "trait":
        for it in here.items:
            if it.name not in {it.name for it in wanted}:
                yield Difference(name, "%s::%s" % (item.name, it.name), it)


def main(words):
    if words:
        print("usage: tools/surface.py", file=sys.stderr)
        return 2
    try:
        found = read_list()
        wrong = found.wrong()
    except (OSError, Unread) as why:
        print("surface: %s" % why, file=sys.stderr)
        return ends.FAILED
    print("".join(it + "\n" for it in wrong), end="")
    print("%d calls and %d types in %d crates, %d named differences, %d to mend" % (
        *found.counts(), len(found.listed), len(found.named) + len(found.given), len(wrong)))
    return 1 if wrong else 0


if __name__ == "__main__":
    sys.exit(ends.guarded(main, sys.argv[1:]))
