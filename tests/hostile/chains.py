"""What `span` has to answer, by docs/semantics.md, "The order of statements": the longest chain of the statements that a history tells.

Of a statement x inside a compound statement C and a y that comes after C in its block, x is before y where each `async` on the way from C
down to x has a `finish` before it. So two chains of each part of a script are enough: the best of all, and the best of those whose last
statement is before what follows the part. Of two chains of one length the one that comes first is better, and paths are compared as lists
of numbers. Both chains of a block are made of those of its statements, one after the other.
"""

from program import Answer
from reading import read_script


def told_paths(history):
    """The paths of all statements that these entries tell, as tuples."""
    found = []
    for line in history:
        front, _, batch = line.partition(" | ")
        words = front.split(" ")
        if words[1] in ("open", "at", "spawn", "print", "census"):
            found.append(words[-1])
        found += batch.split(" ") if batch else []
    return [tuple(map(int, it.split("."))) for it in found]


def better(one, two):
    """The longer of two chains, and of one length the first."""
    return two if (len(two), one) > (len(one), two) else one


class Part:
    """What the history tells of a part of the script: the parts of it by their numbers, and whether the part is a statement told."""

    __slots__ = ("below", "is_told")

    def __init__(self):
        self.below, self.is_told = {}, False


def parts_of(paths):
    """All told statements as one tree."""
    root = Part()
    for path in paths:
        part = root
        for number in path:
            part = part.below.setdefault(number, Part())
        part.is_told = True
    return root


def in_a_row(chains):
    """The best of all, and the best that is before what follows, of parts that come one after the other."""
    kept, shared, best = [], 0, []      # the best of all is the first so many of what is kept, and then these
    for every, before in chains:
        if every:
            longer = len(kept) + len(every) - shared - len(best)
            if longer > 0 or (longer == 0 and kept[shared:] + every < best):
                shared, best = len(kept), every
        kept += before
    return better(kept[:shared] + best, kept), kept


def of_block(block, part, path):
    return in_a_row(of_statement(block[k], part.below[k], (*path, k)) for k in sorted(part.below))


def of_statement(it, part, path):
    """The best chain in a statement, and the best that is before what follows it."""
    kind = it[0]
    every, before = inside(it, kind, part, path)
    alone = [path] if part.is_told else []
    if kind in ("async", "on"):
        return better(alone, every), []
    if kind == "finish":
        return (better(alone, every),) * 2
    return better(alone, every), better(alone, before)


def inside(it, kind, part, path):
    if kind in ("async", "finish"):
        return of_block(it[1], part, path)
    if kind in ("at", "on"):
        return of_block(it[2], part, path)
    below = [(k, part.below[k], (*path, k)) for k in sorted(part.below)]
    if kind == "repeat":
        return in_a_row(of_block(it[2], turn, at) for _, turn, at in below)
    if kind in ("try", "dead"):
        return in_a_row(of_block(it[1 + k], side, at) for k, side, at in below)
    # (of an `if` one block alone is run)
    return of_block(it[2 + below[0][0]], *below[0][1:]) if below else ([], [])


def span_answer(text, history):
    """The answer of `span` to a script and the history of a run of it."""
    paths = told_paths(history)
    chain, _ = of_block(read_script(text), parts_of(paths), ())
    lines = ["statements %d" % len(paths), "chain %d" % len(chain), *(".".join(map(str, it)) for it in chain)]
    return Answer(0, "".join(line + "\n" for line in lines).encode(), b"")
