"""What came of the runs of a sweep: groups with their least run, the table, and what every run must have."""

import collections
import re
import shlex

from sweep_runs import Outcome, words_of

Group = collections.namedtuple("Group", "count least")


def rank(run):
    """The order of runs: fewest kills, then earliest, then of the least places, then of the least seed."""
    return len(run.kills), run.kills, run.seed or 0


class Groups:
    """The runs by what came of them. With any_order runs that print the same values in another order are one group."""

    def __init__(self, any_order):
        self.any_order = any_order
        self.found = {}

    def add(self, run, outcome):
        if self.any_order:
            outcome = outcome._replace(prints=tuple(sorted(outcome.prints)))
        group = self.found.get(outcome, Group(0, run))
        self.found[outcome] = Group(group.count + 1, min(group.least, run, key=rank))

    def runs(self):
        return sum(it.count for it in self.found.values())

    def lines(self, base, with_lost):
        """The table, one line for each group: those with a run without kills of the sweep first, then by the number of runs."""
        rows = [("runs", "status", "prints", "thrown", "lost", "masked", "least words that lead to it")]
        order = sorted(self.found.items(), key=lambda it: (bool(it[1].least.kills), -it[1].count, rank(it[1].least)))
        for outcome, (count, least) in order:
            words = " ".join(words_of(base, least)[len(base):])
            rows.append((str(count), str(outcome.status), listed(outcome.prints), listed(outcome.thrown),
                         listed(outcome.lost) if outcome.lost else "nothing", str(outcome.masked or "-"), words or "(none)"))
        # (a column in which nothing stands says nothing)
        empty = {k for k in (3, 5) if all(it[k] == "-" for it in rows[1:])} | ({4} if not with_lost else set())
        kept = [k for k in range(len(rows[0])) if k not in empty]
        widths = [max(len(it[k]) for it in rows) for k in kept]
        return ["  ".join(it[k].rjust(w) if k == 0 else it[k].ljust(w) for k, w in zip(kept, widths)).rstrip() for it in rows]


def is_table(text):
    """Whether a text begins as a table does."""
    lines = text.split("\n")
    return len(lines) > 3 and re.match(r".*: .*\b\d+ runs?\b.* outcomes?\b", lines[0]) is not None and lines[2].startswith("runs ")


class Requirement:
    """What every run must have, as `status=0 prints=42`: values of some columns of the table."""

    def __init__(self, text, any_order):
        self.text = " ".join(text.split())
        self.wanted = {}
        for word in text.split():
            field, equals, values = word.partition("=")
            if "=" in values:
                raise ValueError("`%s`: a blank stands between two fields" % word)
            if field not in Outcome._fields or not equals:
                commas = ", and values have commas between them" if self.wanted and re.fullmatch(r"-?\d+", word) else ""
                raise ValueError("`%s` is no FIELD=VALUES%s; the fields are %s" % (word, commas, ", ".join(Outcome._fields)))
            if field in self.wanted:
                raise ValueError("`%s` stands twice" % field)
            self.wanted[field] = values_of(field, values)
        if not self.wanted:
            raise ValueError("nothing is required")
        if any_order and "prints" in self.wanted:
            self.wanted["prints"] = tuple(sorted(self.wanted["prints"]))

    def is_met(self, outcome):
        return all(getattr(outcome, field) == wanted for field, wanted in self.wanted.items())

    def judged(self, groups, base, name):
        """Whether every run meets it, and a text that tells so, or the least run that does not."""
        broken = [group for outcome, group in groups.found.items() if not self.is_met(outcome)]
        if not broken:
            return True, "%s: true of %s" % (self.text, "the one run" if groups.runs() == 1 else "all %d runs" % groups.runs())
        least = min((it.least for it in broken), key=rank)
        command = shlex.join(["rx10", "step", *words_of(base, least), name])
        return False, "%s: not true of %d of %s; the least words:\n  %s" % (
            self.text, sum(it.count for it in broken), many(groups.runs(), "run"), command)


def values_of(field, text):
    """The value of a column that this text spells: `-` or nothing is none."""
    words = [it for it in text.split(",") if it] if text != "-" else []
    if field == "thrown":
        return tuple(words)
    try:
        numbers = tuple(map(int, words))
    except ValueError:
        raise ValueError("`%s=` takes whole numbers with commas between them, or `-` for none" % field) from None
    if field in ("status", "masked"):
        if len(numbers) > 1 or (field == "status" and numbers not in ((0,), (1,))):
            raise ValueError("`%s=` takes %s" % (field, "0 or 1" if field == "status" else "one number"))
        return numbers[0] if numbers else 0
    return tuple(sorted(set(numbers))) if field == "lost" else numbers


def many(number, what):
    return "%d %s%s" % (number, what, "" if number == 1 else "s")


def listed(values):
    """Values in a row, with repeats counted: `1 2 2 2` is `1 2 x3`; a long row is cut."""
    shown, last, count = [], None, 0
    for it in [*map(str, values), None]:
        if it == last:
            count += 1
            continue
        if last is not None:
            shown.append(last if count == 1 else "%s x%d" % (last, count))
        last, count = it, 1
    if len(shown) > 24:
        shown = [*shown[:20], ".. %d more" % (len(shown) - 20)]
    return " ".join(shown) or "-"
