"""A model of the rules in Python: what a script means, and whether a trace is one of a run of it.

It is written from docs/semantics.md, docs/trace.md and docs/theorem.md, and shares nothing with the program. No claim of the repository
rests on it. The tools take the words of a reason from it, and tests/hostile holds the program's verdicts to it.
"""


class Refused(Exception):
    """A rule that refuses something, in words. Marks are statements of the script to show with it: a path and what is said of it."""

    def __init__(self, words, *marks):
        super().__init__(words)
        self.words = words
        self.marks = [mark for mark in marks if mark[0] is not None]
