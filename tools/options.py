"""The words of the tools that have options of their own: what is wrong with them in plain words, with a hint at the option that was meant."""

import argparse
import re
import sys

import command_words

# What argparse says, and what a user is told.
TOLD = [
    (r"argument (\S+): expected one argument", r"`\1` takes a value"),
    (r"argument (\S+): invalid int value: '(.*)'", r"`\1` takes a number, and `\2` is none"),
    (r"argument (\S+): not allowed with argument (\S+)", r"`\1` and `\2` exclude each other"),
    (r"the following arguments are required: FILE", r"a file is missing"),
    (r"the following arguments are required: TRACE", r"a trace is missing"),
    (r"argument (\S+): ignored explicit argument '.*'", r"`\1` takes no value"),
]


class Parser(argparse.ArgumentParser):
    """The words of one command, which takes one file."""

    def __init__(self, command, quoted="", example=""):
        """An option whose value may have blanks, `quoted`, is told of with an example where a word is left over."""
        super().__init__(prog="rx10 " + command, add_help=False, allow_abbrev=False)
        self.command, self.quoted, self.example = command, quoted, example

    def error(self, message):
        if message.startswith("the following arguments are required"):
            self.refuse_unknown()
        for pattern, words in TOLD:
            message = re.sub(pattern + r"\Z", words, message, flags=re.S)
        print("rx10: %s\n  `%s --help` tells the words" % (message, self.prog), file=sys.stderr)
        sys.exit(2)

    def taken(self, words):
        self.words = words
        given, more = self.parse_known_args(words)
        if not more:
            return given
        self.refuse_unknown()
        self.error("`%s` takes one file, and `%s` is one more%s" % (self.command, more[0], self.hint_at_quotes(words)))

    def refuse_unknown(self):
        """Refuses the first option that the command does not have, where there is one."""
        known = [it for action in self._actions for it in action.option_strings]
        before = self.words[:self.words.index("--")] if "--" in self.words else self.words
        for name in (it.split("=")[0] for it in before if it.startswith("-") and it != "-"):
            if name not in known and not (name[:2] in known and not name.startswith("--")):
                hint = command_words.near(name, known) or ("; it has %s" % ", ".join(known) if known else "; it has none")
                self.error("`%s` has no option `%s`%s" % (self.command, name, hint))

    def hint_at_quotes(self, words):
        """A hint for a word that is left over, where the value of an option may have lost its quotes."""
        has_it = self.quoted and any(it.split("=")[0] == self.quoted for it in words)
        return "; the value of `%s` is one word, in quotes where it has blanks: %s" % (self.quoted, self.example) if has_it else ""
