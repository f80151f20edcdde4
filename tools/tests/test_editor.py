"""The completion and the grammar of editors know what the program knows."""

import json
import re
import subprocess
import unittest

import command_words
import script_text
from places import EXAMPLES, TOP


def completed(*words):
    """What bash offers for the last of these words."""
    script = 'source "$1"; shift; COMP_WORDS=("$@"); COMP_CWORD=$(($# - 1)); compopt() { :; }; _rx10; printf "%s\\n" "${COMPREPLY[@]}"'
    command = ["bash", "-c", script, "bash", TOP / "tools/completion/rx10.bash", *words]
    done = subprocess.run(command, cwd=TOP, capture_output=True, timeout=30, check=True)
    return done.stdout.decode().split()


class Editor(unittest.TestCase):
    def test_completion(self):
        self.assertEqual(set(completed("rx10", "")), {*command_words.OPTIONS, *command_words.OF_LAUNCHER, "--help", "--version"})
        self.assertEqual(completed("rx10", "sw"), ["sweep"])
        for command, options in command_words.OPTIONS.items():
            self.assertEqual(set(completed("rx10", command, "--")), {*options, *command_words.OWN_OPTIONS.get(command, ()), "--help"})
        self.assertEqual(completed("./rx10", "step", "--kill", "1@3", "examples/he"), ["examples/hello.rx"])
        self.assertEqual(completed("./rx10", "draw", "examples/he"), ["examples/hello.trace"])
        self.assertEqual(completed("./rx10", "verify", "examples/he"), ["examples/hello.rx"])
        self.assertEqual(completed("./rx10", "span", "examples/hello.rx", "examples/he"), ["examples/hello.trace"])

    def test_grammar(self):
        rules = json.loads((TOP / "tools/editor/rx10.tmLanguage.json").read_text())["patterns"]
        of_words = [rule["match"].replace("\\b", "") for rule in rules if rule["name"].startswith(("keyword", "variable.language"))]
        words = {it for rule in of_words for it in re.findall("[a-z]+", rule)}
        self.assertEqual(words, script_text.KEYWORDS)
        for script in EXAMPLES.glob("*.rx"):
            for line in script.read_text().split("\n"):
                at = 0
                while at < len(line):
                    found = min((it for it in ((re.compile(rule["match"]).search(line, at), rule["name"]) for rule in rules) if it[0]),
                                key=lambda it: it[0].start(), default=None)
                    if found is None:
                        break
                    self.assertFalse(found[1].startswith("invalid"), "%s: %s" % (script.name, line))
                    at = max(found[0].end(), at + 1)
