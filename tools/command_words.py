"""The words of the commands, for the help that the tools give. What the words mean the program says; docs/commands.md has the rules."""

import difflib
import os
import re

MOST_MOMENT = 1000000
MOST_PLACES = 16
RANGES = {
    "--places": (1, MOST_PLACES, "the number of places"),
    "--heap": (1, 4096, "the words of each place's heap"),
    "--workers": (1, 8, "the number of workers"),
    "--watch": (1, 1000, "the number of snapshots"),
    "--size": (1, 10000, "the lines of the script"),
    "--seed": (0, 18446744073709551615, "a seed"),
    "--join": (0, MOST_MOMENT, "how many entries the history has when a place joins"),
}
OPTIONS = {
    "step": ["--places", "--heap", "--kill", "--join", "--pick", "--seed"],
    "live": ["--places", "--heap", "--kill", "--join", "--workers", "--watch"],
    "gen": ["--size", "--places", "--heap", "--kill", "--seed"],
    "check": [],
    "verify": [],
    "span": [],
}
# What the launcher takes beside these.
OWN_OPTIONS = {"step": ["--prints"], "live": ["--prints"], "gen": ["--script", "--trace"], "verify": ["--why"]}
# These take no value.
FLAGS = ("--prints", "--why")
FILES = ("step", "live", "check", "verify", "span")
PAIRS = ("verify", "span")
OF_LAUNCHER = ("show", "draw", "laws", "sweep", "explain", "help", "build", "test", "coordinator", "install", "package")


def value_rule(option):
    """What the value of an option must be, in words."""
    if option in RANGES:
        least, most, what = RANGES[option]
        return "`%s` takes %s, from %d to %d" % (option, what, least, most)
    if option == "--kill":
        form = "`--kill` takes PLACE@MOMENT, as in 2@9: a place from 1 to 15"
        return "%s, and how many entries the history has then, from 0 to %d" % (form, MOST_MOMENT)
    if option == "--pick":
        return "`--pick` takes numbers from 0 to 1000000 with commas between them, as in 0,0,1"
    return "`%s` takes a value" % option


def number_of(text):
    """The number that these digits spell, or None where they spell none in its one form."""
    return int(text) if re.fullmatch("0|[1-9][0-9]*", text) else None


def planned(words):
    """The number of places at the opening, and the moments of the joins in order."""
    places, joins = 2, []
    for option, value in zip(words[1::2], words[2::2]):
        if option == "--places":
            places = number_of(value) or places
        if option == "--join":
            joins.append(number_of(value) or 0)
    return places, sorted(joins)


def why_join(words, k):
    """What is wrong with the value of `--join` at word k."""
    moment = number_of(words[k])
    if moment is None or moment > MOST_MOMENT:
        return value_rule("--join")
    return "with this join there are more than %d places; %d are there at the opening" % (MOST_PLACES, planned(words)[0])


def why_kill(words, k):
    """What is wrong with the value of `--kill` at word k."""
    form = re.fullmatch("(0|[1-9][0-9]*)@(0|[1-9][0-9]*)", words[k])
    if not form or int(form[1]) > 15 or int(form[2]) > MOST_MOMENT:
        return value_rule("--kill")
    place = int(form[1])
    places, joins = planned(words)
    earlier = {value.split("@")[0] for option, value in zip(words[1:k - 1:2], words[2:k - 1:2]) if option == "--kill"}
    if place == 0:
        return "place 0 never dies"
    if place >= places + len(joins):
        last = places + len(joins) - 1
        return "there is no place %d: the places are 0 to %d (`--places %d` has it)" % (place, last, place + 1)
    if form[1] in earlier:
        return "an earlier `--kill` has place %d already, and a place dies once" % place
    if place >= places and joins[place - places] > int(form[2]):
        return "place %d joins at moment %d, and no place dies before it joins" % (place, joins[place - places])
    return value_rule("--kill")


def near(word, known):
    """A hint at the known word that this one may have been meant to be."""
    found = difflib.get_close_matches(word, known, 1)
    return "; is `%s` meant?" % found[0] if found else ""


def why_no_file(word):
    """What is wrong with a word that stands where a file may stand, and is none that can be read."""
    if os.path.isdir(word):
        return "`%s` is a folder, and no file" % word
    if os.path.islink(word):
        return "`%s` is a link that leads to no file" % word
    return "there is no file `%s` here" % word


def why_option(words, k):
    """What is wrong with word k, where an option of the command must stand."""
    command, word = words[0], words[k]
    options = OPTIONS[command]
    is_file = os.path.exists(word) and not os.path.isdir(word)
    if command in PAIRS and not word.startswith("-"):
        missing = [it for it in words[1:3] if it != "-" and (not os.path.exists(it) or os.path.isdir(it))]
        return why_no_file(missing[0]) if missing else "`%s` takes two files, a script and a trace" % command
    if command in PAIRS and words[1:] == ["-", "-"]:
        return "one of the two may be `-`, for standard input, and the other one must be a file"
    if word in options:
        if word in ("--seed", "--pick") and word not in words[1:k]:
            return "`--seed` and `--pick` exclude each other"
        return "`%s` stands twice" % word
    if command in FILES and (is_file or word == "-"):
        return "`%s` takes one file" % command
    known, name = [*options, *OWN_OPTIONS.get(command, ())], word.split("=")[0]
    if "=" in word and name in known:
        return "`%s` takes no value" % name if name in FLAGS else "write `%s %s`: the program takes an option and its value as two words" % (
            name, word.partition("=")[2])
    if command in FILES and not word.startswith("-"):
        return why_no_file(word)
    if not known:
        return "`%s` takes no options" % command
    return "`%s` has no option `%s`%s" % (command, name, near(name, known) or "; it has %s" % ", ".join(known))


def why(words, k):
    """What is wrong with word k of a command, where the program answers `usage k`."""
    if k == 0:
        commands = [*OPTIONS, *OF_LAUNCHER]
        if not words:
            return "a command is missing: %s" % ", ".join(commands)
        known = [it for it in commands if it != words[0]]
        return "there is no command `%s`%s" % (words[0], near(words[0], known) or "; there are %s" % ", ".join(commands))
    if words[0] not in OPTIONS:
        return "this word is not known"
    if k >= len(words):
        if len(words) % 2 == 0:
            return "a value is missing: %s" % value_rule(words[-1])
        return "`gen` needs `--size LINES`" if words[0] == "gen" else "a word is missing"
    if k % 2 == 1:
        return why_option(words, k)
    if words[k - 1] == "--join":
        return why_join(words, k)
    return why_kill(words, k) if words[k - 1] == "--kill" else value_rule(words[k - 1])


def shown(words, k, program="rx10"):
    """The words on a line, with a mark under word k on the next one."""
    line, under = program, 0
    for number, word in enumerate([*words, ""]):
        printed = word if re.fullmatch(r"[\w@%+=:,./-]+", word) or number == len(words) else repr(word)
        if number == k:
            under = len(line) + 1
            mark = "^" * max(len(printed), 1)
        line += " " + printed if number < len(words) else ""
    return "%s\n%s%s" % (line, " " * under, mark)
