#!/usr/bin/env python3
"""Tells a refusal of the program by its place: file, line, column, the line of the source with a mark, and the rule in words.

usage: rx10 explain FILE              what is wrong with a script, or its work where nothing is; `-` is standard input
       rx10 explain FILE WORD..       the same of a command, as in: rx10 explain FILE step --kill 1@3
       rx10 explain NAME              what a status (0 to 10), a fault (stale) or an answer (bad) means

The program says `syntax 21` or `bad 1 4`, and stays as it is; this tool adds the place to it. Nothing of this is proved.
"""

import os
import re
import subprocess
import sys

import command_words
import ends
import inputs
import script_hints
import script_text
import trace_hints

RULES = {
    1: "rule 1: each name that a statement uses is assigned before it, in its block or in one round it",
    2: "rule 2: a name is a number or a reference, as its first assignment says, and is used as that",
    3: "rule 3: blocks, and the parentheses of an expression, stand at most 32 deep",
    4: "rule 4: a script assigns at most 32 names",
    5: "rule 5: the work of a script is at most 100,000",
}
STATUSES = {
    "0": ("Done", "the run ended, and the root's release has nothing lost and nothing thrown; for `check`: the script may be run; for "
          "`verify` and `span`: the trace is one of a whole run"),
    "1": ("Faulted", "the run ended, and the root's release names a lost place or carries a fault that nothing caught; for `verify` and "
          "`span`: the trace has a flaw"),
    "2": ("Usage", "`usage K`: word K of the command, counted from 0, is none that may stand there, or is missing"),
    "3": ("Syntax", "`syntax AT`: the bytes are no script; AT is where the first token starts that can't go on, counted in bytes from 0"),
    "4": ("Bad", "`bad RULE NODE`: the script fails a rule; NODE is the number of the statement, from 0, in the order of first words"),
    "5": ("TooLong", "`too long`: the script has more than 65,536 bytes, or the pair of a script and a trace more than 16,777,216"),
    "6": ("ReadFault", "`read fault`: standard input could not be read"),
    "7": ("WriteFault", "`write fault`: standard output could not be written, or not to its end"),
    "8": ("NoMemory", "`no memory`: memory was asked for and not given"),
    "9": ("Pair", "`bad pair`: the input is no pair of a script and a trace"),
    "10": ("BadTrace", "`bad line N`: line N of the trace, from 1, can't stand there"),
    "125": ("", "the launcher could not do its part: build the program, or read the file; it says why on standard error"),
}
FAULTS = {
    "dead": "`dead:P`: tasks under a scope were lost at place P, and the release of the scope names it",
    "code": "`code:V`: `throw` raised the value V",
    "overflow": "a result of an expression is no signed number of 64 bits",
    "noplace": "the value of e in `at e` is the number of no place",
    "wrongplace": "a reference was used at another place than its home",
    "stale": "no live block has the start and the generation of the reference: it was forgotten",
    "index": "the index is below 0, or not below the length of the block",
    "heapfull": "no hole of the place's heap has as many words as `new` asks for",
}
WIDEST = 120
MOST_SCRIPT, MOST_PAIR = 65536, 16777216


def place_of(text, at):
    """Line and column of a byte, both from 1, columns in characters."""
    start = text.rfind(b"\n", 0, at) + 1
    return text.count(b"\n", 0, at) + 1, len(text[start:at].decode("utf-8", "replace")) + 1


def plain(text):
    """A line as it may be shown on a terminal."""
    return "".join(it if it == "\t" or it.isprintable() else "\N{REPLACEMENT CHARACTER}" for it in text)


def marked(name, text, at, length, message, notes=()):
    """A message at a place of a text: name, line and column, and the line with a mark under so many bytes."""
    line, column = place_of(text, at)
    start = text.rfind(b"\n", 0, at) + 1
    end = text.find(b"\n", at)
    end = len(text) if end < 0 else end
    source = plain(text[start:end].decode("utf-8", "replace").rstrip("\r"))
    mark = max(len(text[at:min(at + length, end)].decode("utf-8", "replace")), 1)
    left = max(0, min(column - 1 - WIDEST // 2, len(source) - WIDEST))
    shown = ("…" if left else "") + source[left:left + WIDEST] + ("…" if left + WIDEST < len(source) else "")
    before = source[left:column - 1]
    gap = (" " if left else "") + "".join("\t" if it == "\t" else " " for it in before)
    mark = min(mark, max(1, len(shown) - len(gap)))
    number = str(line)
    edge = " " * len(number) + " |"
    lines = ["%s:%d:%d: %s" % (name, line, column, message), edge, "%s | %s" % (number, shown), "%s %s%s" % (edge, gap, "^" * mark)]
    lines += ["%s = %s" % (" " * len(number), it) for it in notes]
    return "\n".join(lines)


def any_of(wanted):
    """Words for what could stand at a place."""
    return wanted[0] if len(wanted) == 1 else "%s or %s" % (", ".join(wanted[:-1]), wanted[-1])


def of_syntax(name, text, at):
    """A script that goes wrong at a byte."""
    token = next((it for it in script_text.tokens_of(text) if it.at == at), script_text.Token("end", "", at))
    wanted, hints = [], []
    try:
        script_text.Reader(text).read()
    except script_text.Wrong as wrong:
        if wrong.token.at == at:
            wanted, hints = wrong.wanted, script_hints.hints(text, wrong)
    if token.kind == "end":
        shown = "the script ends here, though more must come"
        # (the mark stands behind the last line that has something)
        at = len(text[:at].rstrip())
    elif token.kind == "other":
        seen = text[at:at + 4].decode("utf-8", "replace")[:1]
        shown = "`%s` can't stand here" % seen if seen.isprintable() else "the byte %d can't stand here" % text[at]
    else:
        shown = "`%s` can't stand here" % (token.text if len(token.text) <= 40 else token.text[:40] + "..")
    notes = hints or [it for it in [script_text.fault_of(token)] if it]
    if token.text in script_text.KEYWORDS and wanted == ["a name"]:
        notes.append("`%s` is a word of the language, and no name" % token.text)
    message = "%s%s" % (shown, ": %s must come" % any_of(wanted) if wanted else "")
    return marked(name, text, at, max(len(token.text), 1), message, notes)


def of_rule(name, text, rule, node):
    """A script whose statement fails a rule."""
    reader = script_text.Reader(text)
    try:
        block = reader.read()
    except script_text.Wrong:
        return None
    if node >= len(reader.statements):
        return None
    if rule == 5:
        work, works = script_text.work_of(block)
        statement = script_text.greatest(block, works)
        notes = [RULES[5], "the work of a `repeat` is 1 + turns * (1 + the work of its block)"]
        told = "the work of the script is %s, and this statement has %s of it" % (format(work, ","), format(works[statement.at], ","))
        return marked(name, text, statement.at, len(statement.kind), told, notes)
    at, why = script_text.culprit(block, node, rule, reader.statements)
    length = len(script_text.TOKEN.match(text, at).group())
    # (place_of tells a statement by its line; its number is the program's)
    return marked(name, text, at, length, why or "this statement fails rule %d" % rule, [RULES.get(rule, "rule %d" % rule)])


PAIR = re.compile(rb"rx10 pair (0|[1-9][0-9]{0,18})\n")


def parts_of(text):
    """The script and the trace of a pair, or None where it is none."""
    head = PAIR.match(text)
    if not head or int(head[1]) > MOST_SCRIPT or head.end() + int(head[1]) > len(text):
        return None
    return text[head.end():head.end() + int(head[1])], text[head.end() + int(head[1]):]


def of_pair(name, text):
    """A text that is no pair."""
    head = PAIR.match(text)
    if head and int(head[1]) > MOST_SCRIPT:
        return "%s: a script has 65,536 bytes at most, and this one has %s" % (name, format(int(head[1]), ","))
    if head:
        return "%s: the first line tells of %d bytes of script, and %d follow" % (name, int(head[1]), len(text) - head.end())
    if text.startswith(b"rx10 trace"):
        return "%s is a trace, and the script is missing: `rx10 verify SCRIPT TRACE`" % name
    try:
        if script_text.Reader(text).read():
            return "%s is a script, and the trace is missing: `rx10 verify SCRIPT TRACE`" % name
    except script_text.Wrong:
        pass
    no_pair = "%s: the input is no pair: its first line must be `rx10 pair N`, then come N bytes of a script, and then a trace" % name
    return no_pair if text else no_pair + "; or name two files: `rx10 verify SCRIPT TRACE`"


def of_long(name, text, words):
    """An input that is too long. Of one that was read once so much is known as was kept: one byte more than it may have."""
    most = MOST_PAIR if words and words[0] in command_words.PAIRS else MOST_SCRIPT
    what = "a script with its trace" if most == MOST_PAIR else "a script"
    size = "more" if text is None or len(text) <= most + 1 else format(len(text), ",")
    return "%s has %s bytes, and %s may have %s" % (name, size, what, format(most, ",")) if size != "more" else \
        "%s has more than the %s bytes that %s may have" % (name, format(most, ","), what)


def of_line(name, text, number):
    """A trace that goes wrong at a line."""
    lines = text.split(b"\n")
    start = sum(len(it) + 1 for it in lines[:number - 1])
    line = lines[number - 1] if number <= len(lines) else b""
    notes = [trace_hints.notes(text, number)]
    return marked(name, text, min(start, len(text)), len(line), "line %d of the trace can't stand here" % number, notes)


def explained(status, said, name, text, words, parted=False):
    """What to add to the one line that the program said, or None. name and text are those of the input, or None where it is not known; of
    a pair that was made of two files, name is that of the one which is at fault."""
    numbers = [int(it) for it in re.findall("[0-9]+", said)]
    if status == 2 and len(numbers) == 1:
        return "rx10: %s\n  %s\n  `rx10 %s` tells the words" % (
            command_words.why(words, numbers[0]), command_words.shown(whole(words, numbers[0], name), numbers[0]).replace("\n", "\n  "),
            "%s --help" % words[0] if words and words[0] in command_words.OPTIONS else "--help")
    if status == 5:
        return of_long(name, text, words)
    if status == 9:
        return of_pair(name, text or b"")
    if text is None:
        return None
    if words and words[0] in ("verify", "span"):
        parts = parts_of(text)
        if not parts:
            return None
        text = parts[status == 10]
        name = name if parted else "%s (its %s)" % (name, "trace" if status == 10 else "script")
    if status == 3 and len(numbers) == 1 and numbers[0] <= len(text):
        return of_syntax(name, text, numbers[0])
    if status == 4 and len(numbers) == 2:
        return of_rule(name, text, *numbers)
    if status == 10 and len(numbers) == 1:
        return of_line(name, text, numbers[0])
    return None


def whole(words, k, name):
    """The words of a command with the file that stands for its standard input, where the bad word k is one of the words."""
    return [*words, name] if name and name != "standard input" and k < len(words) else words


def meaning(word):
    """What a status, an answer or a fault means, or None."""
    names = {it[0].lower(): key for key, it in STATUSES.items() if it[0]}
    answers = {"usage": "2", "syntax": "3", "bad": "4", "too": "5", "read": "6", "write": "7", "no": "8"}
    first = word.lower().split()[0].split(":")[0] if word.split() else ""
    key = first if first in STATUSES else names.get(first, answers.get(first))
    if key:
        return ("status %s, %s: %s" % (key, *STATUSES[key])).replace(", : ", ": ")
    if first in FAULTS:
        return "fault %s: %s" % (first, FAULTS[first])
    return None


def after(parted, status, said, kept, name, *words):
    """Adds to a refusal of which the launcher tells."""
    try:
        text = inputs.read(kept) if kept else None
    except OSError:
        text = None
    more = explained(int(status), said, name, text, list(words), parted)
    if more:
        print(more, file=sys.stderr)


def told(name, asked):
    """Has the program look at a script, and gives its exit status, what it wrote, and what is to be said."""
    text = inputs.read(name, "script", "explain")
    name = "standard input" if name == "-" else name
    done = subprocess.run([os.environ["RX10_PROGRAM"], *asked], input=text, stdout=subprocess.PIPE, stderr=subprocess.PIPE, check=False)
    said = done.stderr.decode("utf-8", "replace").strip()
    if done.returncode in (0, 1):
        return 0, "%s: nothing is wrong%s" % (name, "; " + done.stdout.decode().strip() if asked == ["check"] else ""), ""
    return done.returncode, "", "\n".join(it for it in [said, explained(done.returncode, said, name, text, asked)] if it)


def main(words):
    if words[:1] in (["--after"], ["--after-parts"]):
        after(words[0] == "--after-parts", *words[1:])
        return 0
    if not words or words[0] in ("-h", "--help"):
        print(__doc__.split("\n\n")[1], flush=True)
        return 0 if words else 2
    found = meaning(words[0])
    if found and not os.path.exists(words[0]):
        print(found, flush=True)
        return 0
    try:
        status, wrote, said = told(words[0], words[1:] or ["check"])
    except OSError as why:
        status = inputs.refused(words[0], why)
        if len(words) == 1 and "/" not in words[0] and "." not in words[0] and not os.path.exists(words[0]):
            print("  `%s` is no status, answer or fault either" % words[0], file=sys.stderr)
        return status
    if said:
        print(said, file=sys.stderr)
    if wrote:
        print(wrote, flush=True)
    return status


if __name__ == "__main__":
    sys.exit(ends.guarded(main, sys.argv[1:]))
