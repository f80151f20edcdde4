#!/usr/bin/env python3
"""Draws a trace: a lane for each place, a bar for each activity, a bracket for each scope, and a list of all entries.

usage: rx10 draw [TRACE] [-o FILE] [--script FILE] [--span FILE] [--columns N] [--width MM] [--title TEXT] [--svg | --perfetto]

TRACE is what `rx10 step` wrote, or the log of a session of `rx10-coordinator`; standard input where it is left out or `-`. The picture is one HTML file that needs nothing else:
NAME.html in this folder for NAME.trace, standard output where the trace came from standard input. The page names its keys.

  -o FILE         writes to FILE, by its ending: NAME.html the page, NAME.svg its picture alone, NAME.json what ui.perfetto.dev and
                  chrome://tracing open; `-` is standard output
  --script FILE   shows with each entry the line of the script that it comes from
  --span FILE     marks the chain of statements that `rx10 span` wrote to FILE
  --columns N     so many entries in a strip; 32 where it is left out
  --width MM      makes the SVG so many millimetres wide, with as many entries in a strip as leave the smallest letters 6 points: a
                  paper's column has about 85, a page 170
  --title TEXT    the heading of the page; NAME where it is left out
  --svg           the picture alone, as `-o NAME.svg` does
  --perfetto      the JSON, as `-o NAME.json` does

Exit status: 0; 1 where SCRIPT or SPAN is of another trace; 2 for bad words, or where there is no such file; 10 where TRACE is no trace;
125 where a file can't be read or written. This tool is not proved: it shows what a trace says, and checks nothing.
"""

import pathlib
import sys

import activities
import ends
import explain
import inputs
import log_text
import options
import page
import paper
import perfetto
import script_text
import trace_text

FORMATS = ("html", "svg", "json")
# A strip has at least so many entries.
LEAST = 4
# The first words of the statements that the entries of these kinds come from.
STATEMENTS = {"open": ["finish"], "at": ["at"], "spawn": ["async", "at"], "print": ["print"], "census": ["census"]}


class Wrong(Exception):
    """An input is not what it has to be."""


def source_lines(name, text, trace):
    """For each path, the number and the text of the line in the script on which the statement begins that it names."""
    reader = script_text.Reader(text)
    try:
        block = reader.read()
    except script_text.Wrong as wrong:
        raise Wrong("%s is no script, from byte %d on" % (name, wrong.token.at)) from None

    def named(path):
        return script_text.statement_at(block, map(int, path.split(".")))

    def found(path):
        statement = named(path)
        line, _ = explain.place_of(text, statement.at)
        shown = text[statement.at:].split(b"\n", 1)[0].decode("utf-8", "replace")
        return "%d: %s" % (line, shown.strip()[:60])

    for entry in trace.entries:
        if entry.path:
            statement, wanted = named(entry.path), STATEMENTS[entry.kind]
            if statement is None or statement.kind not in wanted:
                what = "entry %d tells the statement %s, and that is no `%s` there" % (entry.number, entry.path, wanted[0])
                raise Wrong("%s is the script of another trace: %s" % (name, what))
    return found


def chain_of(name, text, trace):
    """The numbers of the entries that tell the statements of a chain, as `rx10 span` wrote it."""
    lines = text.split("\n")
    if not lines[0].startswith("statements "):
        raise Wrong("%s has no chain of statements; `rx10 span SCRIPT TRACE` writes one" % name)
    told = {path: it.number for it in trace.entries for path in [*it.batch, it.path] if path}
    paths = [it for it in lines[2:] if it]
    missing = next((it for it in paths if it not in told), None)
    if missing:
        raise Wrong("%s is of another trace: none of its entries tells the statement %s" % (name, missing))
    return frozenset(told[it] for it in paths)


def arguments(words):
    parser = options.Parser("draw")
    parser.add_argument("trace", nargs="?", default="-")
    parser.add_argument("-o", dest="out")
    parser.add_argument("--script")
    parser.add_argument("--span")
    parser.add_argument("--title")
    parser.add_argument("--columns", type=int)
    parser.add_argument("--width", type=int)
    formats = parser.add_mutually_exclusive_group()
    formats.add_argument("--svg", action="store_const", const="svg", dest="format")
    formats.add_argument("--perfetto", action="store_const", const="json", dest="format")
    given = parser.taken(words)
    settle(given, parser.error)
    return given


def settle(given, refuse):
    """Gives what the words leave open its value, and refuses what does not go together."""
    if [given.trace, given.script, given.span].count("-") > 1:
        refuse("only one of TRACE, --script and --span can be standard input")
    settle_format(given, refuse)
    if not given.out:
        given.out = "-" if given.trace == "-" else "%s.%s" % (pathlib.Path(given.trace).stem, given.format)
    settle_columns(given, refuse)


def settle_format(given, refuse):
    ending = pathlib.Path(given.out).suffix[1:].lower() if given.out and given.out != "-" else None
    if ending == "pdf":
        refuse("-o writes .html, .svg and .json; `rsvg-convert -f pdf -o NAME.pdf NAME.svg` makes a PDF of an SVG")
    if ending in FORMATS:
        if given.format not in (None, ending):
            refuse("%s is no name for %s" % (given.out, "an SVG: it ends in .svg" if given.format == "svg" else "JSON: it ends in .json"))
        given.format = ending
    elif ending is not None and not given.format:
        refuse("-o takes a name that ends in .html, .svg or .json")
    given.format = given.format or "html"


def settle_columns(given, refuse):
    if given.width is not None:
        if given.format != "svg":
            refuse("--width is of an SVG: -o NAME.svg")
        if given.columns is not None:
            refuse("--width chooses the number of columns, so --columns can't stand beside it")
        given.columns = paper.columns_of(given.width)
        if given.columns < LEAST:
            refuse("--width takes at least %d millimetres" % paper.least_width(LEAST))
    given.columns = 32 if given.columns is None else given.columns
    if given.columns < LEAST:
        refuse("--columns takes a number from %d" % LEAST)


def read_history(text):
    """The trace that a text is, or that of a log."""
    if not log_text.is_log(text):
        return trace_text.read_trace(text)
    try:
        return trace_text.read_trace(log_text.trace_of(text))
    except trace_text.NoTrace as why:
        raise trace_text.NoTrace(why.number - log_text.HEAD, "this is no line of a log") from None


def made_of(given):
    """What is to be written."""
    trace = read_history(inputs.read(given.trace, "trace", "draw").decode("utf-8", "replace"))
    script = inputs.read(given.script, "script", "draw TRACE --script") if given.script else None
    span = inputs.read(given.span, "chain", "draw TRACE --span").decode("utf-8", "replace") if given.span else None
    chain = chain_of(given.span, span, trace) if given.span else frozenset()
    found = source_lines(given.script, script, trace) if given.script else None
    story = activities.Story(trace)
    if given.format == "json":
        return perfetto.document_of(story)
    if given.format == "svg":
        return paper.svg_file(story, given.columns, chain, given.width)
    title = given.title or ("trace" if given.trace == "-" else pathlib.Path(given.trace).stem)
    source = script.decode("utf-8", "replace") if script is not None else None
    return page.page(story, title, found, source, given.columns, chain)


def write(out, name, made):
    """Writes to a file, or to standard output where it is `-`."""
    if out == "-":
        sys.stdout.buffer.write(made.encode())
        sys.stdout.flush()
    else:
        pathlib.Path(out).write_bytes(made.encode())
        print("rx10: %s shows %s" % (out, name), file=sys.stderr)


def main(words):
    if "-h" in words or "--help" in words:
        print(__doc__.split("\n\n", 1)[1].rstrip())
        return 0
    given = arguments(words)
    name = "standard input" if given.trace == "-" else given.trace
    now = name
    try:
        made = made_of(given)
        now = "standard output" if given.out == "-" else given.out
        write(given.out, name, made)
    except trace_text.NoTrace as why:
        hint = "; a script is run by `rx10 step FILE`, which writes a trace" if why.number == 1 else ""
        print("rx10: %s is no trace, from line %d on: %s%s" % (name, why.number, str(why).split(": ", 1)[1], hint), file=sys.stderr)
        return ends.BAD_TRACE
    except Wrong as why:
        print("rx10: %s" % why, file=sys.stderr)
        return 1
    except OSError as why:
        if now == "standard output":
            raise
        if now == name:
            return inputs.refused(why.filename or given.trace, why)
        print("rx10: %s: %s" % (why.filename or now, why.strerror), file=sys.stderr)
        return ends.FAILED
    return 0


if __name__ == "__main__":
    sys.exit(ends.guarded(main, sys.argv[1:]))
