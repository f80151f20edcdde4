#!/usr/bin/env python3
"""Runs a script and shows the run: a page in this folder, opened where there is a screen.

usage: rx10 show [OPTION..] [FILE]

FILE is a script, which is run as `rx10 step` runs it, or the trace of a run, or the log of a session of `rx10-coordinator`; standard input where
it is left out or `-`. The page is NAME.html in this folder for NAME.rx. Its whole path goes to standard output. Where there is a screen and
xdg-open, the page is opened.

  --places N --heap W --kill P@M .. --join M .. --pick K,.. --seed S   as for step
  -o FILE            writes the page to FILE
  --no-open          opens nothing

Exit status: of a script as `rx10 step`, 0 or 1 where the page was made; of a trace 0, 10 where it is none; 2 for bad words, or where there
is no such file; 125 where a file can't be read or written. This tool is not proved: it shows what a trace says, and checks nothing.
"""

import os
import pathlib
import shutil
import subprocess
import sys
import tempfile

import draw
import ends
import explain
import inputs
import log_text
import options
import trace_text

WORDS = ("--places", "--heap", "--pick", "--seed")


def arguments(words):
    """The words of the command, and those for the program."""
    parser = options.Parser("show")
    parser.add_argument("file", metavar="FILE", nargs="?", default="-")
    for option in WORDS:
        parser.add_argument(option)
    for option in ("--kill", "--join"):
        parser.add_argument(option, action="append", default=[])
    parser.add_argument("-o", dest="out")
    parser.add_argument("--no-open", action="store_true")
    given = parser.taken(words)
    base = [it for option in WORDS if getattr(given, option[2:]) is not None for it in (option, getattr(given, option[2:]))]
    base += [it for option, values in (("--join", given.join), ("--kill", given.kill)) for value in values for it in (option, value)]
    return given, base


def page_of(name, trace, script):
    """The page of a trace, with the lines of its script where there is one."""
    with tempfile.TemporaryDirectory(prefix="rx10-show-") as folder:
        files = {"trace": pathlib.Path(folder, "trace"), "script": pathlib.Path(folder, name)}
        files["trace"].write_bytes(trace)
        words = [str(files["trace"]), "-o", "-", "--title", pathlib.Path(name).stem]
        if script is not None:
            files["script"].write_bytes(script)
            words += ["--script", str(files["script"])]
        return draw.made_of(draw.arguments(words))


def is_trace(text):
    """Whether a text begins as a trace or a log does, and not as a script."""
    return text.startswith(b"rx10 trace") or log_text.is_log(text.decode("latin-1"))


def ran(text, base, name):
    """Runs a script: the exit status, its trace, and what is to be said where it was refused."""
    done = subprocess.run([os.environ["RX10_PROGRAM"], "step", *base], input=text, capture_output=True, check=False)
    if done.returncode in (0, 1):
        return done.returncode, done.stdout, ""
    said = done.stderr.decode("utf-8", "replace").strip()
    more = explain.explained(done.returncode, said, name, text, ["step", *base])
    return done.returncode, b"", "\n".join(it for it in (said, more) if it)


def has_screen():
    return bool(os.environ.get("DISPLAY") or os.environ.get("WAYLAND_DISPLAY")) and shutil.which("xdg-open") is not None


def main(words):
    if "-h" in words or "--help" in words:
        print(__doc__.split("\n\n", 1)[1].rstrip())
        return 0
    given, base = arguments(words)
    try:
        text = inputs.read(given.file, "script", "show")
    except OSError as why:
        return inputs.refused(given.file, why)
    name = "standard input" if given.file == "-" else pathlib.Path(given.file).name
    status, trace, script = 0, text, None
    if not is_trace(text):
        status, trace, said = ran(text, base, "standard input" if given.file == "-" else given.file)
        script = text
        if said:
            print(said, file=sys.stderr)
            return status
    out = pathlib.Path(given.out or pathlib.Path(name).stem.replace(" ", "-") + ".html")
    try:
        out.write_bytes(page_of(name, trace, script).encode())
    except trace_text.NoTrace as why:
        print("rx10: %s is no trace, from line %d on: %s" % (name, why.number, str(why).split(": ", 1)[1]), file=sys.stderr)
        return ends.BAD_TRACE
    except OSError as why:
        print("rx10: %s: %s" % (out, why.strerror), file=sys.stderr)
        return ends.FAILED
    print(out.resolve(), flush=True)
    if has_screen() and not given.no_open:
        subprocess.Popen(["xdg-open", out.resolve()], stdin=subprocess.DEVNULL, stdout=subprocess.DEVNULL, stderr=subprocess.DEVNULL,
                         start_new_session=True)
    return status


if __name__ == "__main__":
    sys.exit(ends.guarded(main, sys.argv[1:]))
