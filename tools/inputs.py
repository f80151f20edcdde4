"""What a tool reads: a file, or standard input where its name is `-`."""

import os
import sys

import command_words
import ends

MOST = 1 << 25      # more than any script or trace has that the program takes


def read(name, what="", command=""):
    """The bytes of a file, or of standard input; one who sits at a terminal is told what is waited for."""
    if name != "-":
        with open(name, "rb") as it:
            return it.read(MOST)
    if sys.stdin.isatty():
        print("rx10: the %s is read from the terminal; end it with Ctrl-D, or name a file: rx10 %s FILE" % (what, command), file=sys.stderr)
    return sys.stdin.buffer.read(MOST)


def refused(name, why):
    """Says why a file could not be read, and gives the exit status: that of a bad word where there is no such file."""
    if name != "-" and (not os.path.exists(name) or os.path.isdir(name)):
        print("rx10: %s" % command_words.why_no_file(name), file=sys.stderr)
        return ends.USAGE
    print("rx10: can't read %s: %s" % ("standard input" if name == "-" else name, why.strerror), file=sys.stderr)
    return ends.FAILED
