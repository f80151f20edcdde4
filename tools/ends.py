"""How the tools end where standard output can't be written, or Ctrl-C comes: with a line or without one, and with no traceback."""

import os
import sys

USAGE, BAD_TRACE, FAILED, STOPPED, CLOSED = 2, 10, 125, 130, 141


def guarded(main, words):
    """The exit status of a tool: that of main, or what came instead."""
    try:
        status = main(words)
        sys.stdout.flush()
        return status
    except KeyboardInterrupt:
        return STOPPED
    except BrokenPipeError:
        # (whoever reads has enough)
        status = CLOSED
    except OSError as why:
        print("rx10: standard output can't be written: %s" % why.strerror, file=sys.stderr)
        status = FAILED
    # (what could not be written is not tried once more at the end)
    os.dup2(os.open(os.devnull, os.O_WRONLY), 1)
    return status
