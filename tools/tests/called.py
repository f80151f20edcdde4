"""A tool in this process, with words, an input and ends as the launcher gives them: a process for each of some hundred calls takes minutes."""

import contextlib
import importlib
import io
import os
import signal
import unittest.mock
from types import SimpleNamespace


def call(tool, *words, input=b"", cwd=None):
    """What came of a tool's main function: its status, and what it wrote to both ends as text."""
    out, err = (io.TextIOWrapper(io.BytesIO(), "utf-8", write_through=True) for _ in range(2))
    given = io.TextIOWrapper(io.BytesIO(input), "utf-8")
    before = os.getcwd()
    handlers = {it: signal.getsignal(it) for it in (signal.SIGINT, signal.SIGTERM, signal.SIGHUP)}
    try:
        os.chdir(cwd or before)
        with contextlib.redirect_stdout(out), contextlib.redirect_stderr(err), unittest.mock.patch("sys.stdin", given):
            status = importlib.import_module(tool).main([str(it) for it in words])
    except SystemExit as it:
        status = it.code
    finally:
        os.chdir(before)
        for it, handler in handlers.items():
            signal.signal(it, handler)
    return SimpleNamespace(returncode=status, stdout=out.buffer.getvalue().decode(), stderr=err.buffer.getvalue().decode())
