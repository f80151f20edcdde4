"""The pickles of calls, results and faults.

Plain pickle comes first. cloudpickle, where it is installed, takes what pickle refuses and what a main module without a file defines.
"""

from __future__ import annotations

import functools
import os
import pickle
import sys
import traceback
from typing import Any, Callable, Dict, Optional, Protocol, Tuple, cast

from .errors import RemoteError, RemoteTraceback, Unpicklable, without_ours
from .wire import PROTOCOL

TRACE = 20_000                  # characters of a traceback that travel


class Pickler(Protocol):
    """As much of cloudpickle as is used here."""

    def dumps(self, obj: Any, protocol: int) -> bytes:
        """The pickle of a thing."""


@functools.lru_cache(maxsize=None)
def cloudpickle() -> Optional[Pickler]:
    """The module, where it is installed. It is not imported before it is needed."""
    try:
        import cloudpickle as module
    except ImportError:
        return None
    return cast(Pickler, module)


def main_has_file() -> bool:
    """Whether a place can import what the main module defines. A notebook, or a program that was typed in, has no file."""
    return os.path.exists(getattr(sys.modules["__main__"], "__file__", None) or "")


def pack(thing: Any, by_value: bool = False) -> bytes:
    """The pickle of a thing. Raises what pickle raises where it cannot be pickled.

    `by_value`: what the main module defines goes along, since the other end has another main module.
    """
    if by_value or not main_has_file():
        module = cloudpickle()
        if module is not None:
            return module.dumps(thing, PROTOCOL)
    try:
        return pickle.dumps(thing, PROTOCOL)
    except Exception:
        module = cloudpickle()
        if module is None:
            raise
    return module.dumps(thing, PROTOCOL)


def pack_call(fn: Callable[..., Any], args: Tuple[Any, ...], kwargs: Dict[str, Any], by_value: bool) -> bytes:
    """The pickle of a call."""
    if getattr(fn, "__module__", None) == "__main__" and (by_value or not main_has_file()) and not cloudpickle():
        name = getattr(fn, "__qualname__", repr(fn))
        raise pickle.PicklingError(f"other places cannot import {name} from this main module: put it into a module of its own, "
                                   "or install cloudpickle")
    return pack((fn, args, kwargs), by_value)


def pack_value(value: Any, by_value: bool = False) -> bytes:
    """The pickle of a result. Where it cannot be pickled the task has ended well, and those who ask for the value learn that."""
    try:
        return pack((True, value), by_value)
    except Exception as fault:
        return pickle.dumps((False, f"a result of type {type(value).__name__} cannot be pickled: {fault!r}"), PROTOCOL)


def unpack_value(data: bytes) -> Any:
    """The result. Raises Unpicklable where it could not be sent."""
    try:
        good, value = pickle.loads(data)
    except Exception as fault:
        fault.__traceback__ = without_ours(fault.__traceback__)
        raise Unpicklable(f"the result cannot be unpickled here: {fault!r}") from fault
    if not good:
        raise Unpicklable(value)
    return value


def pack_fault(fault: BaseException, by_value: bool = False) -> bytes:
    """The pickle of what a task raised, with its name, text and traceback for a place where it cannot be unpickled."""
    trace = shortened(_trace(fault))
    try:
        text = str(fault)
    except Exception:
        text = "(its text cannot be had)"
    return pickle.dumps((_pack_exception(fault, by_value), type(fault).__name__, text, trace), PROTOCOL)


def _trace(fault: BaseException) -> str:
    """A traceback as text. Where the fault has come from another place that one's stands before it, or alone if it has none here."""
    trace = without_ours(fault.__traceback__)
    far = str(fault.__cause__.args[0]) if isinstance(fault.__cause__, RemoteTraceback) else ""
    if far and trace is None:
        return far
    here = "".join(traceback.format_exception(type(fault), fault, trace, chain=not far))
    return f"{far}\n{here}" if far else here


def shortened(text: str) -> str:
    """A text, or where it is very long its beginning and its end: a fault that passes thousands of calls is told at each."""
    if len(text) <= TRACE:
        return text
    left_out = len(text) - TRACE
    return f"{text[:TRACE // 2]}\n[{left_out} characters are left out here]\n{text[-(TRACE // 2):]}"


def _pack_exception(fault: BaseException, by_value: bool) -> Optional[bytes]:
    """None where it is no Exception, as SystemExit, or does not come back: many exceptions are pickled and then not unpickled."""
    if not isinstance(fault, Exception):
        return None
    try:
        data = pack(fault, by_value)
        pickle.loads(data)
    except Exception:
        return None
    return data


def unpack_fault(data: bytes) -> Exception:
    """The exception, or a RemoteError in its place."""
    inner, name, text, trace = pickle.loads(data)
    try:
        fault = pickle.loads(inner) if inner is not None else None
    except Exception:
        fault = None
    if not isinstance(fault, Exception):
        return RemoteError(name, text, trace)
    fault.__cause__ = RemoteTraceback(trace)
    return fault
