"""Messages between the processes of a job, as frames: eight bytes of length, then a pickled tuple.

What users send (calls, results, faults) stands in a message as bytes, which `pickles` makes. So the hub never unpickles it.
A line that runs over a network is sealed: its bytes travel in records with a keyed tag, and nothing is unpickled before its tag is checked.
"""

from __future__ import annotations

import hashlib
import hmac
import os
import pickle
import socket
import struct
import weakref
from typing import Any, List, Optional

HEAD = struct.Struct("!Q")
PROTOCOL = 4                    # of pickle: read by every Python from 3.4 on

RECORD = struct.Struct("!I16s")                                 # of a sealed line: the bytes of its content, and the tag
COUNTED = struct.Struct("!QI")                                  # what a tag covers before the content: the record's number, and its size
MOST = 1 << 18                  # bytes of a record's content

USER_TIMEOUT = 18               # TCP_USER_TIMEOUT of Linux

_lines: weakref.WeakSet[Any] = weakref.WeakSet()


def frame(message: tuple) -> bytes:
    """A message as bytes."""
    body = pickle.dumps(message, PROTOCOL)
    return HEAD.pack(len(body)) + body


class Frames:
    """Cuts a stream of bytes into messages."""

    def __init__(self) -> None:
        self._bytes = bytearray()

    def feed(self, data: bytes) -> List[tuple]:
        """Takes the next bytes, and returns the messages that are whole now."""
        self._bytes += data
        at, messages = 0, []
        while len(self._bytes) - at >= HEAD.size:
            (size,) = HEAD.unpack_from(self._bytes, at)
            end = at + HEAD.size + size
            if len(self._bytes) < end:
                break
            with memoryview(self._bytes) as view, view[at + HEAD.size:end] as body:
                messages.append(pickle.loads(body))
            at = end
        del self._bytes[:at]
        return messages


class Forged(ConnectionError):
    """Somebody has changed what travels over this line: put in, left out, repeated, swapped or cut."""


class Seal:
    """Both directions of a sealed line, as one of its ends has them.

    A tag is the keyed BLAKE2b (with 16 bytes) of the record's number in its direction, its size and its content. Each direction has its own
    key, made of the session's key. So a record is good at one position of one direction of one line. (Where the processor has no instructions
    for SHA-256, BLAKE2b takes half its time.)
    """

    def __init__(self, key: bytes, at_hub: bool) -> None:
        down, up = (hmac.digest(key, name, "sha256") for name in (b"rx10 to place", b"rx10 to hub"))
        self._mine, self._theirs = (down, up) if at_hub else (up, down)
        self._sent = self._taken = 0                            # records
        self._bytes = bytearray()

    @staticmethod
    def _tag(key: bytes, number: int, content: bytes) -> bytes:
        tag = hashlib.blake2b(COUNTED.pack(number, len(content)), key=key, digest_size=16)
        tag.update(content)
        return tag.digest()

    def close(self, data: bytes) -> bytes:
        """The next bytes to send, as records."""
        parts = []
        for at in range(0, len(data), MOST):
            content = data[at:at + MOST]
            parts += [RECORD.pack(len(content), self._tag(self._mine, self._sent, content)), content]
            self._sent += 1
        return b"".join(parts)

    def open(self, data: bytes) -> bytes:
        """Takes the next bytes that came, and returns the content of the records that are whole now. Raises Forged where a tag is wrong."""
        self._bytes += data
        at, contents = 0, []
        while len(self._bytes) - at >= RECORD.size:
            size, tag = RECORD.unpack_from(self._bytes, at)
            if not 0 < size <= MOST:
                raise Forged("a record has no size that a place or a hub gives it")
            end = at + RECORD.size + size
            if len(self._bytes) < end:
                break
            content = bytes(self._bytes[at + RECORD.size:end])
            if not hmac.compare_digest(tag, self._tag(self._theirs, self._taken, content)):
                raise Forged("a record has a wrong tag")
            self._taken += 1
            contents.append(content)
            at = end
        del self._bytes[:at]
        return b"".join(contents)


class SealedLine:
    """A sealed line at a place, used as a socket is. One thread sends at a time, and one receives."""

    def __init__(self, sock: socket.socket, key: bytes) -> None:
        self._sock, self._seal = sock, Seal(key, at_hub=False)
        self.forged = False                                     # whether a tag was wrong

    def recv(self, size: int) -> bytes:
        """The next bytes; none at the end of the line. Raises Forged, and hangs up, where a tag is wrong."""
        while True:
            data = self._sock.recv(size)
            try:
                content = self._seal.open(data)
            except Forged:
                self.forged = True
                self.hang_up()
                raise
            if content or not data:
                return content

    def sendall(self, data: bytes) -> None:
        """Sends bytes."""
        self._sock.sendall(self._seal.close(data))

    def hang_up(self) -> None:
        """Ends the line. Who waits for it learns that."""
        try:
            self._sock.shutdown(socket.SHUT_RDWR)
        except OSError:
            pass                                                # it has ended already

    def close(self) -> None:
        """Closes the line."""
        self._sock.close()

    def __enter__(self) -> SealedLine:
        return self

    def __exit__(self, *_: Any) -> None:
        self.close()


def is_silent(life: socket.socket) -> Optional[bool]:
    """Whether a life that can be read says that the other machine is silent; False where its end hung up, None where nothing is said."""
    try:
        return None if life.recv(1) else False
    except BlockingIOError:
        return None
    except ConnectionResetError:
        return False
    except OSError:
        return True


def give_up_soon(line: socket.socket) -> None:
    """The other end's process is gone. So what waits to be sent is not waited for: where the other machine is silent now, the line ends."""
    try:
        line.setsockopt(socket.IPPROTO_TCP, USER_TIMEOUT, 30_000)
    except OSError:
        pass                                                    # it has ended already, or is carried by another process


def close_in_children(line: Any) -> None:
    """A child that this process forks must not hold the line open, so it closes its copy."""
    _lines.add(line)


def _close_lines() -> None:
    for line in list(_lines):
        line.close()


os.register_at_fork(after_in_child=_close_lines)
